//! The lists for long windows go past them, so that paths leave the window.

use cases::lists::{call_list, Shape};
use cases::play::{History, Player, Side};
use cases::rng::Rng;

#[test]
fn long_windows_are_passed() {
    for window in [1_023, 1_024] {
        let mut player = Player::new(History::default());
        for call in &call_list(&mut Rng::new(1), &Shape::long(window)).calls {
            player.play(call);
        }
        assert!(player.side.state().accepted > window, "{:?}", player.side.state());
    }
}
