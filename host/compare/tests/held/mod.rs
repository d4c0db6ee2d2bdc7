//! Lent bytes that one law holds, and other entries in their place.

use cases::calls::Call;
use cases::play::{Answer, Bytes, Player, Side};
use compare::{Compared, Kept, Met};

/// How a law holds a call, its answer, and the used entries after it.
type Hold<L> = fn(&mut L, &Kept, &Call, &Answer, (u32, &[u8]), &mut Met) -> Compared;

/// Bytes that calls were played on, and the law that held them.
pub struct Held<L> {
    player: Player<Bytes>,
    kept: Kept,
    law: L,
    hold: Hold<L>,
}

impl<L: Default> Held<L> {
    /// After these calls, each of which passes.
    pub fn after(hold: Hold<L>, calls: &[Call]) -> Held<L> {
        let player = Player::new(Bytes::filled(0xa5));
        let mut held = Held { player, kept: Kept::default(), law: L::default(), hold };
        for call in calls {
            let answer = held.play(call);
            let (used, book) = held.used_and_book();
            held.holds(call, &answer, (used, &book)).expect("the bytes are right");
        }
        held
    }

    /// The entries used and the book.
    pub fn used_and_book(&self) -> (u32, Vec<u8>) {
        (self.player.side.state().used, self.player.side.book())
    }

    /// Whether entries in place of those that the bytes have after one more call pass.
    pub fn passes(mut self, call: &Call, used: u32, book: &[u8]) -> bool {
        let answer = self.play(call);
        self.holds(call, &answer, (used, book)).is_ok()
    }

    fn play(&mut self, call: &Call) -> Answer {
        let answer = self.player.play(call);
        self.kept.hear(call, &answer);
        answer
    }

    fn holds(&mut self, call: &Call, answer: &Answer, left: (u32, &[u8])) -> Compared {
        (self.hold)(&mut self.law, &self.kept, call, answer, left, &mut Met::default())
    }
}
