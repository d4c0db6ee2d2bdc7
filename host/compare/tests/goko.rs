//! goko is left out from a tidy that is carried out to the next accepted opening, and compared again from
//! there on. It is given the paths that a batch took, and no others.

use cases::calls::{Call, Places};
use cases::paths::place;
use cases::play::{Answer, History, Player};
use compare::goko::Beside;
use compare::{Laws, Tally};
use recount::limits::{ENTRY_BYTES, MAX_WINDOW, PLACE_BYTES};
use recount::{path_bytes, Address, Batch, ProbVector};

const NODE: Address = Address::new(-1, 7);

const OPEN: Call = Call::Open { window: 1, book_len: 6 * ENTRY_BYTES, queue_len: PLACE_BYTES };
const REFUSED: Call = Call::Open { window: MAX_WINDOW + 1, book_len: ENTRY_BYTES, queue_len: 0 };

/// Whether a wrong answer to a reading is told after these calls, to whose own answers goko agrees.
fn is_told(calls: &[Call]) -> bool {
    let mut player = Player::new(History::default());
    let (mut beside, mut laws, mut tally) = (Beside::default(), Laws::default(), Tally::default());
    for call in calls {
        let answer = player.play(call);
        laws.hear(call, &answer);
        beside.hold(call, &answer, &player, &laws, &mut tally).expect("goko has the same");
    }
    let reading = Call::EvidenceProbVector { node: NODE, output: Places::default() };
    let wrong = Answer::Vector(Ok(Some(ProbVector { places: 0, ending: 0.5 })), Places::default());
    beside.hold(&reading, &wrong, &player, &laws, &mut tally).is_err()
}

#[test]
fn from_a_tidy_to_the_next_accepted_opening() {
    let add = || Call::Add { path: path_bytes(&[NODE]) };
    assert_eq!(is_told(&[OPEN, add()]), oracle::PRESENT);
    assert_eq!(is_told(&[OPEN, add(), REFUSED]), oracle::PRESENT);
    assert!(!is_told(&[OPEN, add(), Call::Tidy]));
    assert!(!is_told(&[OPEN, add(), Call::Tidy, add(), REFUSED]), "a refused opening changes nothing");
    assert_eq!(is_told(&[OPEN, add(), Call::Tidy, OPEN, add()]), oracle::PRESENT);
    assert!(!is_told(&[OPEN, Call::Tidy, OPEN, add(), Call::Tidy]));
}

#[test]
fn the_paths_that_a_batch_took() {
    let batch = Call::AddPaths { places: place(1, &NODE.bytes(), 0x3c).repeat(3) };
    for taken in 0..=3 {
        let mut player = Player::new(History::default());
        let (mut beside, mut laws, mut tally) = (Beside::default(), Laws::default(), Tally::default());
        let mut hold = |player: &mut Player<History>, call: &Call, told: Option<Answer>| {
            let answer = player.play(call);
            laws.hear(call, &answer);
            beside.hold(call, &told.unwrap_or(answer), player, &laws, &mut tally)
        };
        let unlimited = Call::Open { window: 0, book_len: ENTRY_BYTES, queue_len: 0 };
        hold(&mut player, &unlimited, None).expect("goko has the same");
        let told = Answer::Batch(Batch { taken, refusal: None });
        let held = hold(&mut player, &batch, Some(told));
        assert_eq!(held.is_err(), oracle::PRESENT && taken != 3, "{} of 3", taken);
    }
}
