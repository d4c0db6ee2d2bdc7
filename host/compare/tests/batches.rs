//! What holds an add of several paths to its places and the least capacity, on answers that are wrong: each must
//! be told. And the recorded lists with such adds show everything that such a list can show.

use cases::calls::Call;
use cases::paths::{place, BAD_LENGTHS, CUTS};
use cases::play::{Answer, Bytes, Player, Side};
use cases::sample;
use compare::{in_batched_lists, own, Laws, Met, Tally};
use recount::limits::{ENTRY_BYTES, PLACE_BYTES};
use recount::{path_bytes, Address, Batch, Refusal};

const ONE: Address = Address::new(-1, 7);
const TWO: Address = Address::new(0, 3);

const OPEN: Call = Call::Open { window: 1, book_len: 2 * ENTRY_BYTES, queue_len: PLACE_BYTES };

fn of(path: &[Address]) -> Vec<u8> {
    place(path.len() as u32, &path_bytes(path), 0x3c)
}

/// The answers, how many were taken and the number, that pass for a batch of these places after an opening with
/// two entries and an add of ONE. The entries used are those that the answer speaks of, where it can be.
fn passing(places: &[Vec<u8>]) -> Vec<(u32, u32)> {
    let calls = [OPEN, Call::Add { path: path_bytes(&[ONE]) }];
    let batch = Call::AddPaths { places: places.concat() };
    let passes = |(taken, number): &(u32, u32)| {
        let (mut player, mut laws, mut met) =
            (Player::new(Bytes::filled(0)), Laws::default(), Met::default());
        let mut hold = |player: &Player<Bytes>, call: &Call, answer: &Answer| {
            laws.hold(call, answer, (player.side.state().used, &player.side.book()), &mut met)
        };
        for call in &calls {
            let answer = player.play(call);
            hold(&player, call, &answer).expect("the bytes are right");
        }
        for path in places.concat().chunks(PLACE_BYTES).take(*taken as usize) {
            player.play(&Call::AddPaths { places: path.to_vec() });
        }
        let refusal = (*number != 0).then(|| Refusal::plain(*number));
        hold(&player, &batch, &Answer::Batch(Batch { taken: *taken, refusal })).is_ok()
    };
    let answers = (0..5).flat_map(|taken| [0, 9, 10, 11, 12].map(|number| (taken, number)));
    answers.filter(passes).collect()
}

/// Shuts out one that goes on after a refusal, one that stops too early, one that counts the refused path, and
/// other numbers.
#[test]
fn one_answer_passes() {
    let new = of(&[Address::new(0, 9)]);
    assert_eq!(passing(&[]), [(0, 0)]);
    assert_eq!(passing(&[of(&[ONE])]), [(1, 0)]);
    assert_eq!(passing(&[of(&[ONE]), of(&[TWO]), of(&[ONE])]), [(3, 0)]);
    assert_eq!(passing(&[of(&[TWO]), new.clone(), of(&[ONE])]), [(1, 12)], "by the one before it");
    assert_eq!(passing(&[of(&[ONE, TWO]), of(&[ONE])]), [(0, 12)]);
    for length in BAD_LENGTHS {
        let bad = place(length, &ONE.bytes(), 0);
        assert_eq!(passing(&[of(&[ONE]), bad.clone(), of(&[ONE])]), [(1, 10)], "{} steps", length);
        assert_eq!(passing(&[bad, new.clone(), new.clone()]), [(0, 10)]);
    }
    for left in CUTS {
        let cut = || of(&[ONE])[..left].to_vec();
        assert_eq!(passing(&[of(&[ONE]), cut()]), [(1, 10)], "{} bytes", left);
        assert_eq!(passing(&[of(&[TWO]), new.clone(), cut()]), [(1, 12)]);
        assert_eq!(passing(&[cut()]), [(0, 10)]);
    }
}

#[test]
fn the_recorded_lists_show_everything() {
    let mut tally = Tally::default();
    for list in sample::batch_lists() {
        own::check_list(&list, &mut tally).expect("the recount's two parts agree");
    }
    let missing = tally.met.missing();
    for what in in_batched_lists() {
        assert!(!missing.contains(&what), "no recorded list has {}", what);
    }
}
