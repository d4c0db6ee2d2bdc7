//! The recorded sample shows what it is for: every refusal number that a call can get, every
//! kind of answer, counts that fell to zero, and windows that were passed.

use cases::calls::CallList;
use cases::play::{Answer, History, Player, Side};
use cases::sample;
use recount::{check_priors, check_tables, memory, Priors, Refusal, Tracker};
use std::collections::BTreeMap;

#[derive(Default)]
struct Seen {
    numbers: BTreeMap<u32, u32>,
    zero_counts: u32,
    window_passed: u32,
    skipped: u32,
    none: u32,
    divergences: u32,
    lists: u32,
    stats: u32,
    by_point: u32,
}

impl Seen {
    fn result<T>(&mut self, result: &Result<T, Refusal>) {
        let number = result.as_ref().err().map_or(0, |refusal| refusal.number);
        *self.numbers.entry(number).or_default() += 1;
    }

    fn list(&mut self, list: &CallList) {
        let mut player = Player::new(History::default());
        for call in &list.calls {
            let answer = player.play(call);
            if answer.refusal().is_none() {
                let nodes = call.looked_up(&player.side);
                let found = |priors: Priors| nodes.iter().any(|node| priors.found_by_point(*node));
                self.by_point += u32::from(check_priors(player.priors.lent()).is_ok_and(found));
            }
            match answer {
                Answer::Lent => {}
                Answer::Changed(answer) => {
                    self.result(&answer);
                    self.tracker(&player.side);
                }
                Answer::Batch(batch) => {
                    self.result(&batch.refusal.map_or(Ok(()), Err));
                    self.tracker(&player.side);
                }
                Answer::Vector(answer, _) => {
                    self.none += u32::from(matches!(answer, Ok(None)));
                    self.result(&answer);
                }
                Answer::Divergence(answer) => {
                    self.divergences += u32::from(matches!(answer, Ok(Some(figure)) if figure > 0.0));
                    self.result(&answer);
                }
                Answer::List(answer, _) => {
                    self.lists += u32::from(matches!(answer, Ok(list) if list.places > 1));
                    self.skipped += answer.as_ref().map_or(0, |list| list.skipped);
                    self.result(&answer);
                }
                Answer::Stats(answer) => {
                    self.stats += u32::from(matches!(answer, Ok(stats) if stats.nz_count > 1));
                    self.result(&answer);
                }
            }
        }
    }

    fn tracker(&mut self, side: &History) {
        let state = side.state();
        if state.accepted > 0 {
            let evidence = side.evidence().expect("the recount's tracker is in form");
            self.zero_counts += u32::from(evidence.nodes.values().any(|node| node.total() == 0));
            self.window_passed += u32::from(state.window != 0 && state.accepted > state.window);
        }
    }
}

fn seen() -> Seen {
    let mut seen = Seen::default();
    sample::table_cases().iter().for_each(|tables| seen.result(&check_tables(tables.lent())));
    sample::priors_cases().iter().for_each(|case| seen.result(&check_priors(case.priors.lent())));
    sample::all_lists().iter().for_each(|list| seen.list(list));
    for mut add in sample::altered_adds() {
        seen.result(&memory::add_path(add.state, &mut add.book, &mut add.queue, &add.path));
    }
    for mut training in sample::trainings() {
        seen.result(&training.run());
    }
    for asked in sample::stats_asked() {
        for length in &asked.lengths {
            seen.result(&recount::stats(asked.sequences, &asked.knots, &asked.values, *length));
        }
    }
    seen
}

#[test]
fn every_number_comes_up() {
    let seen = seen();
    println!("{:?}", seen.numbers);
    for number in (0..=18).chain([22]) {
        assert!(seen.numbers.contains_key(&number), "{} does not come up: {:?}", number, seen.numbers);
    }
}

#[test]
fn every_kind_of_answer_comes_up() {
    let seen = seen();
    for (what, count) in [
        ("a node whose counts are all zero", seen.zero_counts),
        ("a window that is passed", seen.window_passed),
        ("a skipped node", seen.skipped),
        ("no vector", seen.none),
        ("a divergence above zero", seen.divergences),
        ("a list of more than one node", seen.lists),
        ("statistics over more than one node", seen.stats),
        ("a prior found by point alone", seen.by_point),
    ] {
        println!("{}: {}", what, count);
        assert!(count >= 10, "{} comes up {} times", what, count);
    }
}

#[test]
fn trainings_end_in_every_way() {
    let mut seen = Seen::default();
    for mut training in sample::trainings() {
        seen.result(&training.run());
    }
    println!("trainings {:?}", seen.numbers);
    for number in [0, 9, 10, 12, 13, 14, 15, 16, 22] {
        assert!(seen.numbers.contains_key(&number), "{}: {:?}", number, seen.numbers);
    }
}

#[test]
fn priors_and_tables_are_refused_in_every_way() {
    let mut seen = Seen::default();
    sample::table_cases().iter().for_each(|tables| seen.result(&check_tables(tables.lent())));
    sample::priors_cases().iter().for_each(|case| seen.result(&check_priors(case.priors.lent())));
    println!("priors {:?}", seen.numbers);
    for number in (0..=7).chain([22]) {
        assert!(seen.numbers.get(&number) >= Some(&3), "{}: {:?}", number, seen.numbers);
    }
}
