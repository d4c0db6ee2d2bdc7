//! The least capacity that takes paths, told by the paths alone: a book has an entry for each different
//! node and each different transition that is listed.

use std::collections::{HashMap, VecDeque};
use teakpool::Address;

/// A node, or a transition of it.
type Entry = (Address, Option<Address>);

fn entries(steps: &[Address]) -> impl Iterator<Item = Entry> + '_ {
    let transitions = steps.windows(2).map(|pair| (pair[0], Some(pair[1])));
    steps.iter().map(|step| (*step, None)).chain(transitions)
}

/// The least capacity that takes these paths in their order, where a full book is tidied and the path
/// added then. Right after a tidy the paths of the window are listed and no others, so it is what one
/// path and the window before it have, wherever that is most. With a window of 0 no path leaves, and
/// it is what all of them have.
pub fn least<'a>(paths: impl Iterator<Item = &'a [Address]>, window: u32) -> usize {
    let (mut held, mut times, mut most) = (VecDeque::new(), HashMap::<Entry, usize>::new(), 0);
    for steps in paths {
        entries(steps).for_each(|entry| *times.entry(entry).or_default() += 1);
        most = most.max(times.len());
        if window == 0 {
            continue;
        }
        held.push_back(steps);
        let leaving = if held.len() > window as usize { held.pop_front() } else { None };
        for entry in leaving.into_iter().flat_map(entries) {
            match times.get_mut(&entry) {
                Some(more) if *more > 1 => *more -= 1,
                _ => drop(times.remove(&entry)),
            }
        }
    }
    most
}

#[cfg(test)]
mod tests {
    use super::least;
    use cases::rng::Rng;
    use teakpool::{Address, Refusal, Tracker, ENTRY_BYTES, PLACE_BYTES};

    /// The greatest number of entries used after an add, with a tidy before each, in a large book.
    fn most_used(paths: &[Vec<Address>], window: u32) -> usize {
        let (mut book, mut queue) = ([0; 64 * ENTRY_BYTES], [0; 5 * PLACE_BYTES]);
        let mut tracker = Tracker::open(window, &mut book, &mut queue).expect("the memory is enough");
        let mut used = |path: &Vec<Address>| {
            tracker.tidy().expect("a tracker can be tidied");
            tracker.add_path(path).expect("the path fits");
            tracker.state().used as usize
        };
        paths.iter().map(&mut used).max().unwrap_or(0)
    }

    /// Whether a book of so many entries takes all paths, tidied where it is full.
    fn takes_all(paths: &[Vec<Address>], window: u32, capacity: usize) -> bool {
        let (mut book, mut queue) = (vec![0; capacity * ENTRY_BYTES], [0; 5 * PLACE_BYTES]);
        let mut tracker = Tracker::open(window, &mut book, &mut queue).expect("the memory is enough");
        let mut takes = |path: &Vec<Address>| match tracker.add_path(path) {
            Err(Refusal::BookFull) => tracker.tidy().and_then(|()| tracker.add_path(path)),
            answer => answer,
        };
        paths.iter().all(|path| takes(path).is_ok())
    }

    #[test]
    fn it_takes_the_paths_and_one_less_does_not() {
        let mut with_tidies = 0;
        for seed in 0..2_000 {
            let mut random = Rng::new(seed);
            let window = random.below(6) as u32;
            let mut path = |_| -> Vec<Address> {
                let steps = random.between(1, 5);
                (0..steps).map(|_| Address::new(0, random.below(5) as u32)).collect()
            };
            let paths: Vec<Vec<Address>> = (0..12).map(&mut path).collect();
            let slices = || paths.iter().map(Vec::as_slice);
            let capacity = least(slices(), window);
            assert_eq!(capacity, most_used(&paths, window), "seed {}", seed);
            assert!(takes_all(&paths, window, capacity), "seed {}", seed);
            assert!(capacity == 1 || !takes_all(&paths, window, capacity - 1), "seed {}", seed);
            with_tidies += usize::from(capacity < least(slices(), 0));
        }
        assert!(with_tidies > 1_000, "{} lists need less with tidies", with_tidies);
    }
}
