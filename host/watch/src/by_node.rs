//! What is usual for each node: mean and variance of its divergence over the training sequences,
//! at some of the knots. A node whose divergence is always great has not moved; the node to look at
//! is, of those that have risen well above their mean, the one that has by most times its usual size.

use crate::day::Day;
use crate::lent::Lent;
use crate::moved::divergences;
use crate::training::{at_knots, Trained};
use crate::usual::carried_figure;
use std::collections::HashMap;
use teakpool::{Address, MeanVariance, Refusal};

/// Knots that are looked at, at most.
const PLACES: usize = 32;
/// A node is looked at where it has risen by at least this share of what any node has.
const CONSIDERABLE: f64 = 0.2;

/// The figures of the nodes.
pub struct ByNode {
    lengths: Vec<u32>,
    sequences: f64,
    /// For each node at each length the sum of the sequences' divergences, and of their squares.
    nodes: HashMap<Address, Vec<[f64; 2]>>,
    ways: Ways,
}

/// How often training paths left each node, and where to; none for an ending.
#[derive(Default)]
struct Ways {
    visits: HashMap<Address, u32>,
    taken: HashMap<(Address, Option<Address>), u32>,
}

impl Ways {
    fn of(day: &Day) -> Ways {
        let mut ways = Ways::default();
        for steps in day.sequences.iter().flat_map(|sequence| sequence.iter()) {
            for (step, node) in steps.iter().enumerate().filter(|(_, node)| day.priors.of(**node).is_some()) {
                *ways.visits.entry(*node).or_default() += 1;
                *ways.taken.entry((*node, steps.get(step + 1).copied())).or_default() += 1;
            }
        }
        ways
    }
}

/// Numbers of the knots that are looked at: all of them, or some with the first and the last.
fn places(knots: usize) -> Vec<usize> {
    let count = knots.min(PLACES);
    (0..count).map(|place| place * (knots - 1) / (count - 1).max(1)).collect()
}

impl ByNode {
    /// Runs the training sequences once more.
    pub fn of(day: &Day, lent: &Lent, book: &mut [u8], trained: &Trained) -> Result<ByNode, Refusal> {
        let places = places(trained.knots.len());
        let lengths = places.iter().map(|knot| trained.knots[*knot]).collect();
        let mut nodes: HashMap<Address, Vec<[f64; 2]>> = HashMap::new();
        for sequence in &day.sequences {
            at_knots(sequence, book, trained.rate, |knot, tracker| {
                let Ok(place) = places.binary_search(&knot) else {
                    return Ok(());
                };
                for (node, divergence) in divergences(tracker, lent, trained.greatest_index)? {
                    let sums = nodes.entry(node).or_insert_with(|| vec![[0.0; 2]; places.len()]);
                    sums[place][0] += divergence;
                    sums[place][1] += divergence * divergence;
                }
                Ok(())
            })
            .map_err(|(_, refusal)| refusal)?;
        }
        Ok(ByNode { lengths, sequences: f64::from(trained.sequences), nodes, ways: Ways::of(day) })
    }

    /// The share of the training's visits that left a node so; none where there are no visits.
    pub fn share(&self, node: Address, child: Option<Address>) -> Option<f64> {
        let taken = self.ways.taken.get(&(node, child)).copied().unwrap_or(0);
        self.ways.visits.get(&node).map(|visits| f64::from(taken) / f64::from(*visits))
    }

    /// The node that has moved most: of those that have risen considerably above their mean the one
    /// that has done so by most times its usual size. By deviations of its own a node of little
    /// spread would often be named instead, and a few sequences tell a spread badly.
    pub fn most_moved(&self, nodes: &[(Address, f64)], length: u64) -> Option<(Address, f64)> {
        let risen = |(node, divergence): &(Address, f64)| {
            let MeanVariance { mean, variance } = self.usual(*node, length);
            let above = divergence - mean;
            (above, above / (variance + mean * mean).sqrt())
        };
        let most = nodes.iter().map(|node| risen(node).0).fold(0.0, f64::max);
        let considerable =
            |node: &&(Address, f64)| risen(node).0 > 0.0 && risen(node).0 >= CONSIDERABLE * most;
        let further = |one, other| if risen(other).1 > risen(one).1 { other } else { one };
        nodes.iter().filter(considerable).reduce(further).copied()
    }

    /// What is usual for a node at a length; nothing where the training does not meet it.
    pub fn usual(&self, node: Address, length: u64) -> MeanVariance {
        let Some(sums) = self.nodes.get(&node) else {
            return MeanVariance { mean: 0.0, variance: 0.0 };
        };
        let at = |place: usize| {
            let [sum, squares] = sums[place];
            let mean = sum / self.sequences;
            MeanVariance { mean, variance: (squares / self.sequences - mean * mean).max(0.0) }
        };
        let length_at = |place: usize| f64::from(self.lengths[place]);
        let (last, length) = (self.lengths.len() - 1, length as f64);
        let next = self.lengths.partition_point(|known| f64::from(*known) < length);
        if next > last && last > 0 {
            let middle = last / 2;
            let lengths = [length_at(middle), length_at(last)];
            return carried_figure(lengths, [at(middle), at(last)], length, 0.0);
        }
        let (one, other) = (at(next.saturating_sub(1)), at(next.min(last)));
        let (from, to) = (length_at(next.saturating_sub(1)), length_at(next.min(last)));
        let share = if to > from { (length - from) / (to - from) } else { 1.0 };
        let between = |one: f64, other: f64| one + share * (other - one);
        MeanVariance { mean: between(one.mean, other.mean), variance: between(one.variance, other.variance) }
    }
}

#[cfg(test)]
mod tests {
    use super::{places, ByNode, Ways};
    use crate::reader::read;
    use crate::work::watch;
    use std::collections::HashMap;
    use teakpool::{Address, MeanVariance};

    const USUALLY_GREAT: Address = Address { scale: 1, point: 0 };
    const SMALL: Address = Address { scale: 1, point: 1 };
    const TINY: Address = Address { scale: 1, point: 2 };

    /// Two sequences and the lengths 1 and 11.
    fn by_node() -> ByNode {
        let of = |one: f64, other: f64| [one + other, one * one + other * other];
        let nodes = HashMap::from([
            (USUALLY_GREAT, vec![of(4.0, 6.0), of(9.0, 11.0)]),
            (SMALL, vec![of(0.1, 0.3), of(0.5, 0.7)]),
            (TINY, vec![of(0.001, 0.001), of(0.001, 0.001)]),
        ]);
        ByNode { lengths: vec![1, 11], sequences: 2.0, nodes, ways: Ways::default() }
    }

    #[test]
    fn the_node_that_has_risen_is_named_and_not_the_one_that_is_always_great() {
        let most = |great: f64, small: f64, tiny: f64| {
            let nodes = [(USUALLY_GREAT, great), (SMALL, small), (TINY, tiny)];
            by_node().most_moved(&nodes, 11).map(|(node, _)| node)
        };
        assert_eq!(most(10.0, 3.0, 0.001), Some(SMALL));
        assert_eq!(most(12.0, 3.0, 0.001), Some(SMALL));
        assert_eq!(most(40.0, 3.0, 0.001), Some(USUALLY_GREAT));
        // Fifty times as much as is usual, and yet next to nothing.
        assert_eq!(most(10.0, 3.0, 0.05), Some(SMALL));
        assert_eq!(most(9.0, 0.5, 0.0), None);
        // One that no training sequence meets.
        let new = (Address::new(0, 9), 1.0);
        assert_eq!(by_node().most_moved(&[(USUALLY_GREAT, 12.0), new], 11), Some(new));
    }

    #[test]
    fn what_is_usual_lies_between_the_knots_and_goes_on_past_them() {
        let usual = |length: u64| by_node().usual(USUALLY_GREAT, length);
        assert_eq!(usual(1), MeanVariance { mean: 5.0, variance: 1.0 });
        assert_eq!(usual(6), MeanVariance { mean: 7.5, variance: 1.0 });
        assert_eq!(usual(11), MeanVariance { mean: 10.0, variance: 1.0 });
        assert_eq!(usual(22), MeanVariance { mean: 15.5, variance: 2.0 });
        assert_eq!(places(1), [0]);
        assert_eq!(places(3), [0, 1, 2]);
        let many = places(1_024);
        assert_eq!((many.len(), many[0], many[31]), (32, 0, 1_023));
    }

    #[test]
    fn the_way_that_has_moved_is_held_against_the_training() {
        // Good days never go to 0/9, which is common by the prior; the day ends at 1/7 more often.
        let head = "drift 0\nprior 1/7 10 0/7 45 0/9 45\n";
        let training = "sequence\npath 1/7 0/7\npath 1/7\nsequence\npath 1/7 0/7\npath 1/7 0/7\n";
        let text = format!("{}{}day\npath 1/7\npath 1/7 0/7\n", head, training);
        let day = read(text.as_bytes()).expect("the day can be read");
        let watched = watch(&day).expect("the day can be run");
        let moved = watched.stretches.last().and_then(|stretch| stretch.moved.as_ref()).expect("a node");
        let most = moved.most().expect("a way");
        let seven = Some(Address::new(0, 7));
        assert_eq!((most.child, most.now, most.training), (seven, 0.5, Some(0.75)));
        assert_eq!((moved.shares[1].change(), moved.shares[2].change()), (0.0, 0.25));
    }
}
