//! A day's priors, and which of them a node has: the one of its exact address, or, where the node is
//! below the floor, the one that is below it too and has its point. The archive looks up in the same
//! way; the program has to know a node's prior before it adds a path.

use crate::day::Prior;
use std::collections::{BTreeMap, HashMap};
use teakpool::Address;

/// The priors by the node of their line, and the floor.
#[derive(Debug, Default)]
pub struct Priors {
    by_node: BTreeMap<Address, Prior>,
    floor: Option<i32>,
    /// The nodes below the floor by their points. Of two with one point, which is a mistake in the
    /// file, either.
    by_point: HashMap<u32, Address>,
}

impl Priors {
    /// Adds the prior of a node that has no line yet.
    pub fn add(&mut self, node: Address, prior: Prior) {
        if self.is_below(node) {
            self.by_point.insert(node.point, node);
        }
        self.by_node.insert(node, prior);
    }

    /// Sets the floor, whether it stands before the priors or after them. Below the least scale there
    /// is nothing, so that it is no floor.
    pub fn set_floor(&mut self, floor: i32) {
        self.floor = Some(floor).filter(|floor| *floor > i32::MIN);
        self.by_point = self.below().map(|(node, _)| (node.point, *node)).collect();
    }

    /// The floor, where there is one.
    pub fn floor(&self) -> Option<i32> {
        self.floor
    }

    fn is_below(&self, node: Address) -> bool {
        self.floor.is_some_and(|floor| node.scale < floor)
    }

    /// Those whose nodes are below the floor, ascending.
    pub fn below(&self) -> impl Iterator<Item = (&Address, &Prior)> {
        self.iter().take_while(|(node, _)| self.is_below(**node))
    }

    /// The node in whose line the prior of a node would stand.
    pub fn line_node(&self, node: Address) -> Option<Address> {
        match self.is_below(node) {
            true => self.by_point.get(&node.point).copied(),
            false => Some(node),
        }
    }

    /// A node's prior.
    pub fn of(&self, node: Address) -> Option<&Prior> {
        self.by_node.get(&self.line_node(node)?)
    }

    /// The prior in the line of this very node.
    pub fn given(&self, node: Address) -> Option<&Prior> {
        self.by_node.get(&node)
    }

    /// All of them, by their lines' nodes ascending.
    pub fn iter(&self) -> impl Iterator<Item = (&Address, &Prior)> {
        self.by_node.iter()
    }

    /// How many there are.
    pub fn len(&self) -> usize {
        self.by_node.len()
    }
}

#[cfg(test)]
mod tests {
    use crate::reader::read;
    use teakpool::Address;

    /// The endings of the prior that each of these nodes has, with these lines.
    fn endings(lines: &str, nodes: &[(i32, u32)]) -> Vec<Option<u32>> {
        let day = read(format!("{}\nday\npath 1/0", lines).as_bytes()).expect("the lines can be taken");
        nodes
            .iter()
            .map(|(scale, point)| day.priors.of(Address::new(*scale, *point)))
            .map(|prior| prior.map(|prior| prior.ends))
            .collect()
    }

    #[test]
    fn below_the_floor_the_point_tells_the_prior() {
        let priors = "prior -5/7 1\nprior -3/9 2\nprior 1/7 3";
        let nodes = [(-5, 7), (-4, 7), (i32::MIN, 7), (-3, 7), (-3, 9), (-4, 9), (-2, 9), (1, 7), (0, 7)];
        let exact = [Some(1), None, None, None, Some(2), None, None, Some(3), None];
        assert_eq!(endings(priors, &nodes), exact);
        let by_point = [Some(1), Some(1), Some(1), None, Some(2), None, None, Some(3), None];
        // The line may stand before the priors or after them.
        assert_eq!(endings(&format!("floor -3\n{}", priors), &nodes), by_point);
        assert_eq!(endings(&format!("{}\nfloor -3", priors), &nodes), by_point);
        assert_eq!(endings(&format!("{}\nfloor -2147483648", priors), &nodes), exact);
    }
}
