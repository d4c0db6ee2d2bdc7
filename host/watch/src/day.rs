//! A recorded day: its settings, priors, names, training sequences, paths and marks.

use crate::lookup::Priors;
use std::collections::BTreeMap;
use teakpool::Address;

/// The format, as the help and the example's first lines have it.
pub const FORMAT: &str = include_str!("format.txt");

/// Entries that a book can have.
pub const MAX_ENTRIES: usize = 16_384;
/// The greatest last index of a table.
pub const MAX_LAST: usize = 1_048_575;
/// Knots that a baseline can have.
pub const MAX_KNOTS: usize = 1_024;
/// Nodes that priors can have, children of all of them, and children of one.
pub const MAX_PRIORS: usize = 4_096;
pub const MAX_PRIOR_CHILDREN: usize = 16_384;
pub const MAX_CHILDREN: usize = 64;
/// Paths that a tracker takes.
pub const MAX_DAY_PATHS: usize = 16_777_216;

/// A setting and the line it stands in.
#[derive(Debug, Clone, Copy)]
pub struct Setting<T> {
    pub line: usize,
    pub value: T,
}

/// Given numbers of a table, and the last line that gave some.
#[derive(Debug)]
pub struct Numbers {
    pub line: usize,
    pub values: Vec<f64>,
}

/// Where the tables come from.
#[derive(Debug)]
pub enum TableRule {
    /// ln gamma and digamma as far as needed.
    Gamma,
    /// Squares up to an index.
    Squares(usize),
    /// Given numbers.
    Numbers { g: Numbers, d: Numbers },
}

impl TableRule {
    /// The last index that the tables can be read at.
    pub fn last_index(&self) -> u64 {
        match self {
            TableRule::Gamma => MAX_LAST as u64,
            TableRule::Squares(last) => *last as u64,
            TableRule::Numbers { g, .. } => (g.values.len() as u64).saturating_sub(1),
        }
    }
}

/// Paths in their order. The steps of all of them lie in one list: a day can have millions.
#[derive(Debug, Default)]
pub struct Paths {
    steps: Vec<Address>,
    ends: Vec<usize>,
    lines: Vec<usize>,
}

impl Paths {
    /// Adds a path that stands in a line.
    pub fn push(&mut self, line: usize, steps: &[Address]) {
        self.steps.extend(steps);
        self.ends.push(self.steps.len());
        self.lines.push(line);
    }

    /// How many there are.
    pub fn len(&self) -> usize {
        self.ends.len()
    }

    /// The steps of the path with this index, from 0.
    pub fn steps(&self, index: usize) -> &[Address] {
        let start = if index == 0 { 0 } else { self.ends[index - 1] };
        &self.steps[start..self.ends[index]]
    }

    /// The line of the path with this index.
    pub fn line(&self, index: usize) -> usize {
        self.lines[index]
    }

    /// The steps of each path.
    pub fn iter(&self) -> impl Iterator<Item = &[Address]> {
        (0..self.len()).map(|index| self.steps(index))
    }
}

/// A node's prior and the line it stands in.
#[derive(Debug)]
pub struct Prior {
    pub line: usize,
    pub ends: u32,
    pub children: BTreeMap<Address, u32>,
}

impl Prior {
    /// All counts together.
    pub fn total(&self) -> u64 {
        u64::from(self.ends) + self.children.values().map(|count| u64::from(*count)).sum::<u64>()
    }
}

/// A recorded day.
#[derive(Debug)]
pub struct Day {
    pub window: u32,
    pub drift: f64,
    pub rate: Option<Setting<u32>>,
    pub capacity: Option<Setting<usize>>,
    pub tables: TableRule,
    pub priors: Priors,
    pub names: BTreeMap<Address, String>,
    pub sequences: Vec<Paths>,
    pub paths: Paths,
    /// The path that a mark stands before, and its text.
    pub marks: Vec<(usize, String)>,
}

impl Default for Day {
    /// What holds for a file without any line.
    fn default() -> Day {
        Day {
            window: 0,
            drift: 3.0,
            rate: None,
            capacity: None,
            tables: TableRule::Gamma,
            priors: Priors::default(),
            names: BTreeMap::new(),
            sequences: Vec::new(),
            paths: Paths::default(),
            marks: Vec::new(),
        }
    }
}

impl Day {
    /// Paths of each training sequence; 0 where there are none to train with.
    pub fn training_paths(&self) -> usize {
        self.sequences.first().map_or(0, Paths::len)
    }

    /// The marks by their places: those that stand before one path belong together.
    pub fn marks_by_place(&self) -> impl Iterator<Item = &[(usize, String)]> {
        self.marks.chunk_by(|one, other| one.0 == other.0)
    }

    /// The mark that the path with this index stands under.
    pub fn mark_at(&self, path: usize) -> Option<&str> {
        let after = self.marks.partition_point(|(at, _)| *at <= path);
        after.checked_sub(1).map(|index| &self.marks[index].1[..])
    }
}
