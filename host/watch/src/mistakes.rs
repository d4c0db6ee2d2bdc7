//! What is wrong with a day's file: every mistake has its line. All of them are counted, and the
//! first twenty by line are told, so that a file is mended in one go.

use std::fmt::{self, Display};

/// Mistakes that are told; more are only counted.
pub const TOLD: usize = 20;

/// What is wrong, and in which line.
#[derive(Debug, Clone, PartialEq, Eq)]
pub struct Problem {
    /// The line, from 1.
    pub line: usize,
    /// What is wrong with it.
    pub text: String,
}

impl Display for Problem {
    fn fmt(&self, f: &mut fmt::Formatter) -> fmt::Result {
        write!(f, "line {}: {}", self.line, self.text)
    }
}

/// The mistakes of a file.
#[derive(Debug, Default, PartialEq, Eq)]
pub struct Mistakes {
    told: Vec<Problem>,
    count: usize,
}

impl Mistakes {
    /// Notes one.
    pub fn add(&mut self, line: usize, text: String) {
        self.count += 1;
        if self.told.len() == TOLD && self.told.last().is_some_and(|last| last.line <= line) {
            return;
        }
        let place = self.told.partition_point(|told| told.line <= line);
        self.told.insert(place, Problem { line, text });
        self.told.truncate(TOLD);
    }

    /// True where there are none.
    pub fn none(&self) -> bool {
        self.count == 0
    }

    /// The told ones, by line.
    #[cfg(test)]
    pub fn told(&self) -> &[Problem] {
        &self.told
    }

    /// A line for each told one, and one for how many more there are.
    pub fn lines(&self) -> Vec<String> {
        let mut lines: Vec<String> = self.told.iter().map(Problem::to_string).collect();
        match self.count - self.told.len() {
            0 => {}
            1 => lines.push("and 1 more mistake".to_string()),
            more => lines.push(format!("and {} more mistakes", more)),
        }
        lines
    }
}

impl From<Problem> for Mistakes {
    fn from(problem: Problem) -> Mistakes {
        Mistakes { told: vec![problem], count: 1 }
    }
}

#[cfg(test)]
mod tests {
    use super::Mistakes;

    #[test]
    fn the_first_twenty_by_line_are_told() {
        let mut mistakes = Mistakes::default();
        assert!(mistakes.none());
        (2..=21).for_each(|line| mistakes.add(line, "wrong".to_string()));
        assert_eq!(mistakes.lines().len(), 20);
        mistakes.add(30, "late".to_string());
        assert_eq!(mistakes.lines().last().unwrap(), "and 1 more mistake");
        mistakes.add(1, "early".to_string());
        let lines = mistakes.lines();
        assert_eq!(lines.len(), 21);
        assert_eq!(lines[0], "line 1: early");
        assert_eq!(lines[19], "line 20: wrong");
        assert_eq!(lines[20], "and 2 more mistakes");
    }
}
