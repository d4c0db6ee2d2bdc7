//! Priors from good days: how often their paths ended at each node and went on to each child, as
//! the lines 'prior ...' of a recorded day. docs/PRIORS.md tells how they are used, and how the
//! priors of a goko tree are made.

use crate::day::{Day, MAX_CHILDREN, MAX_LAST, MAX_PRIORS, MAX_PRIOR_CHILDREN};
use crate::words::number;
use std::collections::BTreeMap;
use std::fmt::Write;
use teakpool::Address;

/// What the paths did at a node.
#[derive(Default)]
struct Counts {
    ends: u64,
    children: BTreeMap<Address, u64>,
}

impl Counts {
    fn total(&self) -> u64 {
        self.ends + self.children.values().sum::<u64>()
    }
}

/// The counts of days.
#[derive(Default)]
pub struct GoodDays {
    nodes: BTreeMap<Address, Counts>,
    days: usize,
    paths: usize,
}

impl GoodDays {
    /// Counts the paths of a day. Its training is not counted: files share it.
    pub fn add(&mut self, day: &Day) {
        self.days += 1;
        self.paths += day.paths.len();
        for steps in day.paths.iter() {
            for pair in steps.windows(2) {
                let node = self.nodes.entry(pair[0]).or_default();
                *node.children.entry(pair[1]).or_default() += 1;
            }
            if let Some(last) = steps.last() {
                self.nodes.entry(*last).or_default().ends += 1;
            }
        }
    }

    /// The lines, or what of the counts cannot be a prior.
    pub fn lines(&self) -> Result<String, Vec<String>> {
        let too_much = self.too_much();
        if !too_much.is_empty() {
            return Err(too_much);
        }
        let paths = number(self.paths, "path");
        let mut text = format!("# Priors by the counts of {}; good days: {}\n", paths, self.days);
        for (node, counts) in &self.nodes {
            // Writing to a String cannot fail.
            let _ = write!(text, "prior {} {}", node, counts.ends);
            for (child, count) in &counts.children {
                let _ = write!(text, "  {} {}", child, count);
            }
            text.push('\n');
        }
        Ok(text)
    }

    /// What passes the limits of priors.
    fn too_much(&self) -> Vec<String> {
        let mut too_much = Vec::new();
        if self.nodes.len() > MAX_PRIORS {
            too_much.push(format!(
                "the paths have {} nodes; priors have at most {}",
                self.nodes.len(),
                MAX_PRIORS
            ));
        }
        let children: usize = self.nodes.values().map(|counts| counts.children.len()).sum();
        if children > MAX_PRIOR_CHILDREN {
            too_much.push(format!(
                "the paths have {} transitions; priors have at most {}",
                children, MAX_PRIOR_CHILDREN
            ));
        }
        for (node, counts) in &self.nodes {
            if counts.children.len() > MAX_CHILDREN {
                let children = counts.children.len();
                too_much.push(format!(
                    "{} goes on to {} children; a prior has at most {}",
                    node, children, MAX_CHILDREN
                ));
            }
            if counts.total() >= MAX_LAST as u64 {
                too_much.push(format!(
                    "the counts of {} come to {}, and the tables of a reading end at {}; take fewer days",
                    node,
                    counts.total(),
                    MAX_LAST
                ));
            }
        }
        too_much.truncate(crate::mistakes::TOLD);
        too_much
    }
}

#[cfg(test)]
mod tests {
    use super::GoodDays;
    use crate::reader::{read, read_paths};
    use std::collections::BTreeMap;
    use teakpool::{Address, PriorRecords};

    fn lines(days: &[&str]) -> Result<String, Vec<String>> {
        let mut good = GoodDays::default();
        days.iter().for_each(|day| good.add(&read_paths(day.as_bytes()).expect("the day can be read")));
        good.lines()
    }

    #[test]
    fn the_counts_of_the_days_are_the_priors() {
        // The training and the priors of a good day play no part, nor does what they lack.
        let monday =
            "prior 2/0 1\nsequence\npath 2/0 1/9\nday\npath 2/0 1/1 0/0\npath 2/0 1/1\npath 2/0 1/0\n";
        let tuesday = "day\npath 2/0\npath 2/0 -1/3\npath 2/0 -1/3\n";
        let text = "# Priors by the counts of 6 paths; good days: 2\n\
                    prior -1/3 2\n\
                    prior 0/0 1\n\
                    prior 1/0 1\n\
                    prior 1/1 1  0/0 1\n\
                    prior 2/0 1  -1/3 2  1/0 1  1/1 2\n";
        assert_eq!(lines(&[monday, tuesday]), Ok(text.to_string()));
    }

    #[test]
    fn a_day_reads_what_is_written() {
        let example = include_str!("../../../days/example.txt");
        let priors = lines(&[example]).expect("they can be written");
        let day = read(format!("{}day\npath 3/0", priors).as_bytes()).expect("they can be read");
        assert_eq!(day.priors.len(), 12);
        let ends: u64 = day.priors.iter().map(|(_, prior)| u64::from(prior.ends)).sum();
        assert_eq!(ends, 180, "every path ends somewhere");
    }

    #[test]
    fn what_passes_the_limits_is_told() {
        let wide: String = (0..65).map(|point| format!("path 1/0 0/{}\n", point)).collect();
        let told = vec!["1/0 goes on to 65 children; a prior has at most 64".to_string()];
        assert_eq!(lines(&[&format!("day\n{}", wide)]), Err(told));
        let many: String = (0..4_097).map(|point| format!("path 1/{}\n", point)).collect();
        let told = vec!["the paths have 4097 nodes; priors have at most 4096".to_string()];
        assert_eq!(lines(&[&format!("day\n{}", many)]), Err(told));
    }

    /// docs/PRIORS.md, its rows of a table of so many columns, and the lines of its block.
    const PAGE: &str = include_str!("../../../docs/PRIORS.md");

    fn rows(columns: usize) -> Vec<Vec<&'static str>> {
        let cells = |line: &'static str| -> Vec<&'static str> {
            line.trim_matches('|').split('|').map(str::trim).collect()
        };
        let rows = PAGE.lines().filter(|line| line.starts_with('|')).map(cells);
        rows.filter(|row| row.len() == columns && row[0].contains('/')).collect()
    }

    fn block() -> String {
        PAGE.lines()
            .filter_map(|line| line.strip_prefix("    prior "))
            .map(|line| format!("prior {}\n", line))
            .collect()
    }

    fn address(text: &str) -> Address {
        let (scale, point) = text.split_once('/').expect("an address");
        Address::new(scale.parse().expect("a scale"), point.parse().expect("a point"))
    }

    /// goko's `node_component` over the page's tree: endings and children of a node.
    fn component(tree: &[Vec<&str>], node: Address) -> Option<(u32, BTreeMap<Address, u32>)> {
        let row = tree.iter().find(|row| address(row[0]) == node)?;
        let singletons: u32 = row[2].parse().expect("a number");
        if row[1] == "leaf" {
            return Some((singletons + 1, BTreeMap::new()));
        }
        let nested = Address::new(row[3].parse().expect("a scale"), node.point);
        let mut children = BTreeMap::new();
        for child in row[4].split_whitespace().map(address).chain([nested]) {
            if let Some((ends, below)) = component(tree, child) {
                *children.entry(child).or_default() += ends + below.values().sum::<u32>();
            }
        }
        Some((singletons, children))
    }

    #[test]
    fn the_lines_of_the_page_are_those_of_its_tree() {
        let tree = rows(5);
        assert_eq!(tree.len(), 5);
        let day = read(format!("{}day\npath 2/0", block()).as_bytes()).expect("the lines can be read");
        assert_eq!(day.priors.len(), 5);
        for (node, prior) in day.priors.iter() {
            let (ends, children) = component(&tree, *node).expect("it is in the tree");
            assert_eq!((prior.ends, &prior.children), (ends, &children), "{}", node);
        }
    }

    #[test]
    fn the_records_of_the_page_are_those_of_its_lines() {
        let day = read(format!("{}day\npath 2/0", block()).as_bytes()).expect("the lines can be read");
        let mut records = PriorRecords::default();
        for (node, prior) in day.priors.iter() {
            let children: Vec<(Address, u32)> = prior.children.clone().into_iter().collect();
            records.node(*node, prior.ends, &children);
        }
        assert_eq!(records.lent().check(), Ok(()));
        let record = |at: &str, count: &str, link: &str| {
            let number = |text: &str| text.parse::<u32>().expect("a number").to_le_bytes();
            [&address(at).bytes()[..], &number(count), &number(link)].concat()
        };
        let (mut nodes, mut children) = (Vec::new(), Vec::new());
        for row in rows(7) {
            nodes.extend(record(row[0], row[1], row[2]));
            if let Some((_, child)) = row[4].split_once(": ") {
                children.extend(record(child, row[5], row[6]));
            }
        }
        assert_eq!((records.lent().nodes, records.lent().children), (&nodes[..], &children[..]));
    }
}
