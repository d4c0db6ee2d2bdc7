//! What is lent to readings and trainings: the prior records, and tables no longer than needed,
//! since every reading tests all that it is lent of them.

use crate::day::{Day, TableRule};
use teakpool::{gamma_tables, Address, GammaTables, PriorRecords, Priors, Tables};

/// The tables as far as they are made, and the records.
pub struct Lent {
    g: Vec<f64>,
    d: Vec<f64>,
    /// ln gamma and digamma, which can be made longer, up to the last index.
    gamma: bool,
    last_index: u64,
    records: PriorRecords,
}

impl Lent {
    /// For a day; ln gamma and digamma are made when they are asked for.
    pub fn of(day: &Day) -> Lent {
        let (g, d) = match &day.tables {
            TableRule::Gamma => (Vec::new(), Vec::new()),
            TableRule::Squares(last) => (0..=*last).map(|k| ((k * k) as f64, (4 * k) as f64)).unzip(),
            TableRule::Numbers { g, d } => (g.values.clone(), d.values.clone()),
        };
        let mut records = PriorRecords::default();
        if let Some(floor) = day.priors.floor() {
            records.set_floor(floor);
        }
        for (node, prior) in day.priors.iter() {
            let children: Vec<(Address, u32)> =
                prior.children.iter().map(|(child, count)| (*child, *count)).collect();
            records.node(*node, prior.ends, &children);
        }
        let gamma = matches!(day.tables, TableRule::Gamma);
        Lent { g, d, gamma, last_index: day.tables.last_index(), records }
    }

    /// The last index that the tables can have.
    pub fn last_index(&self) -> u64 {
        self.last_index
    }

    /// Makes the tables long enough to be read at `index`, or as long as they can be. They grow
    /// by doubling, so that all the making together costs little.
    pub fn reach(&mut self, index: u64) {
        let last = (2 * index).min(self.last_index);
        if self.gamma && self.g.len() as u64 <= index.min(self.last_index) {
            GammaTables { g: self.g, d: self.d } = gamma_tables(last as usize);
        }
    }

    /// The tables up to `index`, or as far as they go.
    pub fn tables(&self, index: u64) -> Tables<'_> {
        let length = self.g.len().min(index as usize + 1);
        Tables::new(&self.g[..length], &self.d[..length])
    }

    /// The records.
    pub fn priors(&self) -> Priors<'_> {
        self.records.lent()
    }
}
