//! Calls as data, each with all its arguments.

use recount::{same_figures, Address, LentPriors, LentTables, Output, Tracker};

/// Lent tables, owned.
#[derive(Debug, Clone, Default)]
pub struct Tables {
    /// ln gamma.
    pub g: Vec<f64>,
    /// digamma.
    pub d: Vec<f64>,
}

impl Tables {
    /// The tables as lent.
    pub fn lent(&self) -> LentTables<'_> {
        LentTables { g: &self.g, d: &self.d }
    }
}

/// Lent priors, owned.
#[derive(Debug, Clone, PartialEq, Eq)]
pub struct PriorBytes {
    /// The node records.
    pub nodes: Vec<u8>,
    /// The child records.
    pub children: Vec<u8>,
    /// The floor scale.
    pub floor: i32,
}

impl Default for PriorBytes {
    fn default() -> PriorBytes {
        PriorBytes { nodes: Vec::new(), children: Vec::new(), floor: i32::MIN }
    }
}

impl PriorBytes {
    /// The priors as lent.
    pub fn lent(&self) -> LentPriors<'_> {
        LentPriors { nodes: &self.nodes, children: &self.children, floor: self.floor }
    }
}

/// Output places, owned.
#[derive(Debug, Clone, Default)]
pub struct Places {
    /// Eight bytes a place.
    pub addresses: Vec<u8>,
    /// One figure a place.
    pub figures: Vec<f64>,
}

impl Places {
    /// The places as lent.
    pub fn lent(&mut self) -> Output<'_> {
        Output { addresses: &mut self.addresses, figures: &mut self.figures }
    }

    /// The same bytes, and the same figures by their bits.
    pub fn same(&self, other: &Places) -> bool {
        self.addresses == other.addresses && same_figures(&self.figures, &other.figures)
    }
}

/// One call. The two lendings are no calls of the watch: what they carry is lent to the readings
/// that follow.
#[derive(Debug, Clone)]
pub enum Call {
    /// An opening, with the lengths of book and queue.
    Open { window: u32, book_len: usize, queue_len: usize },
    /// An add of a path's bytes.
    Add { path: Vec<u8> },
    /// An add of the paths in queue places, of which the last may be cut off.
    AddPaths { places: Vec<u8> },
    /// A tidy.
    Tidy,
    /// Lends tables.
    LendTables(Tables),
    /// Lends priors.
    LendPriors(PriorBytes),
    /// `prob_vector`.
    ProbVector { node: Address, output: Places },
    /// `evidence_prob_vector`.
    EvidenceProbVector { node: Address, output: Places },
    /// `posterior_kl_divergence`.
    PosteriorKlDivergence { node: Address },
    /// `all_node_kl`.
    AllNodeKl { output: Places },
    /// `kl_div_stats`.
    KlDivStats,
}

impl Call {
    /// The output places of a reading that has some.
    pub fn output(&mut self) -> Option<&mut Places> {
        match self {
            Call::ProbVector { output, .. }
            | Call::EvidenceProbVector { output, .. }
            | Call::AllNodeKl { output } => Some(output),
            _ => None,
        }
    }

    /// The nodes whose priors a reading of the tracker looks up.
    pub fn looked_up(&self, tracker: &impl Tracker) -> Vec<Address> {
        match self {
            Call::ProbVector { node, .. } | Call::PosteriorKlDivergence { node } => vec![*node],
            Call::AllNodeKl { .. } | Call::KlDivStats => {
                tracker.evidence().map(|evidence| evidence.nodes.into_keys().collect()).unwrap_or_default()
            }
            _ => Vec::new(),
        }
    }
}

/// A list of calls on one tracker, whose memory holds `fill` everywhere at first.
#[derive(Debug, Clone)]
pub struct CallList {
    /// What each byte of book and queue is before the first opening.
    pub fill: u8,
    /// The calls.
    pub calls: Vec<Call>,
}
