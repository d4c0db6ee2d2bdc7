//! The calls of docs/RULES.md on goko's own types. Nothing is worked out here: arguments are
//! brought into goko's forms, and its answers are handed on.

use crate::caught::{caught, Panic};
use crate::covertree::{CoverTreeReader, GivenPaths};
use crate::plugins::discrete::baseline::{
    DirichletBaseline, KLDivergenceBaseline, KLDivergenceBaselineStats,
};
use crate::plugins::discrete::categorical::Categorical;
use crate::plugins::discrete::dirichlet::Dirichlet;
use crate::plugins::discrete::tracker::{BayesCategoricalTracker, KLDivergenceStats};
use crate::printed::take_lines;
use crate::NodeAddress;

/// A prior as whole numbers.
#[derive(Debug, Clone)]
pub struct Prior {
    /// The node.
    pub address: NodeAddress,
    /// Its singleton count.
    pub singleton_count: u32,
    /// Its children with their counts.
    pub children: Vec<(NodeAddress, u32)>,
}

/// What goko's tracker holds of a node.
#[derive(Debug, Clone, PartialEq)]
pub struct NodeEvidence {
    /// The node.
    pub node: NodeAddress,
    /// Its singleton count.
    pub ending: f64,
    /// Its children with their counts, in goko's order.
    pub children: Vec<(NodeAddress, f64)>,
}

/// goko's form of a probability vector: children, and the ending.
pub type ProbVector = (Vec<(NodeAddress, f64)>, f64);

/// goko's form of a path: each step with a distance, which goko does not read.
pub type Trace = Vec<(f32, NodeAddress)>;

/// A path in that form.
pub fn trace(path: &[NodeAddress]) -> Trace {
    path.iter().map(|address| (0.0, *address)).collect()
}

/// Lends G and D to goko's `ln_gamma` and `digamma` on this thread.
pub fn lend_tables(ln_gamma: &[f64], digamma: &[f64]) {
    statrs::function::gamma::lend(ln_gamma, digamma);
}

/// One tracker of goko's.
pub struct Goko {
    tracker: BayesCategoricalTracker<GivenPaths>,
}

impl Goko {
    /// A fresh tracker without priors.
    pub fn open(window: usize) -> Goko {
        let reader = CoverTreeReader::over(GivenPaths(Vec::new()));
        Goko { tracker: BayesCategoricalTracker::new(window, reader) }
    }

    /// Lends priors to the readings that follow, in a tree with this floor.
    pub fn lend_priors(&self, priors: &[Prior], floor: i32) {
        lend(self.tracker.reader(), priors, floor);
    }

    /// `add_path`.
    pub fn add_path(&mut self, path: &[NodeAddress]) -> Result<(), Panic> {
        self.add_trace(trace(path))
    }

    /// `add_path`, of a path in goko's own form.
    pub fn add_trace(&mut self, trace: Trace) -> Result<(), Panic> {
        caught(|| self.tracker.add_path(trace))
    }

    /// `running_evidence`, as a list.
    pub fn evidence(&self) -> Vec<NodeEvidence> {
        let listed = |(node, evidence): (&NodeAddress, &Categorical)| NodeEvidence {
            node: *node,
            ending: evidence.singleton_count,
            children: evidence.child_counts.clone(),
        };
        self.tracker.running_evidence().iter().map(listed).collect()
    }

    /// `total` of each node's evidence.
    pub fn totals(&self) -> Vec<(NodeAddress, f64)> {
        let evidence = self.tracker.running_evidence();
        evidence.iter().map(|(node, evidence)| (*node, evidence.total())).collect()
    }

    /// `sequence_len`.
    pub fn sequence_len(&self) -> usize {
        self.tracker.sequence_len()
    }

    /// `prob_vector`.
    pub fn prob_vector(&self, node: NodeAddress) -> Result<Option<ProbVector>, Panic> {
        caught(|| self.tracker.prob_vector(node))
    }

    /// `evidence_prob_vector`.
    pub fn evidence_prob_vector(&self, node: NodeAddress) -> Result<Option<ProbVector>, Panic> {
        caught(|| self.tracker.evidence_prob_vector(node))
    }

    /// `Dirichlet::posterior_kl_divergence` of the node's prior on its evidence. The outer
    /// option is none where the node is unlisted or has no prior, the inner one is goko's.
    pub fn posterior_kl_divergence(&self, node: NodeAddress) -> Result<Option<Option<f64>>, Panic> {
        let Some(evidence) = self.tracker.running_evidence().get(&node) else {
            return Ok(None);
        };
        caught(|| {
            self.tracker
                .reader()
                .get_node_plugin_and::<Dirichlet, _, _>(node, |prior| prior.posterior_kl_divergence(evidence))
        })
    }

    /// `Dirichlet::ln_pdf`, which looks a child up in the node's prior: ln of its count, minus infinity
    /// where the prior lacks it, less ln of the prior's total. None where the node has no prior.
    pub fn ln_pdf(&self, node: NodeAddress, child: NodeAddress) -> Result<Option<f64>, Panic> {
        let reader = self.tracker.reader();
        caught(|| reader.get_node_plugin_and::<Dirichlet, _, _>(node, |prior| prior.ln_pdf(Some(&child))))
            .map(Option::flatten)
    }

    /// `all_node_kl`, with the number of lines that goko prints for nodes without a prior.
    pub fn all_node_kl(&self) -> Result<(Vec<(f64, NodeAddress)>, u64), Panic> {
        take_lines();
        caught(|| self.tracker.all_node_kl()).map(|list| (list, take_lines()))
    }

    /// `kl_div_stats`, with the number of lines that goko prints for nodes without a prior.
    pub fn kl_div_stats(&self) -> Result<(KLDivergenceStats, u64), Panic> {
        take_lines();
        caught(|| self.tracker.kl_div_stats()).map(|stats| (stats, take_lines()))
    }
}

/// `DirichletBaseline::train` over given sequences of equal length: knots and, for each, its
/// ten sums in the order of docs/RULES.md.
pub fn train(
    priors: &[Prior],
    floor: i32,
    sequences: &[Vec<Vec<NodeAddress>>],
    rate: usize,
) -> Result<(Vec<usize>, Vec<f64>), Panic> {
    let paths = sequences.first().map_or(0, Vec::len);
    train_with_length(priors, floor, &sequences.concat(), (sequences.len(), paths), rate)
}

/// `DirichletBaseline::train` with goko's own settings: the points, the number of sequences and
/// `sequence_len`, and the sample rate.
pub fn train_with_length(
    priors: &[Prior],
    floor: i32,
    points: &[Vec<NodeAddress>],
    (sequences, sequence_len): (usize, usize),
    rate: usize,
) -> Result<(Vec<usize>, Vec<f64>), Panic> {
    let reader = CoverTreeReader::over(GivenPaths(points.to_vec()));
    lend(&reader, priors, floor);
    let mut training = DirichletBaseline::default();
    training.set_num_sequences(sequences);
    training.set_sequence_len(sequence_len);
    training.set_sample_rate(rate);
    rand::restart();
    let baseline = caught(|| training.train(reader))?.expect("goko's train has no error of its own");
    Ok((baseline.sequence_len, baseline.stats.iter().flat_map(ten_values).collect()))
}

/// `KLDivergenceBaseline::stats` of a baseline given by its knots and their ten sums: for
/// each of the five figures mean and variance.
pub fn stats(sequences: usize, knots: &[usize], values: &[f64], length: usize) -> Result<[f64; 10], Panic> {
    let baseline = KLDivergenceBaseline {
        num_sequences: sequences,
        sequence_len: knots.to_vec(),
        stats: values.chunks(10).map(knot_sums).collect(),
    };
    caught(|| ten_values(&baseline.stats(length)))
}

/// The layer of a scale in a tree with this floor, by goko's `internal_index`.
pub fn layer(floor: i32, scale: i32) -> usize {
    let reader = CoverTreeReader::over(GivenPaths(Vec::new()));
    lend(&reader, &[], floor);
    reader.parameters().internal_index(scale)
}

fn lend(reader: &CoverTreeReader<GivenPaths>, priors: &[Prior], floor: i32) {
    reader.lend(priors.iter().map(|prior| (prior.address, dirichlet(prior))), floor);
}

/// goko's own adding of evidence makes a prior from counts.
fn dirichlet(prior: &Prior) -> Dirichlet {
    let mut counts = Categorical::new();
    counts.add_child_pop(None, f64::from(prior.singleton_count));
    for (child, count) in &prior.children {
        counts.add_child_pop(Some(*child), f64::from(*count));
    }
    let mut dirichlet = Dirichlet::new();
    dirichlet.add_evidence(&counts);
    dirichlet
}

fn ten_values(stats: &KLDivergenceBaselineStats) -> [f64; 10] {
    [
        stats.max.0,
        stats.max.1,
        stats.min.0,
        stats.min.1,
        stats.nz_count.0,
        stats.nz_count.1,
        stats.moment1_nz.0,
        stats.moment1_nz.1,
        stats.moment2_nz.0,
        stats.moment2_nz.1,
    ]
}

fn knot_sums(values: &[f64]) -> KLDivergenceBaselineStats {
    KLDivergenceBaselineStats {
        max: (values[0], values[1]),
        min: (values[2], values[3]),
        nz_count: (values[4], values[5]),
        moment1_nz: (values[6], values[7]),
        moment2_nz: (values[8], values[9]),
    }
}
