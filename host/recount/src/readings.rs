//! The five readings and their formulas. A reading tests 1 to 7 and 22 on what it is lent beside
//! the tracker, then 9 on the tracker, then 13, then 14 and 15 by node ascending. Outputs change
//! only where an answer fills them. A node's evidence is by exact address, whatever record below the
//! floor its prior is.

use crate::address::Address;
use crate::evidence::{Evidence, NodeEvidence};
use crate::limits::{STEP_BYTES, THRESHOLD};
use crate::priors::{check_priors, LentPriors, Prior, Priors};
use crate::refusal::{refuse, Refusal};
use crate::tables::{check_tables, LentTables};
use std::collections::BTreeMap;

/// Something that readings can be asked of.
pub trait Tracker {
    /// The counts, or 9 where the form is broken.
    fn evidence(&self) -> Result<Evidence, Refusal>;
}

/// Lent output places: addresses in one slice, figures beside them in another.
#[derive(Debug)]
pub struct Output<'a> {
    /// Eight bytes a place.
    pub addresses: &'a mut [u8],
    /// One figure a place.
    pub figures: &'a mut [f64],
}

impl Output<'_> {
    /// The whole places of the slice that has fewer.
    fn places(&self) -> usize {
        (self.addresses.len() / STEP_BYTES).min(self.figures.len())
    }

    fn put(&mut self, place: usize, address: Address, figure: f64) {
        self.addresses[STEP_BYTES * place..STEP_BYTES * (place + 1)].copy_from_slice(&address.bytes());
        self.figures[place] = figure;
    }
}

/// What stands in the result of a probability vector; its children are in the output.
#[derive(Debug, Clone, Copy)]
pub struct ProbVector {
    /// Places filled, one a child.
    pub places: u32,
    /// The ending's figure.
    pub ending: f64,
}

/// What stands in the result of `all_node_kl`; its nodes are in the output.
#[derive(Debug, Clone, Copy, PartialEq, Eq)]
pub struct NodeKlList {
    /// Places filled, one a listed node with a prior.
    pub places: u32,
    /// Listed nodes without a prior.
    pub skipped: u32,
}

/// The statistics over divergences above the threshold.
#[derive(Debug, Clone, Copy)]
pub struct KLDivergenceStats {
    /// The maximum, f64::MIN if there are none.
    pub max: f64,
    /// The minimum, f64::MAX if there are none.
    pub min: f64,
    /// Their number.
    pub nz_count: u32,
    /// Their sum.
    pub moment1_nz: f64,
    /// The sum of their squares.
    pub moment2_nz: f64,
    /// Paths in the window part.
    pub sequence_len: u32,
    /// Listed nodes without a prior.
    pub skipped: u32,
}

/// Evidence added to the prior, over the total. None if the node has no prior.
pub fn prob_vector(
    tracker: &impl Tracker,
    priors: LentPriors,
    node: Address,
    output: &mut Output,
) -> Result<Option<ProbVector>, Refusal> {
    let priors = check_priors(priors)?;
    let evidence = tracker.evidence()?;
    let Some(prior) = priors.node(node) else {
        return Ok(None);
    };
    let counted = evidence.nodes.get(&node).cloned().unwrap_or_default();
    let mut children: BTreeMap<Address, u64> =
        prior.children.iter().map(|(child, count)| (*child, u64::from(*count))).collect();
    for (child, count) in &counted.children {
        *children.entry(*child).or_insert(0) += u64::from(*count);
    }
    fill_probabilities(&children, u64::from(prior.singleton) + u64::from(counted.ending), output).map(Some)
}

/// Evidence alone, over its total. None if the node is unlisted or its total is 0.
pub fn evidence_prob_vector(
    tracker: &impl Tracker,
    node: Address,
    output: &mut Output,
) -> Result<Option<ProbVector>, Refusal> {
    let evidence = tracker.evidence()?;
    match evidence.nodes.get(&node) {
        Some(counted) if counted.total() > 0 => {
            let children =
                counted.children.iter().map(|(child, count)| (*child, u64::from(*count))).collect();
            fill_probabilities(&children, u64::from(counted.ending), output).map(Some)
        }
        _ => Ok(None),
    }
}

/// Each count over the total, rounded once.
fn fill_probabilities(
    children: &BTreeMap<Address, u64>,
    ending: u64,
    output: &mut Output,
) -> Result<ProbVector, Refusal> {
    refuse(13, output.places() < children.len())?;
    let total = (ending + children.values().sum::<u64>()) as f64;
    for (place, (child, count)) in children.iter().enumerate() {
        output.put(place, *child, *count as f64 / total);
    }
    Ok(ProbVector { places: children.len() as u32, ending: ending as f64 / total })
}

/// One node's divergence. None if it is unlisted or has no prior.
pub fn posterior_kl_divergence(
    tracker: &impl Tracker,
    tables: LentTables,
    priors: LentPriors,
    node: Address,
) -> Result<Option<f64>, Refusal> {
    check_tables(tables)?;
    let priors = check_priors(priors)?;
    let evidence = tracker.evidence()?;
    match (evidence.nodes.get(&node), priors.node(node)) {
        (Some(counted), Some(prior)) => divergence(tables, prior, node, counted).map(Some),
        _ => Ok(None),
    }
}

/// The divergences of all listed nodes that have a prior, ascending.
pub fn all_node_kl(
    tracker: &impl Tracker,
    tables: LentTables,
    priors: LentPriors,
    output: &mut Output,
) -> Result<NodeKlList, Refusal> {
    check_tables(tables)?;
    let priors = check_priors(priors)?;
    let evidence = tracker.evidence()?;
    let with_prior = evidence.nodes.keys().filter(|node| priors.node(**node).is_some()).count();
    refuse(13, output.places() < with_prior)?;
    let (list, skipped) = divergences(&evidence, tables, &priors)?;
    for (place, (node, figure)) in list.iter().enumerate() {
        output.put(place, *node, *figure);
    }
    Ok(NodeKlList { places: list.len() as u32, skipped })
}

/// The statistics over divergences strictly above the threshold.
pub fn kl_div_stats(
    tracker: &impl Tracker,
    tables: LentTables,
    priors: LentPriors,
) -> Result<KLDivergenceStats, Refusal> {
    check_tables(tables)?;
    let priors = check_priors(priors)?;
    statistics(&tracker.evidence()?, tables, &priors)
}

/// `kl_div_stats` on checked tables and priors.
pub(crate) fn statistics(
    evidence: &Evidence,
    tables: LentTables,
    priors: &Priors,
) -> Result<KLDivergenceStats, Refusal> {
    let (list, skipped) = divergences(evidence, tables, priors)?;
    let mut stats = KLDivergenceStats {
        max: f64::MIN,
        min: f64::MAX,
        nz_count: 0,
        moment1_nz: 0.0,
        moment2_nz: 0.0,
        sequence_len: evidence.sequence_len,
        skipped,
    };
    for figure in list.iter().map(|(_, figure)| *figure).filter(|figure| *figure > THRESHOLD) {
        stats.max = if stats.max < figure { figure } else { stats.max };
        stats.min = if figure < stats.min { figure } else { stats.min };
        stats.nz_count += 1;
        stats.moment1_nz += figure;
        stats.moment2_nz += figure * figure;
    }
    Ok(stats)
}

/// Listed nodes with a prior and their divergences, and the number of those without.
fn divergences(
    evidence: &Evidence,
    tables: LentTables,
    priors: &Priors,
) -> Result<(Vec<(Address, f64)>, u32), Refusal> {
    let mut list = Vec::new();
    let mut skipped = 0;
    for (node, counted) in &evidence.nodes {
        match priors.node(*node) {
            Some(prior) => list.push((*node, divergence(tables, prior, *node, counted)?)),
            None => skipped += 1,
        }
    }
    Ok((list, skipped))
}

/// A node's divergence by the rules' formula, left to right; 14 before 15, both naming the node.
fn divergence(
    tables: LentTables,
    prior: &Prior,
    node: Address,
    counted: &NodeEvidence,
) -> Result<f64, Refusal> {
    let mut pairs = Vec::new();
    if prior.singleton > 0 {
        pairs.push((prior.singleton, counted.ending));
    }
    for (child, count) in &counted.children {
        let known = prior.child(*child).ok_or(Refusal::at(14, node))?;
        pairs.push((known, *count));
    }
    let t = prior.total();
    let u = t + counted.total();
    if u > tables.last_index() {
        return Err(Refusal::at(15, node));
    }
    let g = |k: u64| tables.g[k as usize];
    let d = |k: u64| tables.d[k as usize];
    let (mut mine, mut other, mut dig) = (0.0, 0.0, 0.0);
    for (a, e) in pairs {
        let (a, e) = (u64::from(a), u64::from(e));
        other += g(e + a);
        mine += g(a);
        dig -= e as f64 * (d(a) - d(t));
    }
    let result = (((g(t) - mine) - g(u)) + other) + dig;
    Ok(if result < 0.0 { 0.0 } else { result })
}
