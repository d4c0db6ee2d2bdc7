//! What readings and trainings are lent beside a tracker: tables and priors. Every call tests
//! them itself; `check` does so alone. A child's look-up is lent priors alone.

use crate::refusal::{answered, done};
use crate::{Address, Refusal};

/// The tables of ln gamma and digamma: index k holds the value at k, index 0 is never read.
///
/// ```
/// use teakpool::{Refusal, Tables};
///
/// let (mut g, mut d) = ([0.0; 41], [0.0; 41]);
/// teakpool::fill_gamma_tables(&mut g, &mut d);
/// assert_eq!(Tables::new(&g, &d).check(), Ok(()));
/// assert_eq!(Tables::new(&g, &d[..40]).check(), Err(Refusal::TableLengths));
/// ```
#[derive(Debug, Clone, Copy)]
#[non_exhaustive]
pub struct Tables<'a> {
    /// ln gamma.
    pub g: &'a [f64],
    /// digamma.
    pub d: &'a [f64],
}

impl<'a> Tables<'a> {
    /// The tables of ln gamma and of digamma.
    pub const fn new(g: &'a [f64], d: &'a [f64]) -> Tables<'a> {
        Tables { g, d }
    }

    /// Tests the tables.
    ///
    /// # Errors
    /// 1 for their lengths, 2 for an entry.
    pub fn check(&self) -> Result<(), Refusal> {
        done(archive::check_tables((self.g, self.d)), Address::default())
    }
}

/// Node records (address, singleton count, first link) and child records, numbered from 1
/// (address, count, next link), 16 bytes each. Zero ends a chain. And a floor, a scale: a node
/// strictly below it is looked up by its point among the node records strictly below it, every other
/// node by its exact address. Children are looked up by exact address in any case.
///
/// ```
/// use teakpool::{Priors, Refusal};
///
/// assert_eq!(Priors::new(&[], &[]).check(), Ok(()));
/// assert_eq!(Priors::new(&[0; 15], &[]).check(), Err(Refusal::PriorSizes));
/// ```
///
/// goko finds nodes whose scale is under its tree's `min_res_index` by their points. Whoever has a
/// goko tree sets the floor to it:
///
/// ```
/// use teakpool::*;
///
/// let (recorded, met) = (Address::new(-5, 7), Address::new(-4, 7));
/// let nodes = record_bytes(recorded, 3, 0);
/// let priors = Priors::new(&nodes, &[]);
/// let mut book = [0; ENTRY_BYTES];
/// let mut tracker = Tracker::open(0, &mut book, &mut [])?;
/// tracker.add_path(&[met])?;
/// let mut output = Output { addresses: &mut [], figures: &mut [] };
/// assert_eq!(tracker.prob_vector(priors, met, &mut output)?, None);
/// let min_res_index = -3;
/// let vector = tracker.prob_vector(priors.with_floor(min_res_index), met, &mut output)?;
/// assert_eq!(vector, Some(ProbVector { places: 0, ending: 1.0 }));
/// # Ok::<(), Refusal>(())
/// ```
#[derive(Debug, Clone, Copy)]
#[non_exhaustive]
pub struct Priors<'a> {
    /// The node records.
    pub nodes: &'a [u8],
    /// The child records.
    pub children: &'a [u8],
    /// The floor; `i32::MIN` is none, and then every look-up is exact.
    pub floor: i32,
}

impl<'a> Priors<'a> {
    /// The priors of these node records and child records, without a floor.
    pub const fn new(nodes: &'a [u8], children: &'a [u8]) -> Priors<'a> {
        Priors { nodes, children, floor: i32::MIN }
    }

    /// The same priors with this floor.
    pub const fn with_floor(self, floor: i32) -> Self {
        Priors { floor, ..self }
    }

    /// As the archive is lent them.
    pub(crate) fn parts(&self) -> archive::Priors<'a> {
        (self.nodes, self.children, self.floor)
    }

    /// Tests the records with their floor.
    ///
    /// # Errors
    /// 3 to 7, then 22, each over all records before the next.
    pub fn check(&self) -> Result<(), Refusal> {
        done(archive::check_priors(self.parts()), Address::default())
    }

    /// A child's count in a node's prior, and how many child records its look-up read: chains ascend, so
    /// it ends at the first one that is not below the child.
    ///
    /// # Errors
    /// 3 to 7 and 22 for the priors.
    ///
    #[cfg_attr(feature = "std", doc = "```")]
    #[cfg_attr(not(feature = "std"), doc = "```ignore")]
    /// use teakpool::*;
    ///
    /// let (node, seven, nine) = (Address::new(1, 7), Address::new(0, 7), Address::new(0, 9));
    /// let mut records = PriorRecords::default();
    /// records.node(node, 1, &[(seven, 2), (nine, 3)]);
    /// let priors = records.lent();
    /// assert_eq!(priors.child(node, seven)?, ChildLookup { count: Some(2), read: 1 });
    /// assert_eq!(priors.child(node, nine)?, ChildLookup { count: Some(3), read: 2 });
    /// // The first record is past -1/9, and ends the look-up.
    /// assert_eq!(priors.child(node, Address::new(-1, 9))?, ChildLookup { count: None, read: 1 });
    /// // 0/9 has no prior.
    /// assert_eq!(priors.child(nine, seven)?, ChildLookup { count: None, read: 0 });
    ///
    /// // A path that goes on from the node in a way never seen before is refused with the node; this
    /// // tells the child.
    /// let (tables, path) = (gamma_tables(10), [node, nine, node, node]);
    /// let answer = try_path(tables.lent(), priors, &path);
    /// assert_eq!(answer, Err(Refusal::MissingChild(node)));
    /// let mut children = path.windows(2).filter(|step| step[0] == node).map(|step| step[1]);
    /// let unseen = |child: &Address| priors.child(node, *child).is_ok_and(|found| found.count.is_none());
    /// assert_eq!(children.find(unseen), Some(node));
    /// # Ok::<(), Refusal>(())
    /// ```
    pub fn child(&self, node: Address, child: Address) -> Result<ChildLookup, Refusal> {
        let (mut count, mut read) = (0, 0);
        let answer = archive::child(
            self.parts(),
            (node.scale, node.point),
            (child.scale, child.point),
            (&mut count, &mut read),
        );
        let count = answered(answer, node, count)?;
        Ok(ChildLookup { count, read })
    }
}

/// What [`Priors::child`] tells.
#[derive(Debug, Clone, Copy, PartialEq, Eq)]
pub struct ChildLookup {
    /// The child's count. None if the node has no prior, or its prior does not have the child.
    pub count: Option<u32>,
    /// How many records of the node's chain the look-up read: those below the child's address, and one
    /// more if the chain goes on. It is at most 64, and 0 if the node has no prior or no children.
    pub read: u32,
}

/// Bytes of a node record and of a child record.
pub const RECORD_BYTES: usize = 16;

/// A record's bytes: of a node with its singleton count and first link, or of a child with its count
/// and next link.
///
/// ```
/// use teakpool::{record_bytes, Address, Priors};
///
/// let nodes = record_bytes(Address::new(1, 7), 1, 1);
/// let children = record_bytes(Address::new(0, 9), 3, 0);
/// assert_eq!(Priors::new(&nodes, &children).check(), Ok(()));
/// ```
pub fn record_bytes(address: Address, count: u32, link: u32) -> [u8; RECORD_BYTES] {
    let mut record = [0; RECORD_BYTES];
    record[..8].copy_from_slice(&address.bytes());
    record[8..12].copy_from_slice(&count.to_le_bytes());
    record[12..].copy_from_slice(&link.to_le_bytes());
    record
}

/// Prior records as they are put together, node by node.
///
/// ```
/// use teakpool::{Address, PriorRecords};
///
/// let mut records = PriorRecords::default();
/// records.node(Address::new(1, 7), 1, &[(Address::new(0, 7), 2), (Address::new(0, 9), 3)]);
/// assert_eq!(records.lent().check(), Ok(()));
///
/// // Two nodes with one point are looked up by their scales, unless both are below the floor.
/// records.node(Address::new(2, 7), 0, &[(Address::new(1, 7), 6)]);
/// records.set_floor(2);
/// assert_eq!(records.lent().check(), Ok(()));
/// records.set_floor(3);
/// assert_eq!(records.lent().check(), Err(teakpool::Refusal::SharedPoint));
/// ```
#[cfg(feature = "std")]
#[derive(Debug, Clone, Default)]
pub struct PriorRecords {
    nodes: std::vec::Vec<u8>,
    children: std::vec::Vec<u8>,
    floor: Option<i32>,
}

#[cfg(feature = "std")]
impl PriorRecords {
    /// Adds a node with its singleton count and its children with their counts. Nodes and the
    /// children of one node are to come ascending; `check` tests it.
    pub fn node(&mut self, address: Address, singleton: u32, children: &[(Address, u32)]) {
        let first = self.children.len() / RECORD_BYTES + 1;
        let first_link = if children.is_empty() { 0 } else { link(first) };
        self.nodes.extend(record_bytes(address, singleton, first_link));
        for (index, (child, count)) in children.iter().enumerate() {
            let next = if index + 1 < children.len() { link(first + index + 1) } else { 0 };
            self.children.extend(record_bytes(*child, *count, next));
        }
    }

    /// Sets the floor. Without this there is none.
    pub fn set_floor(&mut self, floor: i32) {
        self.floor = Some(floor);
    }

    /// The records as lent.
    pub fn lent(&self) -> Priors<'_> {
        let priors = Priors::new(&self.nodes, &self.children);
        self.floor.map_or(priors, |floor| priors.with_floor(floor))
    }
}

/// A record's number as a link. Where 32 bits do not hold it there are too many records, which is
/// refused.
#[cfg(feature = "std")]
fn link(number: usize) -> u32 {
    u32::try_from(number).unwrap_or(u32::MAX)
}
