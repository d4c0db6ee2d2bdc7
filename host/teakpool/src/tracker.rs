//! A tracker: its state, and the book and queue that it is lent. The readings change nothing.

use crate::address::PathBytes;
use crate::refusal::{answered, done, Stopped};
use crate::{Address, Priors, Refusal, Tables, MAX_STEPS};

/// Bytes of a book entry.
pub const ENTRY_BYTES: usize = 24;
/// Bytes of a queue place, of a path in a list of paths, and of one in a training's sequences.
pub const PLACE_BYTES: usize = 516;

/// The state beside book and queue.
#[derive(Debug, Clone, Copy, PartialEq, Eq, Default)]
pub struct State {
    /// The window, 0 for all paths.
    pub window: u32,
    /// Entries used in the book: the different nodes and the different transitions of all paths accepted
    /// since the opening. It is the least capacity that takes these paths ([`Tracker::open`]). After a
    /// [`Tracker::tidy`] they are those of the paths that were in the window then, and of those accepted
    /// since.
    pub used: u32,
    /// Paths accepted.
    pub accepted: u32,
}

impl State {
    fn words(self) -> [u32; 3] {
        [self.window, self.used, self.accepted]
    }

    fn of([window, used, accepted]: [u32; 3]) -> State {
        State { window, used, accepted }
    }
}

/// A tracker over a lent book (24 bytes an entry) and queue (516 bytes a place, as many as the
/// window has paths). While it lives nobody else can write there.
///
#[cfg_attr(feature = "std", doc = "```")]
#[cfg_attr(not(feature = "std"), doc = "```ignore")]
/// use teakpool::*;
///
/// # fn main() -> Result<(), Refusal> {
/// let tables = gamma_tables(7);
/// let (node, nine) = (Address::new(1, 7), Address::new(0, 9));
/// let mut records = PriorRecords::default();
/// records.node(node, 1, &[(Address::new(0, 7), 2), (nine, 3)]);
/// let (tables, priors) = (tables.lent(), records.lent());
///
/// let (mut book, mut queue) = ([0xff; 3 * ENTRY_BYTES], [0xff; PLACE_BYTES]);
/// let mut tracker = Tracker::open(1, &mut book, &mut queue)?;
/// tracker.add_path(&[node, nine])?;
/// assert_eq!(tracker.state(), State { window: 1, used: 3, accepted: 1 });
///
/// // By hand, D(6) - D(3) + ln (5! 3! / (2! 6!)).
/// let stats = tracker.kl_div_stats(tables, priors)?;
/// assert!((stats.sum - (47.0 / 60.0 - 2.0_f64.ln())).abs() < 1.0e-14);
///
/// // The window is 1, so this path takes the place of the first. 0/9 keeps its entry until a tidy.
/// tracker.add_path(&[node])?;
/// let divergence = tracker.posterior_kl_divergence(tables, priors, node)?;
/// assert!((divergence.unwrap() - (137.0 / 60.0 - 6.0_f64.ln())).abs() < 1.0e-14);
/// assert_eq!(tracker.state(), State { window: 1, used: 3, accepted: 2 });
/// tracker.tidy()?;
/// assert_eq!(tracker.state(), State { window: 1, used: 1, accepted: 2 });
/// # Ok(())
/// # }
/// ```
#[derive(Debug)]
pub struct Tracker<'m> {
    state: State,
    book: &'m mut [u8],
    queue: &'m mut [u8],
}

/// Output places: a place is an address, eight bytes in one slice, and a figure in the other.
#[derive(Debug)]
pub struct Output<'a> {
    /// Eight bytes a place.
    pub addresses: &'a mut [u8],
    /// One figure a place.
    pub figures: &'a mut [f64],
}

impl Output<'_> {
    /// The first `places` places: addresses with their figures.
    pub fn places(&self, places: u32) -> impl Iterator<Item = (Address, f64)> + '_ {
        let address = |bytes: &[u8]| Address::from_bytes(bytes.try_into().expect("eight bytes"));
        let addresses = self.addresses.chunks_exact(Address::BYTES).map(address);
        addresses.zip(self.figures.iter().copied()).take(places as usize)
    }
}

/// What stands in the result of a probability vector; its children are in the output.
#[derive(Debug, Clone, Copy, PartialEq)]
pub struct ProbVector {
    /// Places filled, one a child.
    pub places: u32,
    /// The ending's figure.
    pub ending: f64,
}

/// What stands in the result of `all_node_kl`; its nodes are in the output.
#[derive(Debug, Clone, Copy, PartialEq, Eq)]
pub struct NodeKlList {
    /// Places filled, one a listed node with a prior.
    pub places: u32,
    /// Listed nodes without a prior.
    pub skipped: u32,
}

/// The statistics over divergences strictly above 1.0e-10.
#[derive(Debug, Clone, Copy, PartialEq)]
pub struct KLDivergenceStats {
    /// The maximum, f64::MIN if there are none.
    pub maximum: f64,
    /// The minimum, f64::MAX if there are none.
    pub minimum: f64,
    /// Their number.
    pub number: u64,
    /// Their sum.
    pub sum: f64,
    /// The sum of their squares.
    pub sum_of_squares: f64,
    /// Paths in the window part.
    pub sequence_length: u64,
    /// Listed nodes without a prior.
    pub skipped: u64,
}

impl<'m> Tracker<'m> {
    /// Opens a tracker: book and queue become zero. The window is the number of paths that count, 0
    /// for all of them.
    ///
    /// # Errors
    /// 8 for a window over 1,024, 9 for the length of book or queue.
    ///
    /// ```
    /// use teakpool::{Refusal, Tracker};
    ///
    /// assert_eq!(Tracker::open(1_025, &mut [0; 24], &mut []).unwrap_err(), Refusal::Window);
    /// assert_eq!(Tracker::open(1, &mut [0; 24], &mut [0; 515]).unwrap_err(), Refusal::Form);
    /// assert!(Tracker::open(0, &mut [0; 24], &mut []).is_ok());
    /// ```
    ///
    /// # How large a book
    /// A book with an entry for each different node and each different transition takes a list of paths in
    /// any order and with any window. A smaller one that has an entry or more refuses some of them with
    /// [`Refusal::BookFull`]. So a book is sized by paths that were recorded: they run through a large one,
    /// which tells how many it used. A watch that tidies gets by with less (docs/RULES.md, section 10).
    ///
    /// ```
    /// use teakpool::{Address, Refusal, Tracker, ENTRY_BYTES};
    ///
    /// let [one, two, three] = [(2, 0), (1, 0), (0, 4)].map(|(scale, point)| Address::new(scale, point));
    /// let recorded: [&[Address]; 4] = [&[one, two], &[one, two, three], &[one, two], &[one, three]];
    /// let mut book = [0; 64 * ENTRY_BYTES];
    /// let mut large = Tracker::open(0, &mut book, &mut [])?;
    /// recorded.iter().try_for_each(|path| large.add_path(path))?;
    /// let needed = large.state().used as usize;
    /// assert_eq!(needed, 3 + 3);
    ///
    /// let mut sized = Tracker::open(0, &mut book[..needed * ENTRY_BYTES], &mut [])?;
    /// recorded.iter().rev().try_for_each(|path| sized.add_path(path))?;
    /// assert_eq!(sized.state().used as usize, needed);
    ///
    /// let mut smaller = Tracker::open(0, &mut book[..(needed - 1) * ENTRY_BYTES], &mut [])?;
    /// let refused = recorded.map(|path| smaller.add_path(path).err());
    /// assert_eq!(refused, [None, None, None, Some(Refusal::BookFull)]);
    /// # Ok::<(), Refusal>(())
    /// ```
    pub fn open(window: u32, book: &'m mut [u8], queue: &'m mut [u8]) -> Result<Tracker<'m>, Refusal> {
        let mut state = [0; 3];
        let answer = archive::open(window, book, queue, &mut state);
        done(answer, Address::default())?;
        Ok(Tracker { state: State::of(state), book, queue })
    }

    /// Goes on with a tracker whose memory and state were kept elsewhere. Each call tests their
    /// form and refuses with 9 where it is broken.
    ///
    /// ```
    /// use teakpool::{Address, Refusal, State, Tracker};
    ///
    /// let (mut book, path) = ([0; 24], [Address::new(1, 7)]);
    /// let state = Tracker::open(0, &mut book, &mut [])?.state();
    /// Tracker::resume(state, &mut book, &mut []).add_path(&path)?;
    ///
    /// let longer = State { used: 2, ..state };
    /// let answer = Tracker::resume(longer, &mut book, &mut []).add_path(&path);
    /// assert_eq!(answer, Err(Refusal::Form));
    /// # Ok::<(), Refusal>(())
    /// ```
    pub fn resume(state: State, book: &'m mut [u8], queue: &'m mut [u8]) -> Tracker<'m> {
        Tracker { state, book, queue }
    }

    /// The state, to keep it or to show it.
    pub fn state(&self) -> State {
        self.state
    }

    /// The book, whose first `state().used` entries are node, kind, child address and count. The counts
    /// of a node's entries together, its evidence total, are its visits in the window, as long as nothing
    /// but the tracker wrote there (docs/RULES.md, section 7, says what else they may not be read as).
    ///
    /// ```
    /// use teakpool::{Address, Refusal, Tracker, ENTRY_BYTES, PLACE_BYTES};
    ///
    /// let (mut book, mut queue) = ([0; 4 * ENTRY_BYTES], [0; PLACE_BYTES]);
    /// let mut tracker = Tracker::open(1, &mut book, &mut queue)?;
    /// let node = Address::new(1, 7);
    /// tracker.add_path(&[node])?;
    /// tracker.add_path(&[node, Address::new(0, 9), node])?;
    ///
    /// let entries = tracker.book().chunks_exact(ENTRY_BYTES).take(tracker.state().used as usize);
    /// let count = |entry: &[u8]| u32::from_le_bytes(entry[20..].try_into().expect("four bytes"));
    /// let visits: u32 = entries.filter(|entry| entry[..8] == node.bytes()).map(count).sum();
    /// assert_eq!(visits, 2);
    /// # Ok::<(), Refusal>(())
    /// ```
    pub fn book(&self) -> &[u8] {
        self.book
    }

    /// The queue.
    pub fn queue(&self) -> &[u8] {
        self.queue
    }

    /// Adds a path of 1 to 64 steps: its transitions and its ending gain 1, and the path that leaves
    /// the window loses them. Nothing is allocated.
    ///
    /// # Errors
    /// 9 for the tracker's form, 10 for the number of steps, 11 where 16,777,216 paths are accepted, 12
    /// where the book has no room for the path's nodes and transitions.
    ///
    /// ```
    /// use teakpool::{Address, Refusal, State, Tracker};
    ///
    /// let mut book = [0; 48];
    /// let mut tracker = Tracker::open(0, &mut book, &mut [])?;
    /// assert_eq!(tracker.add_path(&[]), Err(Refusal::PathLength));
    /// let path = [Address::new(1, 7), Address::new(0, 9)];
    /// assert_eq!(tracker.add_path(&path), Err(Refusal::BookFull));
    /// tracker.add_path(&path[..1])?;
    /// assert_eq!(tracker.state(), State { window: 0, used: 1, accepted: 1 });
    /// # Ok::<(), Refusal>(())
    /// ```
    pub fn add_path(&mut self, path: &[Address]) -> Result<(), Refusal> {
        self.add_path_bytes(PathBytes::of(path).bytes())
    }

    /// The same for a path that is at hand as bytes, eight a step.
    ///
    /// # Errors
    /// As `add_path`; 10 also where the bytes are not whole steps.
    pub fn add_path_bytes(&mut self, path: &[u8]) -> Result<(), Refusal> {
        let mut state = self.state.words();
        let answer = archive::add_path(&mut state, self.book, self.queue, path);
        done(answer, Address::default())?;
        self.state = State::of(state);
        Ok(())
    }

    /// Adds a list of paths, each as [`Tracker::add_path`] adds it, up to the first that is refused, and
    /// tells how many it took: 516 bytes a path, as [`place_bytes`](crate::place_bytes) makes them; bytes
    /// after a path's steps are not read. The form is tested once, when the call begins, so that a long list
    /// costs much less than its paths one by one. For that the call takes about 100 KB of stack, and zeroes
    /// and fills tables there: it pays from some 100 paths on.
    ///
    /// # Errors
    /// 9 for the tracker's form, and nothing changes. Then the first path that is refused ends the call, and
    /// those before it stay in: 10 where under 516 bytes are left for it or its number of steps is not 1 to
    /// 64, 11 and 12 as in `add_path`. [`Stopped`] tells how many were taken, so which path it was; what
    /// comes after it was not tried.
    ///
    /// ```
    /// use teakpool::{place_bytes, Address, Refusal, State, Stopped, Tracker, ENTRY_BYTES, PLACE_BYTES};
    ///
    /// let (mut book, mut queue) = ([0; 5 * ENTRY_BYTES], [0; PLACE_BYTES]);
    /// let mut tracker = Tracker::open(1, &mut book, &mut queue)?;
    /// let path_to = |point: u32| place_bytes(&[Address::new(1, 7), Address::new(0, point)]);
    /// let day = [9, 9, 7, 8, 8].map(path_to).concat();
    ///
    /// // Two children fill the book, so that there is no room for 0/8 until 0/9 is tidied away.
    /// let stopped = tracker.add_paths(&day);
    /// assert_eq!(stopped, Err(Stopped { taken: 3, refusal: Refusal::BookFull }));
    /// tracker.tidy()?;
    /// assert_eq!(tracker.add_paths(&day[3 * PLACE_BYTES..]), Ok(2));
    /// assert_eq!(tracker.state(), State { window: 1, used: 5, accepted: 5 });
    /// # Ok::<(), Refusal>(())
    /// ```
    pub fn add_paths(&mut self, places: &[u8]) -> Result<u32, Stopped> {
        let (mut state, mut taken) = (self.state.words(), 0);
        let answer = archive::add_paths(&mut state, self.book, self.queue, places, &mut taken);
        self.state = State::of(state);
        done(answer, Address::default()).map(|()| taken).map_err(|refusal| Stopped { taken, refusal })
    }

    /// Tidies the book: drops every child entry with a count of 0 and every node whose ending and children
    /// are all 0, closes the gaps and zeroes the rest. Later paths may use the places. The entries used
    /// become the number kept; window, paths accepted, all counts and the queue stay. With a window of 0
    /// no path leaves, and nothing is dropped.
    ///
    /// # Errors
    /// 9 for the tracker's form.
    ///
    /// ```
    /// use teakpool::{Address, Refusal, State, Tracker, ENTRY_BYTES, PLACE_BYTES};
    ///
    /// let (mut book, mut queue) = ([0; 5 * ENTRY_BYTES], [0; PLACE_BYTES]);
    /// let mut tracker = Tracker::open(1, &mut book, &mut queue)?;
    /// let path_to = |point: u32| [Address::new(1, 7), Address::new(0, point)];
    /// tracker.add_path(&path_to(9))?;
    /// tracker.add_path(&path_to(7))?;
    ///
    /// // The first path has left the window; its node 0/9 and its transition fill the book with zeros.
    /// assert_eq!(tracker.state(), State { window: 1, used: 5, accepted: 2 });
    /// assert_eq!(tracker.add_path(&path_to(8)), Err(Refusal::BookFull));
    /// tracker.tidy()?;
    /// assert_eq!(tracker.state(), State { window: 1, used: 3, accepted: 2 });
    /// tracker.add_path(&path_to(8))?;
    /// assert_eq!(tracker.state(), State { window: 1, used: 5, accepted: 3 });
    /// # Ok::<(), Refusal>(())
    /// ```
    pub fn tidy(&mut self) -> Result<(), Refusal> {
        let mut state = self.state.words();
        let answer = archive::tidy(&mut state, self.book, self.queue);
        done(answer, Address::default())?;
        self.state = State::of(state);
        Ok(())
    }

    /// A node's probabilities, evidence added to the prior. None if the node has no prior.
    ///
    /// # Errors
    /// 3 to 7 and 22 for the priors, 9 for the tracker's form, 13 where the output has fewer places than
    /// the node has children.
    ///
    #[cfg_attr(feature = "std", doc = "```")]
    #[cfg_attr(not(feature = "std"), doc = "```ignore")]
    /// use teakpool::*;
    ///
    /// let (node, child) = (Address::new(1, 7), Address::new(0, 9));
    /// let mut records = PriorRecords::default();
    /// records.node(node, 1, &[(child, 2)]);
    /// let mut book = [0; 72];
    /// let mut tracker = Tracker::open(0, &mut book, &mut [])?;
    /// tracker.add_path(&[node, child])?;
    /// let mut output = Output { addresses: &mut [0; 8], figures: &mut [0.0] };
    /// let vector = tracker.prob_vector(records.lent(), node, &mut output)?;
    /// assert_eq!(vector, Some(ProbVector { places: 1, ending: 0.25 }));
    /// assert_eq!(output.places(1).collect::<Vec<_>>(), [(child, 0.75)]);
    /// assert_eq!(tracker.prob_vector(records.lent(), child, &mut output)?, None);
    /// # Ok::<(), Refusal>(())
    /// ```
    pub fn prob_vector(
        &self,
        priors: Priors,
        node: Address,
        output: &mut Output,
    ) -> Result<Option<ProbVector>, Refusal> {
        let (mut places, mut ending) = (0, 0.0);
        let answer = archive::prob_vector(
            (&self.state.words(), self.book, self.queue),
            priors.parts(),
            (node.scale, node.point),
            (output.addresses, output.figures),
            (&mut places, &mut ending),
        );
        answered(answer, node, ProbVector { places, ending })
    }

    /// A node's probabilities by its evidence alone. None if the node is unlisted or its total is 0.
    ///
    /// # Errors
    /// 9 for the tracker's form, 13 where the output has fewer places than the node has children.
    ///
    /// ```
    /// use teakpool::*;
    ///
    /// let node = Address::new(1, 7);
    /// let mut book = [0; 72];
    /// let mut tracker = Tracker::open(0, &mut book, &mut [])?;
    /// tracker.add_path(&[node, Address::new(0, 9)])?;
    /// tracker.add_path(&[node])?;
    /// let mut output = Output { addresses: &mut [0; 8], figures: &mut [0.0] };
    /// let vector = tracker.evidence_prob_vector(node, &mut output)?;
    /// assert_eq!(vector, Some(ProbVector { places: 1, ending: 0.5 }));
    /// assert_eq!(output.places(1).collect::<Vec<_>>(), [(Address::new(0, 9), 0.5)]);
    /// # Ok::<(), Refusal>(())
    /// ```
    pub fn evidence_prob_vector(
        &self,
        node: Address,
        output: &mut Output,
    ) -> Result<Option<ProbVector>, Refusal> {
        let (mut places, mut ending) = (0, 0.0);
        let answer = archive::evidence_prob_vector(
            (&self.state.words(), self.book, self.queue),
            (node.scale, node.point),
            (output.addresses, output.figures),
            (&mut places, &mut ending),
        );
        answered(answer, node, ProbVector { places, ending })
    }

    /// One node's divergence. None if it is unlisted or has no prior.
    ///
    /// # Errors
    /// 1 and 2 for the tables, 3 to 7 and 22 for the priors, 9 for the tracker's form; 14 where a child
    /// listed under the node is not in its prior, 15 where the tables are too short for it.
    pub fn posterior_kl_divergence(
        &self,
        tables: Tables,
        priors: Priors,
        node: Address,
    ) -> Result<Option<f64>, Refusal> {
        let mut value = 0.0;
        let answer = archive::posterior_kl_divergence(
            (&self.state.words(), self.book, self.queue),
            priors.parts(),
            (tables.g, tables.d),
            (node.scale, node.point),
            &mut value,
        );
        answered(answer, node, value)
    }

    /// The divergences of all listed nodes that have a prior, ascending.
    ///
    /// # Errors
    /// 1 and 2 for the tables, 3 to 7 and 22 for the priors, 9 for the tracker's form, 13 where the output
    /// has fewer places than there are such nodes; then 14 and 15 by node ascending.
    ///
    #[cfg_attr(feature = "std", doc = "```")]
    #[cfg_attr(not(feature = "std"), doc = "```ignore")]
    /// use teakpool::*;
    ///
    /// let tables = gamma_tables(7);
    /// let (node, child) = (Address::new(1, 7), Address::new(0, 9));
    /// let mut records = PriorRecords::default();
    /// records.node(node, 1, &[(Address::new(0, 7), 2), (child, 3)]);
    /// let mut book = [0; 3 * ENTRY_BYTES];
    /// let mut tracker = Tracker::open(0, &mut book, &mut [])?;
    /// tracker.add_path(&[node, child])?;
    ///
    /// let mut output = Output { addresses: &mut [0; 8], figures: &mut [0.0] };
    /// let list = tracker.all_node_kl(tables.lent(), records.lent(), &mut output)?;
    /// // The child is listed as well, and has no prior.
    /// assert_eq!(list, NodeKlList { places: 1, skipped: 1 });
    /// for (at, divergence) in output.places(list.places) {
    ///     assert_eq!(at, node);
    ///     assert!((divergence - (47.0 / 60.0 - 2.0_f64.ln())).abs() < 1.0e-14);
    /// }
    ///
    /// let mut none = Output { addresses: &mut [], figures: &mut [] };
    /// let answer = tracker.all_node_kl(tables.lent(), records.lent(), &mut none);
    /// assert_eq!(answer, Err(Refusal::OutputShort));
    /// # Ok::<(), Refusal>(())
    /// ```
    pub fn all_node_kl(
        &self,
        tables: Tables,
        priors: Priors,
        output: &mut Output,
    ) -> Result<NodeKlList, Refusal> {
        let (mut counts, mut node) = ([0; 2], Address::default());
        let answer = archive::all_node_kl(
            (&self.state.words(), self.book, self.queue),
            priors.parts(),
            (tables.g, tables.d),
            (output.addresses, output.figures),
            &mut counts,
            (&mut node.scale, &mut node.point),
        );
        done(answer, node)?;
        Ok(NodeKlList { places: counts[0], skipped: counts[1] })
    }

    /// The statistics over all divergences.
    ///
    /// # Errors
    /// As `all_node_kl`, without 13.
    pub fn kl_div_stats(&self, tables: Tables, priors: Priors) -> Result<KLDivergenceStats, Refusal> {
        let (mut figures, mut counts, mut node) = ([0.0; 4], [0; 3], Address::default());
        let answer = archive::kl_div_stats(
            (&self.state.words(), self.book, self.queue),
            priors.parts(),
            (tables.g, tables.d),
            &mut figures,
            &mut counts,
            (&mut node.scale, &mut node.point),
        );
        done(answer, node)?;
        let [maximum, minimum, sum, sum_of_squares] = figures;
        let [number, sequence_length, skipped] = counts;
        Ok(KLDivergenceStats { maximum, minimum, number, sum, sum_of_squares, sequence_length, skipped })
    }
}

/// Entries that a path of 64 steps needs: its nodes and its transitions.
const PATH_ENTRIES: usize = 2 * MAX_STEPS - 1;

/// Tries a path by itself, before it is added to a tracker. It takes about 20 KB of stack: 3 for a
/// book of its own, and 17 that every call takes which is lent priors.
///
/// # Errors
/// What `kl_div_stats` would give for a tracker that has this path and no other: 14 with a node of
/// the path that goes on to a child which its prior does not have, 15 where the tables are too short
/// even for this path alone, 1 to 7 and 22 for tables and priors; and 10 for the number of steps.
///
#[cfg_attr(feature = "std", doc = "```")]
#[cfg_attr(not(feature = "std"), doc = "```ignore")]
/// use teakpool::*;
///
/// let (node, nine) = (Address::new(1, 7), Address::new(0, 9));
/// let mut records = PriorRecords::default();
/// records.node(node, 1, &[(nine, 3)]);
/// let tables = gamma_tables(40);
/// assert_eq!(try_path(tables.lent(), records.lent(), &[node, nine]), Ok(()));
/// let unseen = try_path(tables.lent(), records.lent(), &[node, node]);
/// assert_eq!(unseen, Err(Refusal::MissingChild(node)));
/// ```
pub fn try_path(tables: Tables, priors: Priors, path: &[Address]) -> Result<(), Refusal> {
    let mut book = [0; PATH_ENTRIES * ENTRY_BYTES];
    let mut tracker = Tracker::open(0, &mut book, &mut [])?;
    tracker.add_path(path)?;
    tracker.kl_div_stats(tables, priors).map(|_| ())
}
