//! Plays calls: `History` is the recount, `Bytes` carries the calls out on lent memory. Both
//! show their state, book and queue after any call.

use crate::calls::{Call, Places, PriorBytes, Tables};
use recount::{
    all_node_kl, evidence_prob_vector, kl_div_stats, memory, posterior_kl_divergence, prob_vector,
    same_figures, Batch, Evidence, KLDivergenceStats, Memory, NodeKlList, ProbVector, Recount, Refusal,
    State, Tracker,
};

/// A tracker that calls can be played on. Before the first accepted opening its state is all
/// zero and it has no bytes; readings, adds and tidies come only after one.
pub trait Side: Tracker {
    /// An opening.
    fn open(&mut self, window: u32, book_len: usize, queue_len: usize) -> Result<(), Refusal>;
    /// An add.
    fn add_path(&mut self, path: &[u8]) -> Result<(), Refusal>;
    /// An add of the paths in queue places.
    fn add_paths(&mut self, places: &[u8]) -> Batch;
    /// A tidy.
    fn tidy(&mut self) -> Result<(), Refusal>;
    /// The state.
    fn state(&self) -> State;
    /// The book.
    fn book(&self) -> Vec<u8>;
    /// The queue.
    fn queue(&self) -> Vec<u8>;
}

/// The recount's side.
#[derive(Debug, Default)]
pub struct History(Option<Recount>);

impl History {
    fn opened(&self) -> &Recount {
        self.0.as_ref().expect("calls come after an accepted opening")
    }
    fn opened_mut(&mut self) -> &mut Recount {
        self.0.as_mut().expect("adds and tidies come after an accepted opening")
    }
}

impl Tracker for History {
    fn evidence(&self) -> Result<Evidence, Refusal> {
        self.opened().evidence()
    }
}

impl Side for History {
    fn open(&mut self, window: u32, book_len: usize, queue_len: usize) -> Result<(), Refusal> {
        self.0 = Some(Recount::open(window, book_len, queue_len)?);
        Ok(())
    }
    fn add_path(&mut self, path: &[u8]) -> Result<(), Refusal> {
        self.opened_mut().add_path(path)
    }
    fn add_paths(&mut self, places: &[u8]) -> Batch {
        self.opened_mut().add_paths(places)
    }
    fn tidy(&mut self) -> Result<(), Refusal> {
        self.opened_mut().tidy();
        Ok(())
    }
    fn state(&self) -> State {
        self.0.as_ref().map(Recount::state).unwrap_or_default()
    }
    fn book(&self) -> Vec<u8> {
        self.0.as_ref().map(Recount::book).unwrap_or_default()
    }
    fn queue(&self) -> Vec<u8> {
        self.0.as_ref().map(Recount::queue).unwrap_or_default()
    }
}

/// The lent bytes' side. The buffers only grow; a tracker has the front of each, as long as
/// its opening says.
#[derive(Debug)]
pub struct Bytes {
    fill: u8,
    state: State,
    book: Vec<u8>,
    queue: Vec<u8>,
    book_len: usize,
    queue_len: usize,
}

impl Bytes {
    /// Memory that holds `fill` everywhere.
    pub fn filled(fill: u8) -> Bytes {
        let (book, queue) = (Vec::new(), Vec::new());
        Bytes { fill, state: State::default(), book, queue, book_len: 0, queue_len: 0 }
    }
}

impl Tracker for Bytes {
    fn evidence(&self) -> Result<Evidence, Refusal> {
        let (book, queue) = (&self.book[..self.book_len], &self.queue[..self.queue_len]);
        Memory { state: self.state, book, queue }.evidence()
    }
}

impl Side for Bytes {
    fn open(&mut self, window: u32, book_len: usize, queue_len: usize) -> Result<(), Refusal> {
        self.book.resize(self.book.len().max(book_len), self.fill);
        self.queue.resize(self.queue.len().max(queue_len), self.fill);
        self.state = memory::open(window, &mut self.book[..book_len], &mut self.queue[..queue_len])?;
        (self.book_len, self.queue_len) = (book_len, queue_len);
        Ok(())
    }
    fn add_path(&mut self, path: &[u8]) -> Result<(), Refusal> {
        let (book, queue) = (&mut self.book[..self.book_len], &mut self.queue[..self.queue_len]);
        self.state = memory::add_path(self.state, book, queue, path)?;
        Ok(())
    }
    fn add_paths(&mut self, places: &[u8]) -> Batch {
        let (book, queue) = (&mut self.book[..self.book_len], &mut self.queue[..self.queue_len]);
        memory::add_paths(&mut self.state, book, queue, places)
    }
    fn tidy(&mut self) -> Result<(), Refusal> {
        let (book, queue) = (&mut self.book[..self.book_len], &self.queue[..self.queue_len]);
        self.state = memory::tidy(self.state, book, queue)?;
        Ok(())
    }
    fn state(&self) -> State {
        self.state
    }
    fn book(&self) -> Vec<u8> {
        self.book[..self.book_len].to_vec()
    }
    fn queue(&self) -> Vec<u8> {
        self.queue[..self.queue_len].to_vec()
    }
}

/// What a call gives, with its output places afterwards.
#[derive(Debug, Clone)]
pub enum Answer {
    /// To a lending.
    Lent,
    /// To an opening, an add or a tidy.
    Changed(Result<(), Refusal>),
    /// To an add of several paths.
    Batch(Batch),
    /// To a probability vector.
    Vector(Result<Option<ProbVector>, Refusal>, Places),
    /// To one node's divergence.
    Divergence(Result<Option<f64>, Refusal>),
    /// To all nodes' divergences.
    List(Result<NodeKlList, Refusal>, Places),
    /// To the statistics.
    Stats(Result<KLDivergenceStats, Refusal>),
}

impl Answer {
    /// The same answer: numbers equal, figures and output places by their bits.
    pub fn same(&self, other: &Answer) -> bool {
        let figures = same_figures(&self.told(), &other.told());
        match (self, other) {
            (Answer::Lent, Answer::Lent) => true,
            (Answer::Changed(one), Answer::Changed(other)) => one == other,
            (Answer::Batch(one), Answer::Batch(other)) => one == other,
            (Answer::Vector(one, left), Answer::Vector(other, right)) => {
                let places = |vector: &Option<ProbVector>| vector.map(|vector| vector.places);
                let same = same_result(one, other, |one, other| places(one) == places(other));
                same && figures && left.same(right)
            }
            (Answer::Divergence(one), Answer::Divergence(other)) => {
                same_result(one, other, |one, other| one.is_some() == other.is_some()) && figures
            }
            (Answer::List(one, left), Answer::List(other, right)) => one == other && left.same(right),
            (Answer::Stats(one), Answer::Stats(other)) => {
                let counts = |stats: &KLDivergenceStats| (stats.nz_count, stats.sequence_len, stats.skipped);
                same_result(one, other, |one, other| counts(one) == counts(other)) && figures
            }
            _ => false,
        }
    }

    /// The refusal that it is, if it is one.
    pub fn refusal(&self) -> Option<Refusal> {
        match self {
            Answer::Lent => None,
            Answer::Changed(answer) => answer.err(),
            Answer::Batch(batch) => batch.refusal,
            Answer::Vector(answer, _) => answer.err(),
            Answer::Divergence(answer) => answer.err(),
            Answer::List(answer, _) => answer.err(),
            Answer::Stats(answer) => answer.err(),
        }
    }

    /// The number of that refusal, 0 where it is none.
    pub fn number(&self) -> u32 {
        self.refusal().map_or(0, |refusal| refusal.number)
    }

    /// Whether the call changes the tracker.
    pub fn changes(&self) -> bool {
        matches!(self, Answer::Changed(Ok(())) | Answer::Batch(Batch { taken: 1.., .. }))
    }

    /// The figures of the answer: those in its result, then those of the places that it filled.
    pub fn told(&self) -> Vec<f64> {
        let filled = |places: u32, output: &Places| -> Vec<f64> {
            output.figures.iter().take(places as usize).copied().collect()
        };
        match self {
            Answer::Vector(Ok(Some(vector)), output) => {
                [vec![vector.ending], filled(vector.places, output)].concat()
            }
            Answer::Divergence(Ok(Some(figure))) => vec![*figure],
            Answer::List(Ok(list), output) => filled(list.places, output),
            Answer::Stats(Ok(stats)) => vec![stats.max, stats.min, stats.moment1_nz, stats.moment2_nz],
            _ => Vec::new(),
        }
    }
}

/// The same refusal, or values that `same` holds equal.
pub fn same_result<T>(
    one: &Result<T, Refusal>,
    other: &Result<T, Refusal>,
    same: impl Fn(&T, &T) -> bool,
) -> bool {
    match (one, other) {
        (Ok(one), Ok(other)) => same(one, other),
        (Err(one), Err(other)) => one == other,
        _ => false,
    }
}

/// A side with what is lent to its readings.
#[derive(Debug)]
pub struct Player<S> {
    /// The tracker.
    pub side: S,
    /// The tables lent last.
    pub tables: Tables,
    /// The priors lent last.
    pub priors: PriorBytes,
}

impl<S: Side> Player<S> {
    /// A side with nothing lent yet.
    pub fn new(side: S) -> Player<S> {
        Player { side, tables: Tables::default(), priors: PriorBytes::default() }
    }

    /// Carries out one call.
    pub fn play(&mut self, call: &Call) -> Answer {
        let (side, tables, priors) = (&self.side, self.tables.lent(), self.priors.lent());
        match call {
            Call::Open { window, book_len, queue_len } => {
                Answer::Changed(self.side.open(*window, *book_len, *queue_len))
            }
            Call::Add { path } => Answer::Changed(self.side.add_path(path)),
            Call::AddPaths { places } => Answer::Batch(self.side.add_paths(places)),
            Call::Tidy => Answer::Changed(self.side.tidy()),
            Call::LendTables(tables) => {
                self.tables = tables.clone();
                Answer::Lent
            }
            Call::LendPriors(priors) => {
                self.priors = priors.clone();
                Answer::Lent
            }
            Call::ProbVector { node, output } => {
                let mut output = output.clone();
                Answer::Vector(prob_vector(side, priors, *node, &mut output.lent()), output)
            }
            Call::EvidenceProbVector { node, output } => {
                let mut output = output.clone();
                Answer::Vector(evidence_prob_vector(side, *node, &mut output.lent()), output)
            }
            Call::PosteriorKlDivergence { node } => {
                Answer::Divergence(posterior_kl_divergence(side, tables, priors, *node))
            }
            Call::AllNodeKl { output } => {
                let mut output = output.clone();
                Answer::List(all_node_kl(side, tables, priors, &mut output.lent()), output)
            }
            Call::KlDivStats => Answer::Stats(kl_div_stats(side, tables, priors)),
        }
    }
}
