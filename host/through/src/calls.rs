//! The archive's calls on guarded memory. Each lays its arguments down, calls, and gives the
//! answer in the recount's form. After every call all bands must stand, what is only read must
//! be as it was, and results must be unwritten unless the answer says otherwise.

use crate::guard::{Lent, Plain};
use archive::raw::NONE;
use cases::baselines::Training;
use cases::calls::{Places, PriorBytes, Tables};
use cases::lookups::Looked;
use recount::limits::KNOT_VALUES;
use recount::{Address, Batch, ChildLookup, KLDivergenceStats, NodeKlList, ProbVector, Refusal, State};

/// What results hold before a call.
const UNWRITTEN: u32 = 0x5eed_5eed;
const UNWRITTEN_FIGURE: f64 = -12_345.678_9;

/// What went wrong around a call.
pub type Told<T> = Result<T, String>;

/// All that is lent, one place each.
#[derive(Default)]
pub struct Archive {
    state: Lent<u32>,
    book: Lent<u8>,
    queue: Lent<u8>,
    path: Lent<u8>,
    nodes: Lent<u8>,
    children: Lent<u8>,
    floor: i32,
    g: Lent<f64>,
    d: Lent<f64>,
    addresses: Lent<u8>,
    figures: Lent<f64>,
    places: Lent<u32>,
    ending: Lent<f64>,
    numbers: Lent<u64>,
    count: Lent<u32>,
    read: Lent<u32>,
    node_scale: Lent<i32>,
    node_point: Lent<u32>,
    /// The places of a training, or of an add of several paths.
    sequences: Lent<u8>,
    knots: Lent<u32>,
    values: Lent<f64>,
    /// Calls made.
    pub calls: u64,
}

/// A tracker's memory: what calls are given, and what they leave.
#[derive(Debug, Clone, PartialEq, Eq)]
pub struct Held {
    /// The state.
    pub state: State,
    /// The book.
    pub book: Vec<u8>,
    /// The queue.
    pub queue: Vec<u8>,
}

fn must(holds: bool, what: &str) -> Told<()> {
    if holds {
        Ok(())
    } else {
        Err(format!("the archive: {}", what))
    }
}

fn bits(figures: &[f64]) -> impl Iterator<Item = u64> + '_ {
    figures.iter().map(|figure| figure.to_bits())
}

fn refused(number: u32, node: Option<Address>) -> Refusal {
    Refusal { number, node: node.filter(|_| number == 14 || number == 15) }
}

fn carried_out(answer: u32) -> Result<(), Refusal> {
    match answer {
        0 => Ok(()),
        number => Err(refused(number, None)),
    }
}

fn unwritten<T: Plain + PartialEq>(lent: &Lent<T>, value: T) -> bool {
    lent.now().iter().all(|word| *word == value)
}

impl Archive {
    /// The memory as it is.
    pub fn held(&self) -> Held {
        let [window, used, accepted] = self.words();
        Held {
            state: State { window, used, accepted },
            book: self.book.now().to_vec(),
            queue: self.queue.now().to_vec(),
        }
    }

    /// The entries used and the book, as they are; none are used where no state was lent yet.
    pub fn used_and_book(&self) -> (u32, &[u8]) {
        (self.state.now().get(1).copied().unwrap_or(0), self.book.now())
    }

    /// Whether state, book and queue are these, byte for byte.
    pub fn holds(&self, held: &Held) -> bool {
        let State { window, used, accepted } = held.state;
        self.words() == [window, used, accepted]
            && self.book.now() == held.book
            && self.queue.now() == held.queue
    }

    fn words(&self) -> [u32; 3] {
        *self.state.array()
    }

    /// Takes memory over from elsewhere.
    pub fn hold(&mut self, held: &Held) {
        self.state.lay(&[held.state.window, held.state.used, held.state.accepted]);
        self.book.lay(&held.book);
        self.queue.lay(&held.queue);
    }

    /// Lends priors to the readings that follow.
    pub fn lend_priors(&mut self, priors: &PriorBytes) {
        self.nodes.lay(&priors.nodes);
        self.children.lay(&priors.children);
        self.floor = priors.floor;
    }

    /// Lends tables to the readings that follow.
    pub fn lend_tables(&mut self, tables: &Tables) {
        self.g.lay(&tables.g);
        self.d.lay(&tables.d);
    }

    /// Whether the priors lent last are still these.
    pub fn lends_priors(&self, priors: &PriorBytes) -> bool {
        self.nodes.now() == priors.nodes && self.children.now() == priors.children
    }

    /// Whether the tables lent last are still these.
    pub fn lends_tables(&self, tables: &Tables) -> bool {
        bits(self.g.now()).eq(bits(&tables.g)) && bits(self.d.now()).eq(bits(&tables.d))
    }

    /// The bands of all that is lent; called after every call.
    fn bands(&mut self) -> Told<()> {
        self.calls += 1;
        let bytes = [
            &self.book,
            &self.queue,
            &self.path,
            &self.nodes,
            &self.children,
            &self.addresses,
            &self.sequences,
        ];
        let figures = [&self.g, &self.d, &self.figures, &self.ending, &self.values];
        let words = [&self.state, &self.places, &self.count, &self.read, &self.node_point, &self.knots];
        let stand = bytes.iter().all(|lent| lent.guarded())
            && figures.iter().all(|lent| lent.guarded())
            && words.iter().all(|lent| lent.guarded())
            && self.numbers.guarded()
            && self.node_scale.guarded();
        must(stand, "bytes beside a lent slice changed")
    }

    fn lay_node(&mut self) {
        self.node_scale.lay(&[UNWRITTEN as i32]);
        self.node_point.lay(&[UNWRITTEN]);
    }

    /// The node of 14 and 15; unwritten for any other answer.
    fn named(&self, answer: u32) -> Told<Option<Address>> {
        let (scale, point) = (self.node_scale.now()[0], self.node_point.now()[0]);
        if answer == 14 || answer == 15 {
            return Ok(Some(Address::new(scale, point)));
        }
        let as_laid = scale == UNWRITTEN as i32 && point == UNWRITTEN;
        must(as_laid, "a node was named for another answer than 14 and 15").map(|()| None)
    }

    /// `teakpool_check_tables` on the tables lent last.
    pub fn check_tables(&mut self) -> Told<Result<(), Refusal>> {
        let answer = archive::check_tables((self.g.now(), self.d.now()));
        self.bands()?;
        Ok(carried_out(answer))
    }

    /// `teakpool_check_priors` on the priors lent last.
    pub fn check_priors(&mut self) -> Told<Result<(), Refusal>> {
        let answer = archive::check_priors((self.nodes.now(), self.children.now(), self.floor));
        self.bands()?;
        Ok(carried_out(answer))
    }

    /// `teakpool_child` in the priors lent last. Where there is none, the number read alone is written.
    pub fn child(&mut self, node: Address, child: Address) -> Told<Looked> {
        self.count.lay(&[UNWRITTEN]);
        self.read.lay(&[UNWRITTEN]);
        let answer = archive::child(
            (self.nodes.now(), self.children.now(), self.floor),
            (node.scale, node.point),
            (child.scale, child.point),
            (self.count.number_mut(), self.read.number_mut()),
        );
        self.bands()?;
        let (count, read) = (self.count.now()[0], self.read.now()[0]);
        if answer == 0 {
            return Ok(Ok(ChildLookup { count: Some(count), read }));
        }
        must(count == UNWRITTEN, "the count of a child that is not there was told")?;
        if answer == NONE {
            return Ok(Ok(ChildLookup { count: None, read }));
        }
        must(read == UNWRITTEN, "a refused look-up told how many records it read")?;
        Ok(Err(refused(answer, None)))
    }

    /// `teakpool_open` on memory that holds `fill` everywhere. Where it is refused, the memory
    /// must be as it was, and the tracker before it stands.
    pub fn open(&mut self, window: u32, lengths: (usize, usize), fill: u8) -> Told<Result<(), Refusal>> {
        let before = (self.state.now().len() == 3).then(|| self.held());
        let (book, queue) = (vec![fill; lengths.0], vec![fill; lengths.1]);
        self.state.lay(&[UNWRITTEN; 3]);
        self.book.lay(&book);
        self.queue.lay(&queue);
        let answer = archive::open(window, self.book.now_mut(), self.queue.now_mut(), self.state.array_mut());
        self.bands()?;
        if answer == 0 {
            return Ok(Ok(()));
        }
        let kept = self.book.now() == book && self.queue.now() == queue && unwritten(&self.state, UNWRITTEN);
        must(kept, "a refused opening changed something")?;
        if let Some(before) = before {
            self.hold(&before);
        }
        Ok(Err(refused(answer, None)))
    }

    /// `teakpool_add_path`.
    pub fn add_path(&mut self, path: &[u8]) -> Told<Result<(), Refusal>> {
        self.path.lay(path);
        let answer = archive::add_path(
            self.state.array_mut(),
            self.book.now_mut(),
            self.queue.now_mut(),
            self.path.now(),
        );
        self.bands()?;
        must(self.path.now() == path, "an add changed its path")?;
        Ok(carried_out(answer))
    }

    /// `teakpool_add_paths`, which tells how many it took in every case.
    pub fn add_paths(&mut self, places: &[u8]) -> Told<Batch> {
        self.sequences.lay(places);
        self.count.lay(&[UNWRITTEN]);
        let answer = archive::add_paths(
            self.state.array_mut(),
            self.book.now_mut(),
            self.queue.now_mut(),
            self.sequences.now(),
            self.count.number_mut(),
        );
        self.bands()?;
        must(self.sequences.now() == places, "an add of several paths changed its places")?;
        must(!unwritten(&self.count, UNWRITTEN), "how many paths were taken was not told")?;
        Ok(Batch { taken: self.count.now()[0], refusal: carried_out(answer).err() })
    }

    /// `teakpool_tidy`. That it leaves the queue alone is for `holds` to tell.
    pub fn tidy(&mut self) -> Told<Result<(), Refusal>> {
        let answer = archive::tidy(self.state.array_mut(), self.book.now_mut(), self.queue.now());
        self.bands()?;
        Ok(carried_out(answer))
    }

    fn lay_output(&mut self, output: &Places) {
        self.addresses.lay(&output.addresses);
        self.figures.lay(&output.figures);
    }

    /// What a call left in the output.
    fn left(&self) -> Places {
        Places { addresses: self.addresses.now().to_vec(), figures: self.figures.now().to_vec() }
    }

    fn lay_vector(&mut self, output: &Places) {
        self.lay_output(output);
        self.places.lay(&[UNWRITTEN]);
        self.ending.lay(&[UNWRITTEN_FIGURE]);
    }

    fn vector(&mut self, answer: u32) -> Told<(Result<Option<ProbVector>, Refusal>, Places)> {
        self.bands()?;
        let left = self.left();
        if answer == 0 {
            let vector = ProbVector { places: self.places.now()[0], ending: self.ending.now()[0] };
            return Ok((Ok(Some(vector)), left));
        }
        let kept = unwritten(&self.places, UNWRITTEN) && unwritten(&self.ending, UNWRITTEN_FIGURE);
        must(kept, "a vector that is not there was told")?;
        Ok((if answer == NONE { Ok(None) } else { Err(refused(answer, None)) }, left))
    }

    /// `teakpool_prob_vector`.
    pub fn prob_vector(
        &mut self,
        node: Address,
        output: &Places,
    ) -> Told<(Result<Option<ProbVector>, Refusal>, Places)> {
        self.lay_vector(output);
        let answer = archive::prob_vector(
            (self.state.array(), self.book.now(), self.queue.now()),
            (self.nodes.now(), self.children.now(), self.floor),
            (node.scale, node.point),
            (self.addresses.now_mut(), self.figures.now_mut()),
            (self.places.number_mut(), self.ending.number_mut()),
        );
        self.vector(answer)
    }

    /// `teakpool_evidence_prob_vector`.
    pub fn evidence_prob_vector(
        &mut self,
        node: Address,
        output: &Places,
    ) -> Told<(Result<Option<ProbVector>, Refusal>, Places)> {
        self.lay_vector(output);
        let answer = archive::evidence_prob_vector(
            (self.state.array(), self.book.now(), self.queue.now()),
            (node.scale, node.point),
            (self.addresses.now_mut(), self.figures.now_mut()),
            (self.places.number_mut(), self.ending.number_mut()),
        );
        self.vector(answer)
    }

    /// `teakpool_posterior_kl_divergence`; 14 and 15 are about the node asked for.
    pub fn posterior_kl_divergence(&mut self, node: Address) -> Told<Result<Option<f64>, Refusal>> {
        self.ending.lay(&[UNWRITTEN_FIGURE]);
        let answer = archive::posterior_kl_divergence(
            (self.state.array(), self.book.now(), self.queue.now()),
            (self.nodes.now(), self.children.now(), self.floor),
            (self.g.now(), self.d.now()),
            (node.scale, node.point),
            self.ending.number_mut(),
        );
        self.bands()?;
        if answer == 0 {
            return Ok(Ok(Some(self.ending.now()[0])));
        }
        must(unwritten(&self.ending, UNWRITTEN_FIGURE), "a divergence that is not there was told")?;
        Ok(if answer == NONE { Ok(None) } else { Err(refused(answer, Some(node))) })
    }

    /// `teakpool_all_node_kl`.
    pub fn all_node_kl(&mut self, output: &Places) -> Told<(Result<NodeKlList, Refusal>, Places)> {
        self.lay_output(output);
        self.places.lay(&[UNWRITTEN; 2]);
        self.lay_node();
        let answer = archive::all_node_kl(
            (self.state.array(), self.book.now(), self.queue.now()),
            (self.nodes.now(), self.children.now(), self.floor),
            (self.g.now(), self.d.now()),
            (self.addresses.now_mut(), self.figures.now_mut()),
            self.places.array_mut(),
            (self.node_scale.number_mut(), self.node_point.number_mut()),
        );
        self.bands()?;
        let node = self.named(answer)?;
        let left = self.left();
        if answer == 0 {
            let counts = self.places.now();
            return Ok((Ok(NodeKlList { places: counts[0], skipped: counts[1] }), left));
        }
        must(unwritten(&self.places, UNWRITTEN), "a list that is not there was told")?;
        Ok((Err(refused(answer, node)), left))
    }

    /// `teakpool_kl_div_stats`.
    pub fn kl_div_stats(&mut self) -> Told<Result<KLDivergenceStats, Refusal>> {
        self.ending.lay(&[UNWRITTEN_FIGURE; 4]);
        self.numbers.lay(&[u64::from(UNWRITTEN); 3]);
        self.lay_node();
        let answer = archive::kl_div_stats(
            (self.state.array(), self.book.now(), self.queue.now()),
            (self.nodes.now(), self.children.now(), self.floor),
            (self.g.now(), self.d.now()),
            self.ending.array_mut(),
            self.numbers.array_mut(),
            (self.node_scale.number_mut(), self.node_point.number_mut()),
        );
        self.bands()?;
        let node = self.named(answer)?;
        if answer != 0 {
            let kept =
                unwritten(&self.ending, UNWRITTEN_FIGURE) && unwritten(&self.numbers, u64::from(UNWRITTEN));
            must(kept, "statistics that are not there were told")?;
            return Ok(Err(refused(answer, node)));
        }
        let (figures, numbers) = (self.ending.now(), self.numbers.now());
        let small = |number: u64| u32::try_from(number).map_err(|_| format!("the archive counts {}", number));
        Ok(Ok(KLDivergenceStats {
            max: figures[0],
            min: figures[1],
            nz_count: small(numbers[0])?,
            moment1_nz: figures[2],
            moment2_nz: figures[3],
            sequence_len: small(numbers[1])?,
            skipped: small(numbers[2])?,
        }))
    }

    /// `teakpool_train`, with what it leaves in book, knots and values.
    pub fn train(&mut self, training: &Training) -> Told<(Result<u32, Refusal>, Training)> {
        self.lend_tables(&training.tables);
        self.lend_priors(&training.priors);
        self.sequences.lay(&training.places);
        self.book.lay(&training.book);
        self.knots.lay(&training.knots);
        self.values.lay(&training.values);
        self.places.lay(&[UNWRITTEN]);
        self.lay_node();
        let answer = archive::train(
            (self.g.now(), self.d.now()),
            (self.nodes.now(), self.children.now(), self.floor),
            (self.sequences.now(), training.sequences, training.paths, training.rate),
            (self.book.now_mut(), self.knots.now_mut(), self.values.now_mut()),
            self.places.number_mut(),
            (self.node_scale.number_mut(), self.node_point.number_mut()),
        );
        self.bands()?;
        let node = self.named(answer)?;
        let read = self.lends_tables(&training.tables)
            && self.lends_priors(&training.priors)
            && self.sequences.now() == training.places;
        must(read, "a training changed what it only reads")?;
        let after = Training {
            book: self.book.now().to_vec(),
            knots: self.knots.now().to_vec(),
            values: self.values.now().to_vec(),
            ..training.clone()
        };
        let count = self.places.now()[0];
        if answer == 0 {
            return Ok((Ok(count), after));
        }
        must(count == UNWRITTEN, "a number of knots that is not there was told")?;
        Ok((Err(refused(answer, node)), after))
    }

    /// `teakpool_stats`: the ten figures.
    pub fn stats(
        &mut self,
        s: u32,
        knots: &[u32],
        values: &[f64],
        length: u32,
    ) -> Told<Result<[f64; KNOT_VALUES], Refusal>> {
        self.knots.lay(knots);
        self.values.lay(values);
        self.ending.lay(&[UNWRITTEN_FIGURE; KNOT_VALUES]);
        let answer = archive::stats(self.knots.now(), self.values.now(), s, length, self.ending.array_mut());
        self.bands()?;
        let read = self.knots.now() == knots && bits(self.values.now()).eq(bits(values));
        must(read, "stats changed what it only reads")?;
        if answer == 0 {
            return Ok(Ok(*self.ending.array()));
        }
        must(unwritten(&self.ending, UNWRITTEN_FIGURE), "figures that are not there were told")?;
        Ok(Err(refused(answer, None)))
    }
}
