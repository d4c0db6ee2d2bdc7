//! Holds answers against goko's, the recount's or the archive's. Where they refuse by a limit
//! that goko does not have, or where goko's index of a layer leaves 32 bits, nothing is compared;
//! where they refuse with 14, 15 or 18, goko must break off, or give none for 14 of a single node.
//! goko's own totals are held to the visits, and how many numbers it has to the least capacity.
//! goko has no tidy: from one that is carried out to the next accepted opening it is left out.

use crate::{Compared, Laws, Tally, Total};
use cases::baselines::{StatsAsked, Training};
use cases::calls::{Call, CallList, Places, PriorBytes};
use cases::lookups::{Looked, PriorsCase};
use cases::paths::place_path;
use cases::play::{Answer, History, Player, Side};
use oracle::{Goko, NodeAddress, Panic};
use recount::limits::{KNOT_VALUES, PLACE_BYTES, RECORD_BYTES};
use recount::{check_priors, same_figure, word, Address, ChildLookup, Evidence, Refusal, Tracker};

/// goko's form of an address.
fn node_address(address: Address) -> NodeAddress {
    (address.scale, address.point as usize)
}

/// goko's form of a path's bytes.
fn node_addresses(bytes: &[u8]) -> Vec<NodeAddress> {
    bytes.chunks(8).map(|step| node_address(Address::read(step))).collect()
}

/// goko's form of priors, read from the bytes anew; none where they are refused.
fn goko_priors(priors: &PriorBytes) -> Vec<oracle::Prior> {
    let prior = |node: &[u8]| oracle::Prior {
        address: node_address(Address::read(node)),
        singleton_count: word(node, 2),
        children: chain(&priors.children, word(node, 3)),
    };
    match check_priors(priors.lent()) {
        Ok(_) => priors.nodes.chunks(RECORD_BYTES).map(prior).collect(),
        Err(_) => Vec::new(),
    }
}

/// The chain that begins at the record with number `first`.
fn chain(children: &[u8], first: u32) -> Vec<(NodeAddress, u32)> {
    let numbered = |link: u32| children.chunks(RECORD_BYTES).nth((link as usize).checked_sub(1)?);
    let records = std::iter::successors(numbered(first), |child| numbered(word(child, 3)));
    records.map(|child| (node_address(Address::read(child)), word(child, 2))).collect()
}

fn same(tally: &mut Tally, what: &str, ours: f64, theirs: f64) -> Compared {
    tally.figures += 1;
    if same_figure(ours, theirs) {
        Ok(())
    } else {
        Err(format!("{}: here {:?}, goko has {:?}", what, ours, theirs))
    }
}

fn equal<T: PartialEq + std::fmt::Debug>(what: &str, ours: T, theirs: T) -> Compared {
    if ours == theirs {
        Ok(())
    } else {
        Err(format!("{}: here {:?}, goko has {:?}", what, ours, theirs))
    }
}

/// Plays a list on the recount and on goko.
pub fn compare_list(list: &CallList, tally: &mut Tally) -> Compared {
    let mut player = Player::new(History::default());
    let mut beside = Beside::default();
    let mut laws = Laws::default();
    for (index, call) in list.calls.iter().enumerate() {
        let answer = player.play(call);
        laws.hear(call, &answer);
        beside
            .hold(call, &answer, &player, &laws, tally)
            .map_err(|text| format!("call {} of {:#?}\n{}", index, list, text))?;
    }
    Ok(())
}

/// goko's tracker beside another that is played the same calls.
pub struct Beside {
    goko: Goko,
    /// Whether a tidy was carried out since the last accepted opening.
    tidied: bool,
}

impl Default for Beside {
    fn default() -> Beside {
        Beside { goko: Goko::open(0), tidied: false }
    }
}

impl Beside {
    /// Carries out the call and holds `answer` against what goko gives. `played` is the recount
    /// after the same call, `laws` have heard it.
    pub fn hold(
        &mut self,
        call: &Call,
        answer: &Answer,
        played: &Player<History>,
        laws: &Laws,
        tally: &mut Tally,
    ) -> Compared {
        if self.is_left_out(call, answer, tally) {
            return Ok(());
        }
        let answered = matches!(answer.refusal(), None | Some(Refusal { number: 14 | 15, .. }));
        if answered && !tally.met.goko_answers(&call.looked_up(&played.side), &played.priors) {
            return Ok(());
        }
        match answer {
            Answer::Lent => self.lend(played),
            Answer::Changed(Ok(())) => self.change(call, 1, played, laws, tally)?,
            Answer::Changed(Err(_)) => tally.not_comparable += 1,
            Answer::Batch(batch) => {
                self.change(call, batch.taken as usize, played, laws, tally)?;
                tally.met.goko_batch();
                tally.not_comparable += u64::from(batch.refusal.is_some());
            }
            Answer::Vector(answer, output) => self.vector(call, *answer, output, tally)?,
            Answer::Divergence(answer) => self.divergence(call, *answer, tally)?,
            Answer::List(answer, output) => self.list(*answer, output, tally)?,
            Answer::Stats(answer) => self.stats(*answer, tally)?,
        }
        Ok(())
    }

    /// Whether goko has nothing to hold this call against, since a tidy was carried out. What is lent until
    /// the next accepted opening is lent again there.
    fn is_left_out(&mut self, call: &Call, answer: &Answer, tally: &mut Tally) -> bool {
        let tidied = self.tidied;
        match (call, answer) {
            (Call::Tidy, Answer::Changed(Ok(()))) => self.tidied = true,
            (Call::Open { .. }, Answer::Changed(Ok(()))) => self.tidied = false,
            _ => {}
        }
        if tidied && !self.tidied {
            tally.met.goko_again();
        }
        if self.tidied && !matches!(answer, Answer::Lent) {
            tally.met.goko_left_out();
        }
        self.tidied
    }

    fn lend(&mut self, played: &Player<History>) {
        oracle::lend_tables(&played.tables.g, &played.tables.d);
        self.goko.lend_priors(&goko_priors(&played.priors), played.priors.floor);
    }

    /// An opening, or adds of so many paths, one by one.
    fn change(
        &mut self,
        call: &Call,
        taken: usize,
        played: &Player<History>,
        laws: &Laws,
        tally: &mut Tally,
    ) -> Compared {
        tally.changes += 1;
        match call {
            Call::Add { path } => self.add(path)?,
            Call::AddPaths { places } => {
                let mut paths = places.chunks(PLACE_BYTES).take(taken).map(place_path);
                paths.try_for_each(|path| self.add(path))?;
            }
            _ => {
                self.goko = Goko::open(played.side.state().window as usize);
                self.lend(played);
            }
        }
        let evidence = played.side.evidence().expect("the recount's tracker is in form");
        equal("sequence length", evidence.sequence_len as usize, self.goko.sequence_len())?;
        let theirs = self.goko.evidence();
        let numbers = theirs.iter().map(|node| 1 + node.children.len()).sum();
        equal("counts", goko_evidence(&evidence), theirs)?;
        laws.hold_goko(&self.totals()?, numbers, &mut tally.met).map_err(|text| format!("goko: {}", text))
    }

    fn add(&mut self, path: &[u8]) -> Compared {
        self.goko.add_path(&node_addresses(path)).map_err(|panic| format!("goko's add_path: {:?}", panic))
    }

    /// goko's evidence totals, each a whole number.
    fn totals(&self) -> Result<Vec<Total>, String> {
        let whole = |((scale, point), total): (NodeAddress, f64)| {
            let whole = total as u64;
            equal("total", whole as f64, total)?;
            Ok((Address::new(scale, point as u32), whole))
        };
        self.goko.totals().into_iter().map(whole).collect()
    }

    fn vector(
        &self,
        call: &Call,
        answer: Result<Option<recount::ProbVector>, Refusal>,
        output: &Places,
        tally: &mut Tally,
    ) -> Compared {
        let theirs = match call {
            Call::ProbVector { node, .. } => self.goko.prob_vector(node_address(*node)),
            Call::EvidenceProbVector { node, .. } => self.goko.evidence_prob_vector(node_address(*node)),
            _ => unreachable!("only these two give vectors"),
        };
        let theirs = theirs.map_err(|panic| format!("goko's probability vector: {:?}", panic))?;
        match (answer, theirs) {
            (Err(_), _) => tally.not_comparable += 1,
            (Ok(None), None) => tally.readings += 1,
            (Ok(Some(ours)), Some((children, ending))) => {
                tally.readings += 1;
                same(tally, "ending", ours.ending, ending)?;
                same_places(tally, ours.places, output, children)?;
            }
            (ours, theirs) => return Err(format!("here {:?}, goko has {:?}", ours, theirs)),
        }
        Ok(())
    }

    fn divergence(&self, call: &Call, answer: Result<Option<f64>, Refusal>, tally: &mut Tally) -> Compared {
        let Call::PosteriorKlDivergence { node } = call else {
            unreachable!("only this gives one divergence");
        };
        match (answer, self.goko.posterior_kl_divergence(node_address(*node))) {
            (Ok(Some(ours)), Ok(Some(Some(theirs)))) => {
                tally.readings += 1;
                same(tally, "divergence", ours, theirs)
            }
            (Ok(None), Ok(None)) => {
                tally.readings += 1;
                Ok(())
            }
            (Err(Refusal { number: 14, .. }), Ok(Some(None))) => {
                tally.none_for_14 += 1;
                Ok(())
            }
            (Err(refusal), theirs) => both_break_off(refusal, theirs, tally),
            (ours, theirs) => Err(format!("divergence: here {:?}, goko has {:?}", ours, theirs)),
        }
    }

    fn list(
        &self,
        answer: Result<recount::NodeKlList, Refusal>,
        output: &Places,
        tally: &mut Tally,
    ) -> Compared {
        match (answer, self.goko.all_node_kl()) {
            (Ok(ours), Ok((list, skipped))) => {
                tally.readings += 1;
                equal("skipped", u64::from(ours.skipped), skipped)?;
                let swapped = list.into_iter().map(|(figure, node)| (node, figure)).collect();
                same_places(tally, ours.places, output, swapped)
            }
            (Err(refusal), theirs) => both_break_off(refusal, theirs, tally),
            (ours, theirs) => Err(format!("all_node_kl: here {:?}, goko has {:?}", ours, theirs)),
        }
    }

    fn stats(&self, answer: Result<recount::KLDivergenceStats, Refusal>, tally: &mut Tally) -> Compared {
        match (answer, self.goko.kl_div_stats()) {
            (Ok(ours), Ok((theirs, skipped))) => {
                tally.readings += 1;
                equal("skipped", u64::from(ours.skipped), skipped)?;
                same(tally, "maximum", ours.max, theirs.max)?;
                same(tally, "minimum", ours.min, theirs.min)?;
                same(tally, "sum", ours.moment1_nz, theirs.moment1_nz)?;
                same(tally, "sum of squares", ours.moment2_nz, theirs.moment2_nz)?;
                equal("number", u64::from(ours.nz_count), theirs.nz_count)?;
                equal("sequence length", ours.sequence_len as usize, theirs.sequence_len)
            }
            (Err(refusal), theirs) => both_break_off(refusal, theirs, tally),
            (ours, theirs) => Err(format!("kl_div_stats: here {:?}, goko has {:?}", ours, theirs)),
        }
    }
}

/// For 14 goko must meet `None` or, before it, the table's end; for 15 the table's end. Other
/// refusals are by limits that goko does not have.
fn both_break_off<T: std::fmt::Debug>(
    refusal: Refusal,
    theirs: Result<T, Panic>,
    tally: &mut Tally,
) -> Compared {
    match (refusal.number, theirs) {
        (14, Err(Panic::UnwrapNone | Panic::PastTableEnd)) | (15, Err(Panic::PastTableEnd)) => {
            tally.broken_off += 1;
            Ok(())
        }
        (14 | 15, theirs) => Err(format!("refused here with {:?}, goko has {:?}", refusal, theirs)),
        _ => {
            tally.not_comparable += 1;
            Ok(())
        }
    }
}

fn goko_evidence(evidence: &Evidence) -> Vec<oracle::NodeEvidence> {
    let counts = |(node, counted): (&Address, &recount::NodeEvidence)| oracle::NodeEvidence {
        node: node_address(*node),
        ending: f64::from(counted.ending),
        children: counted
            .children
            .iter()
            .map(|(child, count)| (node_address(*child), f64::from(*count)))
            .collect(),
    };
    evidence.nodes.iter().map(counts).collect()
}

fn same_places(tally: &mut Tally, places: u32, output: &Places, theirs: Vec<(NodeAddress, f64)>) -> Compared {
    equal("number of places", places as usize, theirs.len())?;
    for (place, (node, figure)) in theirs.into_iter().enumerate() {
        let address = Address::read(&output.addresses[8 * place..]);
        equal("address", node_address(address), node)?;
        same(tally, "figure", output.figures[place], figure)?;
    }
    Ok(())
}

/// Holds the answers to look-ups of children, where the priors are not refused, against goko's `ln_pdf`,
/// which looks a child up in a prior, too. How many records were read is nothing that goko tells.
pub fn hold_lookups(case: &PriorsCase, answers: &[Looked], tally: &mut Tally) -> Compared {
    let Ok(priors) = check_priors(case.priors.lent()) else {
        return Ok(());
    };
    let goko = Goko::open(0);
    goko.lend_priors(&goko_priors(&case.priors), case.priors.floor);
    for ((node, child), answer) in case.asked.iter().zip(answers) {
        if tally.met.goko_looks_up(*node, case.priors.floor) {
            let theirs = goko.ln_pdf(node_address(*node), node_address(*child));
            let held = hold_lookup(priors.node(*node), *answer, theirs, tally);
            held.map_err(|text| format!("{:?} under {:?} in {:?}\n{}", child, node, case.priors, text))?;
        }
    }
    Ok(())
}

fn hold_lookup(
    prior: Option<&recount::Prior>,
    answer: Looked,
    theirs: Result<Option<f64>, Panic>,
    tally: &mut Tally,
) -> Compared {
    match (prior, answer, theirs) {
        (Some(prior), Ok(ChildLookup { count, .. }), Ok(Some(theirs))) => {
            tally.met.goko_has_the_same(true, count.is_some());
            let ours = f64::from(count.unwrap_or(0)).ln() - (prior.total() as f64).ln();
            same(tally, "ln_pdf", ours, theirs)
        }
        (None, Ok(ChildLookup { count: None, .. }), Ok(None)) => {
            tally.met.goko_has_the_same(false, false);
            Ok(())
        }
        (_, ours, theirs) => Err(format!("here {:?}, goko has {:?}", ours, theirs)),
    }
}

/// Runs a training on the recount and on goko.
pub fn compare_training(training: &Training, tally: &mut Tally) -> Compared {
    let mut ours = training.clone();
    let answer = ours.run();
    hold_training(training, &ours, answer, tally)
}

/// Holds a training's answer, and what it left in knots and values, against goko's.
pub fn hold_training(
    training: &Training,
    ours: &Training,
    answer: Result<u32, Refusal>,
    tally: &mut Tally,
) -> Compared {
    if let Err(Refusal { number, .. }) = answer {
        if number != 14 && number != 15 {
            tally.not_comparable += 1;
            return Ok(());
        }
    }
    if !tally.met.goko_answers(&training.nodes(), &training.priors) {
        return Ok(());
    }
    oracle::lend_tables(&training.tables.g, &training.tables.d);
    let sequences = goko_sequences(training);
    let priors = goko_priors(&training.priors);
    let theirs = oracle::train(&priors, training.priors.floor, &sequences, training.rate as usize);
    match (answer, theirs) {
        (Ok(count), Ok((knots, values))) => {
            tally.trainings += 1;
            let count = count as usize;
            equal("knots", ours.knots[..count].iter().map(|knot| *knot as usize).collect(), knots)?;
            equal("number of values", KNOT_VALUES * count, values.len())?;
            let mut pairs = ours.values.iter().zip(values);
            pairs.try_for_each(|(ours, theirs)| same(tally, "knot value", *ours, theirs))
        }
        (Err(refusal), theirs) => both_break_off(refusal, theirs, tally),
        (ours, theirs) => Err(format!("train: here {:?}, goko has {:?}", ours, theirs)),
    }
    .map_err(|text| format!("{:#?}\n{}", training, text))
}

/// The sequences of a training that the recount does not refuse with 10.
fn goko_sequences(training: &Training) -> Vec<Vec<Vec<NodeAddress>>> {
    let path = |path: Vec<Address>| path.into_iter().map(node_address).collect();
    let paths: Vec<Vec<NodeAddress>> = training.given_paths().map(path).collect();
    let length = training.paths as usize;
    (0..training.sequences as usize).map(|s| paths[s * length..(s + 1) * length].to_vec()).collect()
}

/// Asks `stats` of the recount and of goko.
pub fn compare_stats(asked: &StatsAsked, tally: &mut Tally) -> Compared {
    asked.lengths.iter().try_for_each(|length| {
        let answer = recount::stats(asked.sequences, &asked.knots, &asked.values, *length);
        hold_stats(asked, *length, answer.map(|stats| stats.ten_values()), tally)
    })
}

/// Holds the ten figures of a baseline at a length against goko's.
pub fn hold_stats(
    asked: &StatsAsked,
    length: u32,
    answer: Result<[f64; KNOT_VALUES], Refusal>,
    tally: &mut Tally,
) -> Compared {
    if matches!(answer, Err(Refusal { number: 17, .. })) {
        tally.not_comparable += 1;
        return Ok(());
    }
    let knots: Vec<usize> = asked.knots.iter().map(|knot| *knot as usize).collect();
    let theirs = oracle::stats(asked.sequences as usize, &knots, &asked.values, length as usize);
    match (answer, theirs) {
        (Ok(ours), Ok(theirs)) => {
            tally.stats += 1;
            let mut pairs = ours.into_iter().zip(theirs);
            pairs.try_for_each(|(ours, theirs)| same(tally, "mean or variance", ours, theirs))
        }
        (Err(Refusal { number: 18, .. }), Err(_)) => {
            tally.broken_off += 1;
            Ok(())
        }
        (ours, theirs) => Err(format!("stats: here {:?}, goko has {:?}", ours, theirs)),
    }
}
