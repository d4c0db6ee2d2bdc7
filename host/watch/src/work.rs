//! Runs a day through the archive: trains the baseline, adds the paths, reads the statistics after
//! each and holds them against the baseline, and notes where they drift. On a long day on which all
//! paths count not every path is read, and those up to one that is are added together.

use crate::by_node::ByNode;
use crate::capacity::least;
use crate::counts::Counts;
use crate::day::{Day, MAX_ENTRIES};
use crate::known::{self, Known};
use crate::lent::Lent;
use crate::mistakes::Problem;
use crate::moved::{self, Moved};
use crate::progress::Steps;
use crate::refused::told;
use crate::seldom::Rates;
use crate::stretches::Stretches;
use crate::training::{train, Trained};
use crate::usual::{UsualAt, Why};
use crate::watched::{Judged, LeftOut, Place, Reading, Tidied, Watched};
use std::collections::BTreeMap;
use teakpool::{place_bytes, Address, Refusal, Stopped, Tracker, ENTRY_BYTES, PLACE_BYTES};

/// Nodes that a report shows.
pub const NODES: usize = 20;
/// Paths over which it is looked how often something is done, at least.
const RATE_WINDOW: usize = 8;
/// Where all paths count, tables grow with the day, and a reading tests all of them. Past so many
/// paths the readings lie the further apart the longer the day is, so that its time grows with the
/// paths and not with their square.
pub const EVERY: usize = 8_192;

/// Runs the day; a refusal is told with the line to look at.
pub fn watch(day: &Day) -> Result<Watched, Problem> {
    let mut lent = Lent::of(day);
    let capacity = day.capacity.map_or(MAX_ENTRIES, |capacity| capacity.value);
    let mut book = vec![0; ENTRY_BYTES * capacity];
    let trained = train(day, &mut lent, &mut book)?;
    let mut queue = vec![0; PLACE_BYTES * day.window as usize];
    let told_at = |index: usize| told(day, day.tables.last_index(), day.paths.line(index));
    let tracker = Tracker::open(day.window, &mut book, &mut queue).map_err(told_at(0))?;
    let mut run = Run {
        day,
        known: Known::of(day),
        lent,
        tracker,
        counts: Counts::new(day, &day.paths, day.window),
        trained: trained.as_ref(),
        usual: UsualAt::new(trained.as_ref()),
        stretches: Stretches::default(),
        found: BTreeMap::new(),
        rates: Rates::over(rate_window(day)),
        added: 0,
        ahead: 0,
        unread: None,
        tidied: None,
    };
    let mut places = Vec::with_capacity(day.paths.len());
    let mut steps = Steps::new("the day's paths", day.paths.len());
    for index in 0..day.paths.len() {
        places.push(run.path(index).map_err(told_at(index))?);
        steps.at(index + 1);
    }
    if let Some(index) = run.unread {
        places[index] = run.read(index).map_err(told_at(index))?;
        if index + 1 < places.len() {
            [index + 1, places.len() - 1].into_iter().for_each(|left_out| run.stretches.unjudged(left_out));
        }
    }
    let (nodes, more_nodes) = run.nodes().map_err(told_at(day.paths.len() - 1))?;
    let new_endings = [run.rates.new_endings(), run.known.new_endings()];
    let over_day = run.rates.over_day(&run.known, day.drift);
    let over_day_drifts = over_day.iter().any(|often| often.deviations > day.drift);
    let skipped = run.counts.without_prior();
    let (needed, tidied) = run.needed(&places);
    let (stretches, found) = (run.stretches.done(), run.found.into_values().collect());
    Ok(Watched {
        trained,
        places,
        stretches,
        found,
        over_day,
        over_day_drifts,
        new_endings,
        nodes,
        more_nodes,
        skipped,
        needed,
        tidied,
    })
}

/// Paths over which it is looked how often something is done: the window, or where all paths count
/// as many as a training sequence has. Of very few nothing can be said.
fn rate_window(day: &Day) -> usize {
    let window = if day.window == 0 { day.training_paths() } else { day.window as usize };
    window.max(RATE_WINDOW)
}

/// A day as it is run.
struct Run<'a> {
    day: &'a Day,
    known: Known<'a>,
    lent: Lent,
    tracker: Tracker<'a>,
    counts: Counts<'a>,
    trained: Option<&'a Trained>,
    usual: UsualAt<'a>,
    stretches: Stretches,
    found: BTreeMap<known::NeverSeen, known::Found>,
    rates: Rates,
    /// Paths that are added and counted.
    added: usize,
    /// Paths from the next one on that are added and not yet counted.
    ahead: usize,
    /// The last path that is added, if it is not read, and how many there are since a reading.
    unread: Option<usize>,
    /// How often tidies have dropped entries, and the index of the path before the first of them.
    tidied: Option<(usize, usize)>,
}

impl Run<'_> {
    /// Takes a path.
    fn path(&mut self, index: usize) -> Result<Place, Refusal> {
        if self.ahead == 0 {
            self.ahead = self.add_ahead(index);
        }
        if self.ahead > 0 {
            self.ahead -= 1;
        } else if let Some(why) = self.left_out(index)? {
            self.stretches.unjudged(index);
            return Ok(Place::LeftOut(why));
        }
        self.counts.add(index);
        self.added += 1;
        self.rates.add(self.known.odd(self.day.paths.steps(index)));
        if !self.is_read(self.added) {
            self.unread = Some(index);
            return Ok(Place::Unread);
        }
        self.read(index)
    }

    /// Whether it is read after the path that is added as this one, from 1.
    fn is_read(&self, number: usize) -> bool {
        self.day.window > 0 || number.is_multiple_of(1 + number / EVERY)
    }

    /// Adds the paths from this one up to the next that is read in one call, where this one is not. It
    /// ends before a path that is to be left out, which is then taken by itself. Gives how many it took.
    fn add_ahead(&mut self, index: usize) -> usize {
        if self.is_read(self.added + 1) {
            return 0;
        }
        let (mut places, mut steps_ahead) = (Vec::new(), 0);
        for (number, index) in (self.added + 1..).zip(index..self.day.paths.len()) {
            let steps = self.day.paths.steps(index);
            steps_ahead += steps.len();
            let far = self.counts.far_from_end(steps_ahead, self.lent.last_index());
            if !far || !self.known.never_seen(steps).is_empty() {
                break;
            }
            places.extend(place_bytes(steps));
            if self.is_read(number) {
                break;
            }
        }
        if places.is_empty() {
            return 0;
        }
        match self.tracker.add_paths(&places) {
            Ok(taken) | Err(Stopped { taken, .. }) => taken as usize,
        }
    }

    /// Adds the path, unless it is to be left out.
    fn left_out(&mut self, index: usize) -> Result<Option<LeftOut>, Refusal> {
        let steps = self.day.paths.steps(index);
        let never_seen = self.known.never_seen(steps);
        if !never_seen.is_empty() {
            known::note(&mut self.found, index, &never_seen);
            return Ok(Some(LeftOut::NeverSeen));
        }
        if let Some(node) = self.counts.past_end(index, self.lent.last_index()) {
            return Ok(Some(LeftOut::PastTables(node)));
        }
        match self.add(index) {
            Err(Refusal::BookFull) => Ok(Some(LeftOut::BookFull)),
            Err(Refusal::PathsFull) => Ok(Some(LeftOut::PathsFull)),
            added => added.map(|()| None),
        }
    }

    /// Adds the path; a full book is tidied, and where that drops entries the path is added then.
    fn add(&mut self, index: usize) -> Result<(), Refusal> {
        let steps = self.day.paths.steps(index);
        let answer = self.tracker.add_path(steps);
        if answer != Err(Refusal::BookFull) {
            return answer;
        }
        let full = self.tracker.state().used;
        self.tracker.tidy()?;
        if self.tracker.state().used == full {
            return answer;
        }
        self.tidied.get_or_insert((0, index - 1)).0 += 1;
        self.tracker.add_path(steps)
    }

    /// Reads the statistics after a path and judges them.
    fn read(&mut self, index: usize) -> Result<Place, Refusal> {
        self.unread = None;
        let greatest = self.counts.greatest();
        self.lent.reach(greatest);
        let stats = self.tracker.kl_div_stats(self.lent.tables(greatest), self.lent.priors())?;
        let usual = self.usual.at(stats.sequence_length);
        let drift = self.day.drift;
        let often = self.rates.most(&self.known, drift);
        let reading = Reading::of(stats, self.counts.visits(), usual, drift).or_often(often, drift);
        match reading.judged {
            Judged::Calm | Judged::Not(Why::CarriedOn) => self.stretches.calm(index),
            Judged::Not(_) => self.stretches.unjudged(index),
            Judged::Drift(deviations) | Judged::Often(deviations) => {
                self.stretches.drift(index, deviations);
                if let Some(often) = often.filter(|often| often.deviations > drift) {
                    self.stretches.often(often);
                }
                self.look_at(reading.above().filter(|above| *above > drift))?;
            }
        }
        Ok(Place::Read(reading))
    }

    /// Notes the node to look at, where the figures are further above than before in the stretch.
    fn look_at(&mut self, figures: Option<f64>) -> Result<(), Refusal> {
        if let Some(figures) = figures.filter(|figures| self.stretches.further(*figures)) {
            let moved = self.most_moved()?;
            self.stretches.look_at(moved, figures);
        }
        Ok(())
    }

    /// The node to look at.
    fn most_moved(&self) -> Result<Option<Moved>, Refusal> {
        let nodes = moved::divergences(&self.tracker, &self.lent, self.counts.greatest())?;
        let most = match self.by_node() {
            Some(by_node) => by_node.most_moved(&nodes, self.usual.length),
            None => nodes.first().copied(),
        };
        most.map(|node| self.moved(node)).transpose()
    }

    fn by_node(&self) -> Option<&ByNode> {
        self.trained.and_then(|trained| trained.by_node.as_ref())
    }

    /// A node with its shares, and what is usual for it at the length that was asked for last.
    fn moved(&self, (node, divergence): (Address, f64)) -> Result<Moved, Refusal> {
        let usual = self.by_node().map(|by_node| by_node.usual(node, self.usual.length).mean);
        let shares = moved::shares(&self.tracker, self.day, self.by_node(), node)?;
        Ok(Moved { node, divergence, usual, shares })
    }

    /// The nodes with the greatest divergences, and how many more there are.
    fn nodes(&mut self) -> Result<(Vec<Moved>, usize), Refusal> {
        let greatest = self.counts.greatest();
        self.lent.reach(greatest);
        let nodes = moved::divergences(&self.tracker, &self.lent, greatest)?;
        let shown = nodes.iter().take(NODES).map(|node| self.moved(*node));
        let more = nodes.len().saturating_sub(NODES);
        Ok((shown.collect::<Result<_, Refusal>>()?, more))
    }

    /// Entries that the added paths need without tidies, and the tidies. What is used at the end tells
    /// the first only where there were none.
    fn needed(&self, places: &[Place]) -> (usize, Option<Tidied>) {
        let Some((times, first)) = self.tidied else {
            return (self.tracker.state().used as usize, None);
        };
        let added = || {
            let indexes = (0..places.len()).filter(|index| !matches!(places[*index], Place::LeftOut(_)));
            indexes.map(|index| self.day.paths.steps(index))
        };
        (least(added(), 0), Some(Tidied { times, first, needed: least(added(), self.day.window) }))
    }
}

#[cfg(test)]
mod tests {
    use super::{watch, EVERY};
    use crate::day::{Day, MAX_ENTRIES};
    use crate::lent::Lent;
    use crate::mistakes::Problem;
    use crate::reader::read;
    use crate::report::report;
    use crate::watched::{Judged, LeftOut, Place, Reading, Tally, Tidied, Verdict, Watched};
    use teakpool::{Address, KLDivergenceStats, Tracker, ENTRY_BYTES, PLACE_BYTES};

    const KIT: &str = "tables squares 7\nprior 1/7 1 0/7 2 0/9 3\n";

    fn day(text: &str) -> Day {
        read(text.as_bytes()).expect("every line can be taken")
    }

    fn watched(text: &str) -> Watched {
        watch(&day(text)).expect("the day can be run")
    }

    fn problem(text: &str) -> (usize, String) {
        let Problem { line, text } = watch(&day(text)).err().expect("a training path cannot be taken");
        (line, text)
    }

    /// Indexes of the paths that are left out, and why.
    fn left_out(watched: &Watched) -> Vec<(usize, LeftOut)> {
        let place = |(index, place): (usize, &Place)| match place {
            Place::LeftOut(why) => Some((index, *why)),
            _ => None,
        };
        watched.places.iter().enumerate().filter_map(place).collect()
    }

    /// The lines of a report that have these words.
    fn lines(text: &str, words: &str) -> Vec<String> {
        let day = day(text);
        let report = report("a day", &day, &watch(&day).expect("the day can be run"));
        report.lines().filter(|line| line.contains(words)).map(|line| line.trim().to_string()).collect()
    }

    /// Paths of 64 new steps each, so of 127 entries: the first 129 fit in a book.
    fn many_nodes(paths: u32) -> String {
        let step = |number: u32| format!(" 0/{}", number);
        let path =
            |number: u32| format!("path{}\n", (64 * number..64 * number + 64).map(step).collect::<String>());
        (0..paths).map(path).collect()
    }

    #[test]
    fn a_path_past_the_tables_is_left_out_and_told() {
        let day = format!("{}day\npath 1/7 0/9\npath 0/9\npath 1/7\npath 0/9\n", KIT);
        let node = Address::new(1, 7);
        assert_eq!(left_out(&watched(&day)), [(2, LeftOut::PastTables(node))]);
        assert_eq!(watched(&day).verdict(), Verdict::NotAllJudged);
        let told =
            "not judged at path 3: left out, since the counts of 1/7 would pass 7, where the tables end";
        assert_eq!(lines(&day, "left out, since"), [told]);
        assert_eq!(left_out(&watched(&format!("window 1\n{}", day))), []);
    }

    #[test]
    fn a_training_past_the_tables() {
        let paths = "path 0/9\npath 0/9\npath 0/9\n";
        let sequences = format!("sequence\n{}sequence\npath 1/7\npath 1/7\npath 0/9\n", paths);
        let training = |rate: u32| format!("{}rate {}\n{}day\n{}", KIT, rate, sequences, paths);
        assert_eq!(problem(&training(1)).0, 10);
        // With this rate the second path of a sequence is not read, the third is.
        assert_eq!(problem(&training(2)).0, 11);
        watched(&training(3));
    }

    #[test]
    fn a_path_that_the_book_has_no_room_for_is_left_out_and_told() {
        assert_eq!(left_out(&watched(&format!("day\n{}", many_nodes(129)))), []);
        let day = format!("day\n{}path 0/0 0/1\n", many_nodes(131));
        assert_eq!(left_out(&watched(&day)), [(129, LeftOut::BookFull), (130, LeftOut::BookFull)]);
        let told = "not judged from path 130 to path 131: left out, since the book is full: it holds 16384 \
                    nodes and transitions";
        assert_eq!(lines(&day, "left out, since"), [told]);
        let (few, many) = ("path 0/0\n".repeat(131), many_nodes(131));
        let training = format!("sequence\n{}sequence\n{}day\npath 0/0", few, many);
        let text = "up to this path there are over 16384 nodes and transitions, more than a book holds";
        assert_eq!(problem(&training), (263, text.to_string()));
        // With this rate it lies between two knots.
        assert_eq!(problem(&format!("rate 7\n{}", training)), (264, text.to_string()));
    }

    #[test]
    fn the_book_that_the_added_paths_need_is_told() {
        let tells = |day: &str, book: &str| assert_eq!(lines(day, "book: "), [format!("book: {}", book)]);
        let one = "1 entry (24 bytes) is enough for the path added";
        tells("day\npath 1/7\n", one);
        let path = "day\npath 1/7 0/9\n";
        tells(path, "3 entries (72 bytes) are enough for the path added, and fewer are not");
        // Again, backwards, and from a node to itself. What has left the window stays in the book.
        let day = format!("{}path 1/7 0/9\npath 0/9 1/7\npath 0/9 0/9\n", path);
        let four = "5 entries (120 bytes) are enough for the 4 paths added, in any order, and fewer are not";
        for head in ["", "window 1\n", "capacity 5\n"] {
            tells(&format!("{}{}", head, day), four);
        }
        let mistakes =
            read(format!("capacity 4\n{}", day).as_bytes()).expect_err("a capacity of 4 is too small");
        assert_eq!(mistakes.lines(), ["line 1: a capacity of 4 is too small: the day needs 5 entries"]);
        // What is left out is not in the book.
        let left_out = "prior 1/7 1 0/7 2\nday\npath 1/7 0/8\n";
        tells(left_out, "empty, since no path is added");
        tells(&format!("{}path 1/7\n", left_out), one);
        let many =
            "16383 entries (393192 bytes) are enough for the 129 paths added, in any order, and fewer are not";
        let told = |paths: u32, more: &str| {
            tells(&format!("day\n{}", many_nodes(paths)), &format!("{}{}", many, more));
        };
        told(129, "");
        told(130, "; 1 path more did not fit, and no book has over 16384 entries");
        told(131, "; 2 paths more did not fit, and no book has over 16384 entries");
    }

    #[test]
    fn a_full_book_is_tidied_where_paths_have_left_the_window() {
        // The window and one path more need 16383 entries. Where it is longer nothing has left it.
        let day = |window: u32| format!("window {}\nday\n{}path 0/0 0/1\n", window, many_nodes(131));
        assert_eq!(left_out(&watched(&day(128))), []);
        let tidied = Tidied { times: 3, first: 128, needed: 16_383 };
        assert_eq!(watched(&day(128)).tidied, Some(tidied));
        let told =
            "book: tidied 3 times, first after path 129 (line 131); with tidies 16383 entries (393192 \
                    bytes) are enough for the 132 paths added, in their order, and fewer are not; without \
                    they need 16637, and no book has over 16384 entries";
        assert_eq!(lines(&day(128), "book: "), [told]);
        let full = watched(&day(129));
        assert_eq!(left_out(&full), [(129, LeftOut::BookFull), (130, LeftOut::BookFull)]);
        assert_eq!(full.tidied, None);
        // An entry is dropped, and there is no room yet.
        let day = format!("window 129\nday\npath 9/9\n{}", many_nodes(130));
        assert_eq!(left_out(&watched(&day)), [(130, LeftOut::BookFull)]);
        let told =
            "book: tidied once, after path 130 (line 132); with tidies 16384 entries (393216 bytes) are \
                    enough for the 130 paths added, in their order, and fewer are not; without they need \
                    16384; 1 path more did not fit, and no book has over 16384 entries";
        assert_eq!(lines(&day, "book: "), [told]);
        let told =
            "not judged at path 131: left out, since the book is full, tidied too: it holds 16384 nodes \
                    and transitions";
        assert_eq!(lines(&day, "left out, since"), [told]);
    }

    #[test]
    fn a_small_book_that_is_tidied_reads_what_a_large_one_reads() {
        // By squares every figure is a whole number, so that nothing differs by rounding.
        let head = "drift 1\ntables squares 40\nprior 2/0 5 1/0 5\nprior 1/0 1 0/7 2 0/8 1 0/9 3\n";
        let sequence = |child: &str| format!("sequence\npath 1/0 {}\npath 1/0 0/9\npath 1/0\n", child);
        let training = [sequence("0/7"), sequence("0/9")].concat();
        let path = |index: usize| match index {
            0 => "path 2/0 1/0\n".to_string(),
            index => format!("path 1/0 0/{}\n", 7 + index % 3) + ["", "path 1/0\n"][index % 2],
        };
        let paths: String = (0..20).map(path).collect();
        for (window, capacity) in [(1, 5), (2, 5), (3, 7)] {
            let text = format!("window {}\n{}{}day\n{}", window, head, training, paths);
            let small = format!("capacity {}\n{}", capacity, text);
            let [tidied, large] = [&small, &text].map(|text| watched(text));
            assert_eq!((tidied.tidied.map(|tidied| tidied.needed), large.tidied), (Some(capacity), None));
            let read = |watched: &Watched| -> Vec<(KLDivergenceStats, Judged)> {
                let readings = watched.readings().map(|(_, reading)| reading);
                readings
                    .map(|reading| (KLDivergenceStats { skipped: 0, ..reading.stats }, reading.judged))
                    .collect()
            };
            assert_eq!((tidied.places.len(), read(&tidied)), (read(&large).len(), read(&large)));
            assert_eq!((tidied.verdict(), tidied.skipped), (large.verdict(), large.skipped));
            assert_eq!((tidied.needed, large.needed), (9, 9));
            // 2/0 has left the window long ago.
            let rows = |text: &str| lines(text, "nothing seen in the window").len();
            assert_eq!((rows(&small), rows(&text)), (0, 1));
        }
    }

    #[test]
    fn a_path_that_was_never_seen_is_a_finding_and_the_rest_is_read() {
        let head = "name 1/7 the wheel\nprior 1/7 1 0/7 2 0/9 3\n\
                    sequence\npath 1/7\npath 1/7 0/7\nsequence\npath 1/7 0/9\npath 1/7\nday\n";
        let day = format!("{}path 1/7 0/9\nmark noon\npath 1/7 0/8\npath 1/7\npath 1/7 0/8\n", head);
        let watched = watched(&day);
        assert_eq!(left_out(&watched), [(1, LeftOut::NeverSeen), (3, LeftOut::NeverSeen)]);
        assert_eq!(watched.verdict(), Verdict::Drift);
        assert_eq!(watched.readings().map(|(index, _)| index).collect::<Vec<usize>>(), [0, 2]);
        let told = "path 2 (line 12, noon), step 1, and 1 more path up to path 4 (line 14, noon): \
                    1/7 (the wheel) goes on to 0/8, which its prior does not have";
        assert_eq!(lines(&day, "goes on to"), [told]);
        assert_eq!(
            lines(&day, "Never seen"),
            ["Never seen on a good day: 2 paths, which are left out of the figures"]
        );
        // A day of nothing else has a report too.
        let only = format!("{}path 1/7 0/8\n", head);
        assert_eq!(
            lines(&only, "judged"),
            ["judged: 0 of 1 path; 1 path left out", "not known: nothing could be judged"]
        );
    }

    #[test]
    fn a_day_that_meets_no_prior_is_not_judged() {
        // Two sequences that do not meet one either.
        let training = "sequence\npath 2/2\nsequence\npath 2/2\n";
        for prior in ["", "prior 1/7 1 0/7 2\n"] {
            let day = format!("{}{}day\npath 2/2\npath 2/2\n", prior, training);
            assert_eq!(watched(&day).verdict(), Verdict::NotAllJudged);
            let told = "not judged from path 1 on: no node that has a prior is in the window";
            assert_eq!(lines(&day, "not judged from"), [told]);
        }
    }

    #[test]
    fn what_is_not_judged_is_told_path_by_path() {
        // The last path alone, and others between paths that are judged.
        let head = "window 1\nprior 1/7 1 0/7 2 0/9 3\nsequence\npath 1/7\npath 2/2\n\
                    sequence\npath 1/7 0/7\npath 1/7\nday\n";
        let told = |paths: &str| -> Vec<String> {
            let letter = |letter: char| if letter == '.' { "path 1/7\n" } else { "path 2/2\n" };
            let day = format!("drift 1e9\n{}{}", head, paths.chars().map(letter).collect::<String>());
            lines(&day, "not judged ").into_iter().filter(|line| line.starts_with("not judged")).collect()
        };
        let why = "no node that has a prior is in the window";
        assert_eq!(told("...?"), [format!("not judged at path 4: {}", why)]);
        assert_eq!(told("..??"), [format!("not judged from path 3 on: {}", why)]);
        let said = format!("not judged at path 2 and from path 4 to path 5: {}", why);
        assert_eq!(told(".?.??."), [said]);
        let said = format!(
            "not judged at path 1, at path 3, at path 5, at path 7 and at 3 more paths up to path 12: {}",
            why
        );
        assert_eq!(told("?.?.?.?.?.??"), [said]);
    }

    #[test]
    fn a_reading_is_the_same_however_much_of_the_tables_is_lent() {
        let mut long = Lent::of(&day(include_str!("../../../days/example.txt")));
        long.reach(100_000);
        for window in [0, 7, 40] {
            let day = Day { window, ..day(include_str!("../../../days/example.txt")) };
            let watched = watch(&day).expect("the day can be run");
            let (mut book, mut queue) = (vec![0; ENTRY_BYTES * MAX_ENTRIES], vec![0; PLACE_BYTES * 40]);
            let mut tracker = Tracker::open(window, &mut book, &mut queue).expect("the memory is enough");
            for (index, steps) in day.paths.iter().enumerate() {
                tracker.add_path(steps).expect("the path fits");
                let stats = tracker.kl_div_stats(long.tables(100_000), long.priors());
                let Place::Read(Reading { stats: read, .. }) = &watched.places[index] else {
                    panic!("path {} is not read", index);
                };
                assert_eq!(stats, Ok(*read));
            }
        }
    }

    #[test]
    fn paths_added_together_are_read_as_paths_added_one_by_one() {
        // Among those that are not read some that the prior does not know, from the 130th on some that the
        // book has no room for, and in the end more than the tables have.
        let last_index = 6 + EVERY + 900;
        let many = many_nodes(140);
        let mixed = many.lines().flat_map(|path| {
            let unknown = "path 1/7 0/8";
            [&["path 1/7 0/7"; 5][..], &[unknown, path, "path 1/7", "path 1/7 0/9", path]].concat()
        });
        let paths: Vec<&str> = std::iter::repeat_n("path 1/7 0/9", EVERY).chain(mixed).collect();
        let head = format!("tables squares {}\nprior 1/7 1 0/7 2 0/9 3\nday\n", last_index);
        let day = day(&(head + &paths.join("\n")));
        let watched = watch(&day).expect("the day can be run");
        let lent = Lent::of(&day);
        let mut book = vec![0; ENTRY_BYTES * MAX_ENTRIES];
        let mut tracker = Tracker::open(0, &mut book, &mut []).expect("the memory is enough");
        let (mut visits, mut expected, mut unread) = (0, Vec::new(), 0);
        for (index, steps) in day.paths.iter().enumerate() {
            let watched_node = usize::from(steps[0] == Address::new(1, 7));
            if watched_node == 1 && steps.get(1) == Some(&Address::new(0, 8)) {
                expected.push((index, LeftOut::NeverSeen));
            } else if 6 + visits + watched_node > last_index {
                expected.push((index, LeftOut::PastTables(steps[0])));
            } else if tracker.add_path(steps).is_err() {
                expected.push((index, LeftOut::BookFull));
            } else {
                visits += watched_node;
                match &watched.places[index] {
                    Place::Read(Reading { stats, .. }) => assert_eq!(
                        tracker.kl_div_stats(lent.tables(last_index as u64), lent.priors()),
                        Ok(*stats),
                        "path {}",
                        index
                    ),
                    _ => unread += 1,
                }
            }
        }
        assert_eq!(left_out(&watched), expected);
        assert_eq!((watched.tally().unread, unread > 500), (unread, true));
        let all = [LeftOut::NeverSeen, LeftOut::BookFull, LeftOut::PastTables(Address::new(1, 7))];
        for why in all {
            assert!(expected.iter().any(|(_, other)| *other == why), "{:?}", why);
        }
    }

    #[test]
    fn a_long_day_on_which_all_paths_count_is_read_at_places() {
        let paths = 3 * EVERY;
        let training = "sequence\npath 1/7 0/9\nsequence\npath 1/7\n";
        let priors = "prior 1/7 1 0/7 2 0/9 3\n";
        let day = format!("{}{}day\n{}", priors, training, "path 1/7 0/9\n".repeat(paths - 1) + "path 1/7\n");
        let whole = watched(&day);
        let read: Vec<usize> = whole.readings().map(|(index, _)| index).collect();
        assert_eq!(read[..EVERY], (0..EVERY).collect::<Vec<usize>>());
        let apart: Vec<usize> = read.windows(2).map(|pair| pair[1] - pair[0]).collect();
        assert!(apart.iter().all(|apart| *apart <= 4), "{:?}", apart.iter().max());
        assert_eq!(read.last(), Some(&(paths - 1)));
        // Each covers what lies before it: the last has all paths.
        let last = whole.readings().next_back().expect("the last path is read").1;
        assert_eq!(last.stats.sequence_length as usize, paths);
        let Tally { judged, unjudged, left_out, unread } = whole.tally();
        assert_eq!((unread, judged + unjudged + left_out), (paths - read.len(), paths));
        assert_eq!(whole.unjudged().iter().map(|part| part.paths).sum::<usize>(), unjudged);
        // With a window every path is read.
        assert_eq!(watched(&format!("window 9\n{}", day)).tally().unread, 0);
    }
}
