//! Files made from a seed: whatever their bytes are, they end in a report or in told mistakes.

use crate::csv;
use crate::mistakes::TOLD;
use crate::page::page;
use crate::priors::GoodDays;
use crate::reader::{read, read_paths};
use crate::report::report;
use crate::watched::{Tally, Verdict, Watched};
use crate::work::watch;
use cases::rng::Rng;
use std::collections::BTreeMap;

/// Words that begin lines, and such as nearly do.
const FIRST: [&str; 19] = [
    "window", "drift", "rate", "capacity", "tables", "g", "d", "floor", "prior", "name", "sequence", "day",
    "mark", "path", "path", "path", "prior", "paths", "#",
];
/// Words that stand behind them.
const WORDS: [&str; 32] = [
    "0",
    "1",
    "2",
    "3",
    "7",
    "64",
    "1024",
    "1025",
    "16384",
    "4294967295",
    "4294967296",
    "-1",
    "0.5",
    "NaN",
    "-inf",
    "1e308",
    "1e-308",
    "gamma",
    "squares",
    "numbers",
    "1/7",
    "0/9",
    "0/7",
    "-1/3",
    "2147483647/4294967295",
    "1/",
    "/",
    "1/7/7",
    "ü",
    "\u{7}",
    "<b>",
    "'\"&",
];

const NODES: [&str; 6] = ["1/7", "0/9", "0/7", "-1/3", "-1/9", "2/0"];

/// A path that goes by the children of the priors, or by chance.
fn path(random: &mut Rng, children: &BTreeMap<&str, Vec<&str>>, by_chance: bool) -> String {
    let mut node = random.pick(&NODES);
    let mut line = format!("path {}", node);
    for _ in 0..random.below(5) {
        node = match children.get(node).filter(|_| !by_chance) {
            Some(children) if children.is_empty() => break,
            Some(children) => random.pick(children),
            None => random.pick(&NODES),
        };
        line = format!("{} {}", line, node);
    }
    line
}

/// A day whose lines can mostly be taken, with numbers that a seed decides.
fn day_lines(random: &mut Rng) -> Vec<String> {
    let mut lines = vec![format!("window {}", random.pick(&[0, 1, 2, 5, 1_024]))];
    lines.push(format!("drift {}", random.pick(&["0", "0.5", "3", "1e300"])));
    lines.push(random.pick(&["tables gamma", "tables squares 60", "tables squares 30", "#"]).to_string());
    lines.push(random.pick(&["#", "#", "floor 0", "floor 1", "floor 2"]).to_string());
    lines.push(random.pick(&["#", "#", "#", "#", "#", "capacity 16", "capacity 24"]).to_string());
    let mut priors: BTreeMap<&str, Vec<&str>> = BTreeMap::new();
    for node in NODES {
        let children: Vec<&str> = NODES.into_iter().filter(|_| random.chance(60)).collect();
        if random.chance(60) {
            // Seldom near the end of the longest tables: they take time.
            let ends = if random.below(1_000) == 0 { 1_048_560 } else { random.pick(&[0, 1, 3, 6]) };
            let counts: String =
                children.iter().map(|child| format!(" {} {}", child, random.between(1, 3))).collect();
            lines.push(format!("prior {} {}{}", node, ends, counts));
            priors.insert(node, children);
        }
    }
    let training = random.between(0, 6);
    for _ in 0..random.between(0, 3) {
        lines.push("sequence".to_string());
        lines.extend((0..training).map(|_| path(random, &priors, false)));
    }
    lines.push("day".to_string());
    for _ in 0..random.between(1, 40) {
        if random.chance(10) {
            lines.push("mark <noon> & later".to_string());
        }
        let by_chance = random.chance(10);
        lines.push(path(random, &priors, by_chance));
    }
    lines
}

/// A line of words that may fit together.
fn wild_line(random: &mut Rng) -> String {
    let rest: Vec<&str> = (0..random.below(6)).map(|_| random.pick(&WORDS)).collect();
    format!("{} {}", random.pick(&FIRST), rest.join(" "))
}

/// Bytes of one of four kinds.
fn bytes(random: &mut Rng) -> Vec<u8> {
    let mut lines = match random.below(4) {
        0 => {
            let length = random.below(80);
            return random.bytes(length);
        }
        1 => (0..random.below(30)).map(|_| wild_line(random)).collect(),
        _ => day_lines(random),
    };
    if random.chance(50) {
        for _ in 0..random.between(1, 3) {
            let at = random.below(lines.len() + 1);
            match random.below(3) {
                0 => lines.insert(at, wild_line(random)),
                1 if at < lines.len() => drop(lines.remove(at)),
                _ if at < lines.len() => lines.push(lines[at].clone()),
                _ => {}
            }
        }
    }
    let mut bytes = lines.join(random.pick(&["\n", "\r\n", "\r"])).into_bytes();
    if random.chance(20) && !bytes.is_empty() {
        let at = random.below(bytes.len());
        bytes[at] = random.bits() as u8;
    }
    bytes
}

/// Judged, left out and not judged are all paths in the report's first lines.
fn counts_add_up(report: &str) {
    let line = report.lines().find_map(|line| line.strip_prefix("  judged: ")).expect("there is one");
    let numbers: Vec<usize> = line.split_whitespace().filter_map(|word| word.parse().ok()).collect();
    if let [judged, all, rest @ ..] = &numbers[..] {
        assert_eq!(judged + rest.iter().sum::<usize>(), *all, "{}", line);
    }
}

/// Reads a file and reports it; the run, where there is a report.
fn ends(bytes: &[u8]) -> Option<Watched> {
    if let Ok(day) = read_paths(bytes) {
        let mut good = GoodDays::default();
        good.add(&day);
        assert!(good.lines().is_ok());
    }
    let told = match read(bytes) {
        Err(mistakes) => mistakes.lines(),
        Ok(day) => match watch(&day) {
            Err(problem) => vec![problem.to_string()],
            Ok(watched) => {
                let text = report("made", &day, &watched);
                let page = page("made", &day, &watched);
                // Texts of the day stand elsewhere.
                let drawings = page.split("<svg").skip(1).filter_map(|rest| rest.split("</svg>").next());
                let numbers = drawings.chain(page.split("<table>").nth(1)).collect::<String>();
                assert!(!numbers.contains("NaN") && !numbers.contains("inf"), "{}", numbers);
                let mut figures = Vec::new();
                csv::write(&mut figures, &day, &watched).expect("memory can be written");
                let rows = figures.iter().filter(|byte| **byte == b'\n').count();
                let Tally { judged, unjudged, left_out, .. } = watched.tally();
                assert_eq!((rows, judged + unjudged + left_out), (day.paths.len() + 1, day.paths.len()));
                counts_add_up(&text);
                // 'Nowhere' stands where there is nothing to find and all is judged.
                let all = watched.verdict() == Verdict::NoDrift;
                assert_eq!(text.contains("\n  nowhere: "), all, "{}", text);
                let none = watched.stretches.is_empty() && watched.over_day.is_empty();
                assert_eq!(all, none && judged == day.paths.len());
                // Until a tidy all nodes that were met are listed.
                if let (None, Some((_, last))) = (watched.tidied, watched.readings().next_back()) {
                    assert_eq!(watched.skipped as u64, last.stats.skipped, "{}", text);
                }
                // A book is tidied where it is too small for all paths, and not for those of the window.
                if let Some(capacity) = day.capacity.map(|capacity| capacity.value) {
                    assert_eq!(watched.tidied.is_some(), watched.needed > capacity, "{}", text);
                    assert!(watched.tidied.is_none_or(|tidied| tidied.needed <= capacity), "{}", text);
                }
                return Some(watched);
            }
        },
    };
    assert!((1..=TOLD + 1).contains(&told.len()), "{:?}", told);
    assert!(told.iter().all(|line| line.starts_with("line ") || line.starts_with("and ")), "{:?}", told);
    assert!(!told.iter().any(|line| line.contains(char::is_control)), "{:?}", told);
    // What a line shows is told before the archive refuses it.
    assert!(!told.iter().any(|line| line.contains("refusal")), "{:?}", told);
    None
}

#[test]
fn every_file_ends_in_a_report_or_in_told_mistakes() {
    let (mut reports, mut tidied, mut mistakes) = (0, 0, 0);
    for seed in 0..12_000 {
        let bytes = bytes(&mut Rng::new(seed));
        match std::panic::catch_unwind(|| ends(&bytes)) {
            Ok(Some(watched)) => {
                reports += 1;
                tidied += usize::from(watched.tidied.is_some());
            }
            Ok(None) => mistakes += 1,
            Err(_) => panic!("seed {}: {}", seed, String::from_utf8_lossy(&bytes)),
        }
    }
    // Enough of all, so that they are tried.
    assert!(reports > 2_000 && mistakes > 2_000, "{} reports, {} files with mistakes", reports, mistakes);
    assert!(tidied > 100, "{} tidied books", tidied);
}
