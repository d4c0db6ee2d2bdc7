//! Reads a recorded day line by line. A line that cannot be taken is a mistake with its number,
//! and reading goes on behind it, so that all mistakes of a file are told; a line that is wrong
//! only because of an earlier one is not told again.

use crate::checks;
use crate::day::{
    Day, Numbers, Prior, Setting, TableRule, MAX_CHILDREN, MAX_ENTRIES, MAX_LAST, MAX_PRIORS,
    MAX_PRIOR_CHILDREN,
};
use crate::mistakes::{Mistakes, Problem};
use crate::plain::{is_obeyed, is_other_break};
use crate::words::number;
use std::collections::BTreeMap;
use std::fmt::Display;
use std::str::{FromStr, SplitWhitespace};
use teakpool::Address;

const MAX_STEPS: usize = 64;
const MAX_SEQUENCES: usize = 64;
const MAX_PATHS: usize = 65_536;
const MAX_WINDOW: u32 = 1_024;
/// 2^40: table entries from index 1 on lie between this and its negative.
const MAX_TABLE_ENTRY: f64 = 1_099_511_627_776.0;
/// What some editors put before the first line.
const BYTE_ORDER_MARK: &[u8] = b"\xef\xbb\xbf";

/// Reads a day from the bytes of its file, and tests that its lines fit together.
pub fn read(bytes: &[u8]) -> Result<Day, Mistakes> {
    let mut reader = lines_of(bytes);
    checks::together(&reader.day, !reader.tables_wrong, &mut reader.mistakes);
    reader.done()
}

/// Reads a day's lines alone, for those who want its paths and nothing else.
pub fn read_paths(bytes: &[u8]) -> Result<Day, Mistakes> {
    lines_of(bytes).done()
}

/// Where a path line belongs.
#[derive(PartialEq)]
enum Section {
    Head,
    Training,
    Day,
}

/// The lines as they are read.
struct Reader {
    day: Day,
    mistakes: Mistakes,
    section: Section,
    /// The line of each thing that is given once.
    given: BTreeMap<String, usize>,
    prior_children: usize,
    /// A line of the tables is wrong, so that nothing more can be said of them.
    tables_wrong: bool,
    /// The line of each training sequence, and its path lines, wrong ones too.
    sequences: Vec<(usize, usize)>,
    /// The path lines of the day, wrong ones too.
    day_paths: usize,
    /// Steps of the path that is read, kept for their room.
    steps: Vec<Address>,
}

fn lines_of(bytes: &[u8]) -> Reader {
    let mut reader = Reader {
        day: Day::default(),
        mistakes: Mistakes::default(),
        section: Section::Head,
        given: BTreeMap::new(),
        prior_children: 0,
        tables_wrong: false,
        sequences: Vec::new(),
        day_paths: 0,
        steps: Vec::new(),
    };
    if bytes.starts_with(b"\xff\xfe") || bytes.starts_with(b"\xfe\xff") {
        let text = "the file is UTF-16; it is to be saved as UTF-8".to_string();
        reader.mistakes = Problem { line: 1, text }.into();
        return reader;
    }
    let bytes = bytes.strip_prefix(BYTE_ORDER_MARK).unwrap_or(bytes);
    let mut last = 1;
    for (index, line) in split(bytes).enumerate() {
        last = index + 1;
        if let Err(text) = reader.bytes(last, line) {
            reader.mistakes.add(last, text);
        }
    }
    reader.whole_sequences();
    if reader.day_paths == 0 {
        let text = "the file ends without a path in its day (a line 'day', then lines 'path ...')";
        reader.mistakes.add(last, text.to_string());
    }
    reader
}

/// The lines of a file; a line ends with a line feed, a carriage return or both.
fn split(bytes: &[u8]) -> impl Iterator<Item = &[u8]> {
    let bytes = bytes.strip_suffix(b"\n").unwrap_or(bytes);
    let lines = bytes.split(|byte| *byte == b'\n');
    lines.flat_map(|line| line.strip_suffix(b"\r").unwrap_or(line).split(|byte| *byte == b'\r'))
}

impl Reader {
    fn done(self) -> Result<Day, Mistakes> {
        match self.mistakes.none() {
            true => Ok(self.day),
            false => Err(self.mistakes),
        }
    }

    /// A line as it lies in the file.
    fn bytes(&mut self, number: usize, line: &[u8]) -> Result<(), String> {
        match std::str::from_utf8(line) {
            Ok(text) => {
                let taken = self.line(number, text);
                match text.chars().find(|letter| is_other_break(*letter)) {
                    Some(letter) => Err(format!(
                        "the line has another kind of line end in it, {}",
                        letter.escape_unicode()
                    )),
                    None => taken,
                }
            }
            Err(error) => {
                // What can be read of it counts for the lines behind it.
                let _ = self.line(number, &String::from_utf8_lossy(line));
                let byte = line[error.valid_up_to()];
                Err(format!("the byte {:#04x} is no text; the file is to be saved as UTF-8", byte))
            }
        }
    }

    fn line(&mut self, number: usize, line: &str) -> Result<(), String> {
        let mut words = line.split('#').next().unwrap_or_default().split_whitespace();
        let Some(word) = words.next() else {
            return Ok(());
        };
        if ["window", "drift", "rate", "capacity", "tables", "floor", "day"].contains(&word) {
            self.once(word.to_string(), number)?;
        }
        match word {
            "window" => self.day.window = within(&mut words, "a window", 0, MAX_WINDOW)?,
            "drift" => self.day.drift = drift(&mut words)?,
            "rate" => {
                let value = within(&mut words, "a rate", 1, u32::MAX)?;
                self.day.rate = Some(Setting { line: number, value });
            }
            "capacity" => {
                let value = within(&mut words, "a capacity", 1, MAX_ENTRIES)?;
                self.day.capacity = Some(Setting { line: number, value });
            }
            "tables" => self.tables(number, &mut words)?,
            "g" | "d" => self.numbers(number, word, &mut words)?,
            "floor" => self.day.priors.set_floor(parse(words.next(), "the floor's scale")?),
            "prior" => self.prior(number, &mut words)?,
            "name" => self.name(number, &mut words)?,
            "sequence" => self.sequence(number)?,
            "day" => self.section = Section::Day,
            "mark" => self.mark(&mut words)?,
            "path" => self.path(number, &mut words)?,
            other => {
                return Err(format!(
                    "'{}' begins no line of a recorded day; --help has the list",
                    shown(other)
                ))
            }
        }
        match words.next() {
            None => Ok(()),
            Some(rest) => Err(format!("'{}' is more than '{}' takes", shown(rest), word)),
        }
    }

    /// A thing that is given once.
    fn once(&mut self, what: String, line: usize) -> Result<(), String> {
        match self.given.get(&what) {
            Some(before) => Err(format!("'{}' is given already, in line {}", what, before)),
            None => {
                self.given.insert(what, line);
                Ok(())
            }
        }
    }

    fn tables(&mut self, line: usize, words: &mut SplitWhitespace) -> Result<(), String> {
        let none = || Numbers { line, values: Vec::new() };
        let rule = match words.next() {
            Some("gamma") => Ok(TableRule::Gamma),
            Some("squares") => within(words, "a last index", 1, MAX_LAST).map(TableRule::Squares),
            Some("numbers") => Ok(TableRule::Numbers { g: none(), d: none() }),
            other => Err(wanted("gamma, squares or numbers", other)),
        };
        self.tables_wrong |= rule.is_err();
        self.day.tables = rule?;
        Ok(())
    }

    fn numbers(&mut self, line: usize, word: &str, words: &mut SplitWhitespace) -> Result<(), String> {
        let TableRule::Numbers { g, d } = &mut self.day.tables else {
            words.by_ref().for_each(drop);
            return match self.tables_wrong {
                true => Ok(()),
                false => Err(format!("'{}' comes after a line 'tables numbers'", word)),
            };
        };
        let table = if word == "g" { g } else { d };
        table.line = line;
        let read = words.try_for_each(|word| table_entry(&mut table.values, word));
        self.tables_wrong |= read.is_err();
        read
    }

    fn prior(&mut self, line: usize, words: &mut SplitWhitespace) -> Result<(), String> {
        let node = address(words.next())?;
        let ends = within(words, "a count of endings", 0, u32::MAX)?;
        let mut children = BTreeMap::new();
        while let Some(word) = words.next() {
            let child = address(Some(word))?;
            let count = within(words, "a child's count", 1, u32::MAX)?;
            if children.insert(child, count).is_some() {
                return Err(format!("the child {} stands here twice", child));
            }
        }
        if children.len() > MAX_CHILDREN {
            return Err(format!("{} children; a node has at most {}", children.len(), MAX_CHILDREN));
        }
        if self.prior_children + children.len() > MAX_PRIOR_CHILDREN {
            return Err(format!("the priors have over {} children with this line", MAX_PRIOR_CHILDREN));
        }
        let prior = Prior { line, ends, children };
        if prior.total() == 0 {
            return Err("a prior needs at least one count that is not 0".to_string());
        }
        if let Some(before) = self.day.priors.given(node) {
            return Err(format!("{} has a prior already, in line {}", node, before.line));
        }
        if self.day.priors.len() == MAX_PRIORS {
            return Err(format!("a day has at most {} priors", MAX_PRIORS));
        }
        self.prior_children += prior.children.len();
        self.day.priors.add(node, prior);
        Ok(())
    }

    fn name(&mut self, line: usize, words: &mut SplitWhitespace) -> Result<(), String> {
        let node = address(words.next())?;
        self.once(format!("name {}", node), line)?;
        self.day.names.insert(node, text(words, "a name")?);
        Ok(())
    }

    fn sequence(&mut self, number: usize) -> Result<(), String> {
        if self.section == Section::Day {
            return Err("training sequences come before the day".to_string());
        }
        self.section = Section::Training;
        self.sequences.push((number, 0));
        self.day.sequences.push(Default::default());
        match self.sequences.len() > MAX_SEQUENCES {
            true => Err(format!("a training has at most {} sequences", MAX_SEQUENCES)),
            false => Ok(()),
        }
    }

    /// All sequences have paths, and as many as the first that has some.
    fn whole_sequences(&mut self) {
        let lengths = || self.sequences.iter().map(|(_, paths)| *paths);
        let first = lengths().find(|paths| *paths > 0).unwrap_or(0);
        for (line, paths) in &self.sequences {
            let text = match *paths {
                0 => format!("the sequence of line {} has no path", line),
                paths if paths != first => format!(
                    "the sequence of line {} has {}, the first one {}",
                    line,
                    number(paths, "path"),
                    first
                ),
                _ => continue,
            };
            self.mistakes.add(*line, text);
        }
    }

    fn mark(&mut self, words: &mut SplitWhitespace) -> Result<(), String> {
        if self.section != Section::Day {
            words.by_ref().for_each(drop);
            return Err("marks stand in the day".to_string());
        }
        let text = text(words, "the text of a mark")?;
        self.day.marks.push((self.day.paths.len(), text));
        Ok(())
    }

    fn path(&mut self, line: usize, words: &mut SplitWhitespace) -> Result<(), String> {
        match (&self.section, self.sequences.last_mut()) {
            (Section::Head, _) => {
                words.by_ref().for_each(drop);
                return Err("a path comes after a line 'sequence' or 'day'".to_string());
            }
            (Section::Training, Some((_, paths))) => *paths += 1,
            _ => self.day_paths += 1,
        }
        self.steps.clear();
        for word in words.by_ref() {
            self.steps.push(address(Some(word))?);
        }
        if !(1..=MAX_STEPS).contains(&self.steps.len()) {
            return Err(format!("a path of {} steps; it has 1 to {}", self.steps.len(), MAX_STEPS));
        }
        match (&self.section, self.day.sequences.last_mut()) {
            (Section::Training, Some(sequence)) => {
                if sequence.len() == MAX_PATHS {
                    return Err(format!("a sequence has at most {} paths", MAX_PATHS));
                }
                sequence.push(line, &self.steps)
            }
            _ => self.day.paths.push(line, &self.steps),
        }
        Ok(())
    }
}

fn drift(words: &mut SplitWhitespace) -> Result<f64, String> {
    let (word, what) = (words.next(), "a number of deviations, 0 or more,");
    let number: f64 = parse(word, what)?;
    match number.is_finite() && number >= 0.0 {
        true => Ok(number),
        false => Err(wanted(what, word)),
    }
}

/// One more number of a table.
fn table_entry(table: &mut Vec<f64>, word: &str) -> Result<(), String> {
    let index = table.len();
    if index > MAX_LAST {
        return Err(format!("a table has at most {} numbers", MAX_LAST + 1));
    }
    let number: f64 = parse(Some(word), "a number")?;
    // Index 0 is never read.
    if index > 0 && !(-MAX_TABLE_ENTRY..=MAX_TABLE_ENTRY).contains(&number) {
        let what = format!("a number from -2^40 to 2^40 at index {}", index);
        return Err(wanted(&what, Some(word)));
    }
    table.push(number);
    Ok(())
}

/// The rest of a line as a text that can be printed.
fn text(words: &mut SplitWhitespace, what: &str) -> Result<String, String> {
    let text = words.collect::<Vec<&str>>().join(" ");
    match text.chars().find(|letter| is_obeyed(*letter)) {
        Some(letter) => Err(format!("the text has a control character, {}", letter.escape_unicode())),
        None if text.is_empty() => Err(wanted(what, None)),
        None => Ok(text),
    }
}

/// A word of the file as a mistake shows it: cut where it is long, and nothing in it that a
/// terminal would obey.
fn shown(word: &str) -> String {
    let mut shown: String =
        word.chars().take(40).map(|letter| if is_obeyed(letter) { '?' } else { letter }).collect();
    if word.chars().nth(40).is_some() {
        shown.push_str("..");
    }
    shown
}

fn wanted(what: &str, word: Option<&str>) -> String {
    match word {
        Some(word) => format!("{} is wanted, not '{}'", what, shown(word)),
        None => format!("{} is wanted, and the line ends", what),
    }
}

fn parse<T: FromStr>(word: Option<&str>, what: &str) -> Result<T, String> {
    word.and_then(|word| word.parse().ok()).ok_or_else(|| wanted(what, word))
}

fn within<T: FromStr + PartialOrd + Display>(
    words: &mut SplitWhitespace,
    what: &str,
    least: T,
    most: T,
) -> Result<T, String> {
    let word = words.next();
    let number: T = parse(word, what)?;
    if number >= least && number <= most {
        Ok(number)
    } else {
        Err(format!("{} is wanted, from {} to {}, not {}", what, least, most, number))
    }
}

fn address(word: Option<&str>) -> Result<Address, String> {
    let (scale, point) =
        word.and_then(|word| word.split_once('/')).ok_or_else(|| wanted("an address SCALE/POINT", word))?;
    match (scale.parse(), point.parse()) {
        (Ok(scale), Ok(point)) => Ok(Address::new(scale, point)),
        _ => Err(wanted("an address SCALE/POINT", word)),
    }
}

#[cfg(test)]
mod tests {
    use super::read;
    use crate::day::FORMAT;

    /// Line and text of each mistake.
    fn mistakes(text: impl AsRef<[u8]>) -> Vec<(usize, String)> {
        let mistakes = read(text.as_ref()).expect_err("a line is wrong");
        mistakes.told().iter().map(|problem| (problem.line, problem.text.clone())).collect()
    }

    /// The only mistake of a file.
    fn problem(text: impl AsRef<[u8]>) -> (usize, String) {
        let mistakes = mistakes(text);
        assert_eq!(mistakes.len(), 1, "{:?}", mistakes);
        mistakes[0].clone()
    }

    /// The rest of a day around the lines in question.
    fn with_day(lines: &str) -> String {
        format!("{}\nday\npath 1/0", lines)
    }

    #[test]
    fn the_example_begins_with_the_format() {
        let example = include_str!("../../../days/example.txt");
        let comment = |line: &str| format!("# {}", line).trim_end().to_string();
        for (line, format) in example.lines().zip(FORMAT.lines()) {
            assert_eq!(line, comment(format));
        }
        assert!(read(example.as_bytes()).is_ok());
    }

    #[test]
    fn wrong_lines_are_told_by_number() {
        assert_eq!(problem(with_day("window 7\nwindos 8")).0, 2);
        assert_eq!(problem(with_day("window 1025")).1, "a window is wanted, from 0 to 1024, not 1025");
        assert_eq!(problem("day\npath 1/0 2-1").1, "an address SCALE/POINT is wanted, not '2-1'");
        assert_eq!(problem("day\npath"), (2, "a path of 0 steps; it has 1 to 64".to_string()));
        let long = format!("day\npath 1/0\npath{}", " 1/0".repeat(65));
        assert_eq!(problem(long), (3, "a path of 65 steps; it has 1 to 64".to_string()));
        assert_eq!(problem(with_day("path 1/0")).0, 1);
        assert_eq!(problem(with_day("prior 1/0 0")).0, 1);
        assert_eq!(problem(with_day("prior 1/0 1 0/1 0")).0, 1);
        assert_eq!(problem(with_day("prior 1/0 1\nprior 1/0 1")).1, "1/0 has a prior already, in line 1");
        assert_eq!(problem("# nothing\n\n").0, 2);
        assert_eq!(problem("").0, 1);
        let drift = "a number of deviations, 0 or more, is wanted, not 'NaN'";
        assert_eq!(problem(with_day("\ndrift NaN")), (2, drift.to_string()));
        let unequal = "sequence\npath 1/0\nsequence\nday\npath 1/0";
        assert_eq!(problem(unequal), (3, "the sequence of line 3 has no path".to_string()));
    }

    #[test]
    fn all_mistakes_are_told_and_none_that_follows_from_another() {
        let lines = [
            "window x",
            "tables cubes",
            "g 1 2",
            "prior 1/7 1 0/7 2 0/9",
            "sequence",
            "path 1/7 07",
            "sequence",
            "path 1/7 0/3",
            "day",
            "path 1/7 0/",
        ];
        let told = [
            (1, "a window is wanted, not 'x'"),
            (2, "gamma, squares or numbers is wanted, not 'cubes'"),
            (4, "a child's count is wanted, and the line ends"),
            (6, "an address SCALE/POINT is wanted, not '07'"),
            (10, "an address SCALE/POINT is wanted, not '0/'"),
        ];
        let told: Vec<(usize, String)> = told.iter().map(|(line, text)| (*line, text.to_string())).collect();
        assert_eq!(mistakes(lines.join("\n")), told);
        let many = format!("{}day\n{}", "windos\n".repeat(13), "path\n".repeat(9));
        let lines = read(many.as_bytes()).expect_err("all lines are wrong").lines();
        assert_eq!(lines.len(), 21);
        assert_eq!(lines[19], "line 21: a path of 0 steps; it has 1 to 64");
        assert_eq!(lines[20], "and 2 more mistakes");
    }

    #[test]
    fn what_is_given_twice_is_a_mistake() {
        let twice = |line: &str| problem(with_day(&format!("{}\n\n{}", line, line)));
        for setting in ["window 3", "drift 2", "rate 1", "capacity 9", "tables gamma", "floor -3"] {
            let word = setting.split(' ').next().unwrap();
            assert_eq!(twice(setting), (3, format!("'{}' is given already, in line 1", word)));
        }
        assert_eq!(twice("name 1/0 x"), (3, "'name 1/0' is given already, in line 1".to_string()));
        let day = "day\npath 1/0\nday\npath 1/0";
        assert_eq!(problem(day), (3, "'day' is given already, in line 1".to_string()));
    }

    #[test]
    fn a_byte_order_mark_and_any_line_ending_are_taken() {
        let day = read(b"\xef\xbb\xbfwindow 7\r\nday\r\nmark a  b\r\npath 1/0 0/1\r\n").unwrap();
        assert_eq!((day.window, day.paths.len(), day.mark_at(0)), (7, 1, Some("a b")));
        let text = "the file is UTF-16; it is to be saved as UTF-8".to_string();
        assert_eq!(problem(b"\xff\xfed\0a\0y\0"), (1, text));
    }

    #[test]
    fn no_line_end_swallows_a_line() {
        for text in ["day\rmark a\rpath 1/0\r# b\rpath 1/0\r", "day\nmark a\rpath 1/0\n# b\rpath 1/0"] {
            let day = read(text.as_bytes()).unwrap();
            assert_eq!((day.paths.len(), day.mark_at(0), day.paths.line(1)), (2, Some("a"), 5), "{:?}", text);
        }
        assert_eq!(problem("day\npath 1/0\nmark a\rb").0, 4);
        for (end, shown) in [("\u{2028}", "2028"), ("\u{85}", "85"), ("\u{b}", "b"), ("\u{c}", "c")] {
            let text = format!("the line has another kind of line end in it, \\u{{{}}}", shown);
            assert_eq!(problem(format!("day\npath 1/0\n# b{}path 1/0", end)), (3, text));
        }
    }

    #[test]
    fn a_sequence_has_paths() {
        let text = "the sequence of line 1 has no path".to_string();
        assert_eq!(problem(with_day("sequence")), (1, text.clone()));
        assert_eq!(problem(with_day("sequence\nsequence\npath 1/0\n")), (1, text));
    }

    #[test]
    fn names_and_marks_are_texts() {
        let day = read(with_day("name 1/0 the  wheel # not this\nname -1/7 ö").as_bytes()).unwrap();
        let names: Vec<String> = day.names.iter().map(|(node, name)| format!("{} {}", node, name)).collect();
        assert_eq!(names, ["-1/7 ö", "1/0 the wheel"]);
        assert_eq!(problem(with_day("name 1/0")).1, "a name is wanted, and the line ends");
        let text = "the text has a control character, \\u{1b}";
        assert_eq!(problem(with_day("name 1/0 a\x1b[2J")), (1, text.to_string()));
        assert_eq!(problem("day\npath 1/0\nmark \x1b"), (3, text.to_string()));
        assert_eq!(problem("day\npath 1/0\nmark").1, "the text of a mark is wanted, and the line ends");
        assert_eq!(problem("day\npath 1/0\nmark a\u{202e}b").0, 3);
        assert_eq!(problem(with_day("mark early")).1, "marks stand in the day");
        let shown = "'wind?ow' begins no line of a recorded day; --help has the list";
        assert_eq!(problem(with_day("wind\x07ow")).1, shown);
    }

    #[test]
    fn wrong_tables_are_told_by_number() {
        let numbers = |lines: &str| with_day(&format!("tables numbers\n{}", lines));
        assert!(read(numbers("g NaN -1099511627776\nd -inf 1099511627776").as_bytes()).is_ok());
        for wrong in ["NaN", "inf", "1099511627777", "-1.1e12"] {
            let text = format!("a number from -2^40 to 2^40 at index 2 is wanted, not '{}'", wrong);
            assert_eq!(problem(numbers(&format!("d 0 1 2\ng 0 1\ng {} 3", wrong))), (4, text));
        }
        assert_eq!(problem(numbers("g 0 1\nd 0 1,5")), (3, "a number is wanted, not '1,5'".to_string()));
        let unequal = "the lines 'g' have 2 numbers, the lines 'd' 3; both need as many".to_string();
        assert_eq!(problem(numbers("g 0 1\nd 0\nd 1 2")), (2, unequal));
        assert_eq!(problem(numbers("g 0 1\ng 2\nd 0 1")).0, 4);
        assert_eq!(problem(numbers("d 0 1")).0, 1);
        assert_eq!(problem(with_day("g 0 1")).1, "'g' comes after a line 'tables numbers'");
        let few = "the lines 'g' and the lines 'd' need two numbers at least, of index 0 and 1".to_string();
        assert_eq!(problem(numbers("g 0\nd 0")), (3, few));
        let most = format!("g{}\n", " 0".repeat(1_048_576));
        assert_eq!(
            problem(numbers(&format!("{}g 0", most))),
            (3, "a table has at most 1048576 numbers".to_string())
        );
        assert!(read(numbers(&format!("{}{}", most, most.replace('g', "d"))).as_bytes()).is_ok());
    }

    #[test]
    fn a_wrong_floor_is_told_by_number() {
        assert_eq!(problem(with_day("floor")).1, "the floor's scale is wanted, and the line ends");
        for wrong in ["x", "1/0", "0.5", "2147483648"] {
            let text = format!("the floor's scale is wanted, not '{}'", wrong);
            assert_eq!(problem(with_day(&format!("\nfloor {}", wrong))), (2, text));
        }
        assert_eq!(problem(with_day("floor -3 -4")).1, "'-4' is more than 'floor' takes");
    }

    #[test]
    fn two_priors_below_the_floor_with_one_point_are_told_by_number() {
        let day =
            |floor: i32| with_day(&format!("floor {}\nprior -5/7 1\nprior -8/7 1\nprior -6/9 1", floor));
        assert!(read(day(-5).as_bytes()).is_ok());
        let text = "-5/7, in line 2, has this point and is below the floor, -4, too".to_string();
        assert_eq!(problem(day(-4)), (3, text));
        // What would be looked up is not told of: which prior it has is not known.
        let training = "floor 0\nprior -5/7 1 -9/1 1\nprior -8/7 1 -9/2 1\nsequence\npath -6/7 -9/3";
        assert_eq!(problem(with_day(training)).0, 3);
    }

    #[test]
    fn too_many_priors_are_told_by_number() {
        let nodes = |count: u32| (0..count).map(|point| format!("prior 1/{} 1\n", point)).collect::<String>();
        assert!(read(with_day(&nodes(4_096)).as_bytes()).is_ok());
        assert_eq!(problem(with_day(&nodes(4_097))), (4_097, "a day has at most 4096 priors".to_string()));
        let chain: String = (0..64).map(|point| format!(" 0/{} 1", point)).collect();
        let chains = |count: u32| {
            (0..count).map(|point| format!("prior 1/{} 1{}\n", point, chain)).collect::<String>()
        };
        assert!(read(with_day(&chains(256)).as_bytes()).is_ok());
        let text = "the priors have over 16384 children with this line".to_string();
        assert_eq!(problem(with_day(&format!("{}\nprior 2/0 0 1/0 1", chains(256)))), (258, text));
        let text = "65 children; a node has at most 64".to_string();
        assert_eq!(problem(with_day(&format!("\nprior 1/0 1{} 0/64 1", chain))), (2, text));
    }

    #[test]
    fn settings_that_do_not_fit_the_paths_are_told_by_number() {
        let sequence = format!("sequence\n{}", "path 1/0\n".repeat(1_025));
        let rated = |rate: u32| with_day(&format!("window 3\nrate {}\n{}", rate, sequence));
        assert!(read(rated(2).as_bytes()).is_ok());
        let text = "a rate of 1 gives 1025 knots in sequences of 1025 paths, and there are at most 1024; \
                    2 is the least rate for them";
        assert_eq!(problem(rated(1)), (2, text.to_string()));
        // Three nodes and two transitions in the sequence, two nodes and one in the day.
        let held =
            |entries: u32| format!("capacity {}\nsequence\npath 2/0 1/0 0/0\nday\npath 1/0 0/1", entries);
        assert!(read(held(5).as_bytes()).is_ok());
        let text = "a capacity of 4 is too small: the training needs 5 entries".to_string();
        assert_eq!(problem(held(4)), (1, text));
        // Where paths leave the window the book is tidied, and two of these in a row have five entries; in
        // a training none leaves.
        let paths = "path 1/0 0/0\npath 1/0 0/1\npath 1/0 0/2\n";
        let leaving = |entries: u32, window: u32, lines: &str| {
            format!("capacity {}\nwindow {}\n{}\n{}", entries, window, lines, paths)
        };
        assert!(read(leaving(5, 1, "day").as_bytes()).is_ok());
        assert_eq!(problem(leaving(4, 1, "day")).1, "a capacity of 4 is too small: the day needs 5 entries");
        let trained = format!("sequence\n{}day", paths);
        for (window, lines, whose) in [(0, "day", "day"), (3, "day", "day"), (1, &trained, "training")] {
            let text = format!("a capacity of 6 is too small: the {} needs 7 entries", whose);
            assert_eq!(problem(leaving(6, window, lines)), (1, text));
            assert!(read(leaving(7, window, lines).as_bytes()).is_ok());
        }
        // A path that is left out needs none: 1/0 does not go on to 0/2 by its prior, and at 0/1 the
        // second path passes the tables' end.
        let left_out = |entries: u32, path: &str| {
            let priors = "tables squares 7\nprior 1/0 1 0/1 2\nprior 0/1 6\n";
            format!("capacity {}\n{}day\npath 1/0 0/1\npath {}", entries, priors, path)
        };
        assert!(read(left_out(3, "1/0 0/2 -1/0").as_bytes()).is_ok());
        assert!(read(left_out(3, "2/0 0/1").as_bytes()).is_ok());
        assert_eq!(problem(left_out(3, "2/0 1/0")).0, 1);
    }

    #[test]
    fn a_prior_that_leaves_no_room_in_the_tables_is_told_where_it_is_visited() {
        let prior = "prior 0/1 1\nprior 0/2 2000000\n";
        let text = "the counts of this prior come to 2000000, and the last index of the tables is 1048575";
        assert_eq!(problem(format!("{}day\npath 0/1\npath 0/2", prior)), (2, text.to_string()));
        assert_eq!(problem(format!("{}sequence\npath 0/2\nday\npath 0/1", prior)), (2, text.to_string()));
        assert!(read(format!("{}day\npath 0/1", prior).as_bytes()).is_ok());
        assert_eq!(problem("tables numbers\ng 0 0\nd 0 0\nprior 0/1 1\nday\npath 0/1").0, 4);
        assert!(read(format!("{}day\npath -1/2", prior).as_bytes()).is_ok());
        assert_eq!(problem(format!("{}floor 1\nday\npath -1/2", prior)).0, 2);
    }

    #[test]
    fn a_training_that_leaves_its_priors_is_told_by_number() {
        let prior = "prior 1/0 1 0/1 2\nsequence\npath 1/0 0/1\npath 1/0 0/2\n";
        let text = "1/0 goes on to 0/2, which its prior does not have; a training is made of good days";
        assert_eq!(problem(format!("{}day\npath 1/0", prior)), (4, text.to_string()));
        // In the day it is a finding.
        assert!(read(b"prior 1/0 1 0/1 2\nday\npath 1/0 0/2").is_ok());
        // Below the floor a node has the prior with its point, and children their exact addresses.
        let fine = "prior -5/0 1 -6/1 2\nsequence\npath -4/0 -6/1\npath -4/0 -7/1\nday\npath -4/0";
        assert!(read(fine.as_bytes()).is_ok());
        let text = "-4/0 goes on to -7/1, which its prior does not have; a training is made of good days";
        assert_eq!(problem(format!("{}\nfloor -3", fine)), (4, text.to_string()));
    }

    #[test]
    fn bytes_that_are_no_text_are_told_by_number() {
        let text = "the byte 0xfc is no text; the file is to be saved as UTF-8".to_string();
        assert_eq!(problem(b"window 3\r\nday\r\nmark gr\xfcn\r\npath 1/0\r\n"), (3, text));
        assert_eq!(problem(b"day\npath 1/0 # \xc3").0, 2);
    }
}
