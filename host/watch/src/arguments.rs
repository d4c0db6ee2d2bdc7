//! The program's arguments.

use crate::plain::plain;
use std::ffi::OsString;

/// What is asked for.
#[derive(Debug, PartialEq, Eq)]
pub enum Command {
    Help,
    /// The report of a day, and what is to be written beside it.
    Watch {
        day: OsString,
        html: Option<OsString>,
        csv: Option<OsString>,
    },
    /// Priors from good days.
    Priors {
        days: Vec<OsString>,
    },
}

/// Reads the arguments; what is wrong with them is told in a line.
pub fn command(words: &[OsString]) -> Result<Command, String> {
    if words.iter().take_while(|word| *word != "--").any(|word| word == "--help" || word == "-h") {
        return Ok(Command::Help);
    }
    match words.split_first() {
        Some((word, days)) if word == "priors" => priors(days),
        _ => watch(words),
    }
}

fn priors(days: &[OsString]) -> Result<Command, String> {
    match files(days, &mut [])? {
        days if days.is_empty() => Err("'priors' wants the file of a good day".to_string()),
        days => Ok(Command::Priors { days }),
    }
}

fn watch(words: &[OsString]) -> Result<Command, String> {
    let mut options = [("--html", None), ("--csv", None)];
    let mut days = files(words, &mut options)?;
    let [(_, html), (_, csv)] = options;
    match (days.pop(), days.is_empty()) {
        (None, _) => Err("the file of a day is wanted".to_string()),
        (Some(_), false) => Err("one day is read at a time".to_string()),
        (Some(day), true) => Ok(Command::Watch { day, html, csv }),
    }
}

/// The files among the words; options with their files go to `options`.
fn files(words: &[OsString], options: &mut [(&str, Option<OsString>)]) -> Result<Vec<OsString>, String> {
    let (mut files, mut words) = (Vec::new(), words.iter());
    while let Some(word) = words.next() {
        if word == "--" {
            files.extend(words.by_ref().cloned());
        } else if let Some((option, file)) = options.iter_mut().find(|(option, _)| word == option) {
            let given = words.next().ok_or_else(|| format!("{} wants a file", option))?;
            if given == "-" {
                return Err("standard output has the report; --html and --csv want files".to_string());
            }
            if file.replace(given.clone()).is_some() {
                return Err(format!("{} is given twice", option));
            }
        } else if word.as_encoded_bytes().starts_with(b"-") && word != "-" {
            return Err(format!("'{}' is no option", plain(word)));
        } else {
            files.push(word.clone());
        }
    }
    Ok(files)
}

#[cfg(test)]
mod tests {
    use super::{command, Command};
    use std::ffi::OsString;

    fn words(line: &str) -> Result<Command, String> {
        command(&line.split_whitespace().map(OsString::from).collect::<Vec<OsString>>())
    }

    fn watch(day: &str, html: Option<&str>, csv: Option<&str>) -> Result<Command, String> {
        let word = OsString::from;
        Ok(Command::Watch { day: word(day), html: html.map(word), csv: csv.map(word) })
    }

    #[test]
    fn a_day_and_what_is_written_beside_it() {
        assert_eq!(words("day.txt"), watch("day.txt", None, None));
        assert_eq!(words("-"), watch("-", None, None));
        assert_eq!(words("--html a day --csv b"), watch("day", Some("a"), Some("b")));
        assert_eq!(words("--csv a -- --html"), watch("--html", None, Some("a")));
        let days = ["a", "-"].map(OsString::from).to_vec();
        assert_eq!(words("priors a -"), Ok(Command::Priors { days }));
        for help in ["--help", "a -h", "priors --help", "--html --help"] {
            assert_eq!(words(help), Ok(Command::Help), "{}", help);
        }
    }

    #[test]
    fn mistakes() {
        let wrong = |line: &str| words(line).expect_err("there is a mistake");
        assert_eq!(wrong(""), "the file of a day is wanted");
        assert_eq!(wrong("--html a"), "the file of a day is wanted");
        assert_eq!(wrong("a b"), "one day is read at a time");
        assert_eq!(wrong("a --html"), "--html wants a file");
        assert_eq!(wrong("--csv a --csv b c"), "--csv is given twice");
        assert_eq!(wrong("--csv - a"), "standard output has the report; --html and --csv want files");
        assert_eq!(wrong("-\u{7} a"), "'-\\u{7}' is no option");
        assert_eq!(wrong("--htlm a b"), "'--htlm' is no option");
        assert_eq!(wrong("priors"), "'priors' wants the file of a good day");
        assert_eq!(wrong("priors --csv a"), "'--csv' is no option");
    }
}
