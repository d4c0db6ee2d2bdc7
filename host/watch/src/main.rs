//! The program behind ./run: reads a recorded day, runs it through the watch, and prints where the
//! day drifts, what was never seen and what could not be judged, with the divergences by node and
//! the statistics beside the baseline. `usage.txt` has the arguments and the exit statuses.

mod arguments;
mod by_node;
mod capacity;
mod chart;
mod checks;
mod counts;
mod csv;
mod day;
mod facts;
mod files;
mod findings;
#[cfg(test)]
mod generated;
mod known;
mod lent;
mod lookup;
#[cfg(test)]
mod made_up;
mod mistakes;
mod moved;
mod others;
mod page;
mod plain;
mod priors;
mod progress;
mod reader;
mod refused;
mod report;
mod seldom;
mod stretches;
mod training;
mod usual;
mod watched;
mod words;
mod work;

use arguments::Command;
use day::Day;
use plain::plain;
use std::ffi::{OsStr, OsString};
use std::fs::File;
use std::io::{BufWriter, Read, Write};
use std::process::ExitCode;
use watched::{Verdict, Watched};

const USAGE: &str = include_str!("usage.txt");

const DONE: u8 = 0;
const MISTAKE: u8 = 1;
const MISUSE: u8 = 2;
const DRIFT: u8 = 3;
const NOT_ALL_JUDGED: u8 = 4;

fn main() -> ExitCode {
    let words: Vec<OsString> = std::env::args_os().skip(1).collect();
    let status = match arguments::command(&words) {
        Ok(Command::Help) => show(&format!("{}\n{}", USAGE, day::FORMAT), DONE),
        Ok(Command::Watch { day, html, csv }) => watch(&day, html.as_ref(), csv.as_ref()),
        Ok(Command::Priors { days }) => priors(&days),
        Err(mistake) => misuse(&mistake),
    };
    ExitCode::from(status)
}

/// Prints a line to standard error; where nobody can read it there is nothing to be done.
fn tell(line: &str) {
    let _ = writeln!(std::io::stderr(), "{}", line);
}

/// Prints, and gives the status; a reader that goes away early is no failure.
fn show(text: &str, status: u8) -> u8 {
    match std::io::stdout().write_all(text.as_bytes()) {
        Err(error) if error.kind() != std::io::ErrorKind::BrokenPipe => {
            tell(&format!("the report cannot be written: {}", error));
            MISTAKE
        }
        _ => status,
    }
}

/// Writes what is asked for and prints the report of a day, or a line for each mistake in its file.
fn watch(file: &OsStr, html: Option<&OsString>, csv: Option<&OsString>) -> u8 {
    let outputs: Vec<&OsString> = html.into_iter().chain(csv).collect();
    if let Some(output) = files::written_over(file, &outputs) {
        return misuse(&format!("{} would be written over", plain(output)));
    }
    let (day, watched) = match watched(file) {
        Ok(read) => read,
        Err(lines) => return mistakes(&name(file), &lines),
    };
    let mut result = status(watched.verdict());
    if let Some(html) = html {
        let page = page::page(&name(file), &day, &watched);
        result = written(html, |out| out.write_all(page.as_bytes())).unwrap_or(result);
    }
    if let Some(csv) = csv {
        result = written(csv, |out| csv::write(out, &day, &watched)).unwrap_or(result);
    }
    show(&report::report(&name(file), &day, &watched), result)
}

/// Writes a file; the status where that fails.
fn written(file: &OsStr, write: impl FnOnce(&mut BufWriter<File>) -> std::io::Result<()>) -> Option<u8> {
    let result = File::create(file).map(BufWriter::new).and_then(|mut out| {
        write(&mut out)?;
        out.flush()
    });
    result.err().map(|error| mistakes(&plain(file), &[format!("cannot be written: {}", error)]))
}

/// Prints the priors of good days, or a line for each mistake.
fn priors(files: &[OsString]) -> u8 {
    let (mut good, mut result) = (priors::GoodDays::default(), DONE);
    for file in files {
        match input(file).and_then(|bytes| reader::read_paths(&bytes).map_err(|mistakes| mistakes.lines())) {
            Ok(day) => good.add(&day),
            Err(lines) => result = mistakes(&name(file), &lines),
        }
    }
    match good.lines() {
        _ if result != DONE => result,
        Ok(text) => show(&text, DONE),
        Err(lines) => mistakes("priors", &lines),
    }
}

fn misuse(mistake: &str) -> u8 {
    tell(&format!("{}; ./run --help tells more", mistake));
    MISUSE
}

/// Reads a day and runs it; else a line for each mistake.
fn watched(file: &OsStr) -> Result<(Day, Watched), Vec<String>> {
    let day = reader::read(&input(file)?).map_err(|mistakes| mistakes.lines())?;
    let watched = work::watch(&day).map_err(|problem| vec![problem.to_string()])?;
    Ok((day, watched))
}

/// What a file is called.
fn name(file: &OsStr) -> String {
    match file == "-" {
        true => "standard input".to_string(),
        false => plain(file),
    }
}

fn status(verdict: Verdict) -> u8 {
    match verdict {
        Verdict::NoDrift => DONE,
        Verdict::Drift => DRIFT,
        Verdict::NotAllJudged => NOT_ALL_JUDGED,
    }
}

/// Tells what is wrong with a file.
fn mistakes(name: &str, lines: &[String]) -> u8 {
    lines.iter().for_each(|line| tell(&format!("{}: {}", name, line)));
    MISTAKE
}

/// The bytes of a file, or why they cannot be read; '-' is standard input.
fn input(file: &OsStr) -> Result<Vec<u8>, Vec<String>> {
    let mut bytes = Vec::new();
    let read = match file == "-" {
        true => std::io::stdin().read_to_end(&mut bytes).map(|_| bytes),
        false => std::fs::read(file),
    };
    read.map_err(|error| vec![format!("cannot be read: {}", error)])
}
