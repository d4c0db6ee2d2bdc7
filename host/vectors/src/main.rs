//! Records the sample of cases with the recount's answers, and replays recorded files against
//! the recount. The form of the files is in vectors/README.md.
//!
//!     vectors record DIRECTORY
//!     vectors replay DIRECTORY

mod altered;
mod calls;
mod limits;
mod priors;
mod training;
mod words;

use cases::sample;
use std::path::Path;
use std::process::ExitCode;
use words::{file, open_file, Case, Reader};

/// One recorded file: its name, the most bytes it may have, its magic word, its cases, and how one
/// case is replayed.
struct Recorded {
    name: &'static str,
    most: usize,
    magic: [u8; 4],
    cases: fn() -> Vec<Case>,
    replay: fn(&mut Reader) -> Result<(), String>,
}

const FILES: [Recorded; 8] = [
    Recorded {
        name: "priors.bin",
        most: 32_768,
        magic: *b"TPP1",
        cases: priors::record,
        replay: priors::replay,
    },
    Recorded {
        name: "calls.bin",
        most: 65_536,
        magic: *b"TPC1",
        cases: || calls::record(sample::call_lists()),
        replay: |reader| calls::replay(reader, &limits::SMALL),
    },
    Recorded {
        name: "large.bin",
        most: 16_384,
        magic: *b"TPL1",
        cases: || calls::record(sample::large_lists()),
        replay: |reader| calls::replay(reader, &limits::LARGE),
    },
    Recorded {
        name: "altered.bin",
        most: 65_536,
        magic: *b"TPA1",
        cases: altered::record,
        replay: altered::replay,
    },
    Recorded {
        name: "readings.bin",
        most: 131_072,
        magic: *b"TPR1",
        cases: || calls::record(sample::reading_lists()),
        replay: |reader| calls::replay(reader, &limits::SMALL),
    },
    Recorded {
        name: "tidies.bin",
        most: 65_536,
        magic: *b"TPY1",
        cases: || calls::record(sample::tidy_lists()),
        replay: |reader| calls::replay(reader, &limits::SMALL),
    },
    Recorded {
        name: "batches.bin",
        most: 65_536,
        magic: *b"TPB1",
        cases: || calls::record(sample::batch_lists()),
        replay: |reader| calls::replay(reader, &limits::SMALL),
    },
    Recorded {
        name: "training.bin",
        most: 81_920,
        magic: *b"TPT1",
        cases: training::record,
        replay: training::replay,
    },
];

fn main() -> ExitCode {
    let arguments: Vec<String> = std::env::args().skip(1).collect();
    let done = match &arguments[..] {
        [order, directory] if order == "record" => record(Path::new(directory)),
        [order, directory] if order == "replay" => replay(Path::new(directory)),
        _ => Err("usage: vectors record DIRECTORY, or vectors replay DIRECTORY".to_string()),
    };
    match done {
        Ok(()) => ExitCode::SUCCESS,
        Err(text) => {
            eprintln!("{}", text);
            ExitCode::FAILURE
        }
    }
}

fn record(directory: &Path) -> Result<(), String> {
    for recorded in FILES {
        let bytes = file(recorded.magic, (recorded.cases)());
        limits::within(recorded.name, bytes.len(), recorded.most)?;
        std::fs::write(directory.join(recorded.name), bytes)
            .map_err(|error| format!("{}: {}", recorded.name, error))?;
    }
    Ok(())
}

fn replay(directory: &Path) -> Result<(), String> {
    for recorded in FILES {
        let failed = |text: String| format!("{}: {}", recorded.name, text);
        let bytes =
            std::fs::read(directory.join(recorded.name)).map_err(|error| failed(error.to_string()))?;
        limits::within(recorded.name, bytes.len(), recorded.most)?;
        let cases = open_file(recorded.magic, &bytes).map_err(failed)?;
        for (number, words) in cases.iter().enumerate() {
            replay_case(words, recorded.replay)
                .map_err(|text| failed(format!("case {}: {}", number, text)))?;
        }
        println!("{}: {} cases replayed, {} bytes", recorded.name, cases.len(), bytes.len());
    }
    Ok(())
}

fn replay_case(words: &[u32], replay: fn(&mut Reader) -> Result<(), String>) -> Result<(), String> {
    limits::within("words of a case", words.len(), limits::CASE_WORDS)?;
    let mut reader = Reader::new(words);
    replay(&mut reader)?;
    reader.end()
}
