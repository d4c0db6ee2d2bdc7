//! Which names are one file, however they lead to it: nothing that is read or written may be
//! written over by something else.

use std::ffi::{OsStr, OsString};
use std::fs;
use std::os::unix::fs::MetadataExt;
use std::path::{Path, PathBuf};

/// Links that are followed to a file that is not there yet.
const LINKS: usize = 40;

/// A file that is there, by its device and its number on it, or where one would be made.
#[derive(PartialEq, Eq)]
enum Place {
    There(u64, u64),
    New(PathBuf),
}

/// The first output that is the day, standard output or an output before it.
pub fn written_over<'a>(day: &OsStr, outputs: &[&'a OsString]) -> Option<&'a OsString> {
    let day = if day == "-" { OsStr::new("/dev/stdin") } else { day };
    let mut taken: Vec<Place> = [day, OsStr::new("/dev/stdout")].into_iter().filter_map(place).collect();
    for output in outputs {
        let Some(place) = place(output) else {
            continue;
        };
        if taken.contains(&place) {
            return Some(output);
        }
        taken.push(place);
    }
    None
}

/// Where a name leads; a device, a pipe or a folder cannot be written over.
fn place(file: &OsStr) -> Option<Place> {
    match fs::metadata(file) {
        Ok(there) if there.is_file() => Some(Place::There(there.dev(), there.ino())),
        Ok(_) => None,
        Err(_) => made_at(Path::new(file), LINKS).map(Place::New),
    }
}

fn made_at(file: &Path, links: usize) -> Option<PathBuf> {
    let folder = file.parent()?;
    if let Ok(target) = fs::read_link(file) {
        return made_at(&folder.join(target), links.checked_sub(1)?);
    }
    let folder = if folder.as_os_str().is_empty() { Path::new(".") } else { folder };
    Some(fs::canonicalize(folder).ok()?.join(file.file_name()?))
}
