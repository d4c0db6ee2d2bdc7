//! Finds the proved archive: the file that TEAKPOOL_ARCHIVE names, else what `prebuilt/archive` in
//! the repository's root chooses: the prebuilt one, or where the sources have changed since it was
//! built the one that `rt` proves and builds from them. All that is said on the way is passed on.

use std::ffi::OsStr;
use std::os::unix::ffi::OsStrExt;
use std::path::{Path, PathBuf};
use std::process::Command;
use std::{env, fs};

const VARIABLE: &str = "TEAKPOOL_ARCHIVE";

fn main() {
    println!("cargo:rerun-if-changed=build.rs");
    println!("cargo:rerun-if-env-changed={}", VARIABLE);
    let root = Path::new(&env::var("CARGO_MANIFEST_DIR").unwrap()).join("../..");
    let named = env::var_os(VARIABLE).filter(|name| !name.is_empty());
    let archive = named.map_or_else(|| chosen(&root), PathBuf::from);
    println!("cargo:rerun-if-changed={}", archive.display());
    let archive = fs::canonicalize(&archive).unwrap_or_else(|error| {
        give_up(&format!("there is no archive at {} ({})", archive.display(), error));
    });
    let name = archive.file_name().and_then(|name| name.to_str()).unwrap_or_default();
    let Some(name) = name.strip_prefix("lib").and_then(|name| name.strip_suffix(".a")) else {
        give_up(&format!("{} is not named libNAME.a", archive.display()));
    };
    let folder = archive.parent().expect("a file lies in a folder");
    println!("cargo:rustc-link-search=native={}", folder.display());
    println!("cargo:rustc-link-lib=static={}", name);
}

/// The archive that `prebuilt/archive` chooses; it is asked again when anything that it looks at has
/// changed, also where `rt` is looked for.
fn chosen(root: &Path) -> PathBuf {
    println!("cargo:rerun-if-env-changed=PATH");
    for looked_at in ["prebuilt", "crates.txt", "crates"] {
        println!("cargo:rerun-if-changed={}", root.join(looked_at).display());
    }
    let output = Command::new(root.join("prebuilt/archive")).output().unwrap_or_else(|error| {
        give_up(&format!("prebuilt/archive, which finds the archive, cannot be run ({})", error));
    });
    let said = String::from_utf8_lossy(&output.stderr);
    if !output.status.success() {
        eprint!("{}{}", String::from_utf8_lossy(&output.stdout), said);
        give_up(&format!("no archive was found: prebuilt/archive ended with {}", output.status));
    }
    for line in said.lines() {
        println!("cargo:warning={}", line);
    }
    PathBuf::from(OsStr::from_bytes(output.stdout.trim_ascii_end()))
}

fn give_up(why: &str) -> ! {
    eprintln!("teakpool: {}; {} may name one.", why, VARIABLE);
    std::process::exit(1)
}
