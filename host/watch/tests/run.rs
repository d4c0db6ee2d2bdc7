//! The script ./run: what it answers before an archive is looked for, and what it asks of cargo,
//! from wherever and by whatever name it is called.

use std::os::unix::fs::{symlink, PermissionsExt};
use std::path::{Path, PathBuf};
use std::process::Command;

/// The repository's root.
fn root() -> PathBuf {
    std::fs::canonicalize("../..").expect("the root is there")
}

/// A new folder.
fn folder(name: &str) -> PathBuf {
    let folder = Path::new(env!("CARGO_TARGET_TMPDIR")).join(name);
    let _ = std::fs::remove_dir_all(&folder);
    std::fs::create_dir_all(&folder).expect("a folder can be made");
    folder
}

/// Status and errors of ./run where there is no archive.
fn answered(words: &[&str]) -> (Option<i32>, String) {
    let mut run = Command::new(root().join("run"));
    let output = run.args(words).env("TEAKPOOL_ARCHIVE", "none").output().expect("./run runs");
    (output.status.code(), String::from_utf8(output.stderr).expect("it prints text"))
}

#[test]
fn wrong_arguments_are_answered_before_the_archive_is_looked_for() {
    let folder = folder("answered");
    let (day, link) = (folder.join("day"), folder.join("link"));
    std::fs::write(&day, "day\npath 1/7\n").expect("it can be written");
    symlink("day", &link).expect("a link can be made");
    let (day, link) = (day.to_str().expect("text"), link.to_str().expect("text"));
    let wrong: [(&[&str], &str); 12] = [
        (&["--htlm", "a"], "'--htlm' is no option"),
        (&["priors", "--csv", "a", day], "'--csv' is no option"),
        (&["--csv"], "--csv wants a file"),
        (&["--csv", "a", "--csv", "b"], "--csv is given twice"),
        (&["--html", "-"], "standard output has the report; --html and --csv want files"),
        (&["a", "b"], "one day is read at a time"),
        (&["priors"], "'priors' wants the file of a good day"),
        (&["priors", "--"], "'priors' wants the file of a good day"),
        (&["--html", "a", "--csv", "a", day], "a would be written over"),
        (&["--html", "a", "--csv", "b", "a"], "a would be written over"),
        (&["--csv", link, day], &format!("{} would be written over", link)),
        (&["-\u{1b}c"], "'-?c' is no option"),
    ];
    for (words, told) in wrong {
        let told = format!("{}; ./run --help tells more\n", told);
        assert_eq!(answered(words), (Some(2), told), "{:?}", words);
    }
    let missing = |name: &str| (Some(1), format!("{}: there is no such file\n", name));
    assert_eq!(answered(&["no\u{7f}ne"]), missing("no?ne"));
    assert_eq!(answered(&["none--"]), missing("none--"));
    let closed = Command::new("bash").args(["-c", "../../run --htlm 2>&-"]).status();
    assert_eq!(closed.expect("./run runs").code(), Some(2));
    // What is right is not answered.
    let none = |words: &[&str]| answered(words).1.contains("there is no archive at ");
    assert!(none(&["--html", "/dev/null", "--csv", "/dev/null", day]));
    assert!(none(&["priors", day, day]));
    assert!(none(&[]));
}

#[test]
fn the_root_the_archive_and_the_target_are_found_from_anywhere() {
    let folder = folder("anywhere");
    // A cargo that tells what it is asked, and builds nothing.
    let cargo = folder.join("bin/cargo");
    std::fs::create_dir_all(folder.join("bin/host")).expect("a folder can be made");
    let script = "#!/bin/sh\necho \"$TEAKPOOL_ARCHIVE|${CARGO_BUILD_TARGET-}|$*\"\nexit 1\n";
    std::fs::write(&cargo, script).expect("it can be written");
    std::fs::set_permissions(&cargo, PermissionsExt::from_mode(0o755)).expect("it can be set");
    std::fs::write(folder.join("libmine.a"), "").expect("it can be written");
    symlink(root().join("run"), folder.join("bin/teakpool")).expect("a link can be made");
    let path = std::env::var("PATH").expect("there is a path");
    let path = format!("{}:{}", folder.join("bin").display(), path);
    for name in ["teakpool", "./bin/teakpool"] {
        let output = Command::new("bash")
            .args(["-c", &format!("{} -- {}/days/example.txt", name, root().display())])
            .current_dir(&folder)
            .envs([("PATH", &path[..]), ("TEAKPOOL_ARCHIVE", "libmine.a"), ("CARGO_TARGET_DIR", "elsewhere")])
            .envs([("CDPATH", folder.as_os_str()), ("CARGO_BUILD_TARGET", "other".as_ref())])
            .output()
            .expect("./run runs");
        let asked = String::from_utf8(output.stdout).expect("it prints text");
        let archive = folder.join("libmine.a");
        let (host, target) = (root().join("host/Cargo.toml"), root().join("host/target"));
        assert!(asked.starts_with(&format!("{}||build ", archive.display())), "{}", asked);
        assert!(asked.contains(&format!("--manifest-path {}", host.display())), "{}", asked);
        assert!(asked.contains(&format!("--target-dir {} ", target.display())), "{}", asked);
    }
}
