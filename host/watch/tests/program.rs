//! The program as it is run: what it prints, and its exit status.

use std::ffi::OsStr;
use std::io::Write;
use std::os::unix::ffi::OsStrExt;
use std::process::{Command, Stdio};

/// Exit status, output and errors.
fn watch(words: &[&str]) -> (Option<i32>, String, String) {
    let output = Command::new(env!("CARGO_BIN_EXE_watch")).args(words).output().expect("the program runs");
    let text = |bytes: Vec<u8>| String::from_utf8(bytes).expect("it prints text");
    (output.status.code(), text(output.stdout), text(output.stderr))
}

/// A file with these bytes.
fn file(name: &str, bytes: &[u8]) -> String {
    let file = format!("{}/{}", env!("CARGO_TARGET_TMPDIR"), name);
    std::fs::write(&file, bytes).expect("the file can be written");
    file
}

/// What is told of a file with these bytes, without the file's name.
fn told(name: &str, bytes: &[u8]) -> (Option<i32>, Vec<String>) {
    let file = file(name, bytes);
    let (status, output, errors) = watch(&[&file]);
    assert_eq!(output, "");
    let told = |line: &str| line.strip_prefix(&format!("{}: ", file)).map(str::to_string);
    (status, errors.lines().map(|line| told(line).expect("the file is named first")).collect())
}

#[test]
fn mistakes_are_told_with_the_file_and_the_line() {
    let lines = "window 3\ntables squares 7\nwindow x\nday\npath 1/7 x\n";
    let mistakes =
        ["line 3: 'window' is given already, in line 1", "line 5: an address SCALE/POINT is wanted, not 'x'"];
    assert_eq!(told("reading", lines.as_bytes()), (Some(1), mistakes.map(str::to_string).to_vec()));
    let training = "tables squares 7\nprior 1/7 1 0/7 2 0/9 3\nsequence\npath 1/7\npath 1/7\nday\npath 1/7\n";
    let problem = "line 5: the counts of 1/7, in its prior and in the paths up to this one, pass 7, \
                   the last index of the tables";
    assert_eq!(told("training", training.as_bytes()), (Some(1), vec![problem.to_string()]));
    let problem = "line 2: the byte 0xfc is no text; the file is to be saved as UTF-8";
    let bytes = b"day\nmark gr\xfcn\npath 1/7\n";
    assert_eq!(told("bytes", bytes), (Some(1), vec![problem.to_string()]));
    let many = "path\n".repeat(30);
    let (status, lines) = told("many", many.as_bytes());
    assert_eq!((status, lines.len()), (Some(1), 21));
    assert_eq!(lines[20], "and 11 more mistakes");
}

#[test]
fn a_dash_is_standard_input() {
    let day = std::fs::read("../../days/example.txt").expect("the example is there");
    let mut child = Command::new(env!("CARGO_BIN_EXE_watch"))
        .arg("-")
        .stdin(Stdio::piped())
        .stdout(Stdio::piped())
        .spawn()
        .expect("the program runs");
    child.stdin.take().expect("it is piped").write_all(&day).expect("it is read");
    let piped = child.wait_with_output().expect("it ends");
    let (status, output, _) = watch(&["../../days/example.txt"]);
    assert_eq!(piped.status.code(), status);
    let without_name = |text: &str| text.split_once('\n').expect("a line with the name").1.to_string();
    assert_eq!(without_name(&String::from_utf8_lossy(&piped.stdout)), without_name(&output));
}

/// Priors, two training sequences that differ, and a day.
fn trained(day: &str) -> String {
    let sequences = "sequence\npath 1/7 0/7\npath 1/7\nsequence\npath 1/7 0/9\npath 1/7 0/9\n";
    format!("prior 1/7 1 0/7 2 0/9 3\n{}day\n{}", sequences, day)
}

#[test]
fn the_exit_status_tells_drift_and_what_is_not_judged() {
    let status = |name: &str, text: &str| watch(&[&file(name, text.as_bytes())]).0;
    assert_eq!(status("calm", &trained("path 1/7 0/7\n")), Some(0));
    assert_eq!(status("drift", &format!("drift 0\n{}", trained("path 1/7 0/7\npath 1/7 0/7\n"))), Some(3));
    assert_eq!(status("never_seen", &trained("path 1/7 0/8\n")), Some(3));
    // Past the last knot, at length 2, nothing passes for calm.
    let short = "path 1/7 0/7\npath 1/7 0/9\n";
    assert_eq!(status("trained", &trained(short)), Some(0));
    assert_eq!(status("carried_on", &trained(&short.repeat(2))), Some(4));
    assert_eq!(status("far", &trained(&"path 1/7 0/7\npath 1/7 0/9\n".repeat(9))), Some(4));
    assert_eq!(status("untrained", "day\npath 1/7\n"), Some(4));
    assert_eq!(status("mistake", "day\n"), Some(1));
    assert_eq!(watch(&["../../days/example.txt"]).0, Some(3));
}

/// Nodes of one point at three scales, one of which has the prior; without a floor the others are
/// not watched.
#[test]
fn a_floor_finds_nodes_by_their_points() {
    let day = |head: &str| {
        let sequences = "sequence\npath -4/7 -6/7\npath -4/7\nsequence\npath -4/7 -6/9\npath -4/7 -6/9\n";
        let paths = "path -4/7 -6/7\npath -3/7 -6/9\n";
        format!("{}prior -5/7 1 -6/7 2 -6/9 3\n{}day\n{}", head, sequences, paths)
    };
    let report = |name: &str, head: &str| watch(&[&file(name, day(head).as_bytes())]);
    let has = |text: &str, line: &str| text.lines().any(|one| one.trim() == line);
    let (status, exact, _) = report("exact", "");
    assert_eq!(status, Some(4));
    assert!(has(&exact, "paths: 2, all of them count; nodes with a prior: 1"), "{}", exact);
    assert!(has(&exact, "not judged from path 1 on: no node that has a prior is in the window"), "{}", exact);
    assert!(has(&exact, "4 nodes without a prior are not watched"), "{}", exact);
    // The least scale is no floor.
    let least = report("least", "floor -2147483648\n").1.replace("least", "exact");
    assert_eq!(least, exact);
    let (_, below, _) = report("below", "floor -3\n");
    assert!(has(&below, "paths: 2, all of them count; priors: 1, floor -3"), "{}", below);
    assert!(has(&below, "below the floor, scale -3, a node has the prior with its point"), "{}", below);
    let nodes = |text: &str| -> Vec<String> {
        let lines = text.lines().skip_while(|line| !line.starts_with("By node")).skip(1);
        let words = lines.map(|line| line.split_whitespace().next().unwrap_or_default().to_string());
        words.take_while(|word| word.contains('/')).collect()
    };
    // -6/7 has the point too, and ends; -3/7 is at the floor.
    assert_eq!(nodes(&below), ["-6/7", "-4/7"]);
    let shares = "goes to -6/7 100 % of the time, 33 % by the prior, 25 % in the training";
    assert!(below.contains(shares), "{}", below);
    let (_, all, _) = report("all", "floor 0\n");
    assert_eq!(nodes(&all), ["-6/7", "-4/7", "-3/7"]);
    assert!(has(&all, "1 node without a prior is not watched"), "{}", all);
    // A child is known by its exact address.
    let text = format!("floor -3\n{}path -4/7 -5/9\n", day(""));
    let (status, other, _) = watch(&[&file("child", text.as_bytes())]);
    assert_eq!(status, Some(3));
    assert!(other.contains("-4/7 goes on to -5/9, which its prior does not have"), "{}", other);
    let problem = "line 3: -5/7, in line 2, has this point and is below the floor, -3, too";
    let twice = "floor -3\nprior -5/7 1\nprior -4/7 1\nday\npath -4/7\n";
    assert_eq!(told("twice", twice.as_bytes()), (Some(1), vec![problem.to_string()]));
}

/// Two paths in a row have four entries, all of them five.
#[test]
fn a_capacity_is_tidied_or_too_small() {
    let day = |capacity: u32, window: u32| {
        let paths = "path 1/7 0/9\npath 1/7 0/9\npath 0/9 1/7\npath 0/9 0/9\n";
        format!("capacity {}\nwindow {}\nday\n{}", capacity, window, paths)
    };
    let (status, report, _) = watch(&[&file("tidied", day(4, 1).as_bytes())]);
    assert_eq!(status, Some(4));
    let line =
        "\n  book: tidied once, after path 3 (line 6); with tidies 4 entries (96 bytes) are enough for \
                the 4 paths added, in their order, and fewer are not; without they need 5\n";
    assert!(report.contains(line), "{}", report);
    let (_, report, _) = watch(&[&file("not_tidied", day(5, 1).as_bytes())]);
    let line =
        "\n  book: 5 entries (120 bytes) are enough for the 4 paths added, in any order, and fewer are \
                not\n";
    assert!(report.contains(line), "{}", report);
    for (capacity, window, needed) in [(3, 1, 4), (4, 0, 5)] {
        let problem =
            format!("line 1: a capacity of {} is too small: the day needs {} entries", capacity, needed);
        assert_eq!(told("too_small", day(capacity, window).as_bytes()), (Some(1), vec![problem]));
    }
}

#[test]
fn a_missing_file_and_wrong_arguments() {
    let (status, _, errors) = watch(&["none/none"]);
    assert_eq!(status, Some(1));
    assert!(errors.starts_with("none/none: cannot be read: "), "{}", errors);
    assert_eq!(watch(&[]).0, Some(2));
    assert_eq!(watch(&["one", "two"]).0, Some(2));
    let (status, _, errors) = watch(&["--htlm", "page", "day"]);
    assert_eq!((status, &errors[..]), (Some(2), "'--htlm' is no option; ./run --help tells more\n"));
    let (status, output, _) = watch(&["--help"]);
    assert_eq!(status, Some(0));
    assert_eq!(output, [include_str!("../src/usage.txt"), include_str!("../src/format.txt")].join("\n"));
}

#[test]
fn priors_are_made_of_good_days_and_can_be_read() {
    let monday = file("monday", b"day\npath 1/7 0/7\npath 1/7\n");
    let tuesday = file("tuesday", b"day\npath 1/7 0/9\npath 1/7 0/7\n");
    let (status, priors, _) = watch(&["priors", &monday, &tuesday]);
    assert_eq!(status, Some(0));
    let lines = "# Priors by the counts of 4 paths; good days: 2\nprior 0/7 2\nprior 0/9 1\nprior 1/7 1  0/7 2  0/9 1\n";
    assert_eq!(priors, lines);
    // What they do not have is a finding.
    let day = file("priors_day", format!("{}day\npath 1/7 0/8\n", priors).as_bytes());
    let (status, report, _) = watch(&[&day]);
    assert_eq!(status, Some(3));
    assert!(report.contains("1/7 goes on to 0/8, which its prior does not have"), "{}", report);
    // The mistakes of all files are told.
    let wrong = file("wrong", b"day\npath 1/7 x\n");
    let (status, output, errors) = watch(&["priors", &wrong, &monday, "none/none"]);
    assert_eq!((status, &output[..]), (Some(1), ""));
    assert_eq!(errors.lines().count(), 2, "{}", errors);
    let many: String = (0..65).map(|point| format!("path 1/0 0/{}\n", point)).collect();
    let wide = file("wide", format!("day\n{}", many).as_bytes());
    let (status, _, errors) = watch(&["priors", &wide]);
    assert_eq!(status, Some(1));
    assert_eq!(errors, "priors: 1/0 goes on to 65 children; a prior has at most 64\n");
}

#[test]
fn nothing_in_a_files_name_is_obeyed() {
    let name = "a\u{1b}[31m<b>\nday";
    let day = file(name, b"day\npath 1/7\n");
    let page = file("obeyed.html", b"");
    let (status, report, _) = watch(&["--html", &page, &day]);
    assert_eq!(status, Some(4));
    let page = std::fs::read_to_string(page).expect("it is written");
    assert!(report.lines().next().expect("a line").contains("a\\u{1b}[31m<b>\\u{a}day: "), "{}", report);
    assert!(page.contains("a\\u{1b}[31m&lt;b&gt;\\u{a}day") && !page.contains('\u{1b}'));
    let (status, _, errors) = watch(&["\u{1b}c"]);
    assert_eq!(status, Some(1));
    assert!(errors.starts_with("\\u{1b}c: cannot be read: "), "{}", errors);
}

#[test]
fn a_files_name_need_not_be_text() {
    let bytes = [env!("CARGO_TARGET_TMPDIR").as_bytes(), b"/gr\xfcn.txt"].concat();
    let day = OsStr::from_bytes(&bytes);
    std::fs::write(day, trained("path 1/7 0/7\n")).expect("the file can be written");
    let output = Command::new(env!("CARGO_BIN_EXE_watch")).arg(day).output().expect("the program runs");
    assert_eq!(output.status.code(), Some(0));
    assert!(String::from_utf8_lossy(&output.stdout).contains("gr\u{fffd}n.txt: no drift\n"));
}

#[test]
fn a_reader_of_errors_that_goes_away_is_no_failure() {
    let (reads, writes) = std::io::pipe().expect("there are pipes");
    drop(reads);
    let status = Command::new(env!("CARGO_BIN_EXE_watch")).arg("none/none").stderr(writes).status();
    assert_eq!(status.expect("the program runs").code(), Some(1));
}

#[test]
fn one_path_is_the_only_one() {
    let (_, report, _) = watch(&[&file("one", trained("path 1/7 0/7\n").as_bytes())]);
    assert!(report.contains("\n  judged: the only path\n"), "{}", report);
}
