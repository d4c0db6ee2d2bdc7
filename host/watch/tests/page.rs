//! The page and the figures of a day, held against its text report: what stands in one stands in
//! the others, and the picture's lines lie where the report's numbers say.

use std::collections::BTreeMap;
use std::process::Command;

/// Exit status, report, page and figures of a day.
struct Run {
    status: Option<i32>,
    report: String,
    page: String,
    figures: String,
}

fn run(name: &str, day: &str) -> Run {
    let file = |end: &str| format!("{}/page-{}.{}", env!("CARGO_TARGET_TMPDIR"), name, end);
    std::fs::write(file("txt"), day).expect("the day can be written");
    let output = Command::new(env!("CARGO_BIN_EXE_watch"))
        .args(["--html", &file("html"), "--csv", &file("csv"), &file("txt")])
        .output()
        .expect("the program runs");
    let read = |end: &str| std::fs::read_to_string(file(end)).expect("it is written");
    let report = String::from_utf8(output.stdout).expect("it prints text");
    Run { status: output.status.code(), report, page: read("html"), figures: read("csv") }
}

/// The page's text without its tags, a space for each.
fn text(page: &str) -> String {
    let mut text = String::new();
    let body = page.split_once("<body>").expect("there is a body").1;
    for part in body.split('<').skip(1) {
        text.push(' ');
        text.push_str(part.split_once('>').expect("a tag ends").1);
    }
    let plain =
        [("\u{a0}", " "), ("&lt;", "<"), ("&gt;", ">"), ("&quot;", "\""), ("&#39;", "'"), ("&amp;", "&")];
    for (from, to) in plain {
        text = text.replace(from, to);
    }
    text.split_whitespace().collect::<Vec<&str>>().join(" ")
}

/// An attribute of the first tag that begins so.
fn attribute<'a>(page: &'a str, tag: &str, name: &str) -> &'a str {
    let tag = page.split_once(tag).unwrap_or_else(|| panic!("there is no {}", tag)).1;
    let tag = tag.split_once('>').expect("a tag ends").0;
    let value = tag.split_once(&format!(" {}=\"", name)).expect("it has the attribute").1;
    value.split_once('"').expect("the attribute ends").0
}

fn number(page: &str, tag: &str, name: &str) -> f64 {
    attribute(page, tag, name).parse().expect("a number")
}

/// The report's table over the day: path, length, sum, its mean and deviations, maximum, its mean
/// and deviations; a dash is no number.
fn table(report: &str) -> Vec<Vec<Option<f64>>> {
    let rows = report.lines().skip_while(|line| !line.trim_start().starts_with("path length")).skip(1);
    let numbers = |line: &str| line.split_whitespace().take(8).map(|word| word.parse().ok()).collect();
    rows.take_while(|line| !line.is_empty()).map(numbers).collect()
}

/// The rows of the figures by column.
fn figures(figures: &str) -> Vec<BTreeMap<String, String>> {
    let mut lines = figures.lines().map(|line| line.split(',').map(str::to_string).collect::<Vec<String>>());
    let columns = lines.next().expect("there are columns");
    let row = |cells: Vec<String>| {
        assert_eq!(cells.len(), columns.len(), "{:?}", cells);
        columns.iter().cloned().zip(cells).collect()
    };
    lines.map(row).collect()
}

/// A line of the picture as path numbers and values, by the measures of its panel.
fn drawn(page: &str, size: &str, figure: &str, line: &str) -> Vec<(f64, f64)> {
    let drawing = page.split_once(&format!("<svg class=\"{}\"", size)).expect("the drawing is there").1;
    let drawing = drawing.split_once("</svg>").expect("it ends").0;
    let tag = format!("<g class=\"panel\" data-figure=\"{}\"", figure);
    let of = |name: &str| number(drawing, &tag, name);
    let (left, right, top, bottom) = (of("data-left"), of("data-right"), of("data-top"), of("data-bottom"));
    let (most, paths) = (of("data-most"), of("data-paths"));
    let panel = drawing.split_once(&tag).expect("the panel is there").1;
    let panel = panel.split_once("</g>").expect("it ends").0;
    let points = attribute(panel, &format!("<polyline class=\"{}\"", line), "points");
    let point = |point: &str| {
        let (x, y) = point.split_once(',').expect("two numbers");
        let (x, y): (f64, f64) = (x.parse().expect("a number"), y.parse().expect("a number"));
        ((x - left) / (right - left) * paths + 0.5, (bottom - y) / (bottom - top) * most)
    };
    points.split(' ').map(point).collect()
}

#[test]
fn the_page_says_what_the_report_says() {
    let Run { status, report, page, .. } = run("example", include_str!("../../../days/example.txt"));
    assert_eq!(status, Some(3));
    let text = text(&page);
    let sections = ["Where it drifts", "By node, at the end of the day", "Statistics at the end of the day"];
    assert!(sections.iter().all(|title| text.contains(title)));
    // Every line below the table over the day stands in the page, word by word.
    let rest = report.split_once("\nWhere it drifts\n").expect("a section").1;
    for line in rest.lines().filter(|line| line.starts_with("  ") && !line.contains("the day ")) {
        let words = line.split_whitespace().collect::<Vec<&str>>().join(" ");
        let words =
            words.strip_prefix("sequence length").map_or(words.clone(), |n| format!("sequence length{}.", n));
        assert!(text.contains(&words), "{}", words);
    }
    for line in report.lines().skip(1).take_while(|line| !line.is_empty()) {
        assert!(text.contains(line.trim()), "{}", line);
    }
    assert!(text.starts_with("The day"));
    assert!(text.contains("Drift found"));
}

#[test]
fn the_picture_lies_where_the_numbers_say() {
    let Run { report, page, .. } = run("picture", include_str!("../../../days/example.txt"));
    let table = table(&report);
    assert_eq!(table.len(), 15);
    for (size, pixel) in [("wide", 0.002), ("narrow", 0.004)] {
        for (figure, column) in [("sum", 2), ("maximum", 5)] {
            let (day, mean) = (drawn(&page, size, figure, "day"), drawn(&page, size, figure, "mean"));
            assert_eq!((day.len(), mean.len()), (180, 180));
            let limit = drawn(&page, size, figure, "limit");
            for row in &table {
                let path = row[0].expect("a path") as usize;
                let close = |drawn: (f64, f64), value: f64| {
                    assert!((drawn.0 - path as f64).abs() < 0.01, "{:?} is not path {}", drawn, path);
                    assert!((drawn.1 - value).abs() < pixel, "{} {:?} is not {}", figure, drawn, value);
                };
                close(day[path - 1], row[column].expect("a figure"));
                close(mean[path - 1], row[column + 1].expect("a mean"));
                // The band ends three deviations above the mean.
                let above = (day[path - 1].1 - mean[path - 1].1) / (limit[path - 1].1 - mean[path - 1].1);
                let told = row[column + 2].expect("deviations");
                assert!((3.0 * above - told).abs() < 0.06 + 0.01 * told.abs(), "{} is not {}", above, told);
            }
        }
    }
    // The stretch of the report is the one that is marked.
    let words: Vec<&str> =
        report.split_once("\n  from path ").expect("a stretch").1.split_whitespace().collect();
    let last = words.iter().position(|word| *word == "path").expect("it ends at a path");
    let (first, last): (f64, f64) = (words[0].parse().unwrap(), words[last + 1].parse().unwrap());
    let tag = "<rect class=\"stretch\"";
    let (x, width) = (number(&page, tag, "x"), number(&page, tag, "width"));
    let step = (1_000.0 - 64.0 - 16.0) / 180.0;
    assert!(((x - 64.0) / step - (first - 1.0)).abs() < 0.01);
    assert!((width / step - (last - first + 1.0)).abs() < 0.01);
}

#[test]
fn the_figures_are_those_of_the_report() {
    let Run { report, figures: text, .. } = run("figures", include_str!("../../../days/example.txt"));
    let rows = figures(&text);
    assert_eq!(rows.len(), 180);
    let names = [
        "path",
        "length",
        "sum",
        "sum_mean",
        "sum_deviations",
        "maximum",
        "maximum_mean",
        "maximum_deviations",
    ];
    for row in table(&report) {
        let figures = &rows[row[0].expect("a path") as usize - 1];
        for (name, told) in names.iter().zip(&row) {
            let figure: f64 = figures[*name].parse().expect("a number");
            let places = if name.ends_with("deviations") { 0.051 } else { 0.000_51 };
            assert!((figure - told.expect("a number")).abs() < places, "{} {} {:?}", name, figure, told);
        }
    }
    let drifting = rows.iter().filter(|row| row["judgement"] == "drift").count();
    let calm = rows.iter().filter(|row| row["judgement"] == "calm").count();
    assert_eq!(drifting + calm, 180);
    // From path 90 to path 152.
    assert_eq!(rows.iter().position(|row| row["judgement"] == "drift"), Some(89));
    assert_eq!(rows.iter().rposition(|row| row["judgement"] == "drift"), Some(151));
}

/// A day of which paths are left out, and its end is not judged.
fn part_judged() -> String {
    let sequences: String = ["1/7 0/7\npath 1/7", "1/7 0/9\npath 1/7 0/9"]
        .map(|paths| format!("sequence\npath {}\n", paths))
        .concat();
    let paths = "path 1/7 0/9\npath 1/7 0/8\npath 1/7 0/7\n".repeat(9);
    format!("prior 1/7 1 0/7 2 0/9 3\n{}day\nmark <all day>\n{}", sequences, paths)
}

#[test]
fn what_is_not_judged_and_what_was_never_seen_stand_in_all_three() {
    let Run { status, report, page, figures: cells } = run("part", &part_judged());
    assert_eq!(status, Some(3));
    let not_judged =
        "not judged at path 25 and at path 27: no usable spread (over 8 times the length of the last knot, 2)";
    let never_seen =
        "path 2 (line 11, <all day>), step 1, and 8 more paths up to path 26 (line 35, <all day>): \
                      1/7 goes on to 0/8, which its prior does not have";
    for line in [not_judged, never_seen, "judged: 2 of 27 paths; 9 paths left out; 16 without a judgement"] {
        assert!(report.lines().any(|told| told.trim() == line), "{}\n{}", line, report);
        assert!(text(&page).contains(line), "{}", line);
    }
    let kinds = |kind: &str| figures(&cells).iter().filter(|row| row["judgement"] == kind).count();
    assert_eq!((kinds("left out"), kinds("not judged"), kinds("calm") + kinds("drift")), (9, 16, 2));
    // A mark for each path in both panels of both drawings, and the hatching at the end.
    assert_eq!(page.matches("<path class=\"never-seen\"").count(), 9 * 4);
    let tag = "<rect class=\"unjudged\"";
    assert_eq!(page.matches(tag).count(), 4);
    let step = (1_000.0 - 64.0 - 16.0) / 27.0;
    assert!(((number(&page, tag, "x") - 64.0) / step - 3.0).abs() < 0.01);
    assert!((number(&page, tag, "width") / step - 24.0).abs() < 0.01);
}

#[test]
fn a_tidied_book_stands_in_report_and_page() {
    let day = "window 1\ncapacity 2\nday\npath 1/7\npath 0/9\npath 0/8\n";
    let Run { report, page, figures: cells, .. } = run("tidied", day);
    let book = report.lines().find(|line| line.starts_with("  book: tidied once, after path 2 (line 5); "));
    assert!(text(&page).contains(book.expect("the book is tidied").trim()));
    assert_eq!(figures(&cells).len(), 3);
}

#[test]
fn a_long_day_is_drawn_by_the_greatest_of_its_readings() {
    // 5,000 paths that go by the prior but for one run of 40.
    let path = |index: usize| match index {
        3_000..3_040 => "path 1/7 0/7\n",
        index if index % 6 == 0 => "path 1/7\n",
        index if index % 3 == 0 => "path 1/7 0/7\n",
        _ => "path 1/7 0/9\n",
    };
    let paths: String = (0..5_000).map(path).collect();
    let training = "sequence\npath 1/7 0/7\npath 1/7\nsequence\npath 1/7 0/9\npath 1/7 0/9\n";
    let day = format!("window 12\nprior 1/7 1 0/7 2 0/9 3\n{}day\n{}", training, paths);
    let Run { page, figures: cells, .. } = run("long", &day);
    let greatest = figures(&cells).iter().map(|row| row["sum"].parse().unwrap()).fold(0.0, f64::max);
    for (size, columns) in [("wide", 920), ("narrow", 302)] {
        let day = drawn(&page, size, "sum", "day");
        assert_eq!(day.len(), columns);
        let most = day.iter().map(|point| point.1).fold(0.0, f64::max);
        assert!((most - greatest).abs() < 0.01, "{} is not {}", most, greatest);
    }
    assert!(page.len() < 400_000, "{}", page.len());
}

#[test]
fn no_file_is_written_over_another() {
    let folder = env!("CARGO_TARGET_TMPDIR");
    let day = format!("{}/over.txt", folder);
    std::fs::write(&day, "day\npath 1/7\n").expect("the day can be written");
    let status = |words: &[&str]| {
        let output =
            Command::new(env!("CARGO_BIN_EXE_watch")).args(words).output().expect("the program runs");
        output.status.code()
    };
    assert_eq!(status(&["--html", &day, &day]), Some(2));
    assert_eq!(status(&["--csv", &format!("{}/./over.txt", folder), &day]), Some(2));
    assert_eq!(status(&["--csv", "same", "--html", "same", &day]), Some(2));
    // By other names of the same file, also of one that is not there yet.
    let other = |name: &str| format!("{}/over-{}", folder, name);
    for name in ["link", "hard", "new", "new-link"] {
        let _ = std::fs::remove_file(other(name));
    }
    std::os::unix::fs::symlink("over.txt", other("link")).expect("a link can be made");
    std::fs::hard_link(&day, other("hard")).expect("a link can be made");
    std::os::unix::fs::symlink("over-new", other("new-link")).expect("a link can be made");
    assert_eq!(status(&["--html", &other("link"), &day]), Some(2));
    assert_eq!(status(&["--csv", &other("hard"), &day]), Some(2));
    assert_eq!(status(&["--csv", &other("new"), "--html", &other("new-link"), &day]), Some(2));
    assert!(!std::fs::exists(other("new")).expect("the folder can be read"));
    // The day as standard input, and the report's own file.
    let open = || std::fs::File::options().read(true).append(true).open(&day).expect("it is there");
    let mut piped = Command::new(env!("CARGO_BIN_EXE_watch"));
    assert_eq!(piped.args(["--csv", &day, "-"]).stdin(open()).status().expect("it runs").code(), Some(2));
    let mut report = Command::new(env!("CARGO_BIN_EXE_watch"));
    report.args(["--csv", &other("hard"), "none"]).stdout(open());
    assert_eq!(report.status().expect("it runs").code(), Some(2));
    assert_eq!(std::fs::read_to_string(&day).expect("it is there"), "day\npath 1/7\n");
    assert_eq!(status(&["--csv", "/dev/null", "--html", "/dev/null", &day]), Some(4));
    assert_eq!(status(&["--csv", &format!("{}/none/figures.csv", folder), &day]), Some(1));
}
