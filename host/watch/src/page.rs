//! The report of a day as one page: a picture of its course, the stretches, what was never seen,
//! what is not judged, the nodes that moved most with prior against evidence, and the statistics.
//! It holds all it needs: no script, no network. Its words and numbers are the report's.

use crate::chart::{chart, NARROW, WIDE};
use crate::day::Day;
use crate::facts;
use crate::findings;
use crate::moved::{Moved, Share};
use crate::watched::{Verdict, Watched};
use crate::words::{self, SHOWN};

const STYLE: &str = include_str!("page.css");
/// A day of more paths has several in one place of the smaller drawing.
const MANY: usize = 300;
/// Marks at one place that are shown; more are counted.
const AT_ONE_PLACE: usize = 5;
/// Ways out of a node that are shown; more are counted.
const WAYS: usize = 6;

/// The whole page.
pub fn page(name: &str, day: &Day, watched: &Watched) -> String {
    let verdict = words::verdict(watched.verdict());
    let body = [
        head(name, day, watched),
        section("course", "How it went", course(day, watched)),
        section("drift", "Where it drifts", drift(day, watched)),
        never_seen(day, watched),
        section("nodes", &format!("By node, {}", words::when(day, watched)), nodes(day, watched)),
        statistics(day, watched),
    ];
    format!(
        "<!doctype html>\n<html lang=\"en\">\n<head>\n<meta charset=\"utf-8\">\n\
         <meta name=\"viewport\" content=\"width=device-width, initial-scale=1\">\n\
         <title>{}: {}</title>\n<style>\n{}</style>\n</head>\n<body>\n{}</body>\n</html>\n",
        escaped(verdict),
        escaped(name),
        STYLE,
        body.concat()
    )
}

/// Text that may stand between tags and in attributes. A percent sign stays with its number.
fn escaped(text: &str) -> String {
    let mut escaped = String::new();
    for letter in text.replace(" %", "\u{a0}%").chars() {
        match letter {
            '&' => escaped.push_str("&amp;"),
            '<' => escaped.push_str("&lt;"),
            '>' => escaped.push_str("&gt;"),
            '"' => escaped.push_str("&quot;"),
            '\'' => escaped.push_str("&#39;"),
            letter => escaped.push(letter),
        }
    }
    escaped
}

fn section(id: &str, title: &str, inside: String) -> String {
    format!("<section id=\"{}\">\n<h2>{}</h2>\n{}</section>\n", id, escaped(title), inside)
}

/// A list with a class, nothing where it is empty.
fn list(class: &str, items: &[String]) -> String {
    if items.is_empty() {
        return String::new();
    }
    let items: String = items.iter().map(|item| format!("<li>{}</li>\n", escaped(item))).collect();
    format!("<ul class=\"{}\">\n{}</ul>\n", class, items)
}

fn head(name: &str, day: &Day, watched: &Watched) -> String {
    let class = match watched.verdict() {
        Verdict::NoDrift => "calm",
        Verdict::Drift => "drifts",
        Verdict::NotAllJudged => "open",
    };
    format!(
        "<header class=\"{}\">\n<p class=\"name\">The day {}</p>\n<h1>{}</h1>\n{}{}</header>\n",
        class,
        escaped(name),
        escaped(&heading(words::verdict(watched.verdict()))),
        list("facts", &facts::facts(day, watched)),
        list("warnings", &facts::warnings(day, watched))
    )
}

/// A text as a heading begins.
fn heading(text: &str) -> String {
    let mut letters = text.chars();
    letters.next().map_or(String::new(), |first| first.to_uppercase().chain(letters).collect())
}

/// The picture, what is what in it, and the marks.
fn course(day: &Day, watched: &Watched) -> String {
    if watched.readings().next().is_none() {
        return "<p>No path of the day is added, so there is nothing to draw.</p>\n".to_string();
    }
    let spread = watched.trained.as_ref().is_some_and(|trained| trained.sequences > 1);
    let keys = [
        ("day", true, "the day".to_string()),
        ("mean", watched.trained.is_some(), "the baseline's mean at the same length".to_string()),
        ("band", spread, format!("up to {} deviations around it", day.drift)),
        ("stretch", !watched.stretches.is_empty(), "drift".to_string()),
        ("unjudged", !watched.unjudged().is_empty(), "not judged".to_string()),
        ("never-seen", !watched.found.is_empty(), "never seen on a good day".to_string()),
    ];
    let key = |(class, _, text): &(&str, bool, String)| {
        format!("<li><span class=\"key key-{}\"></span>{}</li>\n", class, escaped(text))
    };
    let keys: String = keys.iter().filter(|(_, used, _)| *used).map(key).collect();
    let columns = match day.paths.len() > MANY {
        true => {
            "<p class=\"note\">The day is long: a place in the picture is the greatest of its readings, and \
             the paler it is marked the fewer of them drift.</p>\n"
        }
        false => "",
    };
    let (wide, narrow) = (chart(day, watched, WIDE), chart(day, watched, NARROW));
    format!("<ul class=\"keys\">\n{}</ul>\n{}{}{}{}", keys, wide, narrow, columns, marks(day))
}

/// The texts of marks at one place; of many the first.
fn texts(marks: &[(usize, String)]) -> String {
    let texts: Vec<&str> = marks.iter().take(AT_ONE_PLACE).map(|(_, text)| &text[..]).collect();
    match marks.len().saturating_sub(AT_ONE_PLACE) {
        0 => texts.join("; "),
        more => format!("{}; and {}", texts.join("; "), words::number(more, "more mark")),
    }
}

/// The texts of the marks, numbered as in the picture.
fn marks(day: &Day) -> String {
    if day.marks.is_empty() {
        return String::new();
    }
    let item = |marks: &[(usize, String)]| {
        let from = match marks[0].0 < day.paths.len() {
            true => format!("from path {}", marks[0].0 + 1),
            false => "after the last path".to_string(),
        };
        let text = escaped(&texts(marks));
        format!("<li>{} <span class=\"quiet\">{}</span></li>\n", text, from)
    };
    let items: String = day.marks_by_place().take(SHOWN).map(item).collect();
    let more = match day.marks_by_place().skip(SHOWN).map(<[_]>::len).sum() {
        0 => String::new(),
        more => format!("<p class=\"note\">and {}</p>\n", words::number(more, "more mark")),
    };
    format!("<ol class=\"marks\">\n{}</ol>\n{}", items, more)
}

/// The stretches, each with its node, and what is not judged.
fn drift(day: &Day, watched: &Watched) -> String {
    let mut text = String::new();
    if watched.stretches.is_empty() {
        text.push_str(&format!("<p>{}</p>\n", escaped(&findings::nowhere(day, watched))));
    }
    let (shown, more) = findings::worst(&watched.stretches);
    for stretch in shown {
        let lines: String = findings::stretch(day, watched, stretch)
            .iter()
            .map(|line| format!("<p>{}</p>\n", escaped(line)))
            .collect();
        let bars = stretch.moved.as_ref().map(|moved| bars(day, moved)).unwrap_or_default();
        text.push_str(&format!("<article>\n{}{}</article>\n", lines, bars));
    }
    text.extend(more.map(|more| format!("<p>{}</p>\n", escaped(&more))));
    text + &list("parts", &findings::below_stretches(day, watched))
}

fn never_seen(day: &Day, watched: &Watched) -> String {
    let Some((title, found)) = findings::never_seen(day, watched) else {
        return String::new();
    };
    section("never-seen", &title, list("found", &found))
}

/// The nodes with the greatest divergences.
fn nodes(day: &Day, watched: &Watched) -> String {
    let node = |moved: &Moved| {
        let [divergence, usual] = words::divergence(moved);
        format!(
            "<article>\n<p><b>{}</b> <span class=\"figure\">{}</span> <span class=\"quiet\">{}</span> \
             {}</p>\n{}</article>\n",
            escaped(&words::node(day, moved.node)),
            divergence,
            usual,
            escaped(&words::share(day, moved)),
            bars(day, moved)
        )
    };
    let nodes: String = watched.nodes.iter().map(node).collect();
    let others = list("others", &words::other_nodes(day, watched));
    let key = "<p class=\"note\">Divergence, its mean in the training, and what has moved most.</p>\n";
    format!("{}<div class=\"nodes\">\n{}</div>\n{}", key, nodes, others)
}

/// Where a node's paths went, beside the prior and the training; what has moved most comes first.
fn bars(day: &Day, moved: &Moved) -> String {
    if moved.shares.is_empty() {
        return String::new();
    }
    let mut shares: Vec<&Share> = moved.shares.iter().collect();
    shares.sort_by(|one, other| other.change().total_cmp(&one.change()));
    let bar = |class: &str, what: &str, share: f64| {
        format!(
            "<span class=\"bar\"><span class=\"{}\" style=\"width:{:.1}%\"></span></span>\
             <span class=\"percent\">{} {}</span>\n",
            class,
            100.0 * share,
            escaped(&words::percent(share)),
            what
        )
    };
    let way = |share: &&Share| {
        let way = escaped(&words::way(day, share));
        let (now, prior) = (bar("now", "now", share.now), bar("prior", "by the prior", share.prior));
        let usual = share.training.map(|share| bar("usual", "in the training", share)).unwrap_or_default();
        format!("<div class=\"way\"><span class=\"to\">{}</span>\n{}{}{}</div>\n", way, now, prior, usual)
    };
    let ways: String = shares.iter().take(WAYS).map(way).collect();
    let more = match shares.len().saturating_sub(WAYS) {
        0 => String::new(),
        more => format!("<p class=\"note\">and {}, which moved less</p>\n", words::number(more, "more way")),
    };
    format!("<div class=\"ways\">\n{}</div>\n{}", ways, more)
}

/// The five figures of the last reading.
fn statistics(day: &Day, watched: &Watched) -> String {
    let Some((_, reading)) = watched.readings().next_back() else {
        return String::new();
    };
    let cells = |row: [String; 5]| {
        let [name, figures @ ..] = row;
        let figures: String = figures.iter().map(|figure| format!("<td>{}</td>", figure)).collect();
        format!("<tr><th>{}</th>{}</tr>\n", name, figures)
    };
    let rows: String = words::statistics(watched, reading).into_iter().map(cells).collect();
    let inside = format!(
        "<p>Over divergences above 1.0e-10; sequence length {}.</p>\n<table>\n<tr><th></th><th>the day</th>\
         <th>mean</th><th>variance</th><th>dev</th></tr>\n{}</table>\n",
        reading.stats.sequence_length, rows
    );
    section("statistics", &format!("Statistics {}", words::when(day, watched)), inside)
}

#[cfg(test)]
mod tests {
    use super::page;
    use crate::reader::read;
    use crate::work::watch;

    #[test]
    fn texts_of_a_day_are_no_tags() {
        let text = "name 1/7 <b>\"wheel\" & 'tyre'\nprior 1/7 1 0/7 2\nday\nmark <script>alert(1)</script>\n\
                    path 1/7\npath 1/7 0/8\n";
        let day = read(text.as_bytes()).expect("the day can be read");
        let page = page("<i>.txt", &day, &watch(&day).expect("the day can be run"));
        assert!(page.contains("&lt;b&gt;&quot;wheel&quot; &amp; &#39;tyre&#39;"));
        assert!(page.contains("&lt;script&gt;alert(1)&lt;/script&gt;"));
        assert!(page.contains("<p class=\"name\">The day &lt;i&gt;.txt</p>"));
        for tag in ["<b>\"", "<script", "<i>", "http:", "https:", "src=", "@import", "onload"] {
            assert!(!page.contains(tag), "{}", tag);
        }
    }

    #[test]
    fn every_number_of_a_mark_has_its_text() {
        let marks = |count: usize| (0..count).map(|number| format!("mark m{}\n", number)).collect::<String>();
        let text = format!("day\n{}path 1/7\nmark noon\npath 1/7\nmark <home>\n", marks(25));
        let day = read(text.as_bytes()).expect("the day can be read");
        let page = page("a day", &day, &watch(&day).expect("the day can be run"));
        let items: Vec<&str> = page.lines().filter(|line| line.contains("class=\"quiet\">")).collect();
        assert!(items[0].contains("m0; m1; m2; m3; m4; and 20 more marks"), "{}", items[0]);
        assert!(items[1].contains("noon <span class=\"quiet\">from path 2<"), "{}", items[1]);
        assert!(items[2].contains("&lt;home&gt; <span class=\"quiet\">after the last path<"), "{}", items[2]);
        assert_eq!(page.matches("<text class=\"mark\"").count(), 2 * 3);
        // At many places the first twenty.
        let many: String = (0..30).map(|number| format!("mark m{}\npath 1/7\n", number)).collect();
        let day = read(format!("day\n{}", many).as_bytes()).expect("the day can be read");
        let page = super::page("a day", &day, &watch(&day).expect("the day can be run"));
        assert!(page.contains("and 10 more marks"));
        assert!(!page.contains("\" y=\"14\">21</text>"));
    }
}
