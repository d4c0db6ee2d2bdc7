//! The picture of a day: sum and maximum of the divergences over its paths, each with the
//! baseline's mean and the spread around it, the stretches that drift, what is not judged, and
//! what was never seen. One drawing is for a desk and one for a telephone; both are plain SVG.

use crate::day::Day;
use crate::usual::{spread, UsualAt};
use crate::watched::{LeftOut, Reading, Unjudged, Watched};
use crate::words::{NO_FIGURE, SHOWN};
use std::fmt::Write;
use teakpool::{BaselineStats, MeanVariance};

/// The measures of a drawing, in its own units.
#[derive(Clone, Copy)]
pub struct Size {
    /// What the page calls it.
    pub class: &'static str,
    width: f64,
    panel: f64,
    left: f64,
    right: f64,
    /// Above the first panel, between the two, and below the second.
    top: f64,
    gap: f64,
    bottom: f64,
    /// Numbers on the axes, at most.
    ticks: usize,
    /// The least distance of two numbers of marks.
    apart: f64,
}

/// For a desk.
pub const WIDE: Size = Size {
    class: "wide",
    width: 1_000.0,
    panel: 190.0,
    left: 64.0,
    right: 16.0,
    top: 46.0,
    gap: 44.0,
    bottom: 42.0,
    ticks: 10,
    apart: 18.0,
};

/// For a telephone.
pub const NARROW: Size = Size {
    class: "narrow",
    width: 360.0,
    panel: 150.0,
    left: 44.0,
    right: 14.0,
    top: 44.0,
    gap: 42.0,
    bottom: 38.0,
    ticks: 5,
    apart: 16.0,
};

/// One of the two figures: its name, its value in a reading where it has one, and what is usual.
struct Figure {
    name: &'static str,
    title: &'static str,
    value: fn(&Reading) -> Option<f64>,
    usual: fn(&BaselineStats) -> MeanVariance,
}

const FIGURES: [Figure; 2] = [
    Figure {
        name: "sum",
        title: "Sum of the divergences",
        value: |reading| Some(reading.stats.sum),
        usual: |figures| figures.sum,
    },
    Figure {
        name: "maximum",
        title: "Greatest divergence of a node",
        value: |reading| Some(reading.stats.maximum).filter(|_| reading.stats.number > 0),
        usual: |figures| figures.maximum,
    },
];

/// A reading in the picture.
struct Point {
    x: f64,
    value: f64,
    mean: Option<f64>,
    /// The spread times the deviations that are drift, where the figure is judged.
    reach: Option<f64>,
}

/// Where things lie.
struct Frame<'a> {
    day: &'a Day,
    watched: &'a Watched,
    size: Size,
    columns: usize,
}

/// The whole drawing.
pub fn chart(day: &Day, watched: &Watched, size: Size) -> String {
    let plot = (size.width - size.left - size.right) as usize;
    let frame = Frame { day, watched, size, columns: day.paths.len().min(plot) };
    let height = size.top + 2.0 * size.panel + size.gap + size.bottom;
    let mut svg = format!(
        "<svg class=\"{}\" viewBox=\"0 0 {} {}\" role=\"img\" aria-label=\"Sum and maximum of the \
         divergences over the day, beside the baseline\">\n",
        size.class, size.width, height
    );
    let _ = writeln!(
        svg,
        "<defs><pattern id=\"hatch-{}\" width=\"6\" height=\"6\" patternUnits=\"userSpaceOnUse\" \
         patternTransform=\"rotate(45)\"><rect class=\"hatch-ground\" width=\"6\" height=\"6\"/>\
         <rect class=\"hatch-line\" width=\"2\" height=\"6\"/></pattern></defs>",
        size.class
    );
    for (figure, top) in FIGURES.iter().zip(frame.tops()) {
        frame.panel(&mut svg, figure, top);
    }
    frame.paths_axis(&mut svg, height - size.bottom);
    frame.marks(&mut svg);
    svg.push_str("</svg>\n");
    svg
}

impl Frame<'_> {
    /// Where the panels begin.
    fn tops(&self) -> [f64; 2] {
        [self.size.top, self.size.top + self.size.panel + self.size.gap]
    }

    /// From the middle of the path with this index.
    fn x(&self, index: usize) -> f64 {
        self.edge(index as f64 + 0.5)
    }

    /// Between two paths.
    fn edge(&self, paths: f64) -> f64 {
        let Size { width, left, right, .. } = self.size;
        left + paths / self.day.paths.len() as f64 * (width - left - right)
    }

    /// The column of a path; a long day has many paths in one.
    fn column(&self, index: usize) -> usize {
        index * self.columns / self.day.paths.len()
    }

    fn panel(&self, svg: &mut String, figure: &Figure, top: f64) {
        let Size { width, panel, left, right, .. } = self.size;
        let (points, bottom) = (self.points(figure), top + panel);
        let step = tick_step(most_of(&points), 5);
        let most = step * (most_of(&points) / step).ceil().max(1.0);
        let y = |value: f64| bottom - (value / most).clamp(0.0, 1.0) * panel;
        let _ = writeln!(
            svg,
            "<g class=\"panel\" data-figure=\"{}\" data-left=\"{}\" data-right=\"{}\" data-top=\"{}\" \
             data-bottom=\"{}\" data-most=\"{}\" data-paths=\"{}\">",
            figure.name,
            left,
            width - right,
            top,
            bottom,
            most,
            self.day.paths.len()
        );
        self.shades(svg, top);
        let _ = writeln!(
            svg,
            "<text class=\"title\" x=\"{}\" y=\"{}\">{}</text>",
            left,
            top - 10.0,
            figure.title
        );
        let ticks = (most / step).round() as usize;
        for tick in 0..=ticks {
            let value = tick as f64 * step;
            let _ = writeln!(
                svg,
                "<line class=\"grid\" x1=\"{}\" x2=\"{}\" y1=\"{:.2}\" y2=\"{:.2}\"/>\
                 <text class=\"y\" x=\"{}\" y=\"{:.2}\">{}</text>",
                left,
                width - right,
                y(value),
                y(value),
                left - 6.0,
                y(value) + 4.0,
                plain(value, step)
            );
        }
        self.baseline(svg, &points, &y);
        let line: Vec<(f64, f64)> = points.iter().map(|point| (point.x, y(point.value))).collect();
        let _ = writeln!(svg, "<polyline class=\"day\" points=\"{}\"/>", joined(&line));
        if let [(x, y)] = line[..] {
            let _ = writeln!(svg, "<circle class=\"dot\" cx=\"{:.2}\" cy=\"{:.2}\" r=\"3\"/>", x, y);
        }
        svg.push_str("</g>\n");
    }

    /// The readings of a figure, in a long day the greatest of each column.
    fn points(&self, figure: &Figure) -> Vec<Point> {
        let mut points: Vec<(usize, Point)> = Vec::new();
        let mut usual_at = UsualAt::new(self.watched.trained.as_ref());
        for (index, reading) in self.watched.readings() {
            let (Some(value), length) = ((figure.value)(reading), reading.stats.sequence_length) else {
                continue;
            };
            let usual = usual_at.at(length);
            let known = usual.figures.as_ref().map(figure.usual);
            let known_spread = known.filter(|_| usual.unusable.is_none());
            let point = Point {
                x: self.x(index),
                value,
                mean: known.map(|known| known.mean).filter(|mean| mean.abs() < NO_FIGURE),
                reach: known_spread.and_then(spread).map(|spread| self.day.drift * spread),
            };
            match points.last_mut().filter(|(column, _)| *column == self.column(index)) {
                Some((_, last)) if last.value >= value => {}
                Some((_, last)) => *last = point,
                None => points.push((self.column(index), point)),
            }
        }
        points.into_iter().map(|(_, point)| point).collect()
    }

    /// The mean, and the band in which nothing is drift.
    fn baseline(&self, svg: &mut String, points: &[Point], y: &impl Fn(f64) -> f64) {
        for run in points.chunk_by(|one, other| one.reach.is_some() == other.reach.is_some()) {
            let band = |sign: f64| {
                run.iter().filter_map(move |point| Some((point.x, point.mean? + sign * point.reach?)))
            };
            let upper: Vec<(f64, f64)> = band(1.0).map(|(x, value)| (x, y(value))).collect();
            let mut around = upper.clone();
            around.extend(band(-1.0).map(|(x, value)| (x, y(value))).collect::<Vec<_>>().into_iter().rev());
            if !around.is_empty() {
                let _ = writeln!(svg, "<polygon class=\"band\" points=\"{}\"/>", joined(&around));
                let _ = writeln!(svg, "<polyline class=\"limit\" points=\"{}\"/>", joined(&upper));
            }
        }
        for run in points.chunk_by(|one, other| one.mean.is_some() == other.mean.is_some()) {
            let mean: Vec<(f64, f64)> =
                run.iter().filter_map(|point| Some((point.x, y(point.mean?)))).collect();
            if !mean.is_empty() {
                let _ = writeln!(svg, "<polyline class=\"mean\" points=\"{}\"/>", joined(&mean));
            }
        }
    }

    /// Stretches, what is not judged, and what was never seen.
    fn shades(&self, svg: &mut String, top: f64) {
        let (mut unjudged, mut never_seen) = (vec![0; self.columns], vec![false; self.columns]);
        // What was never seen is as the path before it.
        let mut not_judged = false;
        for (index, judgement) in self.watched.judgements().into_iter().enumerate() {
            match judgement {
                Some(Unjudged::LeftOut(LeftOut::NeverSeen)) => never_seen[self.column(index)] = true,
                judgement => not_judged = judgement.is_some(),
            }
            unjudged[self.column(index)] |= u8::from(not_judged);
        }
        let panel = self.size.panel;
        for (x, width, quarters) in self.runs(&self.drifting()) {
            let _ = writeln!(
                svg,
                "<rect class=\"stretch\" fill-opacity=\"{}\" x=\"{:.2}\" y=\"{}\" width=\"{:.2}\" \
                 height=\"{}\"/>",
                f64::from(quarters) / 4.0,
                x,
                top,
                width,
                panel
            );
        }
        for (x, width, _) in self.runs(&unjudged) {
            let _ = writeln!(
                svg,
                "<rect class=\"unjudged\" fill=\"url(#hatch-{})\" x=\"{:.2}\" y=\"{}\" width=\"{:.2}\" \
                 height=\"{}\"/>",
                self.size.class, x, top, width, panel
            );
        }
        for column in (0..self.columns).filter(|column| never_seen[*column]) {
            let x = self.edge((column as f64 + 0.5) / self.columns as f64 * self.day.paths.len() as f64);
            let _ = writeln!(svg, "<path class=\"never-seen\" d=\"M{:.2} {} l-5 -9 h10 z\"/>", x, top + 10.0);
        }
    }

    /// How many quarters of each column lie in stretches, begun ones whole. In a long day a column
    /// has many paths, and a short stretch must not look like a long one.
    fn drifting(&self) -> Vec<u8> {
        let (mut paths, mut drifting) = (vec![0; self.columns], vec![0; self.columns]);
        (0..self.day.paths.len()).for_each(|index| paths[self.column(index)] += 1);
        for stretch in &self.watched.stretches {
            (stretch.first..=stretch.last).for_each(|index| drifting[self.column(index)] += 4);
        }
        drifting
            .iter()
            .zip(paths)
            .map(|(drifting, paths): (&usize, usize)| drifting.div_ceil(paths) as u8)
            .collect()
    }

    /// Neighbouring columns of one level above 0: where they begin, how wide they are, the level.
    fn runs(&self, columns: &[u8]) -> Vec<(f64, f64, u8)> {
        let edge =
            |column: usize| self.edge(column as f64 / self.columns as f64 * self.day.paths.len() as f64);
        let (mut runs, mut start) = (Vec::new(), 0);
        for run in columns.chunk_by(|one, other| one == other) {
            if run[0] > 0 {
                let width = edge(start + run.len()) - edge(start);
                runs.push((edge(start), width.max(1.5), run[0]));
            }
            start += run.len();
        }
        runs
    }

    /// The numbers of the paths below the picture.
    fn paths_axis(&self, svg: &mut String, bottom: f64) {
        let paths = self.day.paths.len();
        let step = (tick_step(paths as f64, self.size.ticks) as usize).max(1);
        let numbers =
            std::iter::once(1).chain((1..).map(|tick| tick * step).take_while(|number| *number <= paths));
        let mut last = f64::MIN;
        for number in numbers {
            let x = self.x(number - 1);
            if x - last < 30.0 {
                continue;
            }
            last = x;
            let _ = writeln!(
                svg,
                "<line class=\"tick\" x1=\"{:.2}\" x2=\"{:.2}\" y1=\"{}\" y2=\"{}\"/>\
                 <text class=\"x\" x=\"{:.2}\" y=\"{}\">{}</text>",
                x,
                x,
                bottom,
                bottom + 5.0,
                x,
                bottom + 18.0,
                number
            );
        }
        let middle = (self.size.left + self.size.width - self.size.right) / 2.0;
        let _ = writeln!(svg, "<text class=\"x\" x=\"{}\" y=\"{}\">path</text>", middle, bottom + 34.0);
    }

    /// The marks as numbered lines; their texts stand below the picture.
    fn marks(&self, svg: &mut String) {
        let mut last = f64::MIN;
        for (number, marks) in (1..).zip(self.day.marks_by_place()).take(SHOWN) {
            let x = self.edge(marks[0].0 as f64);
            if x - last < self.size.apart {
                continue;
            }
            last = x;
            let _ = writeln!(svg, "<text class=\"mark\" x=\"{:.2}\" y=\"14\">{}</text>", x, number);
            for top in self.tops() {
                let _ = writeln!(
                    svg,
                    "<line class=\"mark\" x1=\"{:.2}\" x2=\"{:.2}\" y1=\"{}\" y2=\"{}\"/>",
                    x,
                    x,
                    top,
                    top + self.size.panel
                );
            }
        }
    }
}

/// What the axis has to reach: the greatest value and mean, and the limits, unless these lie so
/// high that nothing else could be seen.
fn most_of(points: &[Point]) -> f64 {
    let greatest = |of: fn(&Point) -> f64| points.iter().map(of).fold(0.0, f64::max);
    let values = greatest(|point| point.value.max(point.mean.unwrap_or(0.0)));
    let limits = greatest(|point| point.mean.unwrap_or(0.0) + point.reach.unwrap_or(0.0));
    values.max(limits.min(2.0 * values))
}

/// A step of 1, 2 or 5 times a power of ten, of which about `ticks` reach `most`.
fn tick_step(most: f64, ticks: usize) -> f64 {
    if most <= 0.0 {
        return 1.0;
    }
    let rough = most / ticks as f64;
    let power = 10.0_f64.powf(rough.log10().floor());
    let steps = [1.0, 2.0, 5.0, 10.0];
    power * steps.into_iter().find(|step| power * step >= rough).unwrap_or(10.0)
}

/// A number on an axis whose numbers lie `step` apart.
fn plain(value: f64, step: f64) -> String {
    match step {
        _ if value == 0.0 => "0".to_string(),
        step if !(1.0e-4..1.0e7).contains(&step) => format!("{:.0e}", value),
        step if step >= 1.0 => format!("{:.0}", value),
        step => format!("{:.*}", (-step.log10()).ceil() as usize, value),
    }
}

fn joined(points: &[(f64, f64)]) -> String {
    points.iter().map(|(x, y)| format!("{:.2},{:.2}", x, y)).collect::<Vec<String>>().join(" ")
}

#[cfg(test)]
mod tests {
    use super::{plain, tick_step};

    #[test]
    fn axes_have_round_numbers() {
        for (most, ticks, step) in
            [(31.5, 5, 10.0), (0.9, 5, 0.2), (180.0, 10, 20.0), (1.0e6, 5, 2.0e5), (0.0, 4, 1.0)]
        {
            assert!(
                (tick_step(most, ticks) / step - 1.0).abs() < 1.0e-9,
                "{} {}",
                most,
                tick_step(most, ticks)
            );
        }
        assert_eq!(plain(0.4, 0.2), "0.4");
        assert_eq!(plain(30.0, 10.0), "30");
        assert_eq!(plain(0.0, 1.0e-9), "0");
        assert_eq!(plain(2.0e9, 1.0e9), "2e9");
    }
}
