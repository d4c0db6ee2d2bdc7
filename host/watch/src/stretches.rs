//! The stretches of a day that drift. A stretch is over when enough readings behind it are judged
//! and do not drift; what is not judged does not end it, and its end is then not known.

use crate::moved::Moved;
use crate::seldom::Often;

/// Drifting readings with fewer than this between them are one stretch.
const GAP: usize = 5;

/// How a stretch ends behind its last drifting reading.
#[derive(Debug, Clone, Copy, PartialEq, Eq)]
pub enum End {
    /// The readings behind it do not drift.
    Over,
    /// It is the day's last.
    DayEnds,
    /// From the first of these indexes to the second nothing is judged.
    NotKnown([usize; 2]),
}

/// A stretch of the day that drifts: path indexes, the worst of them, and the node to look at.
#[derive(Debug)]
pub struct Stretch {
    pub first: usize,
    /// Paths right before the first are not judged, so that it may have begun earlier.
    pub maybe_earlier: bool,
    pub last: usize,
    pub end: End,
    pub worst: usize,
    pub deviations: f64,
    /// The node that moved in the reading whose figures are furthest above, and how far that is.
    pub moved: Option<Moved>,
    figures: f64,
    /// What is done too often, where it is furthest above.
    pub often: Option<Often>,
}

/// The stretches as the day goes by.
#[derive(Debug, Default)]
pub struct Stretches {
    list: Vec<Stretch>,
    /// The last stretch can still go on.
    open: bool,
    /// Readings behind it that are judged and do not drift.
    calm: usize,
    /// The first path behind it that does not drift, and the first run that is not judged.
    first_calm: Option<usize>,
    first_unjudged: Option<[usize; 2]>,
    /// That run is over.
    run_over: bool,
    /// The path before this one was not judged.
    after_unjudged: bool,
}

impl Stretches {
    /// A reading drifts.
    pub fn drift(&mut self, index: usize, deviations: f64) {
        let maybe_earlier = std::mem::take(&mut self.after_unjudged);
        (self.calm, self.first_calm, self.first_unjudged, self.run_over) = (0, None, None, false);
        match self.list.last_mut().filter(|_| self.open) {
            Some(stretch) => {
                stretch.last = index;
                if deviations > stretch.deviations {
                    (stretch.worst, stretch.deviations) = (index, deviations);
                }
            }
            None => {
                self.open = true;
                let (first, last, worst, end) = (index, index, index, End::Over);
                let (moved, figures, often) = (None, f64::MIN, None);
                self.list.push(Stretch {
                    first,
                    maybe_earlier,
                    last,
                    end,
                    worst,
                    deviations,
                    moved,
                    figures,
                    often,
                });
            }
        }
    }

    /// A reading is judged and does not drift.
    pub fn calm(&mut self, index: usize) {
        self.after_unjudged = false;
        self.first_calm.get_or_insert(index);
        self.calm += 1;
        if self.open && self.calm == GAP {
            self.open = false;
            let unjudged = self.first_unjudged.filter(|unjudged| Some(unjudged[0]) < self.first_calm);
            self.end(unjudged.map_or(End::Over, End::NotKnown));
        }
    }

    /// A path is not judged, or is left out.
    pub fn unjudged(&mut self, index: usize) {
        let goes_on = std::mem::replace(&mut self.after_unjudged, true);
        match &mut self.first_unjudged {
            None => self.first_unjudged = Some([index, index]),
            Some(run) if goes_on && !self.run_over => run[1] = index,
            Some(_) => self.run_over = true,
        }
    }

    /// True where figures are further above than any before in the last stretch.
    pub fn further(&self, figures: f64) -> bool {
        self.list.last().is_some_and(|stretch| figures > stretch.figures)
    }

    /// The node to look at, for figures of the last stretch that are so far above.
    pub fn look_at(&mut self, moved: Option<Moved>, figures: f64) {
        if let Some(stretch) = self.list.last_mut() {
            (stretch.moved, stretch.figures) = (moved, figures);
        }
    }

    /// Something is done too often in the last stretch.
    pub fn often(&mut self, often: Often) {
        if let Some(stretch) = self.list.last_mut() {
            let before = stretch.often.filter(|before| before.deviations >= often.deviations);
            stretch.often = before.or(Some(often));
        }
    }

    /// The day is over.
    pub fn done(mut self) -> Vec<Stretch> {
        if self.open {
            let over = if self.calm == 0 { End::DayEnds } else { End::Over };
            self.end(self.first_unjudged.map_or(over, End::NotKnown));
        }
        self.list
    }

    fn end(&mut self, end: End) {
        if let Some(stretch) = self.list.last_mut() {
            stretch.end = end;
        }
    }
}

#[cfg(test)]
mod tests {
    use super::{End, Stretch, Stretches};

    /// The stretches of a day: a digit drifts by as much, a dot is calm, a question mark is not
    /// judged.
    fn of(day: &str) -> Vec<Stretch> {
        let mut stretches = Stretches::default();
        for (index, letter) in day.chars().enumerate() {
            match letter {
                '.' => stretches.calm(index),
                '?' => stretches.unjudged(index),
                digit => stretches.drift(index, f64::from(digit.to_digit(10).expect("a digit"))),
            }
        }
        stretches.done()
    }

    /// First, last, end and worst of each.
    fn stretches(day: &str) -> Vec<(usize, usize, End, usize)> {
        let row = |stretch: Stretch| (stretch.first, stretch.last, stretch.end, stretch.worst);
        of(day).into_iter().map(row).collect()
    }

    #[test]
    fn few_calm_readings_do_not_end_a_stretch() {
        assert_eq!(stretches("..47....6......"), [(2, 8, End::Over, 3)]);
        assert_eq!(stretches("4.....5....."), [(0, 0, End::Over, 0), (6, 6, End::Over, 6)]);
        assert_eq!(stretches("......"), []);
    }

    #[test]
    fn the_end_of_the_day() {
        assert_eq!(stretches("...45"), [(3, 4, End::DayEnds, 4)]);
        assert_eq!(stretches("...45."), [(3, 4, End::Over, 4)]);
    }

    #[test]
    fn what_is_not_judged_does_not_end_a_stretch() {
        assert_eq!(stretches(".45???"), [(1, 2, End::NotKnown([3, 5]), 2)]);
        assert_eq!(stretches(".45?????????6....."), [(1, 12, End::Over, 12)]);
        assert_eq!(stretches(".45???......."), [(1, 2, End::NotKnown([3, 5]), 2)]);
        assert_eq!(stretches(".45?"), [(1, 2, End::NotKnown([3, 3]), 2)]);
        assert_eq!(stretches(".45?.??"), [(1, 2, End::NotKnown([3, 3]), 2)]);
        assert_eq!(stretches("?.45??.???."), [(2, 3, End::NotKnown([4, 5]), 3)]);
        // Calm right behind it, but not for long enough.
        assert_eq!(stretches(".45..???"), [(1, 2, End::NotKnown([5, 7]), 2)]);
        assert_eq!(stretches(".45..?....."), [(1, 2, End::Over, 2)]);
    }

    #[test]
    fn it_may_have_begun_in_what_is_not_judged() {
        let earlier = |day: &str| of(day)[0].maybe_earlier;
        assert!(earlier("..??4"));
        assert!(!earlier("??.4"));
        assert!(!earlier("4?4"));
    }
}
