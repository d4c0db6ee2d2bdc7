//! W, the book's capacity, H since the last accepted opening and where in H listing begins since the last
//! tidy, kept from the calls and their answers alone.

use cases::calls::Call;
use cases::paths::place_path;
use cases::play::Answer;
use recount::limits::{ENTRY_BYTES, PLACE_BYTES};
use recount::{steps, window_part, Address};

/// What is kept.
#[derive(Debug, Default)]
pub struct Kept {
    /// W, none before the first accepted opening.
    window: Option<u32>,
    /// The book's entries.
    pub capacity: usize,
    /// H.
    pub paths: Vec<Vec<Address>>,
    /// The paths of H that lay before the window part at the last tidy.
    base: usize,
    /// The paths of H before the call heard last.
    before: usize,
}

impl Kept {
    /// Takes in a call and its answer: an accepted opening sets W and the capacity and empties H, an accepted
    /// add appends its path to H, one of several paths as many as it took, a tidy that is carried out lets
    /// listing begin with the window part, and nothing else changes them.
    pub fn hear(&mut self, call: &Call, answer: &Answer) {
        self.before = self.paths.len();
        match (call, answer) {
            (Call::Open { window, book_len, .. }, Answer::Changed(Ok(()))) => {
                let capacity = book_len / ENTRY_BYTES;
                *self = Kept { window: Some(*window), capacity, ..Kept::default() };
            }
            (Call::Add { path }, Answer::Changed(Ok(()))) => self.paths.push(steps(path)),
            (Call::AddPaths { places }, Answer::Batch(batch)) => {
                let taken = places.chunks(PLACE_BYTES).take(batch.taken as usize);
                self.paths.extend(taken.map(|place| steps(place_path(place))));
            }
            (Call::Tidy, Answer::Changed(Ok(()))) => self.base = self.paths.len() - self.window_part().len(),
            _ => {}
        }
    }

    /// Whether an opening was accepted.
    pub fn opened(&self) -> bool {
        self.window.is_some()
    }

    /// Whether no path ever leaves the window.
    pub fn is_unlimited(&self) -> bool {
        self.window == Some(0)
    }

    /// The paths whose nodes and transitions are listed.
    pub fn listing(&self) -> &[Vec<Address>] {
        &self.paths[self.base..]
    }

    /// The same before the call heard last, which was an add.
    pub fn listing_before(&self) -> &[Vec<Address>] {
        &self.paths[self.base..self.before]
    }

    /// The paths that the call heard last added.
    pub fn added(&self) -> &[Vec<Address>] {
        &self.paths[self.before..]
    }

    /// The window part.
    pub fn window_part(&self) -> &[Vec<Address>] {
        window_part(self.window.unwrap_or(0), &self.paths)
    }
}
