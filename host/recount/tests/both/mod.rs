//! A tracker as its history and as lent bytes. After every call the two are the same.

use recount::limits::{ENTRY_BYTES, PLACE_BYTES};
use recount::*;

/// Both, with the lent bytes in sight.
pub struct Both {
    pub history: Recount,
    pub state: State,
    pub book: Vec<u8>,
    pub queue: Vec<u8>,
}

impl Both {
    pub fn open(window: u32, entries: usize) -> Both {
        let mut book = vec![0xff; ENTRY_BYTES * entries];
        let mut queue = vec![0xff; PLACE_BYTES * window as usize];
        let history = Recount::open(window, book.len(), queue.len()).unwrap();
        let state = memory::open(window, &mut book, &mut queue).unwrap();
        let both = Both { history, state, book, queue };
        both.must_agree();
        both
    }

    /// The refusal's number, 0 where the path is taken.
    pub fn add(&mut self, path: &[Address]) -> u32 {
        let path = path_bytes(path);
        let answer = memory::add_path(self.state, &mut self.book, &mut self.queue, &path);
        assert_eq!(self.history.add_path(&path), answer.map(|_| ()));
        self.state = answer.unwrap_or(self.state);
        self.must_agree();
        answer.err().map_or(0, |refusal| refusal.number)
    }

    /// Adds paths that are taken.
    pub fn after(mut self, paths: &[&[Address]]) -> Both {
        paths.iter().for_each(|path| assert_eq!(self.add(path), 0));
        self
    }

    /// A tidy, which is never refused here.
    pub fn tidied(mut self) -> Both {
        self.state = memory::tidy(self.state, &mut self.book, &self.queue).unwrap();
        self.history.tidy();
        self.must_agree();
        self
    }

    /// The counts.
    pub fn evidence(&self) -> Evidence {
        let bytes = Memory { state: self.state, book: &self.book, queue: &self.queue };
        bytes.evidence().unwrap()
    }

    pub fn must_agree(&self) {
        assert_eq!(self.history.state(), self.state);
        assert!(self.history.book() == self.book && self.history.queue() == self.queue);
        assert_eq!(self.history.counted(), self.evidence());
    }
}
