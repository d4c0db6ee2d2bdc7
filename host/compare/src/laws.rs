//! What a tracker is held to after every call from an accepted opening on: its entries to the window at the
//! last tidy and the paths since, its counts to the visits of its nodes, its used entries and its 12s to the
//! least capacity, and what an add of several paths came to, to its places. Each goes by W, the capacity, H and
//! the tidies alone.

use crate::batches;
use crate::kept::Kept;
use crate::listed::Listed;
use crate::met::Met;
use crate::room::Room;
use crate::visited::{Total, Visited};
use crate::Compared;
use cases::calls::Call;
use cases::play::Answer;

/// W, the capacity and H, and what they tell.
#[derive(Debug, Default)]
pub struct Laws {
    kept: Kept,
    listed: Listed,
    visited: Visited,
    room: Room,
}

impl Laws {
    /// Takes in a call and its answer.
    pub fn hear(&mut self, call: &Call, answer: &Answer) {
        self.kept.hear(call, answer);
        self.listed.hear(&self.kept, call, answer);
        self.visited.hear(&self.kept, call, answer);
        self.room.hear(&self.kept, call, answer);
    }

    /// Takes in a call and its answer, and holds the used entries to them. Before the first accepted opening
    /// there is nothing to hold, and a lending is no call.
    pub fn hold(
        &mut self,
        call: &Call,
        answer: &Answer,
        (used, book): (u32, &[u8]),
        met: &mut Met,
    ) -> Compared {
        self.kept.hear(call, answer);
        if !self.kept.opened() || matches!(answer, Answer::Lent) {
            return Ok(());
        }
        batches::hold(&self.kept, call, answer, met)?;
        self.room.hold(&self.kept, call, answer, used, met)?;
        self.listed.hold(&self.kept, call, answer, (used, book), met)?;
        self.visited.hold(&self.kept, call, answer, (used, book), met)
    }

    /// Holds goko's totals to the visits, and how many numbers goko has to the least capacity.
    pub fn hold_goko(&self, totals: &[Total], numbers: usize, met: &mut Met) -> Compared {
        self.visited.hold_totals(totals)?;
        self.room.hold_numbers(numbers)?;
        met.goko_visited(totals);
        met.goko_has_least();
        Ok(())
    }
}
