//! What was met of child look-ups: all that one can show, and what goko's answer was.

use crate::floors::has_layer;
use crate::met::Met;
use cases::shown;
use recount::{Address, Priors, Refusal};

const FOUND_BY_GOKO: &str = "children that goko finds, with the same count";
const MISSED_BY_GOKO: &str = "children that goko does not find either";
const NO_PRIOR_IN_GOKO: &str = "look-ups under a node for which goko has no prior either";
const PAST_32_BITS: &str = "look-ups not compared with goko, whose index of a layer leaves 32 bits";

/// What is to be met with goko, beside what `shown` names.
pub const MET_WITH_GOKO: [&str; 4] = [FOUND_BY_GOKO, MISSED_BY_GOKO, NO_PRIOR_IN_GOKO, PAST_32_BITS];

impl Met {
    /// Counts a look-up in priors of which 3 to 7 and 22 say `checked`.
    pub fn looked_up(&mut self, checked: &Result<Priors, Refusal>, node: Address, child: Address) {
        shown::by(checked, node, child).into_iter().for_each(|what| self.count(what, true));
    }

    /// Whether goko has an answer for a look-up under this node; counts it where it has none, since its
    /// index of a layer leaves 32 bits.
    pub fn goko_looks_up(&mut self, node: Address, floor: i32) -> bool {
        let has_layer = has_layer(floor, node.scale);
        self.count(PAST_32_BITS, !has_layer);
        has_layer
    }

    /// Counts a look-up in which goko has the same; `prior` and `child` tell whether they are there.
    pub fn goko_has_the_same(&mut self, prior: bool, child: bool) {
        self.count(NO_PRIOR_IN_GOKO, !prior);
        self.count(MISSED_BY_GOKO, prior && !child);
        self.count(FOUND_BY_GOKO, child);
    }
}
