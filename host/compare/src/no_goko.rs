//! Takes the place of `goko` where its sources are missing: nothing is compared.

use crate::{Compared, Laws, Tally};
use cases::baselines::{StatsAsked, Training};
use cases::calls::{Call, CallList};
use cases::lookups::{Looked, PriorsCase};
use cases::play::{Answer, History, Player};
use recount::limits::KNOT_VALUES;
use recount::Refusal;

/// No tracker.
#[derive(Default)]
pub struct Beside;

impl Beside {
    /// Nothing.
    pub fn hold(&mut self, _: &Call, _: &Answer, _: &Player<History>, _: &Laws, _: &mut Tally) -> Compared {
        Ok(())
    }
}

/// Nothing.
pub fn compare_list(_: &CallList, _: &mut Tally) -> Compared {
    Ok(())
}

/// Nothing.
pub fn hold_lookups(_: &PriorsCase, _: &[Looked], _: &mut Tally) -> Compared {
    Ok(())
}

/// Nothing.
pub fn compare_training(_: &Training, _: &mut Tally) -> Compared {
    Ok(())
}

/// Nothing.
pub fn hold_training(_: &Training, _: &Training, _: Result<u32, Refusal>, _: &mut Tally) -> Compared {
    Ok(())
}

/// Nothing.
pub fn compare_stats(_: &StatsAsked, _: &mut Tally) -> Compared {
    Ok(())
}

/// Nothing.
pub fn hold_stats(_: &StatsAsked, _: u32, _: Result<[f64; KNOT_VALUES], Refusal>, _: &mut Tally) -> Compared {
    Ok(())
}
