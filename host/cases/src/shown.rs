//! What a look-up of a child shows: where in the chain the child is or would be, which record its node
//! has, or which number refuses it.

use crate::lookups::chain_of;
use recount::limits::MAX_CHAIN;
use recount::{Address, Priors, Refusal};

const FOUND: &str = "children found";
const BEFORE: &str = "misses before the first child";
const BETWEEN: &str = "misses between two children";
const PAST: &str = "misses past the last child";
const EMPTY: &str = "look-ups in an empty chain";
const NO_PRIOR: &str = "look-ups under a node without a prior";
const BY_POINT: &str = "look-ups in a chain whose node the point alone finds";
const EXACT: &str = "misses below the floor, where the point alone would find a child";
const SIGNS: &str = "look-ups in a chain with scales of both signs";
const FIRST_OF_64: &str = "children found first of 64";
const AMONG_64: &str = "children found between the first and the last of 64";
const LAST_OF_64: &str = "children found last of 64";
const BEFORE_64: &str = "misses before the first of 64";
const BETWEEN_64: &str = "misses between two of 64";
const PAST_64: &str = "misses past the last of 64";
const REFUSED: [(u32, &str); 6] = [
    (3, "look-ups refused with 3"),
    (4, "look-ups refused with 4"),
    (5, "look-ups refused with 5"),
    (6, "look-ups refused with 6"),
    (7, "look-ups refused with 7"),
    (22, "look-ups refused with 22"),
];

const ANSWERED: [&str; 15] = [
    FOUND,
    BEFORE,
    BETWEEN,
    PAST,
    EMPTY,
    NO_PRIOR,
    BY_POINT,
    EXACT,
    SIGNS,
    FIRST_OF_64,
    AMONG_64,
    LAST_OF_64,
    BEFORE_64,
    BETWEEN_64,
    PAST_64,
];

/// All that a look-up can show.
pub fn all() -> impl Iterator<Item = &'static str> {
    ANSWERED.into_iter().chain(REFUSED.map(|(_, refused)| refused))
}

/// What a look-up shows in priors of which 3 to 7 and 22 say `checked`.
pub fn by(checked: &Result<Priors, Refusal>, node: Address, child: Address) -> Vec<&'static str> {
    let priors = match checked {
        Ok(priors) => priors,
        Err(refusal) => {
            let fits = |(number, what): &(u32, &'static str)| (*number == refusal.number).then_some(*what);
            return REFUSED.iter().filter_map(fits).collect();
        }
    };
    let Some(chain) = priors.node(node).map(chain_of) else {
        return vec![NO_PRIOR];
    };
    let mut shown = place(&chain, child);
    shown.extend((priors.found_by_point(node) && !chain.is_empty()).then_some(BY_POINT));
    shown.extend(missed_by_scale(priors.floor, &chain, child).then_some(EXACT));
    shown
}

/// Where in a chain a child is or would be.
fn place(chain: &[Address], child: Address) -> Vec<&'static str> {
    let (Some(first), Some(last)) = (chain.first(), chain.last()) else {
        return vec![EMPTY];
    };
    let (of_any, of_64) = if child < *first {
        (BEFORE, BEFORE_64)
    } else if child > *last {
        (PAST, PAST_64)
    } else if !chain.contains(&child) {
        (BETWEEN, BETWEEN_64)
    } else if child == *first {
        (FOUND, FIRST_OF_64)
    } else if child == *last {
        (FOUND, LAST_OF_64)
    } else {
        (FOUND, AMONG_64)
    };
    let mut shown = vec![of_any];
    shown.extend((chain.len() == MAX_CHAIN).then_some(of_64));
    shown.extend((first.scale < 0 && last.scale >= 0).then_some(SIGNS));
    shown
}

/// Whether the child is missing, and by its point alone one below the floor would be found for it.
fn missed_by_scale(floor: i32, chain: &[Address], child: Address) -> bool {
    let alike = |other: &Address| other.scale < floor && other.point == child.point;
    child.scale < floor && !chain.contains(&child) && chain.iter().any(alike)
}
