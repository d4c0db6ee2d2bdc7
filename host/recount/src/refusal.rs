//! A refusal: its number in docs/RULES.md's table, and for 14 and 15 the node.

use crate::address::Address;

/// Why a call is turned back.
#[derive(Debug, Clone, Copy, PartialEq, Eq)]
pub struct Refusal {
    /// The number, 1 to 18 or 22.
    pub number: u32,
    /// The node that 14 and 15 name.
    pub node: Option<Address>,
}

impl Refusal {
    /// A refusal without a node.
    pub fn plain(number: u32) -> Refusal {
        Refusal { number, node: None }
    }

    /// A refusal that names a node.
    pub fn at(number: u32, node: Address) -> Refusal {
        Refusal { number, node: Some(node) }
    }
}

/// Refuses with `number` when the condition holds.
pub fn refuse(number: u32, condition: bool) -> Result<(), Refusal> {
    if condition {
        Err(Refusal::plain(number))
    } else {
        Ok(())
    }
}
