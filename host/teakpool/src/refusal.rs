//! The refusals: one variant for each number of the table in docs/RULES.md, in its words.

use crate::Address;
use core::error::Error;
use core::fmt;

/// Why a call is turned back. `number` gives the number of the table, `Display` its wording;
/// docs/RULES.md says what to do about each. Later versions may have more.
///
/// ```
/// use teakpool::{Address, Refusal};
///
/// assert_eq!(Refusal::Window.number(), 8);
/// assert_eq!(Refusal::Window.to_string(), "refusal 8: window asked of an opening over 1,024");
/// let past = Refusal::PastTable(Address::new(1, 7));
/// assert_eq!(past.to_string(), "refusal 15: U past the last table index, at node 1/7");
/// ```
#[derive(Debug, Clone, Copy, PartialEq, Eq)]
#[non_exhaustive]
pub enum Refusal {
    /// 1: lengths unequal, under 2 or over 1,048,576.
    TableLengths,
    /// 2: an entry from index 1 on not within -2^40 to 2^40.
    TableEntry,
    /// 3: bytes no multiple of 16; over 4,096 nodes or 16,384 children.
    PriorSizes,
    /// 4: nodes not strictly ascending.
    NodeOrder,
    /// 5: link past the last record or not rising; chain over 64.
    Links,
    /// 6: chain not strictly ascending.
    ChainOrder,
    /// 7: child count 0, or node total 0.
    ZeroPrior,
    /// 8: window asked of an opening over 1,024.
    Window,
    /// 9: book no multiple of 24, empty or over 16,384 entries; queue under 516 × window bytes;
    /// form broken.
    Form,
    /// 10: path not 1 to 64 whole steps.
    PathLength,
    /// 11: 16,777,216 paths accepted.
    PathsFull,
    /// 12: listed nodes plus transitions would exceed capacity.
    ///
    /// Where paths have left the window, [`Tracker::tidy`](crate::Tracker::tidy) may make room for the
    /// path.
    BookFull,
    /// 13: output holds fewer places than the answer.
    OutputShort,
    /// 14: evidence child, zero count included, not in the prior; with the node.
    ///
    /// A transition that the prior has never seen is the strongest drift there is. Once it is in the
    /// book, every later `all_node_kl` and `kl_div_stats` is refused until the tracker is opened anew, or
    /// [tidied](crate::Tracker::tidy) when no path of the window has the transition any more.
    /// So try a path with [`try_path`](crate::try_path) before it is added, report this as a finding,
    /// and do not add the path; [`Priors::child`](crate::Priors::child), asked for each step that comes
    /// right after the node, tells which one its prior does not have.
    MissingChild(Address),
    /// 15: U past the last table index; with the node.
    ///
    /// U is the node's prior total plus its evidence total, and each occurrence of the node in the
    /// window is 1 of the evidence. With T the greatest prior total, W the window and L the steps of
    /// the longest path, `gamma_tables(T + W * L)` always reaches; T + W is enough if no path meets a
    /// node twice. With a window of 0, and in a training, the number of paths stands for W.
    PastTable(Address),
    /// 16: rate 0; s, n or byte count wrong; over 1,024 knots.
    TrainingInput,
    /// 17: s not 1 to 64; knots not rising or over 1,024; values not ten a knot.
    BaselineInput,
    /// 18: one knot and a length past it.
    OneKnot,
    /// 22: two node records below the floor have one point. It is tested right after 7.
    SharedPoint,
    /// A number that this version of the crate does not know: the archive is of another version.
    Other(u32),
}

impl Refusal {
    /// The number of the table.
    pub fn number(self) -> u32 {
        match self {
            Refusal::TableLengths => 1,
            Refusal::TableEntry => 2,
            Refusal::PriorSizes => 3,
            Refusal::NodeOrder => 4,
            Refusal::Links => 5,
            Refusal::ChainOrder => 6,
            Refusal::ZeroPrior => 7,
            Refusal::Window => 8,
            Refusal::Form => 9,
            Refusal::PathLength => 10,
            Refusal::PathsFull => 11,
            Refusal::BookFull => 12,
            Refusal::OutputShort => 13,
            Refusal::MissingChild(_) => 14,
            Refusal::PastTable(_) => 15,
            Refusal::TrainingInput => 16,
            Refusal::BaselineInput => 17,
            Refusal::OneKnot => 18,
            Refusal::SharedPoint => 22,
            Refusal::Other(number) => number,
        }
    }

    /// The node that 14 and 15 name.
    pub fn node(self) -> Option<Address> {
        match self {
            Refusal::MissingChild(node) | Refusal::PastTable(node) => Some(node),
            _ => None,
        }
    }

    /// The table's wording.
    pub fn wording(self) -> &'static str {
        match self {
            Refusal::TableLengths => "lengths unequal, under 2 or over 1,048,576",
            Refusal::TableEntry => "an entry from index 1 on not within -2^40 to 2^40",
            Refusal::PriorSizes => "bytes no multiple of 16; over 4,096 nodes or 16,384 children",
            Refusal::NodeOrder => "nodes not strictly ascending",
            Refusal::Links => "link past the last record or not rising; chain over 64",
            Refusal::ChainOrder => "chain not strictly ascending",
            Refusal::ZeroPrior => "child count 0, or node total 0",
            Refusal::Window => "window asked of an opening over 1,024",
            Refusal::Form => {
                "book no multiple of 24, empty or over 16,384 entries; \
                 queue under 516 × window bytes; form broken"
            }
            Refusal::PathLength => "path not 1 to 64 whole steps",
            Refusal::PathsFull => "16,777,216 paths accepted",
            Refusal::BookFull => "listed nodes plus transitions would exceed capacity",
            Refusal::OutputShort => "output holds fewer places than the answer",
            Refusal::MissingChild(_) => "evidence child, zero count included, not in the prior",
            Refusal::PastTable(_) => "U past the last table index",
            Refusal::TrainingInput => "rate 0; s, n or byte count wrong; over 1,024 knots",
            Refusal::BaselineInput => "s not 1 to 64; knots not rising or over 1,024; values not ten a knot",
            Refusal::OneKnot => "one knot and a length past it",
            Refusal::SharedPoint => "two node records below the floor have one point",
            Refusal::Other(_) => "not known to this version of the crate",
        }
    }

    /// The refusal with this number; `node` is what 14 and 15 name.
    pub(crate) fn of(number: u32, node: Address) -> Refusal {
        match number {
            1 => Refusal::TableLengths,
            2 => Refusal::TableEntry,
            3 => Refusal::PriorSizes,
            4 => Refusal::NodeOrder,
            5 => Refusal::Links,
            6 => Refusal::ChainOrder,
            7 => Refusal::ZeroPrior,
            8 => Refusal::Window,
            9 => Refusal::Form,
            10 => Refusal::PathLength,
            11 => Refusal::PathsFull,
            12 => Refusal::BookFull,
            13 => Refusal::OutputShort,
            14 => Refusal::MissingChild(node),
            15 => Refusal::PastTable(node),
            16 => Refusal::TrainingInput,
            17 => Refusal::BaselineInput,
            18 => Refusal::OneKnot,
            22 => Refusal::SharedPoint,
            other => Refusal::Other(other),
        }
    }
}

impl fmt::Display for Refusal {
    fn fmt(&self, f: &mut fmt::Formatter) -> fmt::Result {
        write!(f, "refusal {}: {}", self.number(), self.wording())?;
        match self.node() {
            Some(node) => write!(f, ", at node {}", node),
            None => Ok(()),
        }
    }
}

impl Error for Refusal {}

/// Why a list of paths was added only in part ([`Tracker::add_paths`](crate::Tracker::add_paths)). The
/// paths before the refused one are in the tracker; it and those after it are not. `?` makes a [`Refusal`]
/// of it.
///
/// ```
/// use teakpool::{Refusal, Stopped};
///
/// let stopped = Stopped { taken: 3, refusal: Refusal::PathLength };
/// assert_eq!(stopped.to_string(), "refusal 10: path not 1 to 64 whole steps, after 3 paths of the list");
/// assert_eq!(Refusal::from(stopped), Refusal::PathLength);
/// ```
#[derive(Debug, Clone, Copy, PartialEq, Eq)]
pub struct Stopped {
    /// Paths that were taken, and so the index of the refused one in the list, from 0: it lies at
    /// `taken as usize * PLACE_BYTES`.
    pub taken: u32,
    /// Why the next path was not taken, or for 9 the whole list.
    pub refusal: Refusal,
}

impl fmt::Display for Stopped {
    fn fmt(&self, f: &mut fmt::Formatter) -> fmt::Result {
        let paths = if self.taken == 1 { "path" } else { "paths" };
        write!(f, "{}, after {} {} of the list", self.refusal, self.taken, paths)
    }
}

impl Error for Stopped {
    fn source(&self) -> Option<&(dyn Error + 'static)> {
        Some(&self.refusal)
    }
}

impl From<Stopped> for Refusal {
    fn from(stopped: Stopped) -> Refusal {
        stopped.refusal
    }
}

/// What an answer without a value gives.
pub(crate) fn done(answer: u32, node: Address) -> Result<(), Refusal> {
    match answer {
        0 => Ok(()),
        number => Err(Refusal::of(number, node)),
    }
}

/// A value, none, or a refusal.
pub(crate) fn answered<T>(answer: u32, node: Address, value: T) -> Result<Option<T>, Refusal> {
    match answer {
        archive::raw::NONE => Ok(None),
        answer => done(answer, node).map(|()| Some(value)),
    }
}

#[cfg(test)]
mod tests {
    use super::{Refusal, Stopped};
    use crate::Address;
    use core::error::Error;
    use std::format;
    use std::string::ToString;
    use std::vec::Vec;

    const RULES: &str = include_str!("../../../docs/RULES.md");

    /// The rows of the rules' table: a number and when it is given. That 14 and 15 name a node is no
    /// part of their wording.
    fn table() -> impl Iterator<Item = (u32, &'static str)> {
        RULES.lines().filter_map(|line| {
            let cells: Vec<&str> = line.trim_matches('|').split('|').map(str::trim).collect();
            match cells[..] {
                [number, _, when, _] => {
                    Some((number.parse().ok()?, when.trim_end_matches("; names the node")))
                }
                _ => None,
            }
        })
    }

    #[test]
    fn every_number_has_the_tables_words() {
        let node = Address::new(-1, 7);
        for (number, when) in table() {
            let refusal = Refusal::of(number, node);
            assert_eq!(refusal.number(), number);
            assert_eq!(refusal.wording(), when, "{}", number);
            let (named, end) = match number {
                14 | 15 => (Some(node), ", at node -1/7"),
                _ => (None, ""),
            };
            assert_eq!(refusal.node(), named, "{}", number);
            assert_eq!(refusal.to_string(), format!("refusal {}: {}{}", number, when, end));
        }
        assert!(table().map(|(number, _)| number).eq((1..=18).chain([22])));
    }

    #[test]
    fn a_list_that_was_stopped_tells_both() {
        let stopped = Stopped { taken: 1, refusal: Refusal::BookFull };
        let text = "refusal 12: listed nodes plus transitions would exceed capacity";
        assert_eq!(stopped.to_string(), format!("{}, after 1 path of the list", text));
        assert_eq!(stopped.source().map(ToString::to_string).as_deref(), Some(text));
        assert_eq!(Refusal::from(stopped), Refusal::BookFull);
    }

    #[test]
    fn an_unknown_number_is_kept() {
        for number in [19, 21, 23, 100, u32::MAX] {
            let refusal = Refusal::of(number, Address::default());
            assert_eq!((refusal, refusal.number(), refusal.node()), (Refusal::Other(number), number, None));
        }
        let text = "refusal 19: not known to this version of the crate";
        assert_eq!(Refusal::Other(19).to_string(), text);
    }
}
