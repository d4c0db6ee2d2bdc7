//! Holds what a book lists to the paths, after every call from an accepted opening on: a node with its
//! ending, or a child's entry, is listed exactly when that node or pair stood in the window at the last tidy
//! or in a path accepted since. Tells what was met of tidies, in lists and on altered memory.

use crate::entries::{entries, Key};
use crate::kept::Kept;
use crate::met::Met;
use crate::{must, Compared};
use cases::calls::Call;
use cases::play::Answer;
use recount::limits::ENTRY_BYTES;
use recount::{Address, Memory, Refusal, State};
use std::collections::BTreeSet;

const HELD: &str = "calls after which the entries were held to the last tidy's window and the paths since";
const DROP_A_CHILD: &str = "tidies that drop a child of a node that stays";
const DROP_A_NODE: &str = "tidies that drop a node";
const DROP_NOTHING: &str = "tidies that drop nothing, though a path has left the window";
const KEEP_AN_ENDING: &str = "tidies that keep an ending of 0, since a child of its node counts";
const UNLIMITED: &str = "tidies with window 0 after a path";
const AFTER_OPENING: &str = "tidies right after an opening";
const AFTER_ADD: &str = "tidies right after an add";
const AFTER_TIDY: &str = "tidies right after a tidy";
const AFTER_READING: &str = "tidies right after a reading";
const AFTER_REFUSAL: &str = "tidies right after a refused call";
const LEFT_SINCE: &str = "adds after which an entry has 0 that the last tidy's window alone lists";
const NODE_AGAIN: &str = "adds that list a node again which a tidy dropped";
const CHILD_AGAIN: &str = "adds that list a child again which a tidy dropped, under a node that stayed";
const ALTERED_9: &str = "tidies of altered memory refused with 9";
const ALTERED_TAIL: &str = "tidies of altered memory that zero bytes past the entries used";
const ALTERED_ALL: &str = "tidies of altered memory that drop all entries";
const ALTERED_NAMED: &str = "tidies of altered memory that drop a node which a child that stays names";
const ALTERED_NO_NODE: &str = "tidies of altered memory that keep a child which was no node";
const LEFT_OUT: &str = "calls from a tidy to the next accepted opening, left out of the comparison with goko";
const COMPARED_AGAIN: &str = "openings after a tidy, from which on goko is compared again";

/// What is to be met in lists with tidies, on altered memory, and with goko.
pub const IN_LISTS: [&str; 14] = [
    HELD,
    DROP_A_CHILD,
    DROP_A_NODE,
    DROP_NOTHING,
    KEEP_AN_ENDING,
    UNLIMITED,
    AFTER_OPENING,
    AFTER_ADD,
    AFTER_TIDY,
    AFTER_READING,
    AFTER_REFUSAL,
    LEFT_SINCE,
    NODE_AGAIN,
    CHILD_AGAIN,
];
pub const ALTERED: [&str; 5] = [ALTERED_9, ALTERED_TAIL, ALTERED_ALL, ALTERED_NAMED, ALTERED_NO_NODE];
pub const MET_WITH_GOKO: [&str; 2] = [LEFT_OUT, COMPARED_AGAIN];

/// What the paths tell of the entries.
#[derive(Debug, Default)]
pub struct Listed {
    /// What stood in the window at the last tidy since the opening.
    at_tidy: BTreeSet<Key>,
    /// What stands in a path accepted since that tidy, or since the opening.
    since: BTreeSet<Key>,
    /// What a tidy since the opening dropped and no path has listed again.
    dropped: BTreeSet<Key>,
    /// What a tidy that came next would follow.
    follows: Option<&'static str>,
}

/// The nodes of a path, and its neighbours as children.
fn keys(path: &[Address]) -> impl Iterator<Item = Key> + '_ {
    let nodes = path.iter().map(|node| (*node, None));
    nodes.chain(path.windows(2).map(|pair| (pair[0], Some(pair[1]))))
}

impl Listed {
    /// Takes in a call and its answer, which `kept` has heard.
    pub fn hear(&mut self, kept: &Kept, call: &Call, answer: &Answer) {
        match (call, answer) {
            (Call::Open { .. }, Answer::Changed(Ok(()))) => *self = Listed::default(),
            (Call::Tidy, Answer::Changed(Ok(()))) => {
                self.at_tidy = kept.window_part().iter().flat_map(|path| keys(path)).collect();
                self.since.clear();
            }
            _ => self.since.extend(kept.added().iter().flat_map(|path| keys(path))),
        }
    }

    /// What is listed, in the order of entries.
    fn all(&self) -> impl Iterator<Item = Key> + '_ {
        self.at_tidy.union(&self.since).copied()
    }

    /// Takes in a call and its answer, which `kept` has heard, and holds the book's used entries to the
    /// paths.
    pub fn hold(
        &mut self,
        kept: &Kept,
        call: &Call,
        answer: &Answer,
        (used, book): (u32, &[u8]),
        met: &mut Met,
    ) -> Compared {
        let before: Vec<Key> = self.all().filter(|_| matches!(call, Call::Tidy)).collect();
        self.hear(kept, call, answer);
        must(entries(used, book).map(|(key, _)| key).eq(self.all()), || {
            let listed: Vec<Key> = entries(used, book).map(|(key, _)| key).collect();
            format!("the entries are of {:?}, the paths list {:?}", listed, self.all().collect::<Vec<_>>())
        })?;
        met.count(HELD, true);
        match (call, answer) {
            (Call::Tidy, Answer::Changed(Ok(()))) => self.tidied(kept, &before, (used, book), met),
            _ if !kept.added().is_empty() => self.added((used, book), met),
            _ => {}
        }
        self.follows = Some(follows(call, answer));
        Ok(())
    }

    /// Counts a tidy before which `before` was listed.
    fn tidied(&mut self, kept: &Kept, before: &[Key], (used, book): (u32, &[u8]), met: &mut Met) {
        let dropped: Vec<&Key> = before.iter().filter(|key| !self.at_tidy.contains(key)).collect();
        let stays = |node: Address| self.at_tidy.contains(&(node, None));
        let left = kept.paths.len() - kept.window_part().len();
        met.count(DROP_A_CHILD, dropped.iter().any(|(node, child)| child.is_some() && stays(*node)));
        met.count(DROP_A_NODE, dropped.iter().any(|(_, child)| child.is_none()));
        met.count(DROP_NOTHING, dropped.is_empty() && left > 0);
        met.count(
            KEEP_AN_ENDING,
            entries(used, book).any(|((_, child), count)| child.is_none() && count == 0),
        );
        met.count(UNLIMITED, kept.is_unlimited() && !kept.paths.is_empty());
        self.follows.into_iter().for_each(|what| met.count(what, true));
        self.dropped.extend(dropped);
    }

    /// Counts an add that took a path or more.
    fn added(&mut self, (used, book): (u32, &[u8]), met: &mut Met) {
        let since = &self.since;
        let again: Vec<Key> = self.dropped.intersection(since).copied().collect();
        let stayed = |node: Address| !again.contains(&(node, None));
        met.count(LEFT_SINCE, entries(used, book).any(|(key, count)| count == 0 && !since.contains(&key)));
        met.count(NODE_AGAIN, again.iter().any(|(_, child)| child.is_none()));
        met.count(CHILD_AGAIN, again.iter().any(|(node, child)| child.is_some() && stayed(*node)));
        self.dropped.retain(|key| !again.contains(key));
    }
}

/// What a tidy would follow after this call.
fn follows(call: &Call, answer: &Answer) -> &'static str {
    match call {
        _ if answer.refusal().is_some() => AFTER_REFUSAL,
        Call::Open { .. } => AFTER_OPENING,
        Call::Add { .. } | Call::AddPaths { .. } => AFTER_ADD,
        Call::Tidy => AFTER_TIDY,
        _ => AFTER_READING,
    }
}

impl Met {
    /// Counts a tidy of altered memory, which left this book.
    pub fn altered_tidy(&mut self, lent: &Memory, answer: Result<State, Refusal>, book: &[u8]) {
        self.count(ALTERED_9, answer.is_err());
        let Ok(state) = answer else {
            return;
        };
        let past_used = &lent.book[ENTRY_BYTES * lent.state.used as usize..];
        self.count(ALTERED_TAIL, past_used.iter().any(|byte| *byte != 0));
        self.count(ALTERED_ALL, state.used == 0 && lent.state.used > 0);
        let nodes = |used: u32, book: &[u8]| -> BTreeSet<Address> {
            entries(used, book).filter(|((_, child), _)| child.is_none()).map(|((node, _), _)| node).collect()
        };
        let (before, after) = (nodes(lent.state.used, lent.book), nodes(state.used, book));
        let named: BTreeSet<Address> =
            entries(state.used, book).filter_map(|((_, child), _)| child).collect();
        self.count(ALTERED_NAMED, named.iter().any(|node| before.contains(node) && !after.contains(node)));
        self.count(ALTERED_NO_NODE, named.iter().any(|node| !before.contains(node)));
    }

    /// Counts a call that goko has nothing for, since a tidy came before it.
    pub fn goko_left_out(&mut self) {
        self.count(LEFT_OUT, true);
    }

    /// Counts an opening from which on goko is compared again.
    pub fn goko_again(&mut self) {
        self.count(COMPARED_AGAIN, true);
    }
}
