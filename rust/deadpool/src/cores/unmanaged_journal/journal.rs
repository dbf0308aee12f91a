// Made by .ci/made-rust of crates/deadpool_unmanaged_journal/src/journal.rt, without its contracts. The proof is of that text.
//! A journal as it is handed out.
use crate::cores::unmanaged_journal::Entry;
use crate::rattle::Vec;

/// A copy of a journal: the steps that a pool made since it opened with nothing idle, in order, each with its reply.
///
/// It is printed line by line: `opened unmanaged` with the limit and the bound on those that wait, if there is one;
/// then one entry a line, and at the end `full` if the journal is full. The last line has no line end.
#[derive(Debug, PartialEq)]
pub struct Journal<O> {
    /// The limit that the pool opened with, a number of objects.
    pub limit: usize,
    /// How many gets may wait for an object, and how many adds for room, if that is bounded.
    pub max_waiting: Option<usize>,
    pub entries: Vec<Entry<O>>,
    /// Whether a step has found no room for its entry. Steps from there on are not among the entries.
    pub full: bool,
}
