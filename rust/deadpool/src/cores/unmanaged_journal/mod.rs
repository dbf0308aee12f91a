// Made by .ci/made-rust of crates/deadpool_unmanaged_journal/src/lib.rt, without its contracts. The proof is of that text.
//! An unmanaged pool's state with a journal and a tally of its steps, for whoever keeps them under a lock. Nothing here
//! takes one.

mod entry;
mod journal;
mod journaled;
mod log;
mod naming;
mod owner_step;
mod report;
mod tally;
mod texts;

pub use entry::Entry;
pub use journal::Journal;
pub use journaled::Journaled;
pub use naming::{ByNumber, Nameless, Naming, Unnamed};
pub use owner_step::{OwnerReply, OwnerStep};
pub use report::Report;
pub use tally::Tally;
