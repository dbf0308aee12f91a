// Made by .ci/made-rust of crates/deadpool_unmanaged_journal/src/texts.rt, without its contracts. The proof is of that text.
//! A journal as text: one entry a line.
use crate::cores::unmanaged::{Reply, Status, Step};
use crate::cores::unmanaged_journal::{Entry, Journal, OwnerReply, OwnerStep, Unnamed};
use std::fmt;

impl<O: fmt::Display> fmt::Display for Journal<O> {
    #[inline]
    fn fmt(&self, f: &mut fmt::Formatter<'_>) -> fmt::Result {
        let limit = self.limit;
        write!(f, "opened unmanaged {limit}")?;
        if let Some(max_waiting) = self.max_waiting {
            write!(f, " {max_waiting}")?;
        }
        for entry in &self.entries {
            write!(f, "\n{entry}")?;
        }
        if self.full {
            f.write_str("\nfull")?;
        }
        Ok(())
    }
}

impl<O: fmt::Display> fmt::Display for Entry<O> {
    #[inline]
    fn fmt(&self, f: &mut fmt::Formatter<'_>) -> fmt::Result {
        match self {
            Entry::Made(step, object, reply) => {
                write_step(f, step)?;
                match (object, reply) {
                    // (an object that is given stands after the reply, and one that is brought before it)
                    (Some(name), Reply::Object) => write!(f, "object {name}"),
                    (Some(name), _) => {
                        write!(f, "{name} ")?;
                        write_reply(f, step, reply)
                    }
                    (None, _) => write_reply(f, step, reply),
                }
            }
            Entry::Owner(step, reply) => {
                write_owner_step(f, step)?;
                match (step, reply) {
                    // (an upgrade says whether a handle was left)
                    (OwnerStep::Upgrade, OwnerReply::Done) => f.write_str("true"),
                    (OwnerStep::Upgrade, OwnerReply::NoHandle) => f.write_str("false"),
                    _ => write_owner_reply(f, reply),
                }
            }
        }
    }
}

impl fmt::Display for Unnamed {
    #[inline]
    fn fmt(&self, f: &mut fmt::Formatter<'_>) -> fmt::Result {
        f.write_str("_")
    }
}

#[inline]
fn write_step(f: &mut fmt::Formatter<'_>, step: &Step) -> fmt::Result {
    match step {
        Step::GetEnter { wait } => f.write_str(if *wait { "get " } else { "get at_once " }),
        Step::GetAsk { ticket, expired } => {
            let number = ticket.number();
            let late = if *expired { "late " } else { "" };
            write!(f, "get_ask {number} {late}")
        }
        Step::GetCancel { ticket } => write!(f, "get_cancel {} ", ticket.number()),
        Step::AddEnter { wait } => f.write_str(if *wait { "add " } else { "add at_once " }),
        Step::AddAsk { ticket } => write!(f, "add_ask {} ", ticket.number()),
        Step::AddCancel { ticket } => write!(f, "add_cancel {} ", ticket.number()),
        Step::Back => f.write_str("back "),
        Step::Take => f.write_str("take "),
    }
}

#[inline]
fn write_reply(f: &mut fmt::Formatter<'_>, step: &Step, reply: &Reply) -> fmt::Result {
    match (step, reply) {
        // (under the ticket by which it asked)
        (Step::GetAsk { .. } | Step::AddAsk { .. }, Reply::Waiting(_)) => f.write_str("waiting"),
        (_, Reply::Waiting(ticket)) => write!(f, "waiting {}", ticket.number()),
        (_, Reply::Object) => f.write_str("object"),
        (_, Reply::Stored) => f.write_str("stored"),
        (_, Reply::Closed) => f.write_str("closed"),
        (_, Reply::Full) => f.write_str("full"),
        (_, Reply::Crowded) => f.write_str("crowded"),
        (_, Reply::OutOfMemory) => f.write_str("out_of_memory"),
        (_, Reply::Expired) => f.write_str("expired"),
        (_, Reply::Done) => f.write_str("done"),
        (_, Reply::Kept) => f.write_str("kept"),
        (_, Reply::Dropped) => f.write_str("dropped"),
        (_, Reply::Taken) => f.write_str("taken"),
        (_, Reply::Unknown) => f.write_str("unknown"),
    }
}

#[inline]
fn write_owner_step(f: &mut fmt::Formatter<'_>, step: &OwnerStep) -> fmt::Result {
    match step {
        OwnerStep::Status => f.write_str("status "),
        OwnerStep::Close => f.write_str("close "),
        OwnerStep::CloneHandle => f.write_str("clone_handle "),
        OwnerStep::DropHandle => f.write_str("drop_handle "),
        OwnerStep::Upgrade => f.write_str("upgrade "),
    }
}

#[inline]
fn write_owner_reply(f: &mut fmt::Formatter<'_>, reply: &OwnerReply) -> fmt::Result {
    match reply {
        OwnerReply::Stands(status) => write_status(f, *status),
        OwnerReply::Done => f.write_str("done"),
        OwnerReply::NoHandle => f.write_str("no_handle"),
    }
}

#[inline]
fn write_status(f: &mut fmt::Formatter<'_>, status: Status) -> fmt::Result {
    let Status { max_size, size, available, waiting } = status;
    write!(f, "{max_size} {size} {available} {waiting}")
}
