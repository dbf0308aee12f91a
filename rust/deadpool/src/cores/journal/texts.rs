// Made by .ci/made-rust of crates/deadpool_journal/src/texts.rt, without its contracts. The proof is of that text.
//! A journal as text: one entry a line.
use crate::cores::desk::{Held, OwnerReply, OwnerStep, QueueMode, Removal, Removals, Reply, Status, Step};
use crate::cores::journal::{Entry, Journal};
use std::fmt;

impl fmt::Display for Journal {
    #[inline]
    fn fmt(&self, f: &mut fmt::Formatter<'_>) -> fmt::Result {
        let limit = self.limit;
        let mode = match self.mode {
            QueueMode::Fifo => "fifo",
            QueueMode::Lifo => "lifo",
        };
        let min_idle = self.min_idle;
        write!(f, "opened {limit} {mode} {min_idle}")?;
        if let Some(max_waiting) = self.max_waiting {
            write!(f, " {max_waiting}")?;
        }
        for entry in &self.entries {
            write!(f, "\n{entry}")?;
        }
        if self.full {
            f.write_str("\nfull")?;
        }
        Ok(())
    }
}

impl fmt::Display for Entry {
    #[inline]
    fn fmt(&self, f: &mut fmt::Formatter<'_>) -> fmt::Result {
        match self {
            Entry::Made(step, number, reply) => {
                write_step(f, step, *number)?;
                match (step, reply) {
                    // (under the ticket by which it asked)
                    (Step::Ask { .. }, Reply::Waiting(_)) => f.write_str("waiting"),
                    _ => write_reply(f, *number, reply),
                }
            }
            Entry::Owner(step, reply) => {
                write_owner_step(f, step)?;
                match (step, reply) {
                    // (an upgrade says whether a handle was left)
                    (OwnerStep::Upgrade, OwnerReply::Done) => f.write_str("true"),
                    (OwnerStep::Upgrade, OwnerReply::NoHandle) => f.write_str("false"),
                    _ => write_owner_reply(f, reply),
                }
            }
            Entry::Retain(Ok(removals)) => write_removals(f, removals),
            Entry::Retain(Err(_)) => f.write_str("retain out_of_memory"),
        }
    }
}

#[inline]
fn write_step(f: &mut fmt::Formatter<'_>, step: &Step, number: Option<usize>) -> fmt::Result {
    match step {
        Step::Enter { wait } => f.write_str(if *wait { "enter " } else { "enter at_once " }),
        Step::Ask { ticket, expired } => {
            let number = ticket.number();
            let late = if *expired { "late " } else { "" };
            write!(f, "ask {number} {late}")
        }
        Step::Again { allowance: None } => f.write_str("again "),
        Step::Again { allowance: Some(allowance) } => write!(f, "again {allowance} "),
        Step::Discard => f.write_str("discard "),
        Step::Created => f.write_str("created "),
        Step::Failed => f.write_str("failed "),
        Step::Refused => f.write_str("refused "),
        Step::Back => {
            let number = number.unwrap_or(0);
            write!(f, "back {number} ")
        }
        Step::Withdraw { ticket } => write!(f, "cancel ticket {} ", ticket.number()),
        Step::Cancel(Held::Place) => f.write_str("cancel place "),
        Step::Cancel(Held::Creation) => f.write_str("cancel creation "),
        Step::Cancel(Held::Object) => f.write_str("cancel object "),
        Step::Take => f.write_str("take "),
    }
}

#[inline]
fn write_reply(f: &mut fmt::Formatter<'_>, number: Option<usize>, reply: &Reply) -> fmt::Result {
    match reply {
        Reply::Object { left } => {
            let number = number.unwrap_or(0);
            write!(f, "object {number} left {left}")
        }
        Reply::Create => f.write_str("create"),
        Reply::Going => f.write_str("going"),
        Reply::Exhausted => f.write_str("exhausted"),
        Reply::Closed => f.write_str("closed"),
        Reply::Full => f.write_str("full"),
        Reply::Crowded => f.write_str("crowded"),
        Reply::Waiting(ticket) => write!(f, "waiting {}", ticket.number()),
        Reply::OutOfMemory => f.write_str("out_of_memory"),
        Reply::Expired => f.write_str("expired"),
        Reply::Done => f.write_str("done"),
        Reply::Number(number) => write!(f, "{number}"),
        Reply::Kept => f.write_str("kept"),
        Reply::Detach => f.write_str("detach"),
        Reply::Dropped => f.write_str("dropped"),
        Reply::Taken { detach: true } => f.write_str("detach"),
        Reply::Taken { detach: false } => f.write_str("taken"),
        Reply::Unknown => f.write_str("unknown"),
    }
}

#[inline]
fn write_owner_step(f: &mut fmt::Formatter<'_>, step: &OwnerStep) -> fmt::Result {
    match step {
        OwnerStep::Status => f.write_str("status "),
        OwnerStep::Resize { limit } => write!(f, "resize {limit} "),
        OwnerStep::Close => f.write_str("close "),
        OwnerStep::CloneHandle => f.write_str("clone_handle "),
        OwnerStep::DropHandle => f.write_str("drop_handle "),
        OwnerStep::Upgrade => f.write_str("upgrade "),
    }
}

#[inline]
fn write_owner_reply(f: &mut fmt::Formatter<'_>, reply: &OwnerReply) -> fmt::Result {
    match reply {
        OwnerReply::Stands(status) => write_status(f, *status),
        OwnerReply::Done => f.write_str("done"),
        OwnerReply::OutOfMemory => f.write_str("out_of_memory"),
        OwnerReply::NoHandle => f.write_str("no_handle"),
    }
}

#[inline]
fn write_status(f: &mut fmt::Formatter<'_>, status: Status) -> fmt::Result {
    let Status { max_size, size, available, waiting } = status;
    write!(f, "{max_size} {size} {available} {waiting}")
}

#[inline]
fn write_removals(f: &mut fmt::Formatter<'_>, removals: &Removals) -> fmt::Result {
    f.write_str("retain removed")?;
    for removal in removals.as_slice() {
        let Removal { position, number } = *removal;
        write!(f, " {number}@{position}")?;
    }
    Ok(())
}
