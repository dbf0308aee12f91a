//! What threads do with what they share, and the order of which two operations can be seen.

/// What a thread is about to do, with the number of what it does that to.
#[derive(Clone, Copy, Debug, PartialEq, Eq)]
pub(crate) enum Operation {
    Lock(usize),
    TryLock(usize),
    Unlock(usize),
    Load(usize),
    Store(usize),
    /// The drop of a count that is shared, and an upgrade to one more.
    DropCount(usize),
    Upgrade(usize),
    /// A thread waits for a token, and one gives it.
    Park(usize),
    Unpark(usize),
    /// A thread joins those that wait for a condition, waits, and one of these is notified.
    BeginWait(usize),
    Wait(usize),
    Notify(usize),
    /// A look at the clock, which goes on by so many nanoseconds.
    Now,
    Pass(u64),
    /// Something of a program's own.
    Own(usize),
    /// A choice of a value. It is no operation on anything.
    Choice,
}

impl Operation {
    /// What kind of thing it is done to, and which one.
    fn object(self) -> (u8, usize) {
        match self {
            Operation::Lock(at) | Operation::TryLock(at) | Operation::Unlock(at) => (0, at),
            Operation::Load(at) | Operation::Store(at) => (1, at),
            Operation::DropCount(at) | Operation::Upgrade(at) => (2, at),
            Operation::Park(at) | Operation::Unpark(at) => (3, at),
            Operation::BeginWait(at) | Operation::Wait(at) | Operation::Notify(at) => (4, at),
            Operation::Now | Operation::Pass(_) => (5, 0),
            Operation::Own(at) => (6, at),
            Operation::Choice => (7, 0),
        }
    }

    /// Whether the order of two operations of two threads can be seen.
    pub(crate) fn depends_on(self, other: Operation) -> bool {
        use Operation::{Choice, Load, Now, Pass, Upgrade, Wait};
        match (self, other) {
            (Load(_), Load(_)) | (Upgrade(_), Upgrade(_)) | (Now, Now) | (Choice, _) | (_, Choice) => false,
            // (a wait ends by the clock)
            (Wait(_), Pass(_)) | (Pass(_), Wait(_)) => true,
            _ => self.object() == other.object(),
        }
    }
}
