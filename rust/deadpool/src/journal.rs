//! A journal of a pool's steps.
use std::fmt;

/// The steps that a pool has made, each with its reply, a line each. It begins with the first step.
///
/// It is printed as what the pool opened as, a line an entry, and `full` if it is full.
#[derive(Clone, Debug, PartialEq, Eq)]
pub struct Journal {
    /// What the pool opened as.
    pub opened: String,
    /// The steps, in order.
    pub entries: Vec<String>,
    /// Whether a step has found no room.
    pub is_full: bool,
}

impl Journal {
    /// The lines of a core's copy. The last one says whether it is full, if it is.
    pub(crate) fn of(copy: &impl fmt::Display, is_full: bool) -> Self {
        let text = copy.to_string();
        let mut lines = text.lines().map(String::from);
        let opened = lines.next().unwrap_or_default();
        let mut entries: Vec<_> = lines.collect();
        if is_full {
            entries.pop();
        }
        Journal { opened, entries, is_full }
    }
}

impl fmt::Display for Journal {
    fn fmt(&self, f: &mut fmt::Formatter<'_>) -> fmt::Result {
        f.write_str(&self.opened)?;
        self.entries.iter().try_for_each(|entry| write!(f, "\n{entry}"))?;
        f.write_str(if self.is_full { "\nfull" } else { "" })
    }
}
