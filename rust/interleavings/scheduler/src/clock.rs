//! What is known to come before: how many operations of each thread.

#[derive(Clone, Debug, Default)]
pub(crate) struct Clock(Vec<u32>);

impl Clock {
    /// What either of both knows.
    pub(crate) fn join(&mut self, other: &Clock) {
        if self.0.len() < other.0.len() {
            self.0.resize(other.0.len(), 0);
        }
        self.0.iter_mut().zip(&other.0).for_each(|(to, from)| *to = (*to).max(*from));
    }

    /// Whether so many operations of a thread come before.
    pub(crate) fn covers(&self, thread: usize, count: u32) -> bool {
        self.0.get(thread).is_some_and(|known| *known >= count)
    }

    pub(crate) fn set(&mut self, thread: usize, count: u32) {
        if self.0.len() <= thread {
            self.0.resize(thread + 1, 0);
        }
        self.0[thread] = count;
    }
}
