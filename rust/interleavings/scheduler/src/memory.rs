//! What atomics have stored, and which of it a thread may see.
use crate::clock::Clock;
use crate::execution::Execution;
use crate::handover::{me, with};
use crate::operation::Operation;
use crate::path::{Mode, Node};
use std::collections::HashMap;

struct Store {
    value: u64,
    /// Who made it as which of its operations, unless it was there before.
    by: Option<(usize, u32)>,
    /// What was known to who made it, if it releases that.
    released: Option<Clock>,
}

/// What was stored in one atomic, in order, and which of it each thread saw last.
#[derive(Default)]
pub(crate) struct Cells {
    stores: Vec<Store>,
    seen: HashMap<usize, usize>,
}

/// An atomic has this value, if nothing was stored in it yet.
pub(crate) fn begin(at: usize, value: u64) {
    with(|it| {
        let cells = it.cells.entry(at).or_default();
        if cells.stores.is_empty() {
            cells.stores.push(Store { value, by: None, released: None });
        }
    });
}

/// An exchange sees the last store.
pub(crate) fn see_last(at: usize, acquires: bool) {
    let Some(me) = me() else { return };
    with(|it| {
        let last = it.cells.entry(at).or_default().stores.last();
        if let Some(clock) = last.filter(|_| acquires).and_then(|it| it.released.clone()) {
            it.threads[me].known.join(&clock);
        }
    });
}

pub(crate) fn store(at: usize, value: u64, releases: bool, is_exchange: bool) {
    let Some(me) = me() else { return };
    with(|it| {
        let thread = &it.threads[me];
        let mut released = releases.then(|| thread.known.clone());
        let by = Some((me, thread.count));
        let cells = it.cells.entry(at).or_default();
        // (an exchange goes on with what the store before it released)
        if let (true, Some(Store { released: Some(before), .. })) = (is_exchange, cells.stores.last()) {
            released.get_or_insert_with(Clock::default).join(before);
        }
        cells.seen.insert(me, cells.stores.len());
        cells.stores.push(Store { value, by, released });
    });
}

/// The value of a load: that of the last store, or of an older one that this thread may still see.
pub(crate) fn load(at: usize, acquires: bool) -> u64 {
    let Some(me) = me() else { return 0 };
    let [first, last] = with(|it| it.seen_from(me, at)).unwrap_or_default();
    let older = if last > first { choose(last - first + 1) } else { 0 };
    with(|it| {
        let cells = it.cells.get_mut(&at).expect("it has a value");
        cells.seen.insert(me, last - older);
        let Store { value, released, .. } = &cells.stores[last - older];
        if let Some(clock) = released.as_ref().filter(|_| acquires) {
            it.threads[me].known.join(clock);
        }
        *value
    })
    .unwrap_or_default()
}

impl Execution {
    /// The first and the last store that a thread may see.
    fn seen_from(&self, me: usize, at: usize) -> [usize; 2] {
        let (known, cells) = (&self.threads[me].known, &self.cells[&at]);
        let is_known = |it: &Store| it.by.is_none_or(|(thread, count)| known.covers(thread, count));
        let first = cells.stores.iter().rposition(is_known).unwrap_or(0);
        [first.max(cells.seen.get(&me).copied().unwrap_or(0)), cells.stores.len() - 1]
    }

    fn choose_value(&mut self, me: usize, values: usize) -> usize {
        if self.is_cut {
            return 0;
        }
        if let Mode::Random { .. } = self.settings.mode {
            return (self.random.next() % values as u64) as usize;
        }
        if self.depth == self.path.len() {
            let (sleeping, switches) =
                self.path.last().map_or_else(Default::default, |it| (it.sleeping_behind(), it.switches));
            self.path.push(Node { sleeping, switches, before: me, values, ..Node::default() });
        }
        self.trace.push((me, Operation::Choice));
        self.depth += 1;
        self.path[self.depth - 1].chosen
    }
}

/// One of so many, each of which is tried.
pub fn choose(values: usize) -> usize {
    me().and_then(|me| with(|it| it.choose_value(me, values))).unwrap_or_default()
}
