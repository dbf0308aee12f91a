//! Who holds the objects that are out, and since when. A pool has the list only if it was built to keep one.
use super::names::name_here;
use super::object::Kept;
use super::{Manager, ObjectId, Shared};
use crate::desk::Desk as _;
use crate::moment::Instant;
use crate::trace::{tell_hold, tell_late};
use std::borrow::Cow;
use std::collections::HashMap;
use std::fmt;
use std::sync::{Mutex, MutexGuard, PoisonError};
use std::time::Duration;

/// Who holds an object that is out, as [`Pool::holders`](super::Pool::holders) lists it.
#[derive(Clone)]
#[non_exhaustive]
pub struct Holder {
    /// The object's number, which is that of [`Object::id`](super::Object::id).
    pub object: ObjectId,
    /// The name that its get had by [`held_by`](super::held_by).
    pub name: Option<Cow<'static, str>>,
    /// When it was handed out.
    #[cfg(not(target_arch = "wasm32"))]
    pub since: Instant,
    #[cfg(target_arch = "wasm32")]
    since: Instant,
    /// How long its get waited for a place, as [`Object::waited`](super::Object::waited) says.
    pub waited: Duration,
}

impl Holder {
    /// How long ago the object was handed out. On wasm32 it is zero.
    #[must_use]
    pub fn held(&self) -> Duration {
        self.since.elapsed()
    }
}

/// It says how long the object is held at this moment.
#[allow(clippy::missing_fields_in_debug, reason = "how long ago it began says more than a moment")]
impl fmt::Debug for Holder {
    fn fmt(&self, f: &mut fmt::Formatter<'_>) -> fmt::Result {
        let mut told = f.debug_struct("Holder");
        told.field("object", &format_args!("{}", self.object));
        self.name.iter().for_each(|name| _ = told.field("name", name));
        told.field("held", &self.held()).field("waited", &self.waited).finish()
    }
}

/// An object that is out, and whether a line of the log has told of it.
struct Out {
    holder: Holder,
    is_told: bool,
}

/// What is out of a pool, by number. Nothing is told, and no code of a user's runs, while its lock is taken.
pub(super) struct Holders {
    /// How long an object may be held until a line tells of it.
    threshold: Option<Duration>,
    out: Mutex<HashMap<usize, Out>>,
}

/// A hold that is past the threshold.
pub(super) struct Long {
    holder: Holder,
    number: usize,
    held: Duration,
    is_out: bool,
}

impl Holders {
    pub(super) fn new(threshold: Option<Duration>) -> Self {
        Holders { threshold, out: Mutex::new(HashMap::new()) }
    }

    fn out(&self) -> MutexGuard<'_, HashMap<usize, Out>> {
        self.out.lock().unwrap_or_else(PoisonError::into_inner)
    }

    /// An object is handed out, on the thread that asks for it. If no memory is found it is not listed.
    #[cold]
    #[inline(never)]
    pub(super) fn begin<M: Manager>(&self, kept: &Kept<M>) {
        let (number, waited) = (kept.number, kept.waited);
        let holder = Holder { object: ObjectId::new(number), name: name_here(), since: Instant::now(), waited };
        let mut out = self.out();
        if out.try_reserve(1).is_ok() {
            out.insert(number, Out { holder, is_told: false });
        }
    }

    /// The object with this number is about to come back, or to be taken: from then on another get may have it. Gives what is to be
    /// told of it.
    pub(super) fn end(&self, number: usize) -> Option<Long> {
        let Out { holder, is_told } = self.out().remove(&number)?;
        let held = self.long(&holder).filter(|_| !is_told)?;
        Some(Long { holder, number, held, is_out: false })
    }

    /// How long an object has been held, if that is past the threshold.
    fn long(&self, holder: &Holder) -> Option<Duration> {
        let most = self.threshold?;
        let held = holder.held();
        (held > most).then_some(held)
    }

    /// Those that are past the threshold and were not told. They are from now on.
    fn take_long(&self) -> Vec<Long> {
        let mut all = Vec::new();
        if self.threshold.is_none() {
            return all;
        }
        for (&number, out) in self.out().iter_mut().filter(|(_, out)| !out.is_told) {
            if let Some(held) = self.long(&out.holder) {
                out.is_told = true;
                all.push(Long { holder: out.holder.clone(), number, held, is_out: true });
            }
        }
        all.sort_by_key(|long| long.number);
        all
    }

    /// All that are out, the one that is held longest first.
    pub(super) fn list(&self) -> Vec<Holder> {
        let mut all: Vec<_> = self.out().values().map(|out| out.holder.clone()).collect();
        all.sort_by_key(|it| (order_of(it), it.object));
        all
    }
}

#[cfg(not(target_arch = "wasm32"))]
fn order_of(holder: &Holder) -> Instant {
    holder.since
}

#[cfg(target_arch = "wasm32")]
fn order_of(_: &Holder) {}

impl Long {
    /// Tells of it, under the name of its pool.
    pub(super) fn tell(&self, pool: Option<&str>) {
        let Long { holder: Holder { name, waited, .. }, number, held, is_out } = self;
        tell_hold(pool, *number, name.as_deref(), *held, *waited, *is_out);
    }
}

/// Tells of all that are past the threshold and were not told.
pub(super) fn tell_long<M: Manager>(pool: &Shared<M>) {
    if let Some(holders) = &pool.setup.holders {
        holders.take_long().iter().for_each(|long| long.tell(pool.setup.name.as_deref()));
    }
}

/// Tells how the pool stands as a get ends that has waited so long, if that was measured, and who holds objects for long.
#[cold]
pub(super) fn tell_late_get<M: Manager>(pool: &Shared<M>, waited: Option<Duration>) {
    tell_late(pool.setup.name.as_deref(), waited, || pool.look(|state| state.desk.status()));
    tell_long(pool);
}
