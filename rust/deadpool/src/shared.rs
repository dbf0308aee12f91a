//! What the handles of a pool have in common, what stands under its lock, and how a step is made there.
use crate::Status;
use crate::cells::Cells;
use crate::desk::Desk;
use crate::owed::{Free, Owed, give_back, take_again};
use crate::parcel::Boxed;
use crate::trace::{Teller, Why};
use crate::wakers::Wakers;
use std::fmt;
use std::hint::spin_loop;
use std::iter::from_fn;
use std::mem::{forget, replace};
use std::ops::Deref;
use std::panic::{AssertUnwindSafe, catch_unwind, resume_unwind};
use std::sync::atomic::{AtomicBool, Ordering};
use std::sync::{Arc, Mutex, MutexGuard, OnceLock, TryLockError, Weak};
use std::thread;

/// How many are taken out under the lock at a time to be woken: seldom more than one is due, and of a crowd many are.
const FEW: usize = 4;
const MANY: usize = 32;

/// Takes the waker of the next one that is due.
type Due<D> = fn(&mut State<D>, &Cells<<D as Desk>::Value>) -> Option<Owed>;

/// What stands under a pool's lock.
///
/// No code of a user's runs within a step of the desk, as the proof of the steps knows no panics, and one that ended a step half
/// done would leave a state of which nothing is proved. So what a desk would drop is taken out before (`parcel`), a predicate is
/// asked beforehand, and a waker is cloned, called or dropped by none. What is asked or cloned under the lock is so between two steps
/// (`lent`). Any other panic under the lock closes the pool (`Closes`).
#[repr(C)]
pub(crate) struct State<D> {
    pub(crate) desk: D,
    pub(crate) gets: Wakers,
    /// Those of a managed pool are none.
    pub(crate) adds: Wakers,
    /// Those that wait until the pool has ended, and those that wait until it is drained.
    pub(crate) keepers: Wakers,
    pub(crate) drains: Wakers,
    /// The number of the last get that had to wait.
    last: u64,
    /// How many have let go of something that is still to be detached or dropped.
    departing: usize,
    /// Whether code of a user's runs under the lock.
    is_lent: bool,
}

impl<D: Desk> State<D> {
    fn new(desk: D) -> Self {
        let [gets, adds, keepers, drains] = [(); 4].map(|()| Wakers::default());
        State { desk, gets, adds, keepers, drains, last: 0, departing: 0, is_lent: false }
    }

    /// What a step lets go of is still to be detached or dropped. A drain waits for it.
    pub(crate) fn depart(&mut self) {
        self.departing += 1;
    }

    /// Whether nothing is left of a pool that has ended, nor of what has left it.
    pub(crate) fn is_drained(&self) -> bool {
        self.departing == 0 && self.desk.is_drained()
    }

    /// The values of so many idle objects, from the front on, which the next step drops.
    fn idle_values(&self, count: usize) -> Vec<Boxed<D::Value>> {
        (0..count).map_while(|at| self.desk.idle(at)?.take()).collect()
    }

    /// Has code of a user's run under the lock, between two steps. If it panics the state is whole.
    pub(crate) fn lent<R>(&mut self, call: impl FnOnce(&mut Self) -> R) -> R {
        self.is_lent = true;
        let reply = call(self);
        self.is_lent = false;
        reply
    }

    /// Calls all wakers and drops the idle values of a state that a panic has left within a step. No step is made on it.
    fn abandon(self, free: &Free) {
        let State { desk, gets, adds, keepers, drains, .. } = self;
        // (none of these panics goes on, as another one is under way)
        for mut wakers in [gets, adds, keepers, drains] {
            from_fn(|| wakers.pop()).for_each(|owed| _ = catch_unwind(AssertUnwindSafe(|| owed.pay(free))));
        }
        let _ = catch_unwind(AssertUnwindSafe(|| {
            let idle = (0..).map_while(|at| desk.idle(at));
            idle.for_each(|parcel| _ = catch_unwind(AssertUnwindSafe(|| drop(parcel.take()))));
            drop(desk);
        }));
    }

    /// The number of a get that has to wait, which no other one has.
    pub(crate) fn next_number(&mut self) -> u64 {
        self.last += 1;
        self.last
    }

    /// The next one that is due to be woken. A get is handed its object over, if one is idle.
    fn due(&mut self, cells: &Cells<D::Value>) -> Option<Owed> {
        let State { desk, gets, adds, .. } = self;
        while let Some(ticket) = desk.next_get() {
            if let Some((owed, number)) = gets.owed_numbered(ticket.number()) {
                cells.put(number, || desk.hand_over(ticket));
                return Some(owed);
            }
        }
        from_fn(|| desk.next_add()).find_map(|ticket| adds.owed(ticket.number()))
    }

    /// The next one that is due in a pool that has ended.
    fn due_at_end(&mut self, cells: &Cells<D::Value>) -> Option<Owed> {
        let turn = self.due(cells).or_else(|| self.keepers.pop());
        turn.or_else(|| if self.is_drained() { self.drains.pop() } else { None })
    }
}

/// What all holders of a pool share. The lock and what each step reads lie in as few lines of a cache as may be.
#[repr(C, align(64))]
pub(crate) struct Shared<C, D: Desk> {
    state: Mutex<State<D>>,
    /// What the pool was opened with.
    pub(crate) setup: C,
    /// What all handles share, unless each of them is counted.
    handles: OnceLock<Weak<Counted<C, D>>>,
    /// Whether it has closed or no handle is left. It is set under the lock.
    has_ended: AtomicBool,
    pub(crate) cells: Cells<D::Value>,
    /// Tells the manager of an object that leaves the pool.
    detach: fn(&C, &mut D::Value),
    pub(crate) teller: Teller<C, D::Value>,
}

impl<C, D: Desk> Shared<C, D> {
    /// Has something done or looked at under the lock. It makes nobody due.
    #[inline]
    pub(crate) fn look<R>(&self, look: impl FnOnce(&mut State<D>) -> R) -> R {
        let closes = Closes(self);
        let reply = look(&mut self.lock());
        forget(closes);
        reply
    }

    /// The same, unless the lock is taken, if only by the thread that asks.
    fn glance<R>(&self, look: impl FnOnce(&mut State<D>) -> R) -> Option<R> {
        let closes = Closes(self);
        let reply = self.try_lock().map(|mut state| look(&mut state));
        forget(closes);
        reply
    }

    #[inline]
    fn lock(&self) -> MutexGuard<'_, State<D>> {
        match self.state.try_lock() {
            Ok(state) => state,
            Err(refusal) => self.lock_again(refusal),
        }
    }

    fn try_lock(&self) -> Option<MutexGuard<'_, State<D>>> {
        match self.state.try_lock() {
            Err(TryLockError::Poisoned(state)) => {
                self.mend(state.into_inner());
                self.state.try_lock().ok()
            }
            state => state.ok(),
        }
    }

    /// A step is shorter than a call of the system, so a thread that finds the lock taken tries it again, after ever longer
    /// pauses of some microseconds in all, before it sleeps.
    #[cold]
    #[inline(never)]
    fn lock_again<'a>(&'a self, refusal: TryLockError<MutexGuard<'a, State<D>>>) -> MutexGuard<'a, State<D>> {
        if let TryLockError::Poisoned(state) = refusal {
            self.mend(state.into_inner());
        }
        for pause in 4..9 {
            match self.try_lock() {
                Some(state) => return state,
                None => (0..1 << pause).for_each(|_| spin_loop()),
            }
        }
        loop {
            match self.state.lock() {
                Ok(state) => return state,
                Err(state) => self.mend(state.into_inner()),
            }
        }
    }

    /// Looks at what a panic has left under the lock. If it came from within a step, the state of a closed pool takes its place. It is
    /// done by the thread that panics, or by another that has the lock before it.
    #[cold]
    #[inline(never)]
    fn mend(&self, mut state: MutexGuard<'_, State<D>>) {
        self.state.clear_poison();
        if replace(&mut state.is_lent, false) {
            return;
        }
        let broken = replace(&mut *state, State::new(D::closed()));
        self.has_ended.store(true, Ordering::Relaxed);
        let free = give_back(state);
        // (a panic of a drop ends no other: another one is under way)
        self.cells.end(|slot| _ = catch_unwind(AssertUnwindSafe(|| drop(slot.value.take()))));
        broken.abandon(&free);
    }

    #[cold]
    #[inline(never)]
    fn mend_after_panic(&self) {
        match self.state.lock() {
            Err(state) => self.mend(state.into_inner()),
            Ok(mut state) => state.is_lent = false,
        }
    }

    /// Makes a step, and wakes those that are due once the lock is given back.
    #[inline]
    pub(crate) fn step<R>(&self, step: impl FnOnce(&mut State<D>) -> R) -> R {
        let closes = Closes(self);
        let mut state = self.lock();
        let reply = step(&mut state);
        forget(closes);
        if state.desk.is_due() {
            self.wake(state, State::due);
        }
        reply
    }

    /// Wakes those that are due, in turn, once the lock is given back. Of a crowd some are woken at a time, and the lock is taken anew
    /// for the next ones, unless others that made steps meanwhile have woken them. If wakers panic, all are called before the first
    /// of the panics goes on.
    #[inline(never)]
    fn wake<'a>(&'a self, state: MutexGuard<'a, State<D>>, due: Due<D>) {
        let (free, are_all, called) = self.wake_some::<FEW>(state, due);
        go_on(if are_all { called } else { called.and(self.wake_crowd(free, due)) });
    }

    #[cold]
    fn wake_crowd(&self, mut free: Free, due: Due<D>) -> thread::Result<()> {
        let mut all_called = Ok(());
        loop {
            let state = take_again(free, || self.lock());
            let (are_all, called);
            (free, are_all, called) = self.wake_some::<MANY>(state, due);
            all_called = all_called.and(called);
            if are_all {
                return all_called;
            }
        }
    }

    /// Wakes so many of those that are due, or all if they are fewer, which it says. It also says whether a waker has panicked.
    fn wake_some<'a, const MOST: usize>(
        &'a self,
        state: MutexGuard<'a, State<D>>,
        due: Due<D>,
    ) -> (Free, bool, thread::Result<()>) {
        let closes = Closes(self);
        // (a panic gives the lock back before the pool is closed)
        let mut state = state;
        let mut some = [const { None }; MOST];
        let mut places = some.iter_mut();
        let are_all = places.any(|place| {
            *place = due(&mut state, &self.cells);
            place.is_none()
        });
        let free = give_back(state);
        forget(closes);
        let owed = some.into_iter().map_while(|it| it);
        let calls = owed.map(|owed| catch_unwind(AssertUnwindSafe(|| owed.pay(&free))));
        let called = calls.fold(Ok(()), Result::and);
        (free, are_all, called)
    }

    /// Tells those that wait for the end of a pool that has ended, if they are due. It is called when something has left it, and
    /// was dropped, which is not departing any more then, if it was.
    #[inline]
    pub(crate) fn tell_end(&self, was_departing: bool) {
        if was_departing || self.has_ended() {
            self.tell_end_now(was_departing);
        }
    }

    #[cold]
    fn tell_end_now(&self, was_departing: bool) {
        let mut state = self.lock();
        // (the state of a pool that a panic has closed counts none)
        state.departing = state.departing.saturating_sub(usize::from(was_departing));
        if self.has_ended() {
            self.wake(state, State::due_at_end);
        }
    }

    /// The same when what it gives is dropped, also by a panic.
    #[inline]
    pub(crate) fn telling_end(&self) -> TellsEnd<'_, C, D> {
        TellsEnd { shared: self, departs: false }
    }

    /// Whether it has closed or no handle is left.
    #[inline]
    pub(crate) fn has_ended(&self) -> bool {
        self.has_ended.load(Ordering::Relaxed)
    }

    /// Makes a step that drops all idle objects, if it is the one that ends the pool. What was handed over and not found is idle again
    /// then, or surplus.
    fn end(&self, ends: impl Fn(&D) -> bool, step: impl FnOnce(&mut D)) {
        let mut tells = self.telling_end();
        let (mut gone, mut surplus) = (Vec::new(), Vec::new());
        self.step(|state| {
            if ends(&state.desk) {
                self.has_ended.store(true, Ordering::Relaxed);
                self.cells.end(|slot| surplus.extend(state.desk.come_back(slot)));
                gone = state.idle_values(usize::MAX);
            }
            if !(gone.is_empty() && surplus.is_empty()) {
                tells.depart(state);
            }
            step(&mut state.desk);
        });
        gone.iter().chain(&surplus).for_each(|value| self.tell(value, Why::Closed));
        for value in &mut surplus {
            (self.detach)(&self.setup, value);
        }
    }

    /// Makes a step that drops idle objects: so many, from the front on. Their values are dropped without the lock. Then those that
    /// wait for the pool's end are told, if the step has ended it.
    pub(crate) fn give_up<R>(&self, count: impl FnOnce(&D) -> usize, step: impl FnOnce(&mut D) -> R) -> R {
        let mut tells = self.telling_end();
        let (reply, gone) = self.step(|state| {
            let count = count(&state.desk);
            let gone = state.idle_values(count);
            if !gone.is_empty() {
                tells.depart(state);
            }
            (step(&mut state.desk), gone)
        });
        for value in &gone {
            self.tell(value, Why::Surplus);
        }
        drop(gone);
        reply
    }

    /// Tells how the pool stands, unless a step is under way.
    pub(crate) fn debug(&self, told: &mut fmt::DebugStruct<'_, '_>) -> fmt::Result {
        let status = self.glance(|state| (state.desk.status(), state.desk.has_shut()));
        let Some((Status { max_size, size, available, waiting }, is_closed)) = status else {
            return told.finish_non_exhaustive();
        };
        told.field("max_size", &max_size)
            .field("size", &size)
            .field("available", &available)
            .field("waiting", &waiting);
        told.field("is_closed", &is_closed).finish()
    }

    /// Closes the pool.
    pub(crate) fn close(&self) {
        self.end(|_| true, D::shut);
    }
}

/// Tells those that wait for a pool's end when it is dropped. What departs meanwhile is gone then.
pub(crate) struct TellsEnd<'a, C, D: Desk> {
    shared: &'a Shared<C, D>,
    departs: bool,
}

impl<C, D: Desk> TellsEnd<'_, C, D> {
    /// What the step that is under way lets go of departs from now on.
    pub(crate) fn depart(&mut self, state: &mut State<D>) {
        state.depart();
        self.departs = true;
    }
}

impl<C, D: Desk> Drop for TellsEnd<'_, C, D> {
    #[inline]
    fn drop(&mut self) {
        self.shared.tell_end(self.departs);
    }
}

/// Closes the pool when it is dropped, which is when a panic has given the lock back.
struct Closes<'a, C, D: Desk>(&'a Shared<C, D>);

impl<C, D: Desk> Drop for Closes<'_, C, D> {
    #[inline(always)]
    fn drop(&mut self) {
        self.0.mend_after_panic();
    }
}

/// Lets the panic of a call go on, unless the thread unwinds from another one already: two at once would abort the program.
pub(crate) fn go_on(ended: thread::Result<()>) {
    match ended {
        Err(panic) if !thread::panicking() => resume_unwind(panic),
        _ => {}
    }
}

/// A handle. With the last one the idle objects are dropped.
pub(crate) struct Handle<C, D: Desk>(Arc<Counted<C, D>>);

/// What the desk counts as a handle: each of them if a journal is to have them, and else all of them as one.
struct Counted<C, D: Desk> {
    shared: Arc<Shared<C, D>>,
    is_each: bool,
}

impl<C, D: Desk> Handle<C, D> {
    /// The first handle of a new pool. Where each handle is counted, each step of a get is one that the get makes.
    pub(crate) fn new(
        setup: C,
        desk: D,
        counts_each: bool,
        detach: fn(&C, &mut D::Value),
        teller: Teller<C, D::Value>,
    ) -> Self {
        let shared = Arc::new(Shared {
            setup,
            state: Mutex::new(State::new(desk)),
            handles: OnceLock::new(),
            has_ended: AtomicBool::new(false),
            cells: Cells::new(!counts_each),
            detach,
            teller,
        });
        let counted = Arc::new(Counted { shared, is_each: counts_each });
        if !counts_each {
            counted.shared.handles.get_or_init(|| Arc::downgrade(&counted));
        }
        Handle(counted)
    }

    #[cold]
    fn count_one(&self) -> Self {
        // (the state of a pool that a panic has closed may count none)
        let uncounted = || Handle(self.0.clone());
        Handle::upgrade(self, D::count_handle).unwrap_or_else(uncounted)
    }

    /// A handle more, if one is left.
    pub(crate) fn upgrade(shared: &Arc<Shared<C, D>>, count: impl FnOnce(&mut D) -> bool) -> Option<Self> {
        let Some(handles) = shared.handles.get() else {
            let is_counted = shared.look(|state| count(&mut state.desk));
            return is_counted.then(|| Handle(Arc::new(Counted { shared: shared.clone(), is_each: true })));
        };
        handles.upgrade().map(Handle)
    }
}

impl<C, D: Desk> Deref for Handle<C, D> {
    type Target = Arc<Shared<C, D>>;

    fn deref(&self) -> &Arc<Shared<C, D>> {
        &self.0.shared
    }
}

impl<C, D: Desk> Clone for Handle<C, D> {
    #[inline]
    fn clone(&self) -> Self {
        if self.0.is_each {
            return self.count_one();
        }
        Handle(self.0.clone())
    }
}

impl<C, D: Desk> Drop for Counted<C, D> {
    fn drop(&mut self) {
        self.shared.end(D::is_last, D::uncount_handle);
    }
}

/// Twice as many objects as there are processors.
pub(crate) fn usual_size() -> usize {
    std::thread::available_parallelism().map_or(2, |count| count.get().saturating_mul(2))
}
