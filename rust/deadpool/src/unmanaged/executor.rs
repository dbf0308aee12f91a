//! What executes an order: that of a get, an add, a return or a take. What it has at the pool and what follows is the order's to say.
//!
//! The executor is trusted for two rules. **A step and its event are one**: its reply is told under the lock, and no code of a user's
//! runs between. **All else is told before it is called**, and what takes the hand empties it before it calls. So whenever code of a
//! user's runs, the order knows what it has, and what is left to do if that code never comes back.
use super::{Core, PoolConfig, PoolError};
use crate::cores::unmanaged::Step;
use crate::cores::unmanaged_order::{Cause, Command, Order};
use crate::parcel::{Boxed, Parcel};
use crate::shared::{Shared, State, go_on};
use crate::timed::Alarm;
use crate::trace::Why;
use crate::waiting::{has_to_wait, may_ask_at_once};
use crate::wakers::Wakers;
use std::future::{Future, poll_fn};
use std::mem::{ManuallyDrop, replace};
use std::panic::{AssertUnwindSafe, catch_unwind};
use std::task::{Poll, Waker};

/// An order under way, over a pool. If it is dropped before its end, all that it has is given back.
pub(super) struct Executor<'a, T> {
    pool: &'a Shared<PoolConfig, Core<T>>,
    pub(super) order: Order,
    /// The hand, in which nothing is once the order is over.
    hand: ManuallyDrop<Option<Parcel<T>>>,
}

impl<'a, T> Executor<'a, T> {
    #[inline(always)]
    pub(super) fn new(pool: &'a Shared<PoolConfig, Core<T>>, order: Order, value: Option<Boxed<T>>) -> Self {
        Executor { pool, order, hand: ManuallyDrop::new(value.map(Parcel::of)) }
    }

    /// Makes a step with what is in the hand, and tells its reply. What it gives, or does not keep, is in the hand then.
    #[inline(always)]
    fn passes(&mut self, state: &mut State<Core<T>>, step: &Step) -> Command {
        let reply = state.desk.make(step, &mut self.hand);
        let command = self.order.replied(step, reply);
        if let Command::Release = command {
            state.depart();
        }
        command
    }

    /// The same of one that may have to wait. Then the pool has its waker, if memory is found for that.
    #[inline(always)]
    fn ask(&mut self, step: impl Fn() -> Step, waker: &Waker) -> Command {
        let pool = self.pool;
        // (a waker that is replaced or not needed any more is dropped without the lock)
        let (command, _stale) = pool.step(|state| {
            let step = step();
            let command = self.passes(state, &step);
            let Command::Wait(ticket) = command else { return (command, stale(state, &step)) };
            match state.lent(|state| wakers_of(state, &step).keep(ticket.number(), waker)) {
                Ok(replaced) => (command, replaced),
                Err(_) => (self.order.unheard(), None),
            }
        });
        command
    }

    /// The same of one that does not wait.
    #[inline(always)]
    pub(super) fn pass(&mut self, step: impl Fn() -> Step) -> Command {
        let pool = self.pool;
        pool.step(|state| self.passes(state, &step()))
    }

    /// Makes a step, while what is in the hand stays there.
    #[inline(always)]
    pub(super) fn make(&mut self, step: impl Fn() -> Step) -> Command {
        let pool = self.pool;
        let (command, _stale) = pool.step(|state| {
            let step = step();
            let reply = state.desk.make(&step, &mut None);
            (self.order.replied(&step, reply), stale(state, &step))
        });
        command
    }

    /// Executes a get or an add that may wait, from its first step on, and gives the command by which it ends.
    #[inline(always)]
    pub(super) fn execute_all(&mut self, first: impl Fn() -> Step, mut alarm: Alarm) -> impl Future<Output = Command> {
        let (mut may_yield, mut waits) = (true, false);
        poll_fn(move |cx| {
            if waits {
                let command = self.order.polled(alarm.is_over(cx));
                return self.execute_rarely(command, cx.waker());
            }
            let is_first = replace(&mut may_yield, false);
            if is_first && !may_ask_at_once() {
                cx.waker().wake_by_ref();
                return Poll::Pending;
            }
            let command = self.ask(&first, cx.waker());
            let Command::Wait(_) = command else { return self.execute(command, cx.waker()) };
            waits = true;
            if is_first {
                has_to_wait();
            }
            // (a timer wakes its task once it was polled; one that is over already ends the wait)
            if !alarm.is_over(cx) {
                return Poll::Pending;
            }
            let command = self.order.polled(true);
            self.execute_rarely(command, cx.waker())
        })
    }

    /// Executes all until it is to wait, ends, or hands something over.
    #[inline(always)]
    pub(super) fn execute(&mut self, command: Command, waker: &Waker) -> Poll<Command> {
        match command {
            Command::Give | Command::Yield(_) | Command::End(_) => Poll::Ready(command),
            _ => self.execute_rarely(command, waker),
        }
    }

    #[inline(never)]
    fn execute_rarely(&mut self, mut command: Command, waker: &Waker) -> Poll<Command> {
        loop {
            command = match command {
                Command::Ask => {
                    let step = self.order.step();
                    self.ask(|| step, waker)
                }
                Command::Pass => {
                    let step = self.order.step();
                    self.pass(|| step)
                }
                Command::Make => {
                    let step = self.order.step();
                    self.make(|| step)
                }
                Command::Release => {
                    let next = self.order.begins();
                    let gone = self.hand.take();
                    if let Some(parcel) = &gone {
                        self.pool.tell_parcel(parcel, Why::Closed);
                    }
                    drop(gone.and_then(|parcel| parcel.take()));
                    next
                }
                Command::Tell { has_departed } => {
                    let next = self.order.begins();
                    self.pool.tell_end(has_departed);
                    next
                }
                Command::Wait(_) => return Poll::Pending,
                _ => return Poll::Ready(command),
            };
        }
    }

    /// What is in the hand leaves it for whoever has asked for it, or owns the order.
    #[inline(always)]
    pub(super) fn given(&mut self) -> Option<Boxed<T>> {
        self.order.gives();
        self.hand.take()?.take()
    }

    /// Ends, as it is dropped or a call has panicked. Of several panics the first goes on at the end, unless one is under way.
    #[cold]
    fn end(&mut self) {
        let mut ended = Ok(());
        while !self.order.is_over() {
            let command = self.order.dropped();
            let call = catch_unwind(AssertUnwindSafe(|| {
                if let Poll::Ready(Command::Yield(_)) = self.execute_rarely(command, Waker::noop()) {
                    drop(self.given());
                }
            }));
            ended = ended.and(call);
        }
        go_on(ended);
    }
}

impl<T> Drop for Executor<'_, T> {
    #[inline]
    fn drop(&mut self) {
        if !self.order.is_over() {
            self.end();
        }
        debug_assert!(self.hand.is_none(), "nothing is in the hand of an order that is over");
    }
}

/// The wakers of those that make this step.
#[inline(always)]
fn wakers_of<'a, T>(state: &'a mut State<Core<T>>, step: &Step) -> &'a mut Wakers {
    match step {
        Step::AddEnter { .. } | Step::AddAsk { .. } | Step::AddCancel { .. } => &mut state.adds,
        _ => &mut state.gets,
    }
}

/// The waker of one that has left its queue by this step.
#[inline(always)]
fn stale<T>(state: &mut State<Core<T>>, step: &Step) -> Option<Waker> {
    let (Step::GetAsk { ticket, .. }
    | Step::GetCancel { ticket }
    | Step::AddAsk { ticket }
    | Step::AddCancel { ticket }) = step
    else {
        return None;
    };
    wakers_of(state, step).take(ticket.number())
}

/// Why a get or an add was refused that has ended by this command.
#[cold]
pub(super) fn refusal(command: Command) -> PoolError {
    match command {
        Command::End(cause) | Command::Yield(cause) => match cause {
            Cause::NothingFree => PoolError::Timeout,
            Cause::Crowded => PoolError::Crowded,
            Cause::OutOfMemory => PoolError::OutOfMemory,
            _ => PoolError::Closed,
        },
        _ => PoolError::Closed,
    }
}
