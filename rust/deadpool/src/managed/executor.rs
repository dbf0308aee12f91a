//! What executes an order: that of a get, of a return or of a take. What is held and what follows is the order's to say.
//!
//! The executor is trusted for two rules. **A step and its event are one**: its reply is told under the lock, and no code of a user's
//! runs between. **All else is told before it is called**, and what takes the hand empties it before it calls. So whenever code of a
//! user's runs, the order knows what is held, and what is left to do if that code never comes back.
//!
//! The step `Ask` of a get in the queue may be made for it by the step that makes it due: then a cell has what the desk has answered
//! (`cells`), and the get is out of the queue. The executor tells that reply when it would make the step.
use super::object::{Kept, comes_back_rarely};
use super::{Core, Manager, Shared};
use crate::cells::Answer;
use crate::cores::desk::{Desk, Reply, Slot, Step};
use crate::cores::gate::gate::Ticket;
use crate::cores::order::{Cause, Command, HookCounts, Order};
use crate::desk::Desk as _;
use crate::parcel::{Boxed, Parcel};
use crate::shared::State;
use crate::trace::{Reason, Why};
use std::mem::replace;
use std::panic::{AssertUnwindSafe, catch_unwind};
use std::task::Waker;
use std::thread;

/// An order under way, over a pool. If it is dropped before its end, all that it holds is given back.
pub(super) struct Executor<'a, M: Manager> {
    pub(super) pool: &'a Shared<M>,
    pub(super) order: Order,
    /// The hand.
    pub(super) kept: Option<Boxed<Kept<M>>>,
    /// Whether what a step let go of is still to be detached or dropped.
    departs: bool,
    /// The number under which its get waits.
    number: u64,
    /// Why what is in the hand is given up.
    pub(super) reason: Reason,
}

impl<'a, M: Manager> Executor<'a, M> {
    pub(super) fn new(pool: &'a Shared<M>, order: Order, kept: Option<Boxed<Kept<M>>>) -> Self {
        Executor { pool, order, kept, departs: false, number: 0, reason: Reason::new() }
    }

    #[inline(always)]
    fn counts(&self) -> HookCounts {
        let hooks = &self.pool.setup.hooks;
        HookCounts {
            pre_recycle: hooks.pre_recycle.len(),
            post_recycle: hooks.post_recycle.len(),
            post_create: hooks.post_create.len(),
        }
    }

    /// A step and its event. An object that it gives, or gives back, is in the hand then.
    #[inline(always)]
    fn tell(
        &mut self,
        state: &mut State<Core<M>>,
        step: &Step,
        brought: &mut Option<Slot<Parcel<Kept<M>>>>,
    ) -> Command {
        let reply = state.desk.make(step, brought);
        if let Some(slot) = brought.take() {
            self.kept = slot.value.take();
        }
        if let (Reply::Number(number), Some(kept)) = (reply, &mut self.kept) {
            kept.number = number;
        }
        let command = self.order.replied(&self.counts(), step, reply);
        // (a get that goes on with its place is no end)
        let is_end = matches!(command, Command::Part | Command::Detach | Command::Release | Command::Tell);
        if is_end && !matches!(step, Step::Discard) && !replace(&mut self.departs, true) {
            state.depart();
        }
        command
    }

    /// Makes a step, and tells its reply.
    #[inline(always)]
    pub(super) fn make(&mut self, step: &Step) -> Command {
        let pool = self.pool;
        pool.step(|state| self.tell(state, step, &mut None))
    }

    /// The same of the object in the hand, which comes back.
    #[inline(always)]
    pub(super) fn give_back(&mut self) -> Command {
        let pool = self.pool;
        let mut brought = self.kept.take().map(|kept| Slot { number: kept.number, value: Parcel::of(kept) });
        pool.step(|state| self.tell(state, &Step::Back, &mut brought))
    }

    /// Makes the first step of a get. If it has to wait, the pool has its waker, and it has a number.
    #[inline(always)]
    pub(super) fn enter(&mut self, step: &Step, waker: &Waker) -> Command {
        let pool = self.pool;
        let (command, _stale) = pool.step(|state| {
            let command = self.tell(state, step, &mut None);
            let Command::Wait(ticket) = command else { return (command, None) };
            pool.cells.open(|| state.desk.status().max_size);
            self.number = state.next_number();
            self.waits(state, ticket, waker)
        });
        command
    }

    /// Makes the step by which a get in the queue asks, unless its answer is there.
    #[inline(always)]
    pub(super) fn ask(&mut self, step: &Step, waker: &Waker) -> Command {
        let pool = self.pool;
        if let Some(answer) = pool.cells.take(self.number) {
            return self.answered(step, answer);
        }
        // (a waker that is replaced or not needed any more is dropped without the lock)
        let (command, _stale) = pool.step(|state| {
            if let Some(answer) = pool.cells.take(self.number) {
                return (self.answered(step, answer), None);
            }
            match (self.tell(state, step, &mut None), step) {
                (Command::Wait(ticket), _) => self.waits(state, ticket, waker),
                (command, Step::Ask { ticket, .. }) => (command, state.gets.take(ticket.number())),
                (command, _) => (command, None),
            }
        });
        command
    }

    /// The pool keeps the waker of a get that waits, if memory is found for it. Gives the one that it replaces.
    #[inline(always)]
    fn waits(&mut self, state: &mut State<Core<M>>, ticket: Ticket, waker: &Waker) -> (Command, Option<Waker>) {
        match state.lent(|state| state.gets.keep_of(self.number, ticket.number(), waker)) {
            Ok(replaced) => (Command::Wait(ticket), replaced),
            Err(_) => (self.order.unheard(), None),
        }
    }

    /// Tells a step that was made meanwhile, whose reply was in the cell of its get.
    #[inline(always)]
    fn answered(&mut self, step: &Step, Answer { reply, hand }: Answer<Kept<M>>) -> Command {
        self.kept = hand.and_then(|slot| slot.value.take());
        self.order.replied(&self.counts(), step, reply)
    }

    /// Makes the step that the order has.
    #[inline(never)]
    fn make_rarely(&mut self) -> Command {
        match self.order.step() {
            Step::Withdraw { ticket } => self.withdraw(ticket),
            step => self.make(&step),
        }
    }

    /// Makes the step by which it ends. That of a get in the queue is its last one.
    #[inline(always)]
    fn make_last(&mut self) -> Command {
        if let Step::Withdraw { ticket } = self.order.step() { self.withdraw(ticket) } else { self.make_rarely() }
    }

    /// A get leaves the queue, with its waker. One that was answered meanwhile has left it: its object comes back.
    #[inline(never)]
    fn withdraw(&mut self, ticket: Ticket) -> Command {
        let (pool, step) = (self.pool, Step::Withdraw { ticket });
        let mut command = None;
        let _stale = pool.step(|state| {
            let waker = state.gets.take_of(self.number, ticket.number());
            // (one whose waker is there was answered nothing)
            if waker.is_some() || !self.is_answered() {
                command = Some(self.tell(state, &step, &mut None));
            }
            waker
        });
        match command {
            Some(command) => command,
            None => self.leave_answered(&step),
        }
    }

    /// Takes what its get was handed over meanwhile into the hand. Says whether it was answered.
    #[cold]
    #[inline(never)]
    fn is_answered(&mut self) -> bool {
        let Some(Answer { hand, .. }) = self.pool.cells.take(self.number) else { return false };
        self.kept = hand.and_then(|slot| slot.value.take());
        true
    }

    #[cold]
    #[inline(never)]
    fn leave_answered(&mut self, step: &Step) -> Command {
        let command = self.order.replied(&self.counts(), step, Reply::Unknown);
        if let Some(kept) = self.kept.take() {
            comes_back_rarely(self.pool, Some(kept));
        }
        command
    }

    /// The value that was made goes into the hand, if memory is found for it.
    #[inline(always)]
    pub(super) fn created(&mut self, value: M::Type) -> Command {
        match Boxed::new(Kept::new(value)) {
            Ok(kept) => {
                self.kept = Some(kept);
                self.ready()
            }
            Err(_) => self.order.failed(Cause::OutOfMemory),
        }
    }

    /// A call has ended well.
    #[inline(always)]
    pub(super) fn ready(&mut self) -> Command {
        let counts = self.counts();
        self.order.ready(&counts)
    }

    /// The idle object in the hand is given up.
    #[inline]
    pub(super) fn give_up(&mut self, why: Why) -> Command {
        self.reason.is(why);
        self.order.failed(Cause::Refused)
    }

    /// A call has ended its get, which ends at once.
    #[cold]
    pub(super) fn fail(&mut self, cause: Cause) {
        let command = self.order.failed(cause);
        self.execute_rarely(command);
    }

    /// The object leaves the hand for whoever has asked for it.
    #[inline(always)]
    pub(super) fn given(&mut self) -> Option<Boxed<Kept<M>>> {
        self.order.gives();
        self.kept.take()
    }

    #[inline(never)]
    pub(super) fn execute_rarely(&mut self, command: Command) -> Command {
        self.execute(command)
    }

    /// Executes what needs no wait, and gives the first command that does.
    #[inline(always)]
    pub(super) fn execute(&mut self, mut command: Command) -> Command {
        loop {
            command = match command {
                Command::Make => self.make_rarely(),
                Command::Back => self.give_back(),
                Command::Detach | Command::Part => {
                    let next = self.order.begins();
                    if let Some(kept) = &mut self.kept {
                        self.pool.setup.manager.detach(&mut kept.value);
                    }
                    next
                }
                Command::Release => {
                    let next = self.order.begins();
                    self.reason.tell(self.pool, self.kept.as_deref());
                    drop(self.kept.take());
                    next
                }
                Command::Tell => {
                    let next = self.order.begins();
                    self.pool.tell_end(replace(&mut self.departs, false));
                    next
                }
                _ => return command,
            };
        }
    }

    /// Ends, as it is dropped or a call has panicked. A call that panics here ends no other: the first panic goes on at the end.
    #[inline(never)]
    fn end(&mut self) {
        self.reason.is_else(Why::Dropped);
        let Rest(executor) = &mut Rest(self);
        if !thread::panicking() {
            let command = executor.order.dropped();
            let command = if let Command::Make = command { executor.make_last() } else { command };
            if !executor.order.is_over() {
                executor.execute_rarely(command);
            }
        }
    }

    #[cold]
    #[inline(never)]
    fn end_caught(&mut self) {
        while !self.order.is_over() {
            let command = self.order.dropped();
            _ = catch_unwind(AssertUnwindSafe(|| _ = self.execute_rarely(command)));
        }
    }
}

/// What is left of an order when a call has panicked. No panic of its calls goes on, as another one is under way.
struct Rest<'a, 'b, M: Manager>(&'a mut Executor<'b, M>);

impl<M: Manager> Drop for Rest<'_, '_, M> {
    #[inline]
    fn drop(&mut self) {
        if !self.0.order.is_over() {
            self.0.end_caught();
        }
    }
}

impl<M: Manager> Drop for Executor<'_, M> {
    #[inline]
    fn drop(&mut self) {
        if !self.order.is_over() {
            self.end();
        }
    }
}
