//! A get: its order is executed, and what may have to wait is awaited.
use super::executor::Executor;
use super::holders::tell_late_get;
use super::object::Kept;
use super::{Hook, HookResult, Manager, PoolError, Shared, TimeoutType, Timeouts};
use crate::cores::desk::Step;
use crate::cores::order::{Cause, Command, Order};
use crate::moment::Instant;
use crate::parcel::Boxed;
use crate::timed::{Alarm, lacks_timers, poll_again};
use crate::trace::Why;
use crate::waiting::{has_to_wait, may_ask_at_once};
use std::future::{Future, poll_fn};
use std::pin::{Pin, pin};
use std::task::{Context, Poll};
use std::time::Duration;

type Given<T, M> = Result<T, PoolError<<M as Manager>::Error>>;

pub(super) struct Get<'a, M: Manager> {
    timeouts: &'a Timeouts,
    /// That of the phase which is under way, once this has waited.
    alarm: Alarm,
    waited: Waited,
    executor: Executor<'a, M>,
}

/// How long a get has waited for its place, or since when it does.
#[derive(Clone, Copy)]
enum Waited {
    For(Duration),
    Since(Instant),
}

impl Waited {
    fn until_now(self) -> Duration {
        match self {
            Waited::For(duration) => duration,
            Waited::Since(since) => since.elapsed(),
        }
    }
}

impl<'a, M: Manager> Get<'a, M> {
    /// An object, within these timeouts.
    pub(super) async fn within(pool: &'a Shared<M>, timeouts: &'a Timeouts) -> Given<Option<Boxed<Kept<M>>>, M> {
        let executor = Executor::new(pool, Order::new(), None);
        let mut get = Get { timeouts, alarm: Alarm::Unset, waited: Waited::For(Duration::ZERO), executor };
        let mut command = get.started();
        loop {
            command = match command {
                Command::Enter { wait } => get.enter(wait).await,
                Command::Ask => poll_fn(|cx| Poll::Ready(get.ask(cx))).await,
                Command::Wait(_) => get.wait().await,
                Command::Pause => {
                    poll_again().await;
                    get.executor.order.polled(false)
                }
                Command::Create => get.create().await?,
                Command::Number => get.executor.make(&Step::Created),
                Command::PreRecycle(at) => get.prepare(&pool.setup.hooks.pre_recycle[at]).await,
                Command::Recycle => get.recycle().await,
                Command::PostRecycle(at) => get.prepare(&pool.setup.hooks.post_recycle[at]).await,
                Command::PostCreate(at) => get.check(&pool.setup.hooks.post_create[at]).await?,
                Command::Give { recycled } => return Ok(get.give(recycled)),
                Command::End(cause) => return Err(get.ended(cause)),
                _ => get.executor.execute_rarely(command),
            };
        }
    }

    /// Its first event. A wait that no runtime can time is none.
    #[inline(always)]
    fn started(&mut self) -> Command {
        let may_wait = self.timeouts.wait != Some(Duration::ZERO);
        if may_wait && lacks_timers(self.timeouts.wait, self.executor.pool.setup.runtime) {
            return self.executor.order.lacking();
        }
        self.executor.order.started(may_wait)
    }

    /// Its first step, once it is its task's turn.
    async fn enter(&mut self, wait: bool) -> Command {
        let is_counted = wait && may_ask_at_once();
        if wait && !is_counted {
            poll_again().await;
        }
        let step = Step::Enter { wait };
        let command = poll_fn(|cx| Poll::Ready(self.executor.enter(&step, cx.waker()))).await;
        if let Command::Wait(_) = command {
            if self.executor.pool.setup.times_waits {
                self.waited = Waited::Since(Instant::now());
            }
            if is_counted {
                has_to_wait();
            }
        }
        command
    }

    #[inline(never)]
    fn ask(&mut self, cx: &Context<'_>) -> Command {
        let step = self.executor.order.step();
        let command = self.executor.ask(&step, cx.waker());
        if let (Waited::Since(since), false) = (self.waited, matches!(command, Command::Wait(_))) {
            self.waited = Waited::For(since.elapsed());
        }
        command
    }

    /// Ends this poll, unless the time to wait is over and was not looked at before. Tells at the next one whether it is.
    fn wait(&mut self) -> impl Future<Output = Command> {
        let looks = matches!(self.alarm, Alarm::Unset);
        let mut has_ended = false;
        self.alarm.begin(self.timeouts.wait, self.executor.pool.setup.runtime);
        poll_fn(move |cx| {
            let is_first = !std::mem::replace(&mut has_ended, true);
            if is_first && !(looks && self.alarm.is_over(cx)) {
                return Poll::Pending;
            }
            let expired = self.alarm.is_over(cx);
            Poll::Ready(self.executor.order.polled(expired))
        })
    }

    /// The manager makes a value, in time. Its error ends the get here, so that it need not lie in the future.
    async fn create(&mut self) -> Given<Command, M> {
        let Get { timeouts, alarm, executor, .. } = self;
        let setup = &executor.pool.setup;
        if lacks_timers(timeouts.create, setup.runtime) {
            return Ok(executor.order.failed(Cause::NoRuntime));
        }
        *alarm = Alarm::Unset;
        let created = {
            let call = pin!(setup.manager.create());
            let is_late = |cx: &mut Context<'_>| alarm.begin(timeouts.create, setup.runtime).is_over(cx);
            called(call, &mut executor.order, is_late).await
        };
        match created {
            None => Ok(executor.order.failed(Cause::Late)),
            Some(Err(cause)) => {
                executor.fail(Cause::Failed);
                Err(PoolError::Backend(cause))
            }
            Some(Ok(value)) => Ok(executor.created(value)),
        }
    }

    /// The manager recycles the object, in time.
    async fn recycle(&mut self) -> Command {
        let Get { timeouts, alarm, executor, .. } = self;
        let setup = &executor.pool.setup;
        if lacks_timers(timeouts.recycle, setup.runtime) {
            return executor.give_up(Why::NoRuntime);
        }
        *alarm = Alarm::Unset;
        let recycled = {
            let Kept { value, metrics, .. } = &mut **executor.kept.as_mut().expect("an object is recycled");
            let call = pin!(setup.manager.recycle(value, metrics));
            let is_late = |cx: &mut Context<'_>| alarm.begin(timeouts.recycle, setup.runtime).is_over(cx);
            called(call, &mut executor.order, is_late).await
        };
        match recycled {
            Some(Ok(())) => executor.ready(),
            Some(Err(_)) => executor.give_up(Why::Failed),
            None => executor.give_up(Why::Late),
        }
    }

    /// A hook sees the idle object.
    async fn prepare(&mut self, hook: &Hook<M>) -> Command {
        match self.seen(hook).await {
            Ok(()) => self.executor.ready(),
            Err(_) => self.executor.give_up(Why::Refused),
        }
    }

    /// A hook sees the new object. Its refusal ends the get.
    async fn check(&mut self, hook: &Hook<M>) -> Given<Command, M> {
        match self.seen(hook).await {
            Ok(()) => Ok(self.executor.ready()),
            Err(cause) => {
                self.executor.reason.is(Why::Refused);
                self.executor.fail(Cause::Refused);
                Err(PoolError::PostCreateHook(cause))
            }
        }
    }

    async fn seen(&mut self, hook: &Hook<M>) -> HookResult<M::Error> {
        let Executor { kept, order, .. } = &mut self.executor;
        let call = pin!(hook.call(kept.as_mut().expect("a hook sees an object")));
        called(call, order, |_| false).await.expect("a hook has no time")
    }

    /// The error by which it ends. How the pool stands is told where its wait is over, as the error has no place for that.
    #[cold]
    fn ended(&self, cause: Cause) -> PoolError<M::Error> {
        if let Cause::NoPlace = cause {
            let pool = self.executor.pool;
            tell_late_get(pool, pool.setup.times_waits.then(|| self.waited.until_now()));
        }
        error_of(cause)
    }

    /// The object is out.
    fn give(&mut self, recycled: bool) -> Option<Boxed<Kept<M>>> {
        let mut given = self.executor.given();
        if let Some(kept) = &mut given {
            if recycled {
                kept.metrics.recycled_now();
            }
            let setup = &self.executor.pool.setup;
            if setup.times_waits {
                kept.waited = if let Waited::For(duration) = self.waited { duration } else { Duration::ZERO };
                setup.holders.iter().for_each(|it| it.begin(kept));
            }
        }
        given
    }
}

/// What a call gives, or none if its time is over before that. Each poll that ends meanwhile is told.
#[inline(always)]
fn called<F: Future>(
    mut call: Pin<&mut F>,
    order: &mut Order,
    mut is_late: impl FnMut(&mut Context<'_>) -> bool,
) -> impl Future<Output = Option<F::Output>> {
    poll_fn(move |cx| match call.as_mut().poll(cx) {
        Poll::Ready(output) => Poll::Ready(Some(output)),
        Poll::Pending if is_late(cx) => Poll::Ready(None),
        Poll::Pending => {
            order.pauses();
            Poll::Pending
        }
    })
}

/// The error by which a get ends.
#[cold]
fn error_of<E>(cause: Cause) -> PoolError<E> {
    match cause {
        Cause::NoPlace => PoolError::Timeout(TimeoutType::Wait),
        Cause::Crowded => PoolError::Crowded,
        Cause::OutOfMemory => PoolError::OutOfMemory,
        Cause::NumbersExhausted => PoolError::NumbersExhausted,
        Cause::NoRuntime => PoolError::NoRuntimeSpecified,
        Cause::Late => PoolError::Timeout(TimeoutType::Create),
        _ => PoolError::Closed,
    }
}
