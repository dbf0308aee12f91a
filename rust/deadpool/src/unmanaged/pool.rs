//! A handle of a pool.
use super::executor::{Executor, refusal};
use super::{Core, Journal, Object, OutOfMemory, PoolConfig, PoolError, Report, Settings};
use crate::Status;
use crate::cores::unmanaged::Step;
use crate::cores::unmanaged_order::{Command, Order};
use crate::desk::Desk;
use crate::ending::{DrainError, alarm_within, drained};
use crate::parcel::Boxed;
use crate::rattle::Global;
use crate::shared::{Handle, State};
use crate::timed::Alarm;
use crate::trace::Teller;
use crate::wait::wait;
use std::fmt;
use std::sync::Arc;
use std::time::Duration;

/// A handle of a pool. With the last one the idle objects are dropped.
///
/// ```
/// use deadpool::unmanaged::{Pool, PoolError};
///
/// # fn main() -> Result<(), PoolError> {
/// let pool = Pool::from([String::from("a letter")]);
/// let mut letter = pool.get_blocking()?;
/// letter.push_str(" to you");
/// drop(letter);
/// // There is room for one, which is there.
/// let Err((letter, PoolError::Timeout)) = pool.try_add(String::from("another")) else { panic!("there is no room") };
/// assert_eq!((letter.as_str(), pool.try_remove()?.as_str()), ("another", "a letter to you"));
/// # Ok(())
/// # }
/// ```
pub struct Pool<T> {
    shared: Handle<PoolConfig, Core<T>>,
}

impl<T> Pool<T> {
    /// A pool with room for so many objects.
    ///
    /// # Panics
    ///
    /// If no memory is found for them, as [`Pool::try_from_settings`] tells.
    #[must_use]
    pub fn new(max_size: usize) -> Self {
        Pool::from_config(&PoolConfig::new(max_size))
    }

    /// A pool of a configuration.
    ///
    /// # Panics
    ///
    /// As [`Pool::new`].
    #[must_use]
    pub fn from_config(config: &PoolConfig) -> Self {
        Pool::from_settings(&Settings::from(*config))
    }

    /// A pool of settings.
    ///
    /// # Panics
    ///
    /// As [`Pool::new`].
    #[must_use]
    pub fn from_settings(settings: &Settings) -> Self {
        Pool::try_from_settings(settings).expect("memory for a pool")
    }

    /// A pool of settings.
    ///
    /// # Errors
    ///
    /// If no memory is found for as many objects and entries.
    pub fn try_from_settings(settings: &Settings) -> Result<Self, OutOfMemory> {
        let Settings { config, max_waiting, journal } = *settings;
        let desk = Core::new(Global, config.max_size, journal).map_err(|_| OutOfMemory)?;
        let teller = Teller::new(|_| None, |_| None);
        Ok(Pool { shared: Handle::new(config, desk.bounded(max_waiting), journal > 0, |_, _| (), teller) })
    }

    /// An object, within the configured timeout.
    ///
    /// # Errors
    ///
    /// Each [`PoolError`] says when it comes.
    ///
    /// # Cancel safety
    ///
    /// It can be dropped at any await, and then leaves the queue. Who drops it loses its turn there.
    ///
    /// # Panics
    ///
    /// `Runtime::Tokio1` with its feature panics outside of tokio, if a timeout begins there.
    pub async fn get(&self) -> Result<Object<T>, PoolError> {
        self.timeout_get(self.shared.setup.timeout).await
    }

    /// An object, for which this thread [waits](crate::wait()). A task of an executor awaits [`Pool::get`] instead.
    ///
    /// # Errors
    ///
    /// As of [`Pool::get`].
    ///
    /// # Panics
    ///
    /// As of [`Pool::get`].
    pub fn get_blocking(&self) -> Result<Object<T>, PoolError> {
        wait(self.get())
    }

    /// An object, if one is free.
    ///
    /// # Errors
    ///
    /// `Timeout` if none is.
    pub fn try_get(&self) -> Result<Object<T>, PoolError> {
        let mut get = Executor::new(&self.shared, Order::getting(false), None);
        let command = get.pass(|| Step::GetEnter { wait: false });
        self.got(&mut get, command)
    }

    /// An object, within this timeout.
    ///
    /// # Errors
    ///
    /// As of [`Pool::get`].
    ///
    /// # Cancel safety
    ///
    /// As of [`Pool::get`].
    ///
    /// # Panics
    ///
    /// As of [`Pool::get`].
    pub async fn timeout_get(&self, timeout: Option<Duration>) -> Result<Object<T>, PoolError> {
        if timeout == Some(Duration::ZERO) {
            return self.try_get();
        }
        let alarm = Alarm::after(timeout, self.shared.setup.runtime).ok_or(PoolError::NoRuntimeSpecified)?;
        let mut get = Executor::new(&self.shared, Order::getting(true), None);
        let command = get.execute_all(|| Step::GetEnter { wait: true }, alarm).await;
        self.got(&mut get, command)
    }

    /// How a get has ended.
    #[inline(always)]
    fn got(&self, get: &mut Executor<'_, T>, command: Command) -> Result<Object<T>, PoolError> {
        match command {
            Command::Give => Ok(Object { pool: Arc::clone(&self.shared), value: get.given() }),
            _ => Err(refusal(command)),
        }
    }

    /// Adds an object, once there is room.
    ///
    /// # Errors
    ///
    /// The object, if the pool has closed, too many wait or no memory is found.
    ///
    /// # Cancel safety
    ///
    /// It can be dropped at any await, and then leaves the queue. The object is dropped with it.
    pub async fn add(&self, object: T) -> Result<(), (T, PoolError)> {
        let value = Boxed::new(object).map_err(|object| (object, PoolError::OutOfMemory))?;
        let mut add = Executor::new(&self.shared, Order::adding(true), Some(value));
        let command = add.execute_all(|| Step::AddEnter { wait: true }, Alarm::default()).await;
        added(&mut add, command)
    }

    /// Adds an object, if there is room.
    ///
    /// # Errors
    ///
    /// The object, with `Timeout` if there is no room.
    pub fn try_add(&self, object: T) -> Result<(), (T, PoolError)> {
        let value = Boxed::new(object).map_err(|object| (object, PoolError::OutOfMemory))?;
        let mut add = Executor::new(&self.shared, Order::adding(false), Some(value));
        let command = add.pass(|| Step::AddEnter { wait: false });
        added(&mut add, command)
    }

    /// Takes an object out for good, as [`Pool::get`] and [`Object::take`].
    ///
    /// # Errors
    ///
    /// As of [`Pool::get`].
    ///
    /// # Cancel safety
    ///
    /// As of [`Pool::get`]: no object is taken then.
    ///
    /// # Panics
    ///
    /// As of [`Pool::get`].
    pub async fn remove(&self) -> Result<T, PoolError> {
        self.get().await.map(Object::take)
    }

    /// The same, if an object is free.
    ///
    /// # Errors
    ///
    /// As of [`Pool::try_get`].
    pub fn try_remove(&self) -> Result<T, PoolError> {
        self.try_get().map(Object::take)
    }

    /// The same, within this timeout.
    ///
    /// # Errors
    ///
    /// As of [`Pool::timeout_get`].
    ///
    /// # Cancel safety
    ///
    /// As of [`Pool::remove`].
    ///
    /// # Panics
    ///
    /// As of [`Pool::get`].
    pub async fn timeout_remove(&self, timeout: Option<Duration>) -> Result<T, PoolError> {
        self.timeout_get(timeout).await.map(Object::take)
    }

    /// Closes the pool for good: the idle objects are dropped, and each get and add ends with `Closed`.
    pub fn close(&self) {
        self.shared.close();
    }

    /// Closes the pool, as [`Pool::close`], and waits until no object is out and what has left was dropped. Gives how it
    /// stands then. Who has an object of its own waits for good.
    ///
    /// # Cancel safety
    ///
    /// It can be dropped at any await. Once it was polled the pool stays closed, and another one waits for the same.
    pub async fn drain(&self) -> Status {
        drained(&self.shared, Alarm::Unset).await.unwrap_or_else(DrainError::status)
    }

    /// The same, but no longer than this, by the pool's timers, or by this crate's thread if it has none.
    ///
    /// # Errors
    ///
    /// `Timeout` if an object is out then, and `Departing` if only what has left is still to be dropped. The pool stays closed.
    ///
    /// # Cancel safety
    ///
    /// As of [`Pool::drain`].
    ///
    /// # Panics
    ///
    /// `Runtime::Tokio1` with its feature panics outside of tokio.
    pub async fn drain_for(&self, most: Duration) -> Result<Status, DrainError> {
        drained(&self.shared, alarm_within(most, self.shared.setup.runtime)).await
    }

    /// Whether the pool has closed.
    #[must_use]
    pub fn is_closed(&self) -> bool {
        self.shared.look(|state| state.desk.is_closed())
    }

    /// How the pool stands.
    #[must_use]
    pub fn status(&self) -> Status {
        self.shared.look(|state| state.desk.status())
    }

    /// How often each thing has happened since the pool was opened, with how it stands, both of one moment. It is printed as
    /// Prometheus reads it, with the name as a label: none until you set one. [`Reports`](crate::Reports) has several pools in one text.
    ///
    /// ```
    /// use deadpool::unmanaged::{Pool, PoolError, Report};
    ///
    /// let pool = Pool::from(["a letter", "another"]);
    /// pool.try_remove()?;
    /// let report = Report { name: "letters", ..pool.tally() };
    /// assert_eq!((report.tally.stored, report.tally.taken, report.status.size), (2, 1, 1));
    /// assert!(report.to_string().contains("pool_adds_stored_total{pool=\"letters\"} 2\n"));
    /// # Ok::<(), PoolError>(())
    /// ```
    #[must_use]
    pub fn tally(&self) -> Report<'static> {
        let (tally, status) = self.shared.look(|State { desk, .. }| (desk.tally(), desk.status()));
        Report { name: "", tally, status }
    }

    /// The steps that the pool has made, of which [`Settings::journal`] says how many are noted. An object has no name there.
    ///
    /// ```
    /// use deadpool::unmanaged::{Pool, PoolConfig, PoolError, Settings};
    ///
    /// let pool = Pool::from_settings(&Settings { journal: 100, ..PoolConfig::new(1).into() });
    /// assert!(pool.try_add("a letter").is_ok());
    /// drop(pool.try_get()?);
    /// assert_eq!(pool.journal().entries, ["add at_once _ stored", "get at_once object _", "back _ kept"]);
    /// # Ok::<(), PoolError>(())
    /// ```
    ///
    /// # Panics
    ///
    /// If no memory is found for a copy.
    #[must_use]
    pub fn journal(&self) -> Journal {
        let copy = self.shared.look(|state| state.desk.journal());
        let copy = copy.expect("memory for a copy of the journal");
        Journal::of(&copy, copy.full)
    }
}

/// A pool in which these objects are idle, with room for no more. It panics if no memory is found, as [`Pool::new`].
impl<T, I> From<I> for Pool<T>
where
    I: IntoIterator<Item = T>,
    I::IntoIter: ExactSizeIterator,
{
    fn from(objects: I) -> Self {
        let objects = objects.into_iter();
        let count = objects.len();
        let pool = Pool::new(count);
        // (an iterator may have more than it said)
        for object in objects.take(count) {
            assert!(pool.try_add(object).is_ok(), "no memory for an object");
        }
        pool
    }
}

impl<T> Default for Pool<T> {
    fn default() -> Self {
        Pool::from_config(&PoolConfig::default())
    }
}

impl<T> Clone for Pool<T> {
    fn clone(&self) -> Self {
        Pool { shared: self.shared.clone() }
    }
}

/// How it stands, as [`Pool::status`] says, unless a step is under way.
impl<T> fmt::Debug for Pool<T> {
    fn fmt(&self, f: &mut fmt::Formatter<'_>) -> fmt::Result {
        self.shared.debug(&mut f.debug_struct("Pool"))
    }
}

/// How an add has ended. One that was refused hands its object over.
fn added<T>(add: &mut Executor<'_, T>, command: Command) -> Result<(), (T, PoolError)> {
    match command {
        Command::Yield(_) => {
            let value = add.given().expect("an add has its object");
            Err((value.open(), refusal(command)))
        }
        _ => Ok(()),
    }
}

#[cfg(test)]
mod broken;
