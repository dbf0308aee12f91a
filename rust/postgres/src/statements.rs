//! The statements that a connection has prepared, so that each is prepared once.
use std::collections::HashMap;
use std::fmt;
use std::sync::{Arc, Mutex, MutexGuard, PoisonError, Weak};
use tokio_postgres::error::SqlState;
use tokio_postgres::types::Type;
use tokio_postgres::{Error, Statement};

/// How many statements a connection keeps at most.
const MOST: usize = 100;

/// A lock whose value is whole after each line of this file, so also where a thread has panicked with it.
fn locked<T>(mutex: &Mutex<T>) -> MutexGuard<'_, T> {
    mutex.lock().unwrap_or_else(PoisonError::into_inner)
}

/// A statement's text, and the types that were given for its parameters.
type Key = (String, Vec<Type>);

/// The statements that one connection has prepared. There are at most 100: where one more comes, the one goes that was not asked for
/// the longest. They are forgotten if the server says of one that it does not have it, or that its table has changed.
#[derive(Default)]
pub struct StatementCache(Mutex<Statements>);

#[derive(Default)]
struct Statements {
    known: HashMap<Key, Known>,
    /// How often one was asked for.
    asked: u64,
}

struct Known {
    statement: Statement,
    /// The number by which it was asked for last.
    last: u64,
}

impl Statements {
    fn get(&mut self, key: &Key) -> Option<Statement> {
        self.asked += 1;
        let known = self.known.get_mut(key)?;
        known.last = self.asked;
        Some(known.statement.clone())
    }

    /// Keeps a statement, and gives the one that goes for it.
    fn keep(&mut self, key: Key, statement: Statement) -> Option<Statement> {
        let is_full = self.known.len() >= MOST && !self.known.contains_key(&key);
        let gone = if is_full { self.forget_oldest() } else { None };
        self.asked += 1;
        let replaced = self.known.insert(key, Known { statement, last: self.asked });
        gone.or(replaced.map(|it| it.statement))
    }

    fn forget_oldest(&mut self) -> Option<Statement> {
        let oldest = self.known.iter().min_by_key(|(_, known)| known.last).map(|(key, _)| key.clone())?;
        self.known.remove(&oldest).map(|known| known.statement)
    }
}

impl StatementCache {
    /// How many there are.
    pub fn size(&self) -> usize {
        locked(&self.0).known.len()
    }

    /// Forgets them. The server does so too, once nobody uses them.
    pub fn clear(&self) {
        // (a statement that goes writes to its connection: not under the lock)
        let gone = std::mem::take(&mut *locked(&self.0));
        drop(gone);
    }

    /// Forgets one, and gives it to the caller.
    pub fn remove(&self, query: &str, types: &[Type]) -> Option<Statement> {
        locked(&self.0).known.remove(&key(query, types)).map(|known| known.statement)
    }

    /// What the server says of a statement. All are forgotten if it says that it does not have it, or that its table has changed.
    pub(crate) async fn watched<T>(&self, asked: impl Future<Output = Result<T, Error>>) -> Result<T, Error> {
        let answer = asked.await;
        if answer.as_ref().is_err_and(is_outdated) {
            self.clear();
        }
        answer
    }

    /// The statement of this text and these types, which is prepared unless it is there.
    pub(crate) async fn get_or(
        &self,
        query: &str,
        types: &[Type],
        prepared: impl Future<Output = Result<Statement, Error>>,
    ) -> Result<Statement, Error> {
        let key = key(query, types);
        let known = locked(&self.0).get(&key);
        if let Some(statement) = known {
            return Ok(statement);
        }
        let statement = prepared.await?;
        let gone = locked(&self.0).keep(key, statement.clone());
        drop(gone);
        Ok(statement)
    }
}

/// Whether an error says that a prepared statement can't be used any more. (The first is also that of a feature that is lacking, where
/// statements are prepared again in vain.)
fn is_outdated(error: &Error) -> bool {
    matches!(error.code(), Some(code) if [SqlState::FEATURE_NOT_SUPPORTED, SqlState::INVALID_SQL_STATEMENT_NAME].contains(code))
}

fn key(query: &str, types: &[Type]) -> Key {
    (query.into(), types.into())
}

impl fmt::Debug for StatementCache {
    fn fmt(&self, f: &mut fmt::Formatter<'_>) -> fmt::Result {
        f.debug_struct("StatementCache").field("size", &self.size()).finish()
    }
}

/// The statements of all connections of a manager, for who changes a table on which they stand.
#[derive(Debug, Default)]
pub struct StatementCaches(Mutex<Vec<Weak<StatementCache>>>);

impl StatementCaches {
    pub(crate) fn add(&self, cache: &Arc<StatementCache>) {
        let mut caches = locked(&self.0);
        // (of a connection that a shrink of its pool took, nobody says that it has gone)
        caches.retain(|it| it.strong_count() > 0);
        caches.push(Arc::downgrade(cache));
    }

    pub(crate) fn forget(&self, cache: &Arc<StatementCache>) {
        locked(&self.0).retain(|it| it.as_ptr() != Arc::as_ptr(cache));
    }

    fn all(&self) -> Vec<Arc<StatementCache>> {
        locked(&self.0).iter().filter_map(Weak::upgrade).collect()
    }

    /// Forgets the statements of all connections.
    pub fn clear(&self) {
        self.all().iter().for_each(|it| it.clear());
    }

    /// Forgets one statement of all connections.
    pub fn remove(&self, query: &str, types: &[Type]) {
        self.all().iter().for_each(|it| drop(it.remove(query, types)));
    }
}
