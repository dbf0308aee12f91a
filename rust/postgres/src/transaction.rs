//! Transactions, with the statements of their connection.
use crate::{ClientWrapper, StatementCache};
use std::fmt;
use std::ops::{Deref, DerefMut};
use std::sync::Arc;
use tokio_postgres::types::Type;
use tokio_postgres::{Error, IsolationLevel, Statement, Transaction as PgTransaction};

/// A transaction. It has all calls of [`tokio_postgres::Transaction`], and its connection's statements. One that is dropped is rolled
/// back.
pub struct Transaction<'a> {
    transaction: PgTransaction<'a>,
    /// The statements of its connection.
    pub statement_cache: Arc<StatementCache>,
}

impl<'a> Transaction<'a> {
    pub(crate) fn new(transaction: PgTransaction<'a>, statements: &Arc<StatementCache>) -> Self {
        Transaction { transaction, statement_cache: statements.clone() }
    }

    /// The statement of this text, which is prepared on this connection unless it was before.
    ///
    /// # Errors
    /// What the server says of it.
    pub async fn prepare_cached(&self, query: &str) -> Result<Statement, Error> {
        self.prepare_typed_cached(query, &[]).await
    }

    /// The same, with the types of parameters.
    ///
    /// # Errors
    /// What the server says of it.
    pub async fn prepare_typed_cached(&self, query: &str, types: &[Type]) -> Result<Statement, Error> {
        self.statement_cache.get_or(query, types, self.transaction.prepare_typed(query, types)).await
    }

    watched_calls!(transaction);

    /// Ends it, and keeps what it did.
    ///
    /// # Errors
    /// What the server says of it. If the connection was lost meanwhile, nobody knows whether it was kept.
    pub async fn commit(self) -> Result<(), Error> {
        self.transaction.commit().await
    }

    /// Ends it, and undoes what it did.
    ///
    /// # Errors
    /// What the server says of it.
    pub async fn rollback(self) -> Result<(), Error> {
        self.transaction.rollback().await
    }

    /// Begins a transaction within this one, which can be rolled back alone.
    ///
    /// # Errors
    /// What the server says of it.
    pub async fn transaction(&mut self) -> Result<Transaction<'_>, Error> {
        Ok(Transaction::new(self.transaction.transaction().await?, &self.statement_cache))
    }

    /// The same, with a name for its savepoint, as it stands in SQL.
    ///
    /// # Errors
    /// What the server says of it.
    pub async fn savepoint(&mut self, name: impl Into<String>) -> Result<Transaction<'_>, Error> {
        Ok(Transaction::new(self.transaction.savepoint(name).await?, &self.statement_cache))
    }
}

impl<'a> Deref for Transaction<'a> {
    type Target = PgTransaction<'a>;

    fn deref(&self) -> &PgTransaction<'a> {
        &self.transaction
    }
}

impl<'a> DerefMut for Transaction<'a> {
    fn deref_mut(&mut self) -> &mut PgTransaction<'a> {
        &mut self.transaction
    }
}

impl fmt::Debug for Transaction<'_> {
    fn fmt(&self, f: &mut fmt::Formatter<'_>) -> fmt::Result {
        f.debug_struct("Transaction").field("statement_cache", &self.statement_cache).finish_non_exhaustive()
    }
}

/// What kind a transaction is to be of.
#[must_use]
#[derive(Debug)]
pub struct TransactionBuilder<'a> {
    client: &'a mut ClientWrapper,
    modes: Vec<&'static str>,
}

impl<'a> TransactionBuilder<'a> {
    pub(crate) fn new(client: &'a mut ClientWrapper) -> Self {
        TransactionBuilder { client, modes: Vec::new() }
    }

    /// What it sees of others.
    pub fn isolation_level(self, level: IsolationLevel) -> Self {
        self.mode(match level {
            IsolationLevel::ReadUncommitted => "ISOLATION LEVEL READ UNCOMMITTED",
            IsolationLevel::ReadCommitted => "ISOLATION LEVEL READ COMMITTED",
            IsolationLevel::RepeatableRead => "ISOLATION LEVEL REPEATABLE READ",
            _ => "ISOLATION LEVEL SERIALIZABLE",
        })
    }

    /// Whether it may change nothing.
    pub fn read_only(self, read_only: bool) -> Self {
        self.mode(if read_only { "READ ONLY" } else { "READ WRITE" })
    }

    /// Whether it may wait at its begin, so that it meets no conflict later. This is of use to serializable ones that only read.
    pub fn deferrable(self, deferrable: bool) -> Self {
        self.mode(if deferrable { "DEFERRABLE" } else { "NOT DEFERRABLE" })
    }

    fn mode(mut self, mode: &'static str) -> Self {
        self.modes.push(mode);
        self
    }

    /// Begins it.
    ///
    /// # Errors
    /// What the server says of it.
    pub async fn start(self) -> Result<Transaction<'a>, Error> {
        let TransactionBuilder { client, modes } = self;
        // (its kind is said within it: if this is dropped midway it is rolled back, as any other)
        let transaction = client.transaction().await?;
        if !modes.is_empty() {
            transaction.batch_execute(&format!("SET TRANSACTION {}", modes.join(", "))).await?;
        }
        Ok(transaction)
    }
}
