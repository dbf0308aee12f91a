//! A connection, with its statements and the task that drives it.
use crate::{StatementCache, Transaction, TransactionBuilder};
use std::fmt;
use std::future::poll_fn;
use std::ops::{Deref, DerefMut};
use std::pin::pin;
use std::sync::Arc;
use std::task::Poll;
use tokio::task::JoinHandle;
use tokio_postgres::types::Type;
use tokio_postgres::{Client, Error, Statement};

/// A connection of a pool. It has all calls of [`tokio_postgres::Client`], and statements that it prepares once.
pub struct ClientWrapper {
    client: Client,
    driver: JoinHandle<()>,
    /// The statements that this connection has prepared.
    pub statement_cache: Arc<StatementCache>,
}

impl ClientWrapper {
    /// A connection, and the task by which it hears from the server. That task ends with it.
    #[must_use]
    pub fn new(client: Client, driver: JoinHandle<()>) -> Self {
        ClientWrapper { client, driver, statement_cache: Arc::default() }
    }

    /// The statement of this text, which is prepared on this connection unless it was before.
    ///
    /// # Errors
    /// What the server says of it.
    pub async fn prepare_cached(&self, query: &str) -> Result<Statement, Error> {
        self.prepare_typed_cached(query, &[]).await
    }

    /// The same, with the types of parameters.
    ///
    /// # Errors
    /// What the server says of it.
    pub async fn prepare_typed_cached(&self, query: &str, types: &[Type]) -> Result<Statement, Error> {
        self.statement_cache.get_or(query, types, self.client.prepare_typed(query, types)).await
    }

    /// Begins a transaction. It is rolled back unless it is committed.
    ///
    /// # Errors
    /// What the server says of it.
    pub async fn transaction(&mut self) -> Result<Transaction<'_>, Error> {
        Ok(Transaction::new(self.client.transaction().await?, &self.statement_cache))
    }

    /// Begins a transaction of another kind.
    pub fn build_transaction(&mut self) -> TransactionBuilder<'_> {
        TransactionBuilder::new(self)
    }

    watched_calls!(client);

    /// Has the server roll back a transaction that is open. No answer is waited for: what is asked next is carried out behind it.
    pub(crate) async fn end_transaction(&self) {
        // (two texts, since one fails as a whole: a transaction that has failed refuses to begin, and where there is none a
        // rollback alone is a warning in the server's log)
        for text in ["BEGIN", "ROLLBACK"] {
            // (its first poll sends it)
            let mut asked = pin!(self.client.batch_execute(text));
            poll_fn(|cx| Poll::Ready(drop(asked.as_mut().poll(cx)))).await;
        }
    }
}

impl Deref for ClientWrapper {
    type Target = Client;

    fn deref(&self) -> &Client {
        &self.client
    }
}

impl DerefMut for ClientWrapper {
    fn deref_mut(&mut self) -> &mut Client {
        &mut self.client
    }
}

impl Drop for ClientWrapper {
    /// Closes it, though a query may be under way. The server ends that first.
    fn drop(&mut self) {
        self.driver.abort();
    }
}

impl fmt::Debug for ClientWrapper {
    fn fmt(&self, f: &mut fmt::Formatter<'_>) -> fmt::Result {
        let mut told = f.debug_struct("ClientWrapper");
        told.field("is_closed", &self.client.is_closed()).field("statement_cache", &self.statement_cache);
        told.finish_non_exhaustive()
    }
}
