//! What a connection and a transaction have in common, for functions over either.
use crate::{ClientWrapper, Object, StatementCache, Transaction};
use tokio_postgres::types::{BorrowToSql, ToSql, Type};
use tokio_postgres::{Client, Error, Row, RowStream, Statement, ToStatement};

mod private {
    pub trait Sealed {}

    impl Sealed for crate::ClientWrapper {}
    impl Sealed for crate::Object {}
    impl Sealed for crate::Transaction<'_> {}
}

/// A connection, or a transaction on one, with the calls of [`tokio_postgres::Client`] that both have, and the statements that are
/// prepared once. Nothing else can be.
#[allow(clippy::missing_errors_doc, reason = "each call gives what the server says of it")]
pub trait GenericClient: private::Sealed + Send + Sync {
    /// The client of the connection. Within a transaction its calls are part of that.
    fn client(&self) -> &Client;

    /// The statements of the connection.
    fn statements(&self) -> &StatementCache;

    /// The statement of this text, with these types of parameters, which is prepared on this connection unless it was before.
    fn prepare_typed_cached(
        &self,
        query: &str,
        types: &[Type],
    ) -> impl Future<Output = Result<Statement, Error>> + Send;

    /// Begins a transaction, within a transaction one that can be rolled back alone.
    fn transaction(&mut self) -> impl Future<Output = Result<Transaction<'_>, Error>> + Send;

    /// The statement of this text, which is prepared on this connection unless it was before.
    fn prepare_cached(&self, query: &str) -> impl Future<Output = Result<Statement, Error>> + Send {
        self.prepare_typed_cached(query, &[])
    }

    /// As the client's.
    fn prepare(&self, query: &str) -> impl Future<Output = Result<Statement, Error>> + Send {
        self.client().prepare(query)
    }

    /// As the client's.
    fn prepare_typed(&self, query: &str, types: &[Type]) -> impl Future<Output = Result<Statement, Error>> + Send {
        self.client().prepare_typed(query, types)
    }

    /// As the client's.
    fn batch_execute(&self, query: &str) -> impl Future<Output = Result<(), Error>> + Send {
        self.client().batch_execute(query)
    }

    /// As the client's.
    fn execute<T>(
        &self,
        statement: &T,
        params: &[&(dyn ToSql + Sync)],
    ) -> impl Future<Output = Result<u64, Error>> + Send
    where
        T: ?Sized + ToStatement + Sync + Send,
    {
        self.statements().watched(self.client().execute(statement, params))
    }

    /// As the client's.
    fn query<T>(
        &self,
        statement: &T,
        params: &[&(dyn ToSql + Sync)],
    ) -> impl Future<Output = Result<Vec<Row>, Error>> + Send
    where
        T: ?Sized + ToStatement + Sync + Send,
    {
        self.statements().watched(self.client().query(statement, params))
    }

    /// As the client's.
    fn query_one<T>(
        &self,
        statement: &T,
        params: &[&(dyn ToSql + Sync)],
    ) -> impl Future<Output = Result<Row, Error>> + Send
    where
        T: ?Sized + ToStatement + Sync + Send,
    {
        self.statements().watched(self.client().query_one(statement, params))
    }

    /// As the client's.
    fn query_opt<T>(
        &self,
        statement: &T,
        params: &[&(dyn ToSql + Sync)],
    ) -> impl Future<Output = Result<Option<Row>, Error>> + Send
    where
        T: ?Sized + ToStatement + Sync + Send,
    {
        self.statements().watched(self.client().query_opt(statement, params))
    }

    /// As the client's.
    fn execute_raw<T, P, I>(&self, statement: &T, params: I) -> impl Future<Output = Result<u64, Error>> + Send
    where
        T: ?Sized + ToStatement + Sync + Send,
        P: BorrowToSql + Send,
        I: IntoIterator<Item = P> + Send,
        I::IntoIter: ExactSizeIterator + Send,
    {
        self.client().execute_raw(statement, params)
    }

    /// As the client's.
    fn query_raw<T, P, I>(&self, statement: &T, params: I) -> impl Future<Output = Result<RowStream, Error>> + Send
    where
        T: ?Sized + ToStatement + Sync + Send,
        P: BorrowToSql + Send,
        I: IntoIterator<Item = P> + Send,
        I::IntoIter: ExactSizeIterator + Send,
    {
        self.client().query_raw(statement, params)
    }
}

impl GenericClient for ClientWrapper {
    fn client(&self) -> &Client {
        self
    }

    fn statements(&self) -> &StatementCache {
        &self.statement_cache
    }

    async fn prepare_typed_cached(&self, query: &str, types: &[Type]) -> Result<Statement, Error> {
        ClientWrapper::prepare_typed_cached(self, query, types).await
    }

    async fn transaction(&mut self) -> Result<Transaction<'_>, Error> {
        ClientWrapper::transaction(self).await
    }
}

/// What a get gives is a connection too.
impl GenericClient for Object {
    fn client(&self) -> &Client {
        self
    }

    fn statements(&self) -> &StatementCache {
        &self.statement_cache
    }

    async fn prepare_typed_cached(&self, query: &str, types: &[Type]) -> Result<Statement, Error> {
        ClientWrapper::prepare_typed_cached(self, query, types).await
    }

    async fn transaction(&mut self) -> Result<Transaction<'_>, Error> {
        ClientWrapper::transaction(self).await
    }
}

impl GenericClient for Transaction<'_> {
    fn client(&self) -> &Client {
        (**self).client()
    }

    fn statements(&self) -> &StatementCache {
        &self.statement_cache
    }

    async fn prepare_typed_cached(&self, query: &str, types: &[Type]) -> Result<Statement, Error> {
        Transaction::prepare_typed_cached(self, query, types).await
    }

    async fn transaction(&mut self) -> Result<Transaction<'_>, Error> {
        Transaction::transaction(self).await
    }
}
