//! The calls that carry a statement out, so that one which can't be used any more is forgotten.

/// The calls that carry a statement out, for a type whose field has them, beside the statements of its connection.
macro_rules! watched_calls {
    ($field:ident) => {
        /// As the client's.
        ///
        /// # Errors
        /// What the server says of it.
        pub async fn execute<T>(&self, statement: &T, params: &[&(dyn tokio_postgres::types::ToSql + Sync)]) -> Result<u64, Error>
        where
            T: ?Sized + tokio_postgres::ToStatement,
        {
            self.statement_cache.watched(self.$field.execute(statement, params)).await
        }

        /// As the client's.
        ///
        /// # Errors
        /// What the server says of it.
        pub async fn query<T>(&self, statement: &T, params: &[&(dyn tokio_postgres::types::ToSql + Sync)]) -> Result<Vec<tokio_postgres::Row>, Error>
        where
            T: ?Sized + tokio_postgres::ToStatement,
        {
            self.statement_cache.watched(self.$field.query(statement, params)).await
        }

        /// As the client's.
        ///
        /// # Errors
        /// What the server says of it, or that it is not one row.
        pub async fn query_one<T>(&self, statement: &T, params: &[&(dyn tokio_postgres::types::ToSql + Sync)]) -> Result<tokio_postgres::Row, Error>
        where
            T: ?Sized + tokio_postgres::ToStatement,
        {
            self.statement_cache.watched(self.$field.query_one(statement, params)).await
        }

        /// As the client's.
        ///
        /// # Errors
        /// What the server says of it, or that there are more rows than one.
        pub async fn query_opt<T>(&self, statement: &T, params: &[&(dyn tokio_postgres::types::ToSql + Sync)]) -> Result<Option<tokio_postgres::Row>, Error>
        where
            T: ?Sized + tokio_postgres::ToStatement,
        {
            self.statement_cache.watched(self.$field.query_opt(statement, params)).await
        }
    };
}
