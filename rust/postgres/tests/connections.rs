//! Connections over a real server: statements, transactions, how they are recycled and how they end.
mod common;

use common::{cut, end_all, judge, open, pool, until_open};
use deadpool_postgres::{
    Client, GenericClient, Hook, HookError, Manager, ManagerConfig, Object, Pool, PoolError, RecyclingMethod,
};
use deadpool_postgres::{Runtime, TimeoutType, Timeouts};
use std::time::Duration;
use tokio_postgres::types::Type;
use tokio_postgres::{IsolationLevel, NoTls};

/// The first column of the first row.
async fn text_of(client: &Client, query: &str) -> String {
    client.query_one(query, &[]).await.expect("a row").get(0)
}

#[tokio::test]
async fn a_statement_is_prepared_once() {
    let pool = pool("statements", 1, RecyclingMethod::Clean);
    let query = "SELECT $1::bigint + 1";
    for _ in 0..3 {
        let mut client = pool.get().await.expect("a connection");
        let statement = client.prepare_cached(query).await.expect("a statement");
        assert_eq!(client.query_one(&statement, &[&4_i64]).await.expect("a row").get::<_, i64>(0), 5);
        let transaction = client.transaction().await.expect("a transaction");
        let statement = transaction.prepare_cached(query).await.expect("a statement");
        assert_eq!(transaction.query_one(&statement, &[&6_i64]).await.expect("a row").get::<_, i64>(0), 7);
        drop(transaction);
        let known = format!("SELECT count(*)::text FROM pg_prepared_statements WHERE statement = '{query}'");
        assert_eq!((text_of(&client, &known).await.as_str(), client.statement_cache.size()), ("1", 1));
    }
    let client = pool.get().await.expect("a connection");
    let typed = client.prepare_typed_cached("SELECT $1", &[Type::INT4]).await.expect("a statement");
    assert_eq!((typed.params(), client.statement_cache.size()), (&[Type::INT4][..], 2));
    assert!(client.statement_cache.remove("SELECT $1", &[]).is_none(), "its types are part of its name");
    pool.manager().statement_caches.remove("SELECT $1", &[Type::INT4]);
    assert_eq!(client.statement_cache.size(), 1);
    pool.manager().statement_caches.clear();
    assert_eq!(client.statement_cache.size(), 0);
}

/// Adds a word, by what may be a connection or a transaction.
async fn add(client: &impl GenericClient, word: &str) -> i64 {
    let add = client.prepare_cached("INSERT INTO words VALUES ($1)").await.expect("a statement");
    assert_eq!(client.execute(&add, &[&word]).await.expect("it is added"), 1);
    client.query_one("SELECT count(*) FROM words", &[]).await.expect("a row").get(0)
}

#[tokio::test]
async fn a_function_is_lent_a_connection_or_a_transaction() {
    let pool = pool("generic", 1, RecyclingMethod::Fast);
    let mut client = pool.get().await.expect("a connection");
    client.batch_execute("CREATE TEMP TABLE words (word text)").await.expect("a table");
    // (as a task's, whose future goes to another thread)
    let added = tokio::spawn(async move {
        let first = [add(&client, "by an object").await, add(&*client, "by a connection").await];
        let mut transaction = GenericClient::transaction(&mut client).await.expect("it begins");
        let within = add(&transaction, "by a transaction").await;
        let inner = GenericClient::transaction(&mut transaction).await.expect("it begins");
        let innermost = add(&inner, "within it").await;
        drop(inner);
        drop(transaction);
        (first, within, innermost, client)
    });
    let (first, within, innermost, client) = added.await.expect("it does not panic");
    assert_eq!((first, within, innermost), ([1, 2], 3, 4));
    assert_eq!(text_of(&client, "SELECT string_agg(word, ', ') FROM words").await, "by an object, by a connection");
    assert_eq!(client.statement_cache.size(), 1);
}

#[tokio::test]
async fn what_is_taken_out_of_its_pool_keeps_its_statements() {
    let pool = pool("taken", 1, RecyclingMethod::Fast);
    let taken = Object::take(pool.get().await.expect("a connection"));
    taken.prepare_cached("SELECT 1").await.expect("a statement");
    pool.manager().statement_caches.clear();
    assert_eq!((taken.statement_cache.size(), pool.status().size), (1, 0));
}

#[tokio::test]
async fn a_transaction_is_kept_if_it_is_committed() {
    let pool = pool("transactions", 1, RecyclingMethod::Fast);
    let mut client = pool.get().await.expect("a connection");
    client.batch_execute("CREATE TEMP TABLE kept (word text)").await.expect("a table");
    let add = "INSERT INTO kept VALUES ($1)";
    let transaction = client.transaction().await.expect("it begins");
    transaction.execute(add, &[&"dropped"]).await.expect("a row");
    drop(transaction);
    let mut transaction = client.transaction().await.expect("it begins");
    transaction.execute(add, &[&"kept"]).await.expect("a row");
    let inner = transaction.savepoint("part").await.expect("it begins");
    inner.execute(add, &[&"undone"]).await.expect("a row");
    inner.rollback().await.expect("it ends");
    let inner = transaction.transaction().await.expect("it begins");
    inner.execute(add, &[&"kept too"]).await.expect("a row");
    inner.commit().await.expect("it ends");
    transaction.commit().await.expect("it ends");
    assert_eq!(text_of(&client, "SELECT string_agg(word, ', ' ORDER BY word) FROM kept").await, "kept, kept too");
}

#[tokio::test]
async fn a_transaction_is_of_its_kind() {
    let pool = pool("kinds", 1, RecyclingMethod::Fast);
    let mut client = pool.get().await.expect("a connection");
    let kind =
        "SELECT concat_ws(', ', current_setting('transaction_isolation'), current_setting('transaction_read_only'),
        current_setting('transaction_deferrable'))";
    for (level, name) in [
        (IsolationLevel::ReadUncommitted, "read uncommitted"),
        (IsolationLevel::ReadCommitted, "read committed"),
        (IsolationLevel::RepeatableRead, "repeatable read"),
        (IsolationLevel::Serializable, "serializable"),
    ] {
        let builder = client.build_transaction().isolation_level(level).read_only(true).deferrable(true);
        let transaction = builder.start().await.expect("it begins");
        let told: String = transaction.query_one(kind, &[]).await.expect("a row").get(0);
        assert_eq!(told, format!("{name}, on, on"));
    }
    let transaction = client.build_transaction().start().await.expect("it begins");
    let told: String = transaction.query_one(kind, &[]).await.expect("a row").get(0);
    assert_eq!(told, "read committed, off, off");
}

#[tokio::test]
async fn a_begin_that_is_cut_off_leaves_no_transaction_open() {
    let pool = pool("cut", 1, RecyclingMethod::Fast);
    let mut client = pool.get().await.expect("a connection");
    let mut were_cut = 0;
    for after in 0..40 {
        let builder = client.build_transaction().isolation_level(IsolationLevel::Serializable);
        were_cut += usize::from(cut(after, builder.start()).await.is_none());
        client.batch_execute("VACUUM pg_am").await.expect("a vacuum refuses to be in a transaction");
    }
    assert!((2..40).contains(&were_cut), "{were_cut} were cut off");
}

/// The server ends the pool's connection while this thread, which is the only one of the executor, can hear nothing of it.
fn end_unheard(name: &'static str) {
    let ended = std::thread::spawn(move || {
        let executor = tokio::runtime::Builder::new_current_thread().enable_all().build().expect("an executor");
        executor.block_on(async {
            let judge = judge().await;
            assert_eq!(end_all(&judge, name).await, 1);
            until_open(&judge, name, 0).await;
        });
    });
    ended.join().expect("the connection is ended");
}

async fn is_served_after_an_end(name: &'static str, method: RecyclingMethod) -> bool {
    let pool = pool(name, 1, method);
    drop(pool.get().await.expect("a connection"));
    end_unheard(name);
    let client = pool.get().await.expect("a connection");
    client.simple_query("SELECT 1").await.is_ok()
}

#[tokio::test]
async fn verified_hands_out_no_connection_that_has_gone() {
    assert!(!is_served_after_an_end("fast", RecyclingMethod::Fast).await, "fast asks nobody");
    assert!(is_served_after_an_end("verified", RecyclingMethod::Verified).await);
    assert!(is_served_after_an_end("clean", RecyclingMethod::Clean).await);
    assert!(is_served_after_an_end("custom", RecyclingMethod::Custom("SELECT 1".into())).await);
}

#[tokio::test]
async fn fast_hands_out_no_connection_that_is_known_to_be_closed() {
    let pool = pool("known", 1, RecyclingMethod::Fast);
    drop(pool.get().await.expect("a connection"));
    end_unheard("known");
    // (the connection's own task hears of it now)
    tokio::time::sleep(Duration::from_millis(50)).await;
    assert_eq!(text_of(&pool.get().await.expect("a connection"), "SELECT 'new'").await, "new");
}

#[tokio::test]
async fn clean_ends_what_a_session_has_open() {
    let pool = pool("session", 1, RecyclingMethod::Clean);
    let told = "SELECT concat_ws(' ', pg_backend_pid(), (SELECT count(*) FROM pg_cursors),
        (SELECT count(*) FROM pg_locks WHERE locktype = 'advisory'), (SELECT count(*) FROM pg_listening_channels()),
        to_regclass('pg_temp.scratch') IS NULL, current_setting('lock_timeout'), pg_current_xact_id_if_assigned() IS NULL)";
    let client = pool.get().await.expect("a connection");
    let first = text_of(&client, told).await;
    let begun =
        "CREATE TEMP TABLE scratch (n int); DECLARE c CURSOR WITH HOLD FOR SELECT 1; SELECT pg_advisory_lock(7);
        LISTEN news; SET lock_timeout = '5s'";
    client.batch_execute(begun).await.expect("it is begun");
    client.batch_execute("BEGIN; CREATE TABLE never (n int)").await.expect("a transaction");
    assert_ne!(text_of(&client, told).await, first);
    drop(client);
    let client = pool.get().await.expect("the connection");
    assert_eq!(text_of(&client, told).await, first);
    assert_eq!(text_of(&client, "SELECT (to_regclass('never') IS NULL)::text").await, "true");
}

#[tokio::test]
async fn no_connection_is_handed_out_within_a_transaction() {
    let custom = RecyclingMethod::Custom("SELECT 1".into());
    let methods = [RecyclingMethod::Fast, RecyclingMethod::Verified, RecyclingMethod::Clean, custom];
    let pid = "SELECT pg_backend_pid()::text";
    for method in methods {
        let pool = pool("begun", 1, method.clone());
        let client = pool.get().await.expect("a connection");
        let first = text_of(&client, pid).await;
        client.batch_execute("BEGIN; CREATE TABLE never (n int)").await.expect("a transaction");
        drop(client);
        let client = pool.get().await.expect("the connection");
        client.batch_execute("VACUUM pg_am").await.expect("a vacuum refuses to be in a transaction");
        assert_eq!(text_of(&client, "SELECT (to_regclass('never') IS NULL)::text").await, "true");
        // (and one that has failed, which refuses all but its end)
        client.batch_execute("BEGIN").await.expect("a transaction");
        client.batch_execute("SELECT 1 / 0").await.expect_err("a division by zero");
        drop(client);
        let client = pool.get().await.expect("the connection");
        assert_eq!(text_of(&client, pid).await, first, "by {method:?} it is the same connection");
    }
}

#[tokio::test]
async fn a_connection_keeps_a_hundred_statements() {
    let pool = pool("hundred", 1, RecyclingMethod::Fast);
    let client = pool.get().await.expect("a connection");
    let known = "SELECT count(*)::text FROM pg_prepared_statements WHERE statement LIKE 'SELECT 1 + %'";
    for n in 0..100 {
        client.prepare_cached(&format!("SELECT 1 + {n}")).await.expect("a statement");
    }
    client.prepare_cached("SELECT 1 + 0").await.expect("it is known");
    client.prepare_cached("SELECT 1 + 100").await.expect("one more");
    assert_eq!(client.statement_cache.size(), 100);
    assert!(client.statement_cache.remove("SELECT 1 + 1", &[]).is_none(), "it was not asked for the longest");
    assert!(client.statement_cache.remove("SELECT 1 + 0", &[]).is_some(), "it was asked for again");
    assert_eq!(text_of(&client, known).await, "99", "the server forgets them too");
}

#[tokio::test]
async fn a_statement_that_is_outdated_is_prepared_again() {
    let pool = pool("outdated", 1, RecyclingMethod::Fast);
    let mut client = pool.get().await.expect("a connection");
    client.batch_execute("CREATE TEMP TABLE goods (name text); INSERT INTO goods VALUES ('tea')").await.expect("a table");
    let goods = "SELECT * FROM goods";
    let count = |rows: Vec<tokio_postgres::Row>| rows[0].len();
    let statement = client.prepare_cached(goods).await.expect("a statement");
    assert_eq!(count(client.query(&statement, &[]).await.expect("a row")), 1);
    client.batch_execute("ALTER TABLE goods ADD price int").await.expect("a column more");
    client.query(&statement, &[]).await.expect_err("its rows are of another kind");
    assert_eq!(client.statement_cache.size(), 0);
    let statement = client.prepare_cached(goods).await.expect("a statement");
    assert_eq!(count(client.query(&statement, &[]).await.expect("a row")), 2);
    // (as another part of the program may do, and within a transaction, by a function that is lent either)
    client.batch_execute("DEALLOCATE ALL").await.expect("the server forgets them");
    let transaction = client.transaction().await.expect("it begins");
    GenericClient::query_opt(&transaction, &statement, &[]).await.expect_err("the server has it no more");
    assert_eq!(transaction.statement_cache.size(), 0);
    drop(transaction);
    let statement = client.prepare_cached(goods).await.expect("a statement");
    client.query_one("SELECT 1 / 0", &[]).await.expect_err("a division by zero");
    client.execute(&statement, &[]).await.expect("other faults leave it as it is");
    assert_eq!(client.statement_cache.size(), 1);
}

#[tokio::test]
async fn a_custom_text_is_carried_out() {
    let pool = pool("text", 1, RecyclingMethod::Custom("SET lock_timeout = '7s'".into()));
    drop(pool.get().await.expect("a connection"));
    assert_eq!(text_of(&pool.get().await.expect("the connection"), "SHOW lock_timeout").await, "7s");
}

#[tokio::test]
async fn a_connection_that_is_given_up_is_closed() {
    let (pool, judge) = (pool("given-up", 3, RecyclingMethod::Fast), judge().await);
    let all = [pool.get().await, pool.get().await, pool.get().await].map(|it| it.expect("a connection"));
    assert_eq!(open(&judge, "given-up").await, 3);
    let [first, second, third] = all;
    // (amid a query, which the server ends first)
    assert!(cut(0, first.simple_query("SELECT pg_sleep(0.3)")).await.is_none());
    drop(Object::take(first));
    drop(second);
    until_open(&judge, "given-up", 2).await;
    pool.resize(1);
    until_open(&judge, "given-up", 1).await;
    pool.close();
    drop(third);
    until_open(&judge, "given-up", 0).await;
}

#[tokio::test]
async fn a_hook_prepares_each_new_connection() {
    let set = Hook::async_fn(|client, _| {
        Box::pin(async move {
            client.batch_execute("SET search_path = 'pg_catalog'").await.map_err(HookError::Backend)?;
            if client.is_closed() { Err(HookError::message("it is closed")) } else { Ok(()) }
        })
    });
    let builder = common::config("hooks").builder(NoTls).expect("a builder").max_size(1);
    let pool: Pool = builder.post_create(set).build().expect("a pool");
    assert_eq!(text_of(&pool.get().await.expect("a connection"), "SHOW search_path").await, "pg_catalog");
}

#[tokio::test]
async fn a_server_that_does_not_answer_is_given_up_in_time() {
    let silent = std::net::TcpListener::bind("127.0.0.1:0").expect("a port");
    let port = silent.local_addr().expect("an address").port();
    let mut config = tokio_postgres::Config::new();
    config.host("127.0.0.1").port(port).user("nobody").dbname("none");
    let manager = Manager::from_config(config, NoTls, ManagerConfig::default());
    let timeouts = Timeouts { create: Some(Duration::from_millis(30)), ..Timeouts::wait_millis(5000) };
    let builder = Pool::builder(manager).max_size(1).runtime(Runtime::Tokio1).timeouts(timeouts);
    let pool: Pool = builder.build().expect("a pool");
    for _ in 0..2 {
        assert!(matches!(pool.get().await, Err(PoolError::Timeout(TimeoutType::Create))));
        assert_eq!(pool.status().size, 0);
    }
}
