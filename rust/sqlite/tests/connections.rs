//! What a connection is when it is handed out again, and a rough run: panics, and tasks that are cut off at any point.
use deadpool_sqlite::{Config, Connection, InteractError, Pool, PoolConfig, Runtime, Timeouts, rusqlite};
use std::path::{Path, PathBuf};
use std::sync::Arc;
use std::sync::atomic::{AtomicU64, Ordering::SeqCst};
use std::time::Duration;
use tokio::time::timeout;

const LIMIT: usize = 8;
const TASKS: u64 = 64;
const TURNS: u64 = 20;

/// A file of this test's own, which goes with it.
struct File(PathBuf);

impl File {
    fn new(name: &str) -> Self {
        File(std::env::temp_dir().join(format!("deadpool-sqlite-{name}-{}.db", std::process::id())))
    }
}

impl Drop for File {
    fn drop(&mut self) {
        for ending in ["", "-wal", "-shm"] {
            let mut path = self.0.clone().into_os_string();
            path.push(ending);
            let _ = std::fs::remove_file(path);
        }
    }
}

fn pool_of(path: &Path, max_size: usize) -> Pool {
    let mut config = Config::new(path);
    config.pool = Some(PoolConfig { timeouts: Timeouts::wait_millis(120_000), ..PoolConfig::new(max_size) });
    config.create_pool(Runtime::Tokio1).expect("a pool")
}

async fn executed(connection: &Connection, text: &'static str) {
    connection.interact(move |it| it.execute_batch(text)).await.expect("no panic").expect("it is carried out");
}

async fn number(connection: &Connection, query: &'static str) -> i64 {
    let asked = connection.interact(move |it| it.query_row(query, [], |row| row.get(0)));
    asked.await.expect("no panic").expect("a number")
}

#[tokio::test]
async fn a_transaction_that_was_left_open_is_rolled_back() {
    let file = File::new("open");
    let pool = pool_of(&file.0, 1);
    let connection = pool.get().await.expect("a connection");
    executed(&connection, "CREATE TABLE counts (n INTEGER); BEGIN; INSERT INTO counts VALUES (7)").await;
    drop(connection);
    let connection = pool.get().await.expect("a connection");
    assert_eq!(number(&connection, "SELECT count(*) FROM counts").await, 0);
    executed(&connection, "BEGIN; COMMIT").await;
    assert_eq!(Connection::metrics(&connection).recycle_count, 1);
}

#[tokio::test]
async fn a_connection_within_which_a_closure_has_panicked_is_given_up() {
    let file = File::new("panic");
    let pool = pool_of(&file.0, 1);
    let connection = pool.get().await.expect("a connection");
    executed(&connection, "PRAGMA user_version = 3; CREATE TEMP TABLE only_here (n INTEGER)").await;
    let ended = connection.interact(|_| panic!("planned")).await;
    assert!(matches!(ended, Err::<(), _>(InteractError::Panic(_))));
    drop(connection);
    let connection = pool.get().await.expect("another one");
    assert_eq!(number(&connection, "PRAGMA user_version").await, 3);
    assert_eq!(number(&connection, "SELECT count(*) FROM sqlite_temp_master").await, 0);
    assert_eq!(Connection::metrics(&connection).recycle_count, 0);
}

#[tokio::test]
async fn a_file_that_cannot_be_opened_is_said() {
    let pool = pool_of(Path::new("/nowhere/at/all.db"), 1);
    assert!(pool.get().await.expect_err("there is no folder").to_string().contains("unable to open"));
    assert_eq!(pool.status().size, 0);
}

/// How the turns of a rough run ended.
#[derive(Default)]
struct Ends {
    kept: AtomicU64,
    cut_off: AtomicU64,
    panicked: AtomicU64,
}

/// Adds one, or panics within a closure.
async fn add_one(pool: &Pool, ends: &Ends, panics: bool) {
    let connection = pool.get().await.expect("a connection");
    if panics {
        assert!(connection.interact(|_| panic!("planned")).await.is_err_and(|_: InteractError| true));
        ends.panicked.fetch_add(1, SeqCst);
        return;
    }
    let added = connection.interact(|it| {
        it.busy_timeout(Duration::from_secs(100))?;
        it.execute_batch("PRAGMA synchronous = OFF")?;
        it.execute("UPDATE counts SET n = n + 1", [])
    });
    let added: Result<usize, rusqlite::Error> = added.await.expect("no panic");
    assert_eq!(added.expect("an update"), 1);
    ends.kept.fetch_add(1, SeqCst);
}

#[test]
fn a_rough_run_leaves_each_update_and_the_pool_whole() {
    let usual = std::panic::take_hook();
    std::panic::set_hook(Box::new(move |told| {
        if told.payload().downcast_ref() != Some(&"planned") {
            usual(told);
        }
    }));
    let file = File::new("rough");
    let executor = tokio::runtime::Builder::new_multi_thread().worker_threads(4).enable_all().build();
    executor.expect("an executor").block_on(async {
        let pool = pool_of(&file.0, LIMIT);
        let tables = "PRAGMA journal_mode = WAL; CREATE TABLE counts (n INTEGER); INSERT INTO counts VALUES (0)";
        executed(&pool.get().await.expect("a connection"), tables).await;
        let ends = Arc::new(Ends::default());
        let turns = |pool: Pool, ends: Arc<Ends>, task: u64| async move {
            for turn in 0..TURNS {
                let number = task + turn;
                let add = add_one(&pool, &ends, number % 37 == 0);
                if number % 4 != 0 {
                    add.await;
                } else if timeout(Duration::from_millis(number % 7), add).await.is_err() {
                    ends.cut_off.fetch_add(1, SeqCst);
                }
            }
        };
        let tasks: Vec<_> = (0..TASKS).map(|task| tokio::spawn(turns(pool.clone(), ends.clone(), task))).collect();
        for task in tasks {
            task.await.expect("a task ends");
        }
        let connection = pool.get().await.expect("a connection");
        // (an update that was cut off is made to its end by then: each connection is asked for)
        let mut all = vec![connection];
        for _ in 1..LIMIT {
            all.push(pool.get().await.expect("a connection"));
        }
        let counted = number(&all[0], "SELECT n FROM counts").await.unsigned_abs();
        let [kept, cut_off, panicked] = [&ends.kept, &ends.cut_off, &ends.panicked].map(|it| it.load(SeqCst));
        println!("{counted} counted, {kept} kept, {cut_off} cut off, {panicked} panicked");
        assert!((kept..=kept + cut_off).contains(&counted) && cut_off > 0 && panicked > 0);
        assert!(pool.timeout_get(&Timeouts::wait_millis(0)).await.is_err());
        drop(all);
        let status = pool.status();
        assert_eq!((status.size, status.available, status.waiting), (LIMIT, LIMIT, 0));
    });
}
