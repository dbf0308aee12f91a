//! Sixty-four tasks move money between a hundred accounts over a pool of eight connections. Some quarter of what they try is cancelled,
//! connections are ended by the server, and the server is restarted twice. At the end the books agree, the pool is whole, and no
//! connection is left open.
#[path = "../common/mod.rs"]
mod common;
mod disturbed;
mod transfers;

use common::{end_all, judge, open, until_open};
use deadpool_postgres::{ManagerConfig, Pool, PoolConfig, PoolError, RecyclingMethod, Runtime, TimeoutType, Timeouts};
use disturbed::Disturbed;
use std::sync::Arc;
use std::sync::Mutex;
use std::sync::atomic::{AtomicUsize, Ordering::SeqCst};
use std::time::{Duration, Instant};
use tokio_postgres::{Client, NoTls};

/// The name of the pool's connections at the server.
const NAME: &str = "bank";
const LIMIT: usize = 8;
const TASKS: u64 = 64;
const TRANSFERS: usize = 20_000;
const ACCOUNTS: i64 = 100;
const EACH: i64 = 1000;
/// If places are lost there are tasks that wait for good, and in the end no transfer is kept for so long.
const PATIENCE: Duration = Duration::from_secs(40);

/// What is known of the transfers.
struct Ledger {
    opened: Instant,
    /// How many were begun, of which some are to be tried again.
    begun: AtomicUsize,
    /// The numbers of those that the server said it has kept.
    kept: Mutex<Vec<i64>>,
    cancelled: AtomicUsize,
    failed: AtomicUsize,
    late: AtomicUsize,
    unconnected: AtomicUsize,
    /// How many connections are out.
    out: AtomicUsize,
}

impl Ledger {
    fn new() -> Self {
        let [begun, cancelled, failed, late, unconnected, out] = std::array::from_fn(|_| AtomicUsize::new(0));
        Ledger { opened: Instant::now(), begun, kept: Mutex::default(), cancelled, failed, late, unconnected, out }
    }

    /// How long a transfer has taken so far, from its begin to its end or its cut.
    fn usual_time(&self) -> Duration {
        self.opened.elapsed().mul_f64(TASKS as f64 / self.begun.load(SeqCst).max(1) as f64)
    }

    fn kept(&self) -> usize {
        self.kept.lock().expect("no task has panicked").len()
    }
}

fn bank_pool() -> Pool {
    let mut config = common::config(NAME);
    config.manager = Some(ManagerConfig { recycling_method: RecyclingMethod::Verified });
    let seconds = |count| Some(Duration::from_secs(count));
    let timeouts = Timeouts { wait: seconds(20), create: seconds(2), recycle: seconds(1) };
    config.pool = Some(PoolConfig { timeouts, ..PoolConfig::new(LIMIT) });
    config.create_pool(Some(Runtime::Tokio1), NoTls).expect("a pool")
}

async fn open_accounts(judge: &Client) {
    let tables = format!(
        "DROP TABLE IF EXISTS accounts, moves;
         CREATE TABLE accounts (id bigint PRIMARY KEY, balance bigint NOT NULL);
         CREATE TABLE moves (id bigint PRIMARY KEY, payer bigint, payee bigint, amount bigint);
         INSERT INTO accounts SELECT id, {EACH} FROM generate_series(0, {ACCOUNTS} - 1) id"
    );
    judge.batch_execute(&tables).await.expect("tables");
}

/// Fails unless all places can be had at once, with connections that answer, and no other.
async fn is_whole(pool: &Pool, judge: &Client) {
    let status = pool.status();
    assert!(status.waiting == 0 && status.size == status.available && status.size <= LIMIT, "{status:?}");
    // (a connection that has gone is not to be handed out)
    end_all(judge, NAME).await;
    let at_once = Timeouts::wait_millis(0);
    let mut all = Vec::new();
    for _ in 0..LIMIT {
        let client = pool.timeout_get(&at_once).await.expect("a place is free");
        assert_eq!(client.query_one("SELECT 41 + 1", &[]).await.expect("it answers").get::<_, i32>(0), 42);
        all.push(client);
    }
    assert!(matches!(pool.timeout_get(&at_once).await, Err(PoolError::Timeout(TimeoutType::Wait))));
    until_open(judge, NAME, LIMIT as i64).await;
    drop(all);
    let status = pool.status();
    assert_eq!((status.size, status.available, status.waiting), (LIMIT, LIMIT, 0));
}

/// Fails unless each account has what its moves say, and each transfer that was said to be kept is among them.
async fn books_agree(ledger: &Ledger, judge: &Client) {
    let number = async |query: &str| -> i64 { judge.query_one(query, &[]).await.expect("a number").get(0) };
    assert_eq!(number("SELECT sum(balance)::bigint FROM accounts").await, ACCOUNTS * EACH);
    let wrong = format!(
        "SELECT count(*) FROM accounts a WHERE balance <> {EACH}
         + (SELECT coalesce(sum(amount), 0) FROM moves WHERE payee = a.id)
         - (SELECT coalesce(sum(amount), 0) FROM moves WHERE payer = a.id)"
    );
    assert_eq!(number(&wrong).await, 0, "accounts differ from their moves");
    let kept = ledger.kept.lock().expect("no task has panicked").clone();
    let lost = "SELECT count(*) FROM unnest($1::bigint[]) it WHERE NOT EXISTS (SELECT FROM moves WHERE id = it)";
    assert_eq!(judge.query_one(lost, &[&kept]).await.expect("a count").get::<_, i64>(0), 0, "transfers are lost");
    // (of one that was cut off at its commit nobody knows)
    let unknown = ledger.cancelled.load(SeqCst) + ledger.failed.load(SeqCst);
    let moves = number("SELECT count(*) FROM moves").await as usize;
    assert!(
        (kept.len()..=kept.len() + unknown).contains(&moves),
        "{moves} moves, {} kept, {unknown} unknown",
        kept.len()
    );
}

fn tell(ledger: &Ledger, disturbed: &Disturbed, took: Duration) -> usize {
    let [begun, cancelled, failed, late, unconnected] =
        [&ledger.begun, &ledger.cancelled, &ledger.failed, &ledger.late, &ledger.unconnected].map(|it| it.load(SeqCst));
    let Disturbed { ended, restarts } = disturbed;
    println!(
        "{begun} transfers begun, {} kept, {cancelled} cancelled, {failed} failed, {late} late, {unconnected} without a \
         connection; {ended} connections ended, {restarts} restarts; {:.1} s",
        ledger.kept(),
        took.as_secs_f64()
    );
    cancelled
}

async fn run(pool: &Pool, ledger: &Arc<Ledger>) {
    let begun = Instant::now();
    let judge = judge().await;
    open_accounts(&judge).await;
    let tasks: Vec<_> =
        (0..TASKS).map(|seed| tokio::spawn(transfers::make(pool.clone(), ledger.clone(), seed))).collect();
    let disturber = tokio::spawn(disturbed::disturb(ledger.clone()));
    for task in tasks {
        task.await.expect("a task ends");
    }
    let disturbed = disturber.await.expect("it ends");
    let cancelled = tell(ledger, &disturbed, begun.elapsed());
    assert!(cancelled * 8 > ledger.begun.load(SeqCst) && disturbed.restarts == 2 && disturbed.ended > 0, "it was calm");
}

/// Waits until no transfer was kept for a while, and says how many there are.
async fn headway_ends(ledger: &Ledger) -> usize {
    loop {
        let kept = ledger.kept();
        tokio::time::sleep(PATIENCE).await;
        if ledger.kept() == kept {
            return kept;
        }
    }
}

#[test]
fn the_books_agree_though_transfers_are_cancelled_and_the_server_is_restarted() {
    let executor = tokio::runtime::Builder::new_multi_thread().worker_threads(4).enable_all().build();
    executor.expect("an executor").block_on(async {
        let (pool, ledger) = (bank_pool(), Arc::new(Ledger::new()));
        tokio::select! {
            () = run(&pool, &ledger) => {}
            kept = headway_ends(&ledger) => panic!("no transfer is kept after {kept}: {:?}", pool.status()),
        }
        let judge = judge().await;
        is_whole(&pool, &judge).await;
        pool.close();
        until_open(&judge, NAME, 0).await;
        books_agree(&ledger, &judge).await;
        assert_eq!(open(&judge, NAME).await, 0);
    });
}
