//! A rough run: calls that are cut off at any point, and connections that the server ends. It ends those of everybody, so it is a
//! program of its own.
mod common;

use common::{asked, pool_of};
use deadpool_redis::{Pool, Timeouts};
use std::sync::Arc;
use std::sync::atomic::{AtomicU64, Ordering::SeqCst};
use std::time::Duration;
use tokio::time::timeout;

const LIMIT: usize = 8;
const TASKS: u64 = 64;
const TURNS: u64 = 150;

/// How the turns of a rough run ended.
#[derive(Default)]
struct Ends {
    added: AtomicU64,
    unknown: AtomicU64,
    kills: AtomicU64,
}

/// Adds one, and says whether it was. Now and then all other connections are ended instead.
async fn add_one(pool: &Pool, ends: &Ends, kills: bool) -> bool {
    let Ok(mut connection) = pool.get().await else { return false };
    if kills {
        let words = ["CLIENT", "KILL", "TYPE", "normal", "SKIPME", "yes"];
        ends.kills.fetch_add(1, SeqCst);
        return asked::<i64>(&mut connection, &words).await.is_ok();
    }
    let is_added = asked::<i64>(&mut connection, &["INCR", "of_all"]).await.is_ok();
    ends.added.fetch_add(u64::from(is_added), SeqCst);
    is_added
}

#[test]
fn a_rough_run_leaves_each_increment_and_the_pool_whole() {
    let executor = tokio::runtime::Builder::new_multi_thread().worker_threads(4).enable_all().build();
    executor.expect("an executor").block_on(async {
        let pool = pool_of(LIMIT);
        asked::<()>(&mut pool.get().await.expect("a connection"), &["SET", "of_all", "0"]).await.expect("it is set");
        let ends = Arc::new(Ends::default());
        let turns = |pool: Pool, ends: Arc<Ends>, task: u64| async move {
            for turn in 0..TURNS {
                let number = task * TURNS + turn;
                let add = add_one(&pool, &ends, number % 500 == 7);
                let is_known = if number % 4 == 0 {
                    timeout(Duration::from_micros(number % 900), add).await.unwrap_or(false)
                } else {
                    add.await
                };
                ends.unknown.fetch_add(u64::from(!is_known), SeqCst);
            }
        };
        let tasks: Vec<_> = (0..TASKS).map(|task| tokio::spawn(turns(pool.clone(), ends.clone(), task))).collect();
        for task in tasks {
            task.await.expect("a task ends");
        }
        let mut all = Vec::new();
        for _ in 0..LIMIT {
            all.push(pool.get().await.expect("a connection"));
        }
        assert!(pool.timeout_get(&Timeouts::wait_millis(0)).await.is_err(), "a ninth");
        let counted: u64 = asked(&mut all[0], &["GET", "of_all"]).await.expect("a number");
        let [added, unknown, kills] = [&ends.added, &ends.unknown, &ends.kills].map(|it| it.load(SeqCst));
        println!("{counted} counted, {added} added, {unknown} cut off or ended, {kills} kills");
        assert!((added..=added + unknown).contains(&counted) && unknown > 0 && kills > 0);
        drop(all);
        let status = pool.status();
        assert_eq!((status.size, status.available, status.waiting), (LIMIT, LIMIT, 0));
    });
}
