//! A thousand tasks on four workers of tokio share eight objects. They are cancelled by timeouts, by `select!` and by aborts; manager
//! and hooks are slow, hang, refuse and panic; the limit changes meanwhile. At the end the pool is whole.
mod backend;

use backend::{Random, Seen, Slow, hook};
use deadpool::Runtime;
use deadpool::managed::{Object, Pool, PoolError, TimeoutType, Timeouts};
use std::sync::Arc;
use std::sync::atomic::{AtomicUsize, Ordering::SeqCst};
use std::time::Duration;
use tokio::task::JoinHandle;

const LIMIT: usize = 8;
const TASKS: usize = 1000;
const ROUNDS: usize = 10;
/// A storm takes a second. One in which a place is lost has tasks that wait for good.
const DEADLINE: Duration = Duration::from_secs(60);

/// How the gets of a storm ended.
#[derive(Default)]
struct Ends {
    served: AtomicUsize,
    late: AtomicUsize,
    refused: AtomicUsize,
    cancelled: AtomicUsize,
}

/// Uses an object: at once, over a yield or a while; takes it, or gives it to another task.
async fn use_object(object: Object<Slow>, random: &Random, seen: &Arc<Seen>) {
    let out = seen.holder();
    assert!(out.count() <= LIMIT, "{} objects are out", out.count());
    match random.below(10) {
        0..4 => {}
        4..6 => tokio::task::yield_now().await,
        6..8 => tokio::time::sleep(Duration::from_micros(random.below(500))).await,
        8 => {
            drop(out);
            drop(Object::take(object));
            return;
        }
        _ => {
            drop(out);
            let _ = tokio::spawn(async move { drop(object) }).await;
            return;
        }
    }
    drop(out);
    drop(object);
}

async fn get_once(pool: &Pool<Slow>, random: &Random, ends: &Ends) {
    let waits = [None, Some(0), Some(300), Some(20_000)];
    let phase = Some(Duration::from_micros(1500));
    let wait = waits[random.below(4) as usize].map(Duration::from_micros);
    match pool.timeout_get(&Timeouts { wait, create: phase, recycle: phase }).await {
        Ok(object) => {
            ends.served.fetch_add(1, SeqCst);
            use_object(object, random, &pool.manager().seen).await;
        }
        Err(PoolError::Timeout(TimeoutType::Wait | TimeoutType::Create)) => _ = ends.late.fetch_add(1, SeqCst),
        Err(PoolError::Backend(_) | PoolError::PostCreateHook(_)) => _ = ends.refused.fetch_add(1, SeqCst),
        Err(other) => panic!("{other}"),
    }
}

/// Gets objects in turn, and cancels two of three gets after a while of their own.
async fn visit(pool: Pool<Slow>, random: Random, ends: Arc<Ends>) {
    for _ in 0..ROUNDS {
        let get = get_once(&pool, &random, &ends);
        let while_ = Duration::from_micros(random.below(4000));
        let is_cancelled = match random.below(3) {
            0 => {
                get.await;
                false
            }
            1 => tokio::time::timeout(while_, get).await.is_err(),
            _ => tokio::select! {
                biased;
                () = tokio::time::sleep(while_) => true,
                () = get => false,
            },
        };
        ends.cancelled.fetch_add(usize::from(is_cancelled), SeqCst);
    }
}

/// Changes the limit, and gives up every other idle object now and then, until it is aborted.
async fn disturb(pool: Pool<Slow>, random: Random) {
    loop {
        pool.resize(random.below(LIMIT as u64 + 1) as usize);
        if random.below(4) == 0 {
            let mut is_kept = false;
            drop(pool.retain(|_, _| {
                is_kept = !is_kept;
                is_kept
            }));
        }
        tokio::time::sleep(Duration::from_micros(random.below(800))).await;
    }
}

/// Aborts a tenth of the tasks, and waits for the others.
async fn ended(tasks: Vec<JoinHandle<()>>, random: Random) {
    for task in &tasks {
        if random.below(10) == 0 {
            tokio::time::sleep(Duration::from_micros(random.below(3000))).await;
            task.abort();
        }
    }
    for task in tasks {
        if let Err(error) = task.await
            && let Ok(panic) = error.try_into_panic()
        {
            assert_eq!(panic.downcast_ref(), Some(&backend::PLANNED));
        }
    }
}

/// Fails unless all places can be had at once, and no other.
async fn is_whole(pool: &Pool<Slow>) {
    let (status, live) = (pool.status(), pool.manager().seen.live());
    assert!(status.waiting == 0 && status.size == status.available, "{status:?}");
    assert!(status.max_size == LIMIT && status.size <= LIMIT && status.size == live, "{status:?}, {live} values");
    pool.manager().calm();
    let at_once = Timeouts { wait: Some(Duration::ZERO), ..Timeouts::new() };
    let mut all = Vec::new();
    // (a hook refuses one of twenty)
    for _ in 0..50 * LIMIT {
        match pool.timeout_get(&at_once).await {
            Ok(object) => all.push(object),
            Err(PoolError::PostCreateHook(_)) => {}
            Err(PoolError::Timeout(TimeoutType::Wait)) => break,
            Err(other) => panic!("{other}"),
        }
    }
    assert_eq!(all.len(), LIMIT, "places are lost or left over");
    drop(all);
    assert_eq!(pool.status().available, pool.status().size);
}

async fn storm(seed: u64, is_disturbed: bool) {
    let builder = Pool::builder(Slow::new(seed)).max_size(LIMIT).runtime(Runtime::Tokio1);
    let builder = builder.post_create(hook(seed ^ 7)).pre_recycle(hook(seed ^ 8)).post_recycle(hook(seed ^ 9));
    let pool: Pool<Slow> = builder.build().expect("a pool");
    let ends = Arc::new(Ends::default());
    let random_of = |at| Random::new(seed.wrapping_mul(1_000_003).wrapping_add(at));
    let tasks = (0..TASKS as u64).map(|at| tokio::spawn(visit(pool.clone(), random_of(at), ends.clone()))).collect();
    let disturber = is_disturbed.then(|| tokio::spawn(disturb(pool.clone(), Random::new(seed ^ 77))));
    if tokio::time::timeout(DEADLINE, ended(tasks, Random::new(seed ^ 0xABCD))).await.is_err() {
        panic!("seed {seed}: there are tasks that wait for good, {:?}", pool.status());
    }
    if let Some(it) = disturber {
        it.abort();
        let end = it.await.expect_err("it ends by the abort alone");
        assert!(end.is_cancelled(), "{end}");
        pool.resize(LIMIT);
    }
    let [served, late, refused, cancelled] =
        [&ends.served, &ends.late, &ends.refused, &ends.cancelled].map(|it| it.load(SeqCst));
    println!("seed {seed}: served {served}, late {late}, refused {refused}, cancelled {cancelled}");
    assert!([served, late, refused, cancelled].iter().all(|count| *count > 0), "it was no storm");
    is_whole(&pool).await;
}

fn storms(seeds: std::ops::Range<u64>, is_disturbed: bool) {
    backend::hide_planned_panics();
    for seed in seeds {
        let builder = &mut tokio::runtime::Builder::new_multi_thread();
        let executor = builder.worker_threads(4).enable_all().build().expect("an executor");
        executor.block_on(storm(seed, is_disturbed));
    }
}

#[test]
fn a_pool_is_whole_after_a_storm() {
    storms(1..4, false);
}

#[test]
fn a_pool_is_whole_after_a_storm_in_which_its_limit_changes() {
    storms(11..17, true);
}
