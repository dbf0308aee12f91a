//! Gets that are dropped, at each point at which they wait.
mod common;

use common::{Task, block_on};
use deadpool::managed::{Hook, HookError, HookFuture, Manager, Metrics, Pool, RecycleError, RecycleResult};
use std::pin::Pin;
use std::sync::Arc;
use std::sync::atomic::{AtomicUsize, Ordering};
use std::thread;

const LIMIT: usize = 2;

/// How a call behaves: it may wait or not, and may then refuse or not.
#[derive(Clone, Copy)]
struct Behaviour {
    waits: bool,
    refuses: bool,
}

impl Behaviour {
    /// Of one of five kinds of calls, by two bits of a number.
    fn of(number: usize, kind: usize) -> Self {
        let bits = number >> (2 * kind);
        Behaviour { waits: bits & 1 == 1, refuses: bits & 2 == 2 }
    }

    async fn answer(self) -> Result<(), ()> {
        if self.waits {
            common::pause().await;
        }
        if self.refuses { Err(()) } else { Ok(()) }
    }
}

struct Moody {
    create: Behaviour,
    recycle: Behaviour,
    living: Arc<AtomicUsize>,
}

/// Counts how many values there are.
struct Living(Arc<AtomicUsize>);

impl Drop for Living {
    fn drop(&mut self) {
        self.0.fetch_sub(1, Ordering::SeqCst);
    }
}

impl Manager for Moody {
    type Type = Living;
    type Error = ();

    async fn create(&self) -> Result<Living, ()> {
        self.create.answer().await?;
        self.living.fetch_add(1, Ordering::SeqCst);
        Ok(Living(self.living.clone()))
    }

    async fn recycle(&self, _: &mut Living, _: &Metrics) -> RecycleResult<()> {
        self.recycle.answer().await.map_err(RecycleError::Backend)
    }
}

fn hook(behaviour: Behaviour) -> Hook<Moody> {
    Hook::async_fn(move |_, _| -> HookFuture<'_, ()> {
        Pin::from(Box::new(async move { behaviour.answer().await.map_err(HookError::Backend) }))
    })
}

fn moody(number: usize) -> (Pool<Moody>, Arc<AtomicUsize>) {
    let living = Arc::new(AtomicUsize::new(0));
    let [create, recycle, post_create, pre_recycle, post_recycle] =
        std::array::from_fn(|kind| Behaviour::of(number, kind));
    let manager = Moody { create, recycle, living: living.clone() };
    let pool = Pool::builder(manager)
        .max_size(LIMIT)
        .post_create(hook(post_create))
        .pre_recycle(hook(pre_recycle))
        .post_recycle(hook(post_recycle))
        .build()
        .expect("a pool");
    (pool, living)
}

fn look(pool: &Pool<Moody>, number: usize) {
    let status = pool.status();
    assert!(status.size <= LIMIT && status.available <= LIMIT, "{number}: {status:?}");
}

/// A get that is dropped after so many polls, unless it has ended before.
fn get_and_drop(pool: &Pool<Moody>, polls: usize) {
    let mut get = Task::new(pool.get());
    for _ in 0..polls {
        if get.poll().is_ready() {
            return;
        }
    }
}

fn play(number: usize) {
    let (pool, living) = moody(number);
    let kept = block_on(pool.get()).ok();
    for polls in 0..6 {
        get_and_drop(&pool, polls);
        look(&pool, number);
    }
    // One that waits in the queue, dropped before and after it was given a place.
    let others: Vec<_> = (0..LIMIT).map_while(|_| Task::new(pool.get()).poll_once()).collect();
    let mut waiting: Vec<_> = (0..3).map(|_| Task::new(pool.get())).collect();
    for get in &mut waiting {
        let _ = get.poll();
    }
    drop(waiting.remove(1));
    look(&pool, number);
    drop((kept, others));
    drop(waiting);
    look(&pool, number);
    let status = pool.status();
    assert_eq!((status.waiting, status.size), (0, status.available), "{number}");
    assert_eq!(living.load(Ordering::SeqCst), status.size, "{number}");
    drop(pool);
    assert_eq!(living.load(Ordering::SeqCst), 0, "{number}");
}

impl<T, E> Task<'_, Result<T, E>> {
    /// What it gives at its first poll, if anything.
    fn poll_once(mut self) -> Option<T> {
        match self.poll() {
            std::task::Poll::Ready(Ok(object)) => Some(object),
            _ => None,
        }
    }
}

#[test]
fn no_place_is_lost_at_any_point() {
    (0..1024).for_each(play);
}

#[test]
fn no_place_is_lost_between_threads() {
    let pools: Vec<_> = (0..1000).map(moody).collect();
    thread::scope(|scope| {
        for thread in 0..16 {
            let pools = &pools;
            scope.spawn(move || {
                for (number, (pool, _)) in pools.iter().enumerate() {
                    get_and_drop(pool, (number + thread) % 6);
                    look(pool, number);
                }
            });
        }
    });
    for (number, (pool, living)) in pools.into_iter().enumerate() {
        let status = pool.status();
        assert_eq!((status.waiting, status.size), (0, status.available), "{number}");
        assert_eq!(living.load(Ordering::SeqCst), status.size, "{number}");
        drop(pool);
        assert_eq!(living.load(Ordering::SeqCst), 0, "{number}");
    }
}
