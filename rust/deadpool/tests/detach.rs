//! Which values the manager is told of as the pool gives them up: each once, and not those that a resize, a close or the last
//! handle takes, nor one that outlives the last handle.
mod common;

use common::{Task, block_on, pause};
use deadpool::managed::{Hook, HookError, Manager, Metrics, Object, Pool, PoolBuilder, RecycleError, RecycleResult};
use std::sync::atomic::{AtomicUsize, Ordering};
use std::sync::{Arc, Mutex};

/// Makes the numbers 0, 1, 2 and so on, and refuses to recycle the one that it is told. It notes the numbers that are detached.
#[derive(Clone, Default)]
struct Noting {
    next: Arc<AtomicUsize>,
    refused: Arc<Mutex<Option<usize>>>,
    detached: Arc<Mutex<Vec<usize>>>,
}

impl Noting {
    /// Those that were detached since the last time.
    fn detached(&self) -> Vec<usize> {
        std::mem::take(&mut self.detached.lock().expect("no panic"))
    }
}

impl Manager for Noting {
    type Type = usize;
    type Error = ();

    async fn create(&self) -> Result<usize, ()> {
        Ok(self.next.fetch_add(1, Ordering::SeqCst))
    }

    async fn recycle(&self, value: &mut usize, _: &Metrics) -> RecycleResult<()> {
        if *self.refused.lock().expect("no panic") == Some(*value) {
            pause().await;
            return Err(RecycleError::Backend(()));
        }
        Ok(())
    }

    fn detach(&self, value: &mut usize) {
        self.detached.lock().expect("no panic").push(*value);
    }
}

fn pool(max_size: usize, set: impl FnOnce(PoolBuilder<Noting>) -> PoolBuilder<Noting>) -> (Pool<Noting>, Noting) {
    let manager = Noting::default();
    let builder = Pool::builder(manager.clone()).max_size(max_size);
    (set(builder).build().expect("a pool"), manager)
}

fn get(pool: &Pool<Noting>) -> Object<Noting> {
    block_on(pool.get()).expect("an object")
}

#[test]
fn what_a_get_gives_up_is_detached() {
    let refuse = |refused| {
        Hook::sync_fn(
            move |value: &mut usize, _: &Metrics| {
                if *value == refused { Err(HookError::message("refused")) } else { Ok(()) }
            },
        )
    };
    let (pool, manager) = pool(1, |it| it.post_create(refuse(0)).pre_recycle(refuse(1)).post_recycle(refuse(2)));
    assert!(block_on(pool.get()).is_err());
    assert_eq!(manager.detached(), [0]);
    assert_eq!(*get(&pool), 1);
    *manager.refused.lock().expect("no panic") = Some(3);
    for refused in [1, 2, 3] {
        assert_eq!(*get(&pool), refused + 1);
        assert_eq!(manager.detached(), [refused]);
    }
    // A get is dropped while its object is recycled.
    *manager.refused.lock().expect("no panic") = Some(4);
    let mut dropped = Task::new(pool.get());
    assert!(dropped.poll().is_pending());
    assert_eq!(manager.detached(), []);
    drop(dropped);
    assert_eq!(manager.detached(), [4]);
}

#[test]
fn what_is_taken_retained_or_too_many_is_detached() {
    let (pool, manager) = pool(3, |it| it);
    let [zero, one, two] = [get(&pool), get(&pool), get(&pool)];
    assert_eq!(Object::take(one), 1);
    assert_eq!(manager.detached(), [1]);
    drop(two);
    pool.resize(1);
    assert_eq!(manager.detached(), []);
    drop(zero);
    assert_eq!(manager.detached(), []);
    pool.resize(3);
    let out = [get(&pool), get(&pool), get(&pool)];
    pool.resize(1);
    drop(out);
    assert_eq!(manager.detached(), [0, 3]);
    assert_eq!(pool.retain(|_, _| false).removed, [4]);
    assert_eq!(manager.detached(), [4]);
    let held = get(&pool);
    pool.close();
    drop(held);
    assert_eq!(manager.detached(), [5]);
}

#[test]
fn what_a_resize_a_close_or_the_last_handle_takes_is_not_detached() {
    let (pool, manager) = pool(4, |it| it);
    let [kept, taken, idle, other] = [get(&pool), get(&pool), get(&pool), get(&pool)];
    drop((idle, other));
    pool.resize(3);
    assert_eq!(manager.detached(), []);
    drop(pool);
    drop(kept);
    assert_eq!(Object::take(taken), 1);
    assert_eq!(manager.detached(), []);
    let (pool, manager) = self::pool(1, |it| it);
    drop(get(&pool));
    pool.close();
    assert_eq!((pool.status().size, manager.detached()), (0, vec![]));
}
