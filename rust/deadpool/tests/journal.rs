//! The steps that a pool notes.
mod common;

use common::{Numbers, Task, block_on, pause};
use deadpool::managed::{Hook, HookError, Manager, Metrics, Pool, PoolError, RecycleError, RecycleResult};
use std::sync::Mutex;

#[test]
fn a_journal_has_each_step_with_its_reply() {
    let pool: Pool<Numbers> = Pool::builder(Numbers::default()).max_size(1).journal(12).build().expect("a pool");
    let held = block_on(pool.get()).expect("an object");
    let mut waiter = Task::new(pool.get());
    assert!(waiter.poll().is_pending());
    drop(held);
    drop(block_on(async { waiter.poll() }));
    assert_eq!(pool.status().max_size, 1);
    drop(waiter);
    assert_eq!(pool.retain(|_, _| false).removed, [0]);
    pool.resize(3);
    pool.close();
    let journal = pool.journal();
    let entries = [
        "enter create",
        "created 0",
        "enter waiting 0",
        "back 0 kept",
        "ask 0 object 0 left 0",
        "back 0 kept",
        "status 1 1 1 0",
        "retain removed 0@0",
        "resize 3 done",
        "close done",
    ];
    assert_eq!(journal.entries, entries);
    assert!(!journal.is_full);
    assert_eq!(journal.to_string(), format!("opened 1 fifo 0\n{}", entries.join("\n")));
    assert!(matches!(block_on(pool.get()), Err(PoolError::Closed)));
    drop(pool.clone());
    assert!(pool.journal().is_full);
    assert!(pool.journal().to_string().ends_with("enter closed\nclone_handle done\nfull"));
}

/// Answers as it is told, after a pause. Without an answer it accepts.
#[derive(Default)]
struct Told(Mutex<Vec<bool>>);

impl Told {
    async fn answer(&self) -> Result<(), ()> {
        pause().await;
        if self.0.lock().expect("no panic").pop().unwrap_or(true) { Ok(()) } else { Err(()) }
    }
}

impl Manager for Told {
    type Type = ();
    type Error = ();

    async fn create(&self) -> Result<(), ()> {
        self.answer().await
    }

    async fn recycle(&self, (): &mut (), _: &Metrics) -> RecycleResult<()> {
        self.answer().await.map_err(RecycleError::Backend)
    }
}

#[test]
fn a_journal_tells_how_each_get_ended() {
    let refuse_first = Mutex::new(true);
    let hook = Hook::sync_fn(move |(): &mut (), _: &Metrics| {
        let refuses = std::mem::replace(&mut *refuse_first.lock().expect("no panic"), false);
        if refuses { Err(HookError::message("the first")) } else { Ok(()) }
    });
    let builder = Pool::builder(Told::default()).max_size(1).journal(40);
    let pool: Pool<Told> = builder.post_create(hook).build().expect("a pool");
    let refuse = || pool.manager().0.lock().expect("no panic").push(false);
    refuse();
    assert!(matches!(block_on(pool.get()), Err(PoolError::Backend(()))));
    assert!(matches!(block_on(pool.get()), Err(PoolError::PostCreateHook(_))));
    let dropped_once_polled = || assert!(Task::new(pool.get()).poll().is_pending());
    dropped_once_polled();
    drop(block_on(pool.get()).expect("an object"));
    dropped_once_polled();
    drop(block_on(pool.get()).expect("an object"));
    refuse();
    let held = block_on(pool.get()).expect("an object");
    dropped_once_polled();
    drop(held);
    let entries = [
        "enter create",
        "failed done",
        "enter create",
        "created 0",
        "refused done",
        "enter create",
        "cancel creation done",
        "enter create",
        "created 1",
        "back 1 kept",
        "enter object 1 left 0",
        "cancel object done",
        "enter create",
        "created 2",
        "back 2 kept",
        "enter object 2 left 0",
        "discard done",
        "again create",
        "created 3",
        "enter waiting 0",
        "cancel ticket 0 done",
        "back 3 kept",
    ];
    assert_eq!(pool.journal().entries, entries);
}
