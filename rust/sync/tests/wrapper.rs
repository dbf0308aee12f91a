//! Closures on a value that blocks: one after the other, to their end, also where one panics or nobody awaits it any more.
use deadpool_sync::{InteractError, Runtime, SyncWrapper};
use std::convert::Infallible;
use std::sync::atomic::{AtomicBool, Ordering::SeqCst};
use std::sync::mpsc::channel;
use std::sync::{Arc, TryLockError};
use std::thread;
use std::time::Duration;
use tokio::time::{sleep, timeout};

const SOON: Duration = Duration::from_millis(20);

async fn wrapped<T: Send + 'static>(value: T) -> SyncWrapper<T> {
    SyncWrapper::new(Runtime::Tokio1, || Ok::<_, Infallible>(value)).await.expect("a value")
}

#[tokio::test]
async fn a_closure_changes_the_value_in_a_thread_of_its_own() {
    let here = thread::current().id();
    let list = wrapped(vec![1]).await;
    let there = list.interact(|list| {
        list.push(2);
        thread::current().id()
    });
    assert_ne!(there.await.expect("it does not panic"), here);
    let mut lent = list.lock().expect("it is not poisoned");
    lent.push(3);
    assert_eq!((lent.len(), lent.as_ref().as_slice(), format!("{lent:?}")), (3, &[1, 2, 3][..], "[1, 2, 3]".into()));
    lent.as_mut().clear();
    drop(lent);
    assert_eq!(list.interact(|list| list.len()).await.expect("it does not panic"), 0);
    assert!(format!("{list:?}").contains("Tokio1"));
}

#[tokio::test]
async fn the_error_of_a_first_closure_is_given_on_and_so_is_its_panic() {
    let refused = SyncWrapper::<u8>::new(Runtime::Tokio1, || Err("no such file")).await;
    assert_eq!(refused.err(), Some("no such file"));
    let panics = tokio::spawn(SyncWrapper::<u8>::new(Runtime::Tokio1, || -> Result<u8, ()> { panic!("planned") }));
    let panic = panics.await.err().expect("it panics").into_panic();
    assert_eq!(panic.downcast_ref(), Some(&"planned"));
}

#[tokio::test]
async fn a_panic_poisons_the_value() {
    let number = wrapped(7).await;
    let ended = number.interact(|_| panic!("planned")).await;
    let Err::<(), _>(InteractError::Panic(panic)) = ended else { panic!("it has panicked") };
    assert_eq!(panic.downcast_ref(), Some(&"planned"));
    assert!(number.is_mutex_poisoned() && number.lock().is_err());
    assert!(matches!(number.try_lock(), Err(TryLockError::Poisoned(_))));
    let error = number.interact(|it| *it).await.expect_err("it is poisoned");
    assert_eq!(error.to_string(), "Panic");
    assert_eq!(InteractError::Aborted.to_string(), "Aborted");
}

#[tokio::test]
async fn a_closure_ends_though_nobody_awaits_it_and_the_next_one_waits_for_that() {
    let (begin, begun) = channel();
    let (go_on, goes_on) = channel();
    let number = wrapped(0).await;
    let cut_off = number.interact(move |number| {
        begin.send(()).expect("it is received");
        goes_on.recv().expect("it is told");
        *number = 1;
    });
    assert!(timeout(SOON, cut_off).await.is_err());
    begun.recv().expect("it has begun");
    assert!(matches!(number.try_lock(), Err(TryLockError::WouldBlock)));
    let next = number.interact(|number| *number);
    tokio::pin!(next);
    assert!(timeout(SOON, &mut next).await.is_err());
    go_on.send(()).expect("it is received");
    assert_eq!(next.await.expect("it does not panic"), 1);
}

/// Says where it was dropped.
struct Dropped(Arc<AtomicBool>, thread::ThreadId);

impl Drop for Dropped {
    fn drop(&mut self) {
        self.0.store(thread::current().id() != self.1, SeqCst);
    }
}

#[tokio::test]
async fn the_value_is_dropped_in_another_thread_also_if_it_is_poisoned() {
    for is_poisoned in [false, true] {
        let elsewhere = Arc::new(AtomicBool::new(false));
        let value = wrapped(Dropped(elsewhere.clone(), thread::current().id())).await;
        if is_poisoned {
            assert!(value.interact(|_| panic!("planned")).await.is_err());
        }
        drop(value);
        while !elsewhere.load(SeqCst) {
            sleep(Duration::from_millis(1)).await;
        }
    }
}
