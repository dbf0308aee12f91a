//! A thread that waits for a future.
mod common;

use common::{Numbers, is_answered};
use deadpool::Runtime;
use deadpool::managed::{Pool, PoolError, TimeoutType};
use std::task::Poll;
use std::thread;
use std::time::{Duration, Instant};

#[test]
fn a_wait_survives_a_park_of_what_it_calls() {
    let (sender, receiver) = std::sync::mpsc::channel();
    let parks = std::future::poll_fn(move |cx| match receiver.try_recv() {
        Ok(value) => Poll::Ready(value),
        Err(_) => {
            let (sender, waker) = (sender.clone(), cx.waker().clone());
            thread::spawn(move || {
                sender.send(7).expect("it is received");
                waker.wake();
            });
            // (this takes the wake of the thread's park, if it has come by then)
            thread::park_timeout(Duration::from_millis(20));
            Poll::Pending
        }
    });
    assert!(is_answered(move || assert_eq!(deadpool::wait(parks), 7)));
}

/// What the system says a thread is doing: `S` if it sleeps.
#[cfg(target_os = "linux")]
fn state_of(thread: &std::path::Path) -> Option<char> {
    let told = std::fs::read_to_string(std::path::Path::new("/proc").join(thread).join("stat")).ok()?;
    told.rsplit(')').next()?.trim_start().chars().next()
}

#[test]
#[cfg(target_os = "linux")]
fn a_thread_that_waits_sleeps() {
    let (sender, receiver) = std::sync::mpsc::channel();
    let pool = deadpool::unmanaged::Pool::new(1);
    let other = pool.clone();
    let waits = thread::spawn(move || {
        sender.send(std::fs::read_link("/proc/thread-self").expect("a thread has a name")).expect("it is received");
        deadpool::wait(other.remove())
    });
    let waiting = receiver.recv().expect("a thread");
    // (a thread that is held up for a moment sleeps too, but not each time that one looks)
    let mut looks = 0;
    let mut sleeps = || {
        thread::sleep(Duration::from_millis(1));
        looks = if state_of(&waiting) == Some('S') { looks + 1 } else { 0 };
        looks == 50
    };
    assert!((0..5_000).any(|_| sleeps()), "it asks again and again");
    pool.try_add(7).expect("there is room");
    assert_eq!(waits.join().expect("a thread"), Ok(7));
}

#[test]
fn a_thread_gets_by_two_words() {
    let letters = deadpool::unmanaged::Pool::from(["a letter"]);
    let held = letters.get_blocking().expect("a letter");
    let other = letters.clone();
    let waits = thread::spawn(move || *other.get_blocking().expect("a letter"));
    drop(held);
    assert_eq!(waits.join().expect("a thread"), "a letter");
    letters.close();
    assert!(letters.get_blocking().is_err());
    let numbers: Pool<Numbers> = Pool::builder(Numbers::default()).max_size(1).build().expect("a pool");
    assert_eq!(*numbers.get_blocking().expect("a number"), 0);
}

#[test]
fn a_get_has_a_time_of_its_own() {
    let builder = Pool::builder(Numbers::default()).max_size(1).runtime(Runtime::Thread);
    let pool: Pool<Numbers> = builder.wait_timeout(Some(Duration::from_secs(3600))).build().expect("a pool");
    let held = pool.get_blocking().expect("a number");
    let begun = Instant::now();
    let short = Duration::from_millis(30);
    for most in [Duration::ZERO, short] {
        assert!(matches!(deadpool::wait(pool.get_timeout(most)), Err(PoolError::Timeout(TimeoutType::Wait))));
    }
    assert!((short..3000 * short).contains(&begun.elapsed()));
    drop(held);
    assert!(deadpool::wait(pool.get_timeout(Duration::ZERO)).is_ok());
    let untimed: Pool<Numbers> = Pool::builder(Numbers::default()).build().expect("a pool");
    assert!(matches!(deadpool::wait(untimed.get_timeout(short)), Err(PoolError::NoRuntimeSpecified)));
}
