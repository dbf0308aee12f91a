//! A process in which no thread can start: what needs one is refused, and nothing panics.
// (it starts itself, which a program of another machine cannot under an emulator)
#![cfg(not(target_arch = "aarch64"))]
mod common;

use common::{Numbers, Task, counts};
use deadpool::managed::{Pool, PoolError};
use deadpool::{Runtime, SpawnBlockingError, unmanaged};
use std::process::Command;
use std::task::Poll;
use std::thread;
use std::time::Duration;

/// A stack for which no memory is there.
const STACK: &str = "70368744177664";

#[test]
fn where_no_thread_starts_a_get_says_so() {
    if std::env::var("RUST_MIN_STACK").as_deref() != Ok(STACK) {
        let mut again = Command::new(std::env::current_exe().expect("a program"));
        again
            .args(["--exact", "where_no_thread_starts_a_get_says_so", "--test-threads=1"])
            .env("RUST_MIN_STACK", STACK);
        let ended = again.output().expect("it starts");
        assert!(ended.status.success(), "{}", String::from_utf8_lossy(&ended.stdout));
        return;
    }
    assert!(thread::Builder::new().spawn(|| ()).is_err());
    let second = Some(Duration::from_secs(1));
    let builder = Pool::builder(Numbers::default()).max_size(1).runtime(Runtime::Thread).wait_timeout(second);
    let pool: Pool<Numbers> = builder.build().expect("a pool");
    let held = Task::new(pool.try_get()).ready().expect("one that may not wait needs no timer");
    assert!(matches!(Task::new(pool.get()).ready(), Err(PoolError::NoRuntimeSpecified)));
    assert_eq!(counts(pool.status()), [1, 0, 0]);
    drop(held);
    let config =
        unmanaged::PoolConfig { timeout: second, runtime: Some(Runtime::Thread), ..unmanaged::PoolConfig::new(1) };
    let other = unmanaged::Pool::<u8>::from_config(&config);
    assert!(matches!(Task::new(other.get()).ready(), Err(unmanaged::PoolError::NoRuntimeSpecified)));
    let spawned = Task::new(Runtime::Thread.spawn_blocking(|| ())).poll();
    assert!(matches!(spawned, Poll::Ready(Err(SpawnBlockingError::Panic(text))) if text.is::<String>()));
    Runtime::Thread.spawn_blocking_background(|| panic!("it runs"));
    deadpool::wait(Runtime::Thread.sleep(Duration::from_millis(5)));
}
