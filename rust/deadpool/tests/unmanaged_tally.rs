//! What an unmanaged pool counts, and how it is printed.
mod common;

use common::refusals::CROWDED;
use common::{Task, block_on};
use deadpool::Runtime;
use deadpool::unmanaged::{Object, Pool, PoolConfig, PoolError, Report, Settings, Tally};
use std::task::Poll;
use std::time::Duration;

/// Fails unless what was stored is there, or was given up for one cause.
fn balanced<T>(pool: &Pool<T>) -> Tally {
    let Report { tally, status, .. } = pool.tally();
    assert_eq!(tally.stored, status.size as u64 + tally.taken + tally.dropped, "{tally:?}, {status:?}");
    tally
}

const NONE: Tally = Tally {
    gets: 0,
    served: 0,
    waited: 0,
    late: 0,
    crowded: 0,
    closed: 0,
    adds: 0,
    stored: 0,
    adds_waited: 0,
    adds_full: 0,
    adds_crowded: 0,
    adds_closed: 0,
    taken: 0,
    dropped: 0,
};

/// Room for one object, and for one in each queue.
fn small_pool() -> Pool<u8> {
    Pool::from_settings(&Settings { max_waiting: Some(1), ..PoolConfig::new(1).into() })
}

#[test]
fn gets_are_counted_by_how_they_ended() {
    let pool = small_pool();
    assert_eq!(balanced(&pool), NONE);
    assert_eq!(pool.try_get().map(drop), Err(PoolError::Timeout));
    let mut waits = Task::new(pool.get());
    assert!(waits.poll().is_pending());
    assert_eq!(block_on(pool.get()).map(drop), Err(CROWDED));
    assert_eq!(balanced(&pool), Tally { gets: 3, waited: 1, late: 1, crowded: 1, ..NONE });
    pool.try_add(7).expect("there is room");
    let Poll::Ready(Ok(held)) = waits.poll() else { panic!("it was granted an object") };
    let mut waits = Task::new(pool.get());
    assert!(waits.poll().is_pending());
    pool.close();
    assert!(matches!(waits.poll(), Poll::Ready(Err(PoolError::Closed))));
    assert_eq!(pool.try_get().map(drop), Err(PoolError::Closed));
    drop(held);
    let wanted =
        Tally { gets: 5, served: 1, waited: 2, late: 1, crowded: 1, closed: 2, adds: 1, stored: 1, dropped: 1, ..NONE };
    assert_eq!(balanced(&pool), wanted);
}

#[test]
fn a_tally_and_its_status_are_of_one_moment() {
    let pool = small_pool();
    // (so often another thread has made steps between two looks)
    let looks = || {
        let (mut changes, mut last) = (0, 0);
        while changes < 200 {
            let taken = balanced(&pool).taken;
            changes += usize::from(taken != last);
            last = taken;
            std::thread::yield_now();
        }
    };
    std::thread::scope(|scope| {
        let looking = scope.spawn(looks);
        while !looking.is_finished() {
            pool.try_add(7).expect("there is room");
            assert_eq!(pool.try_remove(), Ok(7));
        }
    });
}

#[test]
fn a_wait_that_is_over_is_late() {
    let config = PoolConfig { runtime: Some(Runtime::Thread), ..PoolConfig::new(1) };
    let pool = Pool::<u8>::from_config(&config);
    assert!(block_on(pool.timeout_get(Some(Duration::from_millis(1)))).is_err());
    // One that is dropped while it waits is neither late nor served.
    let mut waits = Task::new(pool.get());
    assert!(waits.poll().is_pending());
    drop(waits);
    assert_eq!(balanced(&pool), Tally { gets: 2, waited: 2, late: 1, ..NONE });
}

#[test]
fn adds_are_counted_by_how_they_ended() {
    let pool = small_pool();
    pool.try_add(1).expect("there is room");
    assert_eq!(pool.try_add(2), Err((2, PoolError::Timeout)));
    let mut waits = Task::new(pool.add(3));
    assert!(waits.poll().is_pending());
    assert_eq!(block_on(pool.add(4)), Err((4, CROWDED)));
    assert_eq!(pool.try_remove(), Ok(1));
    assert!(matches!(waits.poll(), Poll::Ready(Ok(()))));
    let mut waits = Task::new(pool.add(5));
    assert!(waits.poll().is_pending());
    pool.close();
    assert!(matches!(waits.poll(), Poll::Ready(Err((5, PoolError::Closed)))));
    assert_eq!(pool.try_add(6), Err((6, PoolError::Closed)));
    let wanted = Tally {
        gets: 1,
        served: 1,
        adds: 6,
        stored: 2,
        adds_waited: 2,
        adds_full: 1,
        adds_crowded: 1,
        adds_closed: 2,
        taken: 1,
        dropped: 1,
        ..NONE
    };
    assert_eq!(balanced(&pool), wanted);
}

#[test]
fn objects_are_counted_by_why_they_went() {
    let pool = Pool::from([1, 2, 3, 4]);
    assert_eq!(balanced(&pool), Tally { adds: 4, stored: 4, ..NONE });
    let first = pool.try_get().expect("an object");
    let second = pool.try_get().expect("an object");
    drop(pool.try_get().expect("an object"));
    assert_eq!(Object::take(first), 4);
    assert_eq!(balanced(&pool), Tally { gets: 3, served: 3, adds: 4, stored: 4, taken: 1, ..NONE });
    // Two are idle, and one comes back later.
    pool.close();
    assert_eq!(balanced(&pool).dropped, 2);
    drop(second);
    assert_eq!((balanced(&pool).dropped, pool.tally().status.size), (3, 0));
}

#[test]
fn a_report_is_read_by_prometheus() {
    let pool = Pool::from([1, 2]);
    let held = pool.try_get().expect("an object");
    assert_eq!(pool.try_remove(), Ok(1));
    assert_eq!(pool.tally().name, "");
    let text = Report { name: "the \"old\"\\stock\n", ..pool.tally() }.to_string();
    let label = r#"{pool="the \"old\"\\stock\n"}"#;
    let figures: Vec<_> = text.lines().filter(|line| !line.starts_with('#')).collect();
    let names = ["max_size", "size", "available", "waiting"].map(String::from).into_iter();
    let gets = ["", "_served", "_waited", "_late", "_crowded", "_closed"].map(|how| format!("gets{how}_total"));
    let adds = ["", "_stored", "_waited", "_full", "_crowded", "_closed"].map(|how| format!("adds{how}_total"));
    let counted = [2, 1, 0, 0, 2, 2, 0, 0, 0, 0, 2, 2, 0, 0, 0, 0];
    for ((name, figure), line) in names.chain(gets).chain(adds).zip(counted).zip(&figures) {
        assert_eq!(**line, format!("pool_{name}{label} {figure}"));
        let kind = if name.ends_with("_total") { "counter" } else { "gauge" };
        assert!(text.contains(&format!("# TYPE pool_{name} {kind}\n{line}\n")), "{text}");
    }
    let (taken, dropped) = (label.replace('}', r#",cause="taken"}"#), label.replace('}', r#",cause="dropped"}"#));
    let given_up = [format!("pool_given_up_total{taken} 1"), format!("pool_given_up_total{dropped} 0")];
    assert_eq!(figures[16..], given_up);
    drop(held);
}

#[test]
fn the_books_balance_after_a_storm() {
    let pool = Pool::from([0, 1, 2, 3]);
    let threads: Vec<_> = (0..4)
        .map(|turn| {
            let pool = pool.clone();
            std::thread::spawn(move || {
                for at in 0..500 {
                    let object = deadpool::wait(pool.get()).expect("an object");
                    if (at + turn) % 7 == 0 {
                        let taken = Object::take(object);
                        deadpool::wait(pool.add(taken)).expect("there is room");
                    }
                    balanced(&pool);
                }
            })
        })
        .collect();
    threads.into_iter().for_each(|it| it.join().expect("a thread"));
    let counted = balanced(&pool);
    assert_eq!((counted.gets, counted.served), (2000, 2000));
    assert_eq!((counted.adds, counted.stored), (4 + counted.taken, 4 + counted.taken));
    deadpool::wait(pool.drain());
    assert_eq!(balanced(&pool).dropped, 4);
}

#[test]
fn a_count_is_no_entry_of_a_journal_but_the_status_is() {
    let pool = Pool::<u8>::from_settings(&Settings { journal: 9, ..PoolConfig::new(1).into() });
    let _ = pool.tally();
    assert_eq!(pool.journal().entries, ["status 1 0 0 0"]);
}
