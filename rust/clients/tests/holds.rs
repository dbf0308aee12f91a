//! What the crate tracing is told of objects that are held for long, once each, and of gets that are late, all without the lock.
mod told;

use deadpool::managed::{Object, Pool, PoolError, TimeoutType, held_by};
use deadpool::{Runtime, wait};
use std::future::poll_fn;
use std::pin::pin;
use std::sync::{Arc, Mutex};
use std::task::Poll;
use std::thread::sleep;
use std::time::Duration;
use told::{GET, Numbers, Told, get, told_of};

const FEW: Duration = Duration::from_millis(10);
const MORE: Duration = Duration::from_millis(15);

/// What the field of a line has that is a time, in milliseconds, and the line without it.
fn without_millis(line: &str, field: &str) -> (f64, String) {
    let (begin, rest) = line.split_once(&format!(" {field}=")).unwrap_or_else(|| panic!("no {field}: {line}"));
    let (time, rest) = rest.split_once(' ').unwrap_or((rest, ""));
    let (number, factor) = match time.strip_suffix("ms") {
        Some(number) => (number, 1.0),
        None => (time.strip_suffix('s').unwrap_or_else(|| panic!("no time: {line}")), 1000.0),
    };
    (number.parse::<f64>().expect("a number") * factor, format!("{begin} {rest}"))
}

fn held_for_long(object: usize, is_out: bool, line: &str) {
    let (held, rest) = without_millis(line, "held");
    let expected = format!("message=an object is held for long pool=orders object={object} holder=checkout");
    assert_eq!(rest, format!("WARN {expected} waited=0ns is_out={is_out}"));
    assert!(held >= 15.0, "{held}");
}

/// An object that has been out for longer than some milliseconds.
fn get_for_long(pool: &Pool<Numbers>, told: &Told) -> Object<Numbers> {
    let object = wait(held_by("checkout", pool.get())).expect("an object");
    sleep(MORE);
    told.lines();
    object
}

#[test]
fn a_late_get_says_how_its_pool_stands() {
    for times_waits in [false, true] {
        let lines = told_of(
            1,
            |it| it.runtime(Runtime::Thread).times_waits(times_waits).max_waiting(Some(2)),
            |pool, told| {
                let _out = get(pool);
                let mut waits = pin!(pool.get());
                wait(poll_fn(|cx| Poll::Ready(assert!(waits.as_mut().poll(cx).is_pending()))));
                told.lines();
                assert!(matches!(wait(pool.get_timeout(MORE)), Err(PoolError::Timeout(TimeoutType::Wait))));
                // (by the text that each program has)
                let text = format!("{}: {pool:?}", PoolError::<&str>::Timeout(TimeoutType::Wait));
                assert!(text.ends_with("max_size: 1, size: 1, available: 0, waiting: 1, is_closed: false }"), "{text}");
            },
        );
        let late = if times_waits {
            let (waited, rest) = without_millis(&lines[0], "waited");
            assert!(waited >= 15.0, "{waited}");
            rest
        } else {
            lines[0].clone()
        };
        assert_eq!(late, "message=a get is late pool=orders status=max_size 1, size 1, available 0, waiting 1");
    }
}

#[test]
fn a_long_hold_is_told_as_it_ends() {
    let ends: [fn(Object<Numbers>); 2] = [drop, |object| _ = Object::take(object)];
    for end in ends {
        let lines = told_of(
            1,
            |it| it.hold_threshold(Some(FEW)),
            |pool, told| {
                let object = get_for_long(pool, told);
                end(object);
            },
        );
        assert_eq!(lines.len(), 1, "{lines:?}");
        held_for_long(0, false, &lines[0]);
    }
}

#[test]
fn a_long_hold_is_told_once_if_the_list_is_asked_for() {
    let lines = told_of(
        2,
        |it| it.hold_threshold(Some(FEW)),
        |pool, told| {
            for _ in 0..2 {
                let out = [get(pool), get_for_long(pool, told)].map(Some);
                let [Some(first), object] = out else { panic!("two are out") };
                drop(first);
                told.lines();
                assert_eq!(pool.holders().len(), 1);
                let lines = told.lines();
                assert_eq!(lines.len(), 1, "{lines:?}");
                held_for_long(1, true, &lines[0]);
                assert_eq!(pool.holders().len(), 1);
                drop(object);
                // (so that the same one is out once more)
                pool.retain(|_, _| true);
            }
        },
    );
    assert!(lines.is_empty(), "{lines:?}");
}

#[test]
fn a_late_get_tells_of_long_holds() {
    let lines = told_of(
        1,
        |it| it.hold_threshold(Some(FEW)),
        |pool, told| {
            let _object = get_for_long(pool, told);
            for _ in 0..2 {
                assert!(wait(pool.try_get()).is_err());
            }
        },
    );
    let late = "message=a get is late pool=orders waited=0ns status=max_size 1, size 1, available 0, waiting 0";
    let ended = format!("{GET}>");
    held_for_long(0, true, &lines[1]);
    assert_eq!([&lines[..1], &lines[2..]].concat(), [late, &ended, late, &ended]);
}

#[test]
fn a_hold_that_is_not_long_is_not_told() {
    for threshold in [None, Some(Duration::from_secs(3600))] {
        let lines = told_of(
            1,
            |it| it.tracks_holders(true).hold_threshold(threshold),
            |pool, told| {
                let object = get_for_long(pool, told);
                assert_eq!(pool.holders().len(), 1);
                drop(object);
            },
        );
        assert!(lines.is_empty(), "{lines:?}");
    }
}

/// Who is told may panic, so the object is back by then.
#[test]
fn a_hold_is_told_once_its_object_is_back() {
    let seen = Arc::<Mutex<Vec<usize>>>::default();
    told_of(
        1,
        |it| it.hold_threshold(Some(FEW)),
        |pool, told| {
            let object = get_for_long(pool, told);
            let (pool, seen) = (pool.clone(), seen.clone());
            let look = move || seen.lock().expect("no panic").push(pool.status().available);
            *told.0.looks.lock().expect("no panic") = Some(Box::new(look));
            drop(object);
        },
    );
    assert_eq!(*seen.lock().expect("no panic"), [1]);
}
