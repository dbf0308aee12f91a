//! An unmanaged pool: gets, adds, removals, a close and drains.
use crate::ends::is_told;
use crate::pools::{Letters, Line, Log, Sees, Value, ends_as, line};
use scheduler::{Job, Program, block_on, poll_with_dead_waker};
use std::sync::Arc;

fn letters(max: usize, objects: usize) -> (Letters, Arc<Log>) {
    let log = Arc::<Log>::default();
    let pool = Letters::new(max);
    (0..objects).for_each(|_| assert!(pool.try_add(Value::new(&log)).is_ok()));
    (pool, log)
}

fn balances(pool: &Letters) {
    let report = pool.tally();
    let gone = report.tally.taken + report.tally.dropped;
    assert_eq!(report.tally.stored, report.status.size as u64 + gone, "the tally does not add up");
}

/// The pool is whole: nobody waits, nothing is out, what has left was dropped, and each object and each room can be
/// had.
fn is_whole(pool: &Letters, log: &Arc<Log>) {
    let status = pool.status();
    ends_as(format!("{status} {:?}", pool.tally().tally));
    assert_eq!(status.waiting, 0, "somebody waits: {status}");
    assert_eq!(status.size, status.available, "something is out: {status}");
    assert!(status.size <= status.max_size, "too many: {status}");
    assert_eq!(log.made() - log.dropped(), status.size, "a value is lost");
    balances(pool);
    if !pool.is_closed() {
        let all: Vec<_> = (0..status.size).map(|_| pool.try_get()).collect();
        assert!(all.iter().all(|it| it.is_ok()) && pool.try_get().is_err(), "an object is lost");
        drop(all);
        let adds = || pool.try_add(Value::new(log)).is_ok();
        assert!((status.size..status.max_size).all(|_| adds()) && !adds(), "a room is lost");
    }
}

fn shared(max: usize, objects: usize, threads: &[fn(&Letters, &Arc<Log>)]) -> Program {
    let (pool, log) = letters(max, objects);
    let threads = threads.iter().map(|it| {
        let (pool, log, it) = (pool.clone(), log.clone(), *it);
        Box::new(move || it(&pool, &log)) as Job
    });
    let threads = threads.collect();
    let finale = move || {
        is_whole(&pool, &log);
        pool.close();
        log.all_are_dropped();
    };
    Program { threads, services: 0, finale: Box::new(finale) }
}

fn reads(pool: &Letters, _: &Arc<Log>) {
    drop(block_on(pool.get()));
}

fn removes(pool: &Letters, _: &Arc<Log>) {
    drop(block_on(pool.remove()));
}

fn removes_two(pool: &Letters, log: &Arc<Log>) {
    removes(pool, log);
    removes(pool, log);
}

fn adds(pool: &Letters, log: &Arc<Log>) {
    drop(block_on(pool.add(Value::new(log))));
}

fn reads_not(pool: &Letters, _: &Arc<Log>) {
    let mut get = Box::pin(pool.get());
    drop(poll_with_dead_waker(get.as_mut()));
}

fn adds_not(pool: &Letters, log: &Arc<Log>) {
    let mut add = Box::pin(pool.add(Value::new(log)));
    drop(poll_with_dead_waker(add.as_mut()));
}

fn closes(pool: &Letters, _: &Arc<Log>) {
    pool.close();
}

fn drains(pool: &Letters, _: &Arc<Log>) {
    let _ = is_told(pool.drain());
    assert!(pool.is_closed() && pool.status().size == 0, "it is not drained");
}

/// As `drains`, where no value is made by anybody else.
fn drains_all(pool: &Letters, log: &Arc<Log>) {
    if is_told(pool.drain()) {
        log.all_are_dropped();
    }
}

fn balances_twice(pool: &Letters, _: &Arc<Log>) {
    balances(pool);
    balances(pool);
}

pub const PROGRAMS: &[Line] = &[
    line("unmanaged: 3 gets of one", Sees::Steps, || shared(1, 1, &[reads, reads, reads])),
    line("unmanaged: 2 gets, lock contended", Sees::Contention, || shared(1, 1, &[reads, reads])),
    line("unmanaged: an add beside a get", Sees::Steps, || shared(1, 0, &[adds, reads])),
    line("unmanaged: two adds, a get and a remove", Sees::Steps, || shared(1, 0, &[adds, adds, removes])),
    line("unmanaged: a tally beside a remove", Sees::Steps, || shared(1, 1, &[removes, balances_twice])),
    line("unmanaged: an add is dropped", Sees::Steps, || shared(1, 1, &[adds_not, adds, removes_two])),
    line("unmanaged: a get is dropped", Sees::Steps, || shared(1, 1, &[reads_not, reads, reads])),
    line("unmanaged: a close", Sees::Steps, || shared(1, 1, &[reads, reads, closes])),
    line("unmanaged: a close beside adds", Sees::Steps, || shared(1, 1, &[adds, reads, closes])),
    line("unmanaged: a drain", Sees::Steps, || shared(1, 1, &[reads, reads, drains_all])),
    line("unmanaged: a drain beside a remove", Sees::Steps, || shared(1, 1, &[removes, adds, drains])),
];
