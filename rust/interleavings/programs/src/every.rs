//! Every program of some threads, each of which makes some of these calls.
use crate::ends::{drains, gives_up_a_drain};
use crate::managed::{cancels, cancels_late, changes_waker, goes_to_0_and_back, retains_none, takes, tries, use_one};
use crate::pools::{Managed, ONE, Setup, Way, is_whole, pool};
use scheduler::{Job, Program, Settings, block_on, explore};

/// Calls that each thread of a program may make. None of them waits for good.
const CALLS: [(&str, fn(&Managed)); 13] = [
    ("get", use_one),
    ("a get that is dropped", cancels),
    ("a get that is dropped late", cancels_late),
    ("a get whose waker is another", changes_waker),
    ("take", takes),
    ("try_get", tries),
    ("a limit of 0, then of 1", goes_to_0_and_back),
    ("a limit of 2", |pool| pool.resize(2)),
    ("retain none", retains_none),
    ("weak get", |pool| _ = pool.weak().upgrade().map(|pool| drop(block_on(pool.get())))),
    ("close", Managed::close),
    ("a drain that is dropped", gives_up_a_drain),
    ("drain", drains),
];

const SETUPS: [(&str, fn() -> Setup); 6] = [
    ("one place", || ONE),
    ("one place, idle", || Setup { idle: 1, ..ONE }),
    ("two places", || Setup { max: 2, idle: 1, ..ONE }),
    ("all pending once", || Setup { create: Way::Later, recycle: Way::Later, ..ONE }),
    ("a recycling refused", || Setup { recycle: Way::Refuses, idle: 1, ..ONE }),
    ("a creation refused", || Setup { create: Way::Refuses, ..ONE }),
];

/// The calls of each thread.
type Chosen = Vec<Vec<usize>>;

fn program(setup: fn() -> Setup, chosen: &Chosen) -> Program {
    let (pool, log) = pool(&setup());
    let threads = chosen.iter().map(|calls| {
        let (pool, calls) = (pool.clone(), calls.clone());
        Box::new(move || calls.iter().for_each(|it| CALLS[*it].1(&pool))) as Job
    });
    let threads = threads.collect();
    let finale = move || {
        is_whole(&pool, &log);
        pool.close();
        log.all_are_dropped();
    };
    Program { threads, services: 0, finale: Box::new(finale) }
}

/// What each of so many threads does in each program. Two that differ in the order of their threads are one.
fn all_chosen(threads: usize, calls: usize) -> Vec<Chosen> {
    let bodies = CALLS.len().pow(calls as u32);
    let calls_of = |body: usize| (0..calls).map(|it| body / CALLS.len().pow(it as u32) % CALLS.len()).collect();
    let (mut all, mut at) = (Vec::new(), vec![0; threads]);
    loop {
        all.push(at.iter().map(|body| calls_of(*body)).collect());
        // (the next list that does not fall)
        let Some(next) = (0..threads).rev().find(|it| at[*it] + 1 < bodies) else { return all };
        let body = at[next] + 1;
        at[next..].fill(body);
    }
}

/// Runs programs of so many threads with so many calls each, over so many setups: one of them in each step, from a first
/// one on. Of each it runs so many executions at most. Says how many there are, and returns whether none fails.
pub fn every([threads, calls, setups, first, step]: [usize; 5], most: u64) -> bool {
    let (mut programs, mut executions, mut greatest, mut open, mut failed) = (0, 0, 0, 0, 0);
    let all = all_chosen(threads, calls);
    for (title, setup) in &SETUPS[..setups] {
        for chosen in all.iter().skip(first).step_by(step) {
            let found = explore(Settings { most, ..Settings::default() }, || program(*setup, chosen));
            programs += 1;
            executions += found.executions;
            greatest = greatest.max(found.executions);
            open += usize::from(!found.is_complete);
            if let Some(failure) = found.failure {
                failed += 1;
                let names: Vec<Vec<_>> = chosen.iter().map(|it| it.iter().map(|it| CALLS[*it].0).collect()).collect();
                println!("FAILS: {title}, {names:?}, in execution {}: {}", found.executions, failure.why);
            }
            if failed > 20 {
                return false;
            }
        }
    }
    println!(
        "every program of {threads} threads with {calls} of {} calls: {programs} programs, {executions} executions, \
         at most {greatest} of one, {open} not to their end",
        CALLS.len()
    );
    failed == 0
}
