//! The search through the executions of a program.
use crate::execution::{Execution, Random, Settings};
use crate::handover::{Workers, begin_execution, text_of};
use crate::path::{self, Mode};
use crate::races;
use std::panic::{AssertUnwindSafe, catch_unwind};
use std::time::{Duration, Instant};

/// What a thread does.
pub type Job = Box<dyn FnOnce() + Send>;

/// The threads of one execution, how many others there are for what these start, and what is looked at when all have
/// ended.
pub struct Program {
    pub threads: Vec<Job>,
    pub services: usize,
    pub finale: Box<dyn FnOnce()>,
}

/// Why an execution failed, and what it did.
#[derive(Debug)]
pub struct Failure {
    pub why: String,
    pub trace: Vec<String>,
}

/// What a search has found.
#[derive(Debug, Default)]
pub struct Found {
    pub executions: u64,
    /// Those that were not run by choices to their end, since another one was the same.
    pub cut: u64,
    pub is_complete: bool,
    /// The most points of one.
    pub longest: usize,
    pub took: Duration,
    pub failure: Option<Failure>,
}

/// Runs a program until all its executions have been run, or one fails.
pub fn explore(settings: Settings, make: impl Fn() -> Program) -> Found {
    let start = Instant::now();
    let mut workers = Workers::begin();
    let (mut found, mut path) = (Found::default(), Vec::new());
    let mut random = Random::new(if let Mode::Random { seed, .. } = settings.mode { seed } else { 0 });
    loop {
        begin_execution();
        let Program { threads, services, finale } = make();
        let count = threads.len() + services;
        if let Mode::Random { changes, .. } = settings.mode {
            random.begin(count, changes, found.longest);
        }
        let begun = Execution::new(settings, count, services, path, random);
        let mut ended = workers.run(begun, threads, services);
        found.executions += 1;
        found.cut += u64::from(ended.is_cut);
        found.longest = found.longest.max(ended.trace.len());
        if let Some(why) = failure_of(&mut ended, finale) {
            let trace = ended.trace.iter().map(|(at, operation)| format!("{at}:{operation:?}")).collect();
            found.failure = Some(Failure { why, trace });
            // (what blocked threads hold is left)
            std::mem::forget(workers);
            break;
        }
        (path, random) = (ended.path, ended.random);
        let goes_on = match settings.mode {
            Mode::Random { runs, .. } => found.executions < runs,
            mode => {
                if mode == Mode::All {
                    races::find(&mut path, &ended.trace, count);
                }
                path::next(&mut path, mode)
            }
        };
        if !goes_on {
            found.is_complete = !matches!(settings.mode, Mode::Random { .. });
            break;
        }
        if found.executions >= settings.most || start.elapsed() >= settings.within {
            break;
        }
    }
    found.took = start.elapsed();
    found
}

/// Why an execution failed, if it did: in one of its threads, or when all was looked at.
fn failure_of(ended: &mut Execution, finale: Box<dyn FnOnce()>) -> Option<String> {
    if let Some(why) = ended.failure.take() {
        std::mem::forget(finale);
        return Some(why);
    }
    let panic = catch_unwind(AssertUnwindSafe(finale)).err()?;
    Some(format!("at the end: {}", text_of(&*panic)))
}
