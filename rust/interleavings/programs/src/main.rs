//! Small programs over the crate, all interleavings of which are run.
//!
//! `programs [--stop] [--within SECONDS] [--plain | --bounded SWITCHES | --random RUNS] [--trace] [NAME ..]` says of
//! each program, or of those with these names, how many executions there are. `programs --names` says their names, and
//! `programs --long-names` those of the programs that take longest, which are run by name alone.
//! `programs --every THREADS CALLS SETUPS FIRST STEP MOST` runs every program of some calls, or one in each step. It
//! ends with status 1 if one fails: if somebody waits whom nobody wakes, a thread panics, user code is called under a
//! lock, or the pool is not whole at the end. With `--stop` it ends there.
mod ends;
mod every;
mod managed;
mod pools;
mod timers;
mod turns;
mod unmanaged;

use pools::{ENDS, Line, Sees};
use scheduler::{Found, Mode, Settings, explore};
use std::process::ExitCode;
use std::time::Duration;

const PROGRAMS: [&[Line]; 5] =
    [managed::PROGRAMS, timers::PROGRAMS, turns::PROGRAMS, ends::PROGRAMS, unmanaged::PROGRAMS];
const LONG_PROGRAMS: &[Line] = ends::LONG_PROGRAMS;

/// What is asked for.
struct Wanted {
    names: Vec<String>,
    mode: Mode,
    within: Duration,
    stops: bool,
    traces: bool,
}

/// Runs a program, says what was found, and returns whether it does not fail.
fn passes(line: &Line, wanted: &Wanted) -> bool {
    let (sees_counts, sees_contention) = (line.sees == Sees::Counts, line.sees == Sees::Contention);
    let Wanted { mode, within, .. } = *wanted;
    ENDS.lock().expect("nobody panics").clear();
    let settings = Settings { mode, within, sees_counts, sees_contention, ..Settings::default() };
    let Found { executions, cut, is_complete, longest, took, failure } = explore(settings, line.make);
    let ends = ENDS.lock().expect("nobody panics").len();
    let all = if is_complete { "all" } else { "not all" };
    let end = failure.as_ref().map_or(all.into(), |it| format!("FAILS: {}", it.why));
    println!(
        "{}: {executions} executions ({cut} cut short), {longest} points, {ends} ends, {:.2} s, {end}",
        line.name,
        took.as_secs_f64()
    );
    if let Some(it) = failure.as_ref().filter(|_| wanted.traces) {
        println!("  {}", it.trace.join(" "));
    }
    failure.is_none()
}

fn main() -> ExitCode {
    let mut words = std::env::args().skip(1);
    let mut wanted = Wanted { names: Vec::new(), mode: Mode::All, within: Duration::MAX, stops: false, traces: false };
    let lines = || PROGRAMS.iter().copied().flatten();
    std::panic::set_hook(Box::new(|_| ()));
    while let Some(word) = words.next() {
        let mut number = || words.next().and_then(|it| it.parse().ok()).expect("a number");
        match word.as_str() {
            "--random" => wanted.mode = Mode::Random { runs: number(), changes: 3, seed: 7 },
            "--bounded" => wanted.mode = Mode::Bounded(number() as usize),
            "--plain" => wanted.mode = Mode::Plain,
            "--within" => wanted.within = Duration::from_secs(number()),
            "--stop" => wanted.stops = true,
            "--trace" => wanted.traces = true,
            "--every" => {
                let which = [(); 5].map(|()| number() as usize);
                return ExitCode::from(u8::from(!every::every(which, number())));
            }
            "--names" => {
                lines().for_each(|it| println!("{}", it.name));
                return ExitCode::SUCCESS;
            }
            "--long-names" => {
                LONG_PROGRAMS.iter().for_each(|it| println!("{}", it.name));
                return ExitCode::SUCCESS;
            }
            _ => wanted.names.push(word),
        }
    }
    let is_named = |it: &Line| wanted.names.iter().any(|name| name == it.name);
    let chosen = lines().filter(|it| wanted.names.is_empty() || is_named(it));
    let mut failed = 0;
    for line in chosen.chain(LONG_PROGRAMS.iter().filter(|it| is_named(it))) {
        failed += u8::from(!passes(line, &wanted));
        if wanted.stops && failed > 0 {
            break;
        }
    }
    ExitCode::from(failed)
}
