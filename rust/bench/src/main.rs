//! Times works of both pools, beside those of any other pool that is put in, turn by turn in one run.
//!
//! `cargo run --release -p bench -- PART ROUNDS`, where PART is `alone`, `threads`, `yield`, `tasks`, `crowd`, `cancel` or `all`.
//! README.md says how another pool is put in. `-- count WORK TIMES` does one work of this crate's pools so often, and writes nothing.
#![forbid(unsafe_code)]

mod cancels;
mod counts;
mod executor;
mod fair;
mod pools;
mod rows;
mod tasks;
mod threads;
mod works;

fn main() {
    let mut words = std::env::args().skip(1);
    let part = words.next().unwrap_or("alone".into());
    if part == "count" {
        let (work, times) = (words.next().unwrap_or_default(), words.next().and_then(|word| word.parse().ok()));
        assert!(counts::run(&work, times.unwrap_or(1)), "there is no work {work:?}");
        return;
    }
    let rounds = words.next().and_then(|word| word.parse().ok()).unwrap_or(25);
    println!("| nanoseconds a turn | pool | median | half lie in | ratio to the first: median | half lie in |");
    println!("|---|---|---|---|---|---|");
    let is_wanted = |name: &str| part == name || part == "all";
    if is_wanted("alone") {
        works::time(rounds);
    }
    if is_wanted("threads") {
        threads::time(rounds, "", || ());
    }
    if is_wanted("yield") {
        threads::time(rounds, ", held over a yield", std::thread::yield_now);
    }
    if is_wanted("tasks") {
        tasks::time(rounds);
    }
    if is_wanted("crowd") {
        tasks::time_crowd(rounds);
    }
    if is_wanted("cancel") {
        cancels::time(rounds);
    }
}
