//! The steps that an unmanaged pool notes, and the same steps made again over a core of its own.
mod common;
#[path = "../src/cores/mod.rs"]
mod cores;
#[path = "../src/rattle/mod.rs"]
#[allow(unused_imports)]
mod rattle;

use common::refusals::CROWDED;
use common::{Task, block_on};
use cores::gate::gate::Ticket;
use cores::unmanaged::Step;
use cores::unmanaged_journal::{Journaled, Nameless, OwnerStep};
use deadpool::unmanaged::{Object, OutOfMemory, Pool, PoolConfig, PoolError, Settings};
use std::task::Poll;
use std::thread;

fn with_journal<T>(max_size: usize, journal: usize) -> Pool<T> {
    Pool::from_settings(&Settings { journal, ..PoolConfig::new(max_size).into() })
}

/// A core of nothing, on which the steps of a journal are made again.
type Again = Journaled<(), Nameless>;

/// The pool that the first line of a journal opens, with room for so many entries.
fn opened(line: &str, entries: usize) -> Again {
    let words: Vec<_> = line.split(' ').collect();
    let ["opened", "unmanaged", limit, bound @ ..] = &words[..] else { panic!("{line}") };
    let core = Again::new(rattle::Global, number(limit), entries).expect("memory");
    core.bounded(bound.first().map(|word| number(word)))
}

fn number(word: &str) -> usize {
    word.parse().expect("a number")
}

/// Makes the step of a line, whatever its reply is there.
fn make(core: &mut Again, line: &str) {
    let words: Vec<_> = line.split(' ').collect();
    let ticket = || Ticket::from_number(number(words[1]));
    let (step, mut hand) = match words[0] {
        "get" => (Step::GetEnter { wait: words[1] != "at_once" }, None),
        "get_ask" => (Step::GetAsk { ticket: ticket(), expired: words[2] == "late" }, None),
        "get_cancel" => (Step::GetCancel { ticket: ticket() }, None),
        "add" => (Step::AddEnter { wait: words[1] != "at_once" }, Some(())),
        "add_ask" => (Step::AddAsk { ticket: ticket() }, Some(())),
        "add_cancel" => (Step::AddCancel { ticket: ticket() }, None),
        "back" => (Step::Back, Some(())),
        "take" => (Step::Take, None),
        word => {
            core.make_for_owner(match word {
                "status" => &OwnerStep::Status,
                "close" => &OwnerStep::Close,
                "clone_handle" => &OwnerStep::CloneHandle,
                "drop_handle" => &OwnerStep::DropHandle,
                _ => panic!("{line}"),
            });
            return;
        }
    };
    core.make(&step, &mut hand);
}

/// The text of a journal whose steps were made again, with the replies that they have there.
fn again(text: &str) -> String {
    let (steps, is_full) = text.strip_suffix("\nfull").map_or((text, false), |steps| (steps, true));
    let mut lines = steps.lines();
    let mut core = opened(lines.next().expect("a first line"), lines.clone().count());
    lines.for_each(|line| make(&mut core, line));
    if is_full {
        // (one step more finds no room)
        make(&mut core, "status");
    }
    core.journal().expect("memory").to_string()
}

const SHORT: &str = "opened unmanaged 1 1
get at_once full
add at_once _ stored
get object _
get waiting 0
get crowded
get at_once full
add at_once _ full
add _ waiting 0
add _ crowded
back _ kept
get_ask 0 object _
take taken
add_ask 0 _ stored
status 1 1 1 0
get object _
get waiting 0
get_ask 0 waiting
get_cancel 0 done
add _ waiting 0
add_cancel 0 done
clone_handle done
drop_handle done
get waiting 0
close done
get_ask 0 closed
back _ dropped
get closed
add at_once _ closed
status 1 0 0 0";

#[test]
fn a_short_run_has_its_text() {
    let settings = Settings { config: PoolConfig::new(1), max_waiting: Some(1), journal: 99 };
    let pool = Pool::from_settings(&settings);
    assert_eq!(pool.journal().to_string(), "opened unmanaged 1 1");
    assert!(pool.try_get().is_err());
    assert!(pool.try_add('a').is_ok());
    let held = block_on(pool.get()).expect("an object");
    let mut waits = Task::new(pool.get());
    assert!(waits.poll().is_pending());
    assert!(matches!(block_on(pool.get()), Err(CROWDED)));
    assert!(pool.try_get().is_err());
    assert!(pool.try_add('b').is_err());
    let mut adds = Task::new(pool.add('b'));
    assert!(adds.poll().is_pending());
    assert!(matches!(block_on(pool.add('c')), Err(('c', CROWDED))));
    drop(held);
    assert_eq!(Object::take(waits.ready().expect("it was served")), 'a');
    assert!(adds.ready().is_ok());
    assert_eq!(pool.status().available, 1);
    let held = block_on(pool.get()).expect("an object");
    let mut waits = Task::new(pool.get());
    assert!(waits.poll().is_pending() && waits.poll().is_pending());
    drop(waits);
    let mut adds = Task::new(pool.add('d'));
    assert!(adds.poll().is_pending());
    drop(adds);
    drop(pool.clone());
    let mut waits = Task::new(pool.get());
    assert!(waits.poll().is_pending());
    pool.close();
    assert!(matches!(waits.poll(), Poll::Ready(Err(PoolError::Closed))));
    drop(held);
    assert!(block_on(pool.get()).is_err() && pool.try_add('e').is_err());
    assert_eq!(pool.status().size, 0);
    let journal = pool.journal();
    assert_eq!(journal.to_string(), SHORT);
    assert_eq!((journal.opened.as_str(), journal.entries.len(), journal.is_full), ("opened unmanaged 1 1", 29, false));
    assert_eq!(again(SHORT), SHORT);
}

#[test]
fn a_journal_without_room_ends_with_full() {
    let pool = with_journal(1, 2);
    assert_eq!(pool.try_add('a'), Ok(()));
    drop(pool.try_get().expect("an object"));
    assert!(pool.journal().is_full);
    let text = "opened unmanaged 1\nadd at_once _ stored\nget at_once object _\nfull";
    assert_eq!((pool.journal().to_string().as_str(), again(text).as_str()), (text, text));
    pool.close();
    assert_eq!(pool.journal().to_string(), text);
}

#[test]
fn a_journal_that_is_just_full_enough_has_no_mark() {
    let pool = with_journal::<char>(1, 1);
    assert!(pool.try_get().is_err());
    assert_eq!(pool.journal().to_string(), "opened unmanaged 1\nget at_once full");
}

#[test]
fn a_pool_without_a_journal_notes_nothing() {
    let pool = Pool::from([1]);
    // (its objects were added)
    assert_eq!(pool.journal().to_string(), "opened unmanaged 1\nfull");
    assert!(with_journal::<u8>(1, 0).journal().entries.is_empty());
}

#[test]
fn more_entries_than_there_is_memory_for_are_refused() {
    let settings = Settings { journal: usize::MAX, ..PoolConfig::new(1).into() };
    assert!(matches!(Pool::<u8>::try_from_settings(&settings), Err(OutOfMemory)));
}

/// What one thread does in its turn: it gets, adds again what it took, waits, gives up, and has a handle of its own.
fn turn(pool: &Pool<usize>, at: usize) {
    let own = pool.clone();
    match at % 5 {
        0 | 1 => {
            let mut held = block_on(own.get()).expect("an object");
            *held += 1;
            thread::yield_now();
        }
        2 => {
            let taken = Object::take(block_on(own.get()).expect("an object"));
            block_on(own.add(taken + 1)).expect("room");
        }
        3 => {
            let mut given_up = Task::new(own.get());
            // (what it is given at once comes back at the end of the turn)
            let _at_once = given_up.poll();
        }
        _ => _ = own.try_get().map(drop),
    }
}

/// The journal of a run of eight threads, with room for so many entries.
fn journal_of_threads(entries: usize) -> String {
    let pool = with_journal(3, entries);
    for number in 0..3 {
        pool.try_add(number).expect("there is room");
    }
    thread::scope(|scope| {
        for thread in 0..8 {
            let pool = &pool;
            scope.spawn(move || (0..60).for_each(|at| turn(pool, at + thread)));
        }
    });
    assert_eq!(common::counts(pool.status()), [3, 3, 0]);
    pool.journal().to_string()
}

#[test]
fn the_journal_of_threads_is_made_again() {
    let text = journal_of_threads(20_000);
    assert!(text.ends_with("\nstatus 3 3 3 0"), "{}", text.lines().last().unwrap_or_default());
    assert_eq!(again(&text), text);
    for kind in ["take taken", "add _ stored", "get at_once", "clone_handle done", "drop_handle done", "back _ kept"] {
        assert!(text.contains(&format!("\n{kind}")), "{kind}");
    }
    let beginning = journal_of_threads(100);
    assert_eq!((beginning.lines().count(), beginning.ends_with("\nfull")), (102, true));
    assert_eq!(again(&beginning), beginning);
}

#[test]
fn a_journal_with_a_step_too_few_is_not_made_again() {
    let without = |line: &str| SHORT.replacen(&format!("\n{line}"), "", 1);
    for line in ["add at_once _ stored", "get waiting 0", "back _ kept", "take taken", "close done"] {
        let text = without(line);
        assert_ne!(again(&text), text, "{line}");
    }
}
