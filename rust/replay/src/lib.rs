//! Plays the scripts of `poolrun` over the Rust crate: a line is a move, and each move has a reply.
//!
//! The manual of `poolrun` has the language. What the crate's calls cannot express ends a play: a single step of a get
//! (`advance`), a pool by a text of JSON (`config`), a last handle that is dropped while a get or an add is under way, which
//! borrows it, an `upgrade` over an unmanaged pool, and object numbers beyond those that the pool itself gives.
#![forbid(unsafe_code)]

mod answers;
mod clock;
mod managed;
mod unmanaged;

use managed::ManagedPlayer;
use std::cell::Cell;
use std::future::Future;
use std::pin::pin;
use std::task::{Context, Waker};
use unmanaged::UnmanagedPlayer;

/// How many gets and adds a script may start.
const MOST_PARTIES: usize = 1024;

/// What comes of a line.
#[derive(Debug, PartialEq, Eq)]
pub enum Reply {
    /// The reply.
    Said(String),
    /// It is no move of the language, or not of this kind of pool.
    NoMove,
    /// The crate has no call for it.
    NotExpressible,
}

impl Reply {
    fn said(text: impl Into<String>) -> Self {
        Reply::Said(text.into())
    }
}

/// What plays the lines of one script.
#[derive(Default)]
pub struct Player {
    pool: Option<Kind>,
}

enum Kind {
    Managed(Box<ManagedPlayer>),
    Unmanaged(Box<UnmanagedPlayer>),
}

impl Player {
    /// The reply to a line, or none if it is empty or a comment.
    pub fn play(&mut self, line: &str) -> Option<Reply> {
        if line.is_empty() || line.starts_with('#') {
            return None;
        }
        let words: Vec<&str> = line.split(' ').collect();
        Some(match &mut self.pool {
            Some(Kind::Managed(player)) => player.play(&words),
            Some(Kind::Unmanaged(player)) => player.play(&words),
            None => self.open(&words),
        })
    }

    fn open(&mut self, words: &[&str]) -> Reply {
        let opened = match words {
            ["pool", given @ ..] => ManagedPlayer::open(given).map(|made| made.map(|it| Kind::Managed(Box::new(it)))),
            ["unmanaged", given @ ..] => {
                UnmanagedPlayer::open(given).map(|made| made.map(|it| Kind::Unmanaged(Box::new(it))))
            }
            ["config", ..] => return Reply::NotExpressible,
            _ => None,
        };
        match opened {
            None => Reply::NoMove,
            Some(Err(text)) => Reply::said(format!("error {text}")),
            Some(Ok(kind)) => {
                self.pool = Some(kind);
                Reply::said("ok")
            }
        }
    }
}

thread_local! {
    static BEGUN: Cell<u32> = const { Cell::new(0) };
}

/// Is called before a get or an add is polled first, and has that poll answered. The crate has one in 129 on a thread end it before, so
/// that other tasks run, and a script has no such line.
fn count_begun() {
    BEGUN.set(BEGUN.get() + 1);
    if BEGUN.get().is_multiple_of(100) {
        let pool = deadpool::unmanaged::Pool::from([()]);
        while pin!(pool.get()).poll(&mut Context::from_waker(Waker::noop())).is_ready() {}
    }
}

/// A number of decimal digits.
fn number<N: std::str::FromStr>(word: &str) -> Option<N> {
    let is_number = !word.is_empty() && word.bytes().all(|byte| byte.is_ascii_digit());
    is_number.then(|| word.parse().ok()).flatten()
}

/// The words of a pool's line without those of its bound on the queue, and that bound, if it has one.
fn bounded<'a, 'b>(words: &'a [&'b str]) -> Option<(&'a [&'b str], Option<usize>)> {
    match words {
        [before @ .., "most", most] => Some((before, Some(number(most)?))),
        _ => Some((words, None)),
    }
}

/// A duration in nanoseconds, or none.
fn duration(word: &str) -> Option<Option<std::time::Duration>> {
    match word {
        "-" => Some(None),
        _ => number::<u64>(word).map(|nanos| Some(std::time::Duration::from_nanos(nanos))),
    }
}

fn status(status: deadpool::Status) -> Reply {
    let deadpool::Status { max_size, size, available, waiting } = status;
    Reply::said(format!("max {max_size} size {size} available {available} waiting {waiting}"))
}

/// The counts that are not 0, each behind its name.
fn counts(counts: &[(&str, u64)]) -> Reply {
    let some: Vec<String> =
        counts.iter().filter(|(_, count)| *count > 0).map(|(name, count)| format!("{name} {count}")).collect();
    Reply::said(if some.is_empty() { "nothing".into() } else { some.join(" ") })
}
