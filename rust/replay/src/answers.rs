//! What the script's manager and hooks answer, and the values that they see.
use deadpool::managed::{Hook, HookError, HookResult, Manager, Metrics, RecycleError, RecycleResult};
use std::collections::VecDeque;
use std::fmt;
use std::future::poll_fn;
use std::sync::{Arc, Mutex};
use std::task::Poll;

#[derive(Clone, Copy, PartialEq)]
pub enum Answer {
    Ok,
    Pending,
    Refuse,
    Add,
}

impl Answer {
    pub fn of(word: &str) -> Option<Self> {
        Some(match word {
            "ok" => Answer::Ok,
            "pending" => Answer::Pending,
            "refuse" => Answer::Refuse,
            "add" => Answer::Add,
            _ => return None,
        })
    }
}

/// The kinds of calls, in the order of their lists of answers.
pub const KINDS: [&str; 5] = ["create", "recycle", "pre", "post", "postcreate"];

#[derive(Default)]
pub struct Told {
    answers: [VecDeque<Answer>; 5],
    created: u64,
    values: u64,
    /// The values that were detached, and those that were dropped, by their turn of being made.
    pub detached: Vec<u64>,
    pub dropped: Vec<u64>,
}

/// What the manager, the hooks and the values share.
#[derive(Clone, Default)]
pub struct Script(Arc<Mutex<Told>>);

/// The refusal of a creation or a recycling.
#[derive(Debug)]
pub struct Refused;

impl fmt::Display for Refused {
    fn fmt(&self, f: &mut fmt::Formatter<'_>) -> fmt::Result {
        f.write_str("refused")
    }
}

pub struct Value {
    pub number: u64,
    pub turn: u64,
    script: Script,
}

impl Drop for Value {
    fn drop(&mut self) {
        self.script.told(|told| told.dropped.push(self.turn));
    }
}

impl Script {
    pub fn told<R>(&self, call: impl FnOnce(&mut Told) -> R) -> R {
        call(&mut self.0.lock().expect("no player panics"))
    }

    /// Appends answers to those of a kind.
    pub fn answer(&self, kind: usize, answers: &[Answer]) {
        self.told(|told| told.answers[kind].extend(answers));
    }

    /// A value with this number, which notes its end.
    pub fn value(&self, number: u64) -> Value {
        let turn = self.told(|told| {
            told.values += 1;
            told.values
        });
        Value { number, turn, script: self.clone() }
    }

    fn next(&self, kind: usize) -> Answer {
        self.told(|told| told.answers[kind].pop_front()).unwrap_or(Answer::Ok)
    }

    /// What a poll that sees a value comes to: an error is a refusal.
    fn poll(&self, kind: usize, value: &mut Value) -> Poll<Result<(), ()>> {
        match self.next(kind) {
            Answer::Ok => Poll::Ready(Ok(())),
            Answer::Pending => Poll::Pending,
            Answer::Refuse => Poll::Ready(Err(())),
            Answer::Add => {
                value.number = value.number.saturating_add(1);
                Poll::Ready(Ok(()))
            }
        }
    }

    /// The hook of a kind, whose answers the script has.
    pub fn hook(&self, kind: usize) -> Hook<Script> {
        let script = self.clone();
        Hook::async_fn(move |value: &mut Value, _: &Metrics| {
            let script = script.clone();
            Box::pin(poll_fn(move |_| -> Poll<HookResult<Refused>> {
                script.poll(kind, value).map_err(|()| HookError::message("refused"))
            }))
        })
    }
}

impl Manager for Script {
    type Type = Value;
    type Error = Refused;

    async fn create(&self) -> Result<Value, Refused> {
        poll_fn(|_| match self.next(0) {
            Answer::Pending => Poll::Pending,
            Answer::Refuse => Poll::Ready(Err(Refused)),
            Answer::Ok | Answer::Add => {
                let number = self.told(|told| {
                    told.created += 1;
                    told.created - 1
                });
                Poll::Ready(Ok(self.value(number)))
            }
        })
        .await
    }

    async fn recycle(&self, value: &mut Value, _: &Metrics) -> RecycleResult<Refused> {
        poll_fn(|_| self.poll(1, value).map_err(|()| RecycleError::Backend(Refused))).await
    }

    fn detach(&self, value: &mut Value) {
        self.told(|told| told.detached.push(value.turn));
    }
}
