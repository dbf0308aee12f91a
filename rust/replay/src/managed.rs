//! A script over a managed pool.
use crate::answers::{Answer, KINDS, Refused, Script, Value};
use crate::{MOST_PARTIES, Reply, bounded, clock, count_begun, counts, duration, number, status};
use deadpool::managed::{DrainError, Object, Pool, PoolError, QueueMode, Tally, Timeouts, WeakPool};
use std::collections::{BTreeMap, BTreeSet, HashMap};
use std::future::Future;
use std::pin::{Pin, pin};
use std::sync::Arc;
use std::task::{Context, Poll, Waker};
use std::time::Duration;

type Get = Pin<Box<dyn Future<Output = Result<Object<Script>, PoolError<Refused>>>>>;

enum Party {
    Going(Get),
    Finished,
    Cancelled,
}

pub struct ManagedPlayer {
    script: Script,
    /// One each handle. Gets borrow the first.
    handles: Vec<Arc<Pool<Script>>>,
    weak: WeakPool<Script>,
    first: u64,
    parties: Vec<Party>,
    out: BTreeMap<u64, Object<Script>>,
    /// The numbers of objects, by the turn in which their values were made.
    numbers: HashMap<u64, u64>,
}

impl ManagedPlayer {
    pub fn open(words: &[&str]) -> Option<Result<Self, String>> {
        let (words, max_waiting) = bounded(words)?;
        let (&[max, mode, runtime, first], rest) = words.split_first_chunk()?;
        let mode = match mode {
            "fifo" => QueueMode::Fifo,
            "lifo" => QueueMode::Lifo,
            _ => return None,
        };
        let min_idle = match rest {
            [] => 0,
            [min_idle] => number(min_idle)?,
            _ => return None,
        };
        let script = Script::default();
        let mut builder = Pool::builder(script.clone())
            .max_size(number(max)?)
            .queue_mode(mode)
            .min_idle(min_idle)
            .max_waiting(max_waiting)
            // (a pool with a journal hands nothing over: in a script each get asks for itself)
            .journal(1)
            .pre_recycle(script.hook(2))
            .post_recycle(script.hook(3))
            .post_create(script.hook(4));
        if let Some(runtime) = clock::runtime(runtime)? {
            builder = builder.runtime(runtime);
        }
        let first = number(first)?;
        Some(builder.build().map_err(|cause| cause.to_string()).map(|pool| ManagedPlayer {
            script,
            weak: pool.weak(),
            handles: vec![Arc::new(pool)],
            first,
            parties: Vec::new(),
            out: BTreeMap::new(),
            numbers: HashMap::new(),
        }))
    }

    pub fn play(&mut self, words: &[&str]) -> Reply {
        self.reply(words).unwrap_or(Reply::NoMove)
    }

    fn reply(&mut self, words: &[&str]) -> Option<Reply> {
        Some(match *words {
            ["answer", kind, ref words @ ..] if !words.is_empty() => self.answer(kind, words)?,
            ["start"] => self.start(None),
            ["start", wait, create, recycle] => {
                let timeouts =
                    Timeouts { wait: duration(wait)?, create: duration(create)?, recycle: duration(recycle)? };
                self.start(Some(timeouts))
            }
            ["advance", ..] => Reply::NotExpressible,
            ["poll", party, now] => self.poll(number(party)?, number(now)?),
            ["cancel", party] => self.cancel(number(party)?),
            ["put", object, value] => self.put(number(object)?, number(value)?),
            ["back", object] => self.back(number(object)?),
            ["take", object] => self.take(number(object)?),
            ["resize", limit] => self.resize(number(limit)?),
            ["retain", ref kept @ ..] => self.retain(kept.iter().map(|it| number(it)).collect::<Option<_>>()?),
            ["close"] => self.on_handle(|pool| {
                pool.close();
                Reply::said("ok")
            }),
            ["drain"] => self.drain(),
            ["tally"] => self.on_handle(|pool| tally(&pool.tally().tally)),
            ["status"] => self.on_handle(|pool| status(pool.status())),
            ["clone"] => self.clone_handle(),
            ["drop"] => self.drop_handle(),
            ["upgrade"] => self.upgrade(),
            _ => return None,
        })
    }

    fn on_handle(&self, call: impl FnOnce(&Pool<Script>) -> Reply) -> Reply {
        self.handles.first().map_or_else(|| Reply::said("no handle"), |pool| call(pool))
    }

    fn answer(&self, kind: &str, words: &[&str]) -> Option<Reply> {
        let kind = KINDS.iter().position(|it| *it == kind)?;
        let answers: Vec<_> = words.iter().map(|word| Answer::of(word)).collect::<Option<_>>()?;
        if kind == 0 && answers.contains(&Answer::Add) {
            return None;
        }
        self.script.answer(kind, &answers);
        Some(Reply::said("ok"))
    }

    fn start(&mut self, timeouts: Option<Timeouts>) -> Reply {
        let Some(pool) = self.handles.first().cloned() else {
            return Reply::said("no handle");
        };
        if self.parties.len() == MOST_PARTIES {
            return Reply::said("no room");
        }
        let timeouts = timeouts.unwrap_or(pool.timeouts());
        self.parties.push(Party::Going(Box::pin(async move {
            count_begun();
            pool.timeout_get(&timeouts).await
        })));
        Reply::said(format!("party {}", self.parties.len() - 1))
    }

    fn poll(&mut self, party: usize, now: u128) -> Reply {
        let Some(party) = self.parties.get_mut(party) else {
            return Reply::said("no such");
        };
        let get = match party {
            Party::Going(get) => get,
            Party::Finished => return Reply::said("pending"),
            Party::Cancelled => return Reply::said("no such"),
        };
        clock::set(now);
        let polled = get.as_mut().poll(&mut Context::from_waker(Waker::noop()));
        let Poll::Ready(ended) = polled else {
            return Reply::said("pending");
        };
        *party = Party::Finished;
        match ended {
            Ok(object) => self.hand_out(object),
            Err(PoolError::NumbersExhausted) => Reply::NotExpressible,
            Err(cause) => Reply::said(format!("error {cause}")),
        }
    }

    fn hand_out(&mut self, object: Object<Script>) -> Reply {
        let own: u64 = Object::id(&object).to_string().parse().expect("a number");
        // (the pool's own numbers begin at 0, and the greatest u64 is none)
        let Some(number) = self.first.checked_add(own).filter(|it| *it < u64::MAX) else {
            return Reply::NotExpressible;
        };
        let Value { number: value, turn, .. } = *object;
        self.numbers.insert(turn, number);
        self.out.insert(number, object);
        Reply::said(format!("object {number} value {value}"))
    }

    fn cancel(&mut self, party: usize) -> Reply {
        match self.parties.get_mut(party) {
            None | Some(Party::Cancelled) => Reply::said("no such"),
            Some(party) => {
                *party = Party::Cancelled;
                Reply::said("cancelled")
            }
        }
    }

    fn put(&mut self, object: u64, value: u64) -> Reply {
        let Some(object) = self.out.get_mut(&object) else {
            return Reply::said("no such");
        };
        object.number = value;
        Reply::said("ok")
    }

    fn back(&mut self, object: u64) -> Reply {
        let Some(object) = self.out.remove(&object) else {
            return Reply::said("no such");
        };
        let turn = object.turn;
        drop(object);
        let (is_detached, is_dropped) =
            self.script.told(|told| (told.detached.contains(&turn), told.dropped.contains(&turn)));
        Reply::said(match (is_detached, is_dropped) {
            (false, false) => "kept",
            (true, true) => "detached",
            (false, true) => "dropped",
            (true, false) => "detached and kept",
        })
    }

    fn take(&mut self, object: u64) -> Reply {
        match self.out.remove(&object) {
            None => Reply::said("no such"),
            Some(object) => Reply::said(format!("taken {}", Object::take(object).number)),
        }
    }

    fn resize(&self, limit: usize) -> Reply {
        self.on_handle(|pool| Reply::said(if pool.try_resize(limit).is_ok() { "ok" } else { "out of memory" }))
    }

    fn retain(&self, kept: BTreeSet<u64>) -> Reply {
        self.on_handle(|pool| {
            let retained = pool.try_retain(|value, _| kept.contains(&self.numbers[&value.turn]));
            let Ok(result) = retained else {
                return Reply::said("out of memory");
            };
            let removed: String = result.removed.iter().map(|value| format!(" {}", value.number)).collect();
            Reply::said(format!("retained {} removed{removed}", result.retained))
        })
    }

    /// How much of what is left is in gets that are under way, no call tells.
    fn drain(&self) -> Reply {
        let is_under_way = self.parties.iter().any(|party| matches!(party, Party::Going(_)));
        self.on_handle(|pool| {
            let drain = pin!(pool.drain_for(Duration::ZERO));
            match drain.poll(&mut Context::from_waker(Waker::noop())) {
                Poll::Ready(Ok(_)) => Reply::said("drained"),
                Poll::Ready(Err(DrainError::Timeout(left))) if !is_under_way => {
                    Reply::said(format!("left {}", left.size))
                }
                _ => Reply::NotExpressible,
            }
        })
    }

    fn clone_handle(&mut self) -> Reply {
        let Some(pool) = self.handles.first() else {
            return Reply::said("no handle");
        };
        self.handles.push(Arc::new((**pool).clone()));
        Reply::said("ok")
    }

    fn drop_handle(&mut self) -> Reply {
        let is_borrowed = self.parties.iter().any(|party| matches!(party, Party::Going(_)));
        match self.handles.len() {
            0 => Reply::said("no handle"),
            1 if is_borrowed => Reply::NotExpressible,
            _ => {
                self.handles.pop();
                Reply::said("ok")
            }
        }
    }

    fn upgrade(&mut self) -> Reply {
        match self.weak.upgrade() {
            None => Reply::said("none"),
            Some(pool) => {
                self.handles.push(Arc::new(pool));
                Reply::said("ok")
            }
        }
    }
}

fn tally(tally: &Tally) -> Reply {
    counts(&[
        ("gets", tally.gets),
        ("served", tally.served),
        ("waited", tally.waited),
        ("late", tally.late),
        ("crowded", tally.crowded),
        ("closed", tally.closed),
        ("created", tally.created),
        ("failed", tally.failed),
        ("refused", tally.refused),
        ("cancelled", tally.cancelled),
        ("surplus", tally.surplus),
        ("not_retained", tally.not_retained),
        ("taken", tally.taken),
        ("dropped", tally.dropped),
    ])
}
