//! A script over an unmanaged pool.
use crate::answers::{Script, Value};
use crate::{MOST_PARTIES, Reply, bounded, clock, count_begun, counts, duration, number, status};
use deadpool::unmanaged::{DrainError, Object, Pool, PoolConfig, PoolError, Settings, Tally};
use std::collections::{BTreeMap, HashMap};
use std::future::Future;
use std::pin::{Pin, pin};
use std::sync::Arc;
use std::task::{Context, Poll, Waker};
use std::time::Duration;

type Get = Pin<Box<dyn Future<Output = Result<Object<Value>, PoolError>>>>;
type Add = Pin<Box<dyn Future<Output = Result<(), (Value, PoolError)>>>>;

enum Party {
    Get(Get),
    /// With the number of its object.
    Add(Add, u64),
    Finished,
    Cancelled,
}

pub struct UnmanagedPlayer {
    script: Script,
    /// One each handle. Gets and adds borrow the first.
    handles: Vec<Arc<Pool<Value>>>,
    parties: Vec<Party>,
    out: BTreeMap<u64, Object<Value>>,
    /// The numbers of objects, by the turn in which their values were made.
    numbers: HashMap<u64, u64>,
}

impl UnmanagedPlayer {
    pub fn open(words: &[&str]) -> Option<Result<Self, String>> {
        let (&[max, runtime], max_waiting) = bounded(words)? else {
            return None;
        };
        let config = PoolConfig { runtime: clock::runtime(runtime)?, ..PoolConfig::new(number(max)?) };
        let settings = Settings { max_waiting, ..config.into() };
        let made = Pool::try_from_settings(&settings).map_err(|cause| cause.to_string());
        Some(made.map(|pool| UnmanagedPlayer {
            script: Script::default(),
            handles: vec![Arc::new(pool)],
            parties: Vec::new(),
            out: BTreeMap::new(),
            numbers: HashMap::new(),
        }))
    }

    pub fn play(&mut self, words: &[&str]) -> Reply {
        self.reply(words).unwrap_or(Reply::NoMove)
    }

    fn reply(&mut self, words: &[&str]) -> Option<Reply> {
        Some(match *words {
            ["get"] => self.get(None),
            ["get", wait] => self.get(duration(wait)?),
            ["add", value] => self.add(number(value)?),
            ["poll", party, now] => self.poll(number(party)?, number(now)?),
            ["tryget"] => self.try_get(),
            ["tryadd", value] => self.try_add(number(value)?),
            ["back", object] => self.back(number(object)?),
            ["take", object] => self.take(number(object)?),
            ["cancel", party] => self.cancel(number(party)?),
            ["close"] => self.on_handle(|pool| {
                pool.close();
                Reply::said("ok")
            }),
            ["drain"] => self.drain(),
            ["tally"] => self.on_handle(|pool| tally(&pool.tally().tally)),
            ["status"] => self.on_handle(|pool| status(pool.status())),
            ["clone"] => self.clone_handle(),
            ["drop"] => self.drop_handle(),
            ["upgrade"] => Reply::NotExpressible,
            _ => return None,
        })
    }

    fn on_handle(&self, call: impl FnOnce(&Pool<Value>) -> Reply) -> Reply {
        self.handles.first().map_or_else(|| Reply::said("no handle"), |pool| call(pool))
    }

    fn drain(&self) -> Reply {
        self.on_handle(|pool| {
            let drain = pin!(pool.drain_for(Duration::ZERO));
            match drain.poll(&mut Context::from_waker(Waker::noop())) {
                Poll::Ready(Ok(_)) => Reply::said("drained"),
                Poll::Ready(Err(DrainError::Timeout(status))) => Reply::said(format!("left {}", status.size)),
                _ => Reply::NotExpressible,
            }
        })
    }

    /// A value that is handed in, with the next number.
    fn value(&mut self, number: u64) -> (Value, u64) {
        let value = self.script.value(number);
        let turn = self.numbers.len() as u64;
        self.numbers.insert(value.turn, turn);
        (value, turn)
    }

    fn begin(&mut self, party: impl FnOnce(&mut Self, Arc<Pool<Value>>) -> Party) -> Reply {
        let Some(pool) = self.handles.first().cloned() else {
            return Reply::said("no handle");
        };
        if self.parties.len() == MOST_PARTIES {
            return Reply::said("no room");
        }
        let party = party(self, pool);
        self.parties.push(party);
        Reply::said(format!("party {}", self.parties.len() - 1))
    }

    fn get(&mut self, wait: Option<Duration>) -> Reply {
        self.begin(|_, pool| {
            Party::Get(Box::pin(async move {
                count_begun();
                pool.timeout_get(wait).await
            }))
        })
    }

    fn add(&mut self, value: u64) -> Reply {
        self.begin(|player, pool| {
            let (value, turn) = player.value(value);
            let add = async move {
                count_begun();
                pool.add(value).await
            };
            Party::Add(Box::pin(add), turn)
        })
    }

    fn poll(&mut self, party: usize, now: u128) -> Reply {
        clock::set(now);
        let cx = &mut Context::from_waker(Waker::noop());
        let Some(party) = self.parties.get_mut(party) else {
            return Reply::said("no such");
        };
        match party {
            Party::Get(get) => match get.as_mut().poll(cx) {
                Poll::Pending => Reply::said("pending"),
                Poll::Ready(ended) => {
                    *party = Party::Finished;
                    self.hand_out(ended)
                }
            },
            Party::Add(add, turn) => match add.as_mut().poll(cx) {
                Poll::Pending => Reply::said("pending"),
                Poll::Ready(ended) => {
                    let reply = added(ended, *turn);
                    *party = Party::Finished;
                    reply
                }
            },
            Party::Finished => Reply::said("pending"),
            Party::Cancelled => Reply::said("no such"),
        }
    }

    fn hand_out(&mut self, ended: Result<Object<Value>, PoolError>) -> Reply {
        match ended {
            Ok(object) => {
                let (value, number) = (object.number, self.numbers[&object.turn]);
                self.out.insert(number, object);
                Reply::said(format!("object {number} value {value}"))
            }
            Err(cause) => Reply::said(format!("error {cause}")),
        }
    }

    fn try_get(&mut self) -> Reply {
        match self.handles.first().map(|pool| pool.try_get()) {
            None => Reply::said("no handle"),
            Some(ended) => self.hand_out(ended),
        }
    }

    fn try_add(&mut self, value: u64) -> Reply {
        let Some(pool) = self.handles.first().cloned() else {
            return Reply::said("no handle");
        };
        let (value, turn) = self.value(value);
        added(pool.try_add(value), turn)
    }

    fn back(&mut self, object: u64) -> Reply {
        let Some(object) = self.out.remove(&object) else {
            return Reply::said("no such");
        };
        let turn = object.turn;
        drop(object);
        let is_dropped = self.script.told(|told| told.dropped.contains(&turn));
        Reply::said(if is_dropped { "dropped" } else { "kept" })
    }

    fn take(&mut self, object: u64) -> Reply {
        match self.out.remove(&object) {
            None => Reply::said("no such"),
            Some(object) => Reply::said(format!("taken {}", Object::take(object).number)),
        }
    }

    fn cancel(&mut self, party: usize) -> Reply {
        match self.parties.get_mut(party) {
            None | Some(Party::Cancelled) => Reply::said("no such"),
            Some(party) => {
                *party = Party::Cancelled;
                Reply::said("cancelled")
            }
        }
    }

    fn clone_handle(&mut self) -> Reply {
        let Some(pool) = self.handles.first() else {
            return Reply::said("no handle");
        };
        self.handles.push(Arc::new((**pool).clone()));
        Reply::said("ok")
    }

    fn drop_handle(&mut self) -> Reply {
        let is_borrowed = self.parties.iter().any(|party| matches!(party, Party::Get(_) | Party::Add(..)));
        match self.handles.len() {
            0 => Reply::said("no handle"),
            1 if is_borrowed => Reply::NotExpressible,
            _ => {
                self.handles.pop();
                Reply::said("ok")
            }
        }
    }
}

fn tally(tally: &Tally) -> Reply {
    counts(&[
        ("gets", tally.gets),
        ("served", tally.served),
        ("waited", tally.waited),
        ("late", tally.late),
        ("crowded", tally.crowded),
        ("closed", tally.closed),
        ("adds", tally.adds),
        ("stored", tally.stored),
        ("adds_waited", tally.adds_waited),
        ("adds_full", tally.adds_full),
        ("adds_crowded", tally.adds_crowded),
        ("adds_closed", tally.adds_closed),
        ("taken", tally.taken),
        ("dropped", tally.dropped),
    ])
}

fn added(ended: Result<(), (Value, PoolError)>, turn: u64) -> Reply {
    Reply::said(match ended {
        Ok(()) => format!("added {turn}"),
        Err((value, cause)) => format!("error {cause} value {}", value.number),
    })
}
