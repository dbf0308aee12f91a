//! Gets that are dropped while they wait amid many, and others that join the queue behind them.
use crate::pools::{Managed, each_cancellable};
use crate::rows::{Row, Waiter};
use std::future::Future;
use std::pin::Pin;
use std::task::{Context, Waker};
use std::time::{Duration, Instant};

#[derive(Clone, Copy)]
enum Part {
    Cancel,
    Join,
}

/// Places of a queue in some order.
struct Dice(u64);

impl Dice {
    fn below(&mut self, limit: usize) -> usize {
        self.0 ^= self.0 << 13;
        self.0 ^= self.0 >> 7;
        self.0 ^= self.0 << 17;
        (self.0 % limit as u64) as usize
    }
}

fn queue<M: Managed>(row: &mut Row, length: usize, part: Part) {
    // (they borrow the pool, which stays to the end of the program with the one object that is out)
    let pool: &'static M = Box::leak(Box::new(M::new(1)));
    Box::leak(Box::new(Waiter::new().wait(pool.get())));
    row.add(M::NAME, in_queue(move || pool.get(), length, part));
}

/// Times one part of it: some are dropped, and as many join.
fn in_queue<F: Future>(get: impl Fn() -> F, length: usize, part: Part) -> impl FnMut() -> f64 {
    let joins = move |place: &mut Pin<Box<Option<F>>>| {
        place.set(Some(get()));
        let get = place.as_mut().as_pin_mut().expect("a get");
        assert!(get.poll(&mut Context::from_waker(Waker::noop())).is_pending());
    };
    let mut line: Vec<_> = (0..length).map(|_| Box::pin(None)).collect();
    line.iter_mut().for_each(&joins);
    let mut dice = Dice(88_172_645_463_325_252);
    move || {
        let at_once = (length / 4).clamp(1, 400);
        let (mut times, mut count) = ([Duration::ZERO; 2], 0);
        while count < 400 {
            for at in 0..at_once {
                let other = at + dice.below(length - at);
                line.swap(at, other);
            }
            let begun = Instant::now();
            line[..at_once].iter_mut().for_each(|place| place.set(None));
            let cancelled = Instant::now();
            line[..at_once].iter_mut().for_each(&joins);
            times[0] += cancelled - begun;
            times[1] += cancelled.elapsed();
            count += at_once;
        }
        times[part as usize].as_nanos() as f64 / count as f64
    }
}

pub fn time(rounds: usize) {
    for length in [10, 1000, 100_000] {
        for (name, part) in [("cancel amid", Part::Cancel), ("join behind", Part::Join)] {
            let mut row = Row::default();
            each_cancellable!(queue(&mut row, length, part));
            row.time(&format!("managed, {name} {length}"), rounds);
        }
    }
}
