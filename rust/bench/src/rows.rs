//! How works are timed: those of a row turn by turn, so that a busy machine is busy for each of them.
use std::future::Future;
use std::pin::pin;
use std::sync::Arc;
use std::task::{Context, Poll, Wake, Waker};
use std::thread::{self, Thread};
use std::time::Instant;

/// Of fewer rounds a median says little.
const LEAST_ROUNDS: usize = 9;

/// The works of a row: each has a name, and says how many nanoseconds a turn of it took.
#[derive(Default)]
pub struct Row<'a>(Vec<(String, Box<dyn FnMut() -> f64 + 'a>)>);

impl<'a> Row<'a> {
    pub fn add(&mut self, name: &str, work: impl FnMut() -> f64 + 'a) {
        self.0.push((name.into(), Box::new(work)));
    }

    /// Times each work so often, and writes of each what it took, and the ratio of that to what the first took in the same round.
    pub fn time(mut self, name: &str, rounds: usize) {
        let count = self.0.len();
        let mut times = vec![Vec::new(); count];
        for round in 0..rounds.max(LEAST_ROUNDS) {
            for at in (0..count).map(|at| (at + round) % count) {
                times[at].push(self.0[at].1());
            }
        }
        for ((peer, _), times_of) in self.0.iter().zip(&times) {
            let ratios = times_of.iter().zip(&times[0]).map(|(time, first)| time / first);
            let ratios = spread(ratios.collect()).map(|ratio| format!("{ratio:.2}"));
            let times = spread(times_of.clone()).map(|time| format!("{time:.1}"));
            let [time, ratio] = [times, ratios].map(|[low, median, high]| format!("{median} | {low} to {high}"));
            println!("| {name} | {peer} | {time} | {ratio} |");
        }
    }
}

/// The median, between the bounds of the middle half.
fn spread(mut values: Vec<f64>) -> [f64; 3] {
    values.sort_by(f64::total_cmp);
    [1, 2, 3].map(|quarter| values[(values.len() - 1) * quarter / 4])
}

struct Unpark(Thread);

impl Wake for Unpark {
    fn wake(self: Arc<Self>) {
        self.0.unpark();
    }

    fn wake_by_ref(self: &Arc<Self>) {
        self.0.unpark();
    }
}

/// A thread that waits for futures, by one waker.
pub struct Waiter(Waker);

impl Waiter {
    pub fn new() -> Self {
        Waiter(Waker::from(Arc::new(Unpark(thread::current()))))
    }

    #[inline]
    pub fn wait<F: Future>(&self, future: F) -> F::Output {
        let mut future = pin!(future);
        let mut cx = Context::from_waker(&self.0);
        loop {
            match future.as_mut().poll(&mut cx) {
                Poll::Ready(output) => return output,
                Poll::Pending => thread::park(),
            }
        }
    }
}

/// The nanoseconds of a turn, on one thread. It is timed over fewer turns than a busy machine interrupts.
#[inline(always)]
pub fn alone(mut turn: impl FnMut()) -> f64 {
    const TURNS: u32 = 4000;
    let begun = Instant::now();
    for _ in 0..TURNS {
        turn();
    }
    begun.elapsed().as_nanos() as f64 / f64::from(TURNS)
}
