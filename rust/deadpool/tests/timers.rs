//! The thread that serves timeouts.
mod common;

use common::{Count, block_on, gone, is_answered};
use deadpool::{Runtime, Sleep};
use std::sync::mpsc::{Sender, channel};
use std::sync::{Arc, Mutex};
use std::task::{Context, Poll, Wake, Waker};
use std::time::{Duration, Instant};

const HOUR: Duration = Duration::from_secs(3600);
const SOON: Duration = Duration::from_millis(50);

fn poll(sleep: &mut Sleep, waker: &Waker) -> Poll<()> {
    sleep.as_mut().poll(&mut Context::from_waker(waker))
}

#[test]
fn a_sleep_ends_when_its_time_has_passed() {
    let begun = Instant::now();
    assert!(is_answered(|| block_on(Runtime::Thread.sleep(SOON))));
    assert!(begun.elapsed() >= SOON);
    assert!(poll(&mut Runtime::Thread.sleep(Duration::ZERO), Waker::noop()).is_ready());
    assert!(poll(&mut Runtime::Thread.sleep(Duration::MAX), Waker::noop()).is_pending());
}

#[test]
fn a_short_sleep_ends_while_a_longer_one_goes_on() {
    let mut long = Runtime::Thread.sleep(HOUR);
    assert!(poll(&mut long, Waker::noop()).is_pending());
    std::thread::sleep(SOON);
    // (each of them is the first alarm of all, and the thread has to hear of it)
    for _ in 0..12 {
        assert!(is_answered(|| block_on(Runtime::Thread.sleep(SOON))));
    }
    assert!(poll(&mut long, Waker::noop()).is_pending());
}

#[test]
fn a_sleep_keeps_its_last_waker_until_it_is_dropped() {
    let [(first, count_of_first), (last, count_of_last)] = [Count::waker(), Count::waker()];
    let mut sleep = Runtime::Thread.sleep(HOUR);
    assert!(poll(&mut sleep, &first).is_pending() && poll(&mut sleep, &last).is_pending());
    assert_eq!((Arc::strong_count(&count_of_first), Arc::strong_count(&count_of_last)), (2, 3));
    drop(sleep);
    assert_eq!(Arc::strong_count(&count_of_last), 2);
}

/// Begins another sleep when it is woken, and says so.
struct Again(Mutex<Sender<()>>);

impl Wake for Again {
    fn wake(self: Arc<Self>) {
        let mut sleep = Runtime::Thread.sleep(HOUR);
        assert!(poll(&mut sleep, Waker::noop()).is_pending());
        drop(sleep);
        self.0.lock().expect("no panic").send(()).expect("the test waits");
    }
}

#[test]
fn a_waker_may_begin_another_sleep() {
    let (sender, receiver) = channel();
    let waker = Waker::from(Arc::new(Again(Mutex::new(sender))));
    let mut sleep = Runtime::Thread.sleep(SOON);
    assert!(poll(&mut sleep, &waker).is_pending());
    assert!(receiver.recv_timeout(Duration::from_secs(20)).is_ok(), "a waker is called under the timers' lock");
}

#[test]
fn a_waker_that_panics_ends_no_other_sleep() {
    let mut lost = Runtime::Thread.sleep(SOON);
    assert!(poll(&mut lost, &gone()).is_pending());
    std::thread::sleep(2 * SOON);
    assert!(is_answered(|| block_on(Runtime::Thread.sleep(SOON))), "the thread of the timers has ended");
    assert!(poll(&mut lost, Waker::noop()).is_ready());
}
