//! What a list of wakers keeps, and what it gives back once a crowd has gone.
use super::{GROUP, Wakers};
use crate::owed::{Owed, give_back};
use std::sync::atomic::{AtomicUsize, Ordering};
use std::sync::{Arc, Mutex};
use std::task::{Wake, Waker};

/// A waker whose calls say its number.
struct Number(usize, Arc<AtomicUsize>);

impl Wake for Number {
    fn wake(self: Arc<Self>) {
        self.1.store(self.0, Ordering::SeqCst);
    }
}

/// A list of so many wakers, each at its number.
fn crowd(count: usize) -> (Wakers, Arc<AtomicUsize>) {
    let (mut wakers, called) = (Wakers::default(), Arc::<AtomicUsize>::default());
    for number in 0..count {
        let waker = Waker::from(Arc::new(Number(number, called.clone())));
        assert!(wakers.keep(number, &waker).is_ok_and(|replaced| replaced.is_none()));
    }
    (wakers, called)
}

impl Wakers {
    /// How many there are.
    pub(crate) fn count(&self) -> usize {
        self.groups.iter().map(|group| group.count).sum()
    }

    /// For how many there is room.
    pub(crate) fn room(&self) -> usize {
        GROUP * self.groups.iter().filter(|group| group.places.is_some()).count()
    }
}

fn is_number(owed: Option<Owed>, number: usize, called: &AtomicUsize) {
    let free = give_back(Mutex::new(()).lock().expect("no panic"));
    owed.expect("a waker").pay(&free);
    assert_eq!(called.load(Ordering::SeqCst), number);
}

#[test]
fn the_room_of_a_crowd_goes_with_it() {
    const CROWD: usize = 100 * GROUP;
    let (mut wakers, called) = crowd(CROWD);
    assert_eq!(wakers.room(), CROWD);
    for number in 0..CROWD {
        is_number(wakers.owed(number), number, &called);
        assert!(wakers.take(number).is_none());
        // (one group is kept for the next that waits)
        assert!(wakers.room() < CROWD - number + 2 * GROUP);
    }
    assert_eq!(wakers.room(), GROUP);
    // One that comes and goes leaves as much, wherever it stands and whoever asks meanwhile.
    for number in [CROWD - 1, CROWD - 2, 0, CROWD - 1] {
        let waker = Waker::from(Arc::new(Number(number, called.clone())));
        assert!(wakers.keep(number, Waker::noop()).is_ok_and(|replaced| replaced.is_none()));
        assert!(wakers.keep(number, &waker).is_ok_and(|replaced| replaced.is_some()));
        assert!(wakers.keep(number, &waker).is_ok_and(|replaced| replaced.is_none()));
        assert!(wakers.room() <= 2 * GROUP && wakers.count() == 1);
        assert!(wakers.take(number).is_some());
        assert_eq!(wakers.room(), GROUP);
    }
}

#[test]
fn those_that_are_left_stay() {
    let (mut wakers, called) = crowd(10 * GROUP);
    let left = [3, GROUP - 1, 4 * GROUP, 10 * GROUP - 1];
    for number in (0..10 * GROUP).rev().filter(|it| !left.contains(it)) {
        is_number(wakers.owed(number), number, &called);
    }
    assert_eq!(wakers.room(), 4 * GROUP);
    for number in left {
        is_number(wakers.owed(number), number, &called);
    }
    assert_eq!(wakers.room(), GROUP);
}

#[test]
fn a_place_that_is_free_is_the_first() {
    let (mut wakers, _) = crowd(3 * GROUP);
    assert_eq!(wakers.free_place(), 3 * GROUP);
    for free in [2 * GROUP + 5, GROUP, GROUP - 1, 0] {
        assert!(wakers.take(free).is_some());
        assert_eq!(wakers.free_place(), free);
    }
    assert_eq!(Wakers::default().free_place(), 0);
}

#[test]
fn all_are_taken_in_the_end_and_leave_no_room() {
    let (mut wakers, called) = crowd(3 * GROUP);
    (GROUP..2 * GROUP).for_each(|number| assert!(wakers.take(number).is_some()));
    for number in (2 * GROUP..3 * GROUP).rev().chain((0..GROUP).rev()) {
        is_number(wakers.pop(), number, &called);
    }
    assert!(wakers.pop().is_none());
    assert_eq!((wakers.room(), wakers.groups.len()), (0, 0));
    assert!(wakers.take(0).is_none() && wakers.free_place() == 0);
    assert!(wakers.keep(0, Waker::noop()).is_ok() && wakers.take(0).is_some());
}
