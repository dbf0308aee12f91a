//! A pool as it is usually written for async code: a semaphore, which hands a place that comes free to the one that waits
//! longest, and the idle objects under a mutex of their own. A creation and a recycling end at once; there are no hooks and no
//! timeouts.
use std::collections::VecDeque;
use std::future::poll_fn;
use std::hint::black_box;
use std::ops::{Deref, DerefMut};
use std::sync::atomic::{AtomicBool, Ordering};
use std::sync::{Arc, Mutex, MutexGuard};
use std::task::{Poll, Waker};
use std::time::Instant;

#[derive(Clone)]
pub struct Fair(Arc<Shared>);

struct Shared {
    places: Mutex<Places>,
    objects: Mutex<Objects>,
}

/// How many places are free, and those that wait for one. While one waits none is free.
struct Places {
    free: usize,
    queue: VecDeque<Arc<Waiter>>,
}

/// Who waits for a place, and whether it was given one.
struct Waiter {
    waker: Mutex<Waker>,
    has_place: AtomicBool,
}

struct Objects {
    idle: VecDeque<Slot>,
    size: usize,
}

struct Slot {
    value: u64,
    recycled: Option<Instant>,
}

pub struct Lent {
    slot: Option<Slot>,
    pool: Arc<Shared>,
}

impl Fair {
    pub fn new(limit: usize) -> Self {
        let places = Mutex::new(Places { free: limit, queue: VecDeque::new() });
        let objects = Mutex::new(Objects { idle: VecDeque::with_capacity(limit), size: 0 });
        Fair(Arc::new(Shared { places, objects }))
    }

    pub async fn get(&self) -> Lent {
        self.0.place().await;
        let mut objects = self.0.objects();
        let mut slot = objects.idle.pop_front();
        match &mut slot {
            Some(slot) => {
                drop(objects);
                slot.recycled = Some(Instant::now());
            }
            None => {
                objects.size += 1;
                drop(objects);
                slot = Some(Slot { value: 0, recycled: None });
            }
        }
        Lent { slot, pool: Arc::clone(&self.0) }
    }
}

impl Lent {
    /// Takes the value out of the pool, whose size is one less then.
    pub fn take(mut self) -> u64 {
        let slot = self.slot.take().expect("an object");
        self.pool.objects().size -= 1;
        slot.value
    }
}

impl Shared {
    fn places(&self) -> MutexGuard<'_, Places> {
        self.places.lock().expect("no panic")
    }

    fn objects(&self) -> MutexGuard<'_, Objects> {
        self.objects.lock().expect("no panic")
    }

    /// A place. A get that waits is not dropped here.
    async fn place(&self) {
        let mut waits: Option<Arc<Waiter>> = None;
        poll_fn(|cx| {
            if let Some(waiter) = &waits {
                waiter.waker.lock().expect("no panic").clone_from(cx.waker());
                return if waiter.has_place.load(Ordering::Acquire) { Poll::Ready(()) } else { Poll::Pending };
            }
            let mut places = self.places();
            if places.free > 0 {
                places.free -= 1;
                return Poll::Ready(());
            }
            let waker = Mutex::new(cx.waker().clone());
            let waiter = Arc::new(Waiter { waker, has_place: AtomicBool::new(false) });
            places.queue.push_back(Arc::clone(&waiter));
            waits = Some(waiter);
            Poll::Pending
        })
        .await;
    }

    fn free_place(&self) {
        let mut places = self.places();
        let Some(next) = places.queue.pop_front() else {
            places.free += 1;
            return;
        };
        drop(places);
        let waker = next.waker.lock().expect("no panic").clone();
        next.has_place.store(true, Ordering::Release);
        waker.wake();
    }
}

impl Drop for Lent {
    fn drop(&mut self) {
        if let Some(slot) = self.slot.take() {
            black_box(slot.recycled);
            self.pool.objects().idle.push_back(slot);
        }
        self.pool.free_place();
    }
}

impl Deref for Lent {
    type Target = u64;

    fn deref(&self) -> &u64 {
        &self.slot.as_ref().expect("an object").value
    }
}

impl DerefMut for Lent {
    fn deref_mut(&mut self) -> &mut u64 {
        &mut self.slot.as_mut().expect("an object").value
    }
}
