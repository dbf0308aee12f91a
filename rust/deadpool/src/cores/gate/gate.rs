// Made by .ci/made-rust of crates/deadpool_gate/src/gate.rt, without its contracts and its counter of accesses. The proof is of that text.
//! The line at a pool: those that found no place, in order of arrival, and what each of them was answered.

mod store;
mod within;

use crate::rattle::{AllocError, Global};
use store::{Change, Node, NodeStore};

/// Stands for one waiter while it is listed. Its number says nothing of the order, and a later waiter may get it again
/// once this one has left.
#[derive(Clone, Copy, PartialEq, Eq, PartialOrd, Ord, Hash, Debug)]
pub struct Ticket {
    number: usize,
}

impl Ticket {
    /// The ticket with this number, whether or not a waiter has it.
    #[inline]
    pub fn from_number(number: usize) -> Self {
        Ticket { number }
    }

    /// Its number. Numbers of waiters that are listed are small: a gate gives those of waiters that have left again.
    #[inline]
    pub fn number(self) -> usize {
        self.number
    }
}

/// The answer to an entry.
#[derive(Clone, Copy, PartialEq, Eq, Debug)]
pub enum Entry {
    /// The gate is closed, and lists nobody any more.
    Closed,
    /// A place is free, and the caller has it from now on: the gate keeps no note of it.
    Granted,
    /// No place is free, and the caller did not want to wait.
    Full,
    /// No place is free, and there was no memory to list the caller.
    OutOfMemory,
    /// The caller is the last in the list, and asks by this ticket.
    Waiting(Ticket),
}

/// The answer to a waiter that asks.
#[derive(Clone, Copy, PartialEq, Eq, Debug)]
pub enum Ask {
    /// Nobody is listed under the ticket.
    Unknown,
    /// The gate is closed. A waiter that had a place loses it, and the place is free.
    Closed,
    /// The waiter has a place, which is the caller's from now on.
    Granted,
    /// The waiter has to wait on.
    Waiting,
}

/// What a waiter was that withdrew.
#[derive(Clone, Copy, PartialEq, Eq, Debug)]
pub enum Withdrawn {
    /// Nobody was listed under the ticket.
    Unknown,
    /// It had no place.
    Waiting,
    /// It had a place.
    Granted,
}

/// Those that wait for a place, in order of arrival. Places go to the first of them, so the ones that have a place are
/// the front of the list. How many places there are, and who has the others, is for the caller to know.
///
/// A waiter is a node that names its neighbours by key, and its ticket is its own key. So whoever leaves is found at
/// once, wherever it stands; `touched` says how many accesses to nodes a call made. Only `enter` takes memory.
#[repr(C)]
pub struct Gate {
    first_unnotified: Option<usize>,
    first_waiting: Option<usize>,
    granted: usize,
    waiting: usize,
    is_closed: bool,
    last: Option<usize>,
    first: Option<usize>,
    store: NodeStore,
}

// Where a pointer points once the node under `key` has gone, behind which stands `behind`.
#[inline]
fn move_on(pointer: Option<usize>, key: usize, behind: Option<usize>) -> Option<usize> {
    match pointer {
        Some(at) if at == key => behind,
        _ => pointer,
    }
}

// Changes the node under `key`, if there is a key.
#[inline]
fn link(store: &mut NodeStore, key: Option<usize>, change: Change) {
    if let Some(key) = key {
        store.write(key, change);
    }
}

impl Gate {
    /// An open gate with nobody in line. It takes no memory until somebody waits.
    #[inline]
    pub fn new(alloc: Global) -> Self {
        Gate {
            store: NodeStore::new(alloc),
            first: None,
            last: None,
            first_waiting: None,
            first_unnotified: None,
            granted: 0,
            waiting: 0,
            is_closed: false,
        }
    }

    /// Asks for one place if `room` of them are free, and joins the end of the list if none is and `wait` is set.
    /// A free place is taken without a look at the list, so settle first if others wait. A place that a listed waiter
    /// has is not free. After any answer but `Waiting` the list is as it was, and the caller may enter again.
    #[inline]
    pub fn enter(&mut self, room: usize, wait: bool) -> Entry {
        if self.is_closed {
            return Entry::Closed;
        }
        if room > 0 {
            return Entry::Granted;
        }
        if !wait {
            return Entry::Full;
        }
        let node = Node { previous: self.last, next: None, granted: false, told: false };
        let Ok(key) = self.store.put(node) else {
            return Entry::OutOfMemory;
        };
        link(&mut self.store, self.last, Change::Next(Some(key)));
        self.last = Some(key);
        self.first = Some(self.first.unwrap_or(key));
        self.first_waiting = Some(self.first_waiting.unwrap_or(key));
        self.first_unnotified = Some(self.first_unnotified.unwrap_or(key));
        self.waiting += 1;
        Entry::Waiting(Ticket { number: key })
    }

    /// The number of the ticket that the next waiter gets.
    #[inline]
    pub fn next_number(&self) -> usize {
        self.store.next_key()
    }

    /// Sees that there is memory for so many waiters in all, those included that are listed. Without it, only the room
    /// may have changed.
    #[inline]
    pub fn reserve(&mut self, waiters: usize) -> Result<(), AllocError> {
        self.store.reserve(waiters)
    }

    /// How many waiters it can list before it has to find memory. It never falls.
    #[inline]
    pub fn room(&self) -> usize {
        self.store.room()
    }

    /// The greatest number that the next waiter's ticket may have. If there is room for that waiter it is below the
    /// room.
    #[inline]
    pub fn most_next_number(&self) -> usize {
        let room = self.room();
        let listed = self.granted() + self.waiting();
        if listed < room { room - 1 } else { self.next_number() }
    }

    // Gives a place to the earliest waiter without one.
    #[inline]
    fn grant_one(&mut self) {
        let Some(key) = self.first_waiting else {
            return;
        };
        let Some(node) = self.store.read(key) else {
            return;
        };
        self.store.write(key, Change::Granted);
        self.first_waiting = node.next;
        self.granted += 1;
        self.waiting -= 1;
    }

    /// Gives at most `room` free places to waiters, the earliest first. It answers to how many it gave one: so many
    /// places are no longer free. Nobody is told of it here.
    #[inline]
    pub fn settle(&mut self, room: usize) -> usize {
        let count = if self.is_closed { 0 } else { room.min(self.waiting()) };
        for _given in 0..count {
            self.grant_one();
        }
        count
    }

    // Takes a waiter out of the list, and says whether it had a place.
    #[inline]
    fn remove(&mut self, key: usize) -> Option<bool> {
        let node = self.store.take(key)?;
        link(&mut self.store, node.previous, Change::Next(node.next));
        link(&mut self.store, node.next, Change::Previous(node.previous));
        self.first = move_on(self.first, key, node.next);
        self.last = move_on(self.last, key, node.previous);
        self.first_waiting = move_on(self.first_waiting, key, node.next);
        self.first_unnotified = move_on(self.first_unnotified, key, node.next);
        self.granted -= usize::from(node.granted);
        self.waiting -= usize::from(!node.granted);
        Some(node.granted)
    }

    // Whether a listed waiter has a place.
    #[inline]
    fn is_granted(&mut self, key: usize) -> Option<bool> {
        let node = self.store.read(key)?;
        Some(node.granted)
    }

    /// Whether a waiter is listed under the ticket and has a place. It stays as it is.
    #[inline]
    pub fn has_place(&mut self, ticket: Ticket) -> bool {
        match self.store.read(ticket.number) {
            Some(node) => node.granted,
            None => false,
        }
    }

    /// Says how a waiter stands. After `Closed` or `Granted` it has left the list, and its ticket is void. After
    /// `Waiting` it keeps its position and asks again later. `Unknown` changes nothing.
    #[inline]
    pub fn ask(&mut self, ticket: Ticket) -> Ask {
        if self.is_closed {
            return match self.remove(ticket.number) {
                Some(_) => Ask::Closed,
                None => Ask::Unknown,
            };
        }
        match self.is_granted(ticket.number) {
            Some(true) => {
                self.remove(ticket.number);
                Ask::Granted
            }
            Some(false) => Ask::Waiting,
            None => Ask::Unknown,
        }
    }

    /// Takes a waiter out of the list, be the gate open or closed, and says what it was. The others keep their order,
    /// and a place that it had is free. `Unknown` changes nothing.
    #[inline]
    pub fn withdraw(&mut self, ticket: Ticket) -> Withdrawn {
        match self.remove(ticket.number) {
            Some(true) => Withdrawn::Granted,
            Some(false) => Withdrawn::Waiting,
            None => Withdrawn::Unknown,
        }
    }

    /// Closes the gate, for good: from now on it lists nobody and grants nothing. Those that are listed stay until they
    /// ask or withdraw.
    #[inline]
    pub fn close(&mut self) {
        self.is_closed = true;
    }

    /// The earliest listed waiter whose wait has ended, by a place or by the closing, and who was not told so. With
    /// this answer it counts as told. It stays in the list until it asks or withdraws.
    #[inline]
    pub fn take_wake(&mut self) -> Option<Ticket> {
        let key = self.first_unnotified?;
        if !self.is_closed && self.first_waiting == Some(key) {
            return None;
        }
        let node = self.store.read(key)?;
        self.store.write(key, Change::Told);
        self.first_unnotified = node.next;
        Some(Ticket { number: key })
    }

    /// Whether `take_wake` would name somebody. It looks at no waiter.
    #[inline]
    pub fn is_wake_due(&self) -> bool {
        let Some(key) = self.first_unnotified else {
            return false;
        };
        self.is_closed || self.first_waiting != Some(key)
    }

    /// Whether the gate was closed.
    #[inline]
    pub fn is_closed(&self) -> bool {
        self.is_closed
    }

    /// How many of the listed have a place, and have not yet taken it by asking.
    #[inline]
    pub fn granted(&self) -> usize {
        self.granted
    }

    /// How many of the listed have none.
    #[inline]
    pub fn waiting(&self) -> usize {
        self.waiting
    }
}
