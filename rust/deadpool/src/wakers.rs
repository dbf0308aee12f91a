//! The wakers of those that wait.
use crate::errors::OutOfMemory;
use crate::owed::Owed;
use std::mem::{replace, take};
use std::task::Waker;

#[cfg(test)]
mod tests;

/// How many wakers lie together.
const GROUP: usize = 64;

/// A place for a waker, and the number of the get that had one there last.
#[derive(Default)]
struct Place {
    waker: Option<Waker>,
    number: u64,
}

/// The wakers in one group of places. One that has never had a waker has no memory.
#[derive(Default)]
struct Group {
    places: Option<Box<[Place; GROUP]>>,
    /// How many there are.
    count: usize,
}

/// The wakers of those that wait, by ticket, or by a place of their own.
///
/// Once a crowd has gone tickets may still have high numbers, since its core gives the last one that was given back first. So the
/// wakers lie in groups, and those of a group that is empty give their memory back, but for one group: that of the next that waits.
#[derive(Default)]
pub(crate) struct Wakers {
    groups: Vec<Group>,
    /// The group that was the last to become empty.
    emptied: usize,
}

impl Wakers {
    /// Keeps a waker, and gives back the one that it replaces.
    pub(crate) fn keep(&mut self, at: usize, waker: &Waker) -> Result<Option<Waker>, OutOfMemory> {
        self.keep_of(0, at, waker)
    }

    /// The same of a get with this number.
    pub(crate) fn keep_of(&mut self, number: u64, at: usize, waker: &Waker) -> Result<Option<Waker>, OutOfMemory> {
        let of = at / GROUP;
        if self.groups.get(of).is_none_or(|group| group.places.is_none()) {
            self.reserve(of)?;
        }
        let Group { places, count } = &mut self.groups[of];
        let place = &mut places.as_mut().ok_or(OutOfMemory)?[at % GROUP];
        match &place.waker {
            Some(kept) if kept.will_wake(waker) => Ok(None),
            _ => {
                let replaced = place.waker.replace(waker.clone());
                place.number = number;
                *count += usize::from(replaced.is_none());
                Ok(replaced)
            }
        }
    }

    /// Finds memory for all places of a group that has none.
    #[cold]
    fn reserve(&mut self, of: usize) -> Result<(), OutOfMemory> {
        let more = (of + 1).saturating_sub(self.groups.len());
        self.groups.try_reserve(more).map_err(|_| OutOfMemory)?;
        self.groups.extend((0..more).map(|_| Group::default()));
        let mut places = Vec::new();
        places.try_reserve_exact(GROUP).map_err(|_| OutOfMemory)?;
        places.extend((0..GROUP).map(|_| Place::default()));
        self.groups[of].places = places.try_into().ok();
        Ok(())
    }

    /// Takes the waker of one that waits no more, which is dropped without the lock.
    pub(crate) fn take(&mut self, at: usize) -> Option<Waker> {
        Some(self.take_if(at, |_| true)?.0)
    }

    /// The same, if it is that of the get with this number.
    #[inline]
    pub(crate) fn take_of(&mut self, number: u64, at: usize) -> Option<Waker> {
        Some(self.take_if(at, |of| of == number)?.0)
    }

    /// Takes the waker of one that is due.
    pub(crate) fn owed(&mut self, at: usize) -> Option<Owed> {
        Some(self.owed_numbered(at)?.0)
    }

    /// The same, with the number of its get.
    pub(crate) fn owed_numbered(&mut self, at: usize) -> Option<(Owed, u64)> {
        let (waker, number) = self.take_if(at, |_| true)?;
        Some((Owed::new(waker), number))
    }

    #[inline]
    fn take_if(&mut self, at: usize, is_taken: impl FnOnce(u64) -> bool) -> Option<(Waker, u64)> {
        let of = at / GROUP;
        let Group { places, count } = self.groups.get_mut(of)?;
        let place = &mut places.as_mut()?[at % GROUP];
        if !is_taken(place.number) {
            return None;
        }
        let taken = (place.waker.take()?, place.number);
        *count -= 1;
        if *count == 0 {
            self.has_emptied(of);
        }
        Some(taken)
    }

    /// One group has become empty. The one that did so before gives its memory back, if it still is.
    #[inline]
    fn has_emptied(&mut self, of: usize) {
        let before = replace(&mut self.emptied, of);
        match self.groups.get_mut(before) {
            Some(group) if before != of && group.count == 0 => drop(take(group)),
            _ => {}
        }
    }

    /// A place that nobody has.
    pub(crate) fn free_place(&self) -> usize {
        let of = self.groups.iter().position(|group| group.count < GROUP).unwrap_or(self.groups.len());
        let places = self.groups.get(of).and_then(|group| group.places.as_ref());
        let at = places.and_then(|places| places.iter().position(|place| place.waker.is_none()));
        of * GROUP + at.unwrap_or(0)
    }

    /// Takes one of them, all of which are due.
    pub(crate) fn pop(&mut self) -> Option<Owed> {
        let of = self.groups.iter().rposition(|group| group.count > 0);
        self.groups.truncate(of.map_or(0, |of| of + 1));
        let of = self.groups.len().checked_sub(1)?;
        let at = self.groups[of].places.as_ref()?.iter().rposition(|place| place.waker.is_some())?;
        self.owed(of * GROUP + at)
    }
}
