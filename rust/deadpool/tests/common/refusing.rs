//! An allocator that refuses on the thread, and at the allocation, that it is told to, and counts the blocks that are in use.
#![allow(dead_code)]

use std::alloc::{GlobalAlloc, Layout, System};
use std::cell::Cell;

thread_local! {
    /// How many allocations are granted before one is refused, if one is to be.
    static GRANTED: Cell<Option<usize>> = const { Cell::new(None) };
    /// How many blocks the thread has taken and not given back.
    static IN_USE: Cell<isize> = const { Cell::new(0) };
}

struct Refusing;

#[global_allocator]
static ALLOCATOR: Refusing = Refusing;

/// Whether this allocation is refused. All are granted after it.
fn is_refused() -> bool {
    GRANTED.with(|granted| match granted.get() {
        None => false,
        Some(0) => {
            granted.set(None);
            true
        }
        Some(left) => {
            granted.set(Some(left - 1));
            false
        }
    })
}

unsafe impl GlobalAlloc for Refusing {
    unsafe fn alloc(&self, layout: Layout) -> *mut u8 {
        if is_refused() {
            return std::ptr::null_mut();
        }
        IN_USE.with(|count| count.set(count.get() + 1));
        unsafe { System.alloc(layout) }
    }

    unsafe fn realloc(&self, block: *mut u8, layout: Layout, size: usize) -> *mut u8 {
        if is_refused() { std::ptr::null_mut() } else { unsafe { System.realloc(block, layout, size) } }
    }

    unsafe fn dealloc(&self, block: *mut u8, layout: Layout) {
        IN_USE.with(|count| count.set(count.get() - 1));
        unsafe { System.dealloc(block, layout) }
    }
}

/// Makes a call while the allocation after so many is refused, and says whether one was.
pub fn refusing<R>(granted: usize, call: impl FnOnce() -> R) -> (R, bool) {
    GRANTED.with(|it| it.set(Some(granted)));
    let result = call();
    let was_refused = GRANTED.with(|it| it.replace(None)).is_none();
    (result, was_refused)
}

/// Makes a call on something new with each of its allocations refused in turn. Returns how many these were.
pub fn at_each_allocation<S>(new: impl Fn() -> S, mut call: impl FnMut(&mut S, bool)) -> usize {
    for granted in 0.. {
        let mut subject = new();
        let ((), was_refused) = refusing(granted, || call(&mut subject, true));
        if !was_refused {
            return granted;
        }
        call(&mut subject, false);
    }
    unreachable!()
}

/// How many blocks more are in use on this thread after a call than before it.
pub fn left_in_use(call: impl FnOnce()) -> isize {
    let before = IN_USE.get();
    call();
    IN_USE.get() - before
}
