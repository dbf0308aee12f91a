// Made by .ci/made-rust of crates/deadpool_parts/src/tables.rt, without its contracts. The proof is of that text.
//! The tables of a trial: lists with room for what is appended, and lists by rising number.

use crate::rattle::Vec;
/// What has a number.
pub trait Numbered {
    fn number(&self) -> usize;
}

/// Appends an entry. There has to be room for it.
#[inline]
pub fn append<T>(entries: &mut Vec<T>, entry: T) {
    match entries.push(entry) {
        Ok(()) => {}
        Err(_) => unreachable!(),
    }
}

/// Where the first that has the number is.
#[inline]
pub fn index_of<T: Numbered>(items: &Vec<T>, number: usize) -> Option<usize> {
    items.iter().position(|item| item.number() == number)
}

// Where the first with a greater number is.
#[inline]
fn index_above<T: Numbered>(items: &Vec<T>, number: usize) -> Option<usize> {
    items.iter().position(|item| item.number() > number)
}

/// Takes out the first that has the number, if there is one.
#[inline]
pub fn take_out<T: Numbered>(items: &mut Vec<T>, number: usize) -> Option<T> {
    match index_of(items, number) {
        Some(at) => Some(items.remove(at)),
        None => None,
    }
}

/// Puts one in before the first with a greater number. There has to be room for it.
#[inline]
pub fn put_in<T: Numbered>(items: &mut Vec<T>, item: T) {
    let at = index_above(items, item.number()).unwrap_or(items.len());
    match items.insert(at, item) {
        Ok(()) => {}
        Err(_) => unreachable!(),
    }
}
