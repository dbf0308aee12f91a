// Made by .ci/made-rust of crates/deadpool_unmanaged_journal/src/naming.rt, without its contracts. The proof is of that text.
//! What stands for an object in a journal.

use crate::cores::parts::tables::Numbered;

/// What stands for an object of type `T` in a journal.
pub trait Naming<T> {
    type Name: Copy;

    fn name(value: &T) -> Self::Name;
}

/// What stands for an object that has no name. It is printed as `_`.
#[derive(Clone, Copy, Debug, PartialEq, Eq)]
pub struct Unnamed;

/// Objects have no names. An entry says whether one was taken or given.
pub struct Nameless;

impl<T> Naming<T> for Nameless {
    type Name = Unnamed;

    #[inline]
    fn name(_value: &T) -> Unnamed {
        Unnamed
    }
}

/// Each object has its number as its name.
pub struct ByNumber;

impl<T: Numbered> Naming<T> for ByNumber {
    type Name = usize;

    #[inline]
    fn name(value: &T) -> usize {
        value.number()
    }
}
