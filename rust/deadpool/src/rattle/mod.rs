//! What the made cores call of Rattle's libraries, over those of Rust: a list, a ring, and values under keys. The proofs of the
//! cores stand on the contracts of the originals, whose words are the comments here. Want of memory is an answer.
// (the cores do not call all that their files name)
#![allow(dead_code)]

mod ring;
mod slab;
mod vec;

pub(crate) use ring::HeapCircularBuffer;
pub(crate) use slab::Slab;
pub(crate) use vec::Vec;

/// No memory was found.
#[derive(Clone, Copy, Debug, PartialEq, Eq)]
pub(crate) struct AllocError;

/// Where memory is from.
#[derive(Clone, Copy, Debug, Default)]
pub(crate) struct Global;
