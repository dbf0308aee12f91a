// Made by .ci/made-rust of crates/deadpool_gate/src/lib.rt, without its contracts. The proof is of that text.
//! The queue of those that wait at a pool: one list in order of arrival, whatever they wait for.

pub mod gate;
