//! The proved bodies of both pools, compiled as Rust. `.ci/made-rust` makes all of this folder.
//!
//! The proof of the sources was last checked with `rattle-kit-13f logic dac8208d650f15bf`.
// (a file stays whole, though not all of it is called or has a comment)
#![allow(dead_code, missing_docs, unused_imports)]
#![allow(clippy::manual_map, clippy::module_inception)]
pub(crate) mod desk;
pub(crate) mod gate;
pub(crate) mod journal;
pub(crate) mod order;
pub(crate) mod parts;
pub(crate) mod unmanaged;
pub(crate) mod unmanaged_journal;
pub(crate) mod unmanaged_order;
