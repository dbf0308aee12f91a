// The root of the crate. Its page is that of README.md, with a table of the calls.
#![cfg_attr(doc, doc = include_str!("../README.md"))]
//! # The calls
//!
//! | | [`managed::Pool`] | [`unmanaged::Pool`] |
//! |---|---|---|
//! | an object, once one is free | [`get`], [`timeout_get`], [`get_timeout`] | the first two |
//! | on a thread that waits | [`get_blocking`], or [`wait()`] for any future | the same |
//! | an object, if one is free | [`try_get`] | the same, at once |
//! | give it back; keep it for good | its drop; [`Object::take`] | the same; [`remove`] |
//! | where objects come from | [`Manager::create`] | [`add`], [`try_add`] |
//! | how a pool is made | [`Pool::builder`] | [`new`], [`from_config`], `from` |
//! | what sees or refuses an object | [`Manager::recycle`], [`Hook`], [`Limits`] | |
//! | give up what is idle | [`retain`], [`resize`], [`keeper`] | [`try_remove`] |
//! | how it stands, what has happened | [`status`], [`tally`], [`journal`] | the same |
//! | the same of several pools, for Prometheus | [`Reports`] | the same |
//! | who holds what is out | [`holders`], [`held_by`] | |
//! | end it | [`close`], [`drain`], [`drain_for`] | the same |
//!
//! A call with a future can be dropped at any await: its page has a section on that, *Cancel safety*.
//!
//! [`get`]: managed::Pool::get
//! [`timeout_get`]: managed::Pool::timeout_get
//! [`get_timeout`]: managed::Pool::get_timeout
//! [`get_blocking`]: managed::Pool::get_blocking
//! [`try_get`]: managed::Pool::try_get
//! [`Object::take`]: managed::Object::take
//! [`remove`]: unmanaged::Pool::remove
//! [`Manager::create`]: managed::Manager::create
//! [`add`]: unmanaged::Pool::add
//! [`try_add`]: unmanaged::Pool::try_add
//! [`Pool::builder`]: managed::Pool::builder
//! [`new`]: unmanaged::Pool::new
//! [`from_config`]: unmanaged::Pool::from_config
//! [`Manager::recycle`]: managed::Manager::recycle
//! [`Hook`]: managed::Hook
//! [`Limits`]: managed::Limits
//! [`retain`]: managed::Pool::retain
//! [`resize`]: managed::Pool::resize
//! [`keeper`]: managed::Pool::keeper
//! [`try_remove`]: unmanaged::Pool::try_remove
//! [`status`]: managed::Pool::status
//! [`tally`]: managed::Pool::tally
//! [`journal`]: managed::Pool::journal
//! [`holders`]: managed::Pool::holders
//! [`held_by`]: managed::held_by
//! [`close`]: managed::Pool::close
//! [`drain`]: managed::Pool::drain
//! [`drain_for`]: managed::Pool::drain_for
#![forbid(unsafe_code)]
#![warn(missing_docs, clippy::pedantic)]
#![allow(clippy::inline_always, reason = "they are measured: FIGURES.md of the repository says what they save")]
#![cfg_attr(docsrs, feature(doc_cfg))]
#![cfg_attr(not(all(feature = "managed", feature = "unmanaged")), allow(dead_code, unused_imports, unused_macros))]

mod blocking;
mod cells;
#[allow(
    clippy::pedantic,
    clippy::new_without_default,
    clippy::write_with_newline,
    reason = "it is made of text that the prover reads too, whose style is another"
)]
mod cores;
mod desk;
#[cfg(feature = "serde")]
mod durations;
mod ending;
mod errors;
mod journal;
mod lends;
#[cfg(feature = "managed")]
pub mod managed;
mod moment;
mod owed;
mod parcel;
mod rattle;
mod reports;
mod runtime;
mod shared;
#[cfg(feature = "serde")]
mod strict;
mod timed;
mod trace;
#[cfg(feature = "unmanaged")]
pub mod unmanaged;
mod wait;
mod waiting;
mod wakers;

pub use blocking::SpawnBlockingError;
pub use cores::parts::Status;
pub use errors::Named;
pub use reports::Reports;
pub use runtime::{Runtime, Sleep, Timers};
#[cfg(feature = "serde")]
pub use strict::Strict;
pub use wait::wait;
