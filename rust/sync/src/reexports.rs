//! What a backend over this crate gives on to its users, so that they need not depend on it.
pub use crate::{InteractError, SyncGuard};
