//! Stands for the crate serde where there is no registry, so that a build without it needs none.
compile_error!("features that need serde are built outside of this folder, as .ci/rust-clients does");
