//! Stands for the crate tokio where there is no registry, so that a build without it needs none.
compile_error!("features that need tokio are built outside of this folder, as .ci/rust-clients does");
