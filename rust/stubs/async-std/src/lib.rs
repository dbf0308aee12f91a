//! Stands for the crate async-std where there is no registry, so that a build without it needs none.
compile_error!("features that need async-std are built outside of this folder, as .ci/rust-clients does");
