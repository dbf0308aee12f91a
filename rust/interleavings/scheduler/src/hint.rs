//! A spin is no operation: who spins asks again, and that is one.

pub fn spin_loop() {}
