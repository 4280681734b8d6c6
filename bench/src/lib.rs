//! The calls of the claim tracker in plain Rust, to be compared with the proved library and timed beside it.
pub mod rules;
