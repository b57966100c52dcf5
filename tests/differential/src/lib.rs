//! The proved library compared with the plain implementation on many inputs.
//!
//! `cargo test --release -p differential` is the bounded run, and
//! `cargo run --release -p differential -- --seconds S --seed N` the longer one. A difference is
//! printed with the `--case` that makes it again.

#![forbid(unsafe_code)]

pub mod accepted;
pub mod compare;
pub mod conversation;
pub mod demand3;
pub mod implementation;
pub mod in_two;
pub mod inputs;
pub mod listed;
pub mod random;
pub mod recovery;
pub mod run;
pub mod wrong;
