//! The log readers in plain Rust without proofs, tuned by hand, as a library of their
//! own: what is called in it is called as the proved library is.

pub mod engine;
pub mod pieces;
pub mod reader;
