//! Host tests of Inkrowan. `reference` is document 01 written a second time, in plain Rust and
//! from the document alone; `generate` makes books, messages and requests; the tests hold the
//! reference against the worked vectors, and the C exports against the reference.

#![forbid(unsafe_code)]

pub mod answers;
pub mod generate;
pub mod reference;
pub mod samples;
