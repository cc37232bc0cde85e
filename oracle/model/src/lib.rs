//! Document 01 read a second time, in plain Rust and without the crate's text: when a call says no (`table`)
//! and what it does otherwise (`model`). Geometry is given at run time.

pub mod model;
pub mod table;

pub use model::{Model, Wrong};
