//! Compares the library with the original, call by call.

pub mod boots;
pub mod checks;
pub mod hashes;
pub mod judge;
pub mod lives;
pub mod power;
pub mod refusals;
pub mod replay;
pub mod shapes;
pub mod sheet;
pub mod states;
pub mod updaters;

pub use call::random;
