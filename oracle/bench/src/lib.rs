//! The bench program of request No. 4 read a second time (`reading`), inputs to try it on (`inputs`) and a way
//! to ask the real program (`program`).

pub mod damage;
pub mod inputs;
pub mod program;
pub mod reading;
pub mod scripts;
pub mod slips;
