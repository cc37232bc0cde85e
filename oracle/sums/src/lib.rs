//! The sum of request No. 7 and the digest of request No. 8, from their standards and for reading: slow, and without tables. The
//! library's are held to them, and the tests here hold them to published values and to other programs.

mod crc32;
mod sha512;

pub use crc32::crc32;
pub use sha512::sha512;

#[cfg(test)]
mod programs;
