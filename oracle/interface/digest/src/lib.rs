//! Interface only: what the updater's hash asks of a digest. No behaviour.
#![no_std]

extern crate alloc;

pub trait Digest {
    fn new() -> Self;
    fn update(&mut self, data: impl AsRef<[u8]>);
    fn finalize(self) -> alloc::vec::Vec<u8>;
}
