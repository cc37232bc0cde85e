//! Interface only: the async traits that the crate's test flash also implements. No behaviour, never run.
#![no_std]
#![allow(async_fn_in_trait)]

pub mod nor_flash {
    use embedded_storage::nor_flash::ErrorType;

    pub trait ReadNorFlash: ErrorType {
        const READ_SIZE: usize;

        async fn read(&mut self, offset: u32, bytes: &mut [u8]) -> Result<(), Self::Error>;
        fn capacity(&self) -> usize;
    }

    pub trait NorFlash: ReadNorFlash {
        const WRITE_SIZE: usize;
        const ERASE_SIZE: usize;

        async fn erase(&mut self, from: u32, to: u32) -> Result<(), Self::Error>;
        async fn write(&mut self, offset: u32, bytes: &[u8]) -> Result<(), Self::Error>;
    }
}
