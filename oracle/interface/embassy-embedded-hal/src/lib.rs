//! Interface only: the partition type that the linkerfile constructors name. No behaviour, never run.
#![no_std]

pub mod flash {
    pub mod partition {
        use core::cell::RefCell;
        use core::marker::PhantomData;

        use embassy_sync::blocking_mutex::Mutex;

        pub struct BlockingPartition<'a, M, T>(PhantomData<&'a (M, T)>);

        impl<'a, M, T> BlockingPartition<'a, M, T> {
            pub fn new(_flash: &'a Mutex<M, RefCell<T>>, _offset: u32, _size: u32) -> Self {
                BlockingPartition(PhantomData)
            }
        }
    }
}
