//! Interface only: types that the linkerfile constructors name. No behaviour, never run.
#![no_std]

pub mod blocking_mutex {
    use core::marker::PhantomData;

    pub struct Mutex<R, T>(PhantomData<(R, T)>);

    pub mod raw {
        pub struct NoopRawMutex;
    }
}
