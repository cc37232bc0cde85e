//! Interface only: the error type that the updater's error names. No behaviour.
#![no_std]

#[derive(Debug)]
pub struct Error;
