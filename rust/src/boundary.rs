//! The bare boundary: for each function of include/embassy_boot.h a safe one of the same name over slices and the records of
//! this crate. Results are packed, as the header says; [`crate::Answer`] is one taken apart.
//!
//! A slice goes over as its pointer and its length; Rust sees to it that lent slices are valid and don't overlap, which is all
//! that the library asks.

use crate::{FirmwareState, Geometry, Sizes};

/// The memory of an updater that has erased no sector.
pub const NO_SECTOR: u32 = 4_294_967_295;

/// A function of the table: how it is declared, and how it is called. A parameter is a slice that is read, one that is changed,
/// a number that is changed, a number, or a record of numbers.
macro_rules! safe {
    ($name:ident($($p:ident
        $(: &[$r:ident; $r_length:ident])? $(: &mut [$c:ident; $c_length:ident])? $(: &mut $m:ident)? $(: $n:ident)?
        $({ $($size:ident),* })?
    ),*) -> $result:ident) => {
        #[doc = concat!("`", stringify!($name), "` of the header.")]
        #[must_use = "a call may have been refused or cut"]
        pub fn $name(
            $($($p: &[$r])? $($p: &mut [$c])? $($p: &mut $m)? $($p: $n)? $($p { $($size),* }: $p)?),*
        ) -> $result {
            unsafe extern "C" {
                fn $name($(
                    $($p: *const $r, $r_length: usize)? $($p: *mut $c, $c_length: usize)? $($p: *mut $m)? $($p: $n)?
                    $($($size: u32),*)?
                ),*) -> $result;
            }
            // Sound: each pointer goes with its own slice's length.
            unsafe {
                $name($(
                    $($p as *const [$r] as *const $r, $p.len())? $($p as *mut [$c] as *mut $c, $p.len())?
                    $($p as *mut $m)? $($p as $n)? $($($size),*)?
                ),*)
            }
        }
    };
}

boundary!(safe);
