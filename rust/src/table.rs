//! The C boundary in Rust, said here alone: the functions of include/embassy_boot.h in its order, with its names. The wrapper's
//! functions and the exports of the stand-in in `oracle/` are made from it.

/// Hands each function to the macro that is named. `state: &mut [u8; state_length]` goes over as a pointer and a length; of a
/// record the numbers go over, in the order given.
macro_rules! boundary {
    ($each:ident) => {
        $each! { eb_prepare_boot(active: &mut [u8; active_length], dfu: &mut [u8; dfu_length], state: &mut [u8; state_length],
            Geometry { ea, wa, ed, wd, es, ws, b, ev }, budget: u32) -> u64 }

        $each! { eb_read_state(state: &[u8; state_length], FirmwareState { es, ws, ev }) -> u64 }
        $each! { eb_state_get_state(state: &[u8; state_length], FirmwareState { es, ws, ev }) -> u64 }

        $each! { eb_state_mark_updated(state: &mut [u8; state_length], FirmwareState { es, ws, ev }, budget: u32) -> u64 }
        $each! { eb_state_mark_dfu(state: &mut [u8; state_length], FirmwareState { es, ws, ev }, budget: u32) -> u64 }
        $each! { eb_state_mark_booted(state: &mut [u8; state_length], FirmwareState { es, ws, ev }, budget: u32) -> u64 }

        $each! { eb_updater_get_state(dfu: &[u8; dfu_length], state: &[u8; state_length], Sizes { ed, wd, es, ws, ev }) -> u64 }
        $each! { eb_updater_mark_updated(dfu: &[u8; dfu_length], state: &mut [u8; state_length], Sizes { ed, wd, es, ws, ev },
            budget: u32) -> u64 }
        $each! { eb_updater_mark_dfu(dfu: &[u8; dfu_length], state: &mut [u8; state_length], Sizes { ed, wd, es, ws, ev },
            budget: u32) -> u64 }
        $each! { eb_updater_mark_booted(dfu: &[u8; dfu_length], state: &mut [u8; state_length], Sizes { ed, wd, es, ws, ev },
            budget: u32) -> u64 }

        $each! { eb_updater_check_and_mark_updated(dfu: &[u8; dfu_length], state: &mut [u8; state_length],
            Sizes { ed, wd, es, ws, ev }, length: u64, crc: u32, budget: u32) -> u64 }

        $each! { eb_updater_read_dfu(dfu: &[u8; dfu_length], state: &[u8; state_length], Sizes { ed, wd, es, ws, ev },
            offset: u32, out: &mut [u8; out_length]) -> u64 }

        $each! { eb_updater_hash(dfu: &[u8; dfu_length], state: &[u8; state_length], Sizes { ed, wd, es, ws, ev },
            length: u64, chunk: u64, out: &mut [u8; out_length]) -> u64 }

        $each! { eb_updater_write_firmware(dfu: &mut [u8; dfu_length], state: &[u8; state_length], Sizes { ed, wd, es, ws, ev },
            offset: u64, data: &[u8; data_length], last: &mut u32, budget: u32) -> u64 }

        $each! { eb_updater_prepare_update(dfu: &mut [u8; dfu_length], state: &[u8; state_length], Sizes { ed, wd, es, ws, ev },
            budget: u32) -> u64 }

        $each! { eb_state_from(bytes: &[u8; length]) -> u32 }
    };
}
