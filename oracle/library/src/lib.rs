//! The library behind its C boundary.

use std::cell::RefCell;

use call::{Answers, Call, Kind, Lent};
use embassy_boot_rattle::boundary::*;
use embassy_boot_rattle::{FirmwareState, Geometry, Sizes};

/// Bytes before and after each slice that no call may touch.
const GUARD: usize = 16;
const GUARD_BYTE: u8 = 0xB7;

/// The library, lent slices that lie between guard bytes and start at no round address.
#[derive(Default)]
pub struct GuardedLibrary {
    arena: RefCell<Vec<u8>>,
}

impl Answers for GuardedLibrary {
    fn answer(&self, call: &Call, lent: Lent) -> u64 {
        let mut arena = self.arena.borrow_mut();
        let lengths = [&lent.active, &lent.dfu, &lent.state, &lent.out].map(|slice| slice.len());
        arena.clear();
        for slice in [&lent.active, &lent.dfu, &lent.state, &lent.out] {
            arena.extend_from_slice(&[GUARD_BYTE; GUARD]);
            arena.extend_from_slice(slice);
        }
        arena.extend_from_slice(&[GUARD_BYTE; GUARD]);

        let mut rest = &mut arena[..];
        let mut next = |length: usize| {
            let (part, after) = std::mem::take(&mut rest)[GUARD..].split_at_mut(length);
            rest = after;
            part
        };
        let [active, dfu, state, out] = lengths.map(&mut next);
        let word = Library.answer(call, Lent { active, dfu, state, out, last: &mut *lent.last });

        let mut at = 0;
        for slice in [lent.active, lent.dfu, lent.state, lent.out] {
            assert_guard(&arena[at..at + GUARD]);
            at += GUARD;
            slice.copy_from_slice(&arena[at..at + slice.len()]);
            at += slice.len();
        }
        assert_guard(&arena[at..]);
        word
    }
}

fn assert_guard(bytes: &[u8]) {
    assert!(bytes.iter().all(|byte| *byte == GUARD_BYTE), "the library wrote outside a lent slice");
}

/// The library as it is.
pub struct Library;

impl Answers for Library {
    fn answer(&self, call: &Call, lent: Lent) -> u64 {
        let call::Geometry { ea, wa, ed, wd, es, ws, b, ev } = call.geometry;
        let all = Geometry { ea, wa, ed, wd, es, ws, b, ev };
        let firmware = FirmwareState { es, ws, ev };
        let sizes = Sizes { ed, wd, es, ws, ev };
        let Lent { active, dfu, state, out, last } = lent;
        let Call { budget, offset, data, length, crc, chunk, .. } = *call;
        match call.kind {
            Kind::PrepareBoot => eb_prepare_boot(active, dfu, state, all, budget),
            Kind::ReadState => eb_read_state(state, firmware),
            Kind::StateGetState => eb_state_get_state(state, firmware),
            Kind::StateMarkUpdated => eb_state_mark_updated(state, firmware, budget),
            Kind::StateMarkDfu => eb_state_mark_dfu(state, firmware, budget),
            Kind::StateMarkBooted => eb_state_mark_booted(state, firmware, budget),
            Kind::UpdaterGetState => eb_updater_get_state(dfu, state, sizes),
            Kind::UpdaterMarkUpdated => eb_updater_mark_updated(dfu, state, sizes, budget),
            Kind::UpdaterMarkDfu => eb_updater_mark_dfu(dfu, state, sizes, budget),
            Kind::UpdaterMarkBooted => eb_updater_mark_booted(dfu, state, sizes, budget),
            Kind::ReadDfu => {
                // the boundary's offset is a u32; no other is asked
                let offset = u32::try_from(offset).expect("an offset of read_dfu");
                eb_updater_read_dfu(dfu, state, sizes, offset, out)
            }
            Kind::WriteFirmware => eb_updater_write_firmware(dfu, state, sizes, offset, data, last, budget),
            Kind::PrepareUpdate => eb_updater_prepare_update(dfu, state, sizes, budget),
            Kind::StateFrom => u64::from(eb_state_from(data)),
            Kind::CheckAndMarkUpdated => {
                eb_updater_check_and_mark_updated(dfu, state, sizes, length, crc, budget)
            }
            Kind::Hash => eb_updater_hash(dfu, state, sizes, length, chunk, out),
        }
    }
}
