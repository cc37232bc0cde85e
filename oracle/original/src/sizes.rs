//! The text instantiated: erase and write sizes are constants of its types, so each row of the table below is
//! compiled on its own. Chunk and lengths are given at run time.
//!
//! Only admitted inputs may be asked here (no refusal of document 01 but 5); on others the text panics or
//! does what 01 refuses.

use call::{Answers, BAD_STATE, CHECKSUM, CUT, Call, DONE, Kind, Lent, NO_SECTOR, NO_STATE, Original, pack};
use digest::Digest;
use embedded_storage::nor_flash::NorFlashErrorKind;

use crate::mem_flash::{MemFlash, Mode, Operation, Supply};
use crate::{
    BlockingFirmwareState, BlockingFirmwareUpdater, BootError, BootLoader, BootLoaderConfig, ERASE_VALUE,
    FirmwareUpdaterConfig, FirmwareUpdaterError, State,
};

/// The text for one row of sizes.
pub struct Sizes<
    const EA: usize,
    const WA: usize,
    const ED: usize,
    const WD: usize,
    const ES: usize,
    const WS: usize,
>;

type Updater<'d, 'a, const ED: usize, const WD: usize, const ES: usize, const WS: usize> =
    BlockingFirmwareUpdater<'d, MemFlash<'a, ED, WD>, MemFlash<'a, ES, WS>>;

impl<const EA: usize, const WA: usize, const ED: usize, const WD: usize, const ES: usize, const WS: usize>
    Original for Sizes<EA, WA, ED, WD, ES, WS>
{
    fn numbers(&self) -> [u32; 6] {
        [EA, WA, ED, WD, ES, WS].map(|size| size as u32)
    }

    fn erase_value(&self) -> u32 {
        ERASE_VALUE
    }

    fn chain(&self, calls: &[Call], lent: Lent) -> Vec<u64> {
        let supply = Supply::new(0);
        let sectors = lent.dfu.len() / ED;
        // what the buffer holds before a call doesn't matter, so it holds nothing in particular
        let mut aligned = [0xA5; WS];
        let config = FirmwareUpdaterConfig {
            dfu: MemFlash::<ED, WD>::new(lent.dfu, &supply),
            state: MemFlash::<ES, WS>::new(lent.state, &supply),
        };
        let mut updater = BlockingFirmwareUpdater::new(config, &mut aligned);
        remember(&mut updater, &supply, *lent.last);
        let mut answers = Vec::with_capacity(calls.len());
        for call in calls {
            supply.left.set(call.budget);
            answers.push(run_updater(&mut updater, &supply, call, lent.out));
        }
        *lent.last = remembered(&mut updater, &supply, sectors, *lent.last);
        answers
    }
}

impl<const EA: usize, const WA: usize, const ED: usize, const WD: usize, const ES: usize, const WS: usize>
    Answers for Sizes<EA, WA, ED, WD, ES, WS>
{
    fn answer(&self, call: &Call, lent: Lent) -> u64 {
        let supply = Supply::new(call.budget);
        let active = MemFlash::<EA, WA>::new(lent.active, &supply);
        let dfu = MemFlash::<ED, WD>::new(lent.dfu, &supply);
        let state = MemFlash::<ES, WS>::new(lent.state, &supply);
        let mut aligned = [0xA5; WS];
        match call.kind {
            Kind::PrepareBoot => {
                let mut chunk = vec![0xA5; call.geometry.b as usize];
                let mut loader = BootLoader::new(BootLoaderConfig { active, dfu, state });
                from_boot(loader.prepare_boot(&mut chunk), &supply, call)
            }
            Kind::ReadState => {
                let mut loader = BootLoader::new(BootLoaderConfig { active, dfu, state });
                from_boot(loader.read_state(&mut aligned), &supply, call)
            }
            Kind::StateGetState => {
                let mut firmware = BlockingFirmwareState::new(state, &mut aligned);
                from_updater(firmware.get_state().map(Some), &supply, call)
            }
            Kind::StateMarkUpdated => {
                let mut firmware = BlockingFirmwareState::new(state, &mut aligned);
                from_updater(firmware.mark_updated().map(|()| None), &supply, call)
            }
            Kind::StateMarkDfu => {
                let mut firmware = BlockingFirmwareState::new(state, &mut aligned);
                from_updater(firmware.mark_dfu().map(|()| None), &supply, call)
            }
            Kind::StateMarkBooted => {
                let mut firmware = BlockingFirmwareState::new(state, &mut aligned);
                from_updater(firmware.mark_booted().map(|()| None), &supply, call)
            }
            Kind::WriteFirmware => self.write_firmware(call, dfu, state, lent.last),
            Kind::StateFrom => u64::from(state_number(&State::from(call.data))),
            _ => {
                let config = FirmwareUpdaterConfig { dfu, state };
                let mut updater = BlockingFirmwareUpdater::new(config, &mut aligned);
                run_updater(&mut updater, &supply, call, lent.out)
            }
        }
    }
}

impl<const EA: usize, const WA: usize, const ED: usize, const WD: usize, const ES: usize, const WS: usize>
    Sizes<EA, WA, ED, WD, ES, WS>
{
    /// The only call that uses the updater's memory: brings it in, runs, finds it out again.
    fn write_firmware(
        &self,
        call: &Call,
        dfu: MemFlash<ED, WD>,
        state: MemFlash<ES, WS>,
        last: &mut u32,
    ) -> u64 {
        let supply = dfu.supply();
        let sectors = dfu.length() / ED;
        let mut aligned = [0xA5; WS];
        let mut updater = BlockingFirmwareUpdater::new(FirmwareUpdaterConfig { dfu, state }, &mut aligned);
        remember(&mut updater, supply, *last);
        let answer = run_updater(&mut updater, supply, call, &mut []);
        *last = remembered(&mut updater, supply, sectors, *last);
        answer
    }
}

fn run_updater<const ED: usize, const WD: usize, const ES: usize, const WS: usize>(
    updater: &mut Updater<ED, WD, ES, WS>,
    supply: &Supply,
    call: &Call,
    out: &mut [u8],
) -> u64 {
    let result = match call.kind {
        Kind::CheckAndMarkUpdated => match check_and_mark_updated(updater, call) {
            Ok(false) => return pack(CHECKSUM, NO_STATE, 0),
            marked => marked.map(|_| None),
        },
        Kind::UpdaterGetState => updater.get_state().map(Some),
        Kind::UpdaterMarkUpdated => updater.mark_updated().map(|()| None),
        Kind::UpdaterMarkDfu => updater.mark_dfu().map(|()| None),
        Kind::UpdaterMarkBooted => updater.mark_booted().map(|()| None),
        Kind::ReadDfu => updater.read_dfu(call.offset as u32, out).map(|()| None),
        Kind::WriteFirmware => updater.write_firmware(call.offset as usize, call.data).map(|()| None),
        Kind::PrepareUpdate => updater.prepare_update().map(|_| None),
        Kind::Hash => hash(updater, call, out).map(|()| None),
        other => unreachable!("{other:?} is no updater call"),
    };
    from_updater(result, supply, call)
}

/// Request No. 7's call, which the text doesn't have, put together from what it has: a write of nothing asks the state, as
/// write_firmware does, and the bytes come from read_dfu. False for a wrong sum.
fn check_and_mark_updated<const ED: usize, const WD: usize, const ES: usize, const WS: usize>(
    updater: &mut Updater<ED, WD, ES, WS>,
    call: &Call,
) -> Result<bool, FirmwareUpdaterError> {
    updater.write_firmware(0, &[])?;
    let mut image = vec![0xA5; call.length as usize];
    updater.read_dfu(0, &mut image)?;
    if sums::crc32(&image) != call.crc {
        return Ok(false);
    }
    updater.mark_updated()?;
    Ok(true)
}

/// SHA-512 of what it was fed.
struct Sha512(Vec<u8>);

impl Digest for Sha512 {
    fn new() -> Self {
        Sha512(Vec::new())
    }

    fn update(&mut self, data: impl AsRef<[u8]>) {
        self.0.extend_from_slice(data.as_ref());
    }

    fn finalize(self) -> Vec<u8> {
        sums::sha512(&self.0).to_vec()
    }
}

fn hash<const ED: usize, const WD: usize, const ES: usize, const WS: usize>(
    updater: &mut Updater<ED, WD, ES, WS>,
    call: &Call,
    out: &mut [u8],
) -> Result<(), FirmwareUpdaterError> {
    // a chunk beyond the longest area is only asked with nothing to read, and its buffer need not be had
    let mut chunk = vec![0xA5; call.chunk.min(1 << 24) as usize];
    updater.hash::<Sha512>(call.length as u32, &mut chunk, out)
}

/// Brings the updater's memory to a value by its own code: one write into that sector of a flash that
/// accepts everything and changes nothing.
fn remember<const ED: usize, const WD: usize, const ES: usize, const WS: usize>(
    updater: &mut Updater<ED, WD, ES, WS>,
    supply: &Supply,
    last: u32,
) {
    if last != NO_SECTOR {
        supply.mode.set(Mode::Accept);
        updater.write_firmware(last as usize * ED, &[0xFF; WD]).expect("the flash accepts everything");
        supply.mode.set(Mode::Run);
    }
}

/// Finds the updater's memory by its own code: a write into a sector is begun on a flash that refuses. If it
/// wants to write at once, that sector is the one last erased. The refusal leaves the memory as it is.
fn remembered<const ED: usize, const WD: usize, const ES: usize, const WS: usize>(
    updater: &mut Updater<ED, WD, ES, WS>,
    supply: &Supply,
    sectors: usize,
    before: u32,
) -> u32 {
    supply.mode.set(Mode::Refuse);
    let found = (0..sectors as u32).chain([before].into_iter().filter(|s| *s != NO_SECTOR)).find(|sector| {
        let answer = updater.write_firmware(*sector as usize * ED, &[0xFF; WD]);
        assert!(answer.is_err(), "the flash refuses everything");
        supply.refused.get() == Some(Operation::Write)
    });
    supply.mode.set(Mode::Run);
    found.unwrap_or(NO_SECTOR)
}

fn state_number(state: &State) -> u8 {
    match state {
        State::Boot => 0,
        State::Swap => 1,
        State::Revert => 2,
        State::DfuDetach => 3,
    }
}

fn from_boot(result: Result<State, BootError>, supply: &Supply, call: &Call) -> u64 {
    let done = call.budget - supply.left.get();
    match result {
        Ok(state) => pack(DONE, state_number(&state), done),
        Err(BootError::Flash(NorFlashErrorKind::Other)) => pack(CUT, NO_STATE, done),
        Err(other) => panic!("an error that the altered flash doesn't give: {other:?}"),
    }
}

fn from_updater(result: Result<Option<State>, FirmwareUpdaterError>, supply: &Supply, call: &Call) -> u64 {
    let done = call.budget - supply.left.get();
    match result {
        Ok(state) => pack(DONE, state.as_ref().map_or(NO_STATE, state_number), done),
        Err(FirmwareUpdaterError::Flash(NorFlashErrorKind::Other)) => pack(CUT, NO_STATE, done),
        Err(FirmwareUpdaterError::BadState) => pack(BAD_STATE, NO_STATE, done),
        Err(other) => panic!("an error that the altered flash doesn't give: {other:?}"),
    }
}

macro_rules! table {
    ($($ea:literal $wa:literal $ed:literal $wd:literal $es:literal $ws:literal;)*) => {
        /// Every row of sizes that is compiled.
        pub static TABLE: &[&dyn Original] = &[$(&Sizes::<$ea, $wa, $ed, $wd, $es, $ws>),*];
    };
}

// Ea Wa Ed Wd Es Ws: equal and unequal erase sizes, one a multiple of the other; write sizes 1 to 256, not
// only powers of two; state words alone in their erase unit and many to a unit; the sheet's rows; rows where
// a write size doesn't divide its own erase size, which boot admits.
table! {
    1 1 1 1 1 1;
    1 1 1 1 2 1;
    1 1 1 1 3 3;
    2 1 2 1 2 2;
    2 2 2 1 3 1;
    2 1 1 1 7 1;
    1 1 2 2 6 2;
    2 2 2 2 3 3;
    4 2 4 2 16 1;
    4 2 4 2 15 1;
    4 2 4 2 3 1;
    4 2 4 2 1 1;
    4 2 4 2 4 4;
    4 4 4 4 4 4;
    4 1 2 1 8 2;
    2 2 4 4 2 1;
    4 4 2 2 12 3;
    4 2 1 1 5 1;
    1 1 4 2 4 1;
    3 3 3 1 3 1;
    3 1 3 3 6 3;
    6 2 3 3 4 2;
    6 3 2 2 7 1;
    5 5 5 1 5 5;
    8 4 8 2 8 1;
    8 1 4 4 16 4;
    4 2 8 8 6 3;
    8 8 8 8 8 8;
    8 2 2 1 32 1;
    2 1 8 4 9 1;
    8 4 4 8 8 2;
    4 2 2 4 4 1;
    2 4 4 2 8 1;
    12 6 4 2 10 2;
    12 4 12 3 11 1;
    16 4 16 4 16 4;
    16 8 8 8 24 8;
    16 1 16 16 32 16;
    8 2 16 1 64 1;
    16 16 4 2 13 1;
    32 8 32 4 32 2;
    32 32 16 16 40 8;
    16 2 32 32 128 4;
    10 5 10 2 9 3;
    15 5 5 5 7 7;
    24 3 8 2 21 7;
    48 12 16 4 25 5;
    64 16 64 8 64 1;
    64 4 32 4 96 4;
    32 16 64 64 64 16;
    64 64 64 64 64 64;
    64 1 16 1 256 1;
    100 10 20 5 30 6;
    128 32 128 32 128 8;
    128 8 64 64 64 32;
    64 2 128 16 160 4;
    256 256 256 256 256 4;
    256 64 128 128 128 128;
    128 4 256 8 512 2;
    256 256 256 256 256 256;
    512 256 512 256 512 16;
    512 8 256 4 256 8;
    256 4 512 256 1024 4;
    1024 256 1024 128 1024 4;
    1024 4 512 4 512 1;
    512 64 1024 64 2048 2;
    1024 16 1024 16 64 64;
    2048 256 2048 256 256 1;
    4096 4 4096 4 4096 4;
    4096 256 1024 256 512 256;
}

#[cfg(test)]
mod tests {
    use super::*;
    use call::{Bench, Geometry};

    const E: u8 = ERASE_VALUE as u8;
    const SHEET: Geometry = Geometry { ea: 4, wa: 2, ed: 4, wd: 2, es: 16, ws: 1, b: 2, ev: ERASE_VALUE };
    type Sheet = Sizes<4, 2, 4, 2, 16, 1>;

    #[test]
    fn the_memory_goes_in_and_comes_out() {
        for last in [NO_SECTOR, 0, 1, 3, 4, 1000, NO_SECTOR - 1] {
            let mut bench = Bench { dfu: vec![!E; 16], state: vec![E; 16], last, ..Bench::default() };
            let call = Call { data: &[1, 2], ..Call::of(Kind::WriteFirmware, SHEET) };
            let answer = Sheet {}.answer(&call, bench.lend());
            assert_eq!(answer, pack(CUT, NO_STATE, 0));
            assert_eq!((bench.last, bench.dfu), (last, vec![!E; 16]));
        }
    }

    #[test]
    fn the_sheet_writes_firmware() {
        let mut bench = Bench { dfu: vec![!E; 16], state: vec![E; 16], last: NO_SECTOR, ..Bench::default() };
        let mut write = |offset, data: &[u8]| {
            let call = Call { budget: 9, offset, data, ..Call::of(Kind::WriteFirmware, SHEET) };
            (Sheet {}.answer(&call, bench.lend()), bench.last, bench.dfu[..8].to_vec())
        };
        let first = write(2, &[1, 2, 3, 4]);
        assert_eq!(first, (pack(DONE, NO_STATE, 4), 1, vec![E, E, 1, 2, 3, 4, E, E]));
        let second = write(0, &[9, 9]);
        assert_eq!(second, (pack(DONE, NO_STATE, 2), 0, vec![9, 9, E, E, 3, 4, E, E]));
    }

    #[test]
    fn rows_are_told_apart() {
        for (i, row) in TABLE.iter().enumerate() {
            assert!(TABLE[..i].iter().all(|other| other.numbers() != row.numbers()));
        }
    }
}
