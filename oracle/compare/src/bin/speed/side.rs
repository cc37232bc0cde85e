//! The measurements at one erase value: this file is compiled for each, beside the text that `super` names.

use std::hint::black_box;

use call::{Answers, Bench, Call, Geometry, Kind, NO_SECTOR, operations_of};
use compare::random::Random;
use embedded_storage::nor_flash::{ErrorType, NorFlash, ReadNorFlash};
use library::Library;

use super::text::mem_flash::{MemFlash, Supply};
use super::text::{
    BlockingFirmwareState, BlockingFirmwareUpdater, BootLoader, BootLoaderConfig, ERASE_VALUE,
    FirmwareUpdaterConfig, crate_mem_flash,
};
use crate::{RUNS, median, timed};

const PAGE: usize = 4096;
const WRITE: usize = 4;
const WORD: usize = 4;
const CHUNK: usize = 256;
const ACTIVE: usize = 512 * 1024;
const DFU: usize = ACTIVE + PAGE;
const STATE: usize = 4096;
const ERASED: u8 = ERASE_VALUE as u8;

const GEOMETRY: Geometry = Geometry {
    ea: PAGE as u32,
    wa: WRITE as u32,
    ed: PAGE as u32,
    wd: WRITE as u32,
    es: STATE as u32,
    ws: WORD as u32,
    b: CHUNK as u32,
    ev: ERASE_VALUE,
};

/// The three areas as the crate's own flash, altered.
struct CrateFlash {
    active: crate_mem_flash::MemFlash<ACTIVE, PAGE, WRITE>,
    dfu: crate_mem_flash::MemFlash<DFU, PAGE, WRITE>,
    state: crate_mem_flash::MemFlash<STATE, STATE, WORD>,
}

/// A flash lent to a loader, so that no area is moved while the clock runs.
struct Lend<'a, F>(&'a mut F);

impl<F: NorFlash> ErrorType for Lend<'_, F> {
    type Error = F::Error;
}

impl<F: NorFlash> ReadNorFlash for Lend<'_, F> {
    const READ_SIZE: usize = F::READ_SIZE;

    #[inline(always)]
    fn read(&mut self, offset: u32, bytes: &mut [u8]) -> Result<(), F::Error> {
        ReadNorFlash::read(self.0, offset, bytes)
    }

    #[inline(always)]
    fn capacity(&self) -> usize {
        ReadNorFlash::capacity(self.0)
    }
}

impl<F: NorFlash> NorFlash for Lend<'_, F> {
    const WRITE_SIZE: usize = F::WRITE_SIZE;
    const ERASE_SIZE: usize = F::ERASE_SIZE;

    #[inline(always)]
    fn erase(&mut self, from: u32, to: u32) -> Result<(), F::Error> {
        NorFlash::erase(self.0, from, to)
    }

    #[inline(always)]
    fn write(&mut self, offset: u32, bytes: &[u8]) -> Result<(), F::Error> {
        NorFlash::write(self.0, offset, bytes)
    }
}

/// Something that both sides can do.
trait Task {
    fn original<A: NorFlash, D: NorFlash, S: NorFlash>(&self, active: &mut A, dfu: &mut D, state: &mut S);
    fn library(&self, bench: &mut Bench);
}

fn ask(kind: Kind, bench: &mut Bench) -> u64 {
    Library.answer(&Call { budget: u32::MAX, ..Call::of(kind, GEOMETRY) }, bench.lend())
}

struct Boot;

impl Task for Boot {
    fn original<A: NorFlash, D: NorFlash, S: NorFlash>(&self, active: &mut A, dfu: &mut D, state: &mut S) {
        let config = BootLoaderConfig { active: Lend(active), dfu: Lend(dfu), state: Lend(state) };
        let mut chunk = [0; CHUNK];
        let answer = BootLoader::new(config).prepare_boot(&mut chunk);
        assert!(black_box(answer).is_ok());
    }

    fn library(&self, bench: &mut Bench) {
        black_box(ask(Kind::PrepareBoot, bench));
    }
}

struct ReadState;

const READS: usize = 20_000;

impl Task for ReadState {
    fn original<A: NorFlash, D: NorFlash, S: NorFlash>(&self, active: &mut A, dfu: &mut D, state: &mut S) {
        let mut word = [0; WORD];
        for _ in 0..READS {
            let state = Lend(black_box(&mut *state));
            let config = BootLoaderConfig { active: Lend(active), dfu: Lend(dfu), state };
            assert!(black_box(BootLoader::new(config).read_state(&mut word)).is_ok());
        }
    }

    fn library(&self, bench: &mut Bench) {
        for _ in 0..READS {
            black_box(ask(Kind::ReadState, black_box(bench)));
        }
    }
}

/// mark_updated and mark_booted by turns, so that every call has something to do.
struct Marks;

const MARKS: usize = 400;

impl Task for Marks {
    fn original<A: NorFlash, D: NorFlash, S: NorFlash>(&self, _: &mut A, _: &mut D, state: &mut S) {
        for i in 0..MARKS {
            let mut word = [0; WORD];
            let mut firmware = BlockingFirmwareState::new(Lend(black_box(&mut *state)), &mut word);
            let answer = if i % 2 == 0 { firmware.mark_updated() } else { firmware.mark_booted() };
            assert!(black_box(answer).is_ok());
        }
    }

    fn library(&self, bench: &mut Bench) {
        for i in 0..MARKS {
            let kind = if i % 2 == 0 { Kind::StateMarkUpdated } else { Kind::StateMarkBooted };
            black_box(ask(kind, black_box(bench)));
        }
    }
}

/// An image in pieces of one length, by one updater.
struct Write<'a> {
    image: &'a [u8],
    piece: usize,
}

impl Task for Write<'_> {
    fn original<A: NorFlash, D: NorFlash, S: NorFlash>(&self, _: &mut A, dfu: &mut D, state: &mut S) {
        let mut word = [0; WORD];
        let config = FirmwareUpdaterConfig { dfu: Lend(dfu), state: Lend(state) };
        let mut updater = BlockingFirmwareUpdater::new(config, &mut word);
        for (i, part) in self.image.chunks(self.piece).enumerate() {
            assert!(black_box(updater.write_firmware(i * self.piece, part)).is_ok());
        }
    }

    fn library(&self, bench: &mut Bench) {
        for (i, data) in self.image.chunks(self.piece).enumerate() {
            let offset = (i * self.piece) as u64;
            let call = Call { budget: u32::MAX, offset, data, ..Call::of(Kind::WriteFirmware, GEOMETRY) };
            black_box(Library.answer(&call, bench.lend()));
        }
    }
}

/// One line: the sides by turns, so that a slow moment of the machine meets all.
fn measure(name: &str, flash: &mut CrateFlash, start: &Bench, task: impl Task) {
    let mut lean = start.clone();
    let mut bench = start.clone();
    let mut times = [Vec::new(), Vec::new(), Vec::new()];
    for run in 0..RUNS + 2 {
        flash.active.mem.copy_from_slice(&start.active);
        flash.dfu.mem.copy_from_slice(&start.dfu);
        flash.state.mem.copy_from_slice(&start.state);
        lean.clone_from(start);
        bench.clone_from(start);
        let supply = Supply::new(u32::MAX);
        let first = timed(|| task.original(&mut flash.active, &mut flash.dfu, &mut flash.state));
        let second = timed(|| {
            task.original(
                &mut MemFlash::<PAGE, WRITE>::new(&mut lean.active, &supply),
                &mut MemFlash::<PAGE, WRITE>::new(&mut lean.dfu, &supply),
                &mut MemFlash::<STATE, WORD>::new(&mut lean.state, &supply),
            )
        });
        let third = timed(|| task.library(&mut bench));
        let same = bench.active == lean.active && bench.dfu == lean.dfu && bench.state == lean.state;
        assert!(same, "{name}: library and original left different areas");
        assert!(flash.active.mem[..] == lean.active && flash.dfu.mem[..] == lean.dfu, "{name}: two flashes");
        // the first runs only warm up
        if run >= 2 {
            for (list, time) in times.iter_mut().zip([first, second, third]) {
                list.push(time);
            }
        }
    }
    let [first, second, third] = times.map(median);
    println!(
        "{name:<34} {first:>10.1} {second:>10.1} {third:>10.1} {:>10.3} {:>10.3}",
        third / first,
        third / second
    );
}

/// The bytes that a full swap moves, with nothing but fills and copies.
fn plain_swap(bench: &mut Bench, page: usize) {
    for k in (0..bench.active.len() / page).rev() {
        let (from, to) = (k * page, (k + 1) * page);
        bench.dfu[to..to + page].fill(ERASED);
        black_box(&mut bench.dfu[to..to + page]).copy_from_slice(&bench.active[from..to]);
        bench.active[from..to].fill(ERASED);
        black_box(&mut bench.active[from..to]).copy_from_slice(&bench.dfu[from..to]);
    }
}

/// A full swap of n pages, with words of ws bytes: microseconds per page. A state unit has four words.
fn per_page(random: &mut Random, n: usize, page: usize, ws: usize) -> f64 {
    let state = (4 * n + 4) * ws;
    let (unit, es) = (page as u32, 4 * ws as u32);
    let geometry =
        Geometry { ea: unit, wa: 4, ed: unit, wd: 4, es, ws: ws as u32, b: unit / 2, ev: ERASE_VALUE };
    let mut start = Bench {
        active: random.bytes(n * page),
        dfu: random.bytes((n + 1) * page),
        state: vec![ERASED; state],
        out: Vec::new(),
        last: NO_SECTOR,
    };
    start.state[..ws].fill(0xF0);
    let call = Call { budget: u32::MAX, ..Call::of(Kind::PrepareBoot, geometry) };
    let times = (0..RUNS).map(|_| {
        let mut bench = start.clone();
        let time = timed(|| {
            black_box(Library.answer(&call, bench.lend()));
        });
        assert_eq!(bench.active, start.dfu[..n * page], "{n} pages are not swapped");
        time
    });
    median(times.collect()) / n as f64
}

/// 4,096 pages fit in the longest area only if they are small.
pub fn measure_growth(random: &mut Random) {
    for (page, counts) in [(512, &[8, 32, 128, 512, 1024][..]), (128, &[8, 32, 128, 512, 1024, 4096])] {
        println!("\nfull swap, erased to {ERASED:02X}, microseconds per page of {page} bytes");
        println!("{:<10} {:>14} {:>14}", "pages", "1-byte words", "4-byte words");
        for &n in counts {
            println!("{n:<10} {:>14.3} {:>14.3}", per_page(random, n, page, 1), per_page(random, n, page, 4));
        }
    }
}

const LARGE: usize = 8 * 1024 * 1024;
const LARGE_DFU: usize = LARGE + PAGE;
/// as many erase units as 4N + 3 words take
const LARGE_STATE: usize = 9 * STATE;

/// The areas of 8 MiB as the crate's own flash, altered. They lie behind one pointer each: no area is moved.
struct LargeFlash {
    active: Box<crate_mem_flash::MemFlash<LARGE, PAGE, WRITE>>,
    dfu: Box<crate_mem_flash::MemFlash<LARGE_DFU, PAGE, WRITE>>,
    state: Box<crate_mem_flash::MemFlash<LARGE_STATE, STATE, WORD>>,
}

/// A full swap of 8 MiB (request No. 10) beside the original and beside the plain fills and copies, by turns; and what a byte takes
/// beside the swap of `small`. Fewer runs, since one takes long.
fn measure_large(random: &mut Random, small: &Bench) {
    let mut start = Bench {
        active: random.bytes(LARGE),
        dfu: random.bytes(LARGE_DFU),
        state: vec![ERASED; LARGE_STATE],
        out: Vec::new(),
        last: NO_SECTOR,
    };
    start.state[..WORD].fill(0xF0);
    let mut flash = LargeFlash {
        active: Box::new(crate_mem_flash::MemFlash::new(ERASED)),
        dfu: Box::new(crate_mem_flash::MemFlash::new(ERASED)),
        state: Box::new(crate_mem_flash::MemFlash::new(ERASED)),
    };
    let mut times = [Vec::new(), Vec::new(), Vec::new(), Vec::new()];
    for run in 0..5 + 1 {
        flash.active.mem.copy_from_slice(&start.active);
        flash.dfu.mem.copy_from_slice(&start.dfu);
        flash.state.mem.copy_from_slice(&start.state);
        let (mut plain, mut bench, mut few) = (start.clone(), start.clone(), small.clone());
        let first = timed(|| Boot.original(&mut *flash.active, &mut *flash.dfu, &mut *flash.state));
        let second = timed(|| plain_swap(black_box(&mut plain), PAGE));
        let third = timed(|| Boot.library(&mut bench));
        let fourth = timed(|| Boot.library(&mut few));
        assert!(flash.active.mem[..] == bench.active && flash.dfu.mem[..] == bench.dfu, "8 MiB: two flashes");
        assert!(plain.active == bench.active && plain.dfu == bench.dfu, "8 MiB: the plain swap");
        // the first run only warms up
        if run >= 1 {
            for (list, time) in times.iter_mut().zip([first, second, third, fourth]) {
                list.push(time);
            }
        }
    }
    let [original, plain, library, few] = times.map(median);
    let per_byte = (library / LARGE as f64) / (few / ACTIVE as f64);
    println!(
        "\nfull swap of 8 MiB, erased to {ERASED:02X}: original {original:.0}, fills and copies {plain:.0}, library {library:.0}"
    );
    println!(
        "to the original {:.3}, to fills and copies {:.3}, a byte beside 512 KiB {per_byte:.3}",
        library / original,
        library / plain
    );
}

/// The areas that the measurements start from.
pub struct Start {
    empty: Bench,
    fresh: Bench,
    image: Vec<u8>,
}

impl Start {
    pub fn new(random: &mut Random) -> Start {
        let empty = Bench {
            active: random.bytes(ACTIVE),
            dfu: random.bytes(DFU),
            state: vec![ERASED; STATE],
            out: Vec::new(),
            last: NO_SECTOR,
        };
        let image = random.bytes(ACTIVE);
        let mut fresh = empty.clone();
        fresh.state[..WORD].fill(0xF0);
        Start { empty, fresh, image }
    }

    /// The calls, a line each.
    pub fn measure_calls(&self) {
        let Start { empty, fresh, image } = self;
        let mut swapped = fresh.clone();
        let operations = operations_of(ask(Kind::PrepareBoot, &mut swapped));
        let mut half = fresh.clone();
        let budget = operations / 2;
        let cut = Call { budget, ..Call::of(Kind::PrepareBoot, GEOMETRY) };
        Library.answer(&cut, half.lend());

        let mut flash = Box::new(CrateFlash {
            active: crate_mem_flash::MemFlash::new(ERASED),
            dfu: crate_mem_flash::MemFlash::new(ERASED),
            state: crate_mem_flash::MemFlash::new(ERASED),
        });
        println!(
            "{:<34} {:>10} {:>10} {:>10} {:>10} {:>10}",
            format!("erased to {ERASED:02X}"),
            "original",
            "lean flash",
            "library",
            "ratio",
            "to lean"
        );
        measure("full swap", &mut flash, fresh, Boot);
        measure("full revert", &mut flash, &swapped, Boot);
        measure("resume at half the swap", &mut flash, &half, Boot);
        measure("boot with nothing to do", &mut flash, empty, Boot);
        measure("read_state, 20,000 calls", &mut flash, fresh, ReadState);
        measure("mark_updated, mark_booted, 400", &mut flash, empty, Marks);
        for piece in [ACTIVE, PAGE, CHUNK] {
            let name = format!("write_firmware, 512 KiB by {piece}");
            measure(&name, &mut flash, empty, Write { image, piece });
        }
    }

    /// A full swap of the library beside the plain one, by turns.
    pub fn measure_plain(&self) {
        let mut times = [Vec::new(), Vec::new()];
        for run in 0..RUNS + 2 {
            let (mut plain, mut bench) = (self.fresh.clone(), self.fresh.clone());
            let first = timed(|| plain_swap(black_box(&mut plain), PAGE));
            let second = timed(|| Boot.library(&mut bench));
            assert!(
                plain.active == bench.active && plain.dfu == bench.dfu,
                "the plain swap leaves other images"
            );
            if run >= 2 {
                times[0].push(first);
                times[1].push(second);
            }
        }
        let [plain, library] = times.map(median);
        println!(
            "full swap, erased to {ERASED:02X}: fills and copies alone {plain:.1}, library {library:.1}, ratio {:.3}",
            library / plain
        );
    }

    /// A full swap of 8 MiB beside that of 512 KiB.
    pub fn measure_large(&self, random: &mut Random) {
        // the crate's flash is an array, made on the stack before it is boxed
        let large = std::thread::Builder::new().stack_size(8 * LARGE);
        std::thread::scope(|scope| {
            let body = || measure_large(random, &self.fresh);
            let thread = large.spawn_scoped(scope, body).expect("a thread");
            thread.join().expect("a measurement");
        });
    }
}
