//! The firmware state's and the updater's calls, and State::from.

use call::{Bench, Call, ERASE_VALUES, Geometry, Kind, NO_SECTOR, Original};

use crate::judge::Judge;
use crate::random::Random;
use crate::shapes::{Shape, geometry_of, image, random_shape, row, rows};
use crate::states::{self, MAGICS, ODD, each_over};

/// Calls of the updater and the firmware state that take neither data nor output.
pub const PLAIN: [Kind; 10] = [
    Kind::ReadState,
    Kind::StateGetState,
    Kind::StateMarkUpdated,
    Kind::StateMarkDfu,
    Kind::StateMarkBooted,
    Kind::UpdaterGetState,
    Kind::UpdaterMarkUpdated,
    Kind::UpdaterMarkDfu,
    Kind::UpdaterMarkBooted,
    Kind::PrepareUpdate,
];

fn plain(kind: Kind, geometry: Geometry) -> Call<'static> {
    Call::of(kind, geometry)
}

/// A shape of this row for the updater: some sectors of DFU, some words of state.
fn small_shape(side: &dyn Original, sectors: usize, units: usize) -> Shape {
    let geometry = geometry_of(side, 1);
    let units = units.max((2 * geometry.ws as usize).div_ceil(geometry.es as usize));
    Shape { geometry, la: 0, ld: sectors * geometry.ed as usize, ls: units * geometry.es as usize }
}

/// Every plain call on every compiled row, with states of every kind and every budget.
pub fn plain_calls(judge: &mut Judge, random: &mut Random) {
    for side in rows() {
        for (sectors, units) in [(0, 1), (1, 1), (2, 2), (3, 5)] {
            let shape = small_shape(side, sectors, units);
            let mut areas = vec![vec![0xFF; shape.ls], vec![0x00; shape.ls]];
            areas.extend(MAGICS.map(|magic| states::only_magic(&shape, magic)));
            areas.extend((0..34).map(|_| states::random_state(random, &shape)));
            for state in areas {
                let bench = shape.bench(random, state);
                for kind in PLAIN {
                    judge.sweep(Some(side), &plain(kind, shape.geometry), &bench);
                }
            }
        }
    }
}

/// Every state area over an alphabet on the smallest state areas: all plain calls, every budget, both erase values.
pub fn exhaustive_marks(judge: &mut Judge, random: &mut Random) {
    let smallest: [([u32; 6], usize, &[u8]); 4] = [
        ([1, 1, 1, 1, 1, 1], 2, &ODD),
        ([1, 1, 1, 1, 1, 1], 3, &[0x00, 0xFF, 0xF0, 0xD0, 0xC0, 0xE0]),
        ([2, 1, 2, 1, 2, 2], 4, &[0x00, 0xFF, 0xF0, 0xD0, 0xE0]),
        ([1, 1, 1, 1, 3, 3], 6, &[0x00, 0xFF, 0xF0]),
    ];
    for ev in ERASE_VALUES {
        for (numbers, length, alphabet) in smallest {
            let side = row(numbers, ev);
            let geometry = geometry_of(side, 1);
            let mut bench = Bench { dfu: random.bytes(2 * geometry.ed as usize), ..Bench::default() };
            each_over(alphabet, &[], length, |state| {
                state.clone_into(&mut bench.state);
                for kind in PLAIN {
                    judge.sweep(Some(side), &plain(kind, geometry), &bench);
                }
            });
        }
        // the bench's last example: every byte alone as the first word
        let side = row([4, 2, 4, 2, 4, 4], ev);
        let geometry = geometry_of(side, 1);
        for byte in 0..=255 {
            let state = [vec![byte; 4], vec![geometry.erased(); 4]].concat();
            let bench = Bench { dfu: vec![geometry.marked(); 4], state, ..Bench::default() };
            for kind in PLAIN {
                judge.sweep(Some(side), &plain(kind, geometry), &bench);
            }
        }
    }
}

/// Memories worth trying: none, each sector, and numbers that are no sector of the area.
fn memories(sectors: usize) -> Vec<u32> {
    let mut all = vec![NO_SECTOR];
    all.extend(0..sectors as u32 + 2);
    all.extend([1000, NO_SECTOR - 1]);
    all
}

/// write_firmware at every offset and length, aligned or not, in reach or not, on small DFUs.
pub fn exhaustive_writes(judge: &mut Judge, random: &mut Random) {
    let sizes: [([u32; 6], usize); 9] = [
        ([1, 1, 1, 1, 1, 1], 4),
        ([2, 1, 2, 1, 2, 2], 4),
        ([2, 2, 2, 2, 3, 3], 4),
        ([4, 2, 4, 2, 16, 1], 3),
        ([4, 2, 4, 2, 4, 4], 4),
        ([4, 4, 4, 4, 4, 4], 4),
        ([3, 3, 3, 1, 3, 1], 3),
        ([3, 1, 3, 3, 6, 3], 3),
        ([8, 4, 8, 2, 8, 1], 2),
    ];
    for (ev, (numbers, sectors)) in ERASE_VALUES.into_iter().flat_map(|ev| sizes.map(|row| (ev, row))) {
        let side = row(numbers, ev);
        let shape = small_shape(side, sectors, 2);
        let erased = shape.geometry.erased();
        for magic in [erased, erased, 0xD0, 0xC0, 0xE0, 0xF0] {
            let state = states::only_magic(&shape, magic);
            let mut bench = shape.bench(random, state);
            // a state other than Boot only has to be told apart, not swept at length
            let step = if magic == erased { 1 } else { 3 };
            for offset in (0..=shape.ld as u64 + 1).step_by(step) {
                for length in (0..=shape.ld + 1).step_by(step) {
                    bench.dfu = image(random, shape.ld, shape.geometry.ed as usize);
                    let data = image(random, length, 1);
                    for last in memories(sectors) {
                        bench.last = last;
                        let geometry = shape.geometry;
                        let call = Call { offset, data: &data, ..Call::of(Kind::WriteFirmware, geometry) };
                        judge.sweep(Some(side), &call, &bench);
                    }
                }
            }
        }
    }
}

/// write_firmware on every compiled row with random aligned offsets and lengths.
pub fn random_writes(judge: &mut Judge, random: &mut Random) {
    for side in rows() {
        let shape = small_shape(side, 5, 3);
        let write = shape.geometry.wd as usize;
        let units = shape.ld / write;
        for _ in 0..120 {
            let state = states::random_state(random, &shape);
            let mut bench = shape.bench(random, state);
            bench.last = *random.pick(&memories(5));
            let from = random.below(units + 1);
            let length = write * random.below(units - from + 1);
            let data = image(random, length, write);
            let call = Call {
                offset: (from * write) as u64,
                data: &data,
                ..Call::of(Kind::WriteFirmware, shape.geometry)
            };
            judge.sweep(Some(side), &call, &bench);
        }
    }
}

/// Several calls in a row on one updater of the original, cut at random; the library gets the memory handed
/// from call to call.
pub fn rows_of_calls(judge: &mut Judge, random: &mut Random) {
    let kinds = [
        Kind::UpdaterGetState,
        Kind::UpdaterMarkUpdated,
        Kind::UpdaterMarkDfu,
        Kind::UpdaterMarkBooted,
        Kind::PrepareUpdate,
    ];
    for side in rows() {
        let shape = small_shape(side, 4, 2);
        let write = shape.geometry.wd as usize;
        if !shape.geometry.ed.is_multiple_of(shape.geometry.wd) {
            continue;
        }
        let units = shape.ld / write;
        for _ in 0..150 {
            let state = states::random_state(random, &shape);
            let mut bench = shape.bench(random, state);
            bench.last = *random.pick(&memories(4));
            let data = random.bytes(shape.ld);
            let calls: Vec<Call> = (0..1 + random.below(7))
                .map(|_| {
                    let from = random.below(units);
                    let length = write * random.below(units - from + 1);
                    let kind = if random.once_in(4) { *random.pick(&kinds) } else { Kind::WriteFirmware };
                    let budget = if random.once_in(2) { 1000 } else { random.below(7) as u32 };
                    let data = if kind == Kind::WriteFirmware { &data[..length] } else { &[] };
                    Call { budget, offset: (from * write) as u64, data, ..Call::of(kind, shape.geometry) }
                })
                .collect();
            judge.chain(side, &calls, &bench);
        }
    }
}

/// read_dfu at every offset and length, in reach or not.
pub fn reads(judge: &mut Judge, random: &mut Random) {
    for side in rows() {
        let shape = small_shape(side, 3, 2);
        let state = states::random_state(random, &shape);
        let mut bench = shape.bench(random, state);
        let all = shape.ld <= 24;
        let rounds = if all { (shape.ld + 2) * (shape.ld + 2) } else { 300 };
        for i in 0..rounds {
            let (offset, length) = match all {
                true => (i / (shape.ld + 2), i % (shape.ld + 2)),
                false => (random.below(shape.ld + 2), random.below(shape.ld + 2)),
            };
            bench.out = random.bytes(length);
            let geometry = shape.geometry;
            let call = Call { offset: offset as u64, ..Call::of(Kind::ReadDfu, geometry) };
            judge.call(Some(side), &call, &bench);
        }
        for offset in [u32::MAX, u32::MAX - 1, 1 << 31] {
            for length in [0, 1, 2] {
                bench.out = random.bytes(length);
                let geometry = shape.geometry;
                let call = Call { offset: offset.into(), ..Call::of(Kind::ReadDfu, geometry) };
                judge.call(Some(side), &call, &bench);
            }
        }
    }
}

/// State::from on all strings of up to three bytes over an alphabet, single bytes, and longer ones.
pub fn state_from(judge: &mut Judge, random: &mut Random) {
    // it takes no erase value, and the text compiled for each decides by turns
    let mut sides = ERASE_VALUES.map(|ev| row([1, 1, 1, 1, 1, 1], ev)).into_iter().cycle();
    let bench = Bench { last: NO_SECTOR, ..Bench::default() };
    let mut ask = |data: &[u8]| {
        let call = Call { data, ..Call::of(Kind::StateFrom, Geometry::default()) };
        judge.call(sides.next(), &call, &bench);
    };
    for length in 0..=3 {
        each_over(&ODD, &[], length, &mut ask);
    }
    for byte in 0..=255 {
        for length in [1, 2, 3, 4, 8, 31] {
            ask(&vec![byte; length]);
        }
    }
    for _ in 0..20_000 {
        let length = 1 + random.below(70);
        let mut bytes = vec![*random.pick(&MAGICS); length];
        if random.once_in(2) {
            bytes[random.below(length)] = *random.pick(&ODD);
        }
        if random.once_in(8) {
            random.fill(&mut bytes);
        }
        ask(&bytes);
    }
}

/// Numbers that aren't compiled, against the model: all calls.
pub fn runtime_shapes(judge: &mut Judge, random: &mut Random) {
    for _ in 0..4000 {
        let mut shape = random_shape(random);
        // the updater's sectors are Ed, and Wd must divide it
        shape.geometry.ed = shape.geometry.wd * (1 + random.below(6) as u32);
        shape.ld = shape.geometry.ed as usize * random.below(6);
        let state = states::random_state(random, &shape);
        let mut bench = shape.bench(random, state);
        for kind in PLAIN {
            judge.sweep(None, &plain(kind, shape.geometry), &bench);
        }
        bench.last = *random.pick(&memories(5));
        let write = shape.geometry.wd as usize;
        let units = shape.ld / write;
        let from = random.below(units + 1);
        let length = write * random.below(units - from + 1);
        let data = image(random, length, write);
        let offset = (from * write) as u64;
        let geometry = shape.geometry;
        judge.sweep(None, &Call { offset, data: &data, ..Call::of(Kind::WriteFirmware, geometry) }, &bench);
        bench.out = random.bytes(length);
        judge.call(None, &Call { offset, ..Call::of(Kind::ReadDfu, geometry) }, &bench);
    }
}
