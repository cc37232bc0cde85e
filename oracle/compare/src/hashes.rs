//! Request No. 8's call: the digest of DFU's first bytes.

use call::{Bench, Call, ERASE_VALUES, Geometry, Kind, NO_SECTOR};

use crate::judge::Judge;
use crate::random::Random;
use crate::shapes::{Shape, geometry_of, row, rows};
use crate::states::{self, MAGICS};

fn hash(geometry: Geometry, length: u64, chunk: u64) -> Call<'static> {
    Call { length, chunk, ..Call::of(Kind::Hash, geometry) }
}

/// Numbers that no area is as long as; cut to 32 bits two of them are short ones.
const FAR: [u64; 5] = [1 << 32, (1 << 32) + 1, (1 << 32) + 200, 1 << 63, u64::MAX];

/// Always the same: every length up to 300 in some chunks, every chunk up to 200 of one message, each state, outputs around 64 bytes
/// and what is refused, at both erase values.
pub fn all_lengths(judge: &mut Judge, _: &mut Random) {
    for ev in ERASE_VALUES {
        let side = row([64, 16, 64, 8, 64, 1], ev);
        let geometry = geometry_of(side, 16);
        let mut bench = Bench {
            dfu: (0..320u32).map(|i| (i * i % 251) as u8).collect(),
            state: vec![geometry.erased(); 64],
            out: vec![0x77; 64],
            last: NO_SECTOR,
            ..Bench::default()
        };
        let mut ask = |length, chunk, bench: &Bench| {
            judge.call(Some(side), &hash(geometry, length, chunk), bench);
        };
        for length in 0..=322 {
            [1, 2, 64, 127, 128, 320, 1000].into_iter().for_each(|chunk| ask(length, chunk, &bench));
        }
        for chunk in (0..=200).chain(FAR) {
            [0, 1, 200, 320].into_iter().for_each(|length| ask(length, chunk, &bench));
        }
        FAR.into_iter().for_each(|length| ask(length, 1, &bench));
        for magic in MAGICS {
            bench.state[0] = magic;
            [0, 200, 320, 321].into_iter().for_each(|length| ask(length, 64, &bench));
        }
        for output in [0, 1, 32, 63, 65, 128] {
            bench.out = vec![0x77; output];
            [0, 200, 321].into_iter().for_each(|length| ask(length, 64, &bench));
        }
    }
}

/// A million bytes, and the longest area, whole.
pub fn long(judge: &mut Judge, random: &mut Random) {
    let side = row([4096, 4, 4096, 4, 4096, 4], ERASE_VALUES[0]);
    let geometry = geometry_of(side, 256);
    let bench = Bench {
        dfu: random.bytes(1 << 24),
        state: vec![0xFF; 4096],
        out: vec![0x77; 64],
        ..Bench::default()
    };
    for (length, chunk) in [(1_000_000, 4096), (1 << 24, 4096), (1 << 24, 1 << 24), ((1 << 24) - 1, 1000)] {
        judge.call(Some(side), &hash(geometry, length, chunk), &bench);
    }
}

/// Every compiled row: random images, states, lengths and chunks.
pub fn compiled_rows(judge: &mut Judge, random: &mut Random) {
    for side in rows() {
        let geometry = geometry_of(side, 1);
        let units = (2 * geometry.ws).div_ceil(geometry.es) as usize;
        let shape = Shape { geometry, la: 0, ld: 3 * geometry.ed as usize, ls: units * geometry.es as usize };
        for _ in 0..20 {
            let state = states::random_state(random, &shape);
            let mut bench = shape.bench(random, state);
            bench.out = random.bytes(64);
            let length = random.below(shape.ld + 1);
            let most = if random.once_in(2) { 200 } else { shape.ld + 1 };
            let chunk = 1 + random.below(most);
            judge.call(Some(side), &hash(geometry, length as u64, chunk as u64), &bench);
        }
    }
}
