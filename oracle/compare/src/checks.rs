//! Request No. 7's call: a sum before marking.

use call::{Bench, Call, ERASE_VALUES, Geometry, Kind, NO_SECTOR};

use crate::judge::Judge;
use crate::random::Random;
use crate::shapes::{Shape, geometry_of, row, rows};
use crate::states::{self, MAGICS};

fn check(geometry: Geometry, length: u64, crc: u32) -> Call<'static> {
    Call { length, crc, ..Call::of(Kind::CheckAndMarkUpdated, geometry) }
}

/// The sheet's areas with nine bytes that have a published sum, and others behind them.
fn published(ev: u32) -> (Geometry, Bench) {
    let geometry = geometry_of(row([4, 2, 4, 2, 16, 1], ev), 2);
    let bench = Bench {
        dfu: b"123456789 beyond".to_vec(),
        state: vec![geometry.erased(); 16],
        last: NO_SECTOR,
        ..Bench::default()
    };
    (geometry, bench)
}

/// Sums worth giving for a length: the right one, near ones, and those of a reading that is off.
fn sums_for(dfu: &[u8], length: u64) -> Vec<u32> {
    let end = (length as usize).min(dfu.len());
    let right = sums::crc32(&dfu[..end]);
    let turned: Vec<u8> = dfu[..end].iter().map(|byte| byte.reverse_bits()).collect();
    let mut all = vec![right, 0, u32::MAX, !right, right.reverse_bits(), right.swap_bytes()];
    all.extend([0, 15, 16, 31].map(|bit| right ^ (1 << bit)));
    all.extend([0, end.saturating_sub(1), dfu.len().min(end + 1), dfu.len()].map(|n| sums::crc32(&dfu[..n])));
    all.push(sums::crc32(&turned).reverse_bits());
    all
}

/// Always the same: every length up to two past the area and far ones, every state, every budget, at both erase values.
pub fn all_lengths(judge: &mut Judge, _: &mut Random) {
    for ev in ERASE_VALUES {
        let (geometry, mut bench) = published(ev);
        let side = Some(row([4, 2, 4, 2, 16, 1], ev));
        let found = judge.call(side, &Call { budget: 9, ..check(geometry, 9, 0xCBF4_3926) }, &bench);
        assert_eq!(found, call::pack(call::DONE, call::NO_STATE, 3), "the published sum");
        let far = [1 << 32, (1 << 32) + 9, (1 << 32) + 16, 1 << 63, u64::MAX];
        for magic in MAGICS.into_iter().chain([geometry.erased()]) {
            bench.state[0] = magic;
            for length in (0..=18).chain(far) {
                for crc in sums_for(&bench.dfu, length & 0xFFFF_FFFF) {
                    judge.sweep(side, &check(geometry, length, crc), &bench);
                }
            }
        }
        // no bytes at all
        bench.dfu.clear();
        for (length, crc) in [(0, 0), (0, 1), (1, 0)] {
            judge.sweep(side, &check(geometry, length, crc), &bench);
        }
    }
}

/// Nothing, a byte, a sector and the whole of 1 MiB, and of the longest area; the sum right and off by a bit.
pub fn long(judge: &mut Judge, random: &mut Random) {
    let side = row([4096, 4, 4096, 4, 4096, 4], ERASE_VALUES[0]);
    let geometry = geometry_of(side, 256);
    for ld in [1 << 20, 1 << 24] {
        let bench = Bench { dfu: random.bytes(ld), state: vec![0xFF; 4096], ..Bench::default() };
        for length in [0, 1, 4096, ld] {
            let right = sums::crc32(&bench.dfu[..length]);
            for crc in [right, right ^ 1] {
                let call = Call { budget: 9, ..check(geometry, length as u64, crc) };
                judge.call(Some(side), &call, &bench);
            }
        }
    }
}

/// An image of six bytes with the sum of the image as it was: each bit and each pair of bits turned, every burst of up to 12 bits, and
/// of every longer one up to 32 bits its ends with some random bits between. Each is a wrong sum. (Every burst of 32 bits is left to
/// the program `bursts`.)
pub fn bursts(judge: &mut Judge, random: &mut Random) {
    const BITS: u32 = 48;
    let side = row([2, 1, 2, 1, 2, 2], ERASE_VALUES[0]);
    let geometry = geometry_of(side, 2);
    let image = random.draw();
    let bytes = |image: u64| image.to_le_bytes()[..6].to_vec();
    let crc = sums::crc32(&bytes(image));
    let mut bench = Bench { dfu: bytes(image), state: vec![0xFF; 4], ..Bench::default() };
    let call = Call { budget: 9, ..check(geometry, 6, crc) };
    assert_eq!(judge.call(Some(side), &call, &bench), call::pack(call::DONE, call::NO_STATE, 4));
    let mut turn = |pattern: u64| {
        bench.dfu = bytes(image ^ pattern);
        let word = judge.call(Some(side), &call, &bench);
        assert_eq!(word, call::pack(call::CHECKSUM, call::NO_STATE, 0), "a burst that the sum doesn't show");
    };
    for first in 0..BITS {
        turn(1 << first);
        for length in 2..=(BITS - first).min(32) {
            let ends = (1 | 1 << (length - 1)) << first;
            turn(ends);
            let inner = 1u64 << (length - 2);
            if length <= 12 {
                (1..inner).for_each(|between| turn(ends | between << (first + 1)));
            } else {
                (0..20).for_each(|_| turn(ends | (random.draw() % inner) << (first + 1)));
            }
        }
        (first + 32..BITS).for_each(|second| turn(1 << first | 1 << second));
    }
}

/// Every compiled row: random images, states and lengths, mostly the right sum, every budget.
pub fn compiled_rows(judge: &mut Judge, random: &mut Random) {
    for side in rows() {
        let geometry = geometry_of(side, 1);
        let units = (2 * geometry.ws).div_ceil(geometry.es) as usize;
        let shape = Shape {
            geometry,
            la: 0,
            ld: 3 * geometry.ed as usize,
            ls: (units + random.below(3)) * geometry.es as usize,
        };
        for _ in 0..20 {
            let state = states::random_state(random, &shape);
            let mut bench = shape.bench(random, state);
            if !random.once_in(3) {
                // most random states read Swap
                bench.state[..shape.word()].fill(*random.pick(&[geometry.erased(), 0xD0, 0xC0, 0xE0]));
            }
            let length = random.below(shape.ld + 1);
            let crc = sums::crc32(&bench.dfu[..length]) ^ u32::from(random.once_in(4));
            judge.sweep(Some(side), &check(geometry, length as u64, crc), &bench);
        }
    }
}
