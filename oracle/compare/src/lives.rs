//! Lives of a device: all calls mixed on one bench, each going on from where the one before was cut.

use call::{Bench, Call, Kind, Original};

use crate::judge::Judge;
use crate::random::Random;
use crate::shapes::{Shape, all_shapes, image};
use crate::states;

/// Random lives on every small shape of the compiled rows.
pub fn lives(judge: &mut Judge, random: &mut Random) {
    for (side, shape) in all_shapes() {
        if shape.la + shape.ld > 3000 {
            continue;
        }
        let state = match random.below(3) {
            0 => states::random_state(random, &shape),
            _ => shape.erased_state(),
        };
        let mut bench = shape.bench(random, state);
        for _ in 0..60 {
            step(judge, random, side, &shape, &mut bench);
        }
    }
}

fn step(judge: &mut Judge, random: &mut Random, side: &dyn Original, shape: &Shape, bench: &mut Bench) {
    let kind = match random.below(4) {
        0 | 1 => Kind::PrepareBoot,
        2 => *random.pick(&[
            Kind::StateMarkUpdated,
            Kind::UpdaterMarkUpdated,
            Kind::CheckAndMarkUpdated,
            Kind::WriteFirmware,
        ]),
        _ => *random.pick(&Kind::WITH_AREAS),
    };
    let write = shape.geometry.wd as usize;
    let units = shape.ld / write;
    let from = random.below(units + 1);
    let length = write * random.below((units - from + 1).min(40));
    let data = match kind {
        Kind::WriteFirmware => image(random, length, write),
        _ => Vec::new(),
    };
    bench.out = match kind {
        Kind::ReadDfu => random.bytes(length),
        Kind::Hash => random.bytes(64),
        _ => Vec::new(),
    };
    let cost = shape.page() / shape.geometry.b as usize + 2;
    let budget = match random.below(3) {
        0 => u32::MAX,
        1 => random.below(5) as u32,
        _ => random.below(3 * cost) as u32,
    };
    // most checks come with the right sum
    let crc = match kind {
        Kind::CheckAndMarkUpdated => sums::crc32(&bench.dfu[..length]) ^ u32::from(random.once_in(4)),
        _ => 0,
    };
    let call = Call {
        budget,
        offset: (from * write) as u64,
        data: &data,
        length: length as u64,
        crc,
        chunk: 1 + random.below(shape.ld) as u64,
        ..Call::of(kind, shape.geometry)
    };
    judge.call(Some(side), &call, bench);
    bench.clone_from(judge.expected());
}
