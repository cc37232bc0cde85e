//! Every burst of up to 32 bits in an image of four bytes, on the library: all 4,294,967,295 ways to turn some of its 32 bits are
//! asked with the sum of the image as it was, and each must be refused with 8. Takes some minutes; `bursts N` turns the lowest N bits only.

use std::env;
use std::process::exit;
use std::sync::atomic::{AtomicU64, Ordering};
use std::thread;

use call::{Answers, Bench, CHECKSUM, Call, Geometry, Kind, NO_STATE, pack};
use library::Library;

const IMAGE: u32 = 0x2FC7_2C0B;
const GEOMETRY: Geometry = Geometry { ea: 1, wa: 1, ed: 4, wd: 4, es: 2, ws: 1, b: 1, ev: 255 };

/// Asks a share of the patterns below `end`; the first that isn't refused is handed back.
fn share(from: u64, step: u64, end: u64) -> Option<u64> {
    let crc = sums::crc32(&IMAGE.to_le_bytes());
    let call = Call { budget: 9, length: 4, crc, ..Call::of(Kind::CheckAndMarkUpdated, GEOMETRY) };
    let mut bench = Bench { dfu: vec![0; 4], state: vec![0xFF; 2], ..Bench::default() };
    (from..end).step_by(step as usize).find(|pattern| {
        bench.dfu.copy_from_slice(&(IMAGE ^ *pattern as u32).to_le_bytes());
        Library.answer(&call, bench.lend()) != pack(CHECKSUM, NO_STATE, 0)
    })
}

fn main() {
    let bits = env::args().nth(1).map_or(Some(32), |n| n.parse().ok().filter(|n| *n <= 32));
    let Some(bits) = bits else {
        eprintln!("usage: bursts [N], with N up to 32");
        exit(2);
    };
    let end = 1u64 << bits;
    // with nothing turned the sum is right, so that the call isn't refused for something else
    assert_eq!(share(0, 1, 1), Some(0), "the image itself is refused");
    let workers = thread::available_parallelism().map_or(1, |n| n.get()) as u64;
    let missed = AtomicU64::new(0);
    thread::scope(|scope| {
        for worker in 0..workers {
            let missed = &missed;
            scope.spawn(move || {
                if let Some(pattern) = share(1 + worker, workers, end) {
                    println!("the bits {pattern:08x} are turned, and it isn't refused with 8");
                    missed.fetch_add(1, Ordering::Relaxed);
                }
            });
        }
    });
    if missed.into_inner() > 0 {
        exit(1);
    }
    println!("{} patterns of {bits} bits, each refused with 8", end - 1);
}
