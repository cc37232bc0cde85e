//! Document 01's bench sheet, on all sides: the original, the model and the library. The sheet is for the erase value 255; at 0 the
//! same cases are run with FF and 00 exchanged, since all that erases, marks and reads is turned over.

use call::{Bench, CUT, Call, DONE, ERASE_VALUES, Geometry, Kind, NO_SECTOR, NO_STATE, Original, pack};

use crate::judge::Judge;
use crate::shapes::{compiled, geometry_of, row};
use crate::states::for_value;

fn pages(bytes: &[u8]) -> Vec<u8> {
    bytes.iter().flat_map(|byte| [*byte; 4]).collect()
}

/// Runs of equal bytes, one after the other.
fn runs(list: &[(usize, u8)]) -> Vec<u8> {
    list.iter().flat_map(|(count, byte)| vec![*byte; *count]).collect()
}

/// Where the cases are run: by whom they are judged, and on which flash.
struct On<'a> {
    judge: &'a mut Judge,
    ev: u32,
}

impl On<'_> {
    fn again(&mut self) -> On<'_> {
        On { judge: self.judge, ev: self.ev }
    }
}

struct Sheet<'a> {
    judge: &'a mut Judge,
    side: Option<&'static dyn Original>,
    geometry: Geometry,
    bench: Bench,
    failed: usize,
}

impl<'a> Sheet<'a> {
    fn start(on: On<'a>, numbers: [u32; 6], active: &[u8], dfu: &[u8], state: Vec<u8>) -> Self {
        let On { judge, ev } = on;
        let [ea, wa, ed, wd, es, ws] = numbers;
        let geometry = Geometry { ea, wa, ed, wd, es, ws, b: 2, ev };
        // cases that are refused need no compiled row
        let side = compiled(&geometry);
        let bench = Bench {
            active: pages(active),
            dfu: pages(dfu),
            state: for_value(ev, &state),
            out: Vec::new(),
            last: NO_SECTOR,
        };
        Sheet { judge, side, geometry, bench, failed: 0 }
    }

    fn run(&mut self, name: &str, kind: Kind, budget: u32, word: u64) -> &mut Self {
        let call = Call { budget, ..Call::of(kind, self.geometry) };
        let found = self.judge.call(self.side, &call, &self.bench);
        self.bench.clone_from(self.judge.expected());
        self.check(name, found == word);
        self
    }

    fn shows(&mut self, name: &str, active: &[u8], dfu: &[u8], state: &[(usize, u8)]) -> &mut Self {
        let (bench, ev) = (&self.bench, self.geometry.ev);
        let same = bench.active == for_value(ev, &pages(active))
            && bench.dfu == for_value(ev, &pages(dfu))
            && bench.state == for_value(ev, &runs(state));
        self.check(name, same);
        self
    }

    fn check(&mut self, name: &str, right: bool) {
        if !right {
            println!("the sheet's case {name} comes out differently, erase value {}", self.geometry.ev);
            self.failed += 1;
        }
    }
}

const NUMBERS: [u32; 6] = [4, 2, 4, 2, 16, 1];
const SWAPPED: (&[u8], &[u8]) = (&[4, 5, 6], &[4, 1, 2, 3]);
const REVERTED: (&[u8], &[u8]) = (&[1, 2, 3], &[4, 5, 6, 3]);

fn sheet(on: On<'_>) -> Sheet<'_> {
    Sheet::start(on, NUMBERS, &[1, 2, 3], &[4, 5, 6, 7], runs(&[(1, 0xF0), (15, 0xFF)]))
}

fn swapped(on: On<'_>) -> Sheet<'_> {
    let mut s = sheet(on);
    s.run("a", Kind::PrepareBoot, 24, pack(DONE, 1, 24));
    s
}

/// True if every case is as the paper says, at both erase values.
pub fn check(judge: &mut Judge) -> bool {
    ERASE_VALUES.map(|ev| cases(On { judge, ev })) == [0, 0]
}

fn cases(mut on: On) -> usize {
    let boot = Kind::PrepareBoot;
    let mut failed = 0;
    let a = [(1, 0xF0), (1, 0xFF), (6, 0), (8, 0xFF)];
    failed += swapped(on.again()).shows("a", SWAPPED.0, SWAPPED.1, &a).failed;
    let b = [(1, 0xF0), (1, 0xFF), (5, 0), (9, 0xFF)];
    failed += sheet(on.again())
        .run("b", boot, 23, pack(CUT, NO_STATE, 23))
        .shows("b", SWAPPED.0, SWAPPED.1, &b)
        .failed;
    let c = [(1, 0xF0), (1, 0xFF), (1, 0), (13, 0xFF)];
    failed += sheet(on.again())
        .run("c", boot, 4, pack(CUT, NO_STATE, 4))
        .shows("c", &[1, 2, 3], &[4, 5, 6, 3], &c)
        .failed;
    let fresh = [(1, 0xF0), (15, 0xFF)];
    failed += sheet(on.again())
        .run("d", boot, 1, pack(CUT, NO_STATE, 1))
        .shows("d", &[1, 2, 3], &[4, 5, 6, 0xFF], &fresh)
        .failed;
    failed += sheet(on.again())
        .run("e", boot, 0, pack(CUT, NO_STATE, 0))
        .shows("e", &[1, 2, 3], &[4, 5, 6, 7], &fresh)
        .failed;
    let reverted = [(1, 0xC0), (15, 0xFF)];
    failed += swapped(on.again())
        .run("f", boot, 27, pack(DONE, 1, 27))
        .shows("f", REVERTED.0, REVERTED.1, &reverted)
        .run("f, then boot", boot, 0, pack(DONE, 2, 0))
        .failed;
    let g = [(1, 0xF0), (1, 0), (12, 0), (2, 0xFF)];
    failed += swapped(on.again())
        .run("g", boot, 25, pack(CUT, NO_STATE, 25))
        .shows("g", REVERTED.0, REVERTED.1, &g)
        .run("h", boot, 3, pack(DONE, 1, 3))
        .shows("h", REVERTED.0, REVERTED.1, &reverted)
        .failed;
    failed += swapped(on.again())
        .run("i", boot, 26, pack(CUT, NO_STATE, 26))
        .run("i", boot, 0, pack(DONE, 0, 0))
        .shows("i", REVERTED.0, REVERTED.1, &[(16, 0xFF)])
        .failed;
    failed += swapped(on.again())
        .run("j", Kind::StateMarkBooted, 1, pack(CUT, NO_STATE, 1))
        .run("j", boot, 3, pack(DONE, 1, 2))
        .shows("j", SWAPPED.0, SWAPPED.1, &[(1, 0xD0), (15, 0xFF)])
        .failed;
    failed += k_and_l(on.again());
    failed += others(on);
    failed
}

fn k_and_l(mut on: On) -> usize {
    let boot = Kind::PrepareBoot;
    let start = runs(&[(1, 0xF0), (13, 0xFF)]);
    let k = Sheet::start(on.again(), [4, 2, 4, 2, 14, 1], &[1, 2, 3], &[4, 5, 6, 7], start)
        .run("k", boot, 24, pack(4, NO_STATE, 0))
        .run("k", Kind::StateMarkBooted, 1, pack(CUT, NO_STATE, 1))
        .run("k", boot, 7, pack(4, NO_STATE, 0))
        .shows("k", &[1, 2, 3], &[4, 5, 6, 7], &[(1, 0xF0), (1, 0x00), (12, 0xFF)])
        .failed;
    let start = runs(&[(1, 0xF0), (14, 0xFF)]);
    let more = Sheet::start(on.again(), [4, 2, 4, 2, 15, 1], &[1, 2, 3], &[4, 5, 6, 7], start)
        .run("k with a word more", boot, 24, pack(DONE, 1, 24))
        .run("k with a word more", Kind::StateMarkBooted, 1, pack(CUT, NO_STATE, 1))
        .run("k with a word more", boot, 7, pack(DONE, 1, 2))
        .shows("k with a word more", SWAPPED.0, SWAPPED.1, &[(1, 0xD0), (14, 0xFF)])
        .failed;
    let l = Sheet::start(on.again(), [4, 2, 4, 2, 3, 1], &[], &[7], runs(&[(1, 0xF0), (2, 0xFF)]))
        .run("l", boot, 3, pack(DONE, 1, 3))
        .shows("l", &[], &[7], &[(1, 0xC0), (2, 0xFF)])
        .failed;
    k + more + l
}

/// The examples below the sheet.
fn others(mut on: On) -> usize {
    let boot = Kind::PrepareBoot;
    let short = Sheet::start(on.again(), [4, 2, 4, 2, 13, 1], &[1, 2, 3], &[4, 5, 6, 7], runs(&[(13, 0xF0)]))
        .run("13 words", boot, 9, pack(4, NO_STATE, 0))
        .failed;
    let two = Sheet::start(on.again(), [4, 2, 4, 2, 2, 1], &[], &[7], runs(&[(1, 0xF0), (1, 0xFF)]))
        .run("two words", boot, 9, pack(4, NO_STATE, 0))
        .failed;
    let mark = Sheet::start(on.again(), NUMBERS, &[], &[], runs(&[(16, 0xFF)]))
        .run("mark", Kind::StateMarkUpdated, 9, pack(DONE, NO_STATE, 3))
        .run("mark again", Kind::StateMarkUpdated, 9, pack(DONE, NO_STATE, 0))
        .failed;
    let magic = Sheet::start(on.again(), [4, 2, 4, 2, 4, 4], &[], &[], runs(&[(3, 0xF0), (5, 0xFF)]))
        .run("near miss", Kind::StateGetState, 0, pack(DONE, 0, 0))
        .failed;
    short + two + mark + magic + writes(on)
}

fn writes(On { judge, ev }: On) -> usize {
    let side = row(NUMBERS, ev);
    let mut bench = Bench {
        dfu: for_value(ev, &[0; 16]),
        state: for_value(ev, &[0xFF; 16]),
        last: NO_SECTOR,
        ..Bench::default()
    };
    let mut failed = 0;
    let mut write = |offset: u64, data: &[u8], word: u64, last: u32, start: &[u8]| {
        let geometry = geometry_of(side, 2);
        let call = Call { budget: 99, offset, data, ..Call::of(Kind::WriteFirmware, geometry) };
        let found = judge.call(Some(side), &call, &bench);
        bench.clone_from(judge.expected());
        if found != word || bench.last != last || bench.dfu[..8] != for_value(ev, start) {
            println!("the sheet's write at {offset} comes out differently, erase value {ev}");
            failed += 1;
        }
    };
    write(2, &[1, 2, 3, 4], pack(DONE, NO_STATE, 4), 1, &[0xFF, 0xFF, 1, 2, 3, 4, 0xFF, 0xFF]);
    write(0, &[9, 9], pack(DONE, NO_STATE, 2), 0, &[9, 9, 0xFF, 0xFF, 3, 4, 0xFF, 0xFF]);
    write(1, &[9, 9], pack(6, NO_STATE, 0), 0, &[9, 9, 0xFF, 0xFF, 3, 4, 0xFF, 0xFF]);
    write(1, &[], pack(DONE, NO_STATE, 0), 0, &[9, 9, 0xFF, 0xFF, 3, 4, 0xFF, 0xFF]);
    failed
}
