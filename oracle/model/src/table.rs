//! Document 01, "When a call says no": one function a row, rows in the paper's order. Whole numbers are u128
//! here, so no sum wraps.

use call::{Call, ERASE_VALUES, Family, Geometry, Kind};

/// The lengths of what is lent, and whether the state area reads Swap.
#[derive(Clone, Copy, Debug)]
pub struct Lengths {
    pub active: usize,
    pub dfu: usize,
    pub state: usize,
    /// the output buffer of read_dfu and hash
    pub out: usize,
}

const LARGEST_NUMBER: u128 = 65_536;
const LONGEST_AREA: u128 = 16_777_216;
const LARGEST_PAGE: u128 = 1_048_576;

/// The lowest of rows 1 to 6 that holds, 0 where none does; row 8 is `wrong_sum`. `swap` is only asked where rows 1 to 4 don't hold.
pub fn refusal(call: &Call, lengths: &Lengths, swap: impl FnOnce() -> bool) -> u8 {
    if call.kind.family() == Family::Bytes {
        return 0;
    }
    let facts = Facts::of(&call.geometry, lengths);
    let family = call.kind.family();
    if row_1(&facts, family) {
        1
    } else if row_2(&facts, family) {
        2
    } else if row_3(&facts, family) {
        3
    } else if row_4(&facts, family) {
        4
    } else if row_5(call.kind) && swap() {
        5
    } else if row_6(&facts, call, lengths.out) {
        6
    } else {
        0
    }
}

struct Facts {
    ea: u128,
    wa: u128,
    ed: u128,
    wd: u128,
    es: u128,
    ws: u128,
    b: u128,
    ev: u32,
    la: u128,
    ld: u128,
    ls: u128,
}

impl Facts {
    fn of(g: &Geometry, l: &Lengths) -> Facts {
        Facts {
            ea: g.ea.into(),
            wa: g.wa.into(),
            ed: g.ed.into(),
            wd: g.wd.into(),
            es: g.es.into(),
            ws: g.ws.into(),
            b: g.b.into(),
            ev: g.ev,
            la: l.active as u128,
            ld: l.dfu as u128,
            ls: l.state as u128,
        }
    }

    /// P: the first multiple of one erase size that the other divides. Only asked where neither is 0.
    fn page(&self) -> u128 {
        (1..)
            .map(|i| i * self.ea)
            .find(|page| page.is_multiple_of(self.ed))
            .expect("their product, at the latest")
    }

    /// N
    fn pages(&self) -> u128 {
        self.la / self.page()
    }

    /// T
    fn words(&self) -> u128 {
        self.ls / self.ws
    }
}

fn uneven(whole: u128, part: u128) -> bool {
    !whole.is_multiple_of(part)
}

/// A number that the call reads is 0 or too large, the erase value is neither 255 nor 0, or a lent area is too long.
fn row_1(f: &Facts, family: Family) -> bool {
    let (numbers, areas): (&[u128], &[u128]) = match family {
        Family::Boot => (&[f.ea, f.wa, f.ed, f.wd, f.es, f.ws, f.b], &[f.la, f.ld, f.ls]),
        Family::Updater => (&[f.ed, f.wd, f.es, f.ws], &[f.ld, f.ls]),
        Family::State => (&[f.es, f.ws], &[f.ls]),
        Family::Bytes => (&[], &[]),
    };
    numbers.iter().any(|n| *n == 0 || *n > LARGEST_NUMBER)
        || !ERASE_VALUES.contains(&f.ev)
        || areas.iter().any(|l| *l > LONGEST_AREA)
}

/// Pages, chunks and write units don't fit into one another.
fn row_2(f: &Facts, family: Family) -> bool {
    match family {
        Family::Boot => {
            let p = f.page();
            p > LARGEST_PAGE
                || [f.wa, f.wd, f.b].iter().any(|part| uneven(p, *part))
                || uneven(f.b, f.wa)
                || uneven(f.b, f.wd)
                || f.b < f.ws
        }
        Family::Updater => uneven(f.ed, f.wd),
        Family::State | Family::Bytes => false,
    }
}

/// The image areas aren't whole pages, or the DFU isn't a page longer.
fn row_3(f: &Facts, family: Family) -> bool {
    match family {
        Family::Boot => {
            let p = f.page();
            uneven(f.la, p) || uneven(f.ld, p) || f.ld < f.la + p
        }
        Family::Updater => uneven(f.ld, f.ed),
        Family::State | Family::Bytes => false,
    }
}

/// The state area isn't whole units of words, or has too few words.
fn row_4(f: &Facts, family: Family) -> bool {
    let short = match family {
        Family::Boot => f.words() < 4 * f.pages() + 3,
        _ => f.words() < 2,
    };
    uneven(f.es, f.ws) || uneven(f.ls, f.es) || short
}

/// Calls that a Swap state forbids.
fn row_5(kind: Kind) -> bool {
    matches!(
        kind,
        Kind::UpdaterMarkDfu | Kind::WriteFirmware | Kind::PrepareUpdate | Kind::CheckAndMarkUpdated
    )
}

/// The bytes asked for aren't in the DFU, or aren't whole write units.
fn row_6(f: &Facts, call: &Call, out: usize) -> bool {
    let offset = u128::from(call.offset);
    let length = call.data.len() as u128;
    match call.kind {
        Kind::ReadDfu => offset + out as u128 > f.ld,
        Kind::WriteFirmware if length > 0 => {
            uneven(offset, f.wd) || uneven(length, f.wd) || offset + length > f.ld
        }
        Kind::CheckAndMarkUpdated => u128::from(call.length) > f.ld,
        Kind::Hash => u128::from(call.length) > f.ld || call.chunk == 0 || out != 64,
        _ => false,
    }
}

/// Row 8, of request No. 7: the bytes asked for have another sum. Only asked where none of the rows above holds.
pub fn wrong_sum(call: &Call, dfu: &[u8]) -> bool {
    call.kind == Kind::CheckAndMarkUpdated && sums::crc32(&dfu[..call.length as usize]) != call.crc
}

#[cfg(test)]
mod tests {
    use super::*;

    const SHEET: Geometry = Geometry { ea: 4, wa: 2, ed: 4, wd: 2, es: 16, ws: 1, b: 2, ev: 255 };
    const LENGTHS: Lengths = Lengths { active: 12, dfu: 16, state: 16, out: 0 };

    fn boot(g: Geometry, l: Lengths) -> u8 {
        let call = Call::of(Kind::PrepareBoot, g);
        refusal(&call, &l, || false)
    }

    #[test]
    fn the_paper_s_examples() {
        assert_eq!(boot(SHEET, LENGTHS), 0);
        // one word more than in the paper: request No. 3
        assert_eq!(boot(Geometry { es: 15, ..SHEET }, Lengths { state: 15, ..LENGTHS }), 0);
        assert_eq!(boot(Geometry { es: 14, ..SHEET }, Lengths { state: 14, ..LENGTHS }), 4);
        let empty = Lengths { active: 0, dfu: 4, state: 3, out: 0 };
        assert_eq!(boot(Geometry { es: 3, ..SHEET }, empty), 0);
        assert_eq!(boot(Geometry { es: 2, ..SHEET }, Lengths { state: 2, ..empty }), 4);
        assert_eq!(boot(SHEET, Lengths { active: 16_777_216, ..LENGTHS }), 3);
        assert_eq!(boot(SHEET, Lengths { active: 16_777_217, ..LENGTHS }), 1);
    }

    /// 0 is no bad number here, and an erase value beside bad sizes is still refusal 1.
    #[test]
    fn the_erase_value() {
        for (ev, number) in
            [(255, 0), (0, 0), (1, 1), (254, 1), (256, 1), (511, 1), (65_536, 1), (u32::MAX, 1)]
        {
            assert_eq!(boot(Geometry { ev, ..SHEET }, LENGTHS), number);
            for kind in Kind::ALL {
                let call = Call { chunk: 1, ..Call::of(kind, Geometry { ev, ..SHEET }) };
                let number = if kind == Kind::StateFrom { 0 } else { number };
                let out = if kind == Kind::Hash { 64 } else { 0 };
                assert_eq!(refusal(&call, &Lengths { out, ..LENGTHS }, || false), number);
            }
        }
        assert_eq!(boot(Geometry { ev: 0, b: 3, ..SHEET }, LENGTHS), 2);
        assert_eq!(boot(Geometry { ev: 254, b: 3, ..SHEET }, LENGTHS), 1);
    }

    /// Up to the area's length, and no sum is cut to fewer bits.
    #[test]
    fn a_length_to_sum() {
        let check = |length, swap| {
            let call = Call { length, ..Call::of(Kind::CheckAndMarkUpdated, SHEET) };
            refusal(&call, &LENGTHS, || swap)
        };
        for (length, number) in [(0, 0), (16, 0), (17, 6), (1 << 32, 6), (u64::MAX, 6)] {
            assert_eq!((check(length, false), check(length, true)), (number, 5));
        }
        let sum = |crc| Call { length: 9, crc, ..Call::of(Kind::CheckAndMarkUpdated, SHEET) };
        assert!(!wrong_sum(&sum(0xCBF4_3926), b"123456789 and more"));
        assert!(wrong_sum(&sum(0xCBF4_3927), b"123456789 and more"));
    }

    /// The state isn't asked, and a chunk may be longer than the area.
    #[test]
    fn a_length_to_hash() {
        let hash = |length, chunk, out| {
            let call = Call { length, chunk, ..Call::of(Kind::Hash, SHEET) };
            refusal(&call, &Lengths { out, ..LENGTHS }, || true)
        };
        assert_eq!((hash(0, 1, 64), hash(16, u64::MAX, 64)), (0, 0));
        assert_eq!((hash(17, 1, 64), hash(1 << 32, 1, 64)), (6, 6));
        assert_eq!((hash(16, 0, 64), hash(0, 0, 64)), (6, 6));
        assert_eq!((hash(16, 1, 63), hash(16, 1, 65), hash(0, 1, 0)), (6, 6, 6));
    }

    #[test]
    fn empty_data_has_no_range() {
        let write = |offset, data: &[u8]| {
            let call = Call { offset, data, ..Call::of(Kind::WriteFirmware, SHEET) };
            refusal(&call, &LENGTHS, || false)
        };
        assert_eq!(write(1, &[0, 0]), 6);
        assert_eq!(write(1, &[]), 0);
        assert_eq!(write(u64::MAX, &[]), 0);
        assert_eq!(write(u64::MAX - 1, &[0, 0]), 6);
        assert_eq!(write(14, &[0, 0]), 0);
        assert_eq!(write(16, &[0, 0]), 6);
    }
}
