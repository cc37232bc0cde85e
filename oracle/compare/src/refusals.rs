//! Refusals: for every call each number and length at its limits, alone and two at a time. The table decides;
//! where a changed input is still admitted, the original does if it is compiled for these numbers, else the model.

use call::{Bench, Call, ERASE_VALUES, Family, Geometry, Kind, NO_SECTOR, ONES};

use crate::judge::{Judge, refusal_of};
use crate::random::Random;
use crate::shapes;

/// Everything that a call is given, as plain numbers.
#[derive(Clone, Copy)]
struct Input {
    /// Ea, Wa, Ed, Wd, Es, Ws, b
    numbers: [u32; 7],
    ev: u32,
    la: usize,
    ld: usize,
    ls: usize,
    offset: u64,
    data: usize,
    out: usize,
    length: u64,
    chunk: u64,
    /// whether the sum that is given is another than that of `length` bytes
    wrong_sum: bool,
    /// what word 0 holds; erased without one
    magic: Option<u8>,
}

/// One change of one of them.
#[derive(Clone, Copy)]
enum Change {
    Number(usize, u32),
    EraseValue(u32),
    La(usize),
    Ld(usize),
    Ls(usize),
    Offset(u64),
    Data(usize),
    Out(usize),
    Length(u64),
    Chunk(u64),
    WrongSum,
    Magic(Option<u8>),
}

impl Input {
    fn with(&self, change: &Change) -> Input {
        let mut next = *self;
        match *change {
            Change::Number(i, value) => next.numbers[i] = value,
            Change::EraseValue(value) => next.ev = value,
            Change::La(value) => next.la = value,
            Change::Ld(value) => next.ld = value,
            Change::Ls(value) => next.ls = value,
            Change::Offset(value) => next.offset = value,
            Change::Data(value) => next.data = value,
            Change::Out(value) => next.out = value,
            Change::Length(value) => next.length = value,
            Change::Chunk(value) => next.chunk = value,
            Change::WrongSum => next.wrong_sum = true,
            Change::Magic(value) => next.magic = value,
        }
        next
    }

    fn geometry(&self) -> Geometry {
        let [ea, wa, ed, wd, es, ws, b] = self.numbers;
        Geometry { ea, wa, ed, wd, es, ws, b, ev: self.ev }
    }

    /// Everything worth changing for this kind of call.
    fn changes(&self, kind: Kind) -> Vec<Change> {
        let numbers: &[usize] = match kind.family() {
            Family::Boot => &[0, 1, 2, 3, 4, 5, 6],
            Family::Updater => &[2, 3, 4, 5],
            Family::State => &[4, 5],
            Family::Bytes => &[],
        };
        let mut all = Vec::new();
        for i in numbers {
            let x = self.numbers[*i];
            let values = [0, 1, 2, 3, x - 1, x + 1, 2 * x, 65_535, 65_536, 65_537, 1 << 31, u32::MAX];
            all.extend(values.map(|value| Change::Number(*i, value)));
        }
        // beside the two that are admitted: near them, and those whose low byte is one of them
        let values = [0, 255, 1, 2, 128, 254, 256, 511, 65_535, 65_536, u32::MAX];
        all.extend(values.map(Change::EraseValue));
        let page = self.numbers[0].max(self.numbers[2]) as usize;
        let [_, _, ed, wd, es, ws, _] = self.numbers.map(|x| x as usize);
        if kind.family() == Family::Boot {
            all.extend(around(self.la, page).map(Change::La));
            all.extend(around(self.ld, page).map(Change::Ld));
        }
        if kind.family() == Family::Updater {
            all.extend(around(self.ld, ed).map(Change::Ld));
        }
        all.extend(around(self.ls, es).map(Change::Ls));
        all.extend(around(self.ls, ws).map(Change::Ls));
        all.extend([ws, 2 * ws, 3 * ws, es, 2 * es, 3 * es].map(Change::Ls));
        all.extend([Some(0xF0), None].map(Change::Magic));
        if kind == Kind::ReadDfu {
            all.extend(around(self.out, 1).map(Change::Out));
            all.extend(
                [0, 1, self.ld, self.ld + 1, self.ld - self.out, self.ld - self.out + 1]
                    .map(|x| Change::Offset(x as u64)),
            );
            all.extend(
                [u32::MAX, 0u32.wrapping_sub(self.out as u32), 1 << 31].map(|x| Change::Offset(x.into())),
            );
        }
        if kind == Kind::WriteFirmware {
            all.extend(around(self.data, wd).map(Change::Data));
            let end = (self.ld - self.data) as u64;
            let w = wd as u64;
            let far = [
                1 << 32,
                (1 << 32) + w,
                (1 << 32) * w,
                1 << 63,
                u64::MAX,
                0u64.wrapping_sub(self.data as u64),
            ];
            all.extend([0, 1, w - 1, w, w + 1, end, end + 1, end + w, self.ld as u64].map(Change::Offset));
            all.extend(far.map(Change::Offset));
            all.extend(far.map(|x| Change::Offset(x / w * w)));
        }
        let end = self.ld as u64;
        let far = [1 << 32, (1 << 32) + end, 1 << 63, u64::MAX];
        if matches!(kind, Kind::CheckAndMarkUpdated | Kind::Hash) {
            all.extend([0, 1, end / 2, end, end + 1, 2 * end].map(Change::Length));
            all.extend(far.map(Change::Length));
        }
        if kind == Kind::CheckAndMarkUpdated {
            all.push(Change::WrongSum);
        }
        if kind == Kind::Hash {
            all.extend(around(self.out, 32).map(Change::Out));
            all.extend([0, 1, end / 2, end, end + 1].map(Change::Chunk));
            all.extend(far.map(Change::Chunk));
        }
        all
    }
}

/// A length, one off, a unit off, and the ends.
fn around(length: usize, unit: usize) -> [usize; 8] {
    [
        0,
        1,
        length.saturating_sub(1),
        length + 1,
        length.saturating_sub(unit),
        length + unit,
        2 * length,
        length + 2 * unit,
    ]
}

/// Admitted inputs to start from, at the erase value 255; the first is the sheet's.
const STARTS: [Input; 6] = [
    Input { numbers: [4, 2, 4, 2, 16, 1, 2], la: 12, ld: 16, ls: 16, ..PLAIN },
    Input { numbers: [4, 2, 4, 2, 2, 2, 4], la: 4, ld: 12, ls: 14, ..PLAIN },
    Input { numbers: [8, 2, 4, 4, 6, 3, 4], la: 8, ld: 16, ls: 24, ..PLAIN },
    Input { numbers: [2, 1, 6, 3, 4, 4, 6], la: 0, ld: 12, ls: 12, ..PLAIN },
    Input { numbers: [1, 1, 1, 1, 1, 1, 1], la: 2, ld: 3, ls: 11, ..PLAIN },
    Input { numbers: [64, 16, 64, 32, 40, 8, 32], la: 128, ld: 256, ls: 120, ..PLAIN },
];

const PLAIN: Input = Input {
    numbers: [0; 7],
    ev: ONES,
    la: 0,
    ld: 0,
    ls: 0,
    offset: 0,
    data: 0,
    out: 0,
    length: 0,
    chunk: 0,
    wrong_sum: false,
    magic: None,
};

/// The bench and data that inputs are laid out on; kept, so that long areas are allocated once.
#[derive(Default)]
struct Table {
    bench: Bench,
    data: Vec<u8>,
}

impl Table {
    fn lay_out(&mut self, kind: Kind, input: &Input, budget: u32) -> (Call<'_>, &Bench) {
        let bench = &mut self.bench;
        bench.active.resize(input.la, 0x3C);
        bench.dfu.resize(input.ld, 0x5A);
        bench.state.clear();
        bench.state.resize(input.ls, input.ev as u8);
        if let Some(magic) = input.magic {
            let word = (input.numbers[5] as usize).min(input.ls);
            bench.state[..word].fill(magic);
        }
        bench.out.resize(input.out, 0x77);
        bench.last = 1;
        self.data.resize(input.data, 0x0F);
        let summed = usize::try_from(input.length).ok().and_then(|length| bench.dfu.get(..length));
        let crc = summed.map_or(0, sums::crc32) ^ u32::from(input.wrong_sum);
        let call = Call {
            budget,
            offset: input.offset,
            data: &self.data,
            length: input.length,
            crc,
            chunk: input.chunk,
            ..Call::of(kind, input.geometry())
        };
        (call, bench)
    }

    fn ask(&mut self, judge: &mut Judge, kind: Kind, input: &Input, budget: u32) {
        let (call, bench) = self.lay_out(kind, input, budget);
        judge.call(shapes::compiled(&call.geometry), &call, bench);
    }
}

/// Each start at both erase values with no, one and two changes.
pub fn small(judge: &mut Judge, _: &mut Random) {
    let mut table = Table::default();
    for (ev, start) in ERASE_VALUES.into_iter().flat_map(|ev| STARTS.map(|start| (ev, start))) {
        for kind in Kind::WITH_AREAS {
            let mut start = Input { ev, ..start };
            if kind == Kind::WriteFirmware {
                start.data = start.numbers[3] as usize;
            }
            if kind == Kind::ReadDfu {
                start.out = start.numbers[3] as usize;
            }
            if matches!(kind, Kind::CheckAndMarkUpdated | Kind::Hash) {
                start.length = start.ld as u64 - 1;
            }
            if kind == Kind::Hash {
                (start.chunk, start.out) = (2, 64);
            }
            let changes = start.changes(kind);
            for budget in [0, u32::MAX] {
                table.ask(judge, kind, &start, budget);
                for change in &changes {
                    table.ask(judge, kind, &start.with(change), budget);
                }
            }
            for (i, first) in changes.iter().enumerate() {
                for second in &changes[i + 1..] {
                    table.ask(judge, kind, &start.with(first).with(second), 1);
                }
            }
        }
    }
}

/// Three and more changes at once: random numbers and lengths throughout.
pub fn random(judge: &mut Judge, random: &mut Random) {
    let mut table = Table::default();
    for _ in 0..60_000 {
        let kind = *random.pick(&Kind::WITH_AREAS);
        let mut input = Input { ev: *random.pick(&ERASE_VALUES), ..*random.pick(&STARTS) };
        input.data = random.below(9);
        input.out = random.below(9);
        input.length = random.below(9) as u64;
        if kind == Kind::Hash {
            (input.chunk, input.out) = (1 + random.below(9) as u64, 64);
        }
        let changes = Input { ld: input.ld.max(9), ..input }.changes(kind);
        for _ in 0..1 + random.below(5) {
            input = input.with(random.pick(&changes));
        }
        table.ask(judge, kind, &input, random.below(40) as u32);
    }
}

/// Refused inputs on small areas, for the replay file.
pub fn samples(random: &mut Random, count: usize, mut visit: impl FnMut(&Call, &Bench)) {
    let mut table = Table::default();
    let mut found = 0;
    while found < count {
        let kind = Kind::ALL[found % Kind::StateFrom as usize];
        let mut input = Input { ev: *random.pick(&ERASE_VALUES), ..*random.pick(&STARTS[..5]) };
        if kind == Kind::WriteFirmware {
            input.data = input.numbers[3] as usize;
        }
        if kind == Kind::ReadDfu {
            input.out = input.numbers[3] as usize;
        }
        let changes = input.changes(kind);
        for _ in 0..1 + random.below(3) {
            input = input.with(random.pick(&changes));
        }
        let small = input.la.max(input.ld).max(input.ls).max(input.data).max(input.out) <= 40;
        let (call, bench) = table.lay_out(kind, &input, 9);
        let refusal = refusal_of(&call, bench);
        // 5 is the original's own answer and stands among the others
        if small && refusal != 0 && refusal != 5 {
            visit(&call, bench);
            found += 1;
        }
    }
}

/// Lengths at 16,777,216, and the numbers at 65,536 where they are admitted; at both erase values.
pub fn large(judge: &mut Judge, _: &mut Random) {
    for ev in ERASE_VALUES {
        large_at(judge, ev);
    }
}

fn large_at(judge: &mut Judge, ev: u32) {
    const LONGEST: usize = 16_777_216;
    let mut table = Table::default();
    let plain = Input { ev, ..PLAIN };
    let mut page = Input { numbers: [65_536; 7], ..plain };
    page.ls = 2 * 65_536;
    // the largest numbers at once: one page needs seven words
    let largest = Input { la: 65_536, ld: 131_072, ls: 458_752, magic: Some(0xF0), ..page };
    for budget in [0, 1, 3, 5, 6, u32::MAX] {
        table.ask(judge, Kind::PrepareBoot, &largest, budget);
    }
    for i in 0..7 {
        let mut over = largest;
        over.numbers[i] = 65_537;
        table.ask(judge, Kind::PrepareBoot, &over, 9);
    }
    // the longest images: 4,095 pages beside a DFU of 16,777,216, and as few marks as they need
    let words = Input { numbers: [4096, 4, 4096, 4, 4096, 4, 4096], ..largest };
    let images = Input { la: LONGEST - 4096, ld: LONGEST, ls: 65_536, ..words };
    for budget in [0, 20_000, u32::MAX] {
        table.ask(judge, Kind::PrepareBoot, &images, budget);
    }
    // erase sizes that share no divisor: pages of 1,048,575 and, past the limit, of 1,048,577 bytes
    for [ea, ed] in [[1023, 1025], [1025, 1023], [17, 61_681], [61_681, 17]] {
        let page = (ea * ed) as usize;
        let unlike = Input {
            numbers: [ea, 1, ed, 1, 7, 1, 1],
            la: page,
            ld: 2 * page,
            ls: 7,
            magic: Some(0xF0),
            ..plain
        };
        for budget in [0, 1, 2, 1022, 1023, 1024, 2000, 1_100_000] {
            table.ask(judge, Kind::PrepareBoot, &unlike, budget);
        }
    }
    // small areas of the same units, so that each length is admitted by itself; the original is compiled for them
    let paged = Input { numbers: [4096, 4, 4096, 4, 4096, 4, 256], la: 4096, ld: 8192, ls: 8192, ..plain };
    for length in [LONGEST - 1, LONGEST, LONGEST + 1] {
        // a call on such areas takes long, and one byte less than the limit is like any other length
        let kinds = if length < LONGEST { 1 } else { Kind::WITH_AREAS.len() };
        for kind in &Kind::WITH_AREAS[..kinds] {
            for change in [Change::La(length), Change::Ld(length), Change::Ls(length)] {
                table.ask(judge, *kind, &paged.with(&change), 2);
            }
        }
        // a length above the limit is refused before anything else, a number out of range with it
        let both = Input { ev, ..STARTS[0] }.with(&Change::Ld(length)).with(&Change::Number(4, 7));
        table.ask(judge, Kind::PrepareBoot, &both, 2);
        table.ask(judge, Kind::UpdaterMarkDfu, &both, 2);
        // output and data aren't flash areas
        let long = Input { ev, out: length, data: length, ..STARTS[4] };
        table.ask(judge, Kind::ReadDfu, &long, 0);
        table.ask(judge, Kind::WriteFirmware, &long, u32::MAX);
        let whole = long.with(&Change::Ld(length));
        table.ask(judge, Kind::ReadDfu, &whole, 0);
        let sectors = Input { ld: length, data: length, ..paged };
        for budget in [0, 7, 8191, 8192, u32::MAX] {
            table.ask(judge, Kind::WriteFirmware, &sectors, budget);
        }
    }
    assert_ne!(table.bench.last, NO_SECTOR);
}
