//! A sample of the original's answers as a file that another program can replay: README.md has the format.

use std::fs;
use std::io;
use std::path::Path;

use call::{Answers, Bench, Call, Geometry, Kind, NO_SECTOR, Original, Word, operations_of};
use library::Library;
use model::Model;

use crate::judge::refusal_of;
use crate::random::Random;
use crate::refusals;
use crate::shapes::{Shape, all_shapes, image};
use crate::states;

const SEED: u64 = 0x0EBB;
const MAGIC: &[u8; 4] = b"EBRP";
const VERSION: u32 = 2;

/// The calls that the format knows: those that document 01 has.
const KINDS: &[Kind] = Kind::ALL.split_at(Kind::StateFrom as usize + 1).0;

/// Bytes of a record before its areas.
const FIXED: usize = 88;

struct Record {
    call: Vec<u8>,
    kind: Kind,
}

/// Writes the sample; gives the number of records and of bytes.
pub fn write(path: &Path) -> io::Result<(usize, usize)> {
    let records = sample();
    let mut file = Vec::new();
    file.extend_from_slice(MAGIC);
    put(&mut file, VERSION);
    put(&mut file, records.len() as u32);
    put(&mut file, 0);
    for record in &records {
        file.extend_from_slice(&record.call);
    }
    fs::write(path, &file)?;
    for kind in KINDS {
        let count = records.iter().filter(|record| record.kind == *kind).count();
        println!("{:>4} {}", count, kind.name());
    }
    Ok((records.len(), file.len()))
}

fn put(file: &mut Vec<u8>, number: u32) {
    file.extend_from_slice(&number.to_le_bytes());
}

fn put_long(file: &mut Vec<u8>, number: u64) {
    file.extend_from_slice(&number.to_le_bytes());
}

/// Asks the original and packs question and answer; a boot that finishes a confirmation, which the original doesn't
/// know, is the model's.
fn record(side: &dyn Original, call: &Call, before: &Bench) -> Record {
    let refusal = refusal_of(call, before);
    assert!(refusal == 0 || refusal == 5, "only admitted inputs are asked");
    if Model::finishes_confirmation(call, &before.clone().lend()) {
        return pack_record(&Model::RIGHT, call, before);
    }
    pack_record(side, call, before)
}

fn pack_record(side: &dyn Answers, call: &Call, before: &Bench) -> Record {
    let mut after = before.clone();
    let word = side.answer(call, after.lend());
    let mut bytes = Vec::new();
    let lengths =
        [before.active.len(), before.dfu.len(), before.state.len(), call.data.len(), before.out.len()];
    let areas = 2 * lengths.iter().sum::<usize>() - call.data.len();
    put(&mut bytes, (FIXED + areas) as u32);
    put(&mut bytes, call.kind as u32);
    let g = &call.geometry;
    for number in [g.ea, g.wa, g.ed, g.wd, g.es, g.ws, g.b, g.ev] {
        put(&mut bytes, number);
    }
    for length in lengths {
        put(&mut bytes, length as u32);
    }
    put(&mut bytes, call.budget);
    put_long(&mut bytes, call.offset);
    put(&mut bytes, before.last);
    put_long(&mut bytes, word);
    put(&mut bytes, after.last);
    assert_eq!(bytes.len(), FIXED);
    for part in [&before.active, &before.dfu, &before.state] {
        bytes.extend_from_slice(part);
    }
    bytes.extend_from_slice(call.data);
    for part in [&before.out, &after.active, &after.dfu, &after.state, &after.out] {
        bytes.extend_from_slice(part);
    }
    assert_eq!(bytes.len(), FIXED + areas);
    Record { call: bytes, kind: call.kind }
}

/// Small shapes of the compiled rows, of both erase values alike.
fn small() -> Vec<(&'static dyn Original, Shape)> {
    let mut all = all_shapes();
    all.retain(|(_, shape)| shape.la + shape.ld <= 48 && shape.ls <= 40);
    all
}

fn sample() -> Vec<Record> {
    let mut random = Random::new(SEED);
    let shapes = small();
    let mut records = Vec::new();
    for _ in 0..220 {
        let (side, shape) = *random.pick(&shapes);
        records.push(boot(&mut random, side, &shape));
    }
    for _ in 0..100 {
        let (side, shape) = *random.pick(&shapes);
        let bench = turning_point(&mut random, &shape);
        let call = Call { budget: u32::MAX, ..crate::boots::boot(shape.geometry) };
        records.push(record(side, &call, &bench));
    }
    for kind in &KINDS[1..] {
        let count = match kind {
            Kind::WriteFirmware => 90,
            Kind::ReadDfu | Kind::StateFrom => 30,
            _ => 20,
        };
        for _ in 0..count {
            let (side, shape) = loop {
                let (side, shape) = *random.pick(&shapes);
                if shape.geometry.ed.is_multiple_of(shape.geometry.wd) {
                    break (side, shape);
                }
            };
            records.push(other(&mut random, side, &shape, *kind));
        }
    }
    // the original has no answer for these: the table's stands in the record
    refusals::samples(&mut random, 130, |call, before| {
        records.push(pack_record(&Model::RIGHT, call, before));
    });
    records
}

/// A state area where the rules turn: no validity, a torn mark, a gap.
fn turning_point(random: &mut Random, shape: &Shape) -> Bench {
    let word = shape.word();
    let (n, marks) = (shape.pages(), shape.words() - 2);
    let mut state = states::after_steps(shape, random.below(marks + 1));
    let mark = 2 + random.below((4 * n + 1).min(marks));
    match random.below(3) {
        0 => state[word + random.below(word)] = shape.geometry.marked(),
        1 => state[mark * word + random.below(word)] ^= 0xFF,
        _ => state[mark * word..(mark + 1) * word].fill(shape.geometry.erased()),
    }
    shape.bench(random, state)
}

/// A boot whose budget is spread over the whole run, so that cuts everywhere are in the sample.
fn boot(random: &mut Random, side: &dyn Original, shape: &Shape) -> Record {
    let state = match random.below(3) {
        0 => states::fresh(shape),
        1 => states::after_steps(shape, 2 * shape.pages()),
        _ => states::random_state(random, shape),
    };
    let bench = shape.bench(random, state);
    let call = crate::boots::boot(shape.geometry);
    let whole = side.answer(&Call { budget: u32::MAX, ..call }, bench.clone().lend());
    let budget = random.below(operations_of(whole) as usize + 2) as u32;
    record(side, &Call { budget, ..call }, &bench)
}

/// Only what the call is lent is in its record.
fn other(random: &mut Random, side: &dyn Original, shape: &Shape, kind: Kind) -> Record {
    use call::Family::{Bytes, State, Updater};
    let mut state = states::random_state(random, shape);
    if !random.once_in(4) {
        // most random states read Swap, where the updater only says no
        state[..shape.word()].fill(*random.pick(&[shape.geometry.erased(), 0xD0, 0xC0, 0xE0]));
    }
    let mut bench = Bench { last: NO_SECTOR, ..Bench::default() };
    if matches!(kind.family(), State | Updater) {
        bench.state = state;
    }
    if kind.family() == Updater {
        bench.dfu = image(random, shape.ld, shape.page());
    }
    let write = shape.geometry.wd as usize;
    let units = bench.dfu.len() / write;
    let from = random.below(units + 1);
    let length = write * random.below(units - from + 1);
    let mut data = Vec::new();
    match kind {
        Kind::WriteFirmware => {
            data = image(random, length, write);
            let sector = (from * write) as u32 / shape.geometry.ed;
            bench.last = *random.pick(&[NO_SECTOR, sector, sector, sector + 1, 0, 7]);
        }
        Kind::ReadDfu => bench.out = random.bytes(length),
        _ if kind.family() == Bytes => {
            data = vec![*random.pick(&states::MAGICS); random.below(6)];
            if random.once_in(2) && !data.is_empty() {
                let at = random.below(data.len());
                data[at] = *random.pick(&states::ODD);
            }
        }
        _ => {}
    }
    let budget = if kind.has_budget() { random.below(6) as u32 } else { 0 };
    let offset = match kind {
        // empty data has no range
        Kind::WriteFirmware if data.is_empty() => random.below(1000),
        Kind::WriteFirmware | Kind::ReadDfu => from * write,
        _ => 0,
    };
    let geometry = if kind.family() == Bytes { Geometry::default() } else { shape.geometry };
    record(side, &Call { budget, offset: offset as u64, data: &data, ..Call::of(kind, geometry) }, &bench)
}

/// A cursor over the file, as a program without allocation would read it.
struct Reader<'a>(&'a [u8]);

impl<'a> Reader<'a> {
    fn take(&mut self, length: usize) -> &'a [u8] {
        let (part, rest) = self.0.split_at(length);
        self.0 = rest;
        part
    }

    fn number(&mut self) -> u32 {
        u32::from_le_bytes(self.take(4).try_into().expect("four bytes"))
    }

    fn long(&mut self) -> u64 {
        u64::from_le_bytes(self.take(8).try_into().expect("eight bytes"))
    }
}

/// Replays a file on the library; gives the number of records and of those that differ.
pub fn check(path: &Path) -> io::Result<(usize, usize)> {
    let file = fs::read(path)?;
    let mut reader = Reader(&file);
    assert_eq!(reader.take(4), MAGIC, "not a replay file");
    assert_eq!(reader.number(), VERSION, "another version");
    let count = reader.number() as usize;
    reader.number();
    let mut wrong = 0;
    for i in 0..count {
        let length = u32::from_le_bytes(reader.0[..4].try_into().expect("four bytes")) as usize;
        if !replay_one(i, Reader(reader.take(length))) {
            wrong += 1;
        }
    }
    assert!(reader.0.is_empty(), "bytes after the last record");
    Ok((count, wrong))
}

fn replay_one(i: usize, mut reader: Reader) -> bool {
    reader.number();
    let kind = KINDS[reader.number() as usize];
    let [ea, wa, ed, wd, es, ws, b, ev] = std::array::from_fn(|_| reader.number());
    let geometry = Geometry { ea, wa, ed, wd, es, ws, b, ev };
    let [la, ld, ls, data_length, out_length] = std::array::from_fn(|_| reader.number() as usize);
    let budget = reader.number();
    let offset = reader.long();
    let last = reader.number();
    let word = reader.long();
    let last_after = reader.number();
    let mut bench = Bench {
        active: reader.take(la).to_vec(),
        dfu: reader.take(ld).to_vec(),
        state: reader.take(ls).to_vec(),
        out: Vec::new(),
        last,
    };
    let data = reader.take(data_length);
    bench.out = reader.take(out_length).to_vec();
    let after = Bench {
        active: reader.take(la).to_vec(),
        dfu: reader.take(ld).to_vec(),
        state: reader.take(ls).to_vec(),
        out: reader.take(out_length).to_vec(),
        last: last_after,
    };
    assert!(reader.0.is_empty(), "bytes at the end of record {i}");
    let found = Library.answer(&Call { budget, offset, data, ..Call::of(kind, geometry) }, bench.lend());
    let same = found == word && bench == after;
    if !same {
        println!("record {i} ({}): expected {}, found {}", kind.name(), Word(word), Word(found));
    }
    same
}
