//! What the original does where document 01 refuses, and where its comments say otherwise: the smallest
//! inputs, run. Run it in both builds; some outcomes need the overflow checks of the one or the other.

use std::panic::{AssertUnwindSafe, catch_unwind, set_hook};

use call::{Answers, Bench, CUT, Call, Geometry, Hex, Kind, NO_SECTOR, NO_STATE, Word, pack};
use digest::Digest;
use original::mem_flash::{MemFlash, Supply};
use original::sizes::Sizes;
use original::{BlockingFirmwareUpdater, BootLoader, BootLoaderConfig, FirmwareUpdaterConfig, State};

const ONES: Geometry = Geometry { ea: 1, wa: 1, ed: 1, wd: 1, es: 1, ws: 1, b: 1, ev: 255 };
type Ones = Sizes<1, 1, 1, 1, 1, 1>;
const SHEET: Geometry = Geometry { ea: 4, wa: 2, ed: 4, wd: 2, es: 16, ws: 1, b: 2, ev: 255 };
type Sheet = Sizes<4, 2, 4, 2, 16, 1>;

/// Asks and says what came of it; the areas are shown even after a panic.
fn ask(note: &str, side: &dyn Answers, call: &Call, bench: &mut Bench) {
    println!("- {note}");
    print!("  {} offset {} data {}", call.kind.name(), call.offset, Hex(call.data));
    println!("budget {} last {}", call.budget, memory(bench.last));
    show("before", bench);
    match catch_unwind(AssertUnwindSafe(|| side.answer(call, bench.lend()))) {
        Ok(word) => println!("  answer: {}", Word(word)),
        Err(payload) => println!("  panics: {}", said(&payload)),
    }
    show("after ", bench);
}

fn memory(last: u32) -> String {
    if last == NO_SECTOR { "none".to_string() } else { last.to_string() }
}

fn show(when: &str, bench: &Bench) {
    println!(
        "  {when} active {} dfu {} state {} memory {}",
        Hex(&bench.active),
        Hex(&bench.dfu),
        Hex(&bench.state),
        memory(bench.last)
    );
}

fn said(payload: &Box<dyn std::any::Any + Send>) -> String {
    match payload.downcast_ref::<String>() {
        Some(text) => text.replace('\n', " "),
        None => payload.downcast_ref::<&str>().copied().unwrap_or("?").to_string(),
    }
}

fn tell(note: &str, body: impl FnOnce() -> String) {
    println!("- {note}");
    match catch_unwind(AssertUnwindSafe(body)) {
        Ok(text) => println!("  {text}"),
        Err(payload) => println!("  panics: {}", said(&payload)),
    }
}

fn bench(active: &[u8], dfu: &[u8], state: &[u8]) -> Bench {
    Bench {
        active: active.to_vec(),
        dfu: dfu.to_vec(),
        state: state.to_vec(),
        out: Vec::new(),
        last: NO_SECTOR,
    }
}

fn call(kind: Kind, geometry: Geometry) -> Call<'static> {
    Call { budget: 99, ..Call::of(kind, geometry) }
}

fn main() {
    set_hook(Box::new(|_| {}));
    println!("overflow checks: {}", cfg!(debug_assertions));
    short_dfu();
    two_words();
    one_word();
    far_offsets();
    half_done_refusals();
    uneven_areas();
    no_limits();
    labels();
    short_state_area();
    sector_memory();
    odd_marks();
    two_readers();
    hash_past_the_end();
}

fn short_dfu() {
    println!("\nDFU shorter than active (refusal 3): the difference is taken in 32 bits");
    let boot = call(Kind::PrepareBoot, ONES);
    ask("state reads Boot", &Ones {}, &boot, &mut bench(&[1], &[], &[0xFF; 6]));
    ask("state reads Swap", &Ones {}, &boot, &mut bench(&[1], &[], &[0xF0, 0xFF, 0xFF, 0xFF, 0xFF, 0xFF]));
    let invalid = [0xF0, 0, 0xFF, 0xFF, 0xFF, 0xFF];
    ask("Swap, validity gone, 4N + 2 words", &Ones {}, &boot, &mut bench(&[1], &[], &invalid));
    let invalid = [0xF0, 0, 0xFF, 0xFF, 0xFF, 0xFF, 0xFF];
    ask("Swap, validity gone, 4N + 3 words", &Ones {}, &boot, &mut bench(&[1], &[], &invalid));
    ask("as long as active", &Ones {}, &boot, &mut bench(&[1], &[2], &[0xFF; 6]));
}

fn two_words() {
    println!("\nTwo state words and no page (refusal 4): T - 3 underflows");
    let boot = call(Kind::PrepareBoot, ONES);
    for state in [[0xFF, 0xFF], [0xF0, 0xFF], [0xF0, 0x00], [0xF0, 0x7F]] {
        ask("no page", &Ones {}, &boot, &mut bench(&[], &[7], &state));
    }
}

fn one_word() {
    println!("\nOne state word or none (refusal 4)");
    for kind in [Kind::ReadState, Kind::StateGetState, Kind::StateMarkBooted, Kind::StateMarkUpdated] {
        ask("one word", &Ones {}, &call(kind, ONES), &mut bench(&[], &[], &[0xD0]));
    }
    ask("no word", &Ones {}, &call(Kind::StateGetState, ONES), &mut bench(&[], &[], &[]));
}

fn far_offsets() {
    println!("\nwrite_firmware far away (refusal 6): offsets are cut to 32 bits, the memory isn't");
    let supply = Supply::new(99);
    let (mut dfu, mut state, mut word) = ([0x55, 0x66], [0xFF, 0xFF], [0]);
    let config = FirmwareUpdaterConfig {
        dfu: MemFlash::<1, 1>::new(&mut dfu, &supply),
        state: MemFlash::<1, 1>::new(&mut state, &supply),
    };
    let mut updater = BlockingFirmwareUpdater::new(config, &mut word);
    tell("Ed 1, Ld 2 (55 66): 0A at 2^32, then 0B at 0, then 0C at 0", || {
        let mut operations = Vec::new();
        for (offset, byte) in [(1usize << 32, 0x0A), (0, 0x0B), (0, 0x0C)] {
            let left = supply.left.get();
            let answer = updater.write_firmware(offset, &[byte]);
            operations.push(format!("{answer:?} with {} operations", left - supply.left.get()));
        }
        operations.join(", ")
    });
    println!("  dfu {}", Hex(&dfu));
    let write = |offset, data| Call { offset, data, ..call(Kind::WriteFirmware, ONES) };
    let mut start = bench(&[], &[0x55, 0x66], &[0xFF, 0xFF]);
    ask("2^32 - 1: the erase ends at 0", &Ones {}, &write((1 << 32) - 1, &[1]), &mut start);
    let mut start = bench(&[], &[0x55, 0x66], &[0xFF, 0xFF]);
    ask("2^64 - 1", &Ones {}, &write(u64::MAX, &[1]), &mut start);
}

fn half_done_refusals() {
    println!("\nwrite_firmware with a wrong offset or length (refusal 6): flash has changed before it stops");
    let write = |offset, data| Call { offset, data, ..call(Kind::WriteFirmware, SHEET) };
    let start = || bench(&[], &[0; 8], &[0xFF; 16]);
    ask("length 1, Wd 2", &Sheet {}, &write(0, &[1]), &mut start());
    ask("offset 1, Wd 2", &Sheet {}, &write(1, &[1, 2]), &mut start());
    ask("past the end", &Sheet {}, &write(4, &[1, 2, 3, 4, 5, 6]), &mut start());
    ask("offset beyond, no data", &Sheet {}, &write(99, &[]), &mut start());
    println!(
        "\nread_dfu past the end (refusal 6): the flash decides; this one panics, the comment says error"
    );
    let mut start = bench(&[], &[1, 2], &[0xFF; 2]);
    start.out = vec![0; 2];
    ask("two bytes at 1 of 2", &Ones {}, &Call { offset: 1, ..call(Kind::ReadDfu, ONES) }, &mut start);
}

fn uneven_areas() {
    println!("\nAreas that aren't whole units: answered as long as no erase meets the ragged end");
    let odd = Geometry { ed: 2, ..ONES };
    let write = Call { data: &[7], ..call(Kind::WriteFirmware, odd) };
    ask(
        "Ed 2, Ld 3 (refusal 3)",
        &Sizes::<1, 1, 2, 1, 1, 1> {},
        &write,
        &mut bench(&[], &[0; 3], &[0xFF; 2]),
    );
    let odd = Geometry { ea: 2, ed: 2, es: 3, ws: 2, b: 2, ..ONES };
    let state = [0xF0, 0xF0, 0xFF, 0xFF, 0xFF, 0xFF];
    let side = Sizes::<2, 1, 2, 1, 3, 2> {};
    ask("Es 3, Ws 2 (refusal 4)", &side, &call(Kind::PrepareBoot, odd), &mut bench(&[], &[0; 2], &state));
}

fn no_limits() {
    println!("\nSizes without limits (refusal 1), and what the updater doesn't ask (refusal 2)");
    tell("Ea = Ed = b = 65,537, one page, state reads Swap", || {
        let large = Geometry { ea: 65_537, ed: 65_537, b: 65_537, ..ONES };
        let state = [0xF0, 0xFF, 0xFF, 0xFF, 0xFF, 0xFF, 0xFF];
        let mut bench = bench(&[1; 65_537], &[2; 131_074], &state);
        let word =
            Sizes::<65_537, 1, 65_537, 1, 1, 1> {}.answer(&call(Kind::PrepareBoot, large), bench.lend());
        Word(word).to_string()
    });
    tell("La 1,048,577, no update marked", || {
        let long = (4 << 18) + 1;
        let mut bench = bench(&vec![1; long], &vec![2; long + 1], &vec![0xFF; 4 * long + 3]);
        Word(Ones {}.answer(&call(Kind::PrepareBoot, ONES), bench.lend())).to_string()
    });
    let none = Geometry { es: 0, ..ONES };
    let side = Sizes::<1, 1, 1, 1, 0, 1> {};
    ask(
        "Es 0, nothing to erase",
        &side,
        &call(Kind::StateGetState, none),
        &mut bench(&[], &[], &[0xF0, 0xFF]),
    );
    ask("Es 0", &side, &call(Kind::StateMarkBooted, none), &mut bench(&[], &[], &[0xF0, 0xFF]));
    tell("Ed 3, Wd 2, Ld 3 (55 66 77): two bytes at 0", || {
        let supply = Supply::new(99);
        let (mut dfu, mut state, mut word) = ([0x55, 0x66, 0x77], [0xFF, 0xFF], [0]);
        let config = FirmwareUpdaterConfig {
            dfu: MemFlash::<3, 2>::new(&mut dfu, &supply),
            state: MemFlash::<1, 1>::new(&mut state, &supply),
        };
        let answer = BlockingFirmwareUpdater::new(config, &mut word).write_firmware(0, &[1, 2]);
        format!("{answer:?}, dfu {}", Hex(&dfu))
    });
    let odd = Geometry { ea: 2, ed: 2, ..ONES };
    let state = [0xF0, 0xFF, 0xFF, 0xFF, 0xFF, 0xFF, 0xFF];
    let mut seven = bench(&[1; 2], &[2; 4], &state);
    println!("The state area isn't asked to be whole pages, as the comment on new has it");
    ask(
        "pages of 2, a state area of 7",
        &Sizes::<2, 1, 2, 1, 1, 1> {},
        &call(Kind::PrepareBoot, odd),
        &mut seven,
    );
}

fn labels() {
    println!("\nLabels and comments");
    let boot = call(Kind::PrepareBoot, ONES);
    let fresh = [0xF0, 0xFF, 0xFF, 0xFF, 0xFF, 0xFF];
    let booted = Call { budget: 1, ..call(Kind::StateMarkBooted, ONES) };
    let mut never = bench(&[1], &[2, 3], &fresh);
    ask("fresh mark, 4N + 2 words: mark_booted cut after one", &Ones {}, &booted, &mut never);
    ask("then boot: the spare DFU page lands in active", &Ones {}, &boot, &mut never);
    let mut never = bench(&[1], &[2, 3], &[&fresh[..], &[0xFF]].concat());
    ask("the same with 4N + 3 words", &Ones {}, &booted, &mut never);
    ask("then boot: Revert, though nothing was swapped", &Ones {}, &boot, &mut never);
    let mut again = bench(&[1], &[2, 3], &[&fresh[..], &[0xFF]].concat());
    ask("swap", &Ones {}, &boot, &mut again);
    ask("marked again before it is confirmed", &Ones {}, &call(Kind::StateMarkUpdated, ONES), &mut again);
    ask("then boot: reverts, and answers Swap", &Ones {}, &boot, &mut again);
    ask("then boot: answers Revert", &Ones {}, &boot, &mut again);
    let mut mixed = bench(&[1, 2, 3], &[4, 5, 6, 7], &[&[0xF0][..], &[0xFF; 13]].concat());
    ask("case k with pages of one byte, 4N + 2 words: swap", &Ones {}, &boot, &mut mixed);
    ask("mark_booted cut after one", &Ones {}, &booted, &mut mixed);
    ask("then boot: a mixed image", &Ones {}, &boot, &mut mixed);
    let mut confirmed = bench(&[2], &[2, 1], &[0xF0, 0, 0, 0, 0xFF, 0xFF, 0xFF]);
    ask("case j with one page: a cut confirmation ends as Revert", &Ones {}, &boot, &mut confirmed);
    let mut garbage = bench(&[], &[0], &[0x12, 0x34]);
    let write = Call { data: &[7], ..call(Kind::WriteFirmware, ONES) };
    ask("write_firmware in a state that is no magic", &Ones {}, &write, &mut garbage);
    let mut empty = bench(&[], &[], &[0xFF, 0xFF]);
    ask("prepare_update of an empty DFU", &Ones {}, &call(Kind::PrepareUpdate, ONES), &mut empty);
}

/// The last mark is never read, so the last step is done again in every run.
fn short_state_area() {
    println!("\n4N + 2 words, a swapped device, always P / b + 2 operations a run: the revert doesn't end");
    for words in [6, 7] {
        let mut state = vec![0xFF; words];
        state[..4].copy_from_slice(&[0xF0, 0xFF, 0, 0]);
        let mut bench = bench(&[2], &[2, 1], &state);
        let boot = Call { budget: 3, ..call(Kind::PrepareBoot, ONES) };
        let mut runs = 1;
        while runs < 1000 && (Ones {}).answer(&boot, bench.lend()) == pack(CUT, NO_STATE, 3) {
            runs += 1;
        }
        println!("- {words} words: ended by run {runs}{}", if runs == 1000 { ", that is, not" } else { "" });
        show("after ", &bench);
    }
}

fn sector_memory() {
    println!("\nThe sector last erased");
    let write = |offset, data| Call { offset, data, ..call(Kind::WriteFirmware, ONES) };
    let mut twice = bench(&[], &[0, 0], &[0xFF, 0xFF]);
    ask("F0 at 0", &Ones {}, &write(0, &[0xF0]), &mut twice);
    ask("0F at 0 again: no erase, old AND new", &Ones {}, &write(0, &[0x0F]), &mut twice);
    ask("the next sector", &Ones {}, &write(1, &[0x11]), &mut twice);
    ask("back: erased again", &Ones {}, &write(0, &[0x22]), &mut twice);
    let mut prepared = bench(&[], &[0, 0], &[0xFF, 0xFF]);
    ask("prepare_update", &Ones {}, &call(Kind::PrepareUpdate, ONES), &mut prepared);
    ask("then a write: the erased sector is erased once more", &Ones {}, &write(0, &[0x22]), &mut prepared);
}

fn odd_marks() {
    println!("\nOdd marks: progress is read afresh, so done marks beyond a gap count once the gap closes");
    // N = 2: steps 0 to 3; 0 done, 1 open, 2 and 3 done
    let state = [0xF0, 0xFF, 0, 0xFF, 0, 0, 0xFF, 0xFF, 0xFF, 0xFF, 0xFF];
    let boot = call(Kind::PrepareBoot, ONES);
    ask("00 FF 00 00: only step 1 runs", &Ones {}, &boot, &mut bench(&[1, 2], &[3, 4, 2], &state));
    let state = [0xF0, 0xFF, 0x01, 0x7E, 0xFF, 0xFF, 0xFF];
    ask("marks 01 and 7E are done", &Ones {}, &boot, &mut bench(&[1], &[2, 3], &state));
    let state = [0xF0, 0xFE, 0xFF, 0xFF, 0xFF, 0xFF, 0xFF];
    ask("validity FE is invalid", &Ones {}, &boot, &mut bench(&[1], &[2, 3], &state));
}

fn two_readers() {
    println!("\nState::from asks in another order than read_state");
    let mut differ = 0u32;
    for first in 0..=255u8 {
        differ += u32::from(State::from([first]) != read::<1>(&[first]));
        for second in 0..=255u8 {
            differ += u32::from(State::from([first, second]) != read::<2>(&[first, second]));
        }
    }
    println!("- all words of one and two bytes: {differ} read differently");
    println!("- no bytes: {:?} and {:?}", State::from([]), read::<0>(&[]));
}

fn read<const WORD: usize>(word: &[u8]) -> State {
    let supply = Supply::new(0);
    let mut state = word.to_vec();
    let mut aligned = [0; WORD];
    BootLoader::new(BootLoaderConfig {
        active: MemFlash::<1, 1>::new(&mut [], &supply),
        dfu: MemFlash::<1, 1>::new(&mut [], &supply),
        state: MemFlash::<WORD, WORD>::new(&mut state, &supply),
    })
    .read_state(&mut aligned)
    .expect("reads are free")
}

/// A digest that shows what it was fed.
struct Fed(Vec<u8>);

impl Digest for Fed {
    fn new() -> Fed {
        Fed(Vec::new())
    }

    fn update(&mut self, data: impl AsRef<[u8]>) {
        self.0.extend_from_slice(data.as_ref());
    }

    fn finalize(self) -> Vec<u8> {
        self.0
    }
}

fn hash_past_the_end() {
    println!("\nhash reads whole chunks, past the end if need be (request No. 8: only the length asked)");
    let inputs: [(&[u8], u32, usize, usize); 8] = [
        (&[1], 1, 2, 1),
        (&[1, 2, 3], 3, 2, 3),
        (&[1, 2, 3], 3, 4, 3),
        (&[1, 2, 3, 4], 3, 2, 3),
        (&[1, 2, 3], 0, 4, 0),
        (&[1, 2, 3], 4, 2, 4),
        (&[1, 2, 3], 3, 0, 3),
        (&[1, 2, 3], 3, 1, 2),
    ];
    for (dfu, length, chunk, output) in inputs {
        let supply = Supply::new(0);
        let (mut dfu, mut state, mut word) = (dfu.to_vec(), [0xFF; 2], [0]);
        let note = format!("DFU {}, length {length}, chunk {chunk}, output {output}", Hex(&dfu));
        let config = FirmwareUpdaterConfig {
            dfu: MemFlash::<1, 1>::new(&mut dfu, &supply),
            state: MemFlash::<1, 1>::new(&mut state, &supply),
        };
        tell(&note, || {
            let mut updater = BlockingFirmwareUpdater::new(config, &mut word);
            let mut out = vec![0; output];
            let answer = updater.hash::<Fed>(length, &mut vec![0; chunk], &mut out);
            format!("{answer:?}, fed {}", Hex(&out))
        });
    }
}
