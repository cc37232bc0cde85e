//! Every call through the wrapper, compared with document 01's bench sheet: the slices, sizes and parts of a result must arrive where
//! the library expects them. Expected values are the paper's; where the erase value is 0, FF and 00 are exchanged in them.

use std::error::Error;

use embassy_boot_rattle::{
    Answer, BootLoader, ERASES_TO_ONES, ERASES_TO_ZEROS, FOREVER, Finished, FirmwareState, FirmwareUpdater,
    Geometry, Refusal, Sizes, State, Stopped,
};

const SHEET: Geometry = Geometry { ea: 4, wa: 2, ed: 4, wd: 2, es: 16, ws: 1, b: 2, ev: ERASES_TO_ONES };
/// The same flash, erased to 00.
const ZERO: Geometry = Geometry { ev: ERASES_TO_ZEROS, ..SHEET };
const LOADER: BootLoader = BootLoader::new(SHEET);
const FIRMWARE: FirmwareState = SHEET.firmware_state();
const SIZES: Sizes = SHEET.sizes();

fn pages(bytes: &[u8]) -> Vec<u8> {
    bytes.iter().flat_map(|byte| [*byte; 4]).collect()
}

fn runs(list: &[(usize, u8)]) -> Vec<u8> {
    list.iter().flat_map(|(count, byte)| vec![*byte; *count]).collect()
}

/// The sheet's three areas.
#[derive(Clone, PartialEq, Debug)]
struct Bench {
    active: Vec<u8>,
    dfu: Vec<u8>,
    state: Vec<u8>,
}

fn bench(active: &[u8], dfu: &[u8], state: &[(usize, u8)]) -> Bench {
    Bench { active: pages(active), dfu: pages(dfu), state: runs(state) }
}

fn start() -> Bench {
    bench(&[1, 2, 3], &[4, 5, 6, 7], &[(1, 0xF0), (15, 0xFF)])
}

fn swapped() -> Bench {
    bench(&[4, 5, 6], &[4, 1, 2, 3], &[(1, 0xF0), (1, 0xFF), (6, 0), (8, 0xFF)])
}

fn reverted() -> Bench {
    bench(&[1, 2, 3], &[4, 5, 6, 3], &[(1, 0xC0), (15, 0xFF)])
}

impl Bench {
    fn boot(&mut self, budget: u32) -> Answer {
        LOADER.prepare_boot(&mut self.active, &mut self.dfu, &mut self.state, budget)
    }
}

#[test]
fn a_swap_and_its_revert() {
    let mut x = start();
    assert_eq!(x.boot(24), Answer::Found(State::Swap, 24));
    assert_eq!(x, swapped());
    assert_eq!(x.boot(FOREVER), Answer::Found(State::Swap, 27));
    assert_eq!(x, reverted());
    assert_eq!(LOADER.read_state(&x.state), Answer::Found(State::Revert, 0));
}

#[test]
fn cuts() {
    let mut b = start();
    assert_eq!(b.boot(23), Answer::Cut(23));
    assert_eq!(b, Bench { state: runs(&[(1, 0xF0), (1, 0xFF), (5, 0), (9, 0xFF)]), ..swapped() });
    let mut d = start();
    assert_eq!(d.boot(1), Answer::Cut(1));
    assert_eq!(d, bench(&[1, 2, 3], &[4, 5, 6, 0xFF], &[(1, 0xF0), (15, 0xFF)]));
    let mut e = start();
    assert_eq!(e.boot(0), Answer::Cut(0));
    assert_eq!(e, start());
    let mut i = swapped();
    assert_eq!(i.boot(26), Answer::Cut(26));
    assert_eq!(i.boot(FOREVER), Answer::Found(State::Boot, 0));
    assert_eq!(i, Bench { state: runs(&[(16, 0xFF)]), ..reverted() });
}

#[test]
fn refusals_of_a_boot() {
    let refused = |change: fn(&mut Geometry)| {
        let mut x = start();
        let mut loader = LOADER;
        change(&mut loader.0);
        let answer = loader.prepare_boot(&mut x.active, &mut x.dfu, &mut x.state, FOREVER);
        assert_eq!(x, start());
        answer
    };
    // one change for each of the eight numbers
    assert_eq!(refused(|g| g.ea = 65_537), Answer::Refused(Refusal::Limit));
    assert_eq!(refused(|g| g.wa = 3), Answer::Refused(Refusal::Page));
    assert_eq!(refused(|g| g.ed = 8), Answer::Refused(Refusal::Area));
    assert_eq!(refused(|g| g.wd = 4), Answer::Refused(Refusal::Page));
    assert_eq!(refused(|g| g.es = 12), Answer::Refused(Refusal::StateArea));
    assert_eq!(refused(|g| g.ws = 2), Answer::Refused(Refusal::StateArea));
    assert_eq!(refused(|g| g.b = 1), Answer::Refused(Refusal::Page));
    assert_eq!(refused(|g| g.ev = 254), Answer::Refused(Refusal::Limit));
}

/// Every call reads the erase value: 255 and 0 are admitted, any other number is refusal 1, whatever else is wrong.
#[test]
fn other_erase_values() {
    for ev in [1, 127, 128, 254, 256, 511, 65_535, 65_536, u32::MAX] {
        let (mut x, no) = (start(), Answer::Refused(Refusal::Limit));
        let geometry = Geometry { ev, ..SHEET };
        let loader = BootLoader::new(geometry);
        assert_eq!(loader.prepare_boot(&mut x.active, &mut x.dfu, &mut x.state, FOREVER), no);
        assert_eq!(loader.read_state(&x.state), no);
        let firmware = geometry.firmware_state();
        assert_eq!(firmware.get_state(&x.state), no);
        assert_eq!(firmware.mark_updated(&mut x.state, FOREVER), no);
        assert_eq!(firmware.mark_dfu(&mut x.state, FOREVER), no);
        assert_eq!(firmware.mark_booted(&mut x.state, FOREVER), no);
        let mut updater = FirmwareUpdater::new(geometry.sizes());
        let mut out = [7; 2];
        assert_eq!(updater.get_state(&x.dfu, &x.state), no);
        assert_eq!(updater.mark_updated(&x.dfu, &mut x.state, FOREVER), no);
        assert_eq!(updater.mark_dfu(&x.dfu, &mut x.state, FOREVER), no);
        assert_eq!(updater.mark_booted(&x.dfu, &mut x.state, FOREVER), no);
        assert_eq!(updater.check_and_mark_updated(&x.dfu, &mut x.state, 99, 1, FOREVER), no);
        assert_eq!(updater.hash(&x.dfu, &x.state, 99, 0, &mut out), no);
        assert_eq!(updater.read_dfu(&x.dfu, &x.state, 0, &mut out), no);
        assert_eq!(updater.write_firmware(&mut x.dfu, &x.state, 1, &[1, 2], FOREVER), no);
        assert_eq!(updater.prepare_update(&mut x.dfu, &x.state, FOREVER), no);
        assert_eq!((x, out, updater.last_erased()), (start(), [7; 2], None));
        let short = Geometry { b: 3, es: 12, ..geometry };
        let mut y = start();
        let answer = BootLoader::new(short).prepare_boot(&mut y.active, &mut y.dfu, &mut y.state, FOREVER);
        assert_eq!(answer, no);
    }
}

/// Flash that erases to 00: a swap and its revert, cut and whole.
#[test]
fn boots_at_zero() {
    let loader = BootLoader::new(ZERO);
    let boot = |x: &mut Bench, budget| loader.prepare_boot(&mut x.active, &mut x.dfu, &mut x.state, budget);
    let fresh = bench(&[1, 2, 3], &[4, 5, 6, 7], &[(1, 0xF0), (15, 0)]);
    let mut x = fresh.clone();
    assert_eq!(boot(&mut x, 0), Answer::Cut(0));
    assert_eq!(x, fresh);
    assert_eq!(boot(&mut x, 1), Answer::Cut(1));
    assert_eq!(x, bench(&[1, 2, 3], &[4, 5, 6, 0], &[(1, 0xF0), (15, 0)]));
    assert_eq!(boot(&mut x, 4), Answer::Cut(4));
    assert_eq!(x, bench(&[1, 2, 3], &[4, 5, 6, 3], &[(1, 0xF0), (1, 0), (1, 0xFF), (13, 0)]));
    assert_eq!(boot(&mut x, FOREVER), Answer::Found(State::Swap, 20));
    assert_eq!(x, bench(&[4, 5, 6], &[4, 1, 2, 3], &[(1, 0xF0), (1, 0), (6, 0xFF), (8, 0)]));
    assert_eq!(boot(&mut x, 25), Answer::Cut(25));
    assert_eq!(x, bench(&[1, 2, 3], &[4, 5, 6, 3], &[(1, 0xF0), (13, 0xFF), (2, 0)]));
    assert_eq!(boot(&mut x, 3), Answer::Found(State::Swap, 3));
    assert_eq!(x, bench(&[1, 2, 3], &[4, 5, 6, 3], &[(1, 0xC0), (15, 0)]));
    assert_eq!(loader.read_state(&x.state), Answer::Found(State::Revert, 0));
    // a state area in the other flash's colours: nothing in it is erased, so the progress is invalid, and every mark is done
    let mut other = start();
    assert_eq!(boot(&mut other, FOREVER), Answer::Found(State::Swap, 3));
    assert_eq!(other, bench(&[1, 2, 3], &[4, 5, 6, 7], &[(1, 0xC0), (15, 0)]));
}

/// Flash that erases to 00: marks and an update.
#[test]
fn an_update_at_zero() {
    let firmware = ZERO.firmware_state();
    let mut state = vec![0; 16];
    assert_eq!(firmware.mark_updated(&mut state, 1), Answer::Cut(1));
    assert_eq!(state, runs(&[(1, 0), (1, 0xFF), (14, 0)]));
    assert_eq!(firmware.mark_updated(&mut state, 2), Answer::Done(2));
    assert_eq!(state, runs(&[(1, 0xF0), (15, 0)]));
    assert_eq!(firmware.get_state(&state), Answer::Found(State::Swap, 0));
    assert_eq!(firmware.mark_dfu(&mut state, FOREVER), Answer::Done(3));
    assert_eq!(firmware.mark_booted(&mut state, FOREVER), Answer::Done(3));
    assert_eq!(state, runs(&[(1, 0xD0), (15, 0)]));

    let mut updater = FirmwareUpdater::new(ZERO.sizes());
    let mut dfu = vec![0xFF; 16];
    assert_eq!(updater.write_firmware(&mut dfu, &state, 2, &[1, 2, 3, 4], 4), Answer::Done(4));
    assert_eq!(dfu[..8], [0, 0, 1, 2, 3, 4, 0, 0]);
    assert_eq!(updater.last_erased(), Some(1));
    // the sector is not erased again, and bits only rise
    assert_eq!(updater.write_firmware(&mut dfu, &state, 4, &[0x30, 0x07], FOREVER), Answer::Done(1));
    let mut out = [9; 4];
    assert_eq!(updater.read_dfu(&dfu, &state, 4, &mut out), Answer::Done(0));
    assert_eq!(out, [0x33, 0x07, 0, 0]);
    assert_eq!(updater.prepare_update(&mut dfu, &state, 2), Answer::Cut(2));
    assert_eq!(dfu, runs(&[(8, 0), (8, 0xFF)]));
    assert_eq!(updater.mark_dfu(&dfu, &mut state, FOREVER), Answer::Done(3));
    assert_eq!(updater.mark_updated(&dfu, &mut state, 1), Answer::Cut(1));
    assert_eq!(state, runs(&[(1, 0xE0), (1, 0xFF), (14, 0)]));
    assert_eq!(updater.mark_updated(&dfu, &mut state, FOREVER), Answer::Done(2));
    assert_eq!(updater.get_state(&dfu, &state), Answer::Found(State::Swap, 0));
    assert_eq!(updater.mark_booted(&dfu, &mut state, FOREVER), Answer::Done(3));
    assert_eq!(state, runs(&[(1, 0xD0), (15, 0)]));
}

#[test]
fn marks_of_the_firmware_state() {
    let mut state = vec![0xFF; 16];
    assert_eq!(FIRMWARE.mark_updated(&mut state, 3), Answer::Done(3));
    assert_eq!(FIRMWARE.mark_updated(&mut state, 0), Answer::Done(0));
    assert_eq!(FIRMWARE.get_state(&state), Answer::Found(State::Swap, 0));
    assert_eq!(FIRMWARE.mark_dfu(&mut state, FOREVER), Answer::Done(3));
    assert_eq!(LOADER.read_state(&state), Answer::Found(State::DfuDetach, 0));
    assert_eq!(FIRMWARE.mark_booted(&mut state, FOREVER), Answer::Done(3));
    assert_eq!(state, runs(&[(1, 0xD0), (15, 0xFF)]));
    let turned = FirmwareState { es: 1, ws: 16, ..FIRMWARE };
    assert_eq!(turned.get_state(&state), Answer::Refused(Refusal::StateArea));
}

#[test]
fn an_update() {
    let mut updater = FirmwareUpdater::new(SIZES);
    let (mut dfu, mut state) = (vec![0; 16], vec![0xFF; 16]);
    assert_eq!(updater.last_erased(), None);
    assert_eq!(updater.write_firmware(&mut dfu, &state, 2, &[1, 2, 3, 4], 4), Answer::Done(4));
    assert_eq!(dfu, [0xFF, 0xFF, 1, 2, 3, 4, 0xFF, 0xFF, 0, 0, 0, 0, 0, 0, 0, 0]);
    assert_eq!(updater.last_erased(), Some(1));
    assert_eq!(updater.write_firmware(&mut dfu, &state, 0, &[9, 9], FOREVER), Answer::Done(2));
    assert_eq!(dfu[..8], [9, 9, 0xFF, 0xFF, 3, 4, 0xFF, 0xFF]);
    assert_eq!(updater.last_erased(), Some(0));
    for offset in [1, 1 << 32, u64::MAX - 1] {
        let answer = updater.write_firmware(&mut dfu, &state, offset, &[1, 1], FOREVER);
        assert_eq!(answer, Answer::Refused(Refusal::Range));
    }
    assert_eq!(updater.write_firmware(&mut dfu, &state, 1, &[], FOREVER), Answer::Done(0));
    assert_eq!(updater.write_firmware(&mut dfu, &state, 8, &[1, 1], 1), Answer::Cut(1));
    assert_eq!(updater.last_erased(), Some(2));

    let mut out = [7; 3];
    assert_eq!(updater.read_dfu(&dfu, &state, 3, &mut out), Answer::Done(0));
    assert_eq!(out, [0xFF, 3, 4]);
    assert_eq!(updater.read_dfu(&dfu, &state, 14, &mut out), Answer::Refused(Refusal::Range));
    assert_eq!(out, [0xFF, 3, 4]);

    assert_eq!(updater.prepare_update(&mut dfu, &state, 0), Answer::Cut(0));
    assert_eq!(updater.prepare_update(&mut dfu, &state, 1), Answer::Cut(1));
    assert_eq!(dfu[..8], [0xFF, 0xFF, 0xFF, 0xFF, 3, 4, 0xFF, 0xFF]);
    assert_eq!(updater.prepare_update(&mut dfu, &state, 4), Answer::Done(4));
    assert_eq!(dfu, [0xFF; 16]);
    assert_eq!(updater.last_erased(), Some(2));

    assert_eq!(updater.mark_dfu(&dfu, &mut state, FOREVER), Answer::Done(3));
    assert_eq!(updater.get_state(&dfu, &state), Answer::Found(State::DfuDetach, 0));
    assert_eq!(updater.mark_updated(&dfu, &mut state, FOREVER), Answer::Done(3));
    assert_eq!(updater.get_state(&dfu, &state), Answer::Found(State::Swap, 0));
    assert_eq!(updater.mark_dfu(&dfu, &mut state, FOREVER), Answer::Refused(Refusal::BadState));
    assert_eq!(updater.prepare_update(&mut dfu, &state, FOREVER), Answer::Refused(Refusal::BadState));
    let answer = updater.write_firmware(&mut dfu, &state, 0, &[1, 1], FOREVER);
    assert_eq!(answer, Answer::Refused(Refusal::BadState));
    assert_eq!(updater.last_erased(), Some(2));
    assert_eq!(updater.mark_booted(&dfu, &mut state, FOREVER), Answer::Done(3));
    assert_eq!(updater.get_state(&dfu, &state), Answer::Found(State::Boot, 0));
    assert_eq!(updater.get_state(&dfu[..15], &state), Answer::Refused(Refusal::Area));
}

/// A sum before marking: of no bytes, of a byte, of a sector, the published one and that of all of DFU, as python3's zlib has them.
#[test]
fn sums() {
    let rows = [(0, 0), (1, 0x83DC_EFB7), (4, 0x9BE3_E0A3), (9, 0xCBF4_3926), (16, 0x31C2_F5B4)];
    let dfu = *b"123456789 beyond";
    for (geometry, (length, crc)) in [SHEET, ZERO].into_iter().flat_map(|g| rows.map(|row| (g, row))) {
        let updater = FirmwareUpdater::new(geometry.sizes());
        let erased = vec![geometry.ev as u8; 16];
        let mut state = erased.clone();
        let mut check = |crc, budget| {
            let answer = updater.check_and_mark_updated(&dfu, &mut state, length, crc, budget);
            (answer, state.clone())
        };
        for bit in 0..32 {
            assert_eq!(check(crc ^ 1 << bit, FOREVER), (Answer::Refused(Refusal::Checksum), erased.clone()));
        }
        assert_eq!(check(crc, 0), (Answer::Cut(0), erased.clone()));
        assert_eq!(check(crc, 1).0, Answer::Cut(1));
        assert_eq!(check(crc, 2), (Answer::Done(2), runs(&[(1, 0xF0), (15, geometry.ev as u8)])));
        // the state reads Swap now, and that is asked first
        assert_eq!(check(!crc, FOREVER).0, Answer::Refused(Refusal::BadState));
    }
    let updater = FirmwareUpdater::new(SIZES);
    for length in [17, 1 << 32, (1 << 32) + 9, u64::MAX] {
        let mut state = [0xFF; 16];
        let answer = updater.check_and_mark_updated(&dfu, &mut state, length, 0xCBF4_3926, FOREVER);
        assert_eq!((answer, state), (Answer::Refused(Refusal::Range), [0xFF; 16]));
    }
    let answer = updater.check_and_mark_updated(&dfu[..15], &mut [0xFF; 16], 9, 0xCBF4_3926, FOREVER);
    assert_eq!(answer, Answer::Refused(Refusal::Area));
}

/// The digest of so many bytes of an area that is a little longer, in pieces of a chunk; the state reads Swap, which isn't asked.
fn digest(message: &[u8], chunk: u64) -> String {
    let sizes = Sizes { ed: 100, wd: 1, ..SIZES };
    let mut dfu = message.to_vec();
    dfu.resize((message.len() + 1).next_multiple_of(100), 0x5A);
    let mut out = [0; 64];
    let answer = FirmwareUpdater::new(sizes).hash(&dfu, &[0xF0; 16], message.len() as u64, chunk, &mut out);
    assert_eq!(answer, Answer::Done(0));
    out.iter().map(|byte| format!("{byte:02x}")).collect()
}

/// The examples of FIPS 180-4, in some chunks, and the one of 896 bits in every chunk up to 200.
#[test]
fn digests() {
    let long = b"abcdefghbcdefghicdefghijdefghijkefghijklfghijklmghijklmnhijklmnoijklmnopjklmnopqklmnopqrlmnopqrsmnopqrstnopqrstu";
    let million = vec![b'a'; 1_000_000];
    let vectors: [(&[u8], &str); 4] = [
        (
            b"",
            "cf83e1357eefb8bdf1542850d66d8007d620e4050b5715dc83f4a921d36ce9ce47d0d13c5d85f2b0ff8318d2877eec2f63b931bd47417a81a538327af927da3e",
        ),
        (
            b"abc",
            "ddaf35a193617abacc417349ae20413112e6fa4e89a97ea20a9eeee64b55d39a2192992a274fc1a836ba3c23a3feebbd454d4423643ce80e2a9ac94fa54ca49f",
        ),
        (
            long,
            "8e959b75dae313da8cf4f72814fc143f8f7779c6eb9f7fa17299aeadb6889018501d289e4900f7e4331b99dec4b5433ac7d329eeb6dd26545e96e55b874be909",
        ),
        (
            &million,
            "e718483d0ce769644e2e42c7bc15b4638e1f98b13b2044285632a803afa973ebde0ff244877ea60a4cb0432ce577c31beb009c5c2c49aa2e4eadb217ad8cc09b",
        ),
    ];
    for (message, expected) in vectors {
        for chunk in [1, 2, 64, 128, 4096, 1 << 32, u64::MAX] {
            assert_eq!(digest(message, chunk), expected);
        }
    }
    for chunk in 1..=200 {
        assert_eq!(digest(long, chunk), vectors[2].1);
    }
}

#[test]
fn refused_digests() {
    let updater = FirmwareUpdater::new(SIZES);
    for (length, chunk, output) in [
        (17, 1, 64),
        (1 << 32, 1, 64),
        (u64::MAX, 1, 64),
        (3, 0, 64),
        (0, 0, 64),
        (3, 1, 63),
        (3, 1, 65),
        (0, 1, 0),
    ] {
        let mut out = vec![7; output];
        let answer = updater.hash(&[1; 16], &[0xFF; 16], length, chunk, &mut out);
        assert_eq!((answer, out), (Answer::Refused(Refusal::Range), vec![7; output]));
    }
    let mut out = [7; 64];
    assert_eq!(updater.hash(&[1; 15], &[0xFF; 16], 3, 1, &mut out), Answer::Refused(Refusal::Area));
    assert_eq!(updater.hash(&[1; 16], &[0xFF; 1], 3, 1, &mut out), Answer::Refused(Refusal::StateArea));
    assert_eq!(out, [7; 64]);
}

#[test]
fn states_of_words() {
    assert_eq!(State::from_bytes(&[0xF0, 0xF0, 0xF0, 0xFF]), State::Boot);
    assert_eq!(State::from_bytes(&[0xF0, 0xF0]), State::Swap);
    assert_eq!(State::from_bytes(&[0xC0]), State::Revert);
    assert_eq!(State::from_bytes(&[0xE0; 3]), State::DfuDetach);
    assert_eq!(State::from_bytes(&[]), State::Swap);
}

#[test]
fn parts_of_a_geometry() {
    let geometry = Geometry { ea: 1, wa: 2, ed: 3, wd: 4, es: 5, ws: 6, b: 7, ev: 8 };
    assert_eq!(geometry.sizes(), Sizes { ed: 3, wd: 4, es: 5, ws: 6, ev: 8 });
    assert_eq!(geometry.firmware_state(), FirmwareState { es: 5, ws: 6, ev: 8 });
}

#[test]
fn answers_as_results_and_texts() {
    let done = Result::from(Answer::Done(3));
    assert_eq!(done, Ok(Finished { state: None, operations: 3 }));
    let refusals = [
        (Refusal::Limit, 1),
        (Refusal::Page, 2),
        (Refusal::Area, 3),
        (Refusal::StateArea, 4),
        (Refusal::BadState, 5),
        (Refusal::Range, 6),
        (Refusal::Checksum, 8),
    ];
    for (refusal, number) in refusals {
        let answer = Answer::Refused(refusal);
        assert_eq!(answer.result(), Err(Stopped::Refused(refusal)));
        assert_eq!(refusal.number(), number);
        assert!(answer.to_string().starts_with(&format!("refused with {number}: ")));
    }
    assert_eq!(Answer::Found(State::DfuDetach, 0).to_string(), "done, found DfuDetach, 0 operations");
    assert_eq!(Answer::Done(3).to_string(), "done, 3 operations");
    let error: Box<dyn Error> = Answer::Cut(23).result().unwrap_err().into();
    assert_eq!(error.to_string(), "cut after 23 operations");
}
