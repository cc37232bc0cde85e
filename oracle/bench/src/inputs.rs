//! All inputs that the program is tried on, section by section.

use call::random::Random;

use crate::damage::damage;
use crate::scripts::{EDGES, NAMES, SHEET, Script, Shape, admitted, life, spoilt};

pub type Section = fn(&mut Random) -> Vec<Vec<u8>>;

pub const SECTIONS: [(&str, Section); 9] = [
    ("the request's example, byte by byte", bytes),
    ("lines and numbers at their limits", limits),
    ("every budget of an update, a revert and a confirmation", budgets),
    ("geometries that a boot refuses", refused),
    ("lives of a device", lives),
    ("damaged scripts", damaged),
    ("noise", noise),
    ("many pages", many_pages),
    ("long inputs and areas", long),
];

fn example() -> Script {
    SHEET.with(&[("update", 3), ("boot", 23), ("boot", 24)])
}

/// The example cut short at each byte, with each byte left out, doubled or replaced.
fn bytes(_: &mut Random) -> Vec<Vec<u8>> {
    let text = example().text();
    let mut all = vec![text.clone()];
    for at in 0..text.len() {
        all.push(text[..at].to_vec());
        all.push([&text[..at], &text[at + 1..]].concat());
        all.push([&text[..=at], &text[at..]].concat());
        for byte in [b' ', b'\n', b'\r', b'+', b'-', b'0', b'b', 0, 0xFF] {
            let mut other = text.clone();
            other[at] = byte;
            all.push(other);
        }
    }
    all
}

/// Lines of the input, each ended with a line feed.
fn joined(lines: &[&str]) -> Vec<u8> {
    lines.iter().flat_map(|line| [line.as_bytes(), b"\n"].concat()).collect()
}

const FIRST: &str = "4 2 4 2 16 1 2";
const SECOND: &str = "12 16 16";

fn limits(_: &mut Random) -> Vec<Vec<u8>> {
    let lengths = (70..=90).chain([127, 128, 129, 255, 256, 257, 1024, 4096, 65_536, 100_000]);
    let mut all: Vec<Vec<u8>> = lengths.flat_map(lines_of_length).collect();
    all.extend(numbers().iter().flat_map(|number| number_everywhere(number)));
    for line in ODD_LINES {
        all.push(joined(&[line]));
        all.push(joined(&[line, SECOND, "boot 3"]));
        all.push(joined(&[FIRST, line, "boot 3"]));
        all.push(joined(&[FIRST, SECOND, line, "boot 3"]));
        all.push([joined(&[FIRST, SECOND, "update 3"]), line.as_bytes().to_vec()].concat());
    }
    all
}

/// Each line of the input brought to a length, mostly by leading zeros.
fn lines_of_length(length: usize) -> Vec<Vec<u8>> {
    let zeros = |taken: usize| "0".repeat(length - taken);
    let padded = |line: &str| zeros(line.len()) + line;
    let long = |name: &str| format!("{name} {}3", zeros(name.len() + 2));
    let mut all = vec![
        joined(&[&padded(FIRST), SECOND, "update 3"]),
        joined(&[FIRST, &padded(SECOND), "update 3"]),
        joined(&[FIRST, SECOND, &" ".repeat(length)]),
        joined(&[FIRST, SECOND, &"boot 3 ".repeat(length / 7 + 1)[..length]]),
    ];
    for name in NAMES {
        all.push(joined(&[FIRST, SECOND, "update 3", &long(name), "boot 4"]));
        all.push([joined(&[FIRST, SECOND]), long(name).into_bytes()].concat());
    }
    all
}

/// A number, or what is nearly one, in every place for a number.
fn number_everywhere(number: &str) -> Vec<Vec<u8>> {
    let mut all = Vec::new();
    for name in NAMES {
        all.push(joined(&[FIRST, SECOND, "update 3", &format!("{name} {number}"), "boot 4"]));
    }
    for at in 0..7 {
        all.push(joined(&[&with_word(FIRST, at, number), SECOND, "update 3", "boot 9"]));
    }
    for at in 0..3 {
        all.push(joined(&[FIRST, &with_word(SECOND, at, number), "update 3", "boot 9"]));
    }
    all
}

/// Lines that are nearly right in one place of the input and wrong in all others.
const ODD_LINES: [&str; 24] = [
    "",
    " ",
    "\r",
    FIRST,
    "4 2 4 2 16 1",
    "4 2 4 2 16 1 2 2",
    " 4 2 4 2 16 1 2",
    "4 2 4 2 16 1 2 ",
    "4 2  4 2 16 1 2",
    "4\t2 4 2 16 1 2",
    "4 2 4 2 16 1 2\r",
    "4,2,4,2,16,1,2",
    SECOND,
    "12 16",
    "12 16 16 16",
    "12 16 16\r",
    "boot",
    "boot ",
    "boot  3",
    " boot 3",
    "boot 3 ",
    "Boot 3",
    "BOOT 3",
    "boot +3",
];

fn with_word(line: &str, at: usize, word: &str) -> String {
    let mut words: Vec<&str> = line.split(' ').collect();
    words[at] = word;
    words.join(" ")
}

/// Numbers and what is nearly one.
fn numbers() -> Vec<String> {
    let mut all: Vec<String> = EDGES.iter().map(u32::to_string).collect();
    all.extend(["16383", "16385", "1048576", "1048577"].map(String::from));
    all.extend(["", "-", "+", "+4", "-4", "-0", "4.", "4e0", "0x4", "٤", "a"].map(String::from));
    all.extend(["00", "0004", "0000000000000000000004", "00000000004294967295"].map(String::from));
    for shift in [31, 32, 33, 63, 64, 65] {
        all.extend([(1_u128 << shift) - 1, 1 << shift, (1 << shift) + 4].map(|n| n.to_string()));
    }
    // past 64 and 128 bits a sum that wraps comes to small numbers again
    all.extend(["340282366920938463463374607431768211460", "9".repeat(60).as_str()].map(String::from));
    all
}

/// Shapes whose every budget is tried: the sheet, that with no word more than its marks want, one with erase units below the page,
/// long words, no page.
fn budgets(random: &mut Random) -> Vec<Vec<u8>> {
    let mut few = SHEET;
    (few.geometry.es, few.lengths[2]) = (15, 15);
    let mut shapes = vec![SHEET, few];
    let mut small = SHEET;
    (small.geometry.ea, small.geometry.ed) = (8, 2);
    small.lengths = [16, 24, 32];
    shapes.push(small);
    (small.geometry.ea, small.geometry.ed, small.geometry.es) = (2, 8, 4);
    shapes.push(small);
    shapes.push(Shape { lengths: [0, 4, 16], ..SHEET });
    shapes.extend((0..14).map(|_| admitted(random, 3)));
    let mut all = Vec::new();
    for shape in shapes {
        let plenty = shape.plenty();
        for budget in budgets_up_to(plenty) {
            all.push(shape.with(&[("update", 9999), ("boot", budget)]));
            all.push(shape.with(&[("update", 9999), ("boot", budget), ("boot", plenty)]));
            let revert = [("update", 9999), ("boot", plenty), ("boot", budget)];
            all.push(shape.with(&revert));
            all.push(shape.with(&[&revert[..], &[("boot", plenty), ("boot", plenty)]].concat()));
        }
        let marks = shape.lengths[2] as u32 / shape.geometry.es + 4;
        for budget in 0..marks.min(24) {
            let confirm = [("update", 9999), ("boot", plenty), ("booted", budget)];
            all.push(shape.with(&confirm));
            all.push(shape.with(&[&confirm[..], &[("booted", 9999), ("boot", plenty)]].concat()));
            all.push(shape.with(&[("update", budget)]));
            all.push(shape.with(&[("update", budget), ("update", 9999), ("boot", plenty)]));
        }
    }
    all.iter().map(Script::text).collect()
}

/// Every budget of a short run; of a long one every few and the last ones.
fn budgets_up_to(plenty: u32) -> Vec<u32> {
    let step = 1 + plenty / 40;
    let mut all: Vec<u32> = (0..plenty).step_by(step as usize).collect();
    all.extend(plenty.saturating_sub(6)..=plenty + 1);
    all.sort_unstable();
    all.dedup();
    all
}

fn refused(random: &mut Random) -> Vec<Vec<u8>> {
    (0..400)
        .map(|_| {
            let (shape, commands) = (spoilt(random), random.below(5));
            life(random, shape, commands).text()
        })
        .collect()
}

fn lives(random: &mut Random) -> Vec<Vec<u8>> {
    (0..500)
        .map(|_| {
            let (shape, commands) = (admitted(random, 5), random.below(30));
            life(random, shape, commands).text()
        })
        .collect()
}

fn damaged(random: &mut Random) -> Vec<Vec<u8>> {
    (0..1200)
        .map(|_| {
            let (shape, commands) = (admitted(random, 3), random.below(6));
            let mut text = life(random, shape, commands).text();
            for _ in 0..1 + random.below(3) {
                damage(random, &mut text);
            }
            text
        })
        .collect()
}

/// Bytes of any kind, bytes of the input's own alphabet, and noise behind a good beginning.
fn noise(random: &mut Random) -> Vec<Vec<u8>> {
    const ALPHABET: &[u8] = b"0123456789  \n\nbootedupdate";
    let mut all = Vec::new();
    for round in 0..200 {
        let length = if round == 0 { 100_000 } else { random.below(300) };
        let mut bytes = random.bytes(length);
        if round % 2 == 1 {
            bytes.iter_mut().for_each(|byte| *byte = ALPHABET[*byte as usize % ALPHABET.len()]);
        }
        if round % 4 > 1 {
            bytes.splice(0..0, example().text());
        }
        all.push(bytes);
    }
    all.extend([vec![0; 81], vec![b'\n'; 5000], vec![b'4'; 1_000_000], vec![0xFF; 80]]);
    all
}

/// More pages than a byte counts, so that the fill goes round.
fn many_pages(random: &mut Random) -> Vec<Vec<u8>> {
    let mut all = Vec::new();
    for pages in [100, 126, 127, 128, 254, 255, 256, 300] {
        for page in [1, 4] {
            let mut shape = SHEET;
            let g = &mut shape.geometry;
            (g.ea, g.ed, g.wa, g.wd, g.b) = (page as u32, page as u32, 1, 1, page as u32);
            shape.lengths = [pages * page, (pages + 2) * page, (4 * pages + 3).next_multiple_of(16)];
            let plenty = shape.plenty();
            let cut = random.below(plenty as usize) as u32;
            all.push(shape.with(&[]).text());
            all.push(shape.with(&[("update", 9999), ("boot", cut)]).text());
            all.push(shape.with(&[("update", 9999), ("boot", cut), ("boot", plenty), ("boot", cut)]).text());
        }
    }
    all
}

/// The longest areas, and thousands of commands.
fn long(random: &mut Random) -> Vec<Vec<u8>> {
    let mut all = Vec::new();
    let mut shape = SHEET;
    (shape.geometry.ea, shape.geometry.ed, shape.geometry.b) = (1024, 1024, 256);
    shape.lengths = [15 * 1024, 16 * 1024, 16_384];
    let plenty = shape.plenty();
    all.push(shape.with(&[("update", 9999), ("boot", plenty / 3), ("boot", plenty)]).text());
    all.push(life(random, shape, 40).text());
    // the longest of each, and a boot that refuses them
    shape.lengths = [16_384; 3];
    all.push(shape.with(&[("update", 9999), ("boot", plenty)]).text());
    // one page only: a page of 8,192 in one piece
    (shape.geometry.ea, shape.geometry.ed, shape.geometry.b) = (8192, 4096, 8192);
    shape.lengths = [8192, 16_384, 16];
    all.push(shape.with(&[("update", 9999), ("boot", 3), ("boot", 99), ("boot", 5), ("boot", 99)]).text());
    for commands in [1000, 1001, 5000, 20_000] {
        let mut script = life(random, SHEET, commands);
        all.push(script.text());
        script.shape = spoilt(random);
        all.push(script.text());
        let text = life(random, SHEET, commands).text();
        all.push([&text[..], b"boot\n", &text[..]].concat());
    }
    all
}
