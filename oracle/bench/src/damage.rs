//! Inputs that aren't quite of the right form.

use call::random::Random;

/// Bytes that a careless reader may take for something else.
const ODD: [u8; 22] = [
    b' ', b'\t', b'\r', b'\n', b'+', b'-', b'0', b'9', b'/', b':', b'_', b'.', b',', b'x', b'b', b'B', 0,
    0x0B, 0x7F, 0x80, 0xA0, 0xFF,
];

/// Words in a number's place.
const WORDS: [&str; 20] = [
    "0",
    "00",
    "007",
    "16384",
    "16385",
    "0000016384",
    "65536",
    "65537",
    "4294967294",
    "4294967295",
    "4294967296",
    "04294967295",
    "04294967296",
    "42949672950",
    "18446744073709551616",
    "340282366920938463463374607431768211456",
    "+1",
    "-0",
    "1e3",
    "0x10",
];

/// One change to an input.
pub fn damage(random: &mut Random, input: &mut Vec<u8>) {
    match random.below(10) {
        0 => insert_byte(random, input),
        1 => {
            let at = random.below(input.len().max(1));
            input.drain(at..(at + 1).min(input.len()));
        }
        2 => {
            if let Some(byte) = pick_mut(random, input) {
                *byte = *random.pick(&ODD);
            }
        }
        3 => input.truncate(random.below(input.len() + 1)),
        4 => drop_last_line_feed(input),
        5 | 6 => replace_word(random, input),
        7 => pad_line(random, input),
        8 => change_line(random, input),
        _ => add_line(random, input),
    }
}

fn pick_mut<'a>(random: &mut Random, input: &'a mut [u8]) -> Option<&'a mut u8> {
    let at = random.below(input.len().max(1));
    input.get_mut(at)
}

fn insert_byte(random: &mut Random, input: &mut Vec<u8>) {
    // by choice anywhere, or where a word or a line ends
    let ends: Vec<usize> = (0..input.len()).filter(|at| input[*at] == b' ' || input[*at] == b'\n').collect();
    let at = match ends.is_empty() || random.once_in(2) {
        true => random.below(input.len() + 1),
        false => *random.pick(&ends),
    };
    input.insert(at, *random.pick(&ODD));
}

fn drop_last_line_feed(input: &mut Vec<u8>) {
    if input.last() == Some(&b'\n') {
        input.pop();
    }
}

/// Puts another number, or what is nearly one, in a number's place.
fn replace_word(random: &mut Random, input: &mut Vec<u8>) {
    let digit = |at: &usize| input[*at].is_ascii_digit() && (*at == 0 || !input[at - 1].is_ascii_digit());
    let starts: Vec<usize> = (0..input.len()).filter(digit).collect();
    if starts.is_empty() {
        return;
    }
    let from = *random.pick(&starts);
    let length = input[from..].iter().take_while(|byte| byte.is_ascii_digit()).count();
    let word = random.pick(&WORDS).bytes();
    input.splice(from..from + length, word);
}

/// Leading zeros that bring a line to a length around 80, or far above.
fn pad_line(random: &mut Random, input: &mut Vec<u8>) {
    let mut lines = lines_of(input);
    let at = random.below(lines.len());
    let wanted = *random.pick(&[79, 80, 80, 81, 81, 82, 160, 161, 255, 256, 257, 4096, 70_000]);
    let line = &mut lines[at];
    let last_word = line.iter().rposition(|byte| *byte == b' ').map_or(0, |space| space + 1);
    let zeros = vec![b'0'; usize::saturating_sub(wanted, line.len())];
    line.splice(last_word..last_word, zeros);
    *input = lines.join(&b'\n');
}

/// Upper case, a space before or behind, a carriage return, another word, a line twice or not at all.
fn change_line(random: &mut Random, input: &mut Vec<u8>) {
    let mut lines = lines_of(input);
    let at = random.below(lines.len());
    match random.below(8) {
        0 => lines[at].make_ascii_uppercase(),
        1 => lines[at].insert(0, b' '),
        2 => lines[at].push(b' '),
        3 => lines.iter_mut().for_each(|line| line.push(b'\r')),
        4 => lines[at].extend_from_slice(b" 1"),
        5 => lines.insert(at, lines[at].clone()),
        6 => {
            lines.remove(at);
        }
        _ => lines[at] = lines[at].split(|byte| *byte == b' ').next().unwrap_or_default().to_vec(),
    }
    *input = lines.join(&b'\n');
}

/// A line that is no command, and an empty one.
fn add_line(random: &mut Random, input: &mut Vec<u8>) {
    const LINES: [&str; 14] = [
        "",
        " ",
        "revert 3",
        "reboot 3",
        "boots 3",
        "boo 3",
        "boote 3",
        "updated 3",
        "# boot 3",
        "boot3",
        "boot\t3",
        "3 boot",
        "3",
        "boot 3 3",
    ];
    let mut lines = lines_of(input);
    let at = random.below(lines.len() + 1);
    lines.insert(at, random.pick(&LINES).as_bytes().to_vec());
    *input = lines.join(&b'\n');
}

/// The text between line feeds, at least one piece.
fn lines_of(input: &[u8]) -> Vec<Vec<u8>> {
    input.split(|byte| *byte == b'\n').map(<[u8]>::to_vec).collect()
}
