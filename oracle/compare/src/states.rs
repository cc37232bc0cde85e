//! Contents of the state area: fresh, half done, damaged, with gaps and odd marks, magics and near misses.

use call::ZEROS;

use crate::random::Random;
use crate::shapes::Shape;

pub const SWAP: u8 = 0xF0;
pub const MAGICS: [u8; 4] = [0xD0, 0xF0, 0xC0, 0xE0];

/// Bytes that a reader of the state area could take for another.
pub const ODD: [u8; 10] = [0x00, 0xFF, 0xF0, 0xD0, 0xC0, 0xE0, 0x7F, 0xFE, 0x01, 0xA5];

/// Bytes as they are written for the erase value 255, for a flash of either: FF stands for erased, 00 for marked.
pub fn for_value(ev: u32, bytes: &[u8]) -> Vec<u8> {
    let turned = |byte: &u8| if ev == ZEROS && matches!(byte, 0x00 | 0xFF) { !byte } else { *byte };
    bytes.iter().map(turned).collect()
}

/// The Swap magic, and erased elsewhere.
pub fn fresh(shape: &Shape) -> Vec<u8> {
    only_magic(shape, SWAP)
}

/// A state area with `magic`, and erased elsewhere.
pub fn only_magic(shape: &Shape, magic: u8) -> Vec<u8> {
    let mut state = shape.erased_state();
    state[..shape.word()].fill(magic);
    state
}

/// Fresh, with the first `steps` marks done.
pub fn after_steps(shape: &Shape, steps: usize) -> Vec<u8> {
    let mut state = fresh(shape);
    let word = shape.word();
    let end = (2 + steps).min(shape.words());
    state[2 * word..end * word].fill(shape.geometry.marked());
    state
}

/// Any of the kinds above or a mixture; most read Swap, for only those make a boot act.
pub fn random_state(random: &mut Random, shape: &Shape) -> Vec<u8> {
    let steps = likely_steps(random, shape);
    let mut state = after_steps(shape, steps);
    let word = shape.word();
    spoil_magic(random, &mut state[..word]);
    spoil_validity(random, &mut state[word..2 * word], shape.geometry.marked());
    let marks = &mut state[2 * word..];
    match random.below(6) {
        0 | 1 => {}
        2 => gaps(random, marks, word),
        3 => odd_marks(random, marks, shape.geometry.erased()),
        4 => torn_marks(random, marks, word),
        _ => {
            for byte in marks.iter_mut() {
                *byte = *random.pick(&ODD);
            }
        }
    }
    state
}

/// A number of done marks near the places where the rules turn.
fn likely_steps(random: &mut Random, shape: &Shape) -> usize {
    let n = shape.pages();
    let most = shape.words() - 2;
    let places = [0, 1, 2 * n, (2 * n).saturating_sub(1), 2 * n + 1, 4 * n, (4 * n).saturating_sub(1), most];
    match random.below(2) {
        0 => (*random.pick(&places)).min(most),
        _ => random.below(most + 1),
    }
}

fn spoil_magic(random: &mut Random, magic: &mut [u8]) {
    match random.below(12) {
        0 => magic.fill(*random.pick(&MAGICS)),
        1 => {
            // a near miss: one bit of one byte
            magic.fill(*random.pick(&MAGICS));
            let at = random.below(magic.len());
            magic[at] ^= 1 << random.below(8);
        }
        2 => {
            let at = random.below(magic.len());
            magic[at] = *random.pick(&ODD);
        }
        3 => random.fill(magic),
        _ => {}
    }
}

fn spoil_validity(random: &mut Random, validity: &mut [u8], marked: u8) {
    match random.below(10) {
        0 => validity.fill(marked),
        1 => {
            let at = random.below(validity.len());
            validity[at] = *random.pick(&ODD);
        }
        2 => random.fill(validity),
        _ => {}
    }
}

/// Some marks undone before done ones, and done ones beyond.
fn gaps(random: &mut Random, marks: &mut [u8], word: usize) {
    for mark in marks.chunks_mut(word) {
        if random.once_in(4) {
            let byte = if random.once_in(2) { 0xFF } else { 0x00 };
            mark.fill(byte);
        }
    }
}

/// Done bytes that aren't what a mark writes: any byte but the erased one, which a bit of its own keeps away.
fn odd_marks(random: &mut Random, marks: &mut [u8], erased: u8) {
    for byte in marks.iter_mut().filter(|byte| **byte == !erased) {
        if random.once_in(3) {
            *byte = (random.byte() & 0xFE) | (!erased & 1);
        }
    }
}

/// Marks with one byte changed: undone ones that have begun, done ones that show an erased byte.
fn torn_marks(random: &mut Random, marks: &mut [u8], word: usize) {
    for mark in marks.chunks_mut(word) {
        if random.once_in(3) {
            let at = random.below(word);
            mark[at] = if mark[at] == 0xFF { 0x00 } else { 0xFF };
        }
    }
}

/// Every state area over an alphabet, from `from` to the end; the bytes before are as given.
pub fn each_over(alphabet: &[u8], start: &[u8], length: usize, mut visit: impl FnMut(&[u8])) {
    let mut state = start.to_vec();
    state.resize(length, alphabet[0]);
    let mut digits = vec![0usize; length - start.len()];
    loop {
        visit(&state);
        let mut at = 0;
        loop {
            if at == digits.len() {
                return;
            }
            digits[at] += 1;
            if digits[at] < alphabet.len() {
                state[start.len() + at] = alphabet[digits[at]];
                break;
            }
            digits[at] = 0;
            state[start.len() + at] = alphabet[0];
            at += 1;
        }
    }
}

#[cfg(test)]
mod tests {
    use super::*;

    #[test]
    fn odd_marks_are_done_at_both_values() {
        let mut random = Random::new(1);
        for erased in [0xFF, 0x00] {
            let mut marks = vec![!erased; 4000];
            odd_marks(&mut random, &mut marks, erased);
            assert!(marks.iter().all(|byte| *byte != erased));
            assert!(marks.iter().any(|byte| *byte != !erased));
        }
        assert_eq!(for_value(0, &[0xF0, 0xFF, 0x00, 0x7F]), [0xF0, 0x00, 0xFF, 0x7F]);
        assert_eq!(for_value(255, &[0xF0, 0xFF, 0x00]), [0xF0, 0xFF, 0x00]);
    }

    #[test]
    fn all_are_visited_once() {
        let mut seen = std::collections::HashSet::new();
        each_over(&[0, 1, 2], &[9], 4, |state| {
            assert_eq!((state[0], state.len()), (9, 4));
            assert!(seen.insert(state.to_vec()));
        });
        assert_eq!(seen.len(), 27);
        let mut count = 0;
        each_over(&[0, 1], &[9], 1, |_| count += 1);
        assert_eq!(count, 1);
    }
}
