//! prepare_boot: every budget, from states of every kind.

use call::{Bench, Call, ERASE_VALUES, Geometry, Kind, Original, number_of};

use crate::judge::Judge;
use crate::random::Random;
use crate::shapes::{Shape, all_shapes, random_shape, row};
use crate::states::{self, MAGICS, each_over, for_value};

pub fn boot(geometry: Geometry) -> Call<'static> {
    Call::of(Kind::PrepareBoot, geometry)
}

/// The smallest geometries with every state area over a small alphabet, every budget; at both erase values.
pub fn exhaustive(judge: &mut Judge, random: &mut Random) {
    for ev in ERASE_VALUES {
        exhaustive_at(judge, random, ev);
    }
}

/// Starts and alphabets are written for 255; at 0 their FF and 00 are exchanged.
fn exhaustive_at(judge: &mut Judge, random: &mut Random, ev: u32) {
    let byte_words = row([1, 1, 1, 1, 1, 1], ev);
    // no page: three to five words, all ten odd bytes or the four that matter
    each_shape_over(judge, random, byte_words, [1, 0, 1, 3], &[], &states::ODD);
    each_shape_over(judge, random, byte_words, [1, 0, 2, 5], &[], &[0x00, 0xFF, 0xF0, 0xC0]);
    // one page: 4N + 3 words, the fewest, and more; a word less is refused
    each_shape_over(judge, random, byte_words, [1, 1, 2, 6], &[0xF0], &[0x00, 0xFF]);
    each_shape_over(judge, random, byte_words, [1, 1, 2, 7], &[], &[0x00, 0xFF, 0xF0]);
    each_shape_over(judge, random, byte_words, [1, 1, 2, 7], &[0xF0], &[0x00, 0xFF, 0xF0, 0x7F]);
    each_shape_over(judge, random, byte_words, [1, 1, 3, 8], &[0xF0], &[0x00, 0xFF, 0x01]);
    // two pages
    each_shape_over(judge, random, byte_words, [1, 2, 3, 11], &[0xF0, 0xFF], &[0x00, 0xFF, 0x5A]);
    // three pages on the sheet's numbers, and the shortest state area
    let fewest = row([4, 2, 4, 2, 15, 1], ev);
    each_shape_over(judge, random, fewest, [2, 3, 4, 15], &[0xF0, 0xFF], &[0x00, 0xFF]);
    // words of two and three bytes, so that a mark or a magic can be half there
    let two = row([2, 1, 2, 1, 2, 2], ev);
    each_shape_over(judge, random, two, [2, 0, 1, 3], &[], &[0x00, 0xFF, 0xF0, 0xC0]);
    each_shape_over(judge, random, two, [2, 1, 2, 7], &[0xF0, 0xF0, 0xFF, 0xFF], &[0x00, 0xFF]);
    let three = row([3, 1, 3, 3, 6, 3], ev);
    each_shape_over(
        judge,
        random,
        three,
        [3, 1, 3, 8],
        &[0xF0, 0xF0, 0xF0, 0xFF, 0xFF, 0xFF, 0x00, 0x00, 0x00],
        &[0x00, 0xFF],
    );
}

/// Chunk, active pages, DFU pages and state words; the state area starts as given, for 255.
fn each_shape_over(
    judge: &mut Judge,
    random: &mut Random,
    side: &'static dyn Original,
    [b, pages, dfu_pages, words]: [usize; 4],
    start: &[u8],
    alphabet: &[u8],
) {
    let geometry = crate::shapes::geometry_of(side, b);
    let page = geometry.page();
    let shape = Shape { geometry, la: pages * page, ld: dfu_pages * page, ls: words * geometry.ws as usize };
    let mut bench = shape.bench(random, Vec::new());
    let (alphabet, start) = (for_value(geometry.ev, alphabet), for_value(geometry.ev, start));
    each_over(&alphabet, &start, shape.ls, |state| {
        random.fill(&mut bench.active);
        random.fill(&mut bench.dfu);
        state.clone_into(&mut bench.state);
        judge.sweep(Some(side), &boot(geometry), &bench);
    });
}

/// All shapes of the compiled rows with states of every kind, every budget.
pub fn shapes(judge: &mut Judge, random: &mut Random) {
    for (side, shape) in all_shapes() {
        let n = shape.pages();
        // a whole swap and a whole revert at every budget
        for state in [states::fresh(&shape), states::after_steps(&shape, 2 * n)] {
            let bench = shape.bench(random, state);
            judge.sweep_every(Some(side), &boot(shape.geometry), &bench);
        }
        let mut kinds = vec![vec![0xFF; shape.ls], vec![0x00; shape.ls]];
        kinds.extend(MAGICS.iter().map(|magic| states::only_magic(&shape, *magic)));
        kinds.push(states::after_steps(&shape, 4 * n));
        kinds.push(states::after_steps(&shape, shape.words()));
        let more = 12_000 / (shape.la + shape.ld + 200) + 2;
        kinds.extend((0..more).map(|_| states::random_state(random, &shape)));
        for state in kinds {
            let bench = shape.bench(random, state);
            judge.sweep(Some(side), &boot(shape.geometry), &bench);
        }
    }
}

/// Real cut runs: from a fresh mark through the swap and on through the revert, cut at random again and
/// again; small shapes are swept at each stage.
pub fn cut_runs(judge: &mut Judge, random: &mut Random) {
    for (side, shape) in all_shapes() {
        let rounds = if shape.la + shape.ld < 600 { 3 } else { 1 };
        for _ in 0..rounds {
            let mut bench = shape.bench(random, states::fresh(&shape));
            let cost = shape.page() / shape.geometry.b as usize + 2;
            let mut finished = 0;
            // a run with less than a step's cost gains nothing, so some runs must have more
            while finished < 3 {
                let budget = random.below(3 * cost + 2) as u32;
                let call = Call { budget, ..boot(shape.geometry) };
                if shape.la + shape.ld < 64 {
                    judge.sweep(Some(side), &call, &bench);
                }
                let word = judge.call(Some(side), &call, &bench);
                bench.clone_from(judge.expected());
                if number_of(word) == 0 {
                    finished += 1;
                }
            }
        }
    }
}

/// Admitted numbers that aren't compiled, against the model.
pub fn runtime_shapes(judge: &mut Judge, random: &mut Random) {
    for _ in 0..10_000 {
        let shape = random_shape(random);
        for _ in 0..3 {
            let state = states::random_state(random, &shape);
            let bench: Bench = shape.bench(random, state);
            judge.sweep(None, &boot(shape.geometry), &bench);
        }
    }
}
