//! Document 01's "What the power may do", watched on the original (and compared on the way): the tables after
//! any cuts, the number of runs, the least budget that gains a step, and images that don't matter.

use std::process::exit;

use call::{Bench, Call, Kind, Original, number_of};

use crate::boots::boot;
use crate::judge::Judge;
use crate::random::Random;
use crate::shapes::{Shape, all_shapes};
use crate::states;

fn expect(holds: bool, what: &str, shape: &Shape) {
    if !holds {
        println!("document 01 doesn't hold of the original: {what}, {shape:?}");
        exit(1);
    }
}

/// Shapes that demand 3 speaks of: a page at least, 4N + 3 words or more.
fn shapes() -> Vec<(&'static dyn Original, Shape)> {
    let mut all = all_shapes();
    all.retain(|(_, shape)| {
        shape.pages() >= 1 && shape.words() >= 4 * shape.pages() + 3 && shape.la + shape.ld <= 600
    });
    all
}

/// Cuts anywhere: the first whole run leaves the swap table, and from there the revert's two images.
pub fn tables(judge: &mut Judge, random: &mut Random) {
    for (side, shape) in shapes() {
        for round in 0..4 {
            let start = shape.bench(random, states::fresh(&shape));
            let dearer = shape.costs().0.max(shape.costs().1);
            // by turns any budgets at all, and always at least the dearer step's cost
            let least = if round % 2 == 0 { 0 } else { dearer };
            let (swapped, runs, answer) = until_done(judge, random, side, &shape, &start, least);
            expect(answer == 1, "the swap answers Swap", &shape);
            expect(swapped == swap_table(&shape, &start), "the swap table", &shape);
            expect(least == 0 || runs <= 2 * shape.pages(), "2N runs for the swap", &shape);

            let (reverted, runs, answer) = until_done(judge, random, side, &shape, &swapped, least);
            expect(answer <= 1, "the revert answers Swap, or Boot after the erase", &shape);
            let (active, dfu) = revert_images(&shape, &start);
            expect((&reverted.active, &reverted.dfu) == (&active, &dfu), "the revert's images", &shape);
            let states =
                if answer == 1 { vec![states::only_magic(&shape, 0xC0)] } else { broken_off(&shape) };
            expect(states.contains(&reverted.state), "the state after a revert", &shape);
            let most = if 2 + shape.state_units() <= dearer { 1 } else { 2 };
            expect(
                least == 0 || runs <= 2 * shape.pages() + most,
                "2N + 1 or 2N + 2 runs for the revert",
                &shape,
            );
        }
    }
}

/// Boots until one isn't cut: its bench, the number of runs and the state that it answers.
fn until_done(
    judge: &mut Judge,
    random: &mut Random,
    side: &dyn Original,
    shape: &Shape,
    start: &Bench,
    least: usize,
) -> (Bench, usize, u8) {
    let mut bench = start.clone();
    let cost = shape.costs().0.max(shape.costs().1);
    let mut runs = 0;
    loop {
        // the least budget often: those runs are the slowest
        let more = if random.once_in(2) { 0 } else { random.below(2 * cost) };
        let call = Call { budget: (least + more) as u32, ..boot(shape.geometry) };
        let word = judge.call(Some(side), &call, &bench);
        bench.clone_from(judge.expected());
        runs += 1;
        if number_of(word) == 0 {
            return (bench, runs, (word >> 32) as u8);
        }
    }
}

/// Said without running a step.
fn swap_table(shape: &Shape, start: &Bench) -> Bench {
    let (n, p, w) = (shape.pages(), shape.page(), shape.word());
    let mut end = start.clone();
    end.active.copy_from_slice(&start.dfu[..n * p]);
    end.dfu[p..(n + 1) * p].copy_from_slice(&start.active);
    end.state[2 * w..(2 + 2 * n) * w].fill(shape.geometry.marked());
    end
}

fn revert_images(shape: &Shape, start: &Bench) -> (Vec<u8>, Vec<u8>) {
    let (n, p) = (shape.pages(), shape.page());
    let mut dfu = start.dfu.clone();
    dfu[n * p..(n + 1) * p].copy_from_slice(&start.active[(n - 1) * p..]);
    (start.active.clone(), dfu)
}

/// The state areas that a cut inside the state's erase, or right after it, leaves: the first units erased, one at
/// least, and the rest as the revert's marks and the invalidation left them.
fn broken_off(shape: &Shape) -> Vec<Vec<u8>> {
    let (n, w) = (shape.pages(), shape.word());
    let mut marked = states::fresh(shape);
    marked[w..(2 + 4 * n) * w].fill(shape.geometry.marked());
    let erased = |units: usize| {
        let mut state = marked.clone();
        state[..units * shape.geometry.es as usize].fill(shape.geometry.erased());
        state
    };
    (1..=shape.state_units()).map(erased).collect()
}

/// With one operation less than the first step's cost, always, no step is gained; nor by a run that has one less
/// than its next step's.
pub fn no_step_gained(judge: &mut Judge, random: &mut Random) {
    for (side, shape) in shapes() {
        let start = shape.bench(random, states::fresh(&shape));
        let mut bench = start.clone();
        let (to_dfu, to_active) = shape.costs();
        let short = |cost: usize| Call { budget: cost as u32 - 1, ..boot(shape.geometry) };
        for _ in 0..5 {
            judge.call(Some(side), &short(to_dfu), &bench);
            bench.clone_from(judge.expected());
        }
        expect(bench.state == start.state, "one operation less gains no step", &shape);
        judge.call(Some(side), &Call { budget: to_dfu as u32, ..boot(shape.geometry) }, &bench);
        bench.clone_from(judge.expected());
        let first = bench.state.clone();
        expect(first != start.state, "the cost of a step to DFU gains it", &shape);
        judge.call(Some(side), &short(to_active), &bench);
        expect(judge.expected().state == first, "one operation less gains no step to active", &shape);
    }
}

/// Two runs that differ only in their images answer alike; the calls of requests No. 7 and No. 8, which read them, are excepted.
pub fn images_do_not_matter(judge: &mut Judge, random: &mut Random) {
    for (side, shape) in all_shapes() {
        if shape.la + shape.ld > 1500 {
            continue;
        }
        let excepted = [Kind::CheckAndMarkUpdated, Kind::Hash];
        for kind in Kind::WITH_AREAS.into_iter().filter(|kind| !excepted.contains(kind)) {
            let state = states::random_state(random, &shape);
            let first = shape.bench(random, state.clone());
            let second = shape.bench(random, state);
            let write = shape.geometry.wd as usize;
            let data = random.bytes(if kind == Kind::WriteFirmware { shape.ld / write * write } else { 0 });
            let budget = random.below(30) as u32;
            let call = Call { budget, data: &data, ..Call::of(kind, shape.geometry) };
            let one = judge.call(Some(side), &call, &first);
            let (state, last) = (judge.expected().state.clone(), judge.expected().last);
            let other = judge.call(Some(side), &call, &second);
            let same = one == other && judge.expected().state == state && judge.expected().last == last;
            expect(same, "images don't matter", &shape);
        }
    }
}
