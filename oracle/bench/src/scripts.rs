//! Well-formed inputs: a geometry with its lengths, and commands.

use call::random::Random;
use call::{Geometry, ONES, least_common};

/// The first two lines.
#[derive(Clone, Copy)]
pub struct Shape {
    pub geometry: Geometry,
    pub lengths: [usize; 3],
}

/// An input as the program wants it: two lines, then the commands.
#[derive(Clone)]
pub struct Script {
    pub shape: Shape,
    pub commands: Vec<(&'static str, u32)>,
}

pub const NAMES: [&str; 3] = ["update", "booted", "boot"];

/// Document 01's sheet, and the example of request No. 4.
pub const SHEET: Shape = Shape {
    geometry: Geometry { ea: 4, wa: 2, ed: 4, wd: 2, es: 16, ws: 1, b: 2, ev: ONES },
    lengths: [12, 16, 16],
};

impl Shape {
    pub fn pages(&self) -> usize {
        self.lengths[0] / self.geometry.page().max(1)
    }

    pub fn with(self, commands: &[(&'static str, u32)]) -> Script {
        Script { shape: self, commands: commands.to_vec() }
    }

    /// More operations than any one command does, with an erase counted unit by unit.
    pub fn plenty(&self) -> u32 {
        let g = &self.geometry;
        let page = g.page() as u32;
        let step = page / g.ea.min(g.ed).max(1) + page / g.b.max(1) + 1;
        2 * self.pages() as u32 * step + self.lengths[2] as u32 / g.es.max(1) + 3
    }
}

impl Script {
    pub fn text(&self) -> Vec<u8> {
        let g = &self.shape.geometry;
        let [la, ld, ls] = self.shape.lengths;
        let mut text = format!("{} {} {} {} {} {} {}\n", g.ea, g.wa, g.ed, g.wd, g.es, g.ws, g.b);
        text += &format!("{la} {ld} {ls}\n");
        for (name, budget) in &self.commands {
            text += &format!("{name} {budget}\n");
        }
        text.into_bytes()
    }
}

/// An admitted shape, built from the smallest unit upwards; `most` bounds the number of pages.
pub fn admitted(random: &mut Random, most: usize) -> Shape {
    let wa = 1 + random.below(6);
    let wd = if random.once_in(2) { wa } else { wa * (1 + random.below(3)) };
    let b = wd * (1 + random.below(3));
    let page = b * (1 + random.below(4));
    let divisors: Vec<usize> = (1..=page).filter(|d| page.is_multiple_of(*d)).collect();
    // two erase sizes of which this is the page; often equal, else one divides the other or neither does
    let one = if random.once_in(2) { page } else { *random.pick(&divisors) };
    let others: Vec<usize> = divisors.into_iter().filter(|d| least_common(one, *d) == page).collect();
    let other = if random.once_in(2) { page } else { *random.pick(&others) };
    let (ea, ed) = if random.once_in(2) { (one, other) } else { (other, one) };
    let (wa, wd) = if random.once_in(2) { (wa, wd) } else { (wd, wa) };
    let ws = 1 + random.below(b.min(5));
    let es = ws * (1 + random.below(12));
    let pages = random.below(most + 1);
    let fewest = (3 + 4 * pages + random.below(4)) * ws;
    let [ea, wa, ed, wd, es, ws, b] = [ea, wa, ed, wd, es, ws, b].map(|n| n as u32);
    Shape {
        geometry: Geometry { ea, wa, ed, wd, es, ws, b, ev: ONES },
        lengths: [
            pages * page,
            (pages + 1 + random.below(3)) * page,
            fewest.div_ceil(es as usize) * es as usize,
        ],
    }
}

/// Numbers at which something changes.
pub const EDGES: [u32; 14] =
    [0, 1, 2, 3, 5, 255, 256, 257, 16_384, 65_535, 65_536, 65_537, 4_294_967_294, u32::MAX];

/// An admitted shape with one or two numbers or lengths changed: most of these are refused.
pub fn spoilt(random: &mut Random) -> Shape {
    let mut shape = admitted(random, 4);
    for _ in 0..1 + random.below(2) {
        let g = &mut shape.geometry;
        let number = match random.below(3) {
            0 => *random.pick(&EDGES),
            _ => random.below(20) as u32,
        };
        match random.below(10) {
            0 => g.ea = number,
            1 => g.wa = number,
            2 => g.ed = number,
            3 => g.wd = number,
            4 => g.es = number,
            5 => g.ws = number,
            6 => g.b = number,
            at => shape.lengths[at - 7] = near(random, shape.lengths[at - 7]),
        }
    }
    shape
}

fn near(random: &mut Random, length: usize) -> usize {
    match random.below(4) {
        0 => 0,
        1 => length + 1,
        2 => length.saturating_sub(1 + random.below(8)),
        _ => *random.pick(&[1, 16_383, 16_384]),
    }
}

/// A device's life: updates, boots and confirmations, many of them cut.
pub fn life(random: &mut Random, shape: Shape, commands: usize) -> Script {
    let plenty = shape.plenty();
    let budget = |random: &mut Random| match random.below(6) {
        0 => *random.pick(&EDGES),
        1 => random.below(4) as u32,
        2 => plenty,
        _ => random.below(plenty as usize + 2) as u32,
    };
    let one = |random: &mut Random| {
        let name = *random.pick(&["update", "update", "boot", "boot", "boot", "boot", "booted"]);
        // a mark has three operations and a few more, so small budgets tell more
        let marks = name != "boot" && random.once_in(2);
        (name, if marks { random.below(5) as u32 } else { budget(random) })
    };
    Script { shape, commands: (0..commands).map(|_| one(random)).collect() }
}
