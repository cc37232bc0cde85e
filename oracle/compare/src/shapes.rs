//! Geometries with their lengths: for each compiled row many chunks and lengths, and random admitted ones.

use call::{Bench, ERASE_VALUES, Geometry, NO_SECTOR, Original, least_common};

use crate::random::Random;

/// A geometry and the lengths of the three areas.
#[derive(Clone, Copy, Debug)]
pub struct Shape {
    pub geometry: Geometry,
    pub la: usize,
    pub ld: usize,
    pub ls: usize,
}

impl Shape {
    /// P
    pub fn page(&self) -> usize {
        self.geometry.page()
    }

    /// N
    pub fn pages(&self) -> usize {
        self.la / self.page()
    }

    /// Ws
    pub fn word(&self) -> usize {
        self.geometry.ws as usize
    }

    /// T
    pub fn words(&self) -> usize {
        self.ls / self.word()
    }

    /// What a step to DFU and a step to active cost: the page's erase units, its chunks and the mark.
    pub fn costs(&self) -> (usize, usize) {
        let g = &self.geometry;
        let cost = |unit: u32| self.page() / unit as usize + self.page() / g.b as usize + 1;
        (cost(g.ed), cost(g.ea))
    }

    /// The state area with nothing in it.
    pub fn erased_state(&self) -> Vec<u8> {
        vec![self.geometry.erased(); self.ls]
    }

    /// The erase units of the state area.
    pub fn state_units(&self) -> usize {
        self.ls / self.geometry.es as usize
    }

    /// Random images around a given state area.
    pub fn bench(&self, random: &mut Random, state: Vec<u8>) -> Bench {
        Bench {
            active: image(random, self.la, self.page()),
            dfu: image(random, self.ld, self.page()),
            state,
            out: Vec::new(),
            last: NO_SECTOR,
        }
    }
}

/// Random bytes mostly; sometimes one byte a page, all erased or all zero.
pub fn image(random: &mut Random, length: usize, page: usize) -> Vec<u8> {
    match random.below(8) {
        0 => vec![0xFF; length],
        1 => vec![0x00; length],
        2 => {
            let first = random.byte();
            (0..length).map(|i| first.wrapping_add((i / page) as u8)).collect()
        }
        _ => random.bytes(length),
    }
}

/// Every compiled row, first those for the erase value 255, then those for 0.
pub fn rows() -> impl Iterator<Item = &'static dyn Original> {
    original::TABLE.iter().chain(original_zero::TABLE).copied()
}

/// The row's numbers with a chunk.
pub fn geometry_of(row: &dyn Original, b: usize) -> Geometry {
    let [ea, wa, ed, wd, es, ws] = row.numbers();
    Geometry { ea, wa, ed, wd, es, ws, b: b as u32, ev: row.erase_value() }
}

/// Chunks that document 01 admits with these numbers, rising.
pub fn chunks(g: &Geometry) -> Vec<usize> {
    let fits = |b: &u32| {
        g.page().is_multiple_of(*b as usize) && b.is_multiple_of(g.wa) && b.is_multiple_of(g.wd) && *b >= g.ws
    };
    (1..=g.page() as u32).filter(fits).map(|b| b as usize).collect()
}

/// The smallest, one in the middle, the largest.
pub fn few_chunks(g: &Geometry) -> Vec<usize> {
    let all = chunks(g);
    let mut few: Vec<usize> =
        [0, all.len() / 2, all.len().saturating_sub(1)].iter().filter_map(|i| all.get(*i).copied()).collect();
    few.dedup();
    few
}

/// State lengths for N pages: the shortest admitted, one unit and three units more.
pub fn state_lengths(g: &Geometry, pages: usize) -> [usize; 3] {
    let fewest = (4 * pages + 3) * g.ws as usize;
    let units = fewest.div_ceil(g.es as usize);
    [units, units + 1, units + 3].map(|units| units * g.es as usize)
}

/// Shapes of one compiled row; a long page takes fewer pages.
pub fn shapes_of(row: &dyn Original) -> Vec<Shape> {
    let page = geometry_of(row, 1).page();
    let mut shapes = Vec::new();
    for pages in [0, 1, 2, 3, 4, 8] {
        if pages * page > 4096.max(page) {
            continue;
        }
        for b in few_chunks(&geometry_of(row, 1)) {
            let geometry = geometry_of(row, b);
            for (i, ls) in state_lengths(&geometry, pages).into_iter().enumerate() {
                let la = pages * page;
                shapes.push(Shape { geometry, la, ld: la + page * (1 + i), ls });
            }
        }
    }
    shapes
}

/// All shapes of all compiled rows, with their side.
pub fn all_shapes() -> Vec<(&'static dyn Original, Shape)> {
    rows().flat_map(|row| shapes_of(row).into_iter().map(move |shape| (row, shape))).collect()
}

/// The row compiled for a geometry, if there is one.
pub fn compiled(g: &Geometry) -> Option<&'static dyn Original> {
    let numbers = [g.ea, g.wa, g.ed, g.wd, g.es, g.ws];
    rows().find(|row| row.numbers() == numbers && row.erase_value() == g.ev)
}

/// The compiled row with these numbers, for an erase value.
pub fn row(numbers: [u32; 6], ev: u32) -> &'static dyn Original {
    rows().find(|row| row.numbers() == numbers && row.erase_value() == ev).expect("a compiled row")
}

/// An admitted shape for boot with numbers that need not be compiled: built from the smallest unit upwards.
pub fn random_shape(random: &mut Random) -> Shape {
    let wa = 1 + random.below(12);
    let wd = if random.once_in(2) { wa } else { 1 + random.below(12) };
    let b = least_common(wa, wd) * (1 + random.below(3));
    let page = b * (1 + random.below(4));
    let divisors: Vec<usize> = (1..=page).filter(|d| page.is_multiple_of(*d)).collect();
    // two erase sizes of which this is the page: one divides the other, or neither does
    let one = *random.pick(&divisors);
    let others: Vec<usize> = divisors.into_iter().filter(|d| least_common(one, *d) == page).collect();
    let other = *random.pick(&others);
    let (ea, ed) = if random.once_in(2) { (one, other) } else { (other, one) };
    let ws = 1 + random.below(b.min(9));
    let es = ws * (1 + random.below(20));
    let pages = random.below(6);
    let geometry = Geometry {
        ea: ea as u32,
        wa: wa as u32,
        ed: ed as u32,
        wd: wd as u32,
        es: es as u32,
        ws: ws as u32,
        b: b as u32,
        ev: *random.pick(&ERASE_VALUES),
    };
    let ls = *random.pick(&state_lengths(&geometry, pages));
    Shape { geometry, la: pages * page, ld: (pages + 1 + random.below(3)) * page, ls }
}
