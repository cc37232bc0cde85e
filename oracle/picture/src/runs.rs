//! The runs: a boot cut after each number of operations, and the boot after it.

use call::{Answers, Bench, CUT, Call, Geometry, Kind, NO_SECTOR, number_of, operations_of};
use library::Library;

/// One erase unit to a page, two chunks to a page, one byte to a state word, erased to FF: document 01's sheet.
const GEOMETRY: Geometry = Geometry { ea: 4, wa: 2, ed: 4, wd: 2, es: 16, ws: 1, b: 2, ev: 255 };
const LENGTHS: [usize; 3] = [12, 16, 16];

/// What a page or a part of it holds.
#[derive(Clone, Copy, PartialEq, Eq, Debug)]
pub enum Content {
    /// page of the image that was active at first
    Old(usize),
    /// page of the image that was in the DFU at first
    New(usize),
    /// the DFU's page beyond the image
    Spare,
    Erased,
    Mixed,
}

#[derive(Clone, Copy, PartialEq, Eq, Debug)]
pub enum Area {
    Active,
    Dfu,
}

/// A run cut after some operations; the last one of a story isn't cut.
pub struct Frame {
    pub left: Bench,
    /// what the first boot that isn't cut leaves, and its operations; for the whole run that is the run itself
    pub ended: Bench,
    pub operations: Option<u32>,
}

/// What the operation that leads to a frame did, told from the areas before and after.
#[derive(Clone, Copy, PartialEq, Eq, Debug)]
pub enum Deed {
    Erase(Area, usize),
    Write(Area, usize),
    State,
}

/// A boot with every budget from 0 to its end.
pub struct Story {
    pub name: &'static str,
    pub frames: Vec<Frame>,
}

pub fn page() -> usize {
    GEOMETRY.page()
}

pub fn chunk() -> usize {
    GEOMETRY.b as usize
}

/// The number of pages in an area.
pub fn pages(area: Area) -> usize {
    match area {
        Area::Active => LENGTHS[0] / page(),
        Area::Dfu => LENGTHS[1] / page(),
    }
}

fn call_library(bench: &mut Bench, kind: Kind, budget: u32) -> (bool, u32) {
    let call = Call { budget, ..Call::of(kind, GEOMETRY) };
    let word = Library.answer(&call, bench.lend());
    let cut = number_of(word) == u64::from(CUT);
    assert!(cut || number_of(word) == 0, "the library refuses the picture's geometry");
    (cut, operations_of(word))
}

impl Story {
    /// A freshly marked update.
    pub fn swap() -> Story {
        let n = pages(Area::Active);
        let fill =
            |from: usize, count: usize| (0..count * page()).map(|at| (from + at / page()) as u8).collect();
        let mut start = Bench {
            active: fill(1, n),
            dfu: fill(1 + n, pages(Area::Dfu)),
            state: vec![0xFF; LENGTHS[2]],
            out: Vec::new(),
            last: NO_SECTOR,
        };
        call_library(&mut start, Kind::StateMarkUpdated, u32::MAX);
        Story { name: "The swap: a boot after mark_updated", frames: frames(&start) }
    }

    /// The boot after a finished swap that nobody confirmed.
    pub fn revert(swap: &Story) -> Story {
        let start = &swap.frames[swap.frames.len() - 1].left;
        Story {
            name: "The revert: the boot after a finished swap that was not confirmed",
            frames: frames(start),
        }
    }

    /// True if both areas are the same in the end, whichever run was cut, and the active one is a whole image.
    pub fn always_ends_alike(&self) -> bool {
        let first = &self.frames[0].ended;
        let is = |image: fn(usize) -> Content| {
            (0..pages(Area::Active)).all(|page| content(first, Area::Active, page) == image(page))
        };
        let alike = |frame: &Frame| (&frame.ended.active, &frame.ended.dfu) == (&first.active, &first.dfu);
        (is(Content::Old) || is(Content::New)) && self.frames.iter().all(alike)
    }

    /// True if after every cut each page that the end holds stands whole somewhere.
    pub fn nothing_lost(&self) -> bool {
        let all = |bench: &Bench| -> Vec<Content> {
            let of = |area: Area| (0..pages(area)).map(move |page| content(bench, area, page));
            [Area::Active, Area::Dfu].into_iter().flat_map(of).collect()
        };
        self.frames.iter().all(|frame| {
            let left = all(&frame.left);
            all(&frame.ended).iter().all(|page| left.contains(page))
        })
    }

    /// What operation number `at` did; there is none before the first frame.
    pub fn deed(&self, at: usize) -> Option<Deed> {
        let (before, after) = (&self.frames[at.checked_sub(1)?].left, &self.frames[at].left);
        let areas = [(Area::Active, &before.active, &after.active), (Area::Dfu, &before.dfu, &after.dfu)];
        for (area, before, after) in areas {
            let Some(byte) = (0..before.len()).find(|byte| before[*byte] != after[*byte]) else { continue };
            let erased = after[byte] == 0xFF;
            return Some(if erased {
                Deed::Erase(area, byte / page())
            } else {
                Deed::Write(area, byte / page())
            });
        }
        Some(Deed::State)
    }
}

fn frames(start: &Bench) -> Vec<Frame> {
    let mut frames = Vec::new();
    for budget in 0.. {
        let mut left = start.clone();
        let (cut, _) = call_library(&mut left, Kind::PrepareBoot, budget);
        let mut ended = left.clone();
        let operations = cut.then(|| call_library(&mut ended, Kind::PrepareBoot, u32::MAX).1);
        frames.push(Frame { left, ended, operations });
        if !cut {
            break;
        }
    }
    frames
}

fn area_of(bench: &Bench, area: Area) -> &[u8] {
    match area {
        Area::Active => &bench.active,
        Area::Dfu => &bench.dfu,
    }
}

/// What a whole page holds.
pub fn content(bench: &Bench, area: Area, number: usize) -> Content {
    of_bytes(&area_of(bench, area)[number * page()..(number + 1) * page()])
}

/// What one chunk of a page holds.
pub fn chunk_content(bench: &Bench, area: Area, number: usize, part: usize) -> Content {
    let from = number * page() + part * chunk();
    of_bytes(&area_of(bench, area)[from..from + chunk()])
}

/// Pages were filled with one byte each, rising from 1, so a byte tells where it comes from.
fn of_bytes(bytes: &[u8]) -> Content {
    let n = pages(Area::Active);
    if bytes.iter().any(|byte| *byte != bytes[0]) {
        return Content::Mixed;
    }
    match bytes[0] as usize {
        0xFF => Content::Erased,
        byte if byte >= 1 && byte <= n => Content::Old(byte - 1),
        byte if byte > n && byte <= 2 * n => Content::New(byte - 1 - n),
        _ => Content::Spare,
    }
}

/// The state area in a word: how many marks stand, or what it reads where no step is under way.
pub fn state_word(state: &[u8]) -> String {
    let word = GEOMETRY.ws as usize;
    let all = |at: usize, byte: u8| state[at * word..(at + 1) * word].iter().all(|held| *held == byte);
    let marks = (2..state.len() / word).filter(|at| all(*at, 0)).count();
    match state[0] {
        0xF0 if all(1, 0xFF) => marks.to_string(),
        0xF0 => "invalid".to_string(),
        0xC0 => "Revert".to_string(),
        0xD0 => "Boot".to_string(),
        _ => "erased".to_string(),
    }
}
