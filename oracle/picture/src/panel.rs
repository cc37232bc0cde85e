//! One story as a panel: operations across, pages down; above what the cut leaves, below what the next boot
//! makes of it.

use call::Bench;

use crate::runs::{self, Area, Content, Deed, Frame, Story};
use crate::svg::{self, Svg};

const MARGIN: i32 = 170;
const COLUMN: i32 = 34;
/// heights of a page above and below, and of other rows
const PAGE: i32 = 26;
const LOW_PAGE: i32 = 16;
const ROW: i32 = 18;
const GAP: i32 = 6;
/// between the two bands
const BETWEEN: i32 = 36;
const GREY: &str = "#666";

pub struct Panel<'a> {
    story: &'a Story,
}

/// The rows of both images, from the top: area, page and where it begins.
fn rows(page_height: i32) -> (Vec<(Area, usize, i32)>, i32) {
    let mut rows = Vec::new();
    let mut y = 0;
    for area in [Area::Active, Area::Dfu] {
        for page in 0..runs::pages(area) {
            rows.push((area, page, y));
            y += page_height;
        }
        y += GAP;
    }
    (rows, y)
}

/// Runs of equal things: where each begins and ends.
fn runs_of<T: PartialEq>(things: &[T]) -> Vec<(usize, usize)> {
    let mut found = Vec::new();
    let mut from = 0;
    for at in 1..=things.len() {
        if at == things.len() || things[at] != things[from] {
            found.push((from, at));
            from = at;
        }
    }
    found
}

impl<'a> Panel<'a> {
    pub fn new(story: &'a Story) -> Panel<'a> {
        Panel { story }
    }

    fn columns(&self) -> i32 {
        self.story.frames.len() as i32
    }

    pub fn width(&self) -> i32 {
        MARGIN + self.columns() * COLUMN + 20
    }

    /// Heights: title, steps, letters and numbers; the band above with the state; the band below with state and count.
    pub fn height(&self) -> i32 {
        26 + 3 * ROW + rows(PAGE).1 + ROW + BETWEEN + rows(LOW_PAGE).1 + 2 * ROW + 30
    }

    pub fn draw(&self, svg: &mut Svg, top: i32) {
        svg.text(20, top + 14, svg::LEFT.sized(14).bold(), self.story.name);
        let steps = top + 26;
        let above = steps + 3 * ROW;
        let state = above + rows(PAGE).1;
        let below = state + ROW + BETWEEN;
        let state_below = below + rows(LOW_PAGE).1;
        let counts = state_below + ROW;
        self.draw_steps(svg, steps);
        self.draw_images(svg, above, PAGE, |frame| &frame.left);
        self.draw_state(svg, state, |frame| &frame.left);
        self.draw_images(svg, below, LOW_PAGE, |frame| &frame.ended);
        self.draw_state(svg, state_below, |frame| &frame.ended);
        self.draw_counts(svg, counts);
        self.draw_separators(svg, steps, above, state + ROW - 2);
        self.draw_separators(svg, below, below, counts + ROW);
        // names last, so that no line runs through them
        self.draw_names(svg, above, PAGE, |frame| &frame.left);
        self.draw_names(svg, below, LOW_PAGE, |frame| &frame.ended);
        for (y, first, second) in [(above, "right after", "the cut"), (below, "after the", "next boot")] {
            svg.text(20, y + 12, svg::LEFT.bold(), first);
            svg.text(20, y + 26, svg::LEFT.bold(), second);
        }
        let says = "▼  then one boot that is not cut; in the last column the run itself was not cut";
        svg.text(MARGIN + 4, below - 12, svg::LEFT, says);
    }

    /// The steps' names over their columns, the kind of each operation, and the number of operations done.
    fn draw_steps(&self, svg: &mut Svg, y: i32) {
        svg.text(MARGIN - 10, y + 13, svg::RIGHT.filled(GREY), "step");
        svg.text(MARGIN - 10, y + ROW + 13, svg::RIGHT.filled(GREY), "last operation done");
        svg.text(MARGIN - 10, y + 2 * ROW + 13, svg::RIGHT.bold(), "K, operations done");
        for (from, to) in self.steps() {
            let (x, end) = (MARGIN + from as i32 * COLUMN, MARGIN + to as i32 * COLUMN);
            svg.rect(x + 2, y, end - x - 4, ROW - 2, "#eee");
            svg.text((x + end) / 2, y + 12, svg::MIDDLE.sized(10), &self.step_name(from, to));
        }
        for at in 0..self.story.frames.len() {
            let x = MARGIN + at as i32 * COLUMN + COLUMN / 2;
            let letter = match self.story.deed(at) {
                None => "",
                Some(Deed::Erase(..)) => "E",
                Some(Deed::Write(..)) => "W",
                Some(Deed::State) => self.state_letter(at),
            };
            svg.text(x, y + ROW + 13, svg::MIDDLE.filled(GREY), letter);
            svg.text(x, y + 2 * ROW + 13, svg::MIDDLE.bold(), &at.to_string());
        }
    }

    /// A state operation: an erase raises bits, a mark and a magic let them fall.
    fn state_letter(&self, at: usize) -> &'static str {
        let (before, after) = (&self.story.frames[at - 1].left.state, &self.story.frames[at].left.state);
        if before.iter().zip(after).any(|(old, new)| new & !old != 0) { "E" } else { "M" }
    }

    /// Columns that belong to one step: up to its mark. What touches the state area alone is the last of them.
    fn steps(&self) -> Vec<(usize, usize)> {
        let mut found = Vec::new();
        let mut from = 1;
        let last = self.story.frames.len();
        for at in 1..last {
            let alone = self.story.deed(from) == Some(Deed::State);
            if self.story.deed(at) == Some(Deed::State) && (!alone || at + 1 == last) {
                found.push((from, at + 1));
                from = at + 1;
            }
        }
        found
    }

    fn step_name(&self, from: usize, to: usize) -> String {
        match self.story.deed(from) {
            Some(Deed::Erase(area, page) | Deed::Write(area, page)) => {
                let held = runs::content(&self.story.frames[to - 1].left, area, page);
                format!("{} ← {}", page_name(area, page), content_name(held))
            }
            _ => "state area".to_string(),
        }
    }

    /// A band: each chunk's contents over the columns.
    fn draw_images(&self, svg: &mut Svg, top: i32, height: i32, of: impl Fn(&Frame) -> &Bench) {
        let parts = runs::page() / runs::chunk();
        for (area, page, y) in rows(height).0 {
            let y = top + y;
            svg.text(MARGIN - 10, y + height / 2 + 4, svg::RIGHT, &page_name(area, page));
            for part in 0..parts {
                let held = |frame: &Frame| runs::chunk_content(of(frame), area, page, part);
                let held: Vec<Content> = self.story.frames.iter().map(held).collect();
                let (upper, lower) =
                    (y + height * part as i32 / parts as i32, y + height * (part as i32 + 1) / parts as i32);
                for (from, to) in runs_of(&held) {
                    let (x, width) = self.span(from, to);
                    svg.rect(x, upper, width, lower - upper, &fill(held[from]));
                }
            }
            svg.frame(MARGIN, y, self.columns() * COLUMN, height, "#fff");
        }
    }

    /// What a page holds, written where it begins to hold it whole.
    fn draw_names(&self, svg: &mut Svg, top: i32, height: i32, of: impl Fn(&Frame) -> &Bench) {
        for (area, page, y) in rows(height).0 {
            let held: Vec<Content> =
                self.story.frames.iter().map(|frame| runs::content(of(frame), area, page)).collect();
            let whole = |(from, _): &(usize, usize)| !matches!(held[*from], Content::Mixed | Content::Erased);
            for (from, to) in runs_of(&held).into_iter().filter(whole) {
                let (x, _) = self.span(from, to);
                let (ink, name) = (ink(held[from]), content_name(held[from]));
                svg.text(x + 3, top + y + height / 2 + 4, svg::LEFT.sized(10).filled(ink), &name);
            }
        }
    }

    fn span(&self, from: usize, to: usize) -> (i32, i32) {
        (MARGIN + from as i32 * COLUMN, (to - from) as i32 * COLUMN)
    }

    fn draw_state(&self, svg: &mut Svg, y: i32, of: impl Fn(&Frame) -> &Bench) {
        svg.text(MARGIN - 10, y + 12, svg::RIGHT, "marks in state area");
        let said: Vec<String> =
            self.story.frames.iter().map(|frame| runs::state_word(&of(frame).state)).collect();
        for (from, to) in runs_of(&said) {
            let (x, width) = self.span(from, to);
            svg.rect(x, y, width - 1, ROW - 2, "#eee");
            let size = if said[from].len() > 2 { 8 } else { 10 };
            svg.text(x + 4, y + 12, svg::LEFT.sized(size), &said[from]);
        }
    }

    fn draw_counts(&self, svg: &mut Svg, y: i32) {
        svg.text(MARGIN - 10, y + 12, svg::RIGHT.filled(GREY), "operations it takes");
        for (at, frame) in self.story.frames.iter().enumerate() {
            let x = MARGIN + at as i32 * COLUMN + COLUMN / 2;
            let count = frame.operations.map_or("–".to_string(), |count| count.to_string());
            svg.text(x, y + 12, svg::MIDDLE.sized(10).filled(GREY), &count);
        }
    }

    /// Faint lines between columns, dark ones between steps.
    fn draw_separators(&self, svg: &mut Svg, from: i32, images: i32, to: i32) {
        let after_steps: Vec<usize> = self.steps().into_iter().map(|(_, end)| end).chain([1]).collect();
        for column in 1..=self.story.frames.len() {
            let x = MARGIN + column as i32 * COLUMN;
            match after_steps.contains(&column) {
                true => svg.line(x, from, to, "stroke=\"#333\" stroke-width=\"0.8\""),
                false => svg.line(x, images, to, "stroke=\"#fff\" stroke-opacity=\"0.45\""),
            }
        }
    }
}

pub fn page_name(area: Area, page: usize) -> String {
    match area {
        Area::Active => format!("active {page}"),
        Area::Dfu => format!("DFU {page}"),
    }
}

fn content_name(content: Content) -> String {
    match content {
        Content::Old(page) => format!("old {page}"),
        Content::New(page) => format!("new {page}"),
        Content::Spare => "rest".to_string(),
        Content::Erased => "erased".to_string(),
        Content::Mixed => "mixed".to_string(),
    }
}

/// Orange and blue are told apart by every eye; within an image pages grow darker.
fn colour(content: Content) -> [i32; 3] {
    let shade = |light: [i32; 3], dark: [i32; 3], page: usize| {
        let most = (runs::pages(Area::Active) as i32 - 1).max(1);
        [0, 1, 2].map(|i| light[i] + (dark[i] - light[i]) * page as i32 / most)
    };
    match content {
        Content::Old(page) => shade([0xFD, 0xD4, 0x9E], [0xC4, 0x5A, 0x00], page),
        Content::New(page) => shade([0xB5, 0xD8, 0xF0], [0x14, 0x5A, 0x96], page),
        Content::Spare => [0xCC, 0xCC, 0xCC],
        Content::Erased | Content::Mixed => [0xFF; 3],
    }
}

fn fill(content: Content) -> String {
    match content {
        Content::Erased => "url(#erased)".to_string(),
        Content::Mixed => "#d0f".to_string(),
        content => {
            let [red, green, blue] = colour(content);
            format!("#{red:02x}{green:02x}{blue:02x}")
        }
    }
}

/// White letters on dark ground.
fn ink(content: Content) -> &'static str {
    let [red, green, blue] = colour(content);
    if 3 * red + 6 * green + blue < 1400 { "#fff" } else { "#222" }
}

/// One line: what each colour and letter means.
pub fn legend(svg: &mut Svg, y: i32) {
    let pages = 0..runs::pages(Area::Active);
    let groups = [
        (pages.clone().map(Content::Old).collect(), "old image, by page", 126),
        (pages.map(Content::New).collect(), "new image, by page", 130),
        (vec![Content::Spare], "rest of the DFU", 110),
        (vec![Content::Erased], "erased", 60),
    ];
    let mut x = 20;
    for (contents, says, width) in groups {
        let contents: Vec<Content> = contents;
        for content in contents {
            svg.rect(x, y, 24, 14, &fill(content));
            x += 26;
        }
        svg.text(x + 4, y + 11, svg::LEFT, says);
        x += width + 10;
    }
    for (letter, says, width) in [("E", "erase", 60), ("W", "write of a chunk", 130), ("M", "mark, magic", 0)]
    {
        svg.text(x, y + 11, svg::LEFT.bold(), letter);
        svg.text(x + 15, y + 11, svg::LEFT, says);
        x += width;
    }
}
