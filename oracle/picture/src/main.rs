//! Draws what every cut of a swap and of a revert leaves, and what the next boot makes of it, from runs of the
//! library: `cuts > FILE` writes the picture as SVG, always the same for the same library.

mod panel;
mod runs;
mod svg;

use panel::Panel;
use runs::Story;
use svg::Svg;

const TITLE: &str =
    "Power fails after K operations: what the flash holds, and what the next boot makes of it";
const NOTES: [&str; 3] = [
    "Each column is one run of the library over modelled flash, cut after K operations. A page is erased only while the \
     page it is copied from stands",
    "whole elsewhere, and its mark is written last; so the next boot makes a half made page again from its source. The \
     firmware is started only by a boot",
    "that is not cut, and the images that it leaves, in the lower band, are the same in every column: the new one whole, \
     or after a revert the old one.",
];

/// The title and the notes want this much.
const LEAST_WIDTH: i32 = 1040;

fn main() {
    let swap = Story::swap();
    let revert = Story::revert(&swap);
    for story in [&swap, &revert] {
        // the picture's words must not say more than the runs show
        assert!(story.nothing_lost(), "a cut loses a page: {}", story.name);
        assert!(story.always_ends_alike(), "a cut changes what the next boot leaves: {}", story.name);
    }
    let panels = [Panel::new(&swap), Panel::new(&revert)];
    let head = 132;
    let height = head + panels.iter().map(Panel::height).sum::<i32>();
    let width = panels.iter().map(Panel::width).max().unwrap_or(0).max(LEAST_WIDTH);
    let mut svg = Svg::new(width, height, TITLE);
    svg.text(20, 32, svg::LEFT.sized(20).bold().filled("#111"), TITLE);
    for (line, note) in NOTES.iter().enumerate() {
        svg.text(20, 54 + 16 * line as i32, svg::LEFT.sized(12).filled("#444"), note);
    }
    panel::legend(&mut svg, 104);
    let mut top = head;
    for panel in &panels {
        panel.draw(&mut svg, top);
        top += panel.height();
    }
    print!("{}", svg.finish());
}
