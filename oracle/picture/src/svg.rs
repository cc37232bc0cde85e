//! As much of SVG as the picture needs.

use std::fmt::Write;

pub struct Svg {
    text: String,
}

/// How a text is set; the anchor says which end of it stands at the given place.
#[derive(Clone, Copy)]
pub struct Style {
    pub size: i32,
    pub anchor: &'static str,
    pub fill: &'static str,
    pub bold: bool,
}

pub const LEFT: Style = Style { size: 11, anchor: "start", fill: "#222", bold: false };
pub const MIDDLE: Style = Style { anchor: "middle", ..LEFT };
pub const RIGHT: Style = Style { anchor: "end", ..LEFT };

impl Style {
    pub const fn sized(self, size: i32) -> Style {
        Style { size, ..self }
    }

    pub const fn bold(self) -> Style {
        Style { bold: true, ..self }
    }

    pub const fn filled(self, fill: &'static str) -> Style {
        Style { fill, ..self }
    }
}

impl Svg {
    pub fn new(width: i32, height: i32, title: &str) -> Svg {
        let mut text = format!(
            "<svg xmlns=\"http://www.w3.org/2000/svg\" width=\"{width}\" height=\"{height}\" \
             viewBox=\"0 0 {width} {height}\" font-family=\"DejaVu Sans, Verdana, Arial, sans-serif\" role=\"img\">\n\
             <title>{title}</title>\n"
        );
        text += "<defs><pattern id=\"erased\" width=\"5\" height=\"5\" patternUnits=\"userSpaceOnUse\" \
                 patternTransform=\"rotate(45)\"><rect width=\"5\" height=\"5\" fill=\"#fff\"/>\
                 <rect width=\"1.4\" height=\"5\" fill=\"#999\"/></pattern></defs>\n";
        let mut svg = Svg { text };
        svg.rect(0, 0, width, height, "#fff");
        svg
    }

    fn line_of(&mut self, line: std::fmt::Arguments) {
        self.text.write_fmt(line).expect("a string takes every text");
        self.text.push('\n');
    }

    pub fn rect(&mut self, x: i32, y: i32, width: i32, height: i32, fill: &str) {
        self.line_of(format_args!(
            "<rect x=\"{x}\" y=\"{y}\" width=\"{width}\" height=\"{height}\" fill=\"{fill}\"/>"
        ));
    }

    pub fn frame(&mut self, x: i32, y: i32, width: i32, height: i32, stroke: &str) {
        self.line_of(format_args!(
            "<rect x=\"{x}\" y=\"{y}\" width=\"{width}\" height=\"{height}\" fill=\"none\" stroke=\"{stroke}\"/>"
        ));
    }

    /// An upright line.
    pub fn line(&mut self, x: i32, from: i32, to: i32, stroke: &str) {
        self.line_of(format_args!("<line x1=\"{x}\" y1=\"{from}\" x2=\"{x}\" y2=\"{to}\" {stroke}/>"));
    }

    pub fn text(&mut self, x: i32, y: i32, style: Style, text: &str) {
        let Style { size, anchor, fill, bold } = style;
        let weight = if bold { " font-weight=\"bold\"" } else { "" };
        let text = text.replace('&', "&amp;").replace('<', "&lt;");
        self.line_of(format_args!(
            "<text x=\"{x}\" y=\"{y}\" font-size=\"{size}\" text-anchor=\"{anchor}\" fill=\"{fill}\"{weight}>{text}</text>"
        ));
    }

    pub fn finish(mut self) -> String {
        self.text += "</svg>\n";
        self.text
    }
}
