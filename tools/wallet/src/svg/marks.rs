//! The marks of which a picture is made, written as SVG: rectangles, strokes
//! and lines of text in a fixed-width font.

use std::fmt::Write;

use crate::markup::escaped;
use crate::svg::layout::Pixels;
use crate::svg::lines::columns;

/// The size of the font.
pub const FONT: Pixels = 12;
/// The size of the question, which is large.
pub const LARGE: Pixels = 14;
/// The size of node numbers, which are small.
const SMALL: Pixels = 10;

// The colours: of text, of lines and remarks, behind everything, behind the
// words, and of what is accepted or good enough and of what is at fault.
pub const INK: &str = "#1f2328";
pub const PALE: &str = "#636c76";
pub const WHITE: &str = "#ffffff";
pub const LIGHT: &str = "#f3f5f7";
pub const GOOD: &str = "#116329";
pub const LIGHT_GOOD: &str = "#e8f5ea";
pub const BAD: &str = "#b42318";
pub const LIGHT_BAD: &str = "#fdecea";

/// A rectangle of the picture.
#[derive(Clone, Copy)]
pub struct Rectangle {
    /// The left edge.
    pub left: Pixels,
    /// The upper edge.
    pub top: Pixels,
    /// From left to right.
    pub width: Pixels,
    /// From top to bottom.
    pub height: Pixels,
}

/// A picture in the making.
pub struct Marks {
    svg: String,
}

impl Marks {
    /// A white picture of this size, with a title and a description.
    ///
    /// Everything else stands half a pixel further right and down, so that the
    /// strokes are sharp at full size. They are wide enough to be seen at half
    /// size, and are drawn with shades: without them programs leave out strokes
    /// that fall between two pixels. Their ends are square, so that they meet in
    /// corners and where one part of a picture follows another.
    pub fn new(width: Pixels, height: Pixels, title: &str, description: &str) -> Marks {
        let svg = format!(
            "<svg xmlns=\"http://www.w3.org/2000/svg\" role=\"img\" width=\"{width}\" \
             height=\"{height}\" viewBox=\"0 0 {width} {height}\" \
             font-family=\"'DejaVu Sans Mono', Menlo, Consolas, monospace\" \
             font-size=\"{FONT}\">\n\
             <title>{}</title>\n\
             <desc>{}</desc>\n\
             <rect width=\"{width}\" height=\"{height}\" fill=\"{WHITE}\"/>\n\
             <g transform=\"translate(0.5 0.5)\" stroke-width=\"1.5\" \
             stroke-linecap=\"square\">\n",
            escaped(title),
            escaped(description)
        );
        Marks { svg }
    }

    /// The whole document.
    pub fn finish(mut self) -> String {
        self.svg.push_str("</g>\n</svg>\n");
        self.svg
    }

    /// A rectangle; with a thicker edge of some colour, if it is marked with that.
    pub fn rectangle(&mut self, place: Rectangle, fill: &str, mark: Option<&str>) {
        let Rectangle {
            left,
            top,
            width,
            height,
        } = place;
        let edge = match mark {
            Some(colour) => format!("stroke=\"{colour}\" stroke-width=\"2.5\""),
            None => format!("stroke=\"{PALE}\""),
        };
        self.add(format_args!(
            "<rect x=\"{left}\" y=\"{top}\" width=\"{width}\" height=\"{height}\" \
             fill=\"{fill}\" {edge}/>"
        ));
    }

    /// A stroke from one place to another.
    pub fn stroke(&mut self, from: (Pixels, Pixels), to: (Pixels, Pixels)) {
        self.add(format_args!(
            "<line x1=\"{}\" y1=\"{}\" x2=\"{}\" y2=\"{}\" stroke=\"{PALE}\"/>",
            from.0, from.1, to.0, to.1
        ));
    }

    /// A line of text.
    pub fn plain(&mut self, x: Pixels, y: Pixels, ink: &str, text: &str) {
        self.text(x, y, ink, "", text);
    }

    /// A line of bold text.
    pub fn bold(&mut self, x: Pixels, y: Pixels, ink: &str, text: &str) {
        self.text(x, y, ink, " font-weight=\"bold\"", text);
    }

    /// A line of italic text.
    pub fn italic(&mut self, x: Pixels, y: Pixels, ink: &str, text: &str) {
        self.text(x, y, ink, " font-style=\"italic\"", text);
    }

    /// A line of large bold text.
    pub fn large(&mut self, x: Pixels, y: Pixels, ink: &str, text: &str) {
        let look = format!(" font-size=\"{LARGE}\" font-weight=\"bold\"");
        self.text(x, y, ink, &look, text);
    }

    /// A line of small text, which ends at x.
    pub fn small(&mut self, x: Pixels, y: Pixels, ink: &str, text: &str) {
        let look = format!(" font-size=\"{SMALL}\" text-anchor=\"end\"");
        self.text(x, y, ink, &look, text);
    }

    /// A line of text. Spaces in front of it are left free, as SVG itself
    /// would not leave them.
    fn text(&mut self, x: Pixels, y: Pixels, ink: &str, look: &str, text: &str) {
        let words = text.trim_start();
        let indent = columns(text) - columns(words);
        let x = x + line_width(indent, FONT);
        let words = escaped(words);
        self.add(format_args!(
            "<text x=\"{x}\" y=\"{y}\" fill=\"{ink}\"{look}>{words}</text>"
        ));
    }

    fn add(&mut self, element: std::fmt::Arguments) {
        // Writing to a string does not fail.
        let _ = writeln!(self.svg, "{element}");
    }
}

/// The width of so many columns in a font of this size: the letters of
/// fixed-width fonts are not wider than 0.605 of their size.
pub fn line_width(columns: usize, size: Pixels) -> Pixels {
    (columns as Pixels * size * 605 + 999) / 1_000
}

/// How many columns fit into a width in a font of this size.
pub fn fitting_columns(width: Pixels, size: Pixels) -> usize {
    let fits = |columns: &usize| line_width(*columns, size) <= width;
    (1..).take_while(fits).count()
}
