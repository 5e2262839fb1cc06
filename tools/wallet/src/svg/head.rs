//! What stands above the tree of a picture: the question, and below it the
//! verdict.

use crate::svg::layout::Pixels;
use crate::svg::lines::{broken, columns};
use crate::svg::marks::{fitting_columns, line_width, Marks, BAD, FONT, GOOD, INK, LARGE};
use crate::svg::plan::{ASCENT, LINE};

/// The height of a large line.
const LARGE_LINE: Pixels = 20;
/// The room between the head and the tree.
const BELOW: Pixels = 22;

/// The lines above a tree.
pub struct Head {
    question: Vec<String>,
    verdict: Vec<String>,
    colour: &'static str,
}

impl Head {
    /// The lines that say this, and are no wider than this.
    pub fn new(question: &str, verdict: &str, accepted: bool, width: Pixels) -> Head {
        Head {
            question: broken(question, fitting_columns(width, LARGE)),
            verdict: broken(verdict, fitting_columns(width, FONT)),
            colour: if accepted { GOOD } else { BAD },
        }
    }

    /// From top to bottom, the room before the tree included.
    pub fn height(&self) -> Pixels {
        let question = self.question.len() as Pixels * LARGE_LINE;
        let verdict = self.verdict.len() as Pixels * LINE;
        question + verdict + BELOW
    }

    /// From left to right.
    pub fn width(&self) -> Pixels {
        let widest = |lines: &[String], size| {
            let widths = lines.iter().map(|line| line_width(columns(line), size));
            widths.max().unwrap_or(0)
        };
        widest(&self.question, LARGE).max(widest(&self.verdict, FONT))
    }

    /// Draws the lines from this corner on.
    pub fn draw(&self, corner: (Pixels, Pixels), marks: &mut Marks) {
        let (x, mut y) = (corner.0, corner.1 + ASCENT);
        for line in &self.question {
            marks.large(x, y, INK, line);
            y += LARGE_LINE;
        }
        for line in &self.verdict {
            marks.bold(x, y, self.colour, line);
            y += LINE;
        }
    }
}
