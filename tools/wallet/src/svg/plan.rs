//! Where everything in a picture stands, in whichever way its tree is laid
//! out, and how large the boxes are.

use crate::svg::boxes::Sheet;
use crate::svg::layout::Pixels;
use crate::svg::lines::columns;
use crate::svg::marks::{fitting_columns, line_width, FONT};

/// The height of a line, the room around the lines of a box, and how far below
/// that room the first line's letters stand.
pub const LINE: Pixels = 16;
pub const INSIDE: Pixels = 8;
pub const ASCENT: Pixels = 11;

/// A box with its place.
#[derive(Clone)]
pub struct Placed {
    /// What it says, in lines that have room.
    pub sheet: Sheet,
    /// Its left upper corner.
    pub corner: (Pixels, Pixels),
    /// That of what stands on the branch to it.
    pub label: (Pixels, Pixels),
}

impl Placed {
    /// The upper edge, that of what stands above the box included.
    fn head(&self) -> Pixels {
        match self.sheet.branch.is_empty() {
            true => self.corner.1,
            false => self.label.1,
        }
    }

    /// The lower edge, that of what stands under the box included.
    pub fn foot(&self) -> Pixels {
        self.corner.1 + box_height(&self.sheet) + under_height(&self.sheet)
    }
}

/// A stroke straight down or to the right: where it begins and where it ends.
pub type Stroke = [(Pixels, Pixels); 2];

/// A tree with its places. Its upper left corner is at 0.
pub struct Plan {
    /// The boxes.
    pub boxes: Vec<Placed>,
    /// The branches.
    pub strokes: Vec<Stroke>,
    /// From left to right.
    pub width: Pixels,
    /// From top to bottom.
    pub height: Pixels,
}

impl Plan {
    /// The plan of boxes that stand below each other, in parts that are no
    /// higher than this, if a box is not. It is cut halfway between two boxes.
    pub fn cut(self, most: Pixels) -> Vec<Plan> {
        let mut parts = Vec::new();
        let mut top = 0;
        for (above, below) in self.boxes.iter().zip(self.boxes.iter().skip(1)) {
            let between = below.head() - above.foot();
            if below.foot() + between / 2 - top > most {
                let foot = above.foot() + between / 2;
                parts.push(self.part(top, foot));
                top = foot;
            }
        }
        parts.push(self.part(top, self.height));
        parts
    }

    /// What of the plan stands between two heights.
    fn part(&self, top: Pixels, foot: Pixels) -> Plan {
        let moved = |(x, y): (Pixels, Pixels)| (x, y - top);
        let boxes = self.boxes.iter();
        let boxes = boxes.filter(|own| (top..foot).contains(&own.corner.1));
        let boxes = boxes.map(|own| Placed {
            sheet: own.sheet.clone(),
            corner: moved(own.corner),
            label: moved(own.label),
        });
        let strokes = self.strokes.iter();
        let strokes = strokes.filter(|[from, to]| from.1 < foot && to.1 > top);
        let within = |(x, y): (Pixels, Pixels)| moved((x, y.clamp(top, foot)));
        let strokes = strokes.map(|ends| ends.map(within));
        Plan {
            boxes: boxes.collect(),
            strokes: strokes.collect(),
            width: self.width,
            height: foot - top,
        }
    }
}

/// The width of a node's box, which is even so that it has a middle.
pub fn box_width(sheet: &Sheet) -> Pixels {
    even(line_width(sheet.columns(), FONT) + 2 * INSIDE)
}

/// How many columns a box of this width has.
pub fn box_columns(width: Pixels) -> usize {
    // One pixel may be needed to make the width even.
    fitting_columns(width - 2 * INSIDE - 1, FONT)
}

/// The width of what stands on the branch to a node.
pub fn label_width(sheet: &Sheet) -> Pixels {
    let widest = sheet.branch.iter().map(|line| columns(line)).max();
    widest.map_or(0, |widest| even(line_width(widest, FONT) + INSIDE))
}

/// The height of what stands on the branch to a node.
pub fn label_height(sheet: &Sheet) -> Pixels {
    sheet.branch.len() as Pixels * LINE
}

/// The height of a node's box.
pub fn box_height(sheet: &Sheet) -> Pixels {
    block_height(sheet.goal.len() + sheet.credential.len())
}

/// The height of what stands under a node's box.
pub fn under_height(sheet: &Sheet) -> Pixels {
    match sheet.under.len() {
        0 => 0,
        lines => block_height(lines),
    }
}

/// The height of so many lines with room around them.
fn block_height(lines: usize) -> Pixels {
    lines as Pixels * LINE + 2 * INSIDE
}

/// The number itself if it is even, or else the next one.
fn even(width: Pixels) -> Pixels {
    width + width % 2
}
