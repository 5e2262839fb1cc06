//! A tree from top to bottom: every node below the one before it, and further
//! to the right than the node above. However many branches the tree has, it is no
//! wider than a page.

use crate::derivation::Node;
use crate::svg::boxes::Sheet;
use crate::svg::layout::Pixels;
use crate::svg::plan::{box_columns, box_width, label_height, Placed, Plan, Stroke};
use crate::svg::plan::{INSIDE, LINE};

/// How much further to the right a level stands than the one above it, and how
/// far from the left edge of a box the line to its children goes down.
const STEP: Pixels = 26;
const RAIL: Pixels = 12;
/// Between two boxes, and between a box and what stands above it.
const BETWEEN: Pixels = 12;
const BESIDE: Pixels = 3;
/// Boxes have at most so many columns, so that lines can be read.
const MOST_COLUMNS: usize = 84;

/// The tree, which is no wider than this.
pub fn indented(nodes: &[Node], sheets: &[Sheet], width: Pixels) -> Plan {
    let mut boxes: Vec<Placed> = Vec::new();
    let mut foot = -BETWEEN;
    for (node, sheet) in nodes.iter().zip(sheets) {
        let left = STEP * Pixels::from(node.level.saturating_sub(1));
        let sheet = sheet.broken(box_columns(width - left).min(MOST_COLUMNS));
        let label = foot + BETWEEN;
        let top = match label_height(&sheet) {
            0 => label,
            height => label + height + BESIDE,
        };
        let placed = Placed {
            sheet,
            corner: (left, top),
            label: (left, label),
        };
        foot = placed.foot();
        boxes.push(placed);
    }
    let right = boxes.iter().map(|own| own.corner.0 + box_width(&own.sheet));
    Plan {
        width: right.max().unwrap_or(0),
        height: foot,
        strokes: branches(nodes, &boxes),
        boxes,
    }
}

/// The branches: from each node a line down to its last child, and from that
/// line one to each child.
fn branches(nodes: &[Node], boxes: &[Placed]) -> Vec<Stroke> {
    let mut strokes = Vec::new();
    // How far down the line of each node goes.
    let mut ends: Vec<Option<Pixels>> = vec![None; nodes.len()];
    for (node, own) in nodes.iter().zip(boxes) {
        let Some(parent) = node.parent else { continue };
        let middle = own.corner.1 + INSIDE + LINE / 2;
        let rail = boxes[parent].corner.0 + RAIL;
        strokes.push([(rail, middle), (own.corner.0, middle)]);
        ends[parent] = Some(middle);
    }
    for (own, end) in boxes.iter().zip(ends) {
        let rail = own.corner.0 + RAIL;
        strokes.extend(end.map(|end| [(rail, own.foot()), (rail, end)]));
    }
    strokes
}
