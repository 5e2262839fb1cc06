//! A tree in rows: a row for each level, from the goal down, every node in the
//! middle above its children.

use crate::derivation::Node;
use crate::svg::boxes::Sheet;
use crate::svg::layout::{place, Extent, Pixels, Tree};
use crate::svg::plan::{
    box_height, box_width, label_height, label_width, under_height, Placed, Plan, Stroke, LINE,
};

/// How many columns the boxes have at most, and up to how many more they may have
/// so that their words stay whole. The first of these with which the tree is narrow
/// enough are taken.
const LIMITS: [(usize, usize); 8] = [
    (36, 60),
    (36, 48),
    (36, 36),
    (32, 36),
    (28, 36),
    (25, 36),
    (22, 36),
    (19, 36),
];

/// From the foot of a row to the bar of its branches.
const BAR: Pixels = 14;
/// The room above and below what stands on a branch.
const BESIDE: Pixels = 6;

/// The tree with the longest lines with which it is no wider than this; or
/// nothing, if it is wider with all of them.
pub fn in_rows(nodes: &[Node], sheets: &[Sheet], width: Pixels) -> Option<Plan> {
    let plans = LIMITS.iter().map(|limits| Rows::new(nodes, sheets, limits));
    let mut fitting = plans.filter(|rows| rows.tree.width <= width);
    fitting.next().map(|rows| rows.plan())
}

/// A tree whose boxes have lines of some length.
struct Rows {
    sheets: Vec<Sheet>,
    tree: Tree,
    /// The top of each node's row, and its foot.
    rows: Vec<(Pixels, Pixels)>,
}

impl Rows {
    /// The tree whose boxes have so many columns.
    fn new(nodes: &[Node], sheets: &[Sheet], limits: &(usize, usize)) -> Rows {
        let (least, most) = *limits;
        let broken = |sheet: &Sheet| sheet.broken(sheet.whole().clamp(least, most));
        let sheets: Vec<Sheet> = sheets.iter().map(broken).collect();
        let extents = sheets.iter().zip(nodes).map(|(sheet, node)| Extent {
            width: box_width(sheet).max(label_width(sheet)),
            parent: node.parent,
        });
        let tree = place(&extents.collect::<Vec<Extent>>());
        let rows = rows(nodes, &sheets);
        Rows { sheets, tree, rows }
    }

    /// Where everything stands.
    fn plan(self) -> Plan {
        let strokes = (0..self.sheets.len()).flat_map(|index| self.branches(index));
        let boxes = (0..self.sheets.len()).map(|index| self.placed(index));
        Plan {
            boxes: boxes.collect(),
            strokes: strokes.collect(),
            width: self.tree.width,
            height: self.rows.iter().map(|row| row.1).max().unwrap_or(0),
        }
    }

    /// A node's box.
    fn placed(&self, index: usize) -> Placed {
        let sheet = &self.sheets[index];
        let (middle, top) = (self.tree.middles[index], self.rows[index].0);
        let above = top - BESIDE - label_height(sheet);
        Placed {
            corner: (middle - box_width(sheet) / 2, top),
            label: (middle - label_width(sheet) / 2, above),
            sheet: sheet.clone(),
        }
    }

    /// The branches that lead to a node's children: a line down to an only child; or
    /// else a line down to a bar, and from there one to each child.
    fn branches(&self, index: usize) -> Vec<Stroke> {
        let children = &self.tree.children[index];
        let middle = |index: usize| self.tree.middles[index];
        let foot = self.rows[index].0 + box_height(&self.sheets[index]);
        let bar = self.rows[index].1 + BAR;
        match children.as_slice() {
            [] => Vec::new(),
            [only] => self.drop(*only, foot),
            [first, .., last] => {
                let mut strokes = vec![
                    [(middle(index), foot), (middle(index), bar)],
                    [(middle(*first), bar), (middle(*last), bar)],
                ];
                let drops = children.iter().flat_map(|child| self.drop(*child, bar));
                strokes.extend(drops);
                strokes
            }
        }
    }

    /// The line from this height down to a node, which leaves room for what stands
    /// on it.
    fn drop(&self, index: usize, from: Pixels) -> Vec<Stroke> {
        let (x, top) = (self.tree.middles[index], self.rows[index].0);
        match label_height(&self.sheets[index]) {
            0 => vec![[(x, from), (x, top)]],
            height => {
                let foot = top - BESIDE;
                vec![[(x, from), (x, foot - height)], [(x, foot), (x, top)]]
            }
        }
    }
}

/// The top and the foot of each node's row. A row is as high as its highest
/// node, and stands so far below the one above that what is on the branches has
/// room.
fn rows(nodes: &[Node], sheets: &[Sheet]) -> Vec<(Pixels, Pixels)> {
    let deepest = nodes.iter().map(level).max().unwrap_or(0);
    let mut sizes = vec![(LINE, 0); deepest + 1];
    for (node, sheet) in nodes.iter().zip(sheets) {
        let (label, height) = &mut sizes[level(node)];
        *label = label_height(sheet).max(*label);
        *height = (box_height(sheet) + under_height(sheet)).max(*height);
    }
    let mut rows = Vec::new();
    let mut foot = 0;
    for (label, height) in sizes {
        let top = match rows.is_empty() {
            true => 0,
            false => foot + BAR + label + 2 * BESIDE,
        };
        foot = top + height;
        rows.push((top, foot));
    }
    nodes.iter().map(|node| rows[level(node)]).collect()
}

/// A node's level, from 0.
fn level(node: &Node) -> usize {
    node.level as usize - 1
}
