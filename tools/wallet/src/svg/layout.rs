//! Where the boxes of a tree stand: a row for each level, every node in the
//! middle above its children, and subtrees as near to each other as their
//! outlines allow.

/// A place in the picture, in pixels.
pub type Pixels = i64;

/// The least distance between two boxes of a row.
pub const BETWEEN: Pixels = 14;

/// What the layout has to know of a node. A node comes before its children,
/// and these stand in their order.
#[derive(Clone, Copy, Debug)]
pub struct Extent {
    /// The width that is kept free for it.
    pub width: Pixels,
    /// The index of the node above.
    pub parent: Option<usize>,
}

/// The middles of the nodes, and how wide the tree is; its left edge is at 0.
pub struct Tree {
    /// The middle of each node.
    pub middles: Vec<Pixels>,
    /// The children of each node, by index.
    pub children: Vec<Vec<usize>>,
    /// The right edge.
    pub width: Pixels,
}

/// How far a subtree reaches to the left and to the right of its root's
/// middle, level by level from the root down.
type Outline = Vec<(Pixels, Pixels)>;

/// A subtree whose children have been put side by side.
#[derive(Default)]
struct Subtree {
    outline: Outline,
    /// The children and where their middles are, seen from this one's.
    children: Vec<(usize, Pixels)>,
}

/// Places a tree.
pub fn place(extents: &[Extent]) -> Tree {
    let children = children(extents);
    let subtrees = subtrees(extents, &children);
    let mut middles = vec![0; extents.len()];
    for (index, subtree) in subtrees.iter().enumerate() {
        for &(child, offset) in &subtree.children {
            middles[child] = middles[index] + offset;
        }
    }
    let edges = |index: usize| {
        let half = extents[index].width / 2;
        (middles[index] - half, middles[index] + half)
    };
    let left = (0..extents.len()).map(|index| edges(index).0).min();
    let right = (0..extents.len()).map(|index| edges(index).1).max();
    let (left, right) = (left.unwrap_or(0), right.unwrap_or(0));
    middles.iter_mut().for_each(|middle| *middle -= left);
    Tree {
        middles,
        children,
        width: right - left,
    }
}

/// The children of every node.
fn children(extents: &[Extent]) -> Vec<Vec<usize>> {
    let mut children: Vec<Vec<usize>> = vec![Vec::new(); extents.len()];
    for (index, extent) in extents.iter().enumerate() {
        if let Some(parent) = extent.parent {
            children[parent].push(index);
        }
    }
    children
}

/// The subtree of every node. They are made from the last node on, so that a
/// node's children are there before it.
fn subtrees(extents: &[Extent], children: &[Vec<usize>]) -> Vec<Subtree> {
    let mut subtrees: Vec<Subtree> = Vec::new();
    subtrees.resize_with(extents.len(), Subtree::default);
    for index in (0..extents.len()).rev() {
        subtrees[index] = joined(extents[index].width, &children[index], &subtrees);
    }
    subtrees
}

/// The subtree of a node of this width with these children.
fn joined(width: Pixels, children: &[usize], subtrees: &[Subtree]) -> Subtree {
    let mut row: Outline = Vec::new();
    let mut places: Vec<(usize, Pixels)> = Vec::new();
    for &child in children {
        let outline = &subtrees[child].outline;
        let near = row.iter().zip(outline);
        let needed = near.map(|(there, new)| there.1 + BETWEEN - new.0);
        let shift = needed.max().unwrap_or(0);
        add(&mut row, outline, shift);
        places.push((child, shift));
    }
    let first = places.first().map_or(0, |place| place.1);
    let last = places.last().map_or(0, |place| place.1);
    let middle = (first + last) / 2;
    places.iter_mut().for_each(|place| place.1 -= middle);
    let below = row.iter().map(|edges| (edges.0 - middle, edges.1 - middle));
    let half = width / 2;
    Subtree {
        outline: std::iter::once((-half, half)).chain(below).collect(),
        children: places,
    }
}

/// Adds a subtree on the right of a row of others.
fn add(row: &mut Outline, outline: &Outline, shift: Pixels) {
    for (level, edges) in outline.iter().enumerate() {
        let shifted = (edges.0 + shift, edges.1 + shift);
        match row.get_mut(level) {
            Some(there) => there.1 = shifted.1,
            None => row.push(shifted),
        }
    }
}
