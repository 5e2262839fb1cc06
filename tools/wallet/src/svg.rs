//! A judged record as a picture: the tree with the words at its leaves, what
//! the automata say of them, and the verdict above.
//!
//! The picture is one SVG document that needs nothing besides. A tree that is
//! narrow enough stands in rows, from the goal down; a wider one from top to
//! bottom, each level further to the right. What is at fault is said in words and
//! has another colour too, and so has a word that meets an automaton for which one
//! word is enough.

mod boxes;
mod head;
mod indented;
mod layout;
mod lines;
mod marks;
mod plan;
mod rows;
mod sheet;

use crate::derivation::Judged;
use crate::shortened::with_short_names;
use crate::tree::{counted, verdict};
use crate::words::words;
use crate::Wallet;
use boxes::{sheets, Sheet};
use head::Head;
use indented::indented;
use layout::Pixels;
use marks::Marks;
use plan::Plan;
use rows::in_rows;

/// A picture of more nodes than this can no longer be read.
pub const MOST_NODES: usize = 500;

/// The room around the picture.
const MARGIN: Pixels = 16;

/// What a picture is drawn on.
#[derive(Clone, Copy, Debug, PartialEq, Eq)]
pub struct Paper {
    /// No picture is wider.
    pub width: Pixels,
    /// A picture that would be higher is drawn in parts that are not, as far as
    /// its boxes are not.
    pub height: Pixels,
    /// Whether the question and the verdict stand above the tree.
    pub headed: bool,
}

/// A roll of an ordinary width.
const ROLL: Paper = Paper {
    width: 1_000,
    height: Pixels::MAX,
    headed: true,
};

/// The picture of a judged record, or why there is none. The wallet is the one
/// with which the record was judged.
pub fn picture(wallet: &Wallet, judged: &Judged) -> Result<String, String> {
    Ok(pictures(wallet, judged, ROLL)?.concat())
}

/// The same on some paper, in as many parts as it needs. One below the other they
/// are the whole picture.
pub fn pictures(wallet: &Wallet, judged: &Judged, paper: Paper) -> Result<Vec<String>, String> {
    let wallet = &with_short_names(wallet);
    let words = words(wallet, judged);
    let verdict = verdict(wallet, judged, &words);
    let count = judged.nodes.len();
    if count == 0 {
        return Err(format!("there is nothing to draw: {verdict}"));
    }
    if count > MOST_NODES {
        return Err(format!(
            "{count} nodes are too many for a picture, which has at most {MOST_NODES}"
        ));
    }
    let room = paper.width - 2 * MARGIN;
    let question = wallet.names.query(judged.query);
    let accepted = judged.refusal().is_none();
    let picture = Picture {
        title: format!("{question}: {verdict}"),
        description: description(count, words.words.len()),
        head: paper
            .headed
            .then(|| Head::new(&question, &verdict, accepted, room)),
    };
    let height = paper.height - 2 * MARGIN - picture.head_height();
    let plans = plans(judged, &sheets(wallet, judged, &words), room, height);
    Ok(picture.documents(&plans))
}

/// The tree in rows if it has room, or else in parts from top to bottom.
fn plans(judged: &Judged, sheets: &[Sheet], width: Pixels, height: Pixels) -> Vec<Plan> {
    let rows = in_rows(&judged.nodes, sheets, width);
    match rows.filter(|plan| plan.height <= height) {
        Some(plan) => vec![plan],
        None => indented(&judged.nodes, sheets, width).cut(height),
    }
}

/// What a picture shows, for those who do not see it.
fn description(nodes: usize, words: usize) -> String {
    format!(
        "A tree of {} with {}. Each box has a goal and the credential through which it is \
         proved; the boxes below it have the goals on which it rests.",
        counted(nodes, "node"),
        counted(words, "whole word")
    )
}

/// What is said of a tree.
struct Picture {
    title: String,
    description: String,
    head: Option<Head>,
}

impl Picture {
    /// How high the lines above the tree are.
    fn head_height(&self) -> Pixels {
        self.head.as_ref().map_or(0, Head::height)
    }

    /// A document for each part of the tree. The first has room and the head above
    /// it, and the last has room below it; between them there is none.
    fn documents(&self, plans: &[Plan]) -> Vec<String> {
        let count = plans.len();
        let document = |(number, plan)| {
            let part = match count {
                1 => String::new(),
                _ => format!(", part {number} of {count}"),
            };
            let above = match number {
                1 => MARGIN + self.head_height(),
                _ => 0,
            };
            let below = if number == count { MARGIN } else { 0 };
            self.document(plan, &part, above, below)
        };
        (1..).zip(plans).map(document).collect()
    }

    /// The document of a part with so much room above and below it.
    fn document(&self, plan: &Plan, part: &str, above: Pixels, below: Pixels) -> String {
        let head = self.head.as_ref().map_or(0, Head::width);
        let width = plan.width.max(head) + 2 * MARGIN;
        let height = above + plan.height + below;
        let title = format!("{}{part}", self.title);
        let mut marks = Marks::new(width, height, &title, &self.description);
        if let Some(head) = self.head.as_ref().filter(|_| above > 0) {
            head.draw((MARGIN, MARGIN), &mut marks);
        }
        let moved = |place: &(Pixels, Pixels)| (MARGIN + place.0, above + place.1);
        for [from, to] in &plan.strokes {
            marks.stroke(moved(from), moved(to));
        }
        for placed in &plan.boxes {
            sheet::draw(
                &placed.sheet,
                moved(&placed.corner),
                moved(&placed.label),
                &mut marks,
            );
        }
        marks.finish()
    }
}
