//! A node of a picture: its box, what stands on the branch to it, and what
//! stands under it.

use crate::svg::boxes::{Sheet, Tone};
use crate::svg::layout::Pixels;
use crate::svg::marks::{Marks, Rectangle};
use crate::svg::marks::{BAD, GOOD, INK, LIGHT, LIGHT_BAD, LIGHT_GOOD, PALE, WHITE};
use crate::svg::plan::{box_height, box_width, under_height, ASCENT, INSIDE, LINE};

/// Draws a node whose box and whose label have these left upper corners.
pub fn draw(sheet: &Sheet, corner: (Pixels, Pixels), label: (Pixels, Pixels), marks: &mut Marks) {
    let room = Rectangle {
        left: corner.0,
        top: corner.1,
        width: box_width(sheet),
        height: box_height(sheet),
    };
    let under = Rectangle {
        top: room.top + room.height,
        height: under_height(sheet),
        ..room
    };
    let (fill, fill_under, mark) = match sheet.tone {
        Tone::Plain => (WHITE, LIGHT, None),
        Tone::Good => (LIGHT_GOOD, LIGHT_GOOD, Some(GOOD)),
        Tone::Bad => (LIGHT_BAD, LIGHT_BAD, Some(BAD)),
    };
    // The letters on a branch stand in the middle of their lines.
    let first = (label.0 + INSIDE / 2, label.1 + ASCENT + 1);
    lines(first, &sheet.branch, |x, y, line| {
        marks.italic(x, y, PALE, line)
    });
    marks.rectangle(room, fill, mark);
    if under.height > 0 {
        marks.rectangle(under, fill_under, mark);
    }
    inside(sheet, room, marks);
    let first = (under.left + INSIDE, under.top + INSIDE + ASCENT);
    let ink = mark.unwrap_or(INK);
    lines(first, &sheet.under, |x, y, line| {
        marks.plain(x, y, ink, line)
    });
}

/// What stands in a node's box.
fn inside(sheet: &Sheet, room: Rectangle, marks: &mut Marks) {
    let (left, first) = (room.left + INSIDE, room.top + INSIDE + ASCENT);
    let right = room.left + room.width - INSIDE;
    marks.small(right, first, PALE, &sheet.number);
    lines((left, first), &sheet.goal, |x, y, line| {
        marks.bold(x, y, INK, line)
    });
    let next = first + LINE * sheet.goal.len() as Pixels;
    lines((left, next), &sheet.credential, |x, y, line| {
        marks.plain(x, y, INK, line)
    });
}

/// Draws lines below each other, the first at this place.
fn lines(first: (Pixels, Pixels), lines: &[String], mut draw: impl FnMut(Pixels, Pixels, &str)) {
    for (line, y) in lines.iter().zip((first.1..).step_by(LINE as usize)) {
        draw(first.0, y, line);
    }
}
