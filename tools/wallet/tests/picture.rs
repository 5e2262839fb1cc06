//! Pictures are well-formed and need nothing besides, are no wider than a page,
//! and nothing in them lies upon anything else or beyond the edge.

#[allow(dead_code)]
mod shown;

use bwlchareg::{Number, Query};
use reference::generate::wide;
use shown::claims::{made_up, query, wallet};
use shown::xml::{elements, Element};
use shown::{constrained_shop, race, shop, Q};
use wallet::derivation::{judge, Judged};
use wallet::svg::{picture, pictures, Paper, MOST_NODES};
use wallet::table::Table;
use wallet::tree::text;
use wallet::words::Word;
use wallet::Wallet;

/// Record R of the shop example.
const R: [Number; 6] = [1, 2, 2, 0, 3, 0];
/// The edges of boxes that are marked.
const GOOD: &str = "#116329";
const BAD: &str = "#b42318";

/// A rectangle: left, top, right, foot.
type Room = [i64; 4];

fn room(element: &Element) -> Room {
    let [x, y, width, height] = ["x", "y", "width", "height"].map(|name| element.number(name));
    assert!(width > 0 && height > 0);
    [x, y, x + width, y + height]
}

/// Whether two rooms have more in common than an edge.
fn overlap(one: &Room, other: &Room) -> bool {
    one[0] < other[2] && other[0] < one[2] && one[1] < other[3] && other[1] < one[3]
}

/// Whether one room is in another.
fn within(one: &Room, other: &Room) -> bool {
    one[0] >= other[0] && one[1] >= other[1] && one[2] <= other[2] && one[3] <= other[3]
}

/// The room of a line of text. In a fixed-width font a letter is 0.6 of the
/// size wide; those of some scripts take two places, and marks upon them none.
fn text_room(element: &Element) -> Room {
    let size = match element.attributes.get("font-size") {
        Some(_) => element.number("font-size"),
        None => 12,
    };
    let columns = element.text.chars().map(|letter| match letter {
        '\u{301}' | '\u{93f}' | '\u{940}' | '\u{94d}' => 0,
        '\0'..='\u{52f}' => 1,
        _ => 2,
    });
    let width = (columns.sum::<i64>() * size * 6 + 9) / 10;
    let (x, y) = (element.number("x"), element.number("y"));
    match element.attributes.get("text-anchor") {
        Some(_) => [x - width, y - size, x, y + 4],
        None => [x, y - size, x + width, y + 4],
    }
}

/// The parts of a picture.
struct Parts {
    /// The whole picture.
    whole: Room,
    /// The boxes, and what stands under them.
    boxes: Vec<Room>,
    /// How many of those are marked as bad, and how many as good.
    marked: usize,
    good: usize,
    /// The strokes.
    strokes: Vec<Room>,
    /// The lines of text, and what they say.
    texts: Vec<(Room, String)>,
    /// The lines of text that stand on a branch.
    labels: Vec<Room>,
    /// The title.
    title: String,
}

/// The parts of a picture, which is well-formed and has nothing else.
fn parts(svg: &str) -> Parts {
    let elements = elements(svg);
    let names: Vec<&str> = elements.iter().map(|one| one.name.as_str()).collect();
    assert_eq!(names[..5], ["svg", "title", "desc", "rect", "g"]);
    assert_eq!(elements[0].attributes["role"], "img");
    assert!(elements[1..5].iter().all(|element| element.depth == 1));
    assert!(elements[5..].iter().all(|element| element.depth == 2));
    assert!(!svg.contains("href") && !svg.contains("url("));
    let [width, height] = ["width", "height"].map(|name| elements[0].number(name));
    let view = format!("0 0 {width} {height}");
    assert_eq!(elements[0].attributes["viewBox"], view);
    assert_eq!(elements[3].number("width"), width);
    assert_eq!(elements[3].number("height"), height);
    let mut parts = Parts {
        whole: [0, 0, width, height],
        boxes: Vec::new(),
        marked: 0,
        good: 0,
        strokes: Vec::new(),
        texts: Vec::new(),
        labels: Vec::new(),
        title: elements[1].text.clone(),
    };
    visible(&elements);
    for element in &elements[5..] {
        add(element, &mut parts);
    }
    parts
}

/// Strokes are wide enough to be seen at half size, and none may be left out
/// where it falls between two pixels.
fn visible(elements: &[Element]) {
    for element in elements {
        assert!(!element.attributes.contains_key("shape-rendering"));
        if let Some(width) = element.attributes.get("stroke-width") {
            assert!(width.parse::<f64>().expect("a width") >= 1.5);
        }
    }
    assert_eq!(elements[4].attributes["stroke-width"], "1.5");
}

/// Adds an element to the parts.
fn add(element: &Element, parts: &mut Parts) {
    let attribute = |name: &str| element.attributes.get(name).map(String::as_str);
    match element.name.as_str() {
        "rect" => {
            parts.boxes.push(room(element));
            match (attribute("stroke-width"), attribute("stroke")) {
                (None, Some(_)) => {}
                (Some(_), Some(BAD)) => parts.marked += 1,
                (Some(_), Some(GOOD)) => parts.good += 1,
                other => panic!("an edge {other:?}"),
            }
        }
        "line" => parts.strokes.push(stroke(element)),
        "text" => {
            let room = text_room(element);
            if attribute("font-style") == Some("italic") {
                parts.labels.push(room);
            }
            parts.texts.push((room, element.text.clone()));
        }
        other => panic!("an element {other}"),
    }
}

/// A stroke, which goes straight down or to the right.
fn stroke(element: &Element) -> Room {
    let ends = ["x1", "y1", "x2", "y2"].map(|name| element.number(name));
    assert!(ends[0] <= ends[2] && ends[1] <= ends[3]);
    assert!(ends[0] == ends[2] || ends[1] == ends[3]);
    ends
}

/// Checks where everything lies in a picture, which is no wider than a page.
fn check(svg: &str) -> Parts {
    let parts = parts(svg);
    assert!(parts.whole[2] <= 1_000, "{svg}");
    for (index, room) in parts.boxes.iter().enumerate() {
        assert!(within(room, &parts.whole), "{room:?} in {svg}");
        for other in &parts.boxes[..index] {
            assert!(!overlap(room, other), "{room:?} and {other:?} in {svg}");
        }
    }
    for stroke in &parts.strokes {
        assert!(within(stroke, &parts.whole));
        let texts = parts.texts.iter().map(|(room, _)| room);
        let mut rooms = parts.boxes.iter().chain(texts);
        let crossed = rooms.find(|room| crosses(stroke, room));
        assert_eq!(crossed, None, "{stroke:?} in {svg}");
    }
    let top = parts.boxes.iter().map(|room| room[1]).min();
    for (index, (room, text)) in parts.texts.iter().enumerate() {
        assert!(within(room, &parts.whole), "{text} in {svg}");
        let outside = Some(room[3]) < top || parts.labels.contains(room);
        let touched = parts.boxes.iter().filter(|other| overlap(room, other));
        assert_eq!(touched.count(), usize::from(!outside), "{text} in {svg}");
        let inside = parts.boxes.iter().any(|other| within(room, other));
        assert_eq!(inside, !outside, "{text} in {svg}");
        let others = &parts.texts[..index];
        let upon = others.iter().find(|(other, _)| overlap(room, other));
        assert_eq!(upon, None, "{text} in {svg}");
    }
    parts
}

/// How many boxes are reached by a stroke: from above in a tree in rows, and from
/// the left in one from top to bottom.
fn reached(parts: &Parts) -> (usize, usize) {
    let from_above = |stroke: &Room, room: &Room| {
        stroke[0] == stroke[2] && stroke[3] == room[1] && (room[0]..room[2]).contains(&stroke[0])
    };
    let from_left = |stroke: &Room, room: &Room| {
        stroke[1] == stroke[3] && stroke[2] == room[0] && (room[1]..room[3]).contains(&stroke[1])
    };
    let count = |reaches: &dyn Fn(&Room, &Room) -> bool| {
        let boxes = parts.boxes.iter();
        let reached = boxes.filter(|room| parts.strokes.iter().any(|stroke| reaches(stroke, room)));
        reached.count()
    };
    (count(&from_above), count(&from_left))
}

/// Whether a stroke goes through the inside of a room.
fn crosses(stroke: &Room, room: &Room) -> bool {
    let through = |from: i64, to: i64, low: i64, high: i64| from < high && to > low;
    if stroke[0] == stroke[2] {
        let beside = stroke[0] <= room[0] || stroke[0] >= room[2];
        !beside && through(stroke[1], stroke[3], room[1], room[3])
    } else {
        let beside = stroke[1] <= room[1] || stroke[1] >= room[3];
        !beside && through(stroke[0], stroke[2], room[0], room[2])
    }
}

/// Everything that a picture says, with single spaces.
fn said(parts: &Parts) -> String {
    let texts: Vec<&str> = parts.texts.iter().map(|(_, text)| text.as_str()).collect();
    texts.join(" ")
}

#[test]
fn the_shops_record_is_drawn() {
    let wallet = shop();
    let judged = judge(&wallet, Q, &R);
    let parts = check(&picture(&wallet, &judged).expect("a picture"));
    assert_eq!(
        parts.title,
        "Ann in Shop.discount within 2: accepted: used set 7 = credentials 1, 2, 3"
    );
    assert_eq!(
        said(&parts),
        "Ann in Shop.discount within 2 accepted: used set 7 = credentials 1, 2, 3 \
         1 Ann in Shop.discount 1: Shop.discount <- Shop.accredited.student \
         middle School \
         2 School in Shop.accredited 2: Shop.accredited <- School word 1 \
         3 Ann in School.student 3: School.student <- Ann word 2"
    );
    assert_eq!((parts.boxes.len(), parts.marked), (5, 0));
}

#[test]
fn rejected_words_are_marked() {
    let wallet = constrained_shop();
    let judged = judge(&wallet, Q, &R);
    let parts = check(&picture(&wallet, &judged).expect("a picture"));
    let said = said(&parts);
    for number in [1, 2] {
        let marked = format!(
            "word {number}: rejected not-for-discounts rejects \
             no state left after Shop.discount"
        );
        assert!(said.contains(&marked), "{said}");
    }
    assert_eq!((parts.boxes.len(), parts.marked), (5, 4));
    assert!(parts.title.contains("refused 14 at 1: "));
}

#[test]
fn the_word_that_is_enough_is_marked() {
    let wallet = race();
    let query = wallet.query.expect("a query");
    // Through the centre, which both constraints like.
    let judged = judge(&wallet, query, &[1, 0, 2, 0, 3, 0, 4, 4, 5, 0, 7, 0]);
    let parts = check(&picture(&wallet, &judged).expect("a picture"));
    let text = said(&parts);
    for number in [1, 2] {
        let plain = format!("word {number} through-centre rejects for-races accepts");
        assert!(text.contains(&plain), "{text}");
    }
    let enough = "word 3 through-centre accepts: met for-races accepts";
    assert!(text.contains(enough), "{text}");
    assert_eq!((parts.marked, parts.good), (0, 2));
    // Through the physiotherapist, which no word makes good.
    let judged = judge(&wallet, query, &[1, 0, 2, 0, 3, 0, 4, 5, 6, 0, 8, 0]);
    let parts = check(&picture(&wallet, &judged).expect("a picture"));
    let text = said(&parts);
    let none = "refused 14 at 1: constraint through-centre accepts none of 3 words";
    assert!(text.contains(none), "{text}");
    for number in 1..=3 {
        let rejected = format!("word {number}: rejected through-centre rejects");
        assert!(text.contains(&rejected), "{text}");
    }
    assert_eq!((parts.marked, parts.good), (6, 0));
}

#[test]
fn the_node_at_fault_is_marked() {
    let wallet = shop();
    let cases: [(&[Number], &str); 3] = [
        (&[1, 2, 2, 0], "at fault: no numbers are left for node 3"),
        (
            &[1, 4, 2, 0, 3, 0],
            "at fault: credential 2 names another principal, School",
        ),
        (&[], "at fault: no numbers are left for node 1"),
    ];
    for (record, reason) in cases {
        let judged = judge(&wallet, Q, record);
        let parts = check(&picture(&wallet, &judged).expect("a picture"));
        let said = said(&parts);
        assert!(said.contains(reason), "{said}");
        assert_eq!(parts.marked, 2);
    }
    let judged = judge(&wallet, Q, &[4, 0, 1]);
    let parts = check(&picture(&wallet, &judged).expect("a picture"));
    assert!(said(&parts).contains("refused 11 at 2: 1 number remains after the tree"));
    assert_eq!(parts.marked, 0);
}

#[test]
fn there_is_nothing_to_draw_of_a_refused_table_or_query() {
    let wallet = shop();
    let judged = judge(&wallet, Query { depth: 0, ..Q }, &R);
    let message =
        "there is nothing to draw: refused 8 at 4: the query's depth limit is out of range";
    assert_eq!(picture(&wallet, &judged), Err(message.to_string()));
    let mut wallet = shop();
    wallet.table.credentials[1].automaton = 1;
    let judged = judge(&wallet, Q, &R);
    assert!(picture(&wallet, &judged).is_err());
}

/// A judged record of levels that each have the next one four times.
fn wide_record(levels: Number) -> (Wallet, Judged) {
    let numbers = wide::records(levels).numbers();
    let table = Table::of_numbers(&numbers).expect("an accepted table");
    let wallet = Wallet {
        table,
        ..Wallet::default()
    };
    let [principal, owner, name, depth] = wide::query(levels).numbers();
    let query = Query {
        principal,
        owner,
        name,
        depth,
    };
    let judged = judge(&wallet, query, &wide::record(levels));
    (wallet, judged)
}

#[test]
fn very_large_trees_are_not_drawn() {
    let (wallet, judged) = wide_record(5);
    assert_eq!(judged.nodes.len(), 341);
    let parts = check(&picture(&wallet, &judged).expect("a picture"));
    assert_eq!(reached(&parts), (0, 340));
    let (wallet, judged) = wide_record(6);
    let message = format!("1365 nodes are too many for a picture, which has at most {MOST_NODES}");
    assert_eq!(picture(&wallet, &judged), Err(message));
}

#[test]
fn a_high_tree_is_drawn_in_parts() {
    let paper = Paper {
        width: 600,
        height: 700,
        headed: false,
    };
    let (wallet, judged) = wide_record(4);
    let parts = pictures(&wallet, &judged, paper).expect("pictures");
    let count = parts.len();
    assert!(count > 5);
    let mut numbers = Vec::new();
    for (index, part) in parts.iter().enumerate() {
        let part = check(part);
        assert!(part.whole[2] <= 600 && part.whole[3] <= 700);
        let title = format!(", part {} of {count}", index + 1);
        assert!(part.title.ends_with(&title), "{}", part.title);
        let texts = part.texts.iter().map(|(_, text)| text.parse::<usize>());
        numbers.extend(texts.filter_map(Result::ok));
    }
    assert_eq!(numbers, (1..=judged.nodes.len()).collect::<Vec<usize>>());
    // A small one stays whole, and in rows.
    let shop = shop();
    let parts = pictures(&shop, &judge(&shop, Q, &R), paper).expect("pictures");
    assert_eq!(parts.len(), 1);
    assert_eq!(reached(&check(&parts[0])), (2, 0));
}

#[test]
fn long_names_are_broken_and_all_of_them_is_there() {
    let mut wallet = shop();
    wallet.names.principals.insert(2, LONG.to_string());
    wallet
        .names
        .principals
        .insert(4, "Ann-of-".repeat(12) + "Green");
    wallet.names.roles.insert(1, "r".repeat(120));
    let judged = judge(&wallet, Q, &R);
    let parts = check(&picture(&wallet, &judged).expect("a picture"));
    let said = said(&parts).replace(' ', "");
    for node in &judged.nodes {
        let goal = wallet.names.goal(node.goal.principal, node.goal.role);
        assert!(said.contains(&goal.replace(' ', "")), "{goal} in {said}");
    }
    // Even longer ones lose their middle.
    wallet.names.roles.insert(1, "r".repeat(1_000) + "ending");
    let parts = check(&picture(&wallet, &judged).expect("a picture"));
    let cut = format!("{}\u{2026}{}ending", "r".repeat(70), "r".repeat(34));
    assert!(parts.title.contains(&cut), "{}", parts.title);
}

/// A word in which a line must be broken anywhere.
const LONG: &str =
    "Donaudampfschifffahrtselektrizitaetenhauptbetriebswerkbauunterbeamtengesellschaft";
/// Three letters with a sign upon each.
const HINDI: &str = "\u{939}\u{93f}\u{928}\u{94d}\u{926}\u{940}";

/// Names of every length for a wallet's numbers, and with every sign.
fn name_everything(wallet: &mut Wallet) {
    let names = [
        "A",
        "Shop",
        "not-for-discounts",
        "<&>",
        "\"quoted\" & 'so'",
        "]]>",
        "\u{1}\u{85}\t",
        "\u{5927}\u{5b66}\u{6821}",
        "a-name-that-is-longer-than-any-line-that-a-box-should-have",
        LONG,
        "Cafe\u{301}",
        HINDI,
        "--><script>",
    ];
    let name = |number: Number| names[number as usize % names.len()].to_string();
    wallet.names.principals = (1..=64).map(|number| (number, name(number))).collect();
    wallet.names.roles = (1..=64).map(|number| (number, name(number + 3))).collect();
    wallet.names.constraints = (1..=8).map(|number| (number, name(number + 5))).collect();
}

#[test]
fn made_up_records_are_drawn() {
    let (mut drawn, mut marked, mut good, mut largest, mut wide) = (0, 0, 0, 0, 0);
    made_up(7, 60, |claim| {
        let Some(mut wallet) = wallet(claim) else {
            return;
        };
        let judged = judge(&wallet, query(claim), &claim.record);
        if judged.nodes.is_empty() || judged.nodes.len() > MOST_NODES {
            assert!(picture(&wallet, &judged).is_err());
            return;
        }
        let parts = check(&picture(&wallet, &judged).expect("a picture"));
        check_content(&wallet, &judged, &parts);
        drawn += 1;
        marked += usize::from(parts.marked > 0);
        good += usize::from(parts.good > 0);
        largest = largest.max(judged.nodes.len());
        wide += usize::from(reached(&parts).1 > 0);
        name_everything(&mut wallet);
        let parts = check(&picture(&wallet, &judged).expect("a picture"));
        check_branches(&judged, &parts);
    });
    println!(
        "{drawn} pictures, {marked} with faults, {good} with good words, {wide} from top to \
         bottom, up to {largest} nodes"
    );
    assert!(drawn > 2_000 && marked > 1_000 && good > 50 && wide > 50 && largest > 100);
}

/// Every node but the first is reached by one branch.
fn check_branches(judged: &Judged, parts: &Parts) {
    let below = judged.nodes.len() - 1;
    let reached = reached(parts);
    assert!([(below, 0), (0, below)].contains(&reached), "{reached:?}");
}

/// Every node, word and verdict of a record is in its picture.
fn check_content(wallet: &Wallet, judged: &Judged, parts: &Parts) {
    check_branches(judged, parts);
    let words = wallet::words::words(wallet, judged);
    let faulty = usize::from(judged.faulty().is_some());
    let boxes = judged.nodes.len() + words.words.len() + faulty;
    assert_eq!(parts.boxes.len(), boxes);
    let (bad, others): (Vec<&Word>, Vec<&Word>) = words
        .words
        .iter()
        .partition(|word| words.automata.iter().any(|&own| words.is_fault(word, own)));
    assert_eq!(parts.marked, 2 * (bad.len() + faulty));
    let meets = |word: &&&Word| words.automata.iter().any(|&own| words.meets(word, own));
    assert_eq!(parts.good, 2 * others.iter().filter(meets).count());
    let said = said(parts);
    for number in 1..=words.words.len() {
        assert!(said.contains(&format!("word {number}")), "{said}");
    }
    for node in &judged.nodes {
        let goal = wallet.names.goal(node.goal.principal, node.goal.role);
        assert!(said.contains(&goal), "{goal} in {said}");
    }
    for automaton in &words.automata {
        let name = wallet.names.constraint(*automaton);
        let rejects = said.matches(&format!(" {name} rejects")).count();
        // The verdict says it once more of the lowest one.
        let above = u64::from(*automaton);
        let above = judged.refusal().is_some_and(|one| one.position == above);
        let above = above && !words.is_lenient(*automaton);
        assert_eq!(rejects, words.rejected(*automaton) + usize::from(above));
        let met = said.matches(&format!(" {name} accepts: met")).count();
        let meets = words
            .words
            .iter()
            .filter(|word| words.meets(word, *automaton));
        assert_eq!(met, meets.count());
    }
    let text = text(wallet, judged);
    let verdict = text.lines().last().unwrap_or_default();
    assert!(parts.title.ends_with(verdict), "{}", parts.title);
}
