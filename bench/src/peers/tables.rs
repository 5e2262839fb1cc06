//! The tables of a comparison, as Markdown.

use std::time::Duration;

use super::{Comparison, Times};
use crate::words;

/// What is said of some times: how many there are, how many are within the
/// limit, the median and the worst. Times over the limit count as longer than
/// all others.
#[derive(Clone, Copy, Debug, PartialEq)]
pub struct Figures {
    /// How many there are.
    pub all: usize,
    /// How many are within the limit.
    pub finished: usize,
    /// The median, if it is within the limit.
    pub median: Option<f64>,
    /// The worst, if it is within the limit.
    pub worst: Option<f64>,
}

/// The figures of some times, where those over the limit are missing.
pub fn figures(times: &[Option<f64>]) -> Figures {
    let mut finished: Vec<f64> = times.iter().copied().flatten().collect();
    finished.sort_by(f64::total_cmp);
    let at = |index: Option<usize>| index.and_then(|index| finished.get(index).copied());
    let last = times.len().checked_sub(1);
    Figures {
        all: times.len(),
        finished: finished.len(),
        median: at(last.map(|last| last / 2)),
        worst: at(last),
    }
}

/// All tables, one after the other, with what must be said about them.
pub fn all(comparison: &Comparison) -> String {
    let tables = [
        wallets(comparison),
        whole(comparison),
        "Median and worst by the number of credentials:\n".to_string(),
        by_size(comparison),
        "Tables of one shape, one of each:\n".to_string(),
        families(comparison),
    ];
    tables.join("\n")
}

/// What the wallets are, and how the lists compare.
fn wallets(comparison: &Comparison) -> String {
    let groups = comparison.groups.iter();
    let sets: Vec<usize> = groups.flat_map(|group| group.sets.clone()).collect();
    let all = sets.len();
    let some = sets.iter().filter(|sets| **sets > 0).count();
    let most = sets.iter().max().copied().unwrap_or(0);
    let listed = match comparison.faults {
        0 => "Every list that was finished is the library's.".to_string(),
        faults => format!("Faults: {faults}."),
    };
    let idle = comparison.idle.map_or(String::new(), |time| {
        let time = words::time(time);
        format!(" The solver's two programs take {time} with nothing to do.")
    });
    format!(
        "{all} wallets, of which {some} have a minimal set; the longest list has {most} sets. \
         {listed}{idle}\n"
    )
}

/// A table of all wallets together.
fn whole(comparison: &Comparison) -> String {
    let limit = comparison.limit;
    let finished = format!("finished within {}", seconds(limit));
    let ratio = "times as long as the library, median";
    let mut table = head(&["way", &finished, "median", "worst", ratio]);
    for (way, &name) in comparison.names.iter().enumerate() {
        let figures = figures(&of_way(comparison, way));
        let finished = format!("{} of {}", figures.finished, figures.all);
        let [median, worst] = [figures.median, figures.worst].map(|time| within(time, limit));
        let ratio = ratio_of(comparison, way);
        table += &line(&[name, &finished, &median, &worst, &ratio]);
    }
    table
}

/// A table with a line for each size.
fn by_size(comparison: &Comparison) -> String {
    let mut table = head(&[&["credentials"], &comparison.names[..]].concat());
    for group in &comparison.groups {
        let mut cells = vec![group.size.to_string()];
        for way in 0..comparison.names.len() {
            cells.push(cell(&group.of_way(way), comparison.limit));
        }
        table += &line(&cells);
    }
    table
}

/// The median and the worst of some times, and how many are within the limit
/// if not all are.
fn cell(times: &[Option<f64>], limit: Duration) -> String {
    let figures = figures(times);
    let [median, worst] = [figures.median, figures.worst].map(|time| within(time, limit));
    let finished = match figures.finished == figures.all {
        true => String::new(),
        false => format!(" ({} of {})", figures.finished, figures.all),
    };
    format!("{median}, {worst}{finished}")
}

/// A table with a line for each table of some shape.
fn families(comparison: &Comparison) -> String {
    let mut table = head(&[&["table", "sets"], &comparison.names[..]].concat());
    for family in &comparison.families {
        let mut cells = vec![family.name.clone(), family.sets.to_string()];
        let times = family.times.iter();
        cells.extend(times.map(|time| within(*time, comparison.limit)));
        table += &line(&cells);
    }
    table
}

/// The first two lines of a table.
fn head(cells: &[&str]) -> String {
    format!("{}|{}\n", line(cells), "---|".repeat(cells.len()))
}

/// A line of a table.
fn line(cells: &[impl AsRef<str>]) -> String {
    let cells: Vec<&str> = cells.iter().map(AsRef::as_ref).collect();
    format!("| {} |\n", cells.join(" | "))
}

/// A limit in words.
fn seconds(limit: Duration) -> String {
    format!("{} s", limit.as_secs_f64())
}

/// A time in words.
fn within(time: Option<f64>, limit: Duration) -> String {
    time.map_or(format!("> {}", seconds(limit)), words::time)
}

/// The times of a way on all wallets.
fn of_way(comparison: &Comparison, way: usize) -> Times {
    let groups = comparison.groups.iter();
    groups.flat_map(|group| group.of_way(way)).collect()
}

/// How many times as long as the library a way takes, in words: the median over
/// the wallets that the library finishes.
fn ratio_of(comparison: &Comparison, way: usize) -> String {
    let both = of_way(comparison, 0)
        .into_iter()
        .zip(of_way(comparison, way));
    let ratios = both.filter_map(|(library, time)| Some((library?, time)));
    let ratios = ratios.map(|(library, time)| time.map(|time| time / library));
    let ratio = figures(&ratios.collect::<Times>()).median;
    ratio.map_or("not known".into(), words::times)
}

#[cfg(test)]
mod tests {
    use super::{all, figures, Figures};
    use crate::peers::{Comparison, Family, Group};
    use std::time::Duration;

    #[test]
    fn times_over_the_limit_count_as_the_longest() {
        let times = [Some(5.0), None, Some(1.0), Some(3.0)];
        let expected = Figures {
            all: 4,
            finished: 3,
            median: Some(3.0),
            worst: None,
        };
        assert_eq!(figures(&times), expected);
        assert_eq!(figures(&times[..1]).worst, Some(5.0));
        assert_eq!(figures(&[None, None, Some(1.0)]).median, None);
        assert_eq!(figures(&[]).median, None);
    }

    fn comparison() -> Comparison {
        let small = Group {
            size: 2,
            times: vec![vec![Some(1e3), Some(1e6)], vec![Some(2e3), Some(3e6)]],
            sets: vec![1, 0],
        };
        let large = Group {
            size: 4,
            times: vec![vec![Some(4e3), None]],
            sets: vec![6],
        };
        let family = Family {
            name: "a ladder".into(),
            sets: 7,
            times: vec![Some(31e6), None],
        };
        Comparison {
            limit: Duration::from_millis(500),
            names: vec!["library", "other"],
            groups: vec![small, large],
            families: vec![family],
            idle: Some(5.9e6),
            faults: 0,
        }
    }

    #[test]
    fn the_tables_of_a_small_comparison() {
        let expected = "\
3 wallets, of which 2 have a minimal set; the longest list has 6 sets. \
Every list that was finished is the library's. \
The solver's two programs take 5.9 ms with nothing to do.

| way | finished within 0.5 s | median | worst | times as long as the library, median |
|---|---|---|---|---|
| library | 3 of 3 | 2.0 µs | 4.0 µs | 1.0 |
| other | 2 of 3 | 3.0 ms | > 0.5 s | 1500 |

Median and worst by the number of credentials:

| credentials | library | other |
|---|---|---|
| 2 | 1.0 µs, 2.0 µs | 1.0 ms, 3.0 ms |
| 4 | 4.0 µs, 4.0 µs | > 0.5 s, > 0.5 s (0 of 1) |

Tables of one shape, one of each:

| table | sets | library | other |
|---|---|---|---|
| a ladder | 7 | 31 ms | > 0.5 s |
";
        assert_eq!(all(&comparison()), expected);
    }

    #[test]
    fn faults_are_told() {
        let mut comparison = comparison();
        comparison.faults = 2;
        assert!(all(&comparison).contains(" Faults: 2."));
        assert!(!all(&comparison).contains("is the library's"));
    }
}
