//! Lines of figures, as columns to be read on a screen or as Markdown for a
//! page.

use crate::words;

/// How wide the first column is, and how wide the others are at the least.
const FIRST: usize = 38;
const OTHERS: usize = 12;

/// How lines are written.
#[derive(Clone, Copy, Debug, PartialEq, Eq)]
pub enum Form {
    /// In columns.
    Columns,
    /// As a Markdown table.
    Markdown,
}

impl Form {
    /// A title about times: columns have plain numbers, so it says of what.
    pub fn timed(self, title: &str) -> String {
        match self {
            Form::Columns => format!("{title} in nanoseconds"),
            Form::Markdown => title.to_string(),
        }
    }

    /// A time in nanoseconds: in columns with so many decimals.
    pub fn time(self, nanoseconds: f64, decimals: usize) -> String {
        match self {
            Form::Columns => format!("{nanoseconds:.decimals$}"),
            Form::Markdown => words::time(nanoseconds),
        }
    }

    /// How many times as much.
    pub fn ratio(self, ratio: f64) -> String {
        match self {
            Form::Columns => format!("{ratio:.2}"),
            Form::Markdown => words::times(ratio),
        }
    }

    /// The same of two things that may be close: then with more digits.
    pub fn close_ratio(self, ratio: f64) -> String {
        match ratio {
            close if close < 10.0 => format!("{close:.2}"),
            far => self.ratio(far),
        }
    }

    /// So many in each second.
    pub fn per_second(self, number: f64) -> String {
        match self {
            Form::Columns => format!("{number:.0}"),
            Form::Markdown => format!("{:.1} million", number / 1e6),
        }
    }
}

/// Lines of words, under heads.
pub struct Lines {
    form: Form,
    widths: Vec<usize>,
}

impl Lines {
    /// Prints what some lines are about, and their heads.
    pub fn begin(form: Form, title: &str, heads: &[impl AsRef<str>]) -> Lines {
        let lines = Lines::under(form, heads);
        match form {
            Form::Columns => println!("{title}"),
            Form::Markdown => println!("\n{}:\n", capital(title)),
        }
        lines.line(heads);
        if form == Form::Markdown {
            println!("|{}", "---|".repeat(heads.len()));
        }
        lines
    }

    /// Lines under these heads. A column is wide enough for its head.
    fn under(form: Form, heads: &[impl AsRef<str>]) -> Lines {
        let others = heads.iter().skip(1);
        let others = others.map(|head| OTHERS.max(head.as_ref().chars().count() + 1));
        Lines {
            form,
            widths: others.collect(),
        }
    }

    /// Prints a line.
    pub fn line(&self, cells: &[impl AsRef<str>]) {
        println!("{}", self.written(cells));
    }

    /// A line as it is printed. In a table the first word is not set in.
    fn written(&self, cells: &[impl AsRef<str>]) -> String {
        let (first, others) = cells.split_first().expect("a first cell");
        let (first, others) = (first.as_ref(), others.iter().map(AsRef::as_ref));
        match self.form {
            Form::Columns => {
                let others = others.zip(&self.widths);
                let others = others.map(|(cell, &width)| format!(" {cell:>width$}"));
                format!("{first:<FIRST$}{}", others.collect::<String>())
            }
            Form::Markdown => {
                let others: Vec<&str> = others.collect();
                format!("| {} | {} |", first.trim_start(), others.join(" | "))
            }
        }
    }
}

/// What is measured.
#[derive(Clone, Copy, Debug, PartialEq, Eq)]
pub enum Unit {
    /// Times in nanoseconds, in columns with so many decimals.
    Nanoseconds(usize),
    /// A number in each second.
    PerSecond,
}

/// Some lines about one thing, each with a figure of the library, one of the
/// reference and their ratio.
pub struct Sheet {
    lines: Lines,
    unit: Unit,
}

impl Sheet {
    /// Prints the head of some lines: what they are about, what they name, and
    /// what their ratio is.
    pub fn begin(form: Form, unit: Unit, title: &str, inputs: &str, ratio: &str) -> Sheet {
        let title = match unit {
            Unit::Nanoseconds(_) => form.timed(title),
            Unit::PerSecond => title.to_string(),
        };
        let lines = Lines::begin(form, &title, &[inputs, "library", "reference", ratio]);
        Sheet { lines, unit }
    }

    /// Prints a line. A figure is missing where a side gave up.
    pub fn line(&self, what: &str, sides: [Option<f64>; 2], ratio: Option<f64>) {
        self.lines.line(&self.cells(what, sides, ratio));
    }

    /// The cells of a line.
    fn cells(&self, what: &str, sides: [Option<f64>; 2], ratio: Option<f64>) -> [String; 4] {
        let words = |figure: Option<f64>| figure.map_or("gave up".into(), |f| self.words(f));
        let [library, reference] = sides.map(words);
        let ratio = ratio.map_or(String::new(), |ratio| self.lines.form.ratio(ratio));
        [what.to_string(), library, reference, ratio]
    }

    /// A figure in words.
    fn words(&self, figure: f64) -> String {
        let form = self.lines.form;
        match self.unit {
            Unit::Nanoseconds(decimals) => form.time(figure, decimals),
            Unit::PerSecond => form.per_second(figure),
        }
    }
}

/// The same words with a capital letter at the front.
fn capital(words: &str) -> String {
    let mut letters = words.chars();
    let first = letters.next().into_iter().flat_map(char::to_uppercase);
    first.chain(letters).collect()
}

#[cfg(test)]
mod tests {
    use super::{capital, Form, Lines, Sheet, Unit};

    const HEADS: [&str; 4] = ["inputs", "library", "reference", "reference / library"];

    fn written(
        form: Form,
        unit: Unit,
        what: &str,
        sides: [Option<f64>; 2],
        ratio: Option<f64>,
    ) -> String {
        let lines = Lines::under(form, &HEADS);
        let sheet = Sheet { lines, unit };
        sheet.lines.written(&sheet.cells(what, sides, ratio))
    }

    #[test]
    fn columns_stand_below_each_other() {
        let (form, unit) = (Form::Columns, Unit::Nanoseconds(1));
        let line = written(form, unit, "the shop's table T", [Some(31.04), None], None);
        let heads = Lines::under(form, &HEADS).written(&HEADS);
        assert_eq!(line.chars().count(), 38 + 13 + 13 + 21);
        assert_eq!(heads.chars().count(), line.chars().count());
        assert!(line.starts_with("the shop's table T  "));
        assert!(line.contains(" 31.0      gave up "));
    }

    #[test]
    fn tables_have_units() {
        let (form, times) = (Form::Markdown, Unit::Nanoseconds(0));
        let sides = [Some(79e6), Some(929_920.0)];
        let line = written(form, times, "  worst", sides, Some(0.0118));
        assert_eq!(line, "| worst | 79 ms | 930 µs | 0.012 |");
        let sides = [Some(23_975_888.0), None];
        let line = written(form, Unit::PerSecond, "nodes", sides, None);
        assert_eq!(line, "| nodes | 24.0 million | gave up |  |");
    }

    #[test]
    fn a_title_says_of_what_plain_numbers_are() {
        let titles = [Form::Columns, Form::Markdown].map(|form| form.timed("time"));
        assert_eq!(titles, ["time in nanoseconds", "time"]);
    }

    #[test]
    fn close_ratios_have_more_digits() {
        let ratios = [0.978, 1.04, 17.6].map(|ratio| Form::Markdown.close_ratio(ratio));
        assert_eq!(ratios, ["0.98", "1.04", "18"]);
    }

    #[test]
    fn a_title_begins_with_a_capital() {
        assert_eq!(capital("time of one list"), "Time of one list");
        assert_eq!(capital(""), "");
    }
}
