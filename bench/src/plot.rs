//! A plot of times, on a logarithmic scale, against a number, as SVG.
//!
//! Curves differ in colour, in marker and in dashes, so that they can be told
//! apart without colour.

use std::fmt::Write;

use reference::Number;

/// A curve: times in nanoseconds at numbers. A time is missing if it is over
/// the limit.
pub struct Curve {
    /// Its name in the legend.
    pub name: String,
    /// Its points, from left to right.
    pub points: Vec<(Number, Option<f64>)>,
    /// Which of the colours and markers it has.
    pub look: usize,
    /// Whether its line is dashed and its markers are hollow.
    pub dashed: bool,
}

/// A plot.
pub struct Plot {
    /// What it shows.
    pub title: String,
    /// What the numbers are.
    pub across: String,
    /// The limit in nanoseconds. Missing times stand on it.
    pub limit: f64,
    /// The curves.
    pub curves: Vec<Curve>,
}

/// The size of the whole, and the sides of the field with the curves.
const SIZE: (f64, f64) = (880.0, 480.0);
const LEFT: f64 = 78.0;
const RIGHT: f64 = 600.0;
const TOP: f64 = 52.0;
const BOTTOM: f64 = 420.0;
/// How much higher than the limit the field goes, in powers of ten.
const ABOVE: f64 = 0.25;
/// Colours that most people can tell apart.
const COLOURS: [&str; 4] = ["#0072b2", "#d55e00", "#00795a", "#7a3e9d"];
/// How far from its middle a marker goes.
const MARKER: f64 = 4.5;

impl Plot {
    /// The plot as SVG.
    pub fn svg(&self) -> String {
        let (width, height) = SIZE;
        let title = escaped(&self.title);
        let mut svg = format!(
            "<svg xmlns=\"http://www.w3.org/2000/svg\" viewBox=\"0 0 {width} {height}\" \
             width=\"{width}\" height=\"{height}\" font-family=\"sans-serif\" \
             font-size=\"13\" fill=\"#222222\" role=\"img\">\n\
             <title>{title}</title>\n\
             <rect width=\"{width}\" height=\"{height}\" fill=\"#ffffff\"/>\n"
        );
        svg += &text(LEFT, 28.0, "start", 16, &self.title);
        svg += &self.grid();
        for curve in &self.curves {
            svg += &self.curve(curve);
        }
        svg += &self.legend();
        svg + "</svg>\n"
    }

    /// Grid lines with what they stand for, and the limit.
    fn grid(&self) -> String {
        let mut grid = String::new();
        let (lowest, highest) = self.powers();
        for power in (lowest as i32)..=(highest.floor() as i32) {
            let y = self.y(10f64.powi(power));
            grid += &line([(LEFT, y), (RIGHT, y)], "stroke=\"#d5d5d5\"");
            grid += &text(LEFT - 8.0, y + 4.5, "end", 13, &power_of_ten(power));
        }
        for number in self.numbers() {
            let x = self.x(number);
            grid += &line([(x, TOP), (x, BOTTOM)], "stroke=\"#ececec\"");
            grid += &text(x, BOTTOM + 19.0, "middle", 13, &number.to_string());
        }
        let sides = [(LEFT, TOP), (LEFT, BOTTOM), (RIGHT, BOTTOM)];
        grid += &line(sides, "stroke=\"#444444\"");
        let y = self.y(self.limit);
        let dots = "stroke=\"#444444\" stroke-dasharray=\"2 3\"";
        grid += &line([(LEFT, y), (RIGHT, y)], dots);
        let middle = (LEFT + RIGHT) / 2.0;
        grid += &text(middle, BOTTOM + 42.0, "middle", 13, &self.across);
        grid + &turned_text(20.0, (TOP + BOTTOM) / 2.0, "time of one list")
    }

    /// The line and the markers of a curve.
    fn curve(&self, curve: &Curve) -> String {
        let point = |&(number, time): &(Number, Option<f64>)| {
            let time = time.unwrap_or(self.limit).min(self.limit);
            (self.x(number), self.y(time))
        };
        let points: Vec<(f64, f64)> = curve.points.iter().map(point).collect();
        let mut drawn = line(points.clone(), &curve.stroke());
        for (x, y) in points {
            drawn += &curve.marker(x, y);
        }
        drawn
    }

    /// What the curves are, and what the limit is, beside the field.
    fn legend(&self) -> String {
        let mut legend = String::new();
        let left = RIGHT + 24.0;
        let mut y = TOP + 14.0;
        for curve in &self.curves {
            legend += &line([(left, y), (left + 44.0, y)], &curve.stroke());
            legend += &curve.marker(left + 22.0, y);
            legend += &text(left + 54.0, y + 4.5, "start", 13, &curve.name);
            y += 24.0;
        }
        let dots = "stroke=\"#444444\" stroke-dasharray=\"2 3\"";
        legend += &line([(left, y), (left + 44.0, y)], dots);
        legend += &text(
            left + 54.0,
            y + 4.5,
            "start",
            13,
            "limit; on it: not finished",
        );
        legend
    }

    /// The numbers at which there are points, ascending.
    fn numbers(&self) -> Vec<Number> {
        let points = self.curves.iter().flat_map(|curve| &curve.points);
        let mut numbers: Vec<Number> = points.map(|point| point.0).collect();
        numbers.sort();
        numbers.dedup();
        numbers
    }

    /// The lowest and the highest time of the field, as powers of ten: the
    /// lowest is a whole power below all times, and one below the limit.
    fn powers(&self) -> (f64, f64) {
        let points = self.curves.iter().flat_map(|curve| &curve.points);
        let times = points.filter_map(|point| point.1);
        let least = times.fold(self.limit / 10.0, f64::min).max(1.0);
        (least.log10().floor(), self.limit.log10() + ABOVE)
    }

    /// Where a time stands from top to bottom.
    fn y(&self, time: f64) -> f64 {
        let (lowest, highest) = self.powers();
        let share = (time.max(1.0).log10() - lowest) / (highest - lowest);
        BOTTOM - share * (BOTTOM - TOP)
    }

    /// Where a number stands from left to right.
    fn x(&self, number: Number) -> f64 {
        let numbers = self.numbers();
        let ends = numbers.first().zip(numbers.last());
        let (first, last) = ends.map_or((0.0, 1.0), |(&first, &last)| (first.into(), last.into()));
        let share = (f64::from(number) - first) / f64::max(last - first, 1.0);
        LEFT + 16.0 + share * (RIGHT - LEFT - 32.0)
    }
}

impl Curve {
    fn colour(&self) -> &'static str {
        COLOURS[self.look % COLOURS.len()]
    }

    /// How its line is drawn.
    fn stroke(&self) -> String {
        let dashes = match self.dashed {
            true => " stroke-dasharray=\"7 4\"",
            false => "",
        };
        format!("stroke=\"{}\" stroke-width=\"2\"{dashes}", self.colour())
    }

    /// Its marker with the middle at a place: a circle, a square, a triangle or
    /// a square on its corner.
    fn marker(&self, x: f64, y: f64) -> String {
        let fill = match self.dashed {
            true => "#ffffff",
            false => self.colour(),
        };
        let look = format!(
            "fill=\"{fill}\" stroke=\"{}\" stroke-width=\"1.6\"",
            self.colour()
        );
        let [left, right] = [x - MARKER, x + MARKER];
        let [top, bottom] = [y - MARKER, y + MARKER];
        let corners = match self.look % COLOURS.len() {
            0 => return format!("<circle cx=\"{x:.1}\" cy=\"{y:.1}\" r=\"{MARKER}\" {look}/>\n"),
            1 => vec![(left, top), (right, top), (right, bottom), (left, bottom)],
            2 => vec![(x, top - 1.0), (right + 1.0, bottom), (left - 1.0, bottom)],
            _ => vec![
                (x, top - 1.0),
                (right + 1.0, y),
                (x, bottom + 1.0),
                (left - 1.0, y),
            ],
        };
        format!("<polygon points=\"{}\" {look}/>\n", places(corners))
    }
}

/// A line through some places.
fn line(through: impl IntoIterator<Item = (f64, f64)>, look: &str) -> String {
    format!(
        "<polyline points=\"{}\" fill=\"none\" {look}/>\n",
        places(through)
    )
}

/// Places as they are written in a line.
fn places(through: impl IntoIterator<Item = (f64, f64)>) -> String {
    let mut places = String::new();
    for (x, y) in through {
        write!(places, "{x:.1},{y:.1} ").expect("a string takes what is written");
    }
    places.trim_end().to_string()
}

/// Words at a place.
fn text(x: f64, y: f64, anchor: &str, size: u16, words: &str) -> String {
    let words = escaped(words);
    format!(
        "<text x=\"{x:.1}\" y=\"{y:.1}\" text-anchor=\"{anchor}\" font-size=\"{size}\">{words}</text>\n"
    )
}

/// Words that go up, with their middle at a place.
fn turned_text(x: f64, y: f64, words: &str) -> String {
    let words = escaped(words);
    format!("<text transform=\"translate({x:.1} {y:.1}) rotate(-90)\" text-anchor=\"middle\">{words}</text>\n")
}

/// Words with the signs replaced that mean something in SVG.
fn escaped(words: &str) -> String {
    let words = words.replace('&', "&amp;").replace('<', "&lt;");
    words.replace('>', "&gt;").replace('"', "&quot;")
}

/// A power of ten nanoseconds in words.
fn power_of_ten(power: i32) -> String {
    let units = ["ns", "µs", "ms", "s"];
    let unit = (power / 3).clamp(0, 3);
    let value = 10f64.powi(power - 3 * unit);
    format!("{value:.0} {}", units[unit as usize])
}

#[cfg(test)]
mod tests {
    use super::{escaped, power_of_ten, Curve, Plot, SIZE};
    use reference::Number;

    fn curve(look: usize, dashed: bool, points: Vec<(Number, Option<f64>)>) -> Curve {
        Curve {
            name: format!("{look} <&> {dashed}"),
            points,
            look,
            dashed,
        }
    }

    fn plot(curves: Vec<Curve>) -> Plot {
        Plot {
            title: "a \"title\" < 1 & more".into(),
            across: "numbers".into(),
            limit: 1e9,
            curves,
        }
    }

    /// Whether every element is closed in order, and every attribute quoted.
    fn is_well_formed(svg: &str) -> bool {
        let mut open: Vec<&str> = Vec::new();
        let mut parts = svg.split('<');
        let mut fits = parts.next() == Some("");
        for part in parts {
            let Some((tag, words)) = part.split_once('>') else {
                return false;
            };
            let name = tag.trim_start_matches('/').split([' ', '/']).next();
            match (tag.starts_with('/'), tag.ends_with('/')) {
                (true, _) => fits &= open.pop() == name,
                (false, false) => open.extend(name),
                (false, true) => {}
            }
            fits &= tag.matches('"').count() == 2 * tag.matches('=').count();
            let named = |rest: &str| {
                ["amp;", "lt;", "gt;", "quot;"]
                    .iter()
                    .any(|name| rest.starts_with(name))
            };
            fits &= !words.contains('>') && words.split('&').skip(1).all(named);
        }
        fits && open.is_empty()
    }

    /// The places of all lines and markers.
    fn places(svg: &str) -> Vec<(f64, f64)> {
        let lists = svg.split("points=\"").skip(1);
        let lists = lists.filter_map(|rest| rest.split('"').next());
        let places = lists.flat_map(str::split_whitespace);
        let place = |place: &str| {
            let (x, y) = place.split_once(',').expect("two numbers");
            (x.parse().expect("a number"), y.parse().expect("a number"))
        };
        places.map(place).collect()
    }

    #[test]
    fn what_is_not_well_formed_is_noticed() {
        assert!(is_well_formed("<a b=\"1\"><c/>x &amp; y</a>"));
        for wrong in ["<a>", "<a></b>", "<a b=1/>", "<a>&</a>", "a", "<a"] {
            assert!(!is_well_formed(wrong), "{wrong}");
        }
    }

    #[test]
    fn plots_are_well_formed_and_stay_inside() {
        let all = || {
            let looks = (0..5).flat_map(|look| [(look, false), (look, true)]);
            let times = vec![(2, Some(0.0)), (4, Some(1e3)), (20, Some(5e9)), (21, None)];
            looks
                .map(|(look, dashed)| curve(look, dashed, times.clone()))
                .collect()
        };
        let one = vec![curve(0, false, vec![(7, Some(3e4))])];
        let unfinished = vec![curve(0, false, vec![(7, None)])];
        for curves in [vec![], vec![curve(1, true, vec![])], one, unfinished, all()] {
            let svg = plot(curves).svg();
            assert!(is_well_formed(&svg), "{svg}");
            assert!(!svg.contains("NaN") && !svg.contains("inf"));
            for (x, y) in places(&svg) {
                assert!((0.0..=SIZE.0).contains(&x) && (0.0..=SIZE.1).contains(&y));
            }
        }
    }

    #[test]
    fn longer_times_stand_higher_and_missing_ones_on_the_limit() {
        let plot = plot(vec![curve(0, false, vec![(2, Some(1e3)), (4, None)])]);
        assert!(plot.y(2e3) < plot.y(1e3));
        assert!(plot.x(4) > plot.x(2));
        let [x, y] = [plot.x(4), plot.y(1e9)].map(|place| format!("{place:.1}"));
        assert!(plot.svg().contains(&format!("cx=\"{x}\" cy=\"{y}\"")));
    }

    #[test]
    fn powers_of_ten_have_units() {
        let words = [0, 2, 3, 5, 6, 9, 12].map(power_of_ten);
        let expected = ["1 ns", "100 ns", "1 µs", "100 µs", "1 ms", "1 s", "1000 s"];
        assert_eq!(words, expected);
        assert_eq!(escaped("<a & \"b\">"), "&lt;a &amp; &quot;b&quot;&gt;");
    }
}
