//! Times in words.

use std::time::Duration;

/// A time in nanoseconds, in the unit that suits it, with two digits or three.
pub fn time(nanoseconds: f64) -> String {
    let units = [(1.0, "ns"), (1e3, "µs"), (1e6, "ms")];
    let suits = |(scale, _): &(f64, &str)| nanoseconds / scale < 999.5;
    let (scale, unit) = units.into_iter().find(suits).unwrap_or((1e9, "s"));
    let value = nanoseconds / scale;
    if value < 9.95 {
        format!("{value:.1} {unit}")
    } else {
        format!("{value:.0} {unit}")
    }
}

/// A duration, in the same way.
pub fn duration(duration: Duration) -> String {
    time(duration.as_nanos() as f64)
}

/// That something takes longer than this.
pub fn more_than(limit: Duration) -> String {
    format!("more than {}", duration(limit))
}

/// How many times as much, with two digits at least.
pub fn times(ratio: f64) -> String {
    match ratio {
        ratio if ratio < 0.095 => format!("{ratio:.3}"),
        ratio if ratio < 0.95 => format!("{ratio:.2}"),
        ratio if ratio < 9.95 => format!("{ratio:.1}"),
        ratio => format!("{ratio:.0}"),
    }
}

#[cfg(test)]
mod tests {
    use super::{duration, more_than, time, times};
    use std::time::Duration;

    #[test]
    fn times_have_the_unit_that_suits_them() {
        let words = [
            (0.0, "0.0 ns"),
            (31.4, "31 ns"),
            (999.4, "999 ns"),
            (999.6, "1.0 µs"),
            (5_249.0, "5.2 µs"),
            (9_960.0, "10 µs"),
            (79_000_000.0, "79 ms"),
            (999_600_000.0, "1.0 s"),
            (61e9, "61 s"),
        ];
        for (nanoseconds, expected) in words {
            assert_eq!(time(nanoseconds), expected);
        }
    }

    #[test]
    fn durations_are_times() {
        let half = Duration::from_millis(500);
        assert_eq!(duration(half), "500 ms");
        assert_eq!(more_than(half), "more than 500 ms");
    }

    #[test]
    fn ratios_have_two_digits() {
        assert_eq!(
            [0.004, 0.31, 2.53, 17.6].map(times),
            ["0.004", "0.31", "2.5", "18"]
        );
    }
}
