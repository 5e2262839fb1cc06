//! On what machine, when and with which programs figures were measured.

use std::fs;
use std::process::Command;
use std::thread;
use std::time::{SystemTime, UNIX_EPOCH};

/// Prints a table about the machine.
pub fn print() {
    let lines = [
        ("date", date(days())),
        ("processor", processor(&text("/proc/cpuinfo"))),
        ("processors", processors()),
        ("memory", memory(&text("/proc/meminfo"))),
        ("load before the run", load(&text("/proc/loadavg"))),
        ("compiler", version("rustc")),
        ("grounder", version("gringo")),
        ("solver", version("clasp")),
    ];
    println!("| machine | |\n|---|---|");
    for (what, words) in lines {
        println!("| {what} | {words} |");
    }
}

/// The first line that a program prints about its version.
fn version(program: &str) -> String {
    let output = Command::new(program).arg("--version").output();
    let output = output.map(|output| output.stdout).unwrap_or_default();
    let text = String::from_utf8_lossy(&output);
    text.lines().next().unwrap_or("not installed").to_string()
}

/// The text of a file, empty if there is none.
fn text(path: &str) -> String {
    fs::read_to_string(path).unwrap_or_default()
}

/// How many days have gone by since the first of January 1970.
fn days() -> u64 {
    let since = SystemTime::now().duration_since(UNIX_EPOCH);
    since.map_or(0, |since| since.as_secs() / 86_400)
}

/// The date so many days after the first of January 1970, in UTC.
fn date(days: u64) -> String {
    let is_leap = |year: u64| {
        year.is_multiple_of(4) && (!year.is_multiple_of(100) || year.is_multiple_of(400))
    };
    let (mut year, mut left) = (1970, days);
    while left >= 365 + u64::from(is_leap(year)) {
        left -= 365 + u64::from(is_leap(year));
        year += 1;
    }
    let february = 28 + u64::from(is_leap(year));
    let months = [31, february, 31, 30, 31, 30, 31, 31, 30, 31, 30, 31];
    let mut month = 1;
    for length in months {
        if left < length {
            break;
        }
        left -= length;
        month += 1;
    }
    format!("{year}-{month:02}-{:02}", left + 1)
}

/// The name of the processor.
fn processor(cpuinfo: &str) -> String {
    let name = value(cpuinfo, "model name").unwrap_or("not known");
    let speed = value(cpuinfo, "cpu MHz").map_or(String::new(), |mhz| format!(", {mhz} MHz"));
    format!("{name}{speed}")
}

/// How many processors there are.
fn processors() -> String {
    let count = thread::available_parallelism();
    count.map_or("not known".into(), |count| count.to_string())
}

/// How much memory there is.
fn memory(meminfo: &str) -> String {
    let total = value(meminfo, "MemTotal").and_then(|total| total.strip_suffix(" kB"));
    let kilobytes = total.and_then(|total| total.parse::<f64>().ok());
    kilobytes.map_or("not known".into(), |kb| {
        format!("{:.1} GiB", kb / 1_048_576.0)
    })
}

/// How many programs have wanted a processor of late.
fn load(loadavg: &str) -> String {
    let load = loadavg.split_whitespace().next().unwrap_or("not known");
    format!("{load} (programs that wanted a processor, over the last minute)")
}

/// What stands after the colon in the first line that begins with a name.
fn value<'a>(text: &'a str, name: &str) -> Option<&'a str> {
    let mut lines = text.lines().filter_map(|line| line.split_once(':'));
    let line = lines.find(|(before, _)| before.trim() == name);
    line.map(|(_, after)| after.trim())
}

#[cfg(test)]
mod tests {
    use super::{date, load, memory, processor, version};

    #[test]
    fn days_are_dates() {
        let dates = [
            (0, "1970-01-01"),
            (58, "1970-02-28"),
            (59, "1970-03-01"),
            (364, "1970-12-31"),
            (11_016, "2000-02-29"),
            (11_017, "2000-03-01"),
            (20_772, "2026-11-15"),
            (20_818, "2026-12-31"),
            (47_541, "2100-03-01"),
        ];
        for (days, expected) in dates {
            assert_eq!(date(days), expected);
        }
    }

    #[test]
    fn the_machine_is_read_from_its_files() {
        let cpuinfo = "processor\t: 0\nmodel name\t: A Chip\ncpu MHz\t\t: 2000.0\n\n";
        assert_eq!(processor(cpuinfo), "A Chip, 2000.0 MHz");
        assert_eq!(memory("MemTotal:  2097152 kB\nMemFree: 5 kB\n"), "2.0 GiB");
        assert!(load("0.50 0.40 0.30 1/100 7\n").starts_with("0.50 ("));
    }

    #[test]
    fn what_is_not_told_is_not_known() {
        assert_eq!(processor(""), "not known");
        assert_eq!(memory("MemTotal: much"), "not known");
        assert!(load("").starts_with("not known"));
        assert_eq!(version("/no/such/program"), "not installed");
    }
}
