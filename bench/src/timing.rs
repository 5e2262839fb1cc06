//! How long something takes on either side, measured in turns.

use std::hint::black_box;
use std::time::{Duration, Instant};

/// How long a round should last at least.
const ROUND: Duration = Duration::from_millis(20);

/// The median times of one call on either side, in nanoseconds, over so many
/// rounds, an odd number. The rounds of the two sides take turns, so that
/// whatever slows the machine slows both.
pub fn medians<Input>(
    rounds: usize,
    inputs: &[Input],
    one: impl Fn(&Input) -> bool,
    other: impl Fn(&Input) -> bool,
) -> (f64, f64) {
    let times = (passes(inputs, &one), passes(inputs, &other));
    let mut ones = Vec::new();
    let mut others = Vec::new();
    for _ in 0..rounds {
        ones.push(round(inputs, times.0, &one));
        others.push(round(inputs, times.1, &other));
    }
    (median(ones), median(others))
}

/// How many passes over the inputs fill a round.
fn passes<Input>(inputs: &[Input], call: &impl Fn(&Input) -> bool) -> u32 {
    let mut passes = 1;
    while time(inputs, passes, call) < ROUND {
        passes *= 2;
    }
    passes
}

/// The time of one call, in nanoseconds, over so many passes.
fn round<Input>(inputs: &[Input], passes: u32, call: &impl Fn(&Input) -> bool) -> f64 {
    let calls = f64::from(passes) * inputs.len() as f64;
    time(inputs, passes, call).as_nanos() as f64 / calls
}

/// How long so many passes over the inputs take.
fn time<Input>(inputs: &[Input], passes: u32, call: &impl Fn(&Input) -> bool) -> Duration {
    let start = Instant::now();
    for _ in 0..passes {
        for input in inputs {
            black_box(call(black_box(input)));
        }
    }
    start.elapsed()
}

/// So many rounds at most are made of a call that is timed by itself.
const ROUNDS_ALONE: usize = 5;
/// No further round is begun once they have lasted so long.
const LONG: Duration = Duration::from_millis(300);

/// What a call gives, and the time of one call in nanoseconds, the median of
/// some rounds that last so long at the least. There is none if the call fails
/// or gives up. The first call shows how many there can be in a round, and
/// counts only if it takes very long.
pub fn alone<Value, Failure>(
    round: Duration,
    mut call: impl FnMut() -> Result<Value, Failure>,
) -> Result<(Value, f64), Failure> {
    let start = Instant::now();
    let value = black_box(call()?);
    let first = start.elapsed().as_nanos() as f64;
    let passes = filling(round, first);
    let mut times = Vec::new();
    while times.len() < ROUNDS_ALONE && start.elapsed() < LONG {
        times.push(repeated(passes, &mut call));
    }
    if times.is_empty() {
        times.push(first);
    }
    Ok((value, median(times)))
}

/// So many rounds at most are made of calls that take turns.
const ROUNDS_IN_TURNS: usize = 15;
/// No further turns are taken once they have lasted so long.
const LONG_TURNS: Duration = Duration::from_secs(1);

/// A call that takes turns with others.
pub type Call<'a> = Box<dyn FnMut() + 'a>;

/// The times of two calls in nanoseconds, each the median of some rounds that
/// last so long at the least and take turns.
pub fn in_turns<One, Other>(
    round: Duration,
    one: impl FnMut() -> One,
    other: impl FnMut() -> Other,
) -> [f64; 2] {
    two_turns(round, one, other).map(median)
}

/// The same with the least of the rounds, for two calls that may take nearly the
/// same time: whatever disturbs a round makes it longer.
pub fn least_in_turns<One, Other>(
    round: Duration,
    one: impl FnMut() -> One,
    other: impl FnMut() -> Other,
) -> [f64; 2] {
    two_turns(round, one, other).map(least)
}

/// The same for any number of calls. No further turns are taken once they have
/// lasted so long.
pub fn least_of_turns(round: Duration, long: Duration, calls: Vec<Call>) -> Vec<f64> {
    turns(round, long, calls).into_iter().map(least).collect()
}

/// The same with the median of the rounds.
pub fn of_turns(round: Duration, long: Duration, calls: Vec<Call>) -> Vec<f64> {
    turns(round, long, calls).into_iter().map(median).collect()
}

/// The times of the rounds of two calls.
fn two_turns<One, Other>(
    round: Duration,
    one: impl FnMut() -> One,
    other: impl FnMut() -> Other,
) -> [Vec<f64>; 2] {
    let times = turns(round, LONG_TURNS, vec![unheard(one), unheard(other)]);
    times.try_into().expect("the times of two calls")
}

/// A call whose value nobody asks for.
pub fn unheard<'a, Value>(mut call: impl FnMut() -> Value + 'a) -> Call<'a> {
    Box::new(move || {
        black_box(call());
    })
}

/// The times of the rounds of some calls. The rounds take turns, so that whatever
/// slows the machine slows all. The first turns show how many calls there can be
/// in a round. If they take very long there are no others, but a round of each
/// call of which there can be several: the first alone would say little of it.
fn turns(round: Duration, long: Duration, mut calls: Vec<Call>) -> Vec<Vec<f64>> {
    let start = Instant::now();
    let first = |call: &mut Call| repeated(1, call);
    let firsts: Vec<f64> = calls.iter_mut().map(first).collect();
    let mut times = vec![Vec::new(); calls.len()];
    while times[0].len() < ROUNDS_IN_TURNS && start.elapsed() < long {
        for ((call, &first), times) in calls.iter_mut().zip(&firsts).zip(&mut times) {
            times.push(repeated(filling(round, first), call));
        }
    }
    if times[0].is_empty() {
        for ((call, &first), times) in calls.iter_mut().zip(&firsts).zip(&mut times) {
            times.push(settled(filling(round, first), first, call));
        }
    }
    times
}

/// The time of one call over so many, of which the first is known.
fn settled<Value>(calls: u32, first: f64, call: &mut impl FnMut() -> Value) -> f64 {
    match calls {
        1 => first,
        calls => repeated(calls, call),
    }
}

/// How many calls fill a round, if one takes so many nanoseconds.
fn filling(round: Duration, one: f64) -> u32 {
    (round.as_nanos() as f64 / one.max(1.0)) as u32 + 1
}

/// The time of one call, in nanoseconds, over so many calls.
fn repeated<Value>(calls: u32, call: &mut impl FnMut() -> Value) -> f64 {
    let start = Instant::now();
    for _ in 0..calls {
        black_box(call());
    }
    start.elapsed().as_nanos() as f64 / f64::from(calls)
}

/// The times of a call on each of some inputs, in nanoseconds, ascending. There
/// are none if it gives up on one, or if all together take longer than this.
pub fn each<Input>(
    limit: Duration,
    inputs: &[Input],
    call: impl Fn(&Input) -> Option<usize>,
) -> Option<Vec<f64>> {
    let round = ROUND / inputs.len() as u32;
    let start = Instant::now();
    let mut times = Vec::new();
    for input in inputs {
        let (_, time) = alone(round, || call(black_box(input)).ok_or(())).ok()?;
        times.push(time);
        if start.elapsed() > limit {
            return None;
        }
    }
    times.sort_by(f64::total_cmp);
    Some(times)
}

/// The least of some values.
fn least(values: Vec<f64>) -> f64 {
    values.into_iter().fold(f64::INFINITY, f64::min)
}

/// The middle one of some values, the higher of two.
pub fn median(mut values: Vec<f64>) -> f64 {
    values.sort_by(f64::total_cmp);
    values[values.len() / 2]
}

#[cfg(test)]
mod tests {
    use super::{filling, in_turns, least, median, settled};
    use std::cell::RefCell;
    use std::time::Duration;

    #[test]
    fn two_calls_take_turns() {
        let made = RefCell::new(Vec::new());
        let one = || made.borrow_mut().push("one");
        let other = || made.borrow_mut().push("other");
        in_turns(Duration::ZERO, one, other);
        let made = made.into_inner();
        assert!(made.chunks(2).all(|turn| turn == ["one", "other"]));
    }

    #[test]
    fn beside_a_long_call_a_short_one_has_a_round() {
        let mut calls = 0;
        assert_eq!(settled(1, 5e9, &mut || calls += 1), 5e9);
        assert_eq!(calls, 0);
        settled(3, 300.0, &mut || calls += 1);
        assert_eq!(calls, 3);
    }

    #[test]
    fn short_calls_fill_a_round_and_a_long_one_is_a_round() {
        let round = Duration::from_micros(1);
        let calls = [0.0, 1.0, 300.0, 5e9].map(|one| filling(round, one));
        assert_eq!(calls, [1_001, 1_001, 4, 1]);
    }

    #[test]
    fn the_least_is_what_it_says() {
        assert_eq!(least(vec![3.0, 1.0, 2.0]), 1.0);
    }

    #[test]
    fn the_median_is_the_higher_of_two() {
        assert_eq!(median(vec![3.0, 1.0, 2.0]), 2.0);
        assert_eq!(median(vec![3.0, 1.0]), 3.0);
    }
}
