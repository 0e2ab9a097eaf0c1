//! Times of sides that are measured in turn: so many rounds of each, one after the other.

use std::time::{Duration, Instant};

/// How long the sides together may take, how many rounds they have at least, and how long a round of one side takes at least.
const BUDGET: Duration = Duration::from_secs(2);
const LEAST_ROUNDS: usize = 5;
const LEAST_ROUND: Duration = Duration::from_micros(500);

/// How long a round may take that goes through all words.
const WHOLE_ROUND: Duration = Duration::from_millis(100);

/// Nanoseconds: the least and the median of all rounds.
pub struct Times {
    pub least: f64,
    pub median: f64,
}

impl Times {
    fn of(mut rounds: Vec<f64>) -> Times {
        rounds.sort_by(f64::total_cmp);
        Times { least: rounds[0], median: rounds[rounds.len() / 2] }
    }

    pub fn both(&self) -> String {
        format!("{} (median {})", time(self.least), time(self.median))
    }
}

/// Nanoseconds in a readable unit.
pub fn time(nanoseconds: f64) -> String {
    match nanoseconds {
        ..1e4 => format!("{nanoseconds:.0} ns"),
        ..1e7 => format!("{:.1} µs", nanoseconds / 1e3),
        _ => format!("{:.0} ms", nanoseconds / 1e6),
    }
}

pub fn timed(call: impl FnOnce()) -> Duration {
    let start = Instant::now();
    call();
    start.elapsed()
}

/// What is measured. It takes a number of calls and how many went before, and says how long they took.
pub struct Side<'a> {
    run: Box<dyn FnMut(usize, usize) -> Duration + 'a>,
    /// Parts of a call: a time is given for one of them.
    parts: usize,
    /// Calls that a round has at least, unless that would take too long.
    calls: usize,
}

impl<'a> Side<'a> {
    /// The same call each time, of so many parts.
    pub fn of(parts: usize, mut call: impl FnMut() -> Duration + 'a) -> Side<'a> {
        Side { run: Box::new(move |calls, _| (0..calls).map(|_| call()).sum()), parts, calls: 1 }
    }

    /// Calls that go round the words.
    pub fn round<W: 'a>(words: Vec<W>, call: impl Fn(&W) + 'a) -> Side<'a> {
        let run = move |calls, before| timed(|| (before..before + calls).for_each(|i| call(&words[i % words.len()])));
        Side { run: Box::new(run), parts: 1, calls: 1 }
    }

    /// The same, through all words in each round where that does not take too long.
    pub fn whole_round<W: 'a>(words: Vec<W>, call: impl Fn(&W) + 'a) -> Side<'a> {
        let calls = words.len();
        Side { calls, ..Side::round(words, call) }
    }

    /// How long one call takes.
    pub fn once(&mut self) -> Duration {
        (self.run)(1, 0)
    }

    /// How many calls a round has.
    fn enough(&mut self) -> usize {
        let mut calls = 1;
        loop {
            let time = (self.run)(calls, 0);
            if time >= LEAST_ROUND && (calls >= self.calls || 2 * time > WHOLE_ROUND) {
                return calls;
            }
            calls *= 2;
        }
    }
}

/// Times some sides in turn.
pub fn in_turn<const N: usize>(mut sides: [Side; N]) -> [Times; N] {
    let start = Instant::now();
    let calls: [usize; N] = std::array::from_fn(|i| sides[i].enough());
    let mut rounds: [Vec<f64>; N] = std::array::from_fn(|_| Vec::new());
    while rounds[0].len() < LEAST_ROUNDS || start.elapsed() < BUDGET {
        for ((side, &calls), rounds) in sides.iter_mut().zip(&calls).zip(&mut rounds) {
            let time = (side.run)(calls, rounds.len() * calls);
            rounds.push(time.as_nanos() as f64 / (calls * side.parts) as f64);
        }
    }
    rounds.map(Times::of)
}
