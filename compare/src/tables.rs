//! Phase tables. The Rust has none: what is expected is the table of cosines and sines as floats give it, and document 02's form and rules, tested here
//! in 128 bits. And the cases: tables with some numbers changed, as files and as values.

use crate::cases::*;
use crate::groups::Bounds;
use crate::projections::{self, UNIT};
use crate::random::Random;
use crate::sizes::*;
use std::f64::consts::TAU;
use std::sync::LazyLock;

/// The cosines and the sines of the entries.
pub type Table = [Vec<i64>; 2];

const QUARTER: usize = PHASES / 4;

/// How far a product may be off, in units of 2^-60.
const SLACK: i128 = 1 << 31;

static CONSTANT: LazyLock<Table> = LazyLock::new(|| {
    let part =
        |of: fn(f64) -> f64| (0..PHASES).map(|entry| (of(TAU * entry as f64 / PHASES as f64) * UNIT as f64).round() as i64).collect();
    [part(f64::cos), part(f64::sin)]
});

/// Each number the nearest: none is so near to a tie that a float could miss it.
pub fn constant() -> Table {
    CONSTANT.clone()
}

/// Whether a table is the constant one, as a line on a file tells it.
pub fn told(table: &Table) -> &'static str {
    if *table == *CONSTANT { ", constant" } else { ", another" }
}

/// Whether a table has its numbers in their range and keeps the rules.
pub fn passes([cosines, sines]: &Table) -> bool {
    let unit = i128::from(UNIT);
    let entry = |j: usize| (i128::from(cosines[j % PHASES]), i128::from(sines[j % PHASES]));
    let (c1, s1) = entry(1);
    let near = |a: i128, b: i128| (a - b).abs() <= SLACK;
    let kept = |j: usize| {
        let ((c, s), next) = (entry(j), entry(j + 1));
        let order = j >= QUARTER || next.0 < c && s < next.1;
        let product = near(c * c1 - s * s1, unit * next.0) && near(c * s1 + s * c1, unit * next.1);
        entry(j + QUARTER) == (-s, c) && order && product && near(c * c + s * s, unit * unit)
    };
    let inside = [cosines, sines].iter().all(|list| list.iter().all(|&number| (-UNIT..=UNIT).contains(&number)));
    inside && entry(0) == (unit, 0) && (0..PHASES).all(kept)
}

/// The number that a field writes, if it is one; those of many digits count as the largest.
fn number(field: &[u8]) -> Option<i64> {
    let digits = field.strip_prefix(b"-").unwrap_or(field);
    let right = !digits.is_empty() && digits.iter().all(u8::is_ascii_digit) && (digits[0] != b'0' || field == b"0");
    right.then(|| String::from_utf8_lossy(field).parse().unwrap_or(i64::MAX))
}

/// The table that a file writes: 34, 35.
pub fn read(file: &[u8]) -> Result<Table, Refusal> {
    let form = || {
        let lines: Vec<&[u8]> = file.strip_suffix(b"\n")?.split(|&byte| byte == b'\n').collect();
        let (names, entries) = lines.split_first()?;
        let line = |line: &&[u8]| match line.split(|&byte| byte == b' ').collect::<Vec<_>>()[..] {
            [cosine, sine] => Some((number(cosine)?, number(sine)?)),
            _ => None,
        };
        let numbers = entries.iter().map(line).collect::<Option<Vec<_>>>()?;
        (file.len() <= MAX_FILE && *names == b"cos sin" && numbers.len() == PHASES).then_some(numbers)
    };
    let numbers = form().ok_or(refusal(34, &[]))?;
    let table = [numbers.iter().map(|&(cosine, _)| cosine).collect(), numbers.iter().map(|&(_, sine)| sine).collect()];
    if passes(&table) { Ok(table) } else { Err(refusal(35, &[])) }
}

/// The lines of a table's file.
pub fn lines([cosines, sines]: &Table) -> Vec<String> {
    let entries = cosines.iter().zip(sines).map(|(cosine, sine)| format!("{cosine} {sine}"));
    std::iter::once("cos sin".to_string()).chain(entries).collect()
}

pub fn file(lines: &[String]) -> Vec<u8> {
    lines.iter().flat_map(|line| format!("{line}\n").into_bytes()).collect()
}

/// Adds to the cosine or the sine of an entry, in so many of its four turned places: (c, s) becomes (-s, c), and again.
pub fn change(table: &mut Table, entry: usize, sine: bool, by: i64, places: usize) {
    let mut part = [0, 0];
    part[usize::from(sine)] = by;
    for quarter in 0..places {
        let at = (entry + quarter * QUARTER) % PHASES;
        table[0][at] += part[0];
        table[1][at] += part[1];
        part = [-part[1], part[0]];
    }
}

/// A table with some numbers changed, mostly by little and in all their turned places; its file, seldom with a byte that does not belong there; and sums
/// read against what it hands back, or against such a table as a value.
pub fn case(random: &mut Random, bounds: Bounds) -> Case {
    let mut table = constant();
    for _ in 0..random.below(5) {
        let by = if random.once_in(8) { random.pick(&[1 << 10, 1 << 20, 1 << 30, 1 << 40]) } else { random.within(0..=6) as i64 - 3 };
        let places = if random.once_in(8) { random.within(1..=4) } else { 4 };
        change(&mut table, random.below(PHASES), random.once_in(2), by, places);
    }
    let mut bytes = file(&lines(&table));
    if random.once_in(4) {
        let at = random.below(bytes.len());
        match random.below(3) {
            0 => bytes.insert(at, random.pick(b"0123456789- \n\rx")),
            1 => bytes[at] = random.pick(b"0123456789- \n\rx"),
            _ => bytes.truncate(at),
        }
    }
    let mut case = vec![Line::PhaseFile(bytes)];
    if random.once_in(4) {
        case.push(Line::PhaseTable);
        case.extend((0..random.within(0..=2)).map(|_| Line::SetPhase {
            sine: random.once_in(2),
            entry: random.below(PHASES),
            value: random.pick(&[0, UNIT, UNIT + 1, -UNIT - 1, i64::MAX, i64::MIN]),
        }));
    }
    case.extend(projections::case(random, bounds));
    case
}
