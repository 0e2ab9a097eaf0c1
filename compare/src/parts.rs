//! The parts of the comparison: which cases each has, and how a case is put to both sides.

use crate::cases::{Case, Line};
use crate::groups::Bounds;
use crate::guard::{self, Side};
use crate::ours::Ours;
use crate::random::Random;
use crate::rust::Rust;
use crate::{example, exhaustive, groups, guarded, many, orbits, own, projections, sectors, sums, tables, words};
use std::time::Instant;

struct Part {
    name: &'static str,
    count: usize,
    kind: Kind,
}

enum Kind {
    /// The case of a number, for both sides.
    Case(Box<dyn Fn(usize) -> Case>),
    /// What else is checked; a difference is a text.
    Check(Box<dyn Fn(usize) -> Result<(), String>>),
}

/// Random parts have so many shares of the random cases.
const SHARES: usize = 10_000;

/// Differences that are printed of one part; the others are counted.
const PRINTED: usize = 5;

/// Letters of an answer that are printed before and after the place where the answers part.
const SHOWN: usize = 100;

fn parts(seed: u64, count: usize) -> Vec<Part> {
    let random = |name: &'static str, share: usize, bounds: fn(&mut Random) -> Bounds, make: fn(&mut Random, Bounds) -> Case| {
        let case = move |number| {
            let mut random = Random::of(seed, name, number);
            let bounds = bounds(&mut random);
            make(&mut random, bounds)
        };
        Part { name, count: (count * share).div_ceil(SHARES), kind: Kind::Case(Box::new(case)) }
    };
    // Each listed case twice, so that its lists stand at the one and at the other guard page.
    let listed = |name: &'static str, cases: Vec<Case>| {
        let count = 2 * cases.len();
        Part { name, count, kind: Kind::Case(Box::new(move |number| cases[number / 2].clone())) }
    };
    // What is checked of our library alone, under each group of short inputs.
    let counted = |name: &'static str, check: fn(usize, &Line) -> Result<(), String>| {
        let groups = exhaustive::counted();
        let count = groups.len();
        Part { name, count, kind: Kind::Check(Box::new(move |number| check(groups[number].0, &groups[number].1))) }
    };
    vec![
        random("words", 1_000, Bounds::all, words::case),
        random("groups", 1_500, Bounds::all, groups::case),
        random("lists", 2_000, Bounds::all, groups::faulty_case),
        random("cycles", 500, Bounds::all, groups::cycle_case),
        random("orbits", 2_500, Bounds::common, orbits::case),
        random("sectors", 2_000, Bounds::common, sectors::case),
        random("many", 1_000, Bounds::common, many::case),
        random("own", 500, own::bounds, own::case),
        random("sums", 500, Bounds::common, sums::case),
        random("projections", 500, Bounds::common, projections::case),
        random("tables", 250, Bounds::common, tables::case),
        random("forged", 500, Bounds::common, guarded::forged_case),
        random("large", 2, Bounds::all, orbits::large_case),
        listed("shapes", many::cases()),
        listed("layouts", own::cases()),
        listed("exhaustive", exhaustive::cases()),
        counted("pairs", exhaustive::count_pairs),
        counted("back", exhaustive::come_back),
        listed("guarded", guarded::cases()),
        Part { name: "example", count: 1, kind: Kind::Check(Box::new(|_| example::check())) },
    ]
}

impl Part {
    fn check(&self, seed: u64, number: usize) -> Result<(), String> {
        guard::watch(seed, self.name, number);
        match &self.kind {
            Kind::Case(case) => compare(&case(number), number),
            Kind::Check(check) => check(number),
        }
    }
}

/// Runs all parts whose names have a text, with a line for each; how many cases there were and how many differ.
pub fn compare_all(seed: u64, count: usize, only: &str) -> (usize, usize) {
    let mut total = (0, 0);
    for part in parts(seed, count).into_iter().filter(|part| part.name.contains(only)) {
        let start = Instant::now();
        let differ = compare_part(&part, seed);
        println!("{}: {} compared, {differ} differ, {:.1} s", part.name, part.count, start.elapsed().as_secs_f64());
        total = (total.0 + part.count, total.1 + differ);
    }
    total
}

fn compare_part(part: &Part, seed: u64) -> usize {
    let mut differ = 0;
    for number in 0..part.count {
        if let Err(difference) = part.check(seed, number) {
            differ += 1;
            if differ <= PRINTED {
                println!("{} {number} differs; alone: compare/run --seed {seed} --alone {} {number}\n{difference}", part.name, part.name);
            }
        }
    }
    differ
}

/// Runs one case, after its lines; how many differ, or none if there is no such case. A random part has a case of every number.
pub fn compare_alone(seed: u64, name: &str, number: usize) -> Option<usize> {
    let part = parts(seed, usize::MAX / SHARES).into_iter().find(|part| part.name == name && number < part.count)?;
    if let Kind::Case(case) = &part.kind {
        println!("{}", lines(&case(number)));
    }
    let result = part.check(seed, number);
    let differ = usize::from(result.is_err());
    if let Err(difference) = result {
        println!("differs:\n{difference}");
    }
    println!("1 compared, {differ} differ");
    Some(differ)
}

/// Puts a case to both sides. Its lists stand at the one or the other guard page by its number.
fn compare(case: &Case, number: usize) -> Result<(), String> {
    let side = if number.is_multiple_of(2) { Side::After } else { Side::Before };
    let (mut rust, mut ours) = (Rust::new(), Ours::new(side));
    for (i, line) in case.iter().enumerate() {
        let (expected, found) = (rust.answer(line), ours.answer(line));
        if expected != found {
            return Err(difference(&case[..=i], &expected, &found));
        }
    }
    Ok(())
}

fn lines(case: &[Line]) -> String {
    let lines: Vec<String> = case.iter().map(Line::to_string).collect();
    lines.join("\n")
}

/// The lines up to the one that is answered differently, and both answers around the place where they part.
fn difference(case: &[Line], expected: &str, found: &str) -> String {
    let apart = expected.bytes().zip(found.bytes()).take_while(|(a, b)| a == b).count();
    let from = apart.saturating_sub(SHOWN);
    let shown = |answer: &str| {
        let part: String = answer.chars().skip(from).take(2 * SHOWN).collect();
        if from == 0 { part } else { format!("..{part}") }
    };
    format!("{}\n# expected: {}\n# ours:     {}", lines(case), shown(expected), shown(found))
}
