//! A sample of the Rust's answers as a list: lines of cases, and beside them what the listed Rust says to each, never what we say. A program of the gate
//! replays it.

use crate::cases::{Case, Line};
use crate::groups::{self, Bounds};
use crate::random::Random;
use crate::rust::Rust;
use crate::sizes::*;
use crate::{orbits, sectors, sums, words};
use std::fs;
use std::io;
use std::ops::RangeInclusive;
use std::path::Path;

/// The same list each time.
const SEED: u64 = 1;

type Make = fn(&mut Random, Bounds) -> Case;

/// How many cases there are of each kind, and how large their groups are.
const KINDS: [(&str, usize, fn(&mut Random) -> Bounds, Make); 9] = [
    ("words", 500, Bounds::small, words::case),
    ("groups", 500, Bounds::small, groups::case),
    ("lists", 1200, Bounds::small, groups::faulty_case),
    ("orbits", 700, Bounds::small, orbits::case),
    ("sectors", 700, Bounds::small, sectors::case),
    ("sums", 300, Bounds::small, sums::case),
    ("larger orbits", 30, |_| LARGER, orbits::case),
    ("larger sectors", 30, |_| LARGER, sectors::case),
    ("wide", 12, |_| LARGER, orbits::wide_case),
];

const LARGER: Bounds = Bounds { sites: OLD_SITES, order: 32_768 };

/// Writes the lines to `stdin` and the Rust's answers to `stdout` in a folder.
pub fn write(folder: &str) -> io::Result<()> {
    let (mut stdin, mut stdout) = (String::new(), String::new());
    for (name, count, bounds, make) in KINDS {
        for number in 0..count {
            let mut random = Random::of(SEED, name, number);
            let bounds = bounds(&mut random);
            for (line, answer) in answered(&make(&mut random, bounds)) {
                stdin += &format!("{line}\n");
                stdout += &format!("{answer}\n");
            }
        }
    }
    fs::create_dir_all(folder)?;
    fs::write(Path::new(folder).join("stdin"), stdin)?;
    fs::write(Path::new(folder).join("stdout"), stdout)
}

/// The rules that the Rust has, too.
const OF_THE_RUST: RangeInclusive<usize> = 4..=12;

/// The lines of a case that the Rust itself answers: not those that a rule of ours alone refuses, and none after a refused group.
fn answered(case: &Case) -> Vec<(&Line, String)> {
    let mut rust = Rust::new();
    let mut answered = Vec::new();
    for line in case {
        let answer = rust.answer(line);
        if refused_by(&answer).is_none_or(|rule| OF_THE_RUST.contains(&rule)) {
            answered.push((line, answer));
        }
        if rust.group().is_none() {
            break;
        }
    }
    answered
}

/// The rule that an answer names, if it is a refusal.
fn refused_by(answer: &str) -> Option<usize> {
    let rule = answer.strip_prefix("refused ")?;
    rule.split(|letter: char| !letter.is_ascii_digit()).next()?.parse().ok()
}
