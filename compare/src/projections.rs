//! Projected sums. The Rust has no such call: what is expected is computed here, exactly, over the Rust's walk and its numerators. And the cases: rows of
//! few orbits or of many, with whole coefficients, mostly under groups whose phase modulus divides the entries of a turn.

use crate::cases::*;
use crate::groups::{self, Bounds, Chosen};
use crate::random::Random;
use crate::rust::{Row, Word, word};
use crate::sizes::*;
use crate::sums::{moved, work};
use crate::tables::Table;
use crate::{sectors, words};
use ppvm_pauli_sum::symmetry::group::TranslationGroup;
use ppvm_pauli_sum::symmetry::inner;
use std::collections::BTreeMap;

/// The number that stands for 1.
pub const UNIT: i64 = 1 << 30;

/// By a phase table: how many rows are kept, and the representatives of these with their sums, in rising order.
pub fn project(table: &Table, group: &TranslationGroup, modes: &[i32], rows: &[Row<i64>]) -> (usize, BTreeMap<Word, [i128; 2]>) {
    let mut kept = 0;
    let mut sums = BTreeMap::new();
    for row in rows {
        let word = word(group.n_qubits(), &row.word);
        if group.canonicalize_in_sector(&word, modes).is_none() {
            continue;
        }
        kept += 1;
        let representative = group.canonicalize(&word);
        let entry = entry(group, modes, &representative, &word);
        let sum = sums.entry(representative).or_insert([0; 2]);
        *sum = [0, 1].map(|i| sum[i] + i128::from(row.coefficient) * i128::from(table[i][entry]));
    }
    (kept, sums)
}

/// The entry of a word: the phase of the first entry of its representative's walk that is the word.
fn entry(group: &TranslationGroup, modes: &[i32], representative: &Word, word: &Word) -> usize {
    let mut walk = inner::orbit_with_counters(group, representative);
    let (_, counter) = walk.find(|(entry, _)| entry == word).expect("the walk of a representative has all words of its orbit");
    inner::character_numerator(group, modes, &counter) * PHASES / inner::phase_modulus(group)
}

/// A group whose phase modulus is above 2 and divides the entries of a turn, so that phases have two signs; seldom another.
fn group(random: &mut Random, bounds: Bounds) -> Chosen {
    let any = random.once_in(16);
    loop {
        let chosen = groups::group(random, bounds);
        let modulus = inner::phase_modulus(&chosen.group);
        if any || modulus > 2 && PHASES.is_multiple_of(modulus) {
            return chosen;
        }
    }
}

/// A mode list: of every kind, or each mode any that is reduced.
fn modes(random: &mut Random, group: &TranslationGroup) -> Vec<i32> {
    if random.once_in(4) {
        return sectors::modes(random, group);
    }
    (0..group.n_generators()).map(|g| random.below(group.generator_order(g) as usize) as i32).collect()
}

/// A word: often one that some elements fix, or any.
fn word_text(random: &mut Random, group: &TranslationGroup) -> Vec<u8> {
    if random.once_in(2) { words::word(random, group) } else { words::text(random, group.n_qubits()) }
}

/// A sum of up to some dozen rows, seldom of many, in either form, under two mode lists.
pub fn case(random: &mut Random, bounds: Bounds) -> Case {
    let Chosen { line, group } = group(random, bounds);
    let work = work(&group, 100_000);
    let rows = if random.once_in(100) { random.size(MAX_ROWS).min(work) } else { random.within(0..=40).min(work) };
    let orbits: Vec<Vec<u8>> = (0..random.within(1..=8)).map(|_| word_text(random, &group)).collect();
    let mut case = vec![line, Line::Clear];
    let small = random.once_in(2);
    for _ in 0..rows {
        let word = if random.once_in(4) { word_text(random, &group) } else { moved(random, &orbits, &group) };
        case.extend([Line::Word(word), Line::Whole(coefficient(random, small))]);
    }
    let project = if words::as_old(random, group.n_qubits()) {
        case.push(Line::OldRows);
        Line::ProjectOf(old_sum_lengths(rows))
    } else {
        Line::Project
    };
    for _ in 0..2 {
        case.extend([Line::Modes(modes(random, &group)), project.clone()]);
    }
    case.push(Line::Clear);
    case
}

/// A coefficient: few, so that sums cancel; those at the ends of the range; any; very seldom one beyond.
fn coefficient(random: &mut Random, small: bool) -> i64 {
    if random.once_in(2000) {
        return random.pick(&[MAX_COEFFICIENT + 1, -MAX_COEFFICIENT - 1, i64::MAX, i64::MIN]);
    }
    if small {
        return random.pick(&[0, 1, -1, 2, -2]);
    }
    match random.below(4) {
        0 => random.pick(&[MAX_COEFFICIENT, -MAX_COEFFICIENT, MAX_COEFFICIENT - 1, 0]),
        _ => random.within(0..=2 * MAX_COEFFICIENT as usize) as i64 - MAX_COEFFICIENT,
    }
}
