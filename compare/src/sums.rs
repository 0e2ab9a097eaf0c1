//! Cases on sums: rows of few orbits or of many, with coefficients of every kind.

use crate::cases::*;
use crate::groups::{self, Bounds, Chosen};
use crate::random::Random;
use crate::sizes::*;
use crate::words;
use ppvm_pauli_sum::symmetry::group::TranslationGroup;

/// How many rows a sum may have for its cost: so many on few sites and one element, and the fewer the longer a walk is.
pub fn work(group: &TranslationGroup, rows: usize) -> usize {
    rows * OLD_SITES / group.n_qubits().max(OLD_SITES) / group.order()
}

/// A sum of up to some dozen rows, seldom of many, in either form.
pub fn case(random: &mut Random, bounds: Bounds) -> Case {
    let Chosen { line, group } = groups::group(random, bounds);
    let work = work(&group, 200_000);
    let rows = if random.once_in(100) { random.size(MAX_ROWS).min(work) } else { random.size(40).min(work) };
    let orbits: Vec<Vec<u8>> = (0..random.within(1..=8)).map(|_| words::word(random, &group)).collect();
    let mut case = vec![line, Line::Clear];
    let small = random.once_in(2);
    for _ in 0..rows {
        let word = if random.once_in(4) { words::word(random, &group) } else { moved(random, &orbits, &group) };
        case.extend([Line::Word(word), Line::Row(coefficient(random, small))]);
    }
    if words::as_old(random, group.n_qubits()) {
        case.extend([Line::OldRows, Line::SumOf(old_sum_lengths(rows)), Line::Clear]);
    } else {
        case.push(Line::Sum);
    }
    case
}

/// A word of one of some orbits.
pub fn moved(random: &mut Random, orbits: &[Vec<u8>], group: &TranslationGroup) -> Vec<u8> {
    words::moved(&random.pick(orbits), &groups::element(group, random.below(group.order())))
}

/// A finite coefficient: whole numbers that cancel, zeros of both signs, subnormal ones, and any whose sums stay finite.
fn coefficient(random: &mut Random, small: bool) -> f64 {
    if small {
        return random.pick(&[1.0, -1.0, 0.5, -0.25, 3.0, 0.0, -0.0]);
    }
    match random.below(8) {
        0 => random.pick(&[0.0, -0.0, f64::MIN_POSITIVE, -f64::MIN_POSITIVE, 1e-310, 5e-324, 1e300, -1e300]),
        1 => random.below(2001) as f64 - 1000.0,
        2 => f64::from_bits(random.bits() & 0x800f_ffff_ffff_ffff),
        3 => (random.below(2001) as f64 - 1000.0) / 7.0 * 10f64.powi(random.below(40) as i32 - 20),
        _ => f64::from_bits(random.bits() >> 2 | random.bits() << 63),
    }
}
