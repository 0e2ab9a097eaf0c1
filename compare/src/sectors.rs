//! Cases on sectors: numerators, their table, and which words modes keep.

use crate::cases::*;
use crate::groups::{self, Bounds, Chosen};
use crate::random::Random;
use crate::words;
use ppvm_pauli_sum::symmetry::group::TranslationGroup;

/// A mode list: reduced, of both signs, or with the extremes.
pub fn modes(random: &mut Random, group: &TranslationGroup) -> Vec<i32> {
    let mode = |random: &mut Random, order: i32| match random.below(8) {
        0 => random.pick(&[i32::MIN, i32::MAX, i32::MIN + 1, -1]),
        1 => random.bits() as i32,
        2 => -order,
        3 => random.below(order as usize) as i32,
        4 => -(random.below(order as usize) as i32),
        _ => 0,
    };
    (0..group.n_generators()).map(|g| mode(random, group.generator_order(g) as i32)).collect()
}

/// A digit of a counter: reduced or any.
fn digit(random: &mut Random, order: u32) -> u32 {
    let any = random.bits() as u32;
    if random.once_in(4) { random.pick(&[u32::MAX, order, any]) } else { any % order }
}

/// Some words and mode lists of a group, numerators, the table, and the indices of the same digits.
pub fn case(random: &mut Random, bounds: Bounds) -> Case {
    let Chosen { line, group } = groups::group(random, bounds);
    let (order, places) = (group.order(), group.n_generators());
    let mut case = vec![line];
    for _ in 0..random.within(1..=3) {
        let word = words::word(random, &group);
        case.extend(words::handed_over(random, word));
        for _ in 0..2 {
            case.extend([Line::Modes(modes(random, &group)), Line::Sector { places }]);
        }
    }
    for _ in 0..2 {
        let digits: Vec<u32> = (0..places).map(|g| digit(random, group.generator_order(g))).collect();
        case.extend([Line::Numerator(digits.clone()), Line::Index(digits)]);
    }
    if order <= 1024 {
        case.push(Line::Table { places: order });
    }
    case
}
