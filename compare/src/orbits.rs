//! Cases on orbits: least words, indices, shifts, words at an index, orbit lists and walks.

use crate::cases::*;
use crate::groups::{self, Bounds, Chosen};
use crate::random::Random;
use crate::sizes::*;
use crate::{sectors, words};
use ppvm_pauli_sum::symmetry::group::TranslationGroup;

/// The word in force at some indices: the first, the last, any, and one that is not below the order.
pub fn at_indices(random: &mut Random, group: &TranslationGroup) -> [Line; 4] {
    let order = group.order();
    [0, order - 1, random.below(order), random.pick(&[order, order + 1, MAX_ORDER, usize::MAX])].map(Line::At)
}

/// The representative of a word, in either form, and at the index that leads back the word again.
pub fn way_back(random: &mut Random, group: &TranslationGroup, word: &[u8]) -> Case {
    let (least, index) = words::representative(group, word);
    [words::handed_over(random, least), vec![Line::At(index)]].concat()
}

/// Least words and the way back, for some words of a group, and the whole orbit of one.
pub fn case(random: &mut Random, bounds: Bounds) -> Case {
    let Chosen { line, group } = groups::group(random, bounds);
    let (order, places) = (group.order(), group.n_generators());
    let mut case = vec![line];
    let mut word = Vec::new();
    for _ in 0..random.within(1..=3) {
        word = words::word(random, &group);
        case.extend(words::handed_over(random, word.clone()));
        case.push(Line::WithIndex);
    }
    case.extend([Line::Canonicalize, Line::WithShift { places }]);
    if order <= 1024 {
        case.push(Line::OrbitList { bytes: WORD_BYTES * order });
    }
    if order <= 256 {
        let first = random.below(order + 1);
        case.extend([Line::Orbit, Line::Next(first), Line::Next(order - first), Line::Next(2)]);
    }
    case.extend(at_indices(random, &group));
    case.extend(way_back(random, &group, &word));
    case
}

/// Two words of a wide lattice, for a list that is replayed: each call that walks it, and few steps.
pub fn wide_case(random: &mut Random, _: Bounds) -> Case {
    let Chosen { line, group } = groups::of_lattice(random.pick(&groups::WIDE));
    let places = group.n_generators();
    let mut case = vec![line, Line::Order, Line::Modes(sectors::modes(random, &group))];
    for _ in 0..2 {
        case.push(Line::Word(words::word(random, &group)));
        case.extend([Line::Text, Line::Weight, Line::WithShift { places }, Line::Sector { places }, Line::Orbit, Line::Next(3)]);
    }
    let index = random.below(group.order());
    case.extend([Line::Index(group.counter_from_index(index)), Line::At(index)]);
    case
}

/// A word of a group of more than 100,000 elements: the calls that walk it, once each, and the word at some indices.
pub fn large_case(random: &mut Random, _: Bounds) -> Case {
    let Chosen { line, group } = groups::large_group(random, 100_000);
    let (order, places) = (group.order(), group.n_generators());
    let word = words::word(random, &group);
    let index = random.below(order);
    let mut case = vec![line, Line::Order, Line::Modulus];
    case.extend(words::handed_over(random, word));
    case.extend([Line::WithIndex, Line::Invert(index)]);
    let zeros = random.once_in(2);
    case.push(Line::Modes((0..places).map(|_| if zeros { 0 } else { random.bits() as i32 }).collect()));
    case.extend([Line::Sector { places }, Line::Counter { index, places }, Line::Index(group.counter_from_index(index)), Line::At(index)]);
    case.extend(at_indices(random, &group));
    if random.once_in(8) {
        case.push(Line::Table { places: order });
        if group.n_qubits() <= OLD_SITES {
            case.push(Line::OrbitList { bytes: WORD_BYTES * order });
        }
    }
    case
}
