//! Cases on many words in one call: random groups and words, and listed shapes of groups, each with words of every kind.

use crate::cases::*;
use crate::groups::{self, Bounds, Chosen, Generators};
use crate::random::Random;
use crate::sizes::*;
use crate::{sectors, sums, words};
use ppvm_pauli_sum::symmetry::group::TranslationGroup;

/// A random group; often the cells of a torus with some sites in each, or shifts beside identities.
fn group(random: &mut Random, bounds: Bounds) -> Chosen {
    match random.below(8) {
        0 => {
            let number = random.within(2..=3);
            let cells = 1 + random.size((bounds.sites / number).min(bounds.order) - 1);
            let lx = random.within(1..=cells);
            groups::sublattices(lx, cells / lx, number).chosen()
        }
        1 => {
            let mut generators = groups::shifts_of(groups::lattice(random, bounds));
            for _ in 0..random.within(1..=MAX_GENERATORS - generators.orders.len()) {
                let g = random.below(generators.orders.len() + 1);
                generators = generators.with_identity(g);
            }
            generators.chosen()
        }
        _ => groups::group(random, bounds),
    }
}

/// A word with one letter at every site.
pub fn plain(group: &TranslationGroup, letter: u8) -> Vec<u8> {
    vec![letter; group.n_qubits()]
}

/// A word with so many letters other than I, at most.
pub fn sparse(random: &mut Random, group: &TranslationGroup, letters: usize) -> Vec<u8> {
    let mut word = plain(group, b'I');
    for _ in 0..letters.min(word.len()) {
        let q = random.below(word.len());
        word[q] = random.pick(b"XYZ");
    }
    word
}

/// A word of any kind: often one that some elements fix, or with few letters, seldom with one letter alone.
pub fn word(random: &mut Random, group: &TranslationGroup) -> Vec<u8> {
    match random.below(8) {
        0 => plain(group, random.pick(b"IXYZ")),
        1..=2 => {
            let letters = random.within(1..=4);
            sparse(random, group, letters)
        }
        _ => words::word(random, group),
    }
}

fn rows(words: Vec<Vec<u8>>) -> Case {
    [Line::Clear].into_iter().chain(words.into_iter().flat_map(|word| [Line::Word(word), Line::Row(0.0)])).collect()
}

/// A row whose word has a bit above its sites, where there are such bits.
fn row_above(random: &mut Random, sites: usize) -> Case {
    if sites == MAX_SITES {
        return vec![];
    }
    let (plane, site) = (random.below(2), random.pick(&[sites, MAX_SITES - 1]));
    let mut bytes = vec![0; WORD_BYTES];
    bytes[PLANE_BYTES * plane + site / 8] |= 1 << (site % 8);
    vec![Line::Bytes { sites, bytes }, Line::Row(0.0)]
}

/// One of some lengths, made another.
fn changed<const N: usize>(random: &mut Random, mut lengths: [usize; N]) -> [usize; N] {
    let other = random.pick(&[1, 2, OLD_WORD_BYTES, WORD_BYTES]);
    let length = &mut lengths[random.below(N)];
    *length = if random.once_in(2) { *length + other } else { length.saturating_sub(other) };
    lengths
}

/// Up to some dozen words, seldom many, in either form; seldom a row that is refused, modes or lists of a wrong length.
pub fn case(random: &mut Random, bounds: Bounds) -> Case {
    let Chosen { line, group } = group(random, bounds);
    let work = sums::work(&group, 200_000);
    let mut count = if random.once_in(100) { random.size(MAX_ROWS).min(work) } else { random.size(40).min(work) };
    let orbit = [word(random, &group)];
    let of_orbit = random.once_in(4);
    let words = (0..count).map(|_| if of_orbit { sums::moved(random, &orbit, &group) } else { word(random, &group) }).collect();
    let mut case = [vec![line], rows(words)].concat();
    if random.once_in(8) {
        let above = row_above(random, group.n_qubits());
        let at = case.len() - 2 * random.below(count + 1);
        count += above.len() / 2;
        case.splice(at..at, above);
    }
    case.push(Line::Words);
    for _ in 0..2 {
        case.extend([Line::Modes(sectors::modes(random, &group)), Line::SectorWords]);
    }
    if random.once_in(16) {
        case.extend([Line::WordsOf(changed(random, words_lengths(count))), Line::SectorWordsOf(changed(random, sector_lengths(count)))]);
    }
    if words::as_old(random, group.n_qubits()) {
        case.extend([Line::OldRows, Line::WordsOf(old_words_lengths(count)), Line::SectorWordsOf(old_sector_lengths(count))]);
    }
    if random.once_in(16) {
        let number = random.pick(&[0, group.n_generators() + 1, group.n_generators().saturating_sub(1)]);
        case.extend([Line::Modes(vec![0; number]), Line::SectorWords]);
    }
    case
}

// ---- listed shapes

/// Lattices of each kind: with a side 1, with 63, 64, 65 and 1,600 elements, of as many sites as the old form has, one more, and as many as there may be.
const LATTICES: [Lattice; 40] = [
    Lattice::Chain(1),
    Lattice::Chain(2),
    Lattice::Chain(12),
    Lattice::Chain(63),
    Lattice::Chain(64),
    Lattice::Chain(65),
    Lattice::Chain(OLD_SITES),
    Lattice::Chain(OLD_SITES + 1),
    Lattice::Chain(1600),
    Lattice::Chain(MAX_SITES),
    Lattice::Ladder(1, 5),
    Lattice::Ladder(5, 1),
    Lattice::Ladder(12, 3),
    Lattice::Ladder(63, 2),
    Lattice::Ladder(64, 4),
    Lattice::Ladder(65, 3),
    Lattice::Ladder(64, 32),
    Lattice::Torus2(1, 1),
    Lattice::Torus2(7, 1),
    Lattice::Torus2(1, 7),
    Lattice::Torus2(3, 2),
    Lattice::Torus2(9, 7),
    Lattice::Torus2(7, 9),
    Lattice::Torus2(8, 8),
    Lattice::Torus2(64, 1),
    Lattice::Torus2(1, 65),
    Lattice::Torus2(13, 5),
    Lattice::Torus2(16, 16),
    Lattice::Torus2(40, 40),
    Lattice::Torus3(1, 1, 1),
    Lattice::Torus3(5, 1, 3),
    Lattice::Torus3(1, 4, 6),
    Lattice::Torus3(4, 6, 1),
    Lattice::Torus3(2, 3, 4),
    Lattice::Torus3(7, 3, 3),
    Lattice::Torus3(4, 4, 4),
    Lattice::Torus3(5, 13, 1),
    Lattice::Torus3(6, 6, 7),
    Lattice::Torus3(8, 8, 8),
    Lattice::Torus3(10, 10, 16),
];

/// Cells of a honeycomb, and of a kagome lattice.
const HONEYCOMBS: [(usize, usize); 11] = [(1, 1), (2, 2), (3, 3), (4, 6), (7, 1), (1, 7), (9, 7), (8, 8), (13, 5), (16, 8), (32, 32)];
const KAGOMES: [(usize, usize); 10] = [(1, 1), (2, 2), (3, 3), (5, 2), (6, 1), (9, 7), (8, 8), (13, 5), (16, 5), (26, 26)];

/// Groups of each shape; some with an identity first, in the middle or last, some renumbered, some of more than one ring, and all that there are on no
/// sites.
fn shapes(random: &mut Random) -> Vec<Chosen> {
    let mut shapes: Vec<Chosen> = LATTICES.map(groups::of_lattice).into();
    let cells = HONEYCOMBS.map(|(lx, ly)| groups::sublattices(lx, ly, 2)).into_iter();
    let cells = cells.chain(KAGOMES.map(|(lx, ly)| groups::sublattices(lx, ly, 3)));
    shapes.extend(cells.map(Generators::chosen));
    let lattices = [Lattice::Chain(12), Lattice::Ladder(6, 3), Lattice::Torus2(8, 8), Lattice::Torus2(1, 6), Lattice::Torus3(3, 4, 2)];
    for lattice in lattices {
        let shifts = || groups::shifts_of(lattice);
        shapes.extend((0..=shifts().orders.len()).map(|g| shifts().with_identity(g).chosen()));
        shapes.push(shifts().renumbered(random).chosen());
    }
    shapes.push(groups::shifts_of(Lattice::Chain(64)).with_identity(0).with_identity(2).with_identity(1).chosen());
    shapes.push(groups::sublattices(4, 4, 2).with_identity(1).chosen());
    shapes.push(groups::sublattices(3, 4, 3).renumbered(random).chosen());
    shapes.extend([(2, 8), (3, 4), (4, 5)].map(|(rings, length)| groups::rings(rings, length).chosen()));
    for sites in [0, 5] {
        let none = || Generators { sites, permutations: vec![], orders: vec![] };
        shapes.extend((0..=MAX_GENERATORS).map(|number| (0..number).fold(none(), Generators::with_identity).chosen()));
    }
    shapes
}

/// Words for a shape: one letter alone, few letters, some that an element fixes, and any.
fn shape_words(random: &mut Random, group: &TranslationGroup) -> Vec<Vec<u8>> {
    let mut words: Vec<Vec<u8>> = b"IXYZ".iter().map(|&letter| plain(group, letter)).collect();
    words.extend((1..=3).map(|letters| sparse(random, group, letters)));
    words.extend((0..8).map(|_| words::word(random, group)));
    words.extend((0..3).map(|_| (0..group.n_qubits()).map(|_| random.pick(b"IXYZ")).collect::<Vec<u8>>()));
    let moved = sums::moved(random, &words, group);
    words.push(moved);
    words
}

/// Mode lists for a shape: all 0, all 1, half the orders, and any.
fn shape_modes(random: &mut Random, group: &TranslationGroup) -> Vec<Vec<i32>> {
    let of = |mode: fn(i32) -> i32| (0..group.n_generators()).map(|g| mode(group.generator_order(g) as i32)).collect();
    vec![of(|_| 0), of(|_| 1), of(|order| order / 2), sectors::modes(random, group), sectors::modes(random, group)]
}

/// The words of some rows alone, in every sector of a list, and the same in the old form where they have one; the last word at some indices.
fn asked(group: &TranslationGroup, count: usize, modes: Vec<Vec<i32>>) -> Case {
    let mut case = vec![Line::Words];
    case.extend(modes.iter().flat_map(|modes| [Line::Modes(modes.clone()), Line::SectorWords]));
    case.extend([Line::OldRows, Line::WordsOf(old_words_lengths(count))]);
    if group.n_qubits() <= OLD_SITES {
        case.extend(modes.into_iter().flat_map(|modes| [Line::Modes(modes), Line::SectorWordsOf(old_sector_lengths(count))]));
    }
    let order = group.order();
    case.extend([0, 1, order / 2, order - 1, order].map(Line::At));
    case
}

/// Words of every period on a ring, in every sector.
fn period_case(random: &mut Random, sites: usize) -> Case {
    let Chosen { line, group } = groups::of_lattice(Lattice::Chain(sites));
    let periods = (1..=sites).filter(|period| sites.is_multiple_of(*period));
    let word = |random: &mut Random, period: usize| {
        let letters: Vec<u8> = (0..period).map(|_| random.pick(b"IXYZ")).collect();
        letters.repeat(sites / period)
    };
    let words: Vec<Vec<u8>> = periods.flat_map(|period| (0..8).map(|_| word(random, period)).collect::<Vec<_>>()).collect();
    let count = words.len();
    [vec![line], rows(words), asked(&group, count, (0..sites as i32).map(|mode| vec![mode]).collect())].concat()
}

/// As many rows as there may be, and one more.
fn full_case(random: &mut Random, Chosen { line, group }: Chosen) -> Case {
    let words = (0..MAX_ROWS).map(|_| word(random, &group)).collect();
    let modes = shape_modes(random, &group);
    let more = [words_lengths(MAX_ROWS + 1), old_words_lengths(MAX_ROWS + 1)].map(Line::WordsOf);
    let more_in_sector = [sector_lengths(MAX_ROWS + 1), old_sector_lengths(MAX_ROWS + 1)].map(Line::SectorWordsOf);
    [&[line], &rows(words)[..], &asked(&group, MAX_ROWS, modes), &more, &more_in_sector].concat()
}

/// Every shape with words of every kind; rings with words of every period; and as many rows as there may be.
pub fn cases() -> Vec<Case> {
    let random = &mut Random::of(0, "shapes", 0);
    let mut cases = Vec::new();
    for Chosen { line, group } in shapes(random) {
        let words = shape_words(random, &group);
        let count = words.len();
        let modes = shape_modes(random, &group);
        cases.push([vec![line], rows(words), asked(&group, count, modes)].concat());
    }
    cases.extend([12, 12, 24, 24].map(|sites| period_case(random, sites)));
    cases.push(full_case(random, groups::of_lattice(Lattice::Chain(12))));
    cases.push(full_case(random, groups::of_lattice(Lattice::Torus2(3, 2))));
    cases.push(full_case(random, groups::sublattices(2, 2, 3).chosen()));
    cases
}
