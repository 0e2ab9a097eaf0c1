//! Cases on buyers' own permutations: tori of cells in other numberings and by other shifts, groups side by side that move no common site, their generators in
//! any order, generators that move nothing, equal ones, and orbits of different sizes. Words often have many elements that fix them, in some parts or in all.

use crate::cases::*;
use crate::groups::{self, Bounds, Chosen, Generators, Permutation, fixed, rings_of, shifts_by, shifts_of, sublattices, turn};
use crate::random::Random;
use crate::sizes::*;
use crate::{many, orbits, sectors, sums, words};
use ppvm_pauli_sum::symmetry::group::TranslationGroup;
use ppvm_pauli_sum::symmetry::inner;

// ---- random groups

/// Often more elements than a machine word has bits, seldom many.
pub fn bounds(random: &mut Random) -> Bounds {
    let order = match random.below(100) {
        0 => 16_384,
        1..=9 => 2_048,
        10..=59 => 512,
        _ => 64,
    };
    Bounds { order, ..Bounds::all(random) }
}

/// Shifts of a torus by cells: along its sides, and those of a triangular lattice, which has three; some that do not reach all cells, or reach them twice.
const STEPS: [&[(usize, usize)]; 8] = [
    &[(1, 0), (0, 1)],
    &[(0, 1), (1, 0)],
    &[(1, 0), (1, 1)],
    &[(1, 1), (0, 1)],
    &[(1, 1), (1, 2)],
    &[(1, 1), (2, 0)],
    &[(2, 0), (0, 3)],
    &[(1, 0), (0, 1), (1, 1)],
];

/// Cells of one to three sites with shifts.
fn cells(random: &mut Random, bounds: Bounds) -> Generators {
    let number = random.within(1..=3).min(bounds.sites);
    let cells = 1 + random.size((bounds.sites / number).min(bounds.order) - 1);
    let lx = random.within(1..=cells);
    shifts_by(lx, cells / lx, number, random.pick(&STEPS))
}

/// One part of a group, on one site at least: a ring, cells, cycles of different lengths, a generator and a power of it, one that moves nothing, or none.
fn part(random: &mut Random, bounds: Bounds) -> Generators {
    let length = |random: &mut Random| 1 + random.size(bounds.sites.min(bounds.order) - 1);
    match random.below(12) {
        0 => fixed(length(random)),
        1 => fixed(length(random)).with_identity(0),
        2..=3 => turn(&[length(random), length(random)]),
        4 => turn(&[length(random)]).with_power(0, 1 + random.bits() % 3),
        5..=8 => cells(random, bounds),
        9 => shifts_of(groups::lattice(random, bounds)),
        _ => turn(&[length(random)]),
    }
}

/// Whether a part has no more sites, elements and generators than there may be.
fn fits(part: &Generators, bounds: Bounds, generators: usize) -> bool {
    let order = part.orders.iter().fold(1usize, |order, &next| order.saturating_mul(next as usize));
    part.sites <= bounds.sites && order <= bounds.order && part.orders.len() <= generators
}

/// Up to five parts side by side, mostly with their sites and generators in any order.
fn group(random: &mut Random, bounds: Bounds) -> Generators {
    let mut whole = fixed(0);
    let mut room = bounds.order;
    for _ in 0..random.within(1..=5) {
        let sites = bounds.sites - whole.sites;
        if sites == 0 {
            break;
        }
        let order = if random.once_in(2) { room } else { room.isqrt() };
        let part = part(random, Bounds { sites, order });
        if fits(&part, Bounds { sites, order }, MAX_GENERATORS - whole.orders.len()) {
            room /= part.orders.iter().product::<u32>() as usize;
            whole = whole.beside(part);
        }
    }
    shuffled(random, whole)
}

/// The same generators in any order, and mostly other numbers for the sites.
fn shuffled(random: &mut Random, generators: Generators) -> Generators {
    let mut numbers: Vec<usize> = (0..generators.orders.len()).collect();
    random.shuffle(&mut numbers);
    let generators = generators.in_order(&numbers);
    if random.once_in(4) { generators } else { generators.renumbered(random) }
}

// ---- words and modes

/// A power of a generator, by a divisor of its order.
fn some_power(random: &mut Random, group: &TranslationGroup, g: usize) -> Permutation {
    let order = group.generator_order(g);
    let divisors: Vec<u32> = (1..=order).filter(|&divisor| order.is_multiple_of(divisor)).collect();
    groups::power(group.generator_perm(g), u64::from(random.pick(&divisors)))
}

/// A word that powers of some generators fix.
fn fixed_word(random: &mut Random, group: &TranslationGroup) -> Vec<u8> {
    let mut word = words::text(random, group.n_qubits());
    let fixing = (0..group.n_generators()).filter(|_| !random.once_in(4)).collect::<Vec<_>>();
    let fixing: Vec<Permutation> = fixing.into_iter().map(|g| some_power(random, group, g)).collect();
    words::make_fixed(&mut word, &fixing);
    word
}

/// A word of any kind.
fn word(random: &mut Random, group: &TranslationGroup) -> Vec<u8> {
    if random.once_in(2) { fixed_word(random, group) } else { many::word(random, group) }
}

/// Each mode any of either sign that is below the order.
fn any_modes(random: &mut Random, group: &TranslationGroup) -> Vec<i32> {
    let mode = |order: usize| random.below(2 * order - 1) as i32 - (order as i32 - 1);
    (0..group.n_generators()).map(|g| group.generator_order(g) as usize).map(mode).collect()
}

fn modes(random: &mut Random, group: &TranslationGroup) -> Vec<i32> {
    if random.once_in(2) { any_modes(random, group) } else { sectors::modes(random, group) }
}

// ---- cases

/// What is asked of one word alone, in every sector of a list and at some indices.
fn asked_alone(random: &mut Random, group: &TranslationGroup, modes: &[Vec<i32>]) -> Case {
    let places = group.n_generators();
    let mut case = vec![Line::Canonicalize, Line::WithIndex, Line::WithShift { places }];
    case.extend(modes.iter().flat_map(|modes| [Line::Modes(modes.clone()), Line::Sector { places }]));
    case.extend(orbits::at_indices(random, group));
    case
}

/// The rows of some words, some with floats and some with whole numbers.
fn rows(random: &mut Random, words: &[Vec<u8>]) -> Case {
    let mut case = vec![Line::Clear];
    for word in words {
        let (float, whole) = (Line::Row(random.pick(&[1.0, -1.0, 0.1, 0.25])), Line::Whole(random.pick(&[1, -1, 2, 1000])));
        case.extend([Line::Word(word.clone()), random.pick(&[float, whole])]);
    }
    case
}

/// What is asked of so many rows in one call, in every sector of a list: least words, sectors, and sums, which are projected where phases allow it.
fn asked_of_rows(group: &TranslationGroup, modes: &[Vec<i32>]) -> Case {
    let mut case = vec![Line::Words, Line::Sum];
    let projected = PHASES.is_multiple_of(inner::phase_modulus(group));
    for modes in modes {
        case.extend([Line::Modes(modes.clone()), Line::SectorWords]);
        case.extend(projected.then_some(Line::Project));
    }
    case
}

/// The same of rows in the old form.
fn asked_of_old_rows(group: &TranslationGroup, count: usize, modes: &[Vec<i32>]) -> Case {
    let of_lengths = |line: Line| match line {
        Line::Words => Line::WordsOf(old_words_lengths(count)),
        Line::SectorWords => Line::SectorWordsOf(old_sector_lengths(count)),
        Line::Sum => Line::SumOf(old_sum_lengths(count)),
        Line::Project => Line::ProjectOf(old_sum_lengths(count)),
        other => other,
    };
    [Line::OldRows].into_iter().chain(asked_of_rows(group, modes).into_iter().map(of_lengths)).collect()
}

/// Up to some dozen words of a group, few of them alone and all in one call, in either form, in two sectors.
pub fn case(random: &mut Random, bounds: Bounds) -> Case {
    let Chosen { line, group } = group(random, bounds).chosen();
    let count = random.size(24).min(sums::work(&group, 100_000));
    let texts: Vec<Vec<u8>> = (0..count).map(|_| word(random, &group)).collect();
    let sectors = [modes(random, &group), modes(random, &group)];
    let mut case = vec![line, Line::Order];
    for text in texts.iter().take(2) {
        case.extend(words::handed_over(random, text.clone()));
        case.extend(asked_alone(random, &group, &sectors));
        case.extend(orbits::way_back(random, &group, text));
    }
    case.extend(rows(random, &texts));
    case.extend(if words::as_old(random, group.n_qubits()) {
        asked_of_old_rows(&group, count, &sectors)
    } else {
        asked_of_rows(&group, &sectors)
    });
    case.push(Line::Clear);
    case
}

// ---- listed layouts

/// Cells along both sides, and the sites of a cell: honeycomb and kagome tori of 63 to 65 cells, of as many sites as there may be, and others.
const CELLS: [(usize, usize, usize); 16] = [
    (1, 2, 2),
    (2, 2, 2),
    (3, 2, 2),
    (4, 4, 2),
    (8, 8, 2),
    (9, 7, 2),
    (13, 5, 2),
    (16, 8, 2),
    (32, 32, 2),
    (2, 2, 3),
    (3, 3, 3),
    (5, 4, 3),
    (6, 6, 3),
    (9, 7, 3),
    (5, 13, 3),
    (26, 26, 3),
];

/// Triangular lattices: their sides, and shifts that are not along these.
const TRIANGULAR: [(usize, usize, &[(usize, usize)]); 12] = [
    (3, 3, &[(1, 0), (1, 1)]),
    (4, 8, &[(1, 0), (1, 1)]),
    (8, 4, &[(1, 0), (1, 1)]),
    (8, 8, &[(1, 0), (1, 1)]),
    (8, 8, &[(1, 1), (1, 2)]),
    (13, 13, &[(1, 0), (1, 1)]),
    (45, 45, &[(1, 0), (1, 1)]),
    (4, 4, &[(1, 1), (1, 3)]),
    (6, 6, &[(2, 0), (0, 3)]),
    (6, 6, &[(1, 0), (0, 1), (1, 1)]),
    (5, 5, &[(1, 0), (0, 1), (1, 1), (1, 2)]),
    (7, 3, &[(1, 1)]),
];

/// Lengths of rings side by side.
const RINGS: [&[usize]; 19] = [
    &[2, 2],
    &[2, 3],
    &[1, 6],
    &[5, 5],
    &[8, 12],
    &[16, 16],
    &[63, 65],
    &[64, 64],
    &[100, 100],
    &[9, 256],
    &[2, 3, 5],
    &[8, 8, 8],
    &[16, 16, 16],
    &[20, 25, 30],
    &[2, 2, 2, 2],
    &[3, 4, 5, 6],
    &[2, 3, 5, 7],
    &[8, 8, 8, 8],
    &[10, 11, 12, 13],
];

fn torus(lx: usize, ly: usize) -> Generators {
    shifts_of(Lattice::Torus2(lx, ly))
}

fn ring(length: usize) -> Generators {
    turn(&[length])
}

/// Two rings and their product: the two move no common site, and the product moves those of both.
fn joined(a: usize, b: usize) -> Generators {
    let Generators { sites, mut permutations, .. } = rings_of(&[a, b]);
    permutations.push(groups::after(&permutations[0], &permutations[1]));
    Generators::exact(sites, permutations)
}

/// Parts of one or more generators side by side, in turn too; each is taken as it stands, and shuffled.
fn side_by_side() -> Vec<Generators> {
    vec![
        torus(3, 2).beside(ring(4)),
        ring(6).beside(torus(4, 4)),
        torus(8, 8).beside(ring(32)),
        torus(16, 16).beside(ring(5)),
        torus(13, 5).beside(ring(63)),
        torus(3, 3).beside(fixed(5)),
        fixed(64).beside(torus(8, 8)),
        fixed(3).beside(torus(4, 4)).beside(fixed(2)).beside(ring(6)),
        ring(12).beside(fixed(1)),
        ring(64).beside(fixed(192)),
        sublattices(4, 4, 2).beside(ring(6)),
        sublattices(3, 3, 3).beside(fixed(4)).beside(sublattices(2, 2, 2)),
        torus(4, 3).beside(rings_of(&[5, 6])).in_order(&[0, 2, 1, 3]),
        torus(4, 4).beside(rings_of(&[8, 8])).in_order(&[2, 1, 3, 0]),
        shifts_of(Lattice::Torus3(3, 4, 2)).beside(ring(10)).in_order(&[3, 0, 1, 2]),
        shifts_of(Lattice::Torus3(4, 4, 4)).beside(ring(9)).in_order(&[0, 3, 1, 2]),
        torus(4, 3).beside(torus(5, 2)).in_order(&[0, 2, 1, 3]),
        torus(8, 8).beside(torus(8, 8)).in_order(&[2, 0, 3, 1]),
        torus(9, 7).beside(sublattices(4, 3, 2)).in_order(&[3, 0, 1, 2]),
        shifts_by(6, 6, 1, &[(1, 0), (1, 1)]).beside(shifts_by(4, 4, 2, &[(1, 0), (1, 1)])).in_order(&[0, 2, 3, 1]),
        shifts_of(Lattice::Ladder(12, 3)).beside(ring(8)).beside(fixed(2)),
    ]
}

/// Generators that move nothing, beside others; likewise.
fn with_identities() -> Vec<Generators> {
    vec![
        ring(6).with_identity(0),
        ring(6).beside(fixed(5)).with_identity(1),
        rings_of(&[6, 4]).with_identity(1),
        rings_of(&[3, 1, 8]).with_identity(3),
        torus(4, 4).with_identity(1).beside(ring(6)),
        sublattices(4, 4, 2).with_identity(2).with_identity(0),
        fixed(7).with_identity(0).with_identity(0),
    ]
}

/// Two groups side by side whose generators move both: the first of the one with the first of the other, which has no more.
fn together(one: Generators, other: Generators) -> Generators {
    let number = one.orders.len();
    let Generators { sites, permutations, .. } = one.beside(other);
    let (first, second) = permutations.split_at(number);
    let both = |g: usize| second.get(g).map_or(first[g].clone(), |second| groups::after(second, &first[g]));
    Generators::exact(sites, (0..number).map(both).collect())
}

/// Equal generators, powers of one another, and orbits of different sizes; likewise, and beside a ring too.
fn walked() -> Vec<Generators> {
    let mut walked = vec![
        ring(6).with_power(0, 1),
        ring(12).with_power(0, 2),
        ring(8).with_power(0, 3).with_power(0, 2),
        ring(50).with_power(0, 1),
        torus(4, 4).with_power(0, 1),
        joined(4, 6),
        joined(3, 3),
        shifts_by(6, 6, 1, &[(1, 0), (0, 1), (1, 1)]),
        turn(&[2, 3]),
        turn(&[4, 6]),
        turn(&[6, 10, 15]),
        turn(&[64, 32]),
        turn(&[4, 4, 2, 1]),
        together(torus(4, 3), ring(2)),
        together(torus(4, 6), torus(2, 4)),
    ];
    walked.extend(walked.clone().into_iter().map(|generators| generators.beside(ring(5))));
    walked.push(turn(&[2, 3]).beside(turn(&[4, 6])));
    walked.push(turn(&[2, 3]).beside(rings_of(&[64, 16])).in_order(&[1, 0, 2]));
    walked
}

/// All of these: tori renumbered, groups of parts as they stand and renumbered.
fn layouts(random: &mut Random) -> Vec<Generators> {
    let tori = CELLS.iter().map(|&(lx, ly, number)| sublattices(lx, ly, number));
    let tori = tori.chain(TRIANGULAR.iter().map(|&(lx, ly, steps)| shifts_by(lx, ly, 1, steps)));
    let tori = tori.chain([Lattice::Chain(65), Lattice::Ladder(64, 4), Lattice::Torus2(16, 16), Lattice::Torus3(6, 6, 7)].map(shifts_of));
    let mut layouts: Vec<Generators> = tori.map(|torus| torus.renumbered(random)).collect();
    let parted = || RINGS.iter().map(|lengths| rings_of(lengths)).chain(side_by_side()).chain(with_identities()).chain(walked());
    layouts.extend(parted());
    for generators in parted() {
        layouts.push(generators.renumbered(random));
    }
    layouts
}

/// Words for a layout, the fewer the longer a walk takes: those that powers of generators fix, few letters, one letter alone, and any.
fn layout_words(random: &mut Random, group: &TranslationGroup) -> Vec<Vec<u8>> {
    let any = |random: &mut Random| (0..group.n_qubits()).map(|_| random.pick(b"IXYZ")).collect::<Vec<u8>>();
    let mut words = vec![fixed_word(random, group), any(random), many::sparse(random, group, 1), many::plain(group, b'I')];
    words.extend((0..8).map(|_| fixed_word(random, group)));
    words.extend((2..=3).map(|letters| many::sparse(random, group, letters)));
    words.extend([many::plain(group, b'Y'), any(random), any(random)]);
    words.truncate(sums::work(group, 40_000).max(2));
    let moved = sums::moved(random, &words, group);
    words.push(moved);
    words
}

/// Mode lists for a layout, the fewer the longer a walk takes: all 1, any, all 0, half the orders.
fn layout_modes(random: &mut Random, group: &TranslationGroup) -> Vec<Vec<i32>> {
    let of = |mode: fn(i32) -> i32| (0..group.n_generators()).map(|g| mode(group.generator_order(g) as i32)).collect();
    let mut modes = vec![of(|_| 1), any_modes(random, group), of(|_| 0), of(|order| order / 2), of(|_| -1)];
    modes.extend([any_modes(random, group), sectors::modes(random, group)]);
    modes.truncate(sums::work(group, 12_000).max(1));
    modes
}

/// Words of a layout in some sectors, the first of them alone and all in one call, in either form.
fn layout_case(random: &mut Random, Chosen { line, group }: Chosen) -> Case {
    let (texts, modes) = (layout_words(random, &group), layout_modes(random, &group));
    let mut case = vec![line, Line::Order, Line::Modulus];
    for (i, text) in texts.iter().take(6).enumerate() {
        case.push(Line::Word(text.clone()));
        case.extend((i % 2 == 1 && text.len() <= OLD_SITES).then_some(Line::Old));
        case.extend(asked_alone(random, &group, &modes));
    }
    case.extend(rows(random, &texts));
    case.extend(asked_of_rows(&group, &modes));
    case.extend(asked_of_old_rows(&group, texts.len(), &modes[..modes.len().min(2)]));
    case
}

/// Four rings of 32, as many elements as there may be: a word that half a turn of each ring fixes, which the last mode alone drops, and any word.
fn largest_case(random: &mut Random) -> Case {
    let Chosen { line, group } = groups::rings(4, 32).in_order(&[2, 0, 3, 1]).renumbered(random).chosen();
    let (any, mut halved) = (words::text(random, group.n_qubits()), words::text(random, group.n_qubits()));
    let halves: Vec<Permutation> = (0..MAX_GENERATORS).map(|g| groups::power(group.generator_perm(g), 16)).collect();
    words::make_fixed(&mut halved, &halves);
    let mut case = [vec![line], rows(random, &[any, halved])].concat();
    case.extend([Line::WithIndex, Line::Words, Line::Modes(vec![2, -4, 6, -1]), Line::SectorWords]);
    case.extend([Line::Modes(vec![0, 2, -2, 4]), Line::Sector { places: MAX_GENERATORS }]);
    for _ in 0..8 {
        let index = random.below(group.order());
        case.extend([Line::Counter { index, places: MAX_GENERATORS }, Line::Index(group.counter_from_index(index)), Line::At(index)]);
    }
    case.extend(orbits::at_indices(random, &group));
    case
}

/// Every layout with words of every kind, and the largest group.
pub fn cases() -> Vec<Case> {
    let random = &mut Random::of(0, "layouts", 0);
    let mut cases: Vec<Case> = layouts(random).into_iter().map(|layout| layout_case(random, layout.chosen())).collect();
    cases.push(largest_case(random));
    cases
}
