//! Forged values, lists of wrong lengths and every refusal: for each call, good and bad inputs of each kind in all their combinations. The first broken
//! rule in the order of document 01 must answer, and no list may be left or touched otherwise than it says.

use crate::cases::*;
use crate::groups::{self, Bounds, Chosen, Generators, Permutation, cycles};
use crate::random::Random;
use crate::sheet;
use crate::sizes::*;
use crate::tables;
use crate::words::{self, word_bytes};

/// What is good: a torus of 3 by 2 sites and a word on it.
const SITES: usize = 6;
const ORDER: usize = 6;
const GENERATORS: usize = 2;
const BASE: Line = Line::Lattice(Lattice::Torus2(3, 2));
const TEXT: &[u8] = b"XIYZIX";

/// All combinations of a member of each of two lists of line sequences, one after the other.
fn cross(left: &[Case], right: &[Case]) -> Vec<Case> {
    left.iter().flat_map(|first| right.iter().map(move |second| [&first[..], &second[..]].concat())).collect()
}

fn each(lines: impl IntoIterator<Item = Line>) -> Vec<Case> {
    lines.into_iter().map(|line| vec![line]).collect()
}

pub fn cases() -> Vec<Case> {
    let mut cases = Vec::new();
    cases.extend(texts());
    cases.extend(words_alone());
    cases.extend(lattices());
    cases.extend(generator_lists());
    cases.extend(group_questions());
    cases.extend(word_questions());
    cases.extend(walks());
    cases.extend(sectors());
    cases.extend(many());
    cases.extend(sums());
    cases.extend(projections());
    cases.extend(phase_tables());
    cases.extend(phase_files());
    cases.extend(sheets());
    cases
}

// ---- words

/// Every single byte, and texts at the limit with and without a wrong letter at either end.
fn texts() -> Vec<Case> {
    let mut texts = vec![vec![], b"XYZI_".to_vec(), b"XIx".to_vec()];
    texts.extend((0..=u8::MAX).map(|letter| vec![letter]));
    for length in [OLD_SITES, OLD_SITES + 1, MAX_SITES, MAX_SITES + 1, 4096] {
        let letters = vec![b'X'; length];
        texts.extend([letters.clone(), [b"_", &letters[1..]].concat(), [&letters[1..], b"_"].concat()]);
    }
    texts.into_iter().map(|text| vec![Line::Word(text), Line::Text, Line::Weight]).collect()
}

/// Good and bad bytes of a word of SITES sites, in full and in the old form.
fn byte_lists() -> Vec<Vec<u8>> {
    let full = word_bytes(TEXT);
    let of_form = |good: Vec<u8>| {
        let (plane, word) = (good.len() / 2, good.len());
        let with = |byte: usize, value: u8| {
            let mut bytes = good.clone();
            bytes[byte] |= value;
            bytes
        };
        let above = [with(0, 0x40), with(plane, 0x40), with(plane - 1, 0x80), with(word - 1, 0x80)];
        let longer = [&with(0, 0x40)[..], &[0]].concat();
        let lengths = [good[..plane].to_vec(), good[..word - 1].to_vec(), [&good[..], &[0]].concat(), longer];
        [vec![good.clone()], above.to_vec(), lengths.to_vec()].concat()
    };
    [of_form(full.clone()), of_form(old_form(&full)), vec![vec![]]].concat()
}

fn site_counts() -> [usize; 9] {
    [SITES, SITES - 1, SITES + 1, 0, OLD_SITES, OLD_SITES + 1, MAX_SITES, MAX_SITES + 1, usize::MAX]
}

/// Every site count with every list of bytes.
fn word_lines() -> Vec<Case> {
    let of = |bytes: Vec<u8>| site_counts().into_iter().map(move |sites| Line::Bytes { sites, bytes: bytes.clone() });
    each(byte_lists().into_iter().flat_map(of))
}

fn words_alone() -> Vec<Case> {
    let questions = [vec![Line::Text, Line::Weight], byte_lists().into_iter().map(Line::Compare).collect()].concat();
    cross(&word_lines(), &[questions])
}

// ---- groups

fn lattices() -> Vec<Case> {
    let sides = [0, 1, 2, 3, 16, 17, 40, 128, OLD_SITES + 1, MAX_SITES, MAX_SITES + 1, 1 << 32, 1 << 63, usize::MAX];
    let mut lattices: Vec<Lattice> = sides.map(Lattice::Chain).to_vec();
    for a in sides {
        lattices.extend(sides.map(|b| Lattice::Ladder(a, b)));
        for b in sides {
            lattices.push(Lattice::Torus2(a, b));
            lattices.extend(sides.map(|c| Lattice::Torus3(a, b, c)));
        }
    }
    lattices.into_iter().map(|lattice| vec![Line::Lattice(lattice), Line::Targets, Line::Order]).collect()
}

/// A permutation and its declared order.
type Generator = (Permutation, u32);

/// The sites of the lists, and the order of the longest permutation in them.
const LIST_SITES: usize = 168;
const LONG_ORDER: u32 = 1_048_580;

/// Cycles of these lengths, and the other sites of the lists fixed.
fn cycles_and_fixed(lengths: &[usize]) -> Permutation {
    let fixed = vec![1; LIST_SITES - lengths.iter().sum::<usize>()];
    cycles(&[lengths, &fixed].concat())
}

/// Permutations of every kind, sound and unsound, each declared truly, as 0, and by one too many.
fn generators() -> Vec<Generator> {
    let long = cycles_and_fixed(&[4, 5, 13, 37, 109]);
    let with = |q: usize, target: u32| {
        let mut permutation = long.clone();
        permutation[q] = target;
        permutation
    };
    let kinds = [
        (long.clone(), LONG_ORDER),
        (cycles_and_fixed(&[2, 3, 5, 7, 11, 13, 17, 19, 23, 29]), 1),
        (cycles_and_fixed(&[2]), 2),
        (cycles_and_fixed(&[]), 1),
        (long[..LIST_SITES - 1].to_vec(), LONG_ORDER),
        ([&long[..], &[0]].concat(), LONG_ORDER),
        (with(7, LIST_SITES as u32), LONG_ORDER),
        (with(9, long[3]), LONG_ORDER),
    ];
    let declared = |(permutation, order): Generator| [order, 0, order + 1].map(|declared| (permutation.clone(), declared));
    kinds.into_iter().flat_map(declared).collect()
}

/// A list of these generators as it is, for too many sites, cut at its end, and with an order too few or too many.
fn lists_of(chosen: &[Generator]) -> Vec<Case> {
    let (permutations, orders) = chosen.iter().cloned().unzip();
    let Line::Group { list, orders, .. } = (Generators { sites: LIST_SITES, permutations, orders }).line() else { unreachable!() };
    let mut cases = Vec::new();
    for sites in [LIST_SITES, MAX_SITES + 1] {
        for list in [&list[..], &list[..list.len() - 1]] {
            for orders in [orders.clone(), orders[1..].to_vec(), [&orders[..], &[1]].concat()] {
                cases.push(vec![Line::Group { sites, list: list.to_vec(), orders }, Line::Order]);
            }
        }
    }
    cases
}

/// Each generator alone, each pair, and each after three of high order or before one to five more that change nothing.
fn generator_lists() -> Vec<Case> {
    let all = generators();
    let (long, identity) = (all[0].clone(), all[9].clone());
    let mut cases = Vec::new();
    for first in &all {
        cases.extend(lists_of(std::slice::from_ref(first)));
        cases.extend(all.iter().flat_map(|second| lists_of(&[first.clone(), second.clone()])));
        cases.extend(lists_of(&[vec![long.clone(); 3], vec![first.clone()]].concat()));
        cases.extend((1..=5).flat_map(|more| lists_of(&[vec![first.clone()], vec![identity.clone(); more]].concat())));
    }
    cases
}

/// A group of one generator, and after it so many of the same kind, forged: more elements than the limit, or than 64 bits hold.
fn forged_product(lengths: &[usize], more: usize) -> Case {
    let permutation = cycles(lengths);
    let (sites, order) = (permutation.len(), lengths.iter().product());
    let mut case = vec![Generators { sites, permutations: vec![permutation.clone()], orders: vec![order as u32] }.line()];
    for g in 1..=more {
        case.push(Line::Set(Place::Order(g), order));
        case.extend(permutation.iter().enumerate().map(|(q, &target)| Line::Set(Place::Target(MAX_SITES * g + q), target as usize)));
    }
    case.push(Line::Set(Place::Generators, 1 + more));
    case
}

/// What may be overwritten in the base group, each a forgery.
fn forgeries() -> Vec<(Place, usize)> {
    vec![
        (Place::Sites, MAX_SITES + 1),
        (Place::Sites, usize::MAX),
        (Place::Sites, SITES - 1),
        (Place::Sites, SITES + 1),
        (Place::Sites, MAX_SITES),
        (Place::Sites, 0),
        (Place::Generators, 0),
        (Place::Generators, 1),
        (Place::Generators, 3),
        (Place::Generators, 4),
        (Place::Generators, 5),
        (Place::Generators, usize::MAX),
        (Place::Order(0), 0),
        (Place::Order(0), 6),
        (Place::Order(1), 1),
        (Place::Order(1), u32::MAX as usize),
        (Place::Order(2), 1),
        (Place::Order(3), 1),
        (Place::Target(0), 0),
        (Place::Target(0), SITES),
        (Place::Target(0), u16::MAX as usize),
        (Place::Target(SITES), 1),
        (Place::Target(MAX_SITES - 1), 1),
        (Place::Target(MAX_SITES), 0),
        (Place::Target(2 * MAX_SITES), 1),
        (Place::Target(TARGETS - 1), 1),
    ]
}

/// The base group, forged ones, pairs of forgeries, and refused groups.
fn group_values() -> Vec<Case> {
    let sets: Vec<Line> = forgeries().into_iter().map(|(place, value)| Line::Set(place, value)).collect();
    let base = [vec![BASE]];
    let twice = cross(&each(sets.clone()), &each(sets.clone()));
    // The shifts of the torus with one taken for its square, which still commutes and has the same order; and with two targets exchanged.
    let square = [2, 0, 1, 5, 3, 4].into_iter().enumerate().map(|(q, target)| Line::Set(Place::Target(q), target)).collect();
    let exchanged = vec![Line::Set(Place::Target(0), 2), Line::Set(Place::Target(1), 1)];
    let mut groups = cross(&base, &[vec![vec![], square, exchanged], each(sets), twice].concat());
    groups.extend([forged_product(&[4, 5, 13], 1), forged_product(&[4, 5, 13], 2), forged_product(&[2, 3, 5, 7, 11, 13, 17], 3)]);
    groups.extend(each([Line::Lattice(Lattice::Chain(0)), Line::Group { sites: SITES, list: vec![1], orders: vec![] }]));
    groups
}

/// A few of each kind: good, 1, and 14 by the number of generators, an order, a target, and an unused place.
fn some_group_values() -> Vec<Case> {
    let chosen = [(Place::Sites, MAX_SITES + 1), (Place::Generators, 5), (Place::Order(0), 0), (Place::Target(0), SITES)];
    let sets = chosen.map(|(place, value)| vec![BASE, Line::Set(place, value)]);
    [vec![vec![BASE]], sets.to_vec(), vec![vec![BASE, Line::Set(Place::Target(TARGETS - 1), 1)]]].concat()
}

fn places() -> [usize; 5] {
    [GENERATORS, GENERATORS - 1, GENERATORS + 1, 0, 2000]
}

fn indices() -> [usize; 5] {
    [0, ORDER - 1, ORDER, MAX_ORDER, usize::MAX]
}

/// Digits below the orders of the base group, 3 and 2, and at or above either or both; one too few or too many, also with one that is not below.
fn digit_lists() -> Vec<Vec<u32>> {
    let of_two = [[0, 0], [1, 1], [2, 1], [3, 1], [2, 2], [3, 2], [4, 0], [0, 3], [u32::MAX, 0], [0, u32::MAX], [u32::MAX, 7]];
    let of_others = [vec![], vec![1], vec![3], vec![u32::MAX], vec![0, 0, 0], vec![3, 0, 0], vec![2, 1, u32::MAX], vec![0; 2000]];
    of_two.map(Vec::from).into_iter().chain(of_others).collect()
}

fn group_questions() -> Vec<Case> {
    let mut questions = vec![Line::Order, Line::Modulus];
    for index in indices() {
        questions.push(Line::Invert(index));
        questions.extend(places().map(|places| Line::Counter { index, places }));
    }
    questions.extend(digit_lists().into_iter().map(Line::Index));
    cross(&group_values(), &[questions])
}

// ---- orbits

fn word_questions() -> Vec<Case> {
    let mut questions = vec![Line::Canonicalize, Line::WithIndex, Line::Orbit, Line::Next(1)];
    questions.extend(places().map(|places| Line::WithShift { places }));
    let bytes = [WORD_BYTES * ORDER, WORD_BYTES * ORDER - 1, WORD_BYTES * ORDER + 1, WORD_BYTES * (ORDER + 1), 0];
    questions.extend(bytes.map(|bytes| Line::OrbitList { bytes }));
    questions.extend(indices().map(Line::At));
    cross(&cross(&some_group_values(), &word_lines()), &[questions])
}

/// Walks with their index, group or word overwritten, alone and together, and steps past the end.
fn walks() -> Vec<Case> {
    let begun = [vec![BASE, Line::Word(TEXT.to_vec()), Line::Orbit], vec![BASE, Line::Word(TEXT.to_vec()), Line::Orbit, Line::Next(4)]];
    let indices = [0, 1, ORDER - 1, ORDER, ORDER + 1, MAX_ORDER, usize::MAX].map(Line::SetIndex);
    let groups = forgeries().into_iter().map(|(place, value)| Line::SetWalk(place, value));
    let words = [(0, 0xff), (0, 0x3f), (PLANE_BYTES, 0x40), (1, 1), (WORD_BYTES - 1, 0x80), (PLANE_BYTES, 0)];
    let words = words.map(|(byte, value)| Line::SetAt { byte, value });
    let or_none = |lines: Vec<Case>| [vec![vec![]], lines].concat();
    let forged = cross(&or_none(each(indices)), &cross(&or_none(each(groups)), &or_none(each(words))));
    cross(&cross(&begun, &forged), &[vec![Line::Next(3), Line::Next(2 * ORDER)]])
}

// ---- sectors

fn mode_lists() -> Vec<Case> {
    each([vec![1, 0], vec![0, i32::MIN], vec![], vec![1], vec![0, 0, 0], vec![0; 2000]].map(Line::Modes))
}

fn sectors() -> Vec<Case> {
    let digits = [vec![1, 1], vec![u32::MAX, 7], vec![], vec![1], vec![0, 0, 0], vec![0; 2000]].map(Line::Numerator);
    let tables = [ORDER, ORDER - 1, ORDER + 1, 0, 4000].map(|places| Line::Table { places });
    let of_groups = cross(&cross(&group_values(), &mode_lists()), &[[&digits[..], &tables[..]].concat()]);
    let sector = places().map(|places| Line::Sector { places }).to_vec();
    let of_words = cross(&cross(&cross(&some_group_values(), &word_lines()), &mode_lists()), &[sector]);
    [of_groups, of_words].concat()
}

// ---- many words

/// Numbers of rows: few, the most, and one more.
const ROW_COUNTS: [usize; 6] = [0, 1, 2, 3, MAX_ROWS, MAX_ROWS + 1];

/// Rows of words: good ones, one that few mode lists keep, and rows with a bit above, which the old form has or lacks; in all threes.
fn word_rows() -> Vec<Case> {
    let row = |bytes: Vec<u8>| vec![Line::Bytes { sites: SITES, bytes }, Line::Row(0.0)];
    let above = |byte: usize, value: u8| {
        let mut bytes = word_bytes(TEXT);
        bytes[byte] |= value;
        row(bytes)
    };
    let kinds = [row(word_bytes(TEXT)), row(word_bytes(b"XYZXYZ")), row(vec![0; WORD_BYTES]), above(0, 0x40), above(WORD_BYTES - 1, 0x80)];
    let pairs = cross(&kinds, &kinds);
    let threes = cross(&pairs, &kinds);
    [vec![vec![]], kinds.to_vec(), pairs, threes].concat()
}

/// Every kind of rows under every group value and every mode list, in both forms; lists of all lengths; and one row under every forged group.
fn many() -> Vec<Case> {
    let rows = cross(&[vec![Line::Clear]], &word_rows());
    let groups = cross(&some_group_values(), &mode_lists());
    let asked = |case: Case| {
        let count = case.iter().filter(|line| matches!(line, Line::Row(_))).count();
        let old = [Line::OldRows, Line::WordsOf(old_words_lengths(count)), Line::SectorWordsOf(old_sector_lengths(count))];
        [&case[..], &[Line::Words, Line::SectorWords], &old].concat()
    };
    let of_rows = cross(&groups, &rows).into_iter().map(asked).collect();
    let words_of = |rows| [with_others(rows, words_lengths(rows)), vec![old_words_lengths(rows)]].concat().into_iter().map(Line::WordsOf);
    let sectors_of =
        |rows| [with_others(rows, sector_lengths(rows)), vec![old_sector_lengths(rows)]].concat().into_iter().map(Line::SectorWordsOf);
    let lengths = ROW_COUNTS.into_iter().flat_map(|rows| words_of(rows).chain(sectors_of(rows))).collect();
    let of_lengths = cross(&cross(&groups, &rows[..4]), &[lengths]);
    let old = [old_lists(&rows[..12], old_words_lengths, Line::WordsOf), old_lists(&rows[..12], old_sector_lengths, Line::SectorWordsOf)];
    let one = vec![Line::Modes(vec![1, 0]), Line::Clear, Line::Word(TEXT.to_vec()), Line::Row(0.0), Line::Words, Line::SectorWords];
    [of_rows, of_lengths, old.concat(), cross(&group_values(), &[one])].concat()
}

// ---- sums

/// The rows of sums: good ones, and rows with a bit above, a coefficient that is not finite, a running sum that is not, in all pairs.
fn row_lists() -> Vec<Case> {
    let good = |coefficient| vec![Line::Word(TEXT.to_vec()), Line::Row(coefficient)];
    let mut above = word_bytes(TEXT);
    above[WORD_BYTES - 1] = 0x80;
    let above = |coefficient| vec![Line::Bytes { sites: SITES, bytes: above.clone() }, Line::Row(coefficient)];
    let kinds = [
        good(1.0),
        good(-0.0),
        good(f64::MAX),
        good(-f64::MAX),
        good(f64::INFINITY),
        good(f64::NEG_INFINITY),
        good(f64::NAN),
        above(1.0),
        above(f64::NAN),
        vec![Line::Word(b"IIIIII".to_vec()), Line::Row(f64::MAX)],
    ];
    let none: Vec<Case> = vec![vec![]];
    let pairs = cross(&kinds, &kinds);
    let threes = cross(&pairs, &kinds);
    [none, kinds.to_vec(), pairs, threes].concat()
}

/// Lengths of the lists of so many rows as they must be, and each one otherwise; of many rows, only longer ones.
fn with_others<const N: usize>(rows: usize, right: [usize; N]) -> Vec<[usize; N]> {
    let mut all = vec![right];
    for (changed, &length) in right.iter().enumerate() {
        let others = [length + 1, length + OLD_WORD_BYTES, length + WORD_BYTES, length.saturating_sub(1), OLD_WORD_BYTES * rows, 0];
        for &other in &others[..if rows < MAX_ROWS { others.len() } else { 1 }] {
            let mut lengths = right;
            lengths[changed] = other;
            all.push(lengths);
        }
    }
    all
}

/// The lengths of the lists of so many rows, and those for words in the old form.
fn list_lengths(rows: usize) -> Vec<[usize; 5]> {
    [with_others(rows, sum_lengths(rows)), vec![old_sum_lengths(rows)]].concat()
}

/// Lists of words in the old form under a group of too many sites for it, of as many as it may have, and of few; the first has 22, 23 and 36 before any
/// rule of a row. The phase modulus of all divides the entries of a turn.
fn old_lists<const N: usize>(rows: &[Case], old_lengths: fn(usize) -> [usize; N], line: fn([usize; N]) -> Line) -> Vec<Case> {
    let legs = [OLD_SITES / 2 + 1, OLD_SITES / 2, SITES / 2];
    let groups = legs.map(|legs| vec![Line::Lattice(Lattice::Ladder(2, legs)), Line::Modes(vec![1])]);
    let lengths = ROW_COUNTS.into_iter().flat_map(|rows| with_others(rows, old_lengths(rows))).map(line).collect();
    cross(&cross(&cross(&groups, rows), &[vec![], vec![Line::OldRows]]), &[lengths])
}

fn sums() -> Vec<Case> {
    let rows = cross(&[vec![Line::Clear]], &row_lists());
    let lengths = ROW_COUNTS.into_iter().flat_map(list_lengths).map(Line::SumOf).collect();
    let of_rows = cross(&cross(&some_group_values(), &rows), &[vec![Line::Sum]]);
    let of_old_rows = |case: Case| {
        let count = case.iter().filter(|line| matches!(line, Line::Row(_))).count();
        [&case[..], &[Line::OldRows, Line::SumOf(old_sum_lengths(count))]].concat()
    };
    let old: Vec<Case> = of_rows.iter().cloned().map(of_old_rows).collect();
    let of_lengths = cross(&cross(&some_group_values(), &rows[..20]), &[lengths]);
    [of_rows, old, of_lengths, old_lists(&rows[..12], old_sum_lengths, Line::SumOf)].concat()
}

// ---- projected sums

/// Rows with whole coefficients: good ones, and rows with a bit above, a coefficient out of range, or both, in all pairs.
fn whole_rows() -> Vec<Case> {
    let good = |coefficient| vec![Line::Word(TEXT.to_vec()), Line::Whole(coefficient)];
    let mut above = word_bytes(TEXT);
    above[PLANE_BYTES] |= 0x80;
    let above = |coefficient| vec![Line::Bytes { sites: SITES, bytes: above.clone() }, Line::Whole(coefficient)];
    let kinds = [
        good(1),
        good(MAX_COEFFICIENT),
        good(-MAX_COEFFICIENT),
        good(MAX_COEFFICIENT + 1),
        good(-MAX_COEFFICIENT - 1),
        good(i64::MAX),
        good(i64::MIN),
        above(1),
        above(MAX_COEFFICIENT + 1),
        vec![Line::Word(b"IIIIII".to_vec()), Line::Whole(-7)],
    ];
    let none: Vec<Case> = vec![vec![]];
    [none, kinds.to_vec(), cross(&kinds, &kinds)].concat()
}

/// Good and bad group values, and two of a phase modulus that does not divide the entries of a turn, one with as many generators as the base group.
fn turned_groups() -> Vec<Case> {
    [some_group_values(), each([Lattice::Chain(7), Lattice::Torus2(7, 1)].map(Line::Lattice))].concat()
}

/// Every kind of rows under every group value and every mode list, with lists as they must be and with sines a row long; and lists of all lengths.
fn projections() -> Vec<Case> {
    let rows = cross(&[vec![Line::Clear]], &whole_rows());
    let groups = cross(&turned_groups(), &mode_lists());
    let of_rows = cross(&groups, &rows);
    let asked = |case: Case| {
        let mut lengths = sum_lengths(case.iter().filter(|line| matches!(line, Line::Whole(_))).count());
        lengths[4] += 1;
        [&case[..], &[Line::Project, Line::ProjectOf(lengths), Line::OldRows, Line::ProjectOf(old_sum_lengths(lengths[1]))]].concat()
    };
    let lengths = ROW_COUNTS.into_iter().flat_map(list_lengths).map(Line::ProjectOf).collect();
    let of_lengths = cross(&cross(&groups, &rows[..4]), &[lengths]);
    [of_rows.into_iter().map(asked).collect(), of_lengths, old_lists(&rows[..12], old_sum_lengths, Line::ProjectOf)].concat()
}

// ---- phase tables

/// The constant table, another that keeps the rules, and tables that break one: a number off by one in one place, and numbers at the ends of 64 bits.
fn some_tables() -> Vec<Case> {
    let mut another = tables::constant();
    tables::change(&mut another, 1, false, 1, 4);
    let forged = |sine, entry, value| vec![Line::PhaseTable, Line::SetPhase { sine, entry, value }];
    vec![
        vec![Line::PhaseTable],
        vec![Line::PhaseFile(tables::file(&tables::lines(&another)))],
        forged(false, 1, tables::constant()[0][1] + 1),
        forged(false, 0, i64::MAX),
        forged(true, 719, i64::MIN),
    ]
}

/// Every kind of table under every group value and mode list, with some kinds of rows, and with lists of all lengths.
fn phase_tables() -> Vec<Case> {
    let groups = cross(&some_tables(), &cross(&turned_groups(), &mode_lists()));
    let rows = cross(&[vec![Line::Clear]], &whole_rows()[..12]);
    let of_rows = cross(&cross(&groups, &rows), &[vec![Line::Project]]);
    let lengths = ROW_COUNTS.into_iter().flat_map(list_lengths).map(Line::ProjectOf).collect();
    [of_rows, cross(&cross(&groups, &rows[..2]), &[lengths])].concat()
}

/// What may stand in a line of a file: faults of the form, and numbers out of their range or that break a rule.
#[rustfmt::skip]
const ENTRIES: [&str; 36] = [
    "", " ", "0", "0 ", " 0", "0  0", "0 0 ", " 0 0", "0 0 0", "0\t0", "0,0", "0 0\r", "\r", "00 0", "0 00", "01 0", "-0 0", "0 -0", "-01 0", "0 +1", "-",
    "- 0", "0 -", "--1 0", "1- 0", "x 0", "1.0 0", "0x1 0", "1e3 0", "cos sin", "0 0", "1073741824 0", "1073741825 0", "0 -1073741825",
    "9223372036854775808 0", "0 -18446744073709551616",
];

/// What may stand in the line of names.
const NAMES: [&str; 10] = ["", "cos", "sin cos", "cos  sin", "cos sin ", " cos sin", "Cos sin", "cos\tsin", "cos sin\r", "cos sin tan"];

/// A file by its lines, with line i another.
fn with_line(i: usize, line: &str) -> Vec<u8> {
    let mut lines = tables::lines(&tables::constant());
    lines[i] = line.to_string();
    tables::file(&lines)
}

/// Files: every fault in the first, the second, a middle and the last line; two faults; lines too few or too many; cut ends; numbers of many digits, and
/// files at the limit of bytes. Each after another table was in force.
fn phase_files() -> Vec<Case> {
    let whole = tables::lines(&tables::constant());
    let long = "9".repeat(300);
    let mut files: Vec<Vec<u8>> = NAMES.iter().map(|names| with_line(0, names)).collect();
    for i in [1, 2, 361, PHASES] {
        files.extend(ENTRIES.iter().map(|entry| with_line(i, entry)));
        files.extend([format!("{long} 0"), format!("0 -{long}")].map(|entry| with_line(i, &entry)));
    }
    let (one, two) = (with_line(1, "1073741825 0"), with_line(PHASES, "0 00"));
    let middle = one.len() / 2;
    files.push([&one[..middle], &two[two.len() - (one.len() - middle)..]].concat());
    for count in [0, 1, 2, PHASES - 1, PHASES, PHASES + 1] {
        files.push(tables::file(&whole[..count]));
    }
    files.push([tables::file(&whole), b"0 0\n".to_vec()].concat());
    files.push([tables::file(&whole), b"\n".to_vec()].concat());
    let file = tables::file(&whole);
    files.extend([1, 2, 3, 12].map(|bytes| file[..file.len() - bytes].to_vec()));
    let padded = |bytes: usize| with_line(2, &format!("{} 0", "7".repeat(bytes - with_line(2, " 0").len())));
    files.extend([MAX_FILE - 1, MAX_FILE, MAX_FILE + 1].map(padded));
    files.extend([MAX_FILE, MAX_FILE + 1].map(|bytes| vec![b'\n'; bytes]));
    let cases = files.into_iter().map(|file| vec![Line::PhaseFile(file)]).collect::<Vec<Case>>();
    cross(&some_tables()[..2], &cases)
}

// ---- sheets

#[rustfmt::skip]
const SHAPES: [&str; 24] = [
    "chain 4 0 0", "ladder 2 2 0", "torus2 2 2 0", "torus3 1 2 2", "ladder 4 1 0", "chain 4 1 0", "chain 4 0 1", "ladder 2 2 1", "chain 0 0 0",
    "torus2 0 4 0", "torus3 2 0 2049", "chain 2049 0 0", "torus3 13 13 13", "chain 99999999999999999999999 0 0",
    "torus2 99999999999999999999999 0 0", "chain 04 0 0", "chain -4 0 0", "ring 4 0 0", "chain 4 0", "chain 4 0 0 0", "chain  4 0 0",
    "chain 4 0 0 ", "", "torus2 64 32 0",
];

#[rustfmt::skip]
const ROWS: [&str; 20] = [
    "XIII 1 0 0", "XIXI 1 0 0", "XIXI -2 0 0", "XYZI 1 0 0", "YIYI 1 0 0", "YIYI -2 0 0", "XIII 0 1 0", "ZZZZ 0 0 -2147483648",
    "IIII 2147483647 0 0", "IIII 2147483648 0 0", "IIII -0 0 0", "IIII 01 0 0", "XIII 1 0", "XIII 1 0 0 0", " 1 0 0", "XIIQ 1 0 0",
    "XII 0 0 0", "XIIII 0 0 0", "_III x 0 0", "",
];

/// Every shape with every row, and every row after every other, with and without a line end at the end.
fn sheet_texts() -> Vec<String> {
    let long = format!("{} 0 0 0", "X".repeat(MAX_SITES + 1));
    let rows = [&ROWS[..], &[&long]].concat();
    let mut sheets = ["", "\n", "shape a b c", "shape a b c\n", "shape a b d\nchain 4 0 0\n"].map(String::from).to_vec();
    for shape in SHAPES {
        sheets.extend([format!("shape a b c\n{shape}"), format!("shape a b c\n{shape}\n")]);
        for names in ["word k0 k1 k2", "word k0 k1", ""] {
            sheets.push(format!("shape a b c\n{shape}\n{names}\n"));
            sheets.extend(rows.iter().map(|row| format!("shape a b c\n{shape}\n{names}\n{row}\n")));
        }
    }
    for first in &rows {
        for second in &rows {
            let sheet = format!("shape a b c\nchain 4 0 0\nword k0 k1 k2\n{first}\n{second}");
            sheets.extend([sheet.clone() + "\n", sheet]);
        }
    }
    sheets
}

/// The longest sheet that there may be, with a last line that is whole or not, and a longer one.
fn long_sheets() -> [String; 3] {
    let head = "shape a b c\nchain 5 0 0\nword k0 k1 k2\n";
    let row = "XIYII 1 0 0\n";
    let whole = head.to_string() + &row.repeat((MAX_SHEET - head.len()) / row.len());
    let padded = |length: usize| whole.clone() + &"X".repeat(length - whole.len());
    [whole.clone(), padded(MAX_SHEET), padded(MAX_SHEET + 1)]
}

/// A sheet of 40 by 40 sites and one of as many as there may be: words of a row repeated, which are kept and dropped, and one that is cut.
fn wide_sheets() -> [String; 2] {
    let rows = |line: &str, lines: usize, modes: &str| format!("{} {modes}\n", line.repeat(lines));
    let torus = rows(&"XIYZI".repeat(8), 40, "0 0 0") + &rows(&"XIYZI".repeat(8), 40, "8 1 0") + &rows(&"XIYZ".repeat(10), 39, "0 0 0");
    let chain = rows("XIYZ", MAX_SITES / 4, "512 0 0") + &rows("XIYZ", MAX_SITES / 4, "1 0 0");
    let head = |shape: &str| format!("shape a b c\n{shape}\nword k0 k1 k2\n");
    [head("torus2 40 40 0") + &torus, head(&format!("chain {MAX_SITES} 0 0")) + &chain]
}

/// Sheets, into lists that are long enough, just long enough, and too short.
fn sheets() -> Vec<Case> {
    let case = |places: usize, sheet: &str| vec![Line::Sheet { places, text: sheet.as_bytes().to_vec() }];
    let mut cases: Vec<Case> = long_sheets().iter().map(|sheet| case(MAX_TABLE, sheet)).collect();
    for sheet in sheet_texts().into_iter().chain(wide_sheets()) {
        let printed = sheet::printed(sheet.as_bytes()).len();
        cases.extend([MAX_TABLE.min(2 * printed), printed, printed - 1, 0].map(|places| case(places, &sheet)));
    }
    cases
}

// ---- random forgeries

/// A random group with one or two of its numbers overwritten, and what may be asked of it.
pub fn forged_case(random: &mut Random, bounds: Bounds) -> Case {
    let Chosen { line, group } = groups::group(random, bounds);
    let mut case = vec![line];
    for _ in 0..random.within(1..=2) {
        let near = group.n_qubits() + random.below(3);
        let g = random.below(MAX_GENERATORS);
        let (place, value) = match random.below(5) {
            0 => (Place::Sites, near.saturating_sub(1)),
            1 => (Place::Generators, random.below(MAX_GENERATORS + 2)),
            2 => (Place::Order(g), random.pick(&[0, 1, 2, 3, group.order()])),
            3 => (Place::Target(random.below(TARGETS)), random.below(near + 1)),
            _ => (Place::Target(MAX_SITES * g + random.below(near + 1).min(MAX_SITES - 1)), random.below(near + 1)),
        };
        case.push(Line::Set(place, value));
    }
    case.extend([Line::Order, Line::Word(words::word(random, &group)), Line::WithIndex, Line::Orbit, Line::Next(2)]);
    case.extend([Line::Row(0.0), Line::Words, Line::Modes(vec![0; group.n_generators()]), Line::SectorWords]);
    let index = random.below(group.order());
    case.extend([Line::Index(group.counter_from_index(index)), Line::At(index), Line::At(group.order())]);
    case
}
