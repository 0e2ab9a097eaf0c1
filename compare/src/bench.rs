//! The bench: ours through the C interface and the listed Rust, in turn in one process, on the same words. Times are of one call, of one row of a sum, or of
//! one of many words in one call; the ratio is the Rust's least time over ours. Ours is handed words in full; the Rust's have the bytes of the old form where
//! these hold the sites, since above 128 bytes a plane it rotates no longer by masks but moves letters site by site.

use crate::bulk::{self, Call, WORDS};
use crate::cases::{Group, Lattice};
use crate::groups::{self, Generators, shifts_by, shifts_of, sublattices, turn};
use crate::interface::*;
use crate::random::Random;
use crate::rust::{OldWord, old_bytes, value_of};
use crate::sizes::*;
use crate::timing::{Side, Times, in_turn, time, timed};
use crate::words::word_bytes;
use ppvm_pauli_sum::symmetry::group::TranslationGroup;
use ppvm_pauli_sum::symmetry::merge;
use ppvm_pauli_word::word::PauliWord;
use std::hint::black_box;

struct Measured {
    name: String,
    sites: usize,
    order: usize,
    call: &'static str,
    ours: Times,
    rust: Times,
}

impl Measured {
    fn ratio(&self) -> f64 {
        self.rust.least / self.ours.least
    }

    fn line(&self) {
        println!("bench {}, {}: ours {}, the Rust {}, ratio {:.2}", self.name, self.call, self.ours.both(), self.rust.both(), self.ratio());
    }

    fn row(&self) {
        let (ours, rust) = (self.ours.both(), self.rust.both());
        println!("| {} | {} | {} | `{}` | {ours} | {rust} | {:.2} |", self.name, self.sites, self.order, self.call, self.ratio());
    }
}

/// What the check of a group takes of a call with many words: the check alone, a call with one word, and one of many words by the word.
struct Check {
    name: String,
    sites: usize,
    order: usize,
    check: Times,
    one: Times,
    many: Times,
}

impl Check {
    /// The check's part of the call with one word and of the one with many, in percent.
    fn shares(&self) -> String {
        let share = |call: f64| 100.0 * self.check.least / call;
        format!("{:.0} %, {:.1} %", share(self.one.least), share(self.many.least * WORDS as f64))
    }

    fn times(&self) -> [String; 3] {
        [&self.check, &self.one, &self.many].map(|times| time(times.least))
    }

    fn line(&self) {
        let [check, one, many] = self.times();
        println!("bench {}, the check of 14: {check}; 1 word {one}, one of {WORDS} {many}; its share {}", self.name, self.shares());
    }

    fn row(&self) {
        let times = self.times().join(" | ");
        println!("| {} | {} | {} | {times} | {} |", self.name, self.sites, self.order, self.shares());
    }
}

/// A line for each measurement.
pub fn lines() {
    measure_calls("", Measured::line);
    measure_many("", Measured::line);
    measure_at_index("", Measured::line);
    measure_check("", Check::line);
}

/// The tables of docs/BENCH.md, of groups whose names have a text: single calls and sums; many words in one call; words at an index; and what the check of
/// the group takes of a call with many words.
pub fn tables(only: &str) {
    let head = |first: &str| {
        println!("| {first} | sites | order | call | ours, least | the Rust, least | ratio |");
        println!("|---|---|---|---|---|---|---|");
    };
    head("group");
    measure_calls(only, Measured::row);
    println!();
    head("group and words");
    measure_many(only, Measured::row);
    println!();
    head("group and index");
    measure_at_index(only, Measured::row);
    println!();
    println!(
        "| group | sites | order | the check of 14 (`order`) | `canonicalize_words`, 1 word | {WORDS} words, by the word | share of the check |"
    );
    println!("|---|---|---|---|---|---|---|");
    measure_check(only, Check::row);
}

fn measure_calls(only: &str, report: fn(&Measured)) {
    let mut random = Random::of(0, "bench", 0);
    for (name, group) in benched_groups(&mut random) {
        let words: Vec<OldWord> = (0..WORDS).map(|_| bulk::any_word(&mut random, group.n_qubits()).into()).collect();
        if name.contains(only) {
            report(&measured(&name, &group, "canonicalize_with_index", with_index(&group, &words)));
            report(&measured(&name, &group, "canonicalize_in_sector", in_sector(&group, &words)));
        }
    }
    let group = groups::accepted(Lattice::Chain(64));
    for (name, rows) in benched_rows(&mut random, &group) {
        let name = format!("chain 64, {MAX_ROWS} rows {name}");
        if name.contains(only) {
            report(&measured(&name, &group, "canonicalize_pauli_sum", sum(&group, &rows)));
        }
    }
}

/// Many words in one call, by the word.
fn measure_many(only: &str, report: fn(&Measured)) {
    let mut random = Random::of(0, "bench many", 0);
    let measure = |name: String, group: &TranslationGroup, call: Call, words: &[String]| {
        if name.contains(only) {
            let words = bulk::few(call, group, words);
            let times = in_turn([bulk::ours(call, group, words), bulk::rust(call, group, words)]);
            report(&measured(&name, group, call.name(), times));
        }
    };
    for (name, group) in lattices().into_iter().chain([wide()]).chain(own_groups(&mut random)) {
        for (kind, words) in bulk::kinds(&mut random, &group) {
            for call in Call::ALL {
                measure(format!("{name}, {kind}"), &group, call, &words);
            }
        }
    }
    for (name, group) in walked_groups() {
        let [(kind, words), ..] = bulk::kinds(&mut random, &group);
        measure(format!("{name}, {kind}"), &group, Call::Words, &words);
    }
}

/// The groups of which words at an index are measured.
const INDEXED: [&str; 5] = ["chain 64", "torus 16 x 16", "torus 16 x 16, sites renumbered", "four rings of 32", "torus 40 x 40"];

/// Words at the index 1, the middle and the last one of a group.
fn measure_at_index(only: &str, report: fn(&Measured)) {
    let mut random = Random::of(0, "bench at index", 0);
    for (name, group) in benched_groups(&mut random).into_iter().chain([wide()]) {
        let words: Vec<String> = (0..WORDS).map(|_| bulk::any_word(&mut random, group.n_qubits())).collect();
        let names = ["index 1", "middle index", "last index"].map(|index| format!("{name}, {index}"));
        if INDEXED.contains(&name.as_str()) && names.iter().any(|name| name.contains(only)) {
            let times = at_indices(&group, &words, [1, group.order() / 2, group.order() - 1]);
            for (name, times) in names.iter().zip(times).filter(|(name, _)| name.contains(only)) {
                report(&measured(name, &group, "word_at_index", times));
            }
        }
    }
}

fn measure_check(only: &str, report: fn(&Check)) {
    let mut random = Random::of(0, "bench check", 0);
    for (name, group) in lattices().into_iter().chain([wide()]) {
        let words: Vec<String> = (0..WORDS).map(|_| bulk::any_word(&mut random, group.n_qubits())).collect();
        if name.contains(only) {
            let sides = [bulk::check(&group), bulk::ours(Call::Words, &group, &words[..1]), bulk::ours(Call::Words, &group, &words)];
            let [check, one, many] = in_turn(sides);
            report(&Check { name, sites: group.n_qubits(), order: group.order(), check, one, many });
        }
    }
}

fn measured(name: &str, group: &TranslationGroup, call: &'static str, [ours, rust]: [Times; 2]) -> Measured {
    Measured { name: name.to_string(), sites: group.n_qubits(), order: group.order(), call, ours, rust }
}

/// A group and its name.
type Named = (String, TranslationGroup);

fn named(name: &str, generators: Generators) -> Named {
    (name.to_string(), generators.chosen().group)
}

fn lattices() -> Vec<Named> {
    let lattices = [
        ("chain 64", Lattice::Chain(64)),
        ("chain 256", Lattice::Chain(256)),
        ("ladder 64 x 4", Lattice::Ladder(64, 4)),
        ("torus 8 x 8", Lattice::Torus2(8, 8)),
        ("torus 16 x 16", Lattice::Torus2(16, 16)),
        ("torus 6 x 6 x 7", Lattice::Torus3(6, 6, 7)),
    ];
    lattices.map(|(name, lattice)| (name.to_string(), groups::accepted(lattice))).into()
}

/// A lattice of more sites than the old form holds.
fn wide() -> Named {
    ("torus 40 x 40".to_string(), groups::accepted(Lattice::Torus2(40, 40)))
}

/// Buyers' own permutations: tori of cells in other numberings, and groups side by side.
fn own_groups(random: &mut Random) -> Vec<Named> {
    vec![
        named("honeycomb 8 x 8, sites renumbered", sublattices(8, 8, 2).renumbered(random)),
        named("kagome 6 x 6, sites renumbered", sublattices(6, 6, 3).renumbered(random)),
        named("triangular 8 x 8, sites renumbered", shifts_by(8, 8, 1, &[(1, 0), (1, 1)]).renumbered(random)),
        named("four rings of 32", groups::rings(4, 32)),
        named("torus 8 x 8 beside chain 32", shifts_of(Lattice::Torus2(8, 8)).beside(turn(&[32]))),
    ]
}

/// Groups of one part that do not act freely: equal generators, and orbits of different sizes.
fn walked_groups() -> [Named; 2] {
    [named("two equal shifts of chain 32", turn(&[32]).with_power(0, 1)), named("cycles of 32 and 48", turn(&[32, 48]))]
}

fn benched_groups(random: &mut Random) -> Vec<Named> {
    let torus = named("torus 16 x 16, sites renumbered", shifts_of(Lattice::Torus2(16, 16)).renumbered(random));
    lattices().into_iter().chain([torus]).chain(own_groups(random)).collect()
}

/// Rows of a sum by how their representatives follow one another.
fn benched_rows(random: &mut Random, group: &TranslationGroup) -> Vec<(&'static str, Vec<OldWord>)> {
    let mut rising: Vec<OldWord> = (0..MAX_ROWS).map(|_| bulk::any_word(random, group.n_qubits()).into()).collect();
    rising.sort_by_cached_key(|word| group.canonicalize(word));
    let falling = rising.iter().rev().copied().collect();
    let mut shuffled = rising.clone();
    random.shuffle(&mut shuffled);
    let orbit: Vec<OldWord> = group.orbit(&rising[0]).collect();
    let equal = (0..MAX_ROWS).map(|_| random.pick(&orbit)).collect();
    vec![("rising", rising), ("falling", falling), ("random", shuffled), ("all equal", equal)]
}

fn with_index(group: &TranslationGroup, words: &[OldWord]) -> [Times; 2] {
    let value = value_of(group);
    let ours: Vec<Vec<u8>> = words.iter().map(old_bytes).collect();
    in_turn([
        Side::round(ours, |word| {
            black_box(ours_with_index(&value, word));
        }),
        Side::round(words.to_vec(), |word| {
            black_box(group.canonicalize_with_index(word));
        }),
    ])
}

fn in_sector(group: &TranslationGroup, words: &[OldWord]) -> [Times; 2] {
    let value = value_of(group);
    let modes = vec![0; group.n_generators()];
    let ours: Vec<Vec<u8>> = words.iter().map(old_bytes).collect();
    in_turn([
        Side::round(ours, |word| {
            black_box(ours_in_sector(&value, word, &modes));
        }),
        Side::round(words.to_vec(), |word| {
            black_box(group.canonicalize_in_sector(word, &modes));
        }),
    ])
}

/// Words at each of some indices, by both.
fn at_indices(group: &TranslationGroup, words: &[String], indices: [usize; 3]) -> [[Times; 2]; 3] {
    let value = value_of(group);
    let alone: Vec<TranslationGroup> = (0..group.n_generators()).map(|g| generator_alone(group, g)).collect();
    let ours = |index: usize| {
        let words = words.iter().map(|word| word_bytes(word.as_bytes())).collect();
        let value = &value;
        Side::round(words, move |word: &Vec<u8>| {
            black_box(ours_at_index(value, word, index));
        })
    };
    let rust = |index: usize| match group.n_qubits() {
        ..=OLD_SITES => rust_at_index::<OLD_PLANE_BYTES>(group, &alone, words, index),
        _ => rust_at_index::<PLANE_BYTES>(group, &alone, words, index),
    };
    let ([a, b, c], [d, e, f]) = (indices.map(ours), indices.map(rust));
    let [a, b, c, d, e, f] = in_turn([a, b, c, d, e, f]);
    [[a, d], [b, e], [c, f]]
}

/// The group of one generator.
fn generator_alone(group: &TranslationGroup, g: usize) -> TranslationGroup {
    TranslationGroup::from_generators(group.n_qubits(), vec![group.generator_perm(g).to_vec()], vec![group.generator_order(g)])
}

/// The Rust has no such call, and keeps its move by a generator to itself. The fastest way through what it offers: the groups of one generator each, made
/// beforehand, and in the orbit of each the entry of its digit. In the orbit of the whole group it would be as many steps as the index.
fn rust_at_index<'a, const N: usize>(
    group: &'a TranslationGroup,
    alone: &'a [TranslationGroup],
    words: &[String],
    index: usize,
) -> Side<'a> {
    let words: Vec<PauliWord<[u8; N]>> = words.iter().map(|word| word.as_str().into()).collect();
    Side::round(words, move |word| {
        let counter = group.counter_from_index(index);
        let moves = alone.iter().zip(counter).filter(|(_, digit)| *digit > 0);
        black_box(
            moves.fold(*word, |word, (generator, digit)| generator.orbit(&word).nth(digit as usize).expect("a digit below the order")),
        );
    })
}

/// Both sides fold all rows at each call; what is timed is the call alone, by the row.
fn sum(group: &TranslationGroup, rows: &[OldWord]) -> [Times; 2] {
    let value = value_of(group);
    let words: Vec<u8> = rows.iter().flat_map(old_bytes).collect();
    let coefficients: Vec<f64> = (0..rows.len()).map(|i| i as f64).collect();
    let fold_ours = || {
        let (mut representatives, mut sums, mut counts) = (vec![0; words.len()], vec![0.0; rows.len()], vec![0; rows.len()]);
        timed(|| {
            black_box(ours_sum(&value, &words, &coefficients, &mut representatives, &mut sums, &mut counts));
        })
    };
    let fold_rust = || {
        let (mut basis, mut coefficients) = (rows.to_vec(), coefficients.clone());
        timed(|| merge::canonicalize_pauli_sum(&mut basis, &mut coefficients, group))
    };
    in_turn([Side::of(rows.len(), fold_ours), Side::of(rows.len(), fold_rust)])
}

fn ours_with_index(group: &Group, word: &[u8]) -> ([u8; WORD_BYTES], usize) {
    let (mut least, mut index, mut values) = ([0; WORD_BYTES], 0, [0; VALUES]);
    let rule = call_of_group!(
        gomurin_canonicalize_with_index,
        group.parts(),
        group.sites,
        word.as_ptr(),
        word.len(),
        least.as_mut_ptr(),
        &mut index,
        values.as_mut_ptr()
    );
    assert_eq!(rule, 0);
    (least, index)
}

fn ours_at_index(group: &Group, word: &[u8], index: usize) -> [u8; WORD_BYTES] {
    let (mut made, mut values) = ([0; WORD_BYTES], [0; VALUES]);
    let rule = call_of_group!(
        gomurin_word_at_index,
        group.parts(),
        group.sites,
        word.as_ptr(),
        word.len(),
        index,
        made.as_mut_ptr(),
        values.as_mut_ptr()
    );
    assert_eq!(rule, 0);
    made
}

fn ours_in_sector(group: &Group, word: &[u8], modes: &[i32]) -> ([u8; WORD_BYTES], [u32; MAX_GENERATORS], usize, u8) {
    let (mut least, mut counter, mut size, mut kept) = ([0; WORD_BYTES], [0; MAX_GENERATORS], 0, 0);
    let (mut dropped_by, mut values) = (0, [0; VALUES]);
    let rule = call_of_group!(
        gomurin_canonicalize_in_sector,
        group.parts(),
        group.sites,
        word.as_ptr(),
        word.len(),
        modes.as_ptr(),
        modes.len(),
        least.as_mut_ptr(),
        counter.as_mut_ptr(),
        group.generators,
        &mut size,
        &mut kept,
        &mut dropped_by,
        values.as_mut_ptr()
    );
    assert_eq!(rule, 0);
    (least, counter, size, kept)
}

fn ours_sum(group: &Group, words: &[u8], coefficients: &[f64], representatives: &mut [u8], sums: &mut [f64], counts: &mut [u32]) -> usize {
    let (mut rows, mut values) = (0, [0; VALUES]);
    let rule = call_of_group!(
        gomurin_canonicalize_pauli_sum,
        group.parts(),
        words.as_ptr(),
        words.len(),
        coefficients.as_ptr(),
        coefficients.len(),
        representatives.as_mut_ptr(),
        representatives.len(),
        sums.as_mut_ptr(),
        sums.len(),
        counts.as_mut_ptr(),
        counts.len(),
        &mut rows,
        values.as_mut_ptr()
    );
    assert_eq!(rule, 0);
    rows
}
