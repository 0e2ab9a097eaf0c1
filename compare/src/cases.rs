//! The lines that cases are made of, and how answers are written. Both sides answer the same lines, each by a text; where the texts differ, the
//! lines that led there are the case.
//!
//! The lines are those of a list of cases, which a program of the gate replays; `set walk ..`, `set at ..`, `words ..` and `sector_words ..` are for the
//! comparison alone.

use crate::sizes::*;
use std::cmp::Ordering;
use std::fmt::{self, Display, Formatter};

/// A group value, as the calls hand it over: the targets of generator g stand from MAX_SITES * g on, unused places are 0.
#[derive(Clone, PartialEq)]
pub struct Group {
    pub sites: usize,
    pub generators: usize,
    pub orders: [u32; MAX_GENERATORS],
    pub targets: [u16; TARGETS],
}

impl Group {
    pub const EMPTY: Group = Group { sites: 0, generators: 0, orders: [0; MAX_GENERATORS], targets: [0; TARGETS] };
}

/// One number of a group value, to be overwritten.
#[derive(Clone, Copy)]
pub enum Place {
    Sites,
    Generators,
    Order(usize),
    Target(usize),
}

impl Group {
    pub fn set(&mut self, place: Place, value: usize) {
        match place {
            Place::Sites => self.sites = value,
            Place::Generators => self.generators = value,
            Place::Order(i) => self.orders[i] = value as u32,
            Place::Target(i) => self.targets[i] = value as u16,
        }
    }
}

#[derive(Clone, Copy)]
pub enum Lattice {
    Chain(usize),
    Ladder(usize, usize),
    Torus2(usize, usize),
    Torus3(usize, usize, usize),
}

impl Lattice {
    pub fn sides(self) -> Vec<usize> {
        match self {
            Lattice::Chain(a) => vec![a],
            Lattice::Ladder(a, b) | Lattice::Torus2(a, b) => vec![a, b],
            Lattice::Torus3(a, b, c) => vec![a, b, c],
        }
    }
}

/// A line of a case: something handed over, or a question.
#[derive(Clone)]
pub enum Line {
    Group {
        sites: usize,
        list: Vec<u32>,
        orders: Vec<u32>,
    },
    Lattice(Lattice),
    Set(Place, usize),
    Order,
    Modulus,
    Targets,
    Counter {
        index: usize,
        places: usize,
    },
    /// The index of a counter.
    Index(Vec<u32>),
    Invert(usize),
    Word(Vec<u8>),
    Bytes {
        sites: usize,
        bytes: Vec<u8>,
    },
    /// The word in force, put in the old form.
    Old,
    Text,
    Weight,
    Compare(Vec<u8>),
    Canonicalize,
    WithIndex,
    WithShift {
        places: usize,
    },
    /// The word that an index makes.
    At(usize),
    OrbitList {
        bytes: usize,
    },
    Orbit,
    SetIndex(usize),
    SetWalk(Place, usize),
    SetAt {
        byte: usize,
        value: u8,
    },
    Next(usize),
    Modes(Vec<i32>),
    Numerator(Vec<u32>),
    Table {
        places: usize,
    },
    Sector {
        places: usize,
    },
    Clear,
    Row(f64),
    /// A row with a whole coefficient.
    Whole(i64),
    /// The words of the rows, put in the old form, one after the other from the front of their list.
    OldRows,
    /// The least words of the rows and the indices back, in one call.
    Words,
    /// The same with lists of these lengths: words, representatives and indices.
    WordsOf([usize; 3]),
    /// The rows in a sector, in one call.
    SectorWords,
    /// The same with lists of these lengths: words, representatives, indices and sizes.
    SectorWordsOf([usize; 4]),
    Sum,
    /// A sum with lists of these lengths: words, coefficients, representatives, sums and counts.
    SumOf([usize; 5]),
    Project,
    /// A projected sum with lists of these lengths: words, coefficients, representatives, cosines and sines.
    ProjectOf([usize; 5]),
    /// The constant phase table.
    PhaseTable,
    PhaseFile(Vec<u8>),
    /// One number of the phase table, to be overwritten.
    SetPhase {
        sine: bool,
        entry: usize,
        value: i64,
    },
    Sheet {
        places: usize,
        text: Vec<u8>,
    },
}

pub type Case = Vec<Line>;

impl Display for Place {
    fn fmt(&self, f: &mut Formatter) -> fmt::Result {
        match self {
            Place::Sites => write!(f, "sites"),
            Place::Generators => write!(f, "generators"),
            Place::Order(i) => write!(f, "order {i}"),
            Place::Target(i) => write!(f, "target {i}"),
        }
    }
}

impl Display for Lattice {
    fn fmt(&self, f: &mut Formatter) -> fmt::Result {
        let name = match self {
            Lattice::Chain(..) => "chain",
            Lattice::Ladder(..) => "ladder",
            Lattice::Torus2(..) => "torus2",
            Lattice::Torus3(..) => "torus3",
        };
        write!(f, "{name}{}", list(self.sides()))
    }
}

impl Display for Line {
    fn fmt(&self, f: &mut Formatter) -> fmt::Result {
        match self {
            Line::Group { sites, list: targets, orders } => write!(f, "group {sites}{} /{}", list(targets), list(orders)),
            Line::Lattice(lattice) => write!(f, "{lattice}"),
            Line::Set(place, value) => write!(f, "set {place} {value}"),
            Line::Order => write!(f, "order"),
            Line::Modulus => write!(f, "modulus"),
            Line::Targets => write!(f, "targets"),
            Line::Counter { index, places } => write!(f, "counter {index} {places}"),
            Line::Index(digits) => write!(f, "index{}", list(digits)),
            Line::Invert(index) => write!(f, "invert {index}"),
            Line::Word(text) if text.is_empty() => write!(f, "word"),
            Line::Word(text) => write!(f, "word {}", visible(text)),
            Line::Bytes { sites, bytes } => write!(f, "{}", format!("bytes {sites} {}", hex(bytes)).trim_end()),
            Line::Old => write!(f, "old"),
            Line::Text => write!(f, "text"),
            Line::Weight => write!(f, "weight"),
            Line::Compare(bytes) => write!(f, "compare {}", hex(bytes)),
            Line::Canonicalize => write!(f, "canonicalize"),
            Line::WithIndex => write!(f, "with_index"),
            Line::WithShift { places } => write!(f, "with_shift {places}"),
            Line::At(index) => write!(f, "at {index}"),
            Line::OrbitList { bytes } => write!(f, "orbit_list {bytes}"),
            Line::Orbit => write!(f, "orbit"),
            Line::SetIndex(value) => write!(f, "set index {value}"),
            Line::SetWalk(place, value) => write!(f, "set walk {place} {value}"),
            Line::SetAt { byte, value } => write!(f, "set at {byte} {value}"),
            Line::Next(steps) => write!(f, "next {steps}"),
            Line::Modes(modes) => write!(f, "modes{}", list(modes)),
            Line::Numerator(digits) => write!(f, "numerator{}", list(digits)),
            Line::Table { places } => write!(f, "table {places}"),
            Line::Sector { places } => write!(f, "sector {places}"),
            Line::Clear => write!(f, "clear"),
            Line::Row(coefficient) if coefficient.is_nan() => write!(f, "row nan"),
            Line::Row(coefficient) => write!(f, "row {:016x}", coefficient.to_bits()),
            Line::Whole(coefficient) => write!(f, "whole {coefficient}"),
            Line::OldRows => write!(f, "old_rows"),
            Line::Words => write!(f, "words"),
            Line::WordsOf(lengths) => write!(f, "words{}", list(lengths)),
            Line::SectorWords => write!(f, "sector_words"),
            Line::SectorWordsOf(lengths) => write!(f, "sector_words{}", list(lengths)),
            Line::Sum => write!(f, "sum"),
            Line::SumOf(lengths) => write!(f, "sum{}", list(lengths)),
            Line::Project => write!(f, "project"),
            Line::ProjectOf(lengths) => write!(f, "project{}", list(lengths)),
            Line::PhaseTable => write!(f, "phase_table"),
            Line::PhaseFile(file) => write!(f, "{}", format!("phase_file {}", visible(file)).trim_end()),
            Line::SetPhase { sine, entry, value } => write!(f, "set {} {entry} {value}", if *sine { "sine" } else { "cosine" }),
            Line::Sheet { places, text } => write!(f, "sheet_in {places} {}", visible(text)),
        }
    }
}

/// What a refused call says: the rule, and the values that it names.
#[derive(Clone)]
pub struct Refusal {
    pub rule: usize,
    pub values: Vec<usize>,
}

pub fn refusal(rule: usize, values: &[usize]) -> Refusal {
    Refusal { rule, values: values.to_vec() }
}

impl Display for Refusal {
    fn fmt(&self, f: &mut Formatter) -> fmt::Result {
        write!(f, "refused {}{}", self.rule, list(&self.values))
    }
}

/// How many values a rule names; 17 of a row names its row besides.
pub fn values_named(rule: usize) -> usize {
    match rule {
        4..=7 | 11 => 2,
        10 => 3,
        8 | 9 | 24 | 25 | 29 | 33 => 1,
        _ => 0,
    }
}

/// The members of a list, a space before each.
pub fn list<T: Display>(members: impl IntoIterator<Item = T>) -> String {
    members.into_iter().map(|member| format!(" {member}")).collect()
}

pub fn hex(bytes: &[u8]) -> String {
    bytes.iter().map(|byte| format!("{byte:02x}")).collect()
}

/// A text on one line: `|` for byte 10, and `\HH` for bytes that are no letters of a line.
pub fn visible(text: &[u8]) -> String {
    let shown = |&byte: &u8| match byte {
        10 => "|".to_string(),
        b'|' | b'\\' => format!("\\{byte:02x}"),
        32..127 => char::from(byte).to_string(),
        _ => format!("\\{byte:02x}"),
    };
    text.iter().map(shown).collect()
}

/// The letters of a word of WORD_BYTES bytes. Bits above its sites, which no word has, are shown after them.
pub fn letters(sites: usize, word: &[u8]) -> String {
    let (x, z) = word.split_at(PLANE_BYTES);
    let mut text: String = (0..sites.min(MAX_SITES)).map(|q| ['I', 'Z', 'X', 'Y'][2 * bit(x, q) + bit(z, q)]).collect();
    if has_bit_above(sites, word) {
        text += " and bits above";
    }
    text
}

/// The old form of a word; zeros stand for bytes that are not there.
pub fn old_form(word: &[u8]) -> Vec<u8> {
    let mut full = word.to_vec();
    full.resize(WORD_BYTES, 0);
    full.chunks(PLANE_BYTES).flat_map(|plane| &plane[..OLD_PLANE_BYTES]).copied().collect()
}

/// Puts the words of so many rows in the old form, one after the other from the front of their list.
pub fn old_rows(words: &mut [u8], rows: usize) {
    let old: Vec<u8> = words.chunks(WORD_BYTES).take(rows).flat_map(old_form).collect();
    words[..old.len()].copy_from_slice(&old);
}

pub fn bit(plane: &[u8], site: usize) -> usize {
    usize::from(plane[site / 8] >> (site % 8) & 1)
}

/// Whether a word of WORD_BYTES bytes has a bit set at or above its site count.
pub fn has_bit_above(sites: usize, word: &[u8]) -> bool {
    let above = |(i, &byte): (usize, &u8)| u16::from(byte) >> sites.saturating_sub(8 * i).min(8) != 0;
    word.chunks(PLANE_BYTES).any(|plane| plane.iter().enumerate().any(above))
}

/// A group value, without its unused places.
pub fn targets(group: &Group) -> String {
    let generators = group.targets.chunks(MAX_SITES).take(group.generators);
    let texts: Vec<String> = generators.map(|targets| format!("/{}", list(&targets[..group.sites.min(MAX_SITES)]))).collect();
    texts.join(" ")
}

pub fn ordering(order: Ordering) -> &'static str {
    match order {
        Ordering::Less => "less",
        Ordering::Equal => "same",
        Ordering::Greater => "greater",
    }
}

/// The steps of a walk on one line.
pub fn steps(answers: &[String]) -> String {
    answers.join("; ")
}

/// The lengths of the lists of so many words in one call: words, representatives and indices.
pub fn words_lengths(rows: usize) -> [usize; 3] {
    [WORD_BYTES * rows, WORD_BYTES * rows, rows]
}

/// The same where the words are in the old form.
pub fn old_words_lengths(rows: usize) -> [usize; 3] {
    [OLD_WORD_BYTES * rows, WORD_BYTES * rows, rows]
}

/// The lengths of the lists of so many words in a sector: words, representatives, indices and sizes.
pub fn sector_lengths(rows: usize) -> [usize; 4] {
    [WORD_BYTES * rows, WORD_BYTES * rows, rows, rows]
}

/// The same where the words are in the old form.
pub fn old_sector_lengths(rows: usize) -> [usize; 4] {
    [OLD_WORD_BYTES * rows, WORD_BYTES * rows, rows, rows]
}

/// The rows of many words in one call.
pub fn many(rows: impl Iterator<Item = String>) -> String {
    format!("done:{}", list(rows))
}

/// The lengths of the lists of a sum of so many rows: words, coefficients, representatives, and the two other lists of its result.
pub fn sum_lengths(rows: usize) -> [usize; 5] {
    [WORD_BYTES * rows, rows, WORD_BYTES * rows, rows, rows]
}

/// The same where the words are in the old form.
pub fn old_sum_lengths(rows: usize) -> [usize; 5] {
    [OLD_WORD_BYTES * rows, rows, WORD_BYTES * rows, rows, rows]
}

/// The rows of a folded sum: word, coefficient by its bits, count.
pub fn rows(number: usize, rows: impl Iterator<Item = (String, f64, u32)>) -> String {
    let rows: String = rows.map(|(word, sum, count)| format!(" {word} {:016x} {count}", sum.to_bits())).collect();
    format!("{number} rows:{rows}")
}

/// The rows of a projected sum, with how many input rows are kept and how many dropped: word, and the sums along the cosine and the sine.
pub fn projected(kept: usize, dropped: usize, rows: impl Iterator<Item = (String, i128, i128)>) -> String {
    let rows: String = rows.map(|(word, cosine, sine)| format!(" {word} {cosine} {sine}")).collect();
    format!("{kept} kept, {dropped} dropped:{rows}")
}
