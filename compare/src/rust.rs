//! What is expected: the rules of document 01 in the order of each call, and past them the answers of the listed Rust.

use crate::cases::*;
use crate::guard::FILL;
use crate::projections;
use crate::sheet;
use crate::sizes::*;
use crate::tables::{self, Table};
use ppvm_pauli_sum::symmetry::group::{GroupError, TranslationGroup};
use ppvm_pauli_sum::symmetry::{inner, merge, momentum};
use ppvm_pauli_word::word::PauliWord;
use ppvm_traits::PauliWordTrait;
use std::collections::HashMap;

/// The Rust's word with as many bytes a plane as ours.
pub type Word = PauliWord<[u8; PLANE_BYTES]>;

/// The Rust's word with as many bytes a plane as the old form.
pub type OldWord = PauliWord<[u8; OLD_PLANE_BYTES]>;

type Answer = Result<String, Refusal>;

/// What is in force between the lines of a case.
pub struct Rust {
    group: Made,
    sites: usize,
    word: Vec<u8>,
    modes: Vec<i32>,
    walk: Walk,
    words: Vec<u8>,
    coefficients: Vec<f64>,
    wholes: Vec<i64>,
    table: Table,
}

/// A row of a sum: a word, in full, with its coefficient, which is a float or a whole number.
pub struct Row<C> {
    pub word: Vec<u8>,
    pub coefficient: C,
}

/// A group value, and the Rust's group where accepted generators give that value.
#[derive(Clone)]
struct Made {
    value: Group,
    group: Option<TranslationGroup>,
}

struct Walk {
    group: Made,
    at: Vec<u8>,
    index: usize,
}

impl Rust {
    pub fn new() -> Rust {
        let group = Made::of(Group::EMPTY);
        let walk = Walk { group: group.clone(), at: vec![0; WORD_BYTES], index: 0 };
        let (words, coefficients, wholes) = (Vec::new(), Vec::new(), Vec::new());
        Rust { group, sites: 0, word: Vec::new(), modes: Vec::new(), walk, words, coefficients, wholes, table: tables::constant() }
    }

    /// The Rust's group in force, if there is one.
    pub fn group(&self) -> Option<&TranslationGroup> {
        self.group.group.as_ref()
    }

    /// The answer to a line.
    pub fn answer(&mut self, line: &Line) -> String {
        match line {
            Line::Group { sites, list, orders } => self.make(try_from_generators(*sites, list, orders)),
            Line::Lattice(lattice) => self.make(lattice_group(*lattice)),
            Line::Set(place, value) => set(|| self.group.set(*place, *value)),
            Line::Order => said(self.group.check().map(|group| group.order().to_string())),
            Line::Modulus => said(self.group.check().map(|group| inner::phase_modulus(group).to_string())),
            Line::Targets => targets(&self.group.value),
            Line::Counter { index, places } => self.counter_from_index(*index, *places),
            Line::Index(digits) => said(self.index_from_counter(digits)),
            Line::Invert(index) => said(self.invert_index(*index)),
            Line::Word(text) => said(self.from_text(text)),
            Line::Bytes { sites, bytes } => set(|| (self.sites, self.word) = (*sites, bytes.clone())),
            Line::Old => set(|| self.word = old_form(&self.word)),
            Line::Text => said(self.read_word().map(|word| word.to_string())),
            Line::Weight => said(self.read_word().map(|word| word.weight().to_string())),
            Line::Compare(bytes) => said(self.compare(bytes)),
            Line::Canonicalize => said(self.check_word().map(|(group, word)| text(&group.canonicalize(&word)))),
            Line::WithIndex => said(self.canonicalize_with_index()),
            Line::WithShift { places } => self.canonicalize_with_shift(*places),
            Line::At(index) => self.word_at_index(*index),
            Line::OrbitList { bytes } => self.orbit_list(*bytes),
            Line::Orbit => said(self.orbit()),
            Line::SetIndex(value) => set(|| self.walk.index = *value),
            Line::SetWalk(place, value) => set(|| self.walk.group.set(*place, *value)),
            Line::SetAt { byte, value } => set(|| self.walk.at[*byte] = *value),
            Line::Next(number) => self.next(*number),
            Line::Modes(modes) => set(|| self.modes = modes.clone()),
            Line::Numerator(digits) => said(self.character_numerator(digits)),
            Line::Table { places } => self.character_table(*places),
            Line::Sector { places } => self.canonicalize_in_sector(*places),
            Line::Clear => set(|| (self.words, self.coefficients, self.wholes) = (Vec::new(), Vec::new(), Vec::new())),
            Line::Row(coefficient) => set(|| self.row(*coefficient, 0)),
            Line::Whole(coefficient) => set(|| self.row(0.0, *coefficient)),
            Line::OldRows => set(|| old_rows(&mut self.words, self.coefficients.len())),
            Line::Words => self.canonicalize_words(words_lengths(self.coefficients.len())),
            Line::WordsOf(lengths) => self.canonicalize_words(*lengths),
            Line::SectorWords => self.sector_words(sector_lengths(self.coefficients.len())),
            Line::SectorWordsOf(lengths) => self.sector_words(*lengths),
            Line::Sum => self.canonicalize_pauli_sum(sum_lengths(self.coefficients.len())),
            Line::SumOf(lengths) => self.canonicalize_pauli_sum(*lengths),
            Line::Project => self.project_pauli_sum(sum_lengths(self.wholes.len())),
            Line::ProjectOf(lengths) => self.project_pauli_sum(*lengths),
            Line::PhaseTable => set(|| self.table = tables::constant()),
            Line::PhaseFile(file) => self.read_phase_table(file),
            Line::SetPhase { sine, entry, value } => set(|| self.table[usize::from(*sine)][*entry] = *value),
            Line::Sheet { places, text } => sheet::answer(*places, text),
        }
    }

    // ---- words

    fn from_text(&mut self, text: &[u8]) -> Answer {
        (self.sites, self.word) = (0, vec![0; WORD_BYTES]);
        let word = read_text(text)?;
        (self.sites, self.word) = (word.n_qubits(), bytes(&word));
        Ok(self.sites.to_string())
    }

    /// The word in force, by the rules of a word alone.
    fn read_word(&self) -> Result<Word, Refusal> {
        check(1, self.sites > MAX_SITES)?;
        let [bytes] = in_full(self.sites, [&self.word])?;
        check(17, has_bit_above(self.sites, &bytes))?;
        Ok(word(self.sites, &bytes))
    }

    fn compare(&self, other: &[u8]) -> Answer {
        check(1, self.sites > MAX_SITES)?;
        let [a, b] = in_full(self.sites, [&self.word, other])?;
        check(17, has_bit_above(self.sites, &a) || has_bit_above(self.sites, &b))?;
        Ok(ordering(word(self.sites, &a).cmp(&word(self.sites, &b))).to_string())
    }

    // ---- groups

    fn make(&mut self, made: Result<TranslationGroup, Refusal>) -> String {
        match made {
            Ok(group) => {
                self.group = Made { value: value_of(&group), group: Some(group) };
                "accepted".to_string()
            }
            Err(refusal) => {
                let value = Group { generators: MAX_GENERATORS + 1, ..Group::EMPTY };
                self.group = Made { value, group: None };
                refusal.to_string()
            }
        }
    }

    fn counter_from_index(&self, index: usize, places: usize) -> String {
        let counter = || {
            let group = self.group.check()?;
            check(19, index >= group.order())?;
            check(21, places != group.n_generators())?;
            Ok(("done".to_string(), group.counter_from_index(index)))
        };
        said_with_list(counter(), places)
    }

    fn index_from_counter(&self, digits: &[u32]) -> Answer {
        let group = self.group.check()?;
        check(20, digits.len() != group.n_generators())?;
        check(37, digits.iter().enumerate().any(|(g, &digit)| digit >= group.generator_order(g)))?;
        Ok(index_by_counters(group, digits).to_string())
    }

    fn invert_index(&self, index: usize) -> Answer {
        let group = self.group.check()?;
        check(19, index >= group.order())?;
        Ok(inner::invert_index(group, index).to_string())
    }

    // ---- orbits

    /// The group and the word in force, by the rules of a group with a word.
    fn check_word(&self) -> Result<(&TranslationGroup, Word), Refusal> {
        check(1, self.group.value.sites > MAX_SITES || self.sites > MAX_SITES)?;
        let group = self.group.check()?;
        let [bytes] = in_full(self.sites, [&self.word])?;
        check(16, self.sites != group.n_qubits())?;
        check(17, has_bit_above(self.sites, &bytes))?;
        Ok((group, word(self.sites, &bytes)))
    }

    fn canonicalize_with_index(&self) -> Answer {
        let (group, word) = self.check_word()?;
        let (least, index) = group.canonicalize_with_index(&word);
        Ok(format!("{} {index}", text(&least)))
    }

    fn canonicalize_with_shift(&self, places: usize) -> String {
        let shift = || {
            let (group, word) = self.check_word()?;
            check(21, places != group.n_generators())?;
            let (least, counter) = group.canonicalize_with_shift(&word);
            Ok((text(&least), counter))
        };
        said_with_list(shift(), places)
    }

    fn word_at_index(&self, index: usize) -> String {
        let made = || {
            let (group, word) = self.check_word()?;
            check(19, index >= group.order())?;
            Ok(text(&entry(group, &word, index)))
        };
        made().unwrap_or_else(|refusal: Refusal| format!("{refusal}, zeros"))
    }

    fn orbit_list(&self, bytes: usize) -> String {
        let entries = || {
            let (group, word) = self.check_word()?;
            check(21, bytes != WORD_BYTES * group.order())?;
            Ok(format!("done:{}", list(group.orbit(&word).map(|entry| text(&entry)))))
        };
        entries().unwrap_or_else(|refusal: Refusal| format!("{refusal}, as it was"))
    }

    fn orbit(&mut self) -> Answer {
        self.walk = Walk { group: self.group.clone(), at: vec![0; WORD_BYTES], index: usize::MAX };
        let at = bytes(&self.check_word()?.1);
        (self.walk.at, self.walk.index) = (at, 0);
        Ok("begun".to_string())
    }

    fn next(&mut self, number: usize) -> String {
        match self.steps(number) {
            Ok(answers) => steps(&answers),
            Err(refusal) => steps(&vec![refusal.to_string(); number]),
        }
    }

    /// Steps of the walk in force. The word that it began with is found from the one that it is at.
    fn steps(&mut self, number: usize) -> Result<Vec<String>, Refusal> {
        let Walk { group, at, index } = &mut self.walk;
        let group = group.check()?;
        check(14, *index > group.order() || has_bit_above(group.n_qubits(), at))?;
        let at_word = word(group.n_qubits(), at);
        let back = inner::invert_index(group, *index % group.order());
        let first = group.orbit(&at_word).nth(back).unwrap();
        let entries: Vec<(Word, Vec<u32>)> = inner::orbit_with_counters(group, &first).collect();
        let mut step = || match entries.get(*index) {
            None => "finished".to_string(),
            Some((entry, counter)) => {
                *index += 1;
                *at = bytes(&entries[*index % group.order()].0);
                format!("{} {}", index_of(group, counter), text(entry))
            }
        };
        Ok((0..number).map(|_| step()).collect())
    }

    // ---- sectors

    fn character_numerator(&self, digits: &[u32]) -> Answer {
        let group = self.group.check()?;
        check(18, self.modes.len() != group.n_generators())?;
        check(20, digits.len() != group.n_generators())?;
        Ok(inner::character_numerator(group, &self.modes, digits).to_string())
    }

    fn character_table(&self, places: usize) -> String {
        let table = || {
            let group = self.group.check()?;
            check(18, self.modes.len() != group.n_generators())?;
            check(21, places != group.order())?;
            Ok(("done".to_string(), momentum::numerators(&group.character_table(&self.modes)).to_vec()))
        };
        said_with_list(table(), places)
    }

    fn canonicalize_in_sector(&self, places: usize) -> String {
        let sector = || {
            let (group, word) = self.check_word()?;
            check(18, self.modes.len() != group.n_generators())?;
            check(21, places != group.n_generators())?;
            Ok(match group.canonicalize_in_sector(&word, &self.modes) {
                Some((least, counter, size)) => (format!("kept {size} {}", text(&least)), counter),
                None => (format!("dropped {}", dropped_by(group, &word, &self.modes)), vec![u32::from(FILL); places]),
            })
        };
        said_with_list(sector(), places)
    }

    // ---- many words

    /// The lengths are those of the words, representatives and indices.
    fn canonicalize_words(&self, lengths: [usize; 3]) -> String {
        let rows = || {
            let group = self.group.check()?;
            let words = check_words(group, lengths, [words_lengths(lengths[2]), old_words_lengths(lengths[2])], lengths[2], &self.words)?;
            let row = |word: &Word| {
                let (least, index) = group.canonicalize_with_index(word);
                format!("{} {index}", text(&least))
            };
            Ok(many(words.iter().map(row)))
        };
        rows().unwrap_or_else(|refusal: Refusal| format!("{refusal}, as they were"))
    }

    /// The lengths are those of the words, representatives, indices and sizes.
    fn sector_words(&self, lengths: [usize; 4]) -> String {
        let rows = || {
            let group = self.group.check()?;
            check(18, self.modes.len() != group.n_generators())?;
            let words = check_words(group, lengths, [sector_lengths(lengths[2]), old_sector_lengths(lengths[2])], lengths[2], &self.words)?;
            let row = |word: &Word| match group.canonicalize_in_sector(word, &self.modes) {
                Some((least, counter, size)) => format!("kept {size} {} {}", text(&least), index_of(group, &counter)),
                None => format!("dropped {}", dropped_by(group, word, &self.modes)),
            };
            Ok(many(words.iter().map(row)))
        };
        rows().unwrap_or_else(|refusal: Refusal| format!("{refusal}, as they were"))
    }

    // ---- sums

    fn row(&mut self, coefficient: f64, whole: i64) {
        let mut word = self.word.clone();
        word.resize(WORD_BYTES, 0);
        self.words.extend(word);
        self.coefficients.push(coefficient);
        self.wholes.push(whole);
    }

    fn canonicalize_pauli_sum(&self, lengths: [usize; 5]) -> String {
        self.fold(lengths).unwrap_or_else(|refusal| match refusal.rule {
            25 => format!("{refusal}, zeros"),
            _ => format!("{refusal}, as they were"),
        })
    }

    /// The lengths are those of the words, coefficients, representatives, sums and counts.
    fn fold(&self, lengths: [usize; 5]) -> Answer {
        let group = self.group.check()?;
        let rows = check_rows(group, lengths, &self.words, &self.coefficients)?;
        for (i, row) in rows.iter().enumerate() {
            check_row(17, i, has_bit_above(group.n_qubits(), &row.word))?;
            check_row(24, i, !row.coefficient.is_finite())?;
        }
        let mut basis: Vec<Word> = rows.iter().map(|row| word(group.n_qubits(), &row.word)).collect();
        let mut coefficients: Vec<f64> = rows.iter().map(|row| row.coefficient).collect();
        let counts = count_rows(group, &basis, &coefficients)?;
        merge::canonicalize_pauli_sum(&mut basis, &mut coefficients, group);
        let mut folded: Vec<(Word, f64)> = basis.into_iter().zip(coefficients).collect();
        folded.sort_by_key(|row| row.0);
        Ok(crate::cases::rows(folded.len(), folded.iter().map(|(word, sum)| (text(word), *sum, counts[word]))))
    }

    /// The table that stands afterwards is in force.
    fn read_phase_table(&mut self, file: &[u8]) -> String {
        let read = tables::read(file);
        self.table = read.clone().unwrap_or_else(|_| tables::constant());
        said(read.map(|_| "accepted".to_string())) + tables::told(&self.table)
    }

    fn project_pauli_sum(&self, lengths: [usize; 5]) -> String {
        self.project(lengths).unwrap_or_else(|refusal| format!("{refusal}, as they were"))
    }

    /// The lengths are those of the words, coefficients, representatives, cosines and sines.
    fn project(&self, lengths: [usize; 5]) -> Answer {
        let group = self.group.check()?;
        check(18, self.modes.len() != group.n_generators())?;
        check(32, !PHASES.is_multiple_of(inner::phase_modulus(group)))?;
        check(35, !tables::passes(&self.table))?;
        let rows = check_rows(group, lengths, &self.words, &self.wholes)?;
        for (i, row) in rows.iter().enumerate() {
            check_row(17, i, has_bit_above(group.n_qubits(), &row.word))?;
            check_row(33, i, !(-MAX_COEFFICIENT..=MAX_COEFFICIENT).contains(&row.coefficient))?;
        }
        let (kept, sums) = projections::project(&self.table, group, &self.modes, &rows);
        Ok(projected(kept, rows.len() - kept, sums.iter().map(|(word, [cosine, sine])| (text(word), *cosine, *sine))))
    }
}

/// The rows of a sum with lists of these lengths, by the rules of the lists; zeros where there are not as many.
fn check_rows<C: Copy + Default>(
    group: &TranslationGroup,
    lengths: [usize; 5],
    words: &[u8],
    coefficients: &[C],
) -> Result<Vec<Row<C>>, Refusal> {
    let rows = lengths[1];
    let words = check_lists(group, lengths, [sum_lengths(rows), old_sum_lengths(rows)], rows, words)?;
    let mut coefficients = coefficients.to_vec();
    coefficients.resize(rows, C::default());
    Ok(words.into_iter().zip(coefficients).map(|(word, coefficient)| Row { word, coefficient }).collect())
}

/// The words of many rows, by the rules of the lists and then of the rows.
fn check_words<const N: usize>(
    group: &TranslationGroup,
    lengths: [usize; N],
    needed: [[usize; N]; 2],
    rows: usize,
    words: &[u8],
) -> Result<Vec<Word>, Refusal> {
    let words = check_lists(group, lengths, needed, rows, words)?;
    for (i, word) in words.iter().enumerate() {
        check_row(17, i, has_bit_above(group.n_qubits(), word))?;
    }
    Ok(words.iter().map(|bytes| word(group.n_qubits(), bytes)).collect())
}

/// The words of so many rows, in full, by the rules of lists of these lengths, of which the words are the first; zeros where there are not as many. The
/// lengths must be those of words in full, or those of words in the old form.
fn check_lists<const N: usize>(
    group: &TranslationGroup,
    lengths: [usize; N],
    [full, old]: [[usize; N]; 2],
    rows: usize,
    words: &[u8],
) -> Result<Vec<Vec<u8>>, Refusal> {
    let in_full = lengths == full;
    check(22, !in_full && lengths != old)?;
    check(23, rows > MAX_ROWS)?;
    check(36, !in_full && group.n_qubits() > OLD_SITES)?;
    let mut words = words.to_vec();
    words.resize(lengths[0], 0);
    Ok(words.chunks(if in_full { WORD_BYTES } else { OLD_WORD_BYTES }).map(spread).collect())
}

/// How many rows have each representative, by the Rust's representatives; or the first row that makes a running sum not finite.
fn count_rows(group: &TranslationGroup, basis: &[Word], coefficients: &[f64]) -> Result<HashMap<Word, u32>, Refusal> {
    let mut counts = HashMap::new();
    let mut sums: HashMap<Word, f64> = HashMap::new();
    for (i, (word, coefficient)) in basis.iter().zip(coefficients).enumerate() {
        let representative = group.canonicalize(word);
        *counts.entry(representative).or_insert(0) += 1;
        let sum = sums.entry(representative).or_insert(0.0);
        *sum += coefficient;
        check_row(25, i, !sum.is_finite())?;
    }
    Ok(counts)
}

impl Made {
    fn of(value: Group) -> Made {
        let group = given(&value);
        Made { value, group }
    }

    fn set(&mut self, place: Place, value: usize) {
        self.value.set(place, value);
        self.group = given(&self.value);
    }

    /// The group, by the rules of a group value.
    fn check(&self) -> Result<&TranslationGroup, Refusal> {
        check(1, self.value.sites > MAX_SITES)?;
        self.group.as_ref().ok_or(refusal(14, &[]))
    }
}

/// The group that a value stands for, if accepted generators give exactly this value.
fn given(value: &Group) -> Option<TranslationGroup> {
    if value.sites > MAX_SITES || value.generators > MAX_GENERATORS {
        return None;
    }
    let generators = value.targets.chunks(MAX_SITES).take(value.generators);
    let perms = generators.map(|targets| targets[..value.sites].iter().map(|&target| target.into()).collect()).collect();
    let orders = value.orders[..value.generators].to_vec();
    let group = TranslationGroup::try_from_generators(value.sites, perms, orders).ok()?;
    (group.order() <= MAX_ORDER && value_of(&group) == *value).then_some(group)
}

/// The value of an accepted group.
pub fn value_of(group: &TranslationGroup) -> Group {
    let mut value = Group { sites: group.n_qubits(), generators: group.n_generators(), ..Group::EMPTY };
    for g in 0..group.n_generators() {
        value.orders[g] = group.generator_order(g);
        for (place, &target) in value.targets[MAX_SITES * g..].iter_mut().zip(group.generator_perm(g)) {
            *place = target as u16;
        }
    }
    value
}

fn try_from_generators(sites: usize, list: &[u32], orders: &[u32]) -> Result<TranslationGroup, Refusal> {
    check(1, sites > MAX_SITES)?;
    let perms = generators_of(list).ok_or(refusal(2, &[]))?;
    check(3, perms.len() > MAX_GENERATORS)?;
    let group = TranslationGroup::try_from_generators(sites, perms, orders.to_vec()).map_err(rule_of)?;
    check(13, group.order() > MAX_ORDER)?;
    Ok(group)
}

/// The permutations of a list, each its length and then its targets; none if the list ends inside one.
fn generators_of(mut list: &[u32]) -> Option<Vec<Vec<u32>>> {
    let mut perms = Vec::new();
    while let Some((&length, rest)) = list.split_first() {
        let (perm, after) = rest.split_at_checked(length as usize)?;
        perms.push(perm.to_vec());
        list = after;
    }
    Some(perms)
}

/// The Rust's refusal of generators by its number, with its values.
fn rule_of(error: GroupError) -> Refusal {
    match error {
        GroupError::LengthMismatch { perms, orders } => refusal(4, &[perms, orders]),
        GroupError::PermutationLength { generator, len, .. } => refusal(5, &[generator, len]),
        GroupError::TargetOutOfRange { generator, target, .. } => refusal(6, &[generator, target as usize]),
        GroupError::DuplicateTarget { generator, target } => refusal(7, &[generator, target as usize]),
        GroupError::ZeroOrder { generator } => refusal(8, &[generator]),
        GroupError::PermutationOrderOverflow { generator } => refusal(9, &[generator]),
        GroupError::OrderMismatch { generator, declared, exact } => refusal(10, &[generator, declared as usize, exact as usize]),
        GroupError::NonCommuting { left, right } => refusal(11, &[left, right]),
        GroupError::GroupOrderOverflow => refusal(12, &[]),
    }
}

/// A lattice, by the rules of its sides.
pub fn lattice_group(lattice: Lattice) -> Result<TranslationGroup, Refusal> {
    let sides = lattice.sides();
    check(26, sides.contains(&0))?;
    let product = sides.iter().try_fold(1usize, |product, &side| product.checked_mul(side));
    check(27, product.is_none_or(|product| product > MAX_SITES))?;
    Ok(match lattice {
        Lattice::Chain(a) => TranslationGroup::chain_1d(a),
        Lattice::Ladder(a, b) => TranslationGroup::ladder(a, b),
        Lattice::Torus2(a, b) => TranslationGroup::torus_2d(a, b),
        Lattice::Torus3(a, b, c) => TranslationGroup::torus_3d(a, b, c),
    })
}

/// The word that a text writes, by the rules of a text.
pub fn read_text(text: &[u8]) -> Result<Word, Refusal> {
    check(28, text.len() > MAX_SITES)?;
    if let Some(position) = text.iter().position(|letter| !b"IXYZ".contains(letter)) {
        return Err(refusal(29, &[position]));
    }
    Ok(Word::from(std::str::from_utf8(text).unwrap()))
}

/// Words of so many sites in full, each handed over in full or in the old form: 15 of any, then 36 of any.
fn in_full<const N: usize>(sites: usize, words: [&[u8]; N]) -> Result<[Vec<u8>; N], Refusal> {
    check(15, words.iter().any(|word| ![WORD_BYTES, OLD_WORD_BYTES].contains(&word.len())))?;
    check(36, words.iter().any(|word| word.len() == OLD_WORD_BYTES && sites > OLD_SITES))?;
    Ok(words.map(spread))
}

/// A word of either form in full: the bytes that its planes lack are 0.
pub fn spread(word: &[u8]) -> Vec<u8> {
    let lacking = vec![0; PLANE_BYTES - word.len() / 2];
    word.chunks(word.len() / 2).flat_map(|plane| [plane, &lacking].concat()).collect()
}

/// The Rust's word of these bytes.
pub fn word(sites: usize, bytes: &[u8]) -> Word {
    let mut word = Word::new(sites);
    let (x, z) = bytes.split_at(PLANE_BYTES);
    word.xbits.data.copy_from_slice(x);
    word.zbits.data.copy_from_slice(z);
    word.rehash();
    word
}

/// The bytes of the Rust's word.
pub fn bytes(word: &Word) -> Vec<u8> {
    [word.xbits.data, word.zbits.data].concat()
}

/// The bytes, in full, of the Rust's word of the old form.
pub fn old_bytes(word: &OldWord) -> Vec<u8> {
    spread(&[word.xbits.data, word.zbits.data].concat())
}

fn text(word: &Word) -> String {
    letters(word.n_qubits(), &bytes(word))
}

/// The index of a counter, generator 0 fastest.
fn index_of(group: &TranslationGroup, counter: &[u32]) -> usize {
    let digits = counter.iter().enumerate().rev();
    digits.fold(0, |index, (g, &digit)| index * group.generator_order(g) as usize + digit as usize)
}

/// The elements of a group, at most, whose counters are all looked through for one.
const SEARCHED: usize = 256;

/// The index whose counter has these digits, by the Rust, which has the counter of an index alone: searched for in a small group; in a larger one the
/// index is computed, and the Rust must give the digits back.
fn index_by_counters(group: &TranslationGroup, digits: &[u32]) -> usize {
    let order = group.order();
    let has_digits = |&index: &usize| index < order && group.counter_from_index(index) == digits;
    let found = if order <= SEARCHED { (0..order).find(has_digits) } else { Some(index_of(group, digits)).filter(has_digits) };
    found.expect("digits below the orders are the counter of an index")
}

/// The steps of a walk, at most, to the entry of an index.
const WALKED: usize = 2048;

/// The entry of an index in the Rust's walk from a word. Where the walk there is long, what the Rust's moves by each generator make, as often as its counter
/// of the index says.
fn entry(group: &TranslationGroup, word: &Word, index: usize) -> Word {
    if index <= WALKED {
        return group.orbit(word).nth(index).expect("an entry for each index");
    }
    let counter = group.counter_from_index(index);
    let moves = counter.iter().enumerate().flat_map(|(g, &digit)| (0..digit).map(move |_| g));
    moves.fold(*word, |word, g| inner::apply_generator(group, &word, g))
}

/// What drops a word. The Rust says only that it is dropped; this is the first entry of its walk that is the word itself with a numerator other than 0.
pub fn dropped_by(group: &TranslationGroup, word: &Word, modes: &[i32]) -> usize {
    let breaks = |(entry, counter): (Word, Vec<u32>)| entry == *word && inner::character_numerator(group, modes, &counter) != 0;
    inner::orbit_with_counters(group, word).position(breaks).expect("a dropped word has such an entry")
}

fn check(rule: usize, broken: bool) -> Result<(), Refusal> {
    if broken { Err(refusal(rule, &[])) } else { Ok(()) }
}

fn check_row(rule: usize, row: usize, broken: bool) -> Result<(), Refusal> {
    if broken { Err(refusal(rule, &[row])) } else { Ok(()) }
}

fn set(what: impl FnOnce()) -> String {
    what();
    "set".to_string()
}

fn said(answer: Answer) -> String {
    answer.unwrap_or_else(|refusal| refusal.to_string())
}

/// An answer and the list that was lent for it; a refused call leaves the list as it was.
fn said_with_list<T: std::fmt::Display + From<u8> + Clone>(answer: Result<(String, Vec<T>), Refusal>, places: usize) -> String {
    let (text, members) = answer.unwrap_or_else(|refusal| (refusal.to_string(), vec![FILL.into(); places]));
    format!("{text}:{}", list(members))
}
