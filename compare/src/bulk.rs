//! Many words in one call, to be measured: ours, which is handed WORDS words in full at each call, or fewer where that takes too long, and the Rust, which has
//! one call a word. Times are by the word.

use crate::cases::Group;
use crate::groups;
use crate::interface::*;
use crate::random::Random;
use crate::rust::{bytes, read_text, value_of};
use crate::sizes::*;
use crate::timing::{Side, timed};
use crate::words;
use ppvm_pauli_sum::symmetry::group::TranslationGroup;
use ppvm_pauli_word::word::PauliWord;
use std::hint::black_box;
use std::time::Duration;

/// Words of one call of ours, and words that the calls of a line go round.
pub const WORDS: usize = 256;

/// How long one call of ours may take: where a word takes long it has fewer words.
const CALL: Duration = Duration::from_millis(300);

/// The bytes a plane of the Rust's words, by the sites: the most that it still rotates by masks are 128; above, it moves letters site by site.
const MASKED_BYTES: usize = 128;

#[derive(Clone, Copy)]
pub enum Call {
    /// `canonicalize_words`, and the Rust's `canonicalize_with_index`.
    Words,
    /// `sector_words`, and the Rust's `canonicalize_in_sector`, with this mode for each generator.
    SectorWords(i32),
}

impl Call {
    pub const BOTH: [Call; 2] = [Call::Words, Call::SectorWords(0)];
    pub const ALL: [Call; 3] = [Call::Words, Call::SectorWords(0), Call::SectorWords(1)];

    pub fn name(self) -> &'static str {
        match self {
            Call::Words => "canonicalize_words",
            Call::SectorWords(0) => "sector_words",
            Call::SectorWords(_) => "sector_words, modes 1",
        }
    }

    /// The mode for each generator; calls without modes have none to read.
    fn mode(self) -> i32 {
        match self {
            Call::Words => 0,
            Call::SectorWords(mode) => mode,
        }
    }

    pub fn rust_name(self) -> &'static str {
        match self {
            Call::Words => "canonicalize_with_index",
            Call::SectorWords(_) => "canonicalize_in_sector",
        }
    }
}

/// The words that are measured, by their kind.
pub fn kinds(random: &mut Random, group: &TranslationGroup) -> [(&'static str, Vec<String>); 4] {
    let sites = group.n_qubits();
    let mut words = |make: &dyn Fn(&mut Random) -> String| (0..WORDS).map(|_| make(random)).collect();
    [
        ("random", words(&|random| any_word(random, sites))),
        ("all I", words(&|_| "I".repeat(sites))),
        ("period 2", words(&|random| repeated(random, group))),
        ("three letters", words(&|random| three_letters(random, sites))),
    ]
}

/// A word of any letters.
pub fn any_word(random: &mut Random, sites: usize) -> String {
    (0..sites).map(|_| random.pick(&['I', 'X', 'Y', 'Z'])).collect()
}

/// A word of period 2 along each generator of even order, and of period 1 along each of odd order.
fn repeated(random: &mut Random, group: &TranslationGroup) -> String {
    let period = |g: usize| groups::power(group.generator_perm(g), 2 - u64::from(group.generator_order(g) % 2));
    let mut word = any_word(random, group.n_qubits()).into_bytes();
    words::make_fixed(&mut word, &(0..group.n_generators()).map(period).collect::<Vec<_>>());
    String::from_utf8(word).unwrap_or_else(|_| unreachable!())
}

/// A word with three letters other than I.
fn three_letters(random: &mut Random, sites: usize) -> String {
    let mut places: Vec<usize> = (0..sites).collect();
    random.shuffle(&mut places);
    let mut word = vec!['I'; sites];
    for &q in &places[..3] {
        word[q] = random.pick(&['X', 'Y', 'Z']);
    }
    word.into_iter().collect()
}

/// The bytes of some words in full, one after the other.
fn rows(words: &[String]) -> Vec<u8> {
    words.iter().flat_map(|word| bytes(&read_text(word.as_bytes()).unwrap_or_else(|_| unreachable!()))).collect()
}

/// Some of the words, so many that one call of ours takes no longer than CALL; all, where that is no limit.
pub fn few<'w>(call: Call, group: &TranslationGroup, words: &'w [String]) -> &'w [String] {
    let one = ours(call, group, &words[..1]).once();
    let number = CALL.as_nanos() / one.as_nanos().max(1);
    &words[..number.clamp(1, words.len() as u128) as usize]
}

/// Ours: all words in one call, by the word.
pub fn ours<'a>(call: Call, group: &TranslationGroup, words: &[String]) -> Side<'a> {
    let (value, number, rows) = (value_of(group), words.len(), rows(words));
    let (mut representatives, mut indices, mut sizes) = (vec![0; rows.len()], vec![0; number], vec![0; number]);
    let modes = vec![call.mode(); group.n_generators()];
    Side::of(number, move || {
        timed(|| match call {
            Call::Words => canonicalize_words(&value, &rows, &mut representatives, &mut indices),
            Call::SectorWords(_) => sector_words(&value, &modes, &rows, &mut representatives, &mut indices, &mut sizes),
        })
    })
}

/// Ours: the check of the group, which is all that `order` does but for a product.
pub fn check<'a>(group: &TranslationGroup) -> Side<'a> {
    let value = value_of(group);
    Side::round(vec![value], |value| {
        let (mut order, mut values) = (0, [0; VALUES]);
        let rule = call_of_group!(gomurin_order, value.parts(), &mut order, values.as_mut_ptr());
        assert_eq!(rule, 0);
        black_box(order);
    })
}

/// The Rust: one call a word, with the fewest bytes a plane of 32, 128 and 256 that hold the sites.
pub fn rust<'a>(call: Call, group: &'a TranslationGroup, words: &[String]) -> Side<'a> {
    match group.n_qubits().div_ceil(8) {
        ..=OLD_PLANE_BYTES => rust_of::<OLD_PLANE_BYTES>(call, group, words),
        ..=MASKED_BYTES => rust_of::<MASKED_BYTES>(call, group, words),
        _ => rust_of::<PLANE_BYTES>(call, group, words),
    }
}

fn rust_of<'a, const N: usize>(call: Call, group: &'a TranslationGroup, words: &[String]) -> Side<'a> {
    let words: Vec<PauliWord<[u8; N]>> = words.iter().map(|word| word.as_str().into()).collect();
    let modes = vec![call.mode(); group.n_generators()];
    match call {
        Call::Words => Side::whole_round(words, |word| {
            black_box(group.canonicalize_with_index(word));
        }),
        Call::SectorWords(_) => Side::whole_round(words, move |word| {
            black_box(group.canonicalize_in_sector(word, &modes));
        }),
    }
}

fn canonicalize_words(group: &Group, words: &[u8], representatives: &mut [u8], indices: &mut [usize]) {
    let mut values = [0; VALUES];
    let rule = call_of_group!(
        gomurin_canonicalize_words,
        group.parts(),
        words.as_ptr(),
        words.len(),
        representatives.as_mut_ptr(),
        representatives.len(),
        indices.as_mut_ptr(),
        indices.len(),
        values.as_mut_ptr()
    );
    assert_eq!(rule, 0);
}

fn sector_words(group: &Group, modes: &[i32], words: &[u8], representatives: &mut [u8], indices: &mut [usize], sizes: &mut [usize]) {
    let mut values = [0; VALUES];
    let rule = call_of_group!(
        gomurin_sector_words,
        group.parts(),
        modes.as_ptr(),
        modes.len(),
        words.as_ptr(),
        words.len(),
        representatives.as_mut_ptr(),
        representatives.len(),
        indices.as_mut_ptr(),
        indices.len(),
        sizes.as_mut_ptr(),
        sizes.len(),
        values.as_mut_ptr()
    );
    assert_eq!(rule, 0);
}
