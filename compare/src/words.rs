//! Words: random, sparse, and periodic ones; and the cases that read, write, weigh and compare them.

use crate::cases::*;
use crate::groups::{Bounds, Permutation, element, site_count};
use crate::random::Random;
use crate::rust::{Word, bytes, read_text};
use crate::sizes::*;
use ppvm_pauli_sum::symmetry::group::TranslationGroup;

const LETTERS: [u8; 4] = *b"IXYZ";

/// A text of so many letters.
pub fn text(random: &mut Random, sites: usize) -> Vec<u8> {
    let rare = random.pick(&[1, 1, 4, 32]);
    let common = random.pick(&LETTERS);
    let few = random.pick(&[&LETTERS[..], &LETTERS[..], b"IX", b"IZ", b"XY"]);
    (0..sites).map(|_| if random.once_in(rare) { random.pick(few) } else { common }).collect()
}

/// A word for a group; often one that some elements fix.
pub fn word(random: &mut Random, group: &TranslationGroup) -> Vec<u8> {
    let mut word = text(random, group.n_qubits());
    if random.once_in(2) {
        make_fixed(&mut word, &[element(group, random.below(group.order()))]);
    }
    word
}

/// Makes a word fixed by some permutations: the sites that they carry into one another take the letter of the first of them.
pub fn make_fixed(word: &mut [u8], permutations: &[Permutation]) {
    let mut seen = vec![false; word.len()];
    for start in 0..word.len() {
        let mut next = vec![start];
        while let Some(q) = next.pop() {
            if !seen[q] {
                seen[q] = true;
                word[q] = word[start];
                next.extend(permutations.iter().map(|permutation| permutation[q] as usize));
            }
        }
    }
}

/// A word moved by a permutation: the letter of site q goes to the target of q.
pub fn moved(word: &[u8], permutation: &[u32]) -> Vec<u8> {
    let mut result = word.to_vec();
    for (&target, &letter) in permutation.iter().zip(word) {
        result[target as usize] = letter;
    }
    result
}

/// The least word of a word's orbit and the index that leads back from there, by the Rust.
pub fn representative(group: &TranslationGroup, text: &[u8]) -> (Vec<u8>, usize) {
    let (least, index) = group.canonicalize_with_index(&rust_word(text));
    (least.to_string().into_bytes(), index)
}

/// A text with some letters changed.
fn neighbour(random: &mut Random, text: &[u8]) -> Vec<u8> {
    let mut other = text.to_vec();
    for _ in 0..random.below(3).min(text.len()) {
        let q = random.below(text.len());
        other[q] = random.pick(&LETTERS);
    }
    other
}

/// The Rust's word of a text that is one.
fn rust_word(text: &[u8]) -> Word {
    read_text(text).unwrap_or_else(|_| unreachable!())
}

/// The bytes of a text's word, by the Rust.
pub fn word_bytes(text: &[u8]) -> Vec<u8> {
    bytes(&rust_word(text))
}

/// Lengths that no word has, each beside one of the two that words have.
pub const OTHER_LENGTHS: [usize; 4] = [OLD_WORD_BYTES - 1, OLD_WORD_BYTES + 1, WORD_BYTES - 1, WORD_BYTES + 1];

/// Whether words of so many sites are to be handed over in the old form: often where they have one, seldom where they have none.
pub fn as_old(random: &mut Random, sites: usize) -> bool {
    random.once_in(if sites <= OLD_SITES { 4 } else { 16 })
}

/// The bytes of a text's word in a form in which it may be handed over, very seldom of another length.
fn formed(random: &mut Random, text: &[u8]) -> Vec<u8> {
    let mut bytes = word_bytes(text);
    if as_old(random, text.len()) {
        bytes = old_form(&bytes);
    }
    if random.once_in(64) {
        bytes.resize(random.pick(&OTHER_LENGTHS), 0);
    }
    bytes
}

/// The lines that put a text's word in force, in full or in the old form, very seldom with another length.
pub fn handed_over(random: &mut Random, text: Vec<u8>) -> Vec<Line> {
    let sites = text.len();
    if random.once_in(64) {
        let mut bytes = word_bytes(&text);
        bytes.resize(random.pick(&OTHER_LENGTHS), 0);
        return vec![Line::Bytes { sites, bytes }];
    }
    let old = as_old(random, sites).then_some(Line::Old);
    [Line::Word(text)].into_iter().chain(old).collect()
}

/// A word from text and back, its weight, and its order among others, each of them in either form.
pub fn case(random: &mut Random, bounds: Bounds) -> Case {
    let sites = site_count(random, bounds.sites);
    let first = text(random, sites);
    let mut case = [handed_over(random, first.clone()), vec![Line::Text, Line::Weight]].concat();
    for other in [neighbour(random, &first), neighbour(random, &first), text(random, sites)] {
        case.push(Line::Compare(formed(random, &other)));
    }
    case
}
