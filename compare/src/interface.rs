//! include/gomurin.h in Rust: the calls of the library, parameter by parameter. A bool is taken as its byte.

use crate::cases::Group;

#[rustfmt::skip]
unsafe extern "C" {
    pub fn gomurin_from_text(text: *const u8, text_length: usize, sites: *mut usize, word: *mut u8, values: *mut usize) -> usize;
    pub fn gomurin_to_text(n: usize, word: *const u8, word_length: usize, letters: *mut usize, text: *mut u8,
        values: *mut usize) -> usize;
    pub fn gomurin_weight(n: usize, word: *const u8, word_length: usize, weight: *mut usize, values: *mut usize) -> usize;
    pub fn gomurin_compare(n: usize, a: *const u8, a_length: usize, b: *const u8, b_length: usize, order: *mut i32,
        values: *mut usize) -> usize;
    pub fn gomurin_try_from_generators(n: usize, list: *const u32, list_length: usize, declared: *const u32, declared_length: usize,
        sites: *mut usize, generators: *mut usize, orders: *mut u32, targets: *mut u16, values: *mut usize) -> usize;
    pub fn gomurin_chain_1d(n: usize, sites: *mut usize, generators: *mut usize, orders: *mut u32, targets: *mut u16,
        values: *mut usize) -> usize;
    pub fn gomurin_ladder(l: usize, legs: usize, sites: *mut usize, generators: *mut usize, orders: *mut u32, targets: *mut u16,
        values: *mut usize) -> usize;
    pub fn gomurin_torus_2d(lx: usize, ly: usize, sites: *mut usize, generators: *mut usize, orders: *mut u32, targets: *mut u16,
        values: *mut usize) -> usize;
    pub fn gomurin_torus_3d(lx: usize, ly: usize, lz: usize, sites: *mut usize, generators: *mut usize, orders: *mut u32,
        targets: *mut u16, values: *mut usize) -> usize;
    pub fn gomurin_order(sites: usize, generators: usize, orders: *const u32, targets: *const u16, order: *mut usize,
        values: *mut usize) -> usize;
    pub fn gomurin_phase_modulus(sites: usize, generators: usize, orders: *const u32, targets: *const u16, modulus: *mut usize,
        values: *mut usize) -> usize;
    pub fn gomurin_counter_from_index(sites: usize, generators: usize, orders: *const u32, targets: *const u16, index: usize,
        counter: *mut u32, counter_length: usize, values: *mut usize) -> usize;
    pub fn gomurin_index_from_counter(sites: usize, generators: usize, orders: *const u32, targets: *const u16, counter: *const u32,
        counter_length: usize, index: *mut usize, values: *mut usize) -> usize;
    pub fn gomurin_invert_index(sites: usize, generators: usize, orders: *const u32, targets: *const u16, index: usize,
        inverse: *mut usize, values: *mut usize) -> usize;
    pub fn gomurin_canonicalize(sites: usize, generators: usize, orders: *const u32, targets: *const u16, n: usize, word: *const u8,
        word_length: usize, least: *mut u8, values: *mut usize) -> usize;
    pub fn gomurin_canonicalize_with_index(sites: usize, generators: usize, orders: *const u32, targets: *const u16, n: usize,
        word: *const u8, word_length: usize, least: *mut u8, index: *mut usize, values: *mut usize) -> usize;
    pub fn gomurin_canonicalize_with_shift(sites: usize, generators: usize, orders: *const u32, targets: *const u16, n: usize,
        word: *const u8, word_length: usize, least: *mut u8, counter: *mut u32, counter_length: usize, values: *mut usize) -> usize;
    pub fn gomurin_word_at_index(sites: usize, generators: usize, orders: *const u32, targets: *const u16, n: usize, word: *const u8,
        word_length: usize, index: usize, made: *mut u8, values: *mut usize) -> usize;
    pub fn gomurin_orbit_list(sites: usize, generators: usize, orders: *const u32, targets: *const u16, n: usize, word: *const u8,
        word_length: usize, list: *mut u8, list_length: usize, values: *mut usize) -> usize;
    pub fn gomurin_orbit(sites: usize, generators: usize, orders: *const u32, targets: *const u16, n: usize, word: *const u8,
        word_length: usize, at: *mut u8, index: *mut usize, values: *mut usize) -> usize;
    pub fn gomurin_next(sites: usize, generators: usize, orders: *const u32, targets: *const u16, at: *mut u8, index: *mut usize,
        word: *mut u8, entry: *mut usize, finished: *mut u8, values: *mut usize) -> usize;
    pub fn gomurin_character_numerator(sites: usize, generators: usize, orders: *const u32, targets: *const u16, modes: *const i32,
        modes_length: usize, counter: *const u32, counter_length: usize, numerator: *mut usize, values: *mut usize) -> usize;
    pub fn gomurin_character_table(sites: usize, generators: usize, orders: *const u32, targets: *const u16, modes: *const i32,
        modes_length: usize, list: *mut usize, list_length: usize, values: *mut usize) -> usize;
    pub fn gomurin_canonicalize_in_sector(sites: usize, generators: usize, orders: *const u32, targets: *const u16, n: usize,
        word: *const u8, word_length: usize, modes: *const i32, modes_length: usize, least: *mut u8, counter: *mut u32,
        counter_length: usize, size: *mut usize, kept: *mut u8, dropped_by: *mut usize, values: *mut usize) -> usize;
    pub fn gomurin_canonicalize_words(sites: usize, generators: usize, orders: *const u32, targets: *const u16, words: *const u8,
        words_length: usize, representatives: *mut u8, representatives_length: usize, indices: *mut usize, indices_length: usize,
        values: *mut usize) -> usize;
    pub fn gomurin_sector_words(sites: usize, generators: usize, orders: *const u32, targets: *const u16, modes: *const i32,
        modes_length: usize, words: *const u8, words_length: usize, representatives: *mut u8, representatives_length: usize,
        indices: *mut usize, indices_length: usize, sizes: *mut usize, sizes_length: usize, values: *mut usize) -> usize;
    pub fn gomurin_phase_table(cosines: *mut i64, sines: *mut i64);
    pub fn gomurin_read_phase_table(file: *const u8, file_length: usize, cosines: *mut i64, sines: *mut i64, values: *mut usize) -> usize;
    pub fn gomurin_canonicalize_pauli_sum(sites: usize, generators: usize, orders: *const u32, targets: *const u16, words: *const u8,
        words_length: usize, coefficients: *const f64, coefficients_length: usize, representatives: *mut u8, representatives_length: usize,
        sums: *mut f64, sums_length: usize, counts: *mut u32, counts_length: usize, rows: *mut usize, values: *mut usize) -> usize;
    pub fn gomurin_project_pauli_sum(table_cosines: *const i64, table_sines: *const i64, sites: usize, generators: usize,
        orders: *const u32, targets: *const u16, modes: *const i32, modes_length: usize, words: *const u8, words_length: usize,
        coefficients: *const i64, coefficients_length: usize, representatives: *mut u8, representatives_length: usize,
        cosines: *mut i64, cosines_length: usize, sines: *mut i64, sines_length: usize, kept: *mut usize, dropped: *mut usize,
        values: *mut usize) -> usize;
    pub fn gomurin_sheet(input: *const u8, input_length: usize, list: *mut u8, list_length: usize, written: *mut usize,
        values: *mut usize) -> usize;
}

/// The four parts of a group, as every call takes them.
#[derive(Clone, Copy)]
pub struct GroupParts {
    pub sites: usize,
    pub generators: usize,
    pub orders: *const u32,
    pub targets: *const u16,
}

impl Group {
    pub fn parts(&self) -> GroupParts {
        GroupParts { sites: self.sites, generators: self.generators, orders: self.orders.as_ptr(), targets: self.targets.as_ptr() }
    }
}

/// A call whose first parameters are the parts of a group.
macro_rules! call_of_group {
    ($call:ident, $group:expr, $($argument:expr),*) => {
        unsafe { $call($group.sites, $group.generators, $group.orders, $group.targets, $($argument),*) }
    };
}
pub(crate) use call_of_group;
