//! Our answers: each line of a case is put to the library through its C interface. Every list stands in guarded memory.

use crate::cases::*;
use crate::guard::{FILL, Lent, Memory, Side};
use crate::interface::*;
use crate::sizes::*;
use crate::tables::{self, Table};
use std::cmp::Ordering;

/// What is in force between the lines of a case.
pub struct Ours {
    memory: Memory,
    group: Group,
    sites: usize,
    word: Vec<u8>,
    modes: Vec<i32>,
    walk: Walk,
    words: Vec<u8>,
    coefficients: Vec<f64>,
    wholes: Vec<i64>,
    table: Table,
}

struct Walk {
    group: Group,
    at: Vec<u8>,
    index: usize,
}

/// Room for a group value that a call hands back.
struct GroupRoom {
    sites: Lent<usize>,
    generators: Lent<usize>,
    orders: Lent<u32>,
    targets: Lent<u16>,
}

impl Ours {
    pub fn new(side: Side) -> Ours {
        let mut memory = Memory::new(side);
        let table = phase_table(&mut memory);
        Ours {
            memory,
            group: Group::EMPTY,
            sites: 0,
            word: Vec::new(),
            modes: Vec::new(),
            walk: Walk { group: Group::EMPTY, at: vec![0; WORD_BYTES], index: 0 },
            words: Vec::new(),
            coefficients: Vec::new(),
            wholes: Vec::new(),
            table,
        }
    }

    /// The answer to a line, and a word on it where the call touched what it may not.
    pub fn answer(&mut self, line: &Line) -> String {
        let answer = self.said(line);
        self.looked_after(answer)
    }

    fn looked_after(&mut self, answer: String) -> String {
        if self.memory.untouched() { answer } else { answer + ", and it wrote where it may not" }
    }

    fn said(&mut self, line: &Line) -> String {
        match line {
            Line::Group { sites, list, orders } => self.try_from_generators(*sites, list, orders),
            Line::Lattice(lattice) => self.lattice(*lattice),
            Line::Set(place, value) => set(|| self.group.set(*place, *value)),
            Line::Order => self.order(gomurin_order),
            Line::Modulus => self.order(gomurin_phase_modulus),
            Line::Targets => targets(&self.group),
            Line::Counter { index, places } => self.counter_from_index(*index, *places),
            Line::Index(digits) => self.index_from_counter(digits),
            Line::Invert(index) => self.invert_index(*index),
            Line::Word(text) => self.from_text(text),
            Line::Bytes { sites, bytes } => set(|| (self.sites, self.word) = (*sites, bytes.clone())),
            Line::Old => set(|| self.word = old_form(&self.word)),
            Line::Text => self.to_text(),
            Line::Weight => self.weight(),
            Line::Compare(bytes) => self.compare(bytes),
            Line::Canonicalize => self.canonicalize(),
            Line::WithIndex => self.canonicalize_with_index(),
            Line::WithShift { places } => self.canonicalize_with_shift(*places),
            Line::At(index) => self.word_at_index(*index),
            Line::OrbitList { bytes } => self.orbit_list(*bytes),
            Line::Orbit => self.orbit(),
            Line::SetIndex(value) => set(|| self.walk.index = *value),
            Line::SetWalk(place, value) => set(|| self.walk.group.set(*place, *value)),
            Line::SetAt { byte, value } => set(|| self.walk.at[*byte] = *value),
            Line::Next(number) => steps(&(0..*number).map(|_| self.next()).collect::<Vec<_>>()),
            Line::Modes(modes) => set(|| self.modes = modes.clone()),
            Line::Numerator(digits) => self.character_numerator(digits),
            Line::Table { places } => self.character_table(*places),
            Line::Sector { places } => self.canonicalize_in_sector(*places),
            Line::Clear => set(|| (self.words, self.coefficients, self.wholes) = (Vec::new(), Vec::new(), Vec::new())),
            Line::Row(coefficient) => set(|| self.row(*coefficient, 0)),
            Line::Whole(coefficient) => set(|| self.row(0.0, *coefficient)),
            Line::OldRows => set(|| old_rows(&mut self.words, self.coefficients.len())),
            Line::Words => self.canonicalize_words(words_lengths(self.coefficients.len())),
            Line::WordsOf(lengths) => self.canonicalize_words(*lengths),
            Line::SectorWords => self.sector_words(sector_lengths(self.coefficients.len())),
            Line::SectorWordsOf(lengths) => self.sector_words(*lengths),
            Line::Sum => self.canonicalize_pauli_sum(sum_lengths(self.coefficients.len())),
            Line::SumOf(lengths) => self.canonicalize_pauli_sum(*lengths),
            Line::Project => self.project_pauli_sum(sum_lengths(self.wholes.len())),
            Line::ProjectOf(lengths) => self.project_pauli_sum(*lengths),
            Line::PhaseTable => set(|| self.table = phase_table(&mut self.memory)),
            Line::PhaseFile(file) => self.read_phase_table(file),
            Line::SetPhase { sine, entry, value } => set(|| self.table[usize::from(*sine)][*entry] = *value),
            Line::Sheet { places, text } => self.sheet(*places, text),
        }
    }

    // ---- words

    fn from_text(&mut self, text: &[u8]) -> String {
        let m = &mut self.memory;
        let (text, sites, word, values) = (m.lend(text), m.room::<usize>(1), m.room::<u8>(WORD_BYTES), m.room(VALUES));
        let rule = unsafe { gomurin_from_text(text.at, text.length, sites.at, word.at, values.at) };
        (self.sites, self.word) = (sites.first(), word.get().to_vec());
        said(rule, values, &[zeros(sites), zeros(word)], || sites.first().to_string())
    }

    fn to_text(&mut self) -> String {
        let m = &mut self.memory;
        let (word, length, text, values) = (m.lend(&self.word), m.room(1), m.room::<u8>(MAX_SITES), m.room(VALUES));
        let rule = unsafe { gomurin_to_text(self.sites, word.at, word.length, length.at, text.at, values.at) };
        said(rule, values, &[zeros(length), zeros(text)], || {
            let (text, rest) = text.get().split_at(length.first().min(MAX_SITES));
            visible(text) + if rest.iter().all(|&byte| byte == 0) { "" } else { " and more after it" }
        })
    }

    fn weight(&mut self) -> String {
        let m = &mut self.memory;
        let (word, weight, values) = (m.lend(&self.word), m.room(1), m.room(VALUES));
        let rule = unsafe { gomurin_weight(self.sites, word.at, word.length, weight.at, values.at) };
        said(rule, values, &[zeros(weight)], || weight.first().to_string())
    }

    fn compare(&mut self, other: &[u8]) -> String {
        let m = &mut self.memory;
        let (a, b, order, values) = (m.lend(&self.word), m.lend(other), m.room::<i32>(1), m.room(VALUES));
        let rule = unsafe { gomurin_compare(self.sites, a.at, a.length, b.at, b.length, order.at, values.at) };
        said(rule, values, &[zeros(order)], || match order.first() {
            -1 => ordering(Ordering::Less).to_string(),
            0 => ordering(Ordering::Equal).to_string(),
            1 => ordering(Ordering::Greater).to_string(),
            other => format!("order {other}"),
        })
    }

    // ---- groups

    fn try_from_generators(&mut self, sites: usize, list: &[u32], declared: &[u32]) -> String {
        let (list, declared, room) = (self.memory.lend(list), self.memory.lend(declared), GroupRoom::of(&mut self.memory));
        let values = self.memory.room(VALUES);
        let (n, g, o, t) = room.at();
        let rule = unsafe { gomurin_try_from_generators(sites, list.at, list.length, declared.at, declared.length, n, g, o, t, values.at) };
        self.group = room.group();
        said(rule, values, &[], || "accepted".to_string())
    }

    fn lattice(&mut self, lattice: Lattice) -> String {
        let room = GroupRoom::of(&mut self.memory);
        let values = self.memory.room(VALUES);
        let (n, g, o, t) = room.at();
        let rule = unsafe {
            match lattice {
                Lattice::Chain(a) => gomurin_chain_1d(a, n, g, o, t, values.at),
                Lattice::Ladder(a, b) => gomurin_ladder(a, b, n, g, o, t, values.at),
                Lattice::Torus2(a, b) => gomurin_torus_2d(a, b, n, g, o, t, values.at),
                Lattice::Torus3(a, b, c) => gomurin_torus_3d(a, b, c, n, g, o, t, values.at),
            }
        };
        self.group = room.group();
        said(rule, values, &[], || "accepted".to_string())
    }

    /// `gomurin_order` or `gomurin_phase_modulus`.
    fn order(&mut self, call: unsafe extern "C" fn(usize, usize, *const u32, *const u16, *mut usize, *mut usize) -> usize) -> String {
        let m = &mut self.memory;
        let (group, number, values) = (lend_group(m, &self.group), m.room(1), m.room(VALUES));
        let rule = call_of_group!(call, group, number.at, values.at);
        said(rule, values, &[zeros(number)], || number.first().to_string())
    }

    fn counter_from_index(&mut self, index: usize, places: usize) -> String {
        let m = &mut self.memory;
        let (group, counter, values) = (lend_group(m, &self.group), m.room_with(&vec![u32::from(FILL); places]), m.room(VALUES));
        let rule = call_of_group!(gomurin_counter_from_index, group, index, counter.at, counter.length, values.at);
        said(rule, values, &[], || "done".to_string()) + ":" + &list(counter.get())
    }

    fn index_from_counter(&mut self, digits: &[u32]) -> String {
        let m = &mut self.memory;
        let (group, counter, index, values) = (lend_group(m, &self.group), m.lend(digits), m.room(1), m.room(VALUES));
        let rule = call_of_group!(gomurin_index_from_counter, group, counter.at, counter.length, index.at, values.at);
        said(rule, values, &[zeros(index)], || index.first().to_string())
    }

    fn invert_index(&mut self, index: usize) -> String {
        let m = &mut self.memory;
        let (group, inverse, values) = (lend_group(m, &self.group), m.room(1), m.room(VALUES));
        let rule = call_of_group!(gomurin_invert_index, group, index, inverse.at, values.at);
        said(rule, values, &[zeros(inverse)], || inverse.first().to_string())
    }

    // ---- orbits

    fn canonicalize(&mut self) -> String {
        let m = &mut self.memory;
        let (group, word) = (lend_group(m, &self.group), m.lend(&self.word));
        let (least, values) = (m.room::<u8>(WORD_BYTES), m.room(VALUES));
        let rule = call_of_group!(gomurin_canonicalize, group, self.sites, word.at, word.length, least.at, values.at);
        said(rule, values, &[zeros(least)], || letters(self.sites, least.get()))
    }

    fn canonicalize_with_index(&mut self) -> String {
        let m = &mut self.memory;
        let (group, word) = (lend_group(m, &self.group), m.lend(&self.word));
        let (least, index, values) = (m.room::<u8>(WORD_BYTES), m.room(1), m.room(VALUES));
        let rule = call_of_group!(gomurin_canonicalize_with_index, group, self.sites, word.at, word.length, least.at, index.at, values.at);
        said(rule, values, &[zeros(least), zeros(index)], || format!("{} {}", letters(self.sites, least.get()), index.first()))
    }

    fn canonicalize_with_shift(&mut self, places: usize) -> String {
        let m = &mut self.memory;
        let (group, word) = (lend_group(m, &self.group), m.lend(&self.word));
        let (least, counter, values) = (m.room::<u8>(WORD_BYTES), m.room_with(&vec![u32::from(FILL); places]), m.room(VALUES));
        let rule = call_of_group!(
            gomurin_canonicalize_with_shift,
            group,
            self.sites,
            word.at,
            word.length,
            least.at,
            counter.at,
            counter.length,
            values.at
        );
        said(rule, values, &[zeros(least)], || letters(self.sites, least.get())) + ":" + &list(counter.get())
    }

    fn word_at_index(&mut self, index: usize) -> String {
        let m = &mut self.memory;
        let (group, word) = (lend_group(m, &self.group), m.lend(&self.word));
        let (made, values) = (m.room::<u8>(WORD_BYTES), m.room(VALUES));
        let rule = call_of_group!(gomurin_word_at_index, group, self.sites, word.at, word.length, index, made.at, values.at);
        let answer = said(rule, values, &[], || letters(self.sites, made.get()));
        match rule {
            0 => answer,
            _ if zeros(made) => answer + ", zeros",
            _ => answer + ", changed",
        }
    }

    fn orbit_list(&mut self, bytes: usize) -> String {
        let m = &mut self.memory;
        let (group, word) = (lend_group(m, &self.group), m.lend(&self.word));
        let (entries, values) = (m.room::<u8>(bytes), m.room(VALUES));
        let rule = call_of_group!(gomurin_orbit_list, group, self.sites, word.at, word.length, entries.at, entries.length, values.at);
        let refused = said(rule, values, &[], String::new);
        if rule != 0 {
            return refused + if filled(entries) { ", as it was" } else { ", changed" };
        }
        refused + "done:" + &list(entries.get().chunks(WORD_BYTES).map(|entry| letters(self.sites, entry)))
    }

    fn orbit(&mut self) -> String {
        let m = &mut self.memory;
        let (group, word) = (lend_group(m, &self.group), m.lend(&self.word));
        let (at, index, values) = (m.room::<u8>(WORD_BYTES), m.room(1), m.room(VALUES));
        let rule = call_of_group!(gomurin_orbit, group, self.sites, word.at, word.length, at.at, index.at, values.at);
        self.walk = Walk { group: self.group.clone(), at: at.get().to_vec(), index: index.first() };
        said(rule, values, &[], || "begun".to_string())
    }

    fn next(&mut self) -> String {
        let m = &mut self.memory;
        let (group, at, index) = (lend_group(m, &self.walk.group), m.room_with(&self.walk.at), m.room_with(&[self.walk.index]));
        let (word, entry, finished, values) = (m.room::<u8>(WORD_BYTES), m.room::<usize>(1), m.room::<u8>(1), m.room(VALUES));
        let rule = call_of_group!(gomurin_next, group, at.at, index.at, word.at, entry.at, finished.at, values.at);
        let stayed = at.get() == self.walk.at && index.first() == self.walk.index;
        (self.walk.at, self.walk.index) = (at.get().to_vec(), index.first());
        let sites = self.walk.group.sites;
        let answer = said(rule, values, &[zeros(word), zeros(entry), zeros(finished)], || match finished.first() {
            0 => format!("{} {}", entry.first(), letters(sites, word.get())),
            1 if stayed && zeros(word) && zeros(entry) => "finished".to_string(),
            other => format!("finished {other}, but not as it was"),
        });
        self.looked_after(answer)
    }

    // ---- sectors

    fn character_numerator(&mut self, digits: &[u32]) -> String {
        let m = &mut self.memory;
        let (group, modes, counter) = (lend_group(m, &self.group), m.lend(&self.modes), m.lend(digits));
        let (numerator, values) = (m.room(1), m.room(VALUES));
        let rule =
            call_of_group!(gomurin_character_numerator, group, modes.at, modes.length, counter.at, counter.length, numerator.at, values.at);
        said(rule, values, &[zeros(numerator)], || numerator.first().to_string())
    }

    fn character_table(&mut self, places: usize) -> String {
        let m = &mut self.memory;
        let (group, modes) = (lend_group(m, &self.group), m.lend(&self.modes));
        let (table, values) = (m.room_with(&vec![usize::from(FILL); places]), m.room(VALUES));
        let rule = call_of_group!(gomurin_character_table, group, modes.at, modes.length, table.at, table.length, values.at);
        said(rule, values, &[], || "done".to_string()) + ":" + &list(table.get())
    }

    fn canonicalize_in_sector(&mut self, places: usize) -> String {
        let m = &mut self.memory;
        let (group, word, modes) = (lend_group(m, &self.group), m.lend(&self.word), m.lend(&self.modes));
        let (least, counter, size) = (m.room::<u8>(WORD_BYTES), m.room_with(&vec![u32::from(FILL); places]), m.room::<usize>(1));
        let (kept, dropped_by, values) = (m.room::<u8>(1), m.room::<usize>(1), m.room(VALUES));
        let rule = call_of_group!(
            gomurin_canonicalize_in_sector,
            group,
            self.sites,
            word.at,
            word.length,
            modes.at,
            modes.length,
            least.at,
            counter.at,
            counter.length,
            size.at,
            kept.at,
            dropped_by.at,
            values.at
        );
        let answer = said(rule, values, &[zeros(least), zeros(size), zeros(kept), zeros(dropped_by)], || match kept.first() {
            1 if zeros(dropped_by) => format!("kept {} {}", size.first(), letters(self.sites, least.get())),
            0 if zeros(least) && zeros(size) => format!("dropped {}", dropped_by.first()),
            other => format!("kept {other}, but something is handed back"),
        });
        answer + ":" + &list(counter.get())
    }

    // ---- many words

    /// The lengths are those of the words, representatives and indices.
    fn canonicalize_words(&mut self, lengths: [usize; 3]) -> String {
        let mut words = self.words.clone();
        words.resize(lengths[0], 0);
        let m = &mut self.memory;
        let (group, words) = (lend_group(m, &self.group), m.lend(&words));
        let (representatives, indices, values) = (m.room::<u8>(lengths[1]), m.room::<usize>(lengths[2]), m.room(VALUES));
        let rule = call_of_group!(
            gomurin_canonicalize_words,
            group,
            words.at,
            words.length,
            representatives.at,
            representatives.length,
            indices.at,
            indices.length,
            values.at
        );
        if rule != 0 {
            return refused_rows(rule, values, filled(representatives) && filled(indices));
        }
        let rows = representatives.get().chunks(WORD_BYTES).zip(indices.get());
        said(rule, values, &[], || many(rows.map(|(least, index)| format!("{} {index}", letters(self.group.sites, least)))))
    }

    /// The lengths are those of the words, representatives, indices and sizes.
    fn sector_words(&mut self, lengths: [usize; 4]) -> String {
        let mut words = self.words.clone();
        words.resize(lengths[0], 0);
        let m = &mut self.memory;
        let (group, modes, words) = (lend_group(m, &self.group), m.lend(&self.modes), m.lend(&words));
        let (representatives, values) = (m.room::<u8>(lengths[1]), m.room(VALUES));
        let (indices, sizes) = (m.room::<usize>(lengths[2]), m.room::<usize>(lengths[3]));
        let rule = call_of_group!(
            gomurin_sector_words,
            group,
            modes.at,
            modes.length,
            words.at,
            words.length,
            representatives.at,
            representatives.length,
            indices.at,
            indices.length,
            sizes.at,
            sizes.length,
            values.at
        );
        if rule != 0 {
            return refused_rows(rule, values, filled(representatives) && filled(indices) && filled(sizes));
        }
        let row = |((least, index), size): ((&[u8], &usize), &usize)| match size {
            0 if least.iter().all(|&byte| byte == 0) => format!("dropped {index}"),
            0 => format!("dropped {index}, but a word is handed back"),
            _ => format!("kept {size} {} {index}", letters(self.group.sites, least)),
        };
        said(rule, values, &[], || many(representatives.get().chunks(WORD_BYTES).zip(indices.get()).zip(sizes.get()).map(row)))
    }

    // ---- sums

    fn row(&mut self, coefficient: f64, whole: i64) {
        let mut word = self.word.clone();
        word.resize(WORD_BYTES, 0);
        self.words.extend(word);
        self.coefficients.push(coefficient);
        self.wholes.push(whole);
    }

    /// The lengths are those of the words, coefficients, representatives, sums and counts.
    fn canonicalize_pauli_sum(&mut self, lengths: [usize; 5]) -> String {
        let (mut words, mut coefficients) = (self.words.clone(), self.coefficients.clone());
        words.resize(lengths[0], 0);
        coefficients.resize(lengths[1], 0.0);
        let m = &mut self.memory;
        let (group, words, coefficients) = (lend_group(m, &self.group), m.lend(&words), m.lend(&coefficients));
        let (representatives, sums, counts) = (m.room::<u8>(lengths[2]), m.room::<f64>(lengths[3]), m.room::<u32>(lengths[4]));
        let (number, values) = (m.room::<usize>(1), m.room(VALUES));
        let rule = call_of_group!(
            gomurin_canonicalize_pauli_sum,
            group,
            words.at,
            words.length,
            coefficients.at,
            coefficients.length,
            representatives.at,
            representatives.length,
            sums.at,
            sums.length,
            counts.at,
            counts.length,
            number.at,
            values.at
        );
        let zero = zeros(representatives) && zeros(sums) && zeros(counts);
        if rule != 0 {
            let stayed = filled(representatives) && filled(sums) && filled(counts);
            let rows_named = usize::from(rule == 17);
            let refused = said_of(rule, values, values_named(rule) + rows_named, &[zeros(number)], String::new);
            // Empty lists are both as they were and zeros.
            let lists = match rule {
                25 if zero => "zeros",
                1..25 | 36 if stayed => "as they were",
                _ => "changed",
            };
            return format!("{refused}, {lists}");
        }
        let number = number.first();
        let words = representatives.get().chunks(WORD_BYTES);
        let all = words.zip(sums.get()).zip(counts.get()).map(|((word, &sum), &count)| (letters(self.group.sites, word), sum, count));
        let after = [zeros(part(representatives, WORD_BYTES * number)), zeros(part(sums, number)), zeros(part(counts, number))];
        said(rule, values, &[], String::new)
            + &rows(number, all.take(number))
            + if after == [true; 3] { "" } else { " and more after them" }
    }

    /// The table that is handed back is in force.
    fn read_phase_table(&mut self, file: &[u8]) -> String {
        let m = &mut self.memory;
        let (file, cosines, sines, values) = (m.lend(file), m.room::<i64>(PHASES), m.room::<i64>(PHASES), m.room(VALUES));
        let rule = unsafe { gomurin_read_phase_table(file.at, file.length, cosines.at, sines.at, values.at) };
        self.table = [cosines.get().to_vec(), sines.get().to_vec()];
        said(rule, values, &[], || "accepted".to_string()) + tables::told(&self.table)
    }

    /// The lengths are those of the words, coefficients, representatives, cosines and sines.
    fn project_pauli_sum(&mut self, lengths: [usize; 5]) -> String {
        let (mut words, mut wholes) = (self.words.clone(), self.wholes.clone());
        words.resize(lengths[0], 0);
        wholes.resize(lengths[1], 0);
        let m = &mut self.memory;
        let (group, modes) = (lend_group(m, &self.group), m.lend(&self.modes));
        let (words, coefficients) = (m.lend(&words), m.lend(&wholes));
        let (representatives, cosines, sines) = (m.room::<u8>(lengths[2]), m.room::<i64>(lengths[3]), m.room::<i64>(lengths[4]));
        let (kept, dropped, values) = (m.room::<usize>(1), m.room::<usize>(1), m.room(VALUES));
        let (table_cosines, table_sines) = (m.lend(&self.table[0]), m.lend(&self.table[1]));
        let rule = unsafe {
            gomurin_project_pauli_sum(
                table_cosines.at,
                table_sines.at,
                group.sites,
                group.generators,
                group.orders,
                group.targets,
                modes.at,
                modes.length,
                words.at,
                words.length,
                coefficients.at,
                coefficients.length,
                representatives.at,
                representatives.length,
                cosines.at,
                cosines.length,
                sines.at,
                sines.length,
                kept.at,
                dropped.at,
                values.at,
            )
        };
        if rule != 0 {
            let stayed = filled(representatives) && filled(cosines) && filled(sines);
            let named = values_named(rule) + usize::from(rule == 17);
            let refused = said_of(rule, values, named, &[zeros(kept), zeros(dropped)], String::new);
            return refused + if stayed { ", as they were" } else { ", changed" };
        }
        // The table ends where the words are zeros, but for its first.
        let later = representatives.get().chunks(WORD_BYTES).skip(1).take_while(|word| word.iter().any(|&byte| byte != 0));
        let number = if kept.first() == 0 { 0 } else { 1 + later.count() };
        let words = representatives.get().chunks(WORD_BYTES).map(|word| letters(self.group.sites, word));
        let parts = cosines.get().iter().zip(sines.get());
        let table = words.zip(parts).take(number).map(|(word, (&cosine, &sine))| (word, i128::from(cosine), i128::from(sine)));
        let after = [zeros(part(representatives, WORD_BYTES * number)), zeros(part(cosines, number)), zeros(part(sines, number))];
        said(rule, values, &[], String::new)
            + &projected(kept.first(), dropped.first(), table)
            + if after == [true; 3] { "" } else { " and more after them" }
    }

    // ---- the sheet

    fn sheet(&mut self, places: usize, text: &[u8]) -> String {
        let m = &mut self.memory;
        let (input, table) = (m.lend(text), m.room_with(&vec![b'.'; places]));
        let (length, values) = (m.room::<usize>(1), m.room::<usize>(VALUES));
        let rule = unsafe { gomurin_sheet(input.at, input.length, table.at, table.length, length.at, values.at) };
        let answer = match rule {
            0 => said(rule, values, &[], || format!("table {}", length.first())),
            21 => said(rule, values, &[zeros(length)], String::new),
            _ => {
                let (line, named) = values.get().split_at(1);
                format!("{} at line {}, {}", refusal(rule, shown(named, values_named(rule))), line[0], length.first())
            }
        };
        format!("{answer}: {}", visible(table.get()))
    }
}

fn lend_group(memory: &mut Memory, group: &Group) -> GroupParts {
    let (orders, targets) = (memory.lend(&group.orders), memory.lend(&group.targets));
    GroupParts { sites: group.sites, generators: group.generators, orders: orders.at, targets: targets.at }
}

impl GroupRoom {
    fn of(memory: &mut Memory) -> GroupRoom {
        let (sites, generators) = (memory.room(1), memory.room(1));
        GroupRoom { sites, generators, orders: memory.room(MAX_GENERATORS), targets: memory.room(TARGETS) }
    }

    fn at(&self) -> (*mut usize, *mut usize, *mut u32, *mut u16) {
        (self.sites.at, self.generators.at, self.orders.at, self.targets.at)
    }

    fn group(&self) -> Group {
        Group {
            sites: self.sites.first(),
            generators: self.generators.first(),
            orders: self.orders.get().try_into().unwrap(),
            targets: self.targets.get().try_into().unwrap(),
        }
    }
}

fn set(what: impl FnOnce()) -> String {
    what();
    "set".to_string()
}

/// What a call says: its answer, or its refusal. `handed_back` says of each thing beside the lists whether it is zeros, as it must be where the call
/// is refused.
fn said(rule: usize, values: Lent<usize>, handed_back: &[bool], answer: impl FnOnce() -> String) -> String {
    said_of(rule, values, values_named(rule), handed_back, answer)
}

fn said_of(rule: usize, values: Lent<usize>, named: usize, handed_back: &[bool], answer: impl FnOnce() -> String) -> String {
    match rule {
        0 if zeros(values) => answer(),
        0 => format!("{}, with values{}", answer(), list(values.get())),
        _ if handed_back.iter().all(|&zeros| zeros) => refusal(rule, shown(values.get(), named)).to_string(),
        _ => format!("{}, but something is handed back", refusal(rule, shown(values.get(), named))),
    }
}

/// A refusal of a call on rows, which leaves its lists as they were; a row's 17 names the row.
fn refused_rows(rule: usize, values: Lent<usize>, stayed: bool) -> String {
    let refused = said_of(rule, values, values_named(rule) + usize::from(rule == 17), &[], String::new);
    refused + if stayed { ", as they were" } else { ", changed" }
}

/// The values that a rule names, and all of them where others than these are not 0.
fn shown(values: &[usize], named: usize) -> &[usize] {
    if values[named..].iter().all(|&value| value == 0) { &values[..named] } else { values }
}

fn bytes<T: Copy>(lent: Lent<T>) -> Lent<u8> {
    Lent { at: lent.at.cast(), length: lent.length * size_of::<T>() }
}

fn zeros<T: Copy>(lent: Lent<T>) -> bool {
    is_all(0, lent)
}

fn filled<T: Copy>(lent: Lent<T>) -> bool {
    is_all(FILL, lent)
}

/// Whether every byte of a list is this one. All but the first are held to those before them at once, which takes less time than one by one.
fn is_all<T: Copy>(byte: u8, lent: Lent<T>) -> bool {
    let bytes = bytes(lent);
    let list = bytes.get();
    list.first().is_none_or(|&first| first == byte && list[1..] == list[..list.len() - 1])
}

/// A list from a place on.
fn part<T: Copy>(lent: Lent<T>, from: usize) -> Lent<T> {
    let from = from.min(lent.length);
    Lent { at: unsafe { lent.at.add(from) }, length: lent.length - from }
}

/// The constant phase table.
fn phase_table(memory: &mut Memory) -> Table {
    let (cosines, sines) = (memory.room::<i64>(PHASES), memory.room::<i64>(PHASES));
    unsafe { gomurin_phase_table(cosines.at, sines.at) };
    [cosines.get().to_vec(), sines.get().to_vec()]
}
