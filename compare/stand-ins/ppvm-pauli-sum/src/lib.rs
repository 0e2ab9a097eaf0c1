//! The symmetry module of ppvm: its listed sources, unchanged, over a stand-in for the sum that only its left-out parts use.
#![allow(dead_code)]

pub mod sum {
    use ppvm_traits::Config;

    /// Named by functions that are not compared; nothing here is ever run.
    pub struct PauliSum<T: Config> {
        map: T::Map,
        n_qubits: usize,
    }

    impl<T: Config> PauliSum<T> {
        pub fn n_qubits(&self) -> usize {
            self.n_qubits
        }
        pub fn data(&self) -> &T::Map {
            &self.map
        }
        pub fn data_mut(&mut self) -> &mut T::Map {
            &mut self.map
        }
        pub fn map_add<F: Fn(&T::PauliWordType, &T::Coeff) -> (T::PauliWordType, T::Coeff)>(&mut self, _: F) {
            unimplemented!()
        }
    }

    impl<T: Config> std::ops::AddAssign<(T::PauliWordType, f64)> for PauliSum<T> {
        fn add_assign(&mut self, _: (T::PauliWordType, f64)) {
            unimplemented!()
        }
    }
}

pub mod symmetry {
    pub mod group {
        include!(concat!(env!("OUT_DIR"), "/group.rs"));
    }
    pub mod momentum {
        include!(concat!(env!("OUT_DIR"), "/momentum.rs"));

        /// The numerators of a table, which the source keeps to itself; for the comparison.
        pub fn numerators(table: &CharacterTable) -> &[usize] {
            &table.numerators
        }
    }
    pub mod merge {
        include!(concat!(env!("OUT_DIR"), "/merge.rs"));
    }

    /// What the sources keep to this module, for the comparison.
    pub mod inner {
        use super::group::TranslationGroup;
        use ppvm_pauli_word::word::PauliWord;
        use ppvm_traits::PauliStorage;

        pub fn phase_modulus(group: &TranslationGroup) -> usize {
            group.phase_modulus()
        }

        pub fn invert_index(group: &TranslationGroup, index: usize) -> usize {
            group.invert_index(index)
        }

        pub fn apply_generator<A: PauliStorage>(group: &TranslationGroup, word: &PauliWord<A>, g: usize) -> PauliWord<A> {
            group.apply_generator(word, g)
        }

        pub fn character_numerator(group: &TranslationGroup, modes: &[i32], counter: &[u32]) -> usize {
            group.character_numerator(modes, counter)
        }

        pub fn orbit_with_counters<'a, A: PauliStorage>(
            group: &'a TranslationGroup,
            word: &'a PauliWord<A>,
        ) -> impl Iterator<Item = (PauliWord<A>, Vec<u32>)> + 'a {
            group.orbit_with_counters(word)
        }
    }
}
