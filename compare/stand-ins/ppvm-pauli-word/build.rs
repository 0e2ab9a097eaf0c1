//! Takes the listed source of the word.

include!("../listed.rs");

fn main() {
    copy_listed("crates/ppvm-pauli-word/src/word/data.rs");
}
