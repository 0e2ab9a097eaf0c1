//! Takes the listed sources of the symmetry module.

include!("../listed.rs");

fn main() {
    for module in ["group", "momentum", "merge"] {
        copy_listed(&format!("crates/ppvm-pauli-sum/src/symmetry/{module}.rs"));
    }
}
