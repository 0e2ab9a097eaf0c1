#![allow(warnings)]
//! The Pauli word of ppvm: its listed source, unchanged.
pub mod word {
    include!(concat!(env!("OUT_DIR"), "/data.rs"));
}
