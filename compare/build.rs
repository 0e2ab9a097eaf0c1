//! Links the library: libc_api.a of the folder GOMURIN_LIB, which `compare/run` sets.
use std::env;

fn main() {
    println!("cargo:rerun-if-env-changed=GOMURIN_LIB");
    let folder = env::var("GOMURIN_LIB").expect("GOMURIN_LIB: the folder of libc_api.a; compare/run sets it");
    println!("cargo:rustc-link-search=native={folder}");
    println!("cargo:rustc-link-lib=static=c_api");
    println!("cargo:rerun-if-changed={folder}/libc_api.a");
    println!("cargo:rustc-env=GOMURIN_LIB={folder}");
}
