// What the build scripts of ppvm-pauli-word and ppvm-pauli-sum share: a file of ppvm, unchanged, out of the folder PPVM_SRC.

use std::{env, fs, path::Path};

/// Copies a file of ppvm, named by its path in a checkout, to OUT_DIR. PPVM_SRC is a checkout or a folder of the listed files.
fn copy_listed(path: &str) {
    println!("cargo:rerun-if-env-changed=PPVM_SRC");
    let folder = env::var("PPVM_SRC").expect("PPVM_SRC: a checkout of ppvm, or a folder of its listed files");
    let listed = format!("src--{}.txt", path.replace('/', "--"));
    let places = [Path::new(&folder).join(path), Path::new(&folder).join(&listed)];
    let source = places.iter().find(|file| file.is_file());
    let source = source.unwrap_or_else(|| panic!("neither {path} nor {listed} is in {folder}"));
    println!("cargo:rerun-if-changed={}", source.display());
    let name = Path::new(path).file_name().unwrap();
    fs::write(Path::new(&env::var("OUT_DIR").unwrap()).join(name), fs::read(source).unwrap()).unwrap();
}
