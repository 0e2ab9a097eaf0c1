//! The example program in C: compiled, run, and held to the first table of the README.

use std::path::{Path, PathBuf};
use std::process::Command;

/// The root of the repository.
fn root() -> PathBuf {
    Path::new(env!("CARGO_MANIFEST_DIR")).parent().unwrap().to_path_buf()
}

/// The program prints the README's table, and once more its first two rows, the second of a dropped word.
pub fn check() -> Result<(), String> {
    let readme = std::fs::read_to_string(root().join("README.md")).map_err(|error| format!("README.md: {error}"))?;
    let table = table_of(&readme);
    let rows: String = table.lines().skip(1).take(2).map(|row| row.to_string() + "\n").collect();
    let expected = table + &rows;
    let printed = run(&compile()?)?;
    if printed == expected { Ok(()) } else { Err(format!("examples-c/first_table.c prints\n{printed}and the README has\n{expected}")) }
}

/// The first table that is set off in the README, without its indent.
fn table_of(readme: &str) -> String {
    let lines = readme.lines().skip_while(|line| *line != "    word rep index orbit weight keep");
    lines.map_while(|line| line.strip_prefix("    ")).map(|line| line.to_string() + "\n").collect()
}

/// Compiles the program; it stands beside this one.
fn compile() -> Result<PathBuf, String> {
    let program = std::env::current_exe().map_err(|error| error.to_string())?.with_file_name("first_table");
    let mut cc = Command::new("cc");
    cc.args(["-std=c99", "-Wall", "-Wextra", "-Werror", "-I"]).arg(root().join("include"));
    cc.arg(root().join("examples-c/first_table.c")).arg(Path::new(env!("GOMURIN_LIB")).join("libc_api.a"));
    cc.arg("-o").arg(&program);
    text_of(cc).map(|_| program)
}

fn run(program: &Path) -> Result<String, String> {
    text_of(Command::new(program))
}

/// What a command prints, if it ends well.
fn text_of(mut command: Command) -> Result<String, String> {
    let output = command.output().map_err(|error| format!("{command:?}: {error}"))?;
    if !output.status.success() {
        return Err(format!("{command:?}: {}\n{}", output.status, String::from_utf8_lossy(&output.stderr)));
    }
    String::from_utf8(output.stdout).map_err(|error| error.to_string())
}
