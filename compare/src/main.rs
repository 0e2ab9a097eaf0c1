//! Compares the library with the listed Rust of ppvm, part by part, and measures the two. `compare/run` builds and runs this.

mod bench;
mod bulk;
mod cases;
mod example;
mod exhaustive;
mod groups;
mod growth;
mod guard;
mod guarded;
mod interface;
mod many;
mod orbits;
mod ours;
mod own;
mod parts;
mod projections;
mod random;
mod rust;
mod sample;
mod sectors;
mod sheet;
mod sizes;
mod sums;
mod tables;
mod timing;
mod words;

use std::process::ExitCode;

const USAGE: &str =
    "usage: compare/run [--seed S] [--count N] [[--compare | --bench] [--only TEXT] | --growth | --sample DIR | --alone PART NUMBER]";

/// Random cases of a default run; the parts share them.
const COUNT: usize = 200_000;
const SEED: u64 = 20_008;

enum Task {
    All,
    Compare,
    Bench,
    Growth,
    Sample(String),
    Alone(String, usize),
}

struct Arguments {
    seed: u64,
    count: usize,
    /// What the name of a part has that is compared alone, or of a group that is measured alone.
    only: String,
    task: Task,
}

fn arguments() -> Option<Arguments> {
    let mut given = Arguments { seed: SEED, count: COUNT, only: String::new(), task: Task::All };
    let mut words = std::env::args().skip(1);
    while let Some(word) = words.next() {
        match word.as_str() {
            "--seed" => given.seed = words.next()?.parse().ok()?,
            "--count" => given.count = words.next()?.parse().ok()?,
            "--only" => given.only = words.next()?,
            "--compare" => given.task = Task::Compare,
            "--bench" => given.task = Task::Bench,
            "--growth" => given.task = Task::Growth,
            "--sample" => given.task = Task::Sample(words.next()?),
            "--alone" => given.task = Task::Alone(words.next()?, words.next()?.parse().ok()?),
            _ => return None,
        }
    }
    Some(given)
}

fn main() -> ExitCode {
    let Some(Arguments { seed, count, only, task }) = arguments() else {
        eprintln!("{USAGE}");
        return ExitCode::from(2);
    };
    guard::name_faults();
    let differ = match task {
        Task::All => {
            let (compared, differ) = parts::compare_all(seed, count, "");
            bench::lines();
            println!("{compared} compared, {differ} differ");
            differ
        }
        Task::Compare => {
            let (compared, differ) = parts::compare_all(seed, count, &only);
            println!("{compared} compared, {differ} differ");
            if compared == 0 {
                eprintln!("no part has {only} in its name");
                return ExitCode::from(2);
            }
            differ
        }
        Task::Bench => {
            bench::tables(&only);
            0
        }
        Task::Growth => {
            growth::table();
            0
        }
        Task::Sample(folder) => {
            sample::write(&folder).expect("the sample could not be written");
            0
        }
        Task::Alone(part, number) => match parts::compare_alone(seed, &part, number) {
            Some(differ) => differ,
            None => {
                eprintln!("no case {part} {number}");
                return ExitCode::from(2);
            }
        },
    };
    if differ == 0 { ExitCode::SUCCESS } else { ExitCode::FAILURE }
}
