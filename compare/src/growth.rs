//! How times grow with the sites: a table of the time a word, many random words a call, for rings and for square tori. compare/growth.py draws it.

use crate::bulk::{self, Call, WORDS};
use crate::cases::Lattice;
use crate::groups;
use crate::random::Random;
use crate::timing::{Times, in_turn};
use std::time::Duration;

const CHAINS: [usize; 5] = [16, 64, 256, 1024, 2048];
const SIDES: [usize; 5] = [4, 8, 16, 32, 45];

/// The Rust is left out where a word takes longer.
const SLOWEST: Duration = Duration::from_secs(1);

/// The table: whole nanoseconds, the least of many rounds.
pub fn table() {
    let columns = Call::BOTH.map(|call| format!("ours, `{}`", call.name())).into_iter();
    let columns = columns.chain(Call::BOTH.map(|call| format!("the Rust, `{}`", call.rust_name())));
    println!("Nanoseconds a word, the least of many rounds; {WORDS} random words a call of ours.");
    println!("The Rust has 32, 128 or 256 bytes a plane, the fewest that hold the sites; above 128 it moves letters site by site.\n");
    println!("| lattice | sites | order | {} |", columns.collect::<Vec<_>>().join(" | "));
    println!("|---|---|---|---|---|---|---|");
    let chains = CHAINS.map(|sites| ("chain", Lattice::Chain(sites)));
    let tori = SIDES.map(|side| ("square torus", Lattice::Torus2(side, side)));
    for (name, lattice) in chains.into_iter().chain(tori) {
        row(name, lattice);
    }
}

/// A row of the table.
fn row(name: &str, lattice: Lattice) {
    let group = groups::accepted(lattice);
    let random = &mut Random::of(0, "growth", group.n_qubits());
    let words: Vec<String> = (0..WORDS).map(|_| bulk::any_word(random, group.n_qubits())).collect();
    let [a, b] = Call::BOTH.map(|call| bulk::ours(call, &group, &words));
    let [mut c, d] = Call::BOTH.map(|call| bulk::rust(call, &group, &words));
    let times: Vec<Times> = if c.once() <= SLOWEST { in_turn([a, b, c, d]).into() } else { in_turn([a, b]).into() };
    let shown = |i: usize| times.get(i).map_or("-".to_string(), |times: &Times| format!("{:.0}", times.least));
    let shown: Vec<String> = (0..4).map(shown).collect();
    println!("| {name} | {} | {} | {} |", group.n_qubits(), group.order(), shown.join(" | "));
}
