//! Groups: lattices, buyers' own numberings of them, products, powers and repetitions of commuting permutations; generator lists with faults; and the
//! cases that ask for orders, counters, their indices and inverses.

use crate::cases::*;
use crate::random::Random;
use crate::rust::lattice_group;
use crate::sizes::*;
use ppvm_pauli_sum::symmetry::group::TranslationGroup;

/// How large a group may be.
#[derive(Clone, Copy)]
pub struct Bounds {
    pub sites: usize,
    pub order: usize,
}

impl Bounds {
    /// Any order; mostly at most as many sites as the old form of a word has.
    pub fn all(random: &mut Random) -> Bounds {
        Bounds { sites: if random.once_in(4) { MAX_SITES } else { OLD_SITES }, order: MAX_ORDER }
    }

    /// Likewise; mostly few elements, since each walk takes as many steps.
    pub fn common(random: &mut Random) -> Bounds {
        let order = match random.below(1000) {
            0 => 16_384,
            1..=29 => 2_048,
            30..=399 => 256,
            _ => 64,
        };
        Bounds { order, ..Bounds::all(random) }
    }

    /// Few sites and few elements, for a list that is replayed.
    pub fn small(random: &mut Random) -> Bounds {
        match random.below(400) {
            0 => Bounds { sites: MAX_SITES, order: 8 },
            1..=19 => Bounds { sites: OLD_SITES, order: 8 },
            20..=39 => Bounds { sites: 16, order: 512 },
            _ => Bounds { sites: 20, order: 20 },
        }
    }
}

/// An accepted group and the line that makes it.
pub struct Chosen {
    pub line: Line,
    pub group: TranslationGroup,
}

pub type Permutation = Vec<u32>;

/// Permutations of the sites and their declared orders: what a generator list says.
#[derive(Clone)]
pub struct Generators {
    pub sites: usize,
    pub permutations: Vec<Permutation>,
    pub orders: Vec<u32>,
}

impl Generators {
    /// Permutations with their exact orders.
    pub fn exact(sites: usize, permutations: Vec<Permutation>) -> Generators {
        let orders = permutations.iter().map(|permutation| exact_order(permutation) as u32).collect();
        Generators { sites, permutations, orders }
    }

    pub fn line(&self) -> Line {
        let list = self.permutations.iter().flat_map(|perm| [&[perm.len() as u32], &perm[..]].concat()).collect();
        Line::Group { sites: self.sites, list, orders: self.orders.clone() }
    }

    pub fn chosen(self) -> Chosen {
        let line = self.line();
        Chosen { line, group: TranslationGroup::from_generators(self.sites, self.permutations, self.orders) }
    }

    /// The same, each site q named labels[q].
    pub fn numbered(mut self, labels: &[u32]) -> Generators {
        self.permutations = self.permutations.iter().map(|permutation| relabelled(permutation, labels)).collect();
        self
    }

    /// The same, the sites numbered otherwise.
    pub fn renumbered(self, random: &mut Random) -> Generators {
        let labels = labels(random, self.sites);
        self.numbered(&labels)
    }

    /// The same, and the identity as generator g.
    pub fn with_identity(mut self, g: usize) -> Generators {
        self.permutations.insert(g, identity(self.sites));
        self.orders.insert(g, 1);
        self
    }

    /// The same, and a power of generator g as the last.
    pub fn with_power(self, g: usize, exponent: u64) -> Generators {
        let power = power(&self.permutations[g], exponent);
        Generators::exact(self.sites, [self.permutations, vec![power]].concat())
    }

    /// The same, and after its sites those of another group, which has its own generators.
    pub fn beside(self, other: Generators) -> Generators {
        let sites = self.sites + other.sites;
        let before = self.permutations.into_iter().map(|permutation| [permutation, (self.sites as u32..sites as u32).collect()].concat());
        let moved = |permutation: Permutation| permutation.into_iter().map(|target| self.sites as u32 + target);
        let after = other.permutations.into_iter().map(|permutation| (0..self.sites as u32).chain(moved(permutation)).collect());
        Generators { sites, permutations: before.chain(after).collect(), orders: [self.orders, other.orders].concat() }
    }

    /// The same generators in this order.
    pub fn in_order(self, numbers: &[usize]) -> Generators {
        let permutations = numbers.iter().map(|&g| self.permutations[g].clone()).collect();
        Generators { sites: self.sites, permutations, orders: numbers.iter().map(|&g| self.orders[g]).collect() }
    }
}

/// A random group within bounds.
pub fn group(random: &mut Random, bounds: Bounds) -> Chosen {
    match random.below(8) {
        0..=1 => of_lattice(lattice(random, bounds)),
        2 => shifts_of(lattice(random, bounds)).renumbered(random).chosen(),
        _ => commuting(random, bounds).chosen(),
    }
}

/// A group of more than so many elements, seldom of as many as there may be; the more sites, the fewer elements.
pub fn large_group(random: &mut Random, above: usize) -> Chosen {
    if random.once_in(16) {
        return rings(4, 32).chosen();
    }
    let bounds = match random.below(12) {
        0 => Bounds { sites: OLD_SITES, order: MAX_ORDER },
        1 => Bounds { sites: MAX_SITES, order: 2 * above },
        _ => Bounds { sites: OLD_SITES, order: 2 * above },
    };
    let mut groups = std::iter::repeat_with(|| commuting(random, bounds).chosen());
    groups.find(|chosen| chosen.group.order() > above).unwrap()
}

/// The group of a lattice that breaks no rule.
pub fn accepted(lattice: Lattice) -> TranslationGroup {
    lattice_group(lattice).unwrap_or_else(|refusal| panic!("{lattice}: {refusal}"))
}

/// The group of a lattice and its line.
pub fn of_lattice(lattice: Lattice) -> Chosen {
    Chosen { line: Line::Lattice(lattice), group: accepted(lattice) }
}

/// Lattices of more sites than the old form of a word has: some of as many as there may be, a sheet of 40 by 40, and one just above.
pub const WIDE: [Lattice; 8] = [
    Lattice::Chain(MAX_SITES),
    Lattice::Ladder(MAX_SITES / 2, 2),
    Lattice::Ladder(2, MAX_SITES / 2),
    Lattice::Torus2(128, 16),
    Lattice::Torus2(40, 40),
    Lattice::Torus3(16, 16, 8),
    Lattice::Torus3(11, 13, 14),
    Lattice::Chain(OLD_SITES + 1),
];

/// A lattice; its order is at most its sites. Where there may be so many sites, seldom a wide one, whatever its order.
pub fn lattice(random: &mut Random, bounds: Bounds) -> Lattice {
    let most = bounds.sites.min(bounds.order);
    if most >= 64 && bounds.sites == MAX_SITES && random.once_in(32) {
        return random.pick(&WIDE);
    }
    let sites = if random.once_in(2) { random.within(1..=most) } else { 1 + random.size(most - 1) };
    let (a, b, c) = sides(random, sites);
    match random.below(4) {
        0 => Lattice::Chain(sites),
        1 if random.once_in(2) => Lattice::Ladder(a, random.within(1..=bounds.sites / a)),
        1 => Lattice::Ladder(a, b * c),
        2 => Lattice::Torus2(a, b * c),
        _ => Lattice::Torus3(a, b, c),
    }
}

/// Three sides whose product is near a number of sites and not above it.
fn sides(random: &mut Random, sites: usize) -> (usize, usize, usize) {
    let a = random.within(1..=sites);
    let b = random.within(1..=sites / a);
    (a, b, sites / a / b)
}

/// The shifts of a lattice.
pub fn shifts_of(lattice: Lattice) -> Generators {
    let group = accepted(lattice);
    let shifts = 0..group.n_generators();
    Generators {
        sites: group.n_qubits(),
        permutations: shifts.clone().map(|g| group.generator_perm(g).to_vec()).collect(),
        orders: shifts.map(|g| group.generator_order(g)).collect(),
    }
}

/// A torus of lx by ly cells with so many sites in each, as a honeycomb (2) or a kagome lattice (3) has them: a cell's site of one sublattice stands at
/// sublattice * cells + cell.
pub fn sublattices(lx: usize, ly: usize, number: usize) -> Generators {
    let cells = lx * ly;
    let shift = |stride: usize, side: usize| {
        let target = |q: usize| shifted(q, q / cells * cells, cells, stride, side) as u32;
        (0..number * cells).map(target).collect()
    };
    Generators { sites: number * cells, permutations: vec![shift(1, lx), shift(lx, ly)], orders: vec![lx as u32, ly as u32] }
}

/// A torus of such cells, with its shifts by these numbers of cells along the two sides.
pub fn shifts_by(lx: usize, ly: usize, number: usize, steps: &[(usize, usize)]) -> Generators {
    let Generators { sites, permutations, .. } = sublattices(lx, ly, number);
    let shift = |&(a, b): &(usize, usize)| after(&power(&permutations[1], b as u64), &power(&permutations[0], a as u64));
    Generators::exact(sites, steps.iter().map(shift).collect())
}

/// Sites that nothing moves.
pub fn fixed(sites: usize) -> Generators {
    Generators { sites, permutations: vec![], orders: vec![] }
}

/// One generator, with cycles of these lengths.
pub fn turn(lengths: &[usize]) -> Generators {
    let permutation = cycles(lengths);
    Generators::exact(permutation.len(), vec![permutation])
}

/// Rings of these lengths side by side, each turning by itself.
pub fn rings_of(lengths: &[usize]) -> Generators {
    lengths.iter().fold(fixed(0), |rings, &length| rings.beside(turn(&[length])))
}

/// So many rings of so many sites, likewise.
pub fn rings(rings: usize, length: usize) -> Generators {
    rings_of(&vec![length; rings])
}

/// None to four generators: products of powers of shifts that commute, powers of one another, equal ones, identities.
fn commuting(random: &mut Random, bounds: Bounds) -> Generators {
    let sites = site_count(random, bounds.sites);
    let shifts = shifts(random, sites);
    let mut permutations: Vec<Permutation> = Vec::new();
    let mut orders = Vec::new();
    let mut room = bounds.order as u64;
    for _ in 0..random.below(MAX_GENERATORS + 1) {
        let permutation = match random.below(10) {
            0 => identity(sites),
            1 if !permutations.is_empty() => random.pick(&permutations),
            2 if !permutations.is_empty() => power(&random.pick(&permutations), random.bits() % 8),
            _ => product(random, &shifts, sites),
        };
        let bound = if random.once_in(2) { room } else { room.isqrt() };
        let (permutation, order) = power_within(random, &permutation, bound);
        room /= order;
        orders.push(order as u32);
        permutations.push(permutation);
    }
    let generators = Generators { sites, permutations, orders };
    if random.once_in(2) { generators.renumbered(random) } else { generators }
}

/// A power of a permutation whose order is at most a bound, and that order. The permutation is a product of so few shifts that its own fits 64 bits.
fn power_within(random: &mut Random, permutation: &[u32], bound: u64) -> (Permutation, u64) {
    let exact = exact_order(permutation);
    if exact <= bound {
        return (permutation.to_vec(), exact);
    }
    let mut factors = prime_factors(exact);
    random.shuffle(&mut factors);
    let order = factors.iter().fold(1, |order, factor| if order * factor <= bound { order * factor } else { order });
    (power(permutation, exact / order), order)
}

fn prime_factors(mut number: u64) -> Vec<u64> {
    let mut factors = Vec::new();
    for factor in 2.. {
        while number.is_multiple_of(factor) {
            factors.push(factor);
            number /= factor;
        }
        if number == 1 {
            return factors;
        }
    }
    unreachable!()
}

/// Numbers of sites beside the end of a byte, of a machine word, of the old form of a word, or of a word.
#[rustfmt::skip]
const EDGES: [usize; 30] = [
    0, 1, 2, 7, 8, 9, 31, 32, 33, 63, 64, 65, 127, 128, 129, 191, 192, 255, 256, 257, 319, 320, 511, 512, 1023, 1024, 1025, 1985, 2047, 2048,
];

/// A number of sites: any, few, or one beside an end.
pub fn site_count(random: &mut Random, bound: usize) -> usize {
    match random.below(4) {
        0..=1 => random.within(0..=bound),
        2 => random.pick(&EDGES[..EDGES.partition_point(|&edge| edge <= bound)]),
        _ => random.size(bound),
    }
}

/// Permutations that commute: the shifts of lattices that stand side by side.
fn shifts(random: &mut Random, sites: usize) -> Vec<Permutation> {
    let mut shifts = Vec::new();
    let mut start = 0;
    while start < sites && shifts.len() < 24 {
        let length = if random.once_in(4) { sites - start } else { 1 + random.size(sites - start - 1) };
        let (a, b, c) = sides(random, length);
        for (stride, side) in [(1, a), (a, b), (a * b, c)].into_iter().filter(|&(_, side)| side > 1) {
            shifts.push((0..sites).map(|q| shifted(q, start, a * b * c, stride, side) as u32).collect());
        }
        start += a * b * c;
    }
    shifts
}

/// The site that a shift moves site q to: along a side with this stride, in the lattice of so many sites from a start on.
fn shifted(q: usize, start: usize, sites: usize, stride: usize, side: usize) -> usize {
    if q < start || q >= start + sites {
        return q;
    }
    let along = (q - start) / stride % side;
    q - along * stride + (along + 1) % side * stride
}

fn product(random: &mut Random, shifts: &[Permutation], sites: usize) -> Permutation {
    let mut product = identity(sites);
    for _ in 0..random.within(1..=4) {
        if !shifts.is_empty() {
            let exponent = if random.once_in(2) { 1 } else { random.bits() % 12 };
            product = after(&power(&random.pick(shifts), exponent), &product);
        }
    }
    product
}

/// Cycles of these lengths, one after the other.
pub fn cycles(lengths: &[usize]) -> Permutation {
    let mut permutation = Vec::new();
    for &length in lengths {
        let start = permutation.len();
        permutation.extend((0..length).map(|q| (start + (q + 1) % length) as u32));
    }
    permutation
}

pub fn identity(sites: usize) -> Permutation {
    (0..sites as u32).collect()
}

/// First the one permutation, then the other.
pub fn after(second: &[u32], first: &[u32]) -> Permutation {
    first.iter().map(|&q| second[q as usize]).collect()
}

pub fn power(permutation: &[u32], exponent: u64) -> Permutation {
    let mut result = identity(permutation.len());
    let mut square = permutation.to_vec();
    for place in 0..u64::BITS - exponent.leading_zeros() {
        if exponent >> place & 1 == 1 {
            result = after(&square, &result);
        }
        square = after(&square, &square);
    }
    result
}

fn labels(random: &mut Random, sites: usize) -> Permutation {
    let mut labels = identity(sites);
    random.shuffle(&mut labels);
    labels
}

/// A permutation of sites after each site q is named labels[q].
fn relabelled(permutation: &[u32], labels: &[u32]) -> Permutation {
    let mut result = vec![0; labels.len()];
    for (q, &target) in permutation.iter().enumerate() {
        result[labels[q] as usize] = labels[target as usize];
    }
    result
}

/// The least common multiple of the cycle lengths, or the largest number of 64 bits where that has more: on 256 sites it has at most 55, on 2,048 up to
/// some 180.
fn exact_order(permutation: &[u32]) -> u64 {
    let mut seen = vec![false; permutation.len()];
    let mut order = 1u64;
    for start in 0..permutation.len() {
        let (mut length, mut q) = (0, start);
        while !seen[q] {
            seen[q] = true;
            length += 1;
            q = permutation[q] as usize;
        }
        if length > 0 {
            let Some(multiple) = (order / gcd(order, length)).checked_mul(length) else { return u64::MAX };
            order = multiple;
        }
    }
    order
}

fn gcd(a: u64, b: u64) -> u64 {
    if b == 0 { a } else { gcd(b, a % b) }
}

/// The permutation that the element of an index is.
pub fn element(group: &TranslationGroup, index: usize) -> Permutation {
    let counter = group.counter_from_index(index);
    let powers = counter.iter().enumerate().map(|(g, &count)| power(group.generator_perm(g), u64::from(count)));
    powers.fold(identity(group.n_qubits()), |product, next| after(&next, &product))
}

/// Orders, counters and back, and inverses of an accepted group; and spoiled counters.
pub fn case(random: &mut Random, bounds: Bounds) -> Case {
    let Chosen { line, group } = group(random, bounds);
    let mut case = vec![line, Line::Targets, Line::Order, Line::Modulus];
    let (order, places) = (group.order(), group.n_generators());
    for index in [0, order - 1, random.below(order), random.below(order)] {
        case.extend([Line::Counter { index, places }, Line::Index(group.counter_from_index(index)), Line::Invert(index)]);
    }
    case.extend([Line::Index(spoiled_counter(random, &group)), Line::Index(spoiled_counter(random, &group))]);
    case
}

/// A counter spoiled once or twice: a digit not below its order, a digit too few or too many, or no digits, which are right where there are no generators.
fn spoiled_counter(random: &mut Random, group: &TranslationGroup) -> Vec<u32> {
    let mut digits = group.counter_from_index(random.below(group.order()));
    for _ in 0..random.within(1..=2) {
        let digit_count = digits.len().min(group.n_generators());
        match random.below(8) {
            0 => digits.clear(),
            1 => digits.truncate(digits.len().saturating_sub(1)),
            2 => digits.push(random.pick(&[0, u32::MAX])),
            _ if digit_count > 0 => {
                let g = random.below(digit_count);
                let (order, any) = (group.generator_order(g), random.bits() as u32 | 1 << 31);
                digits[g] = random.pick(&[order, order, order + 1, 2 * order, u32::MAX, any]);
            }
            _ => (),
        }
    }
    digits
}

/// A generator list with up to three faults, and the order of what it gives.
pub fn faulty_case(random: &mut Random, bounds: Bounds) -> Case {
    let mut generators = if random.once_in(3) { long_cycles(random, bounds) } else { commuting(random, bounds) };
    for _ in 0..random.below(4) {
        spoil(random, &mut generators);
    }
    let Line::Group { sites, mut list, orders } = generators.line() else { unreachable!() };
    if random.once_in(16) {
        list.truncate(random.below(list.len() + 1));
    }
    vec![Line::Group { sites, list, orders }, Line::Order, Line::Modulus]
}

/// Generators of high order: powers of a permutation whose cycles have different prime lengths.
fn long_cycles(random: &mut Random, bounds: Bounds) -> Generators {
    let mut lengths = vec![2, 3, 4, 5, 7, 11, 13, 17, 19, 23, 29, 31, 37, 109];
    if bounds.sites > OLD_SITES {
        lengths.extend([41, 43, 47, 53, 59, 61, 251, 257]);
    }
    random.shuffle(&mut lengths);
    lengths.truncate(random.within(3..=lengths.len() - 4));
    while lengths.iter().sum::<usize>() > bounds.sites.max(OLD_SITES) {
        lengths.pop();
    }
    let permutation = cycles(&lengths);
    let permutations = (0..random.within(1..=4)).map(|_| power(&permutation, 1 + random.bits() % 3)).collect();
    Generators::exact(permutation.len(), permutations)
}

/// One or two permutations by their cycle lengths, with their exact orders or others.
pub fn cycle_case(random: &mut Random, bounds: Bounds) -> Case {
    let lengths = cycle_lengths(random, bounds.sites);
    let sites = lengths.iter().sum();
    let permutation = relabelled(&cycles(&lengths), &labels(random, sites));
    let exponent = 1 + random.bits() % 4;
    let permutations = if random.once_in(4) { vec![permutation.clone(), power(&permutation, exponent)] } else { vec![permutation] };
    let declared = |permutation: &Permutation| {
        let exact = exact_order(permutation);
        let divisor = lengths.get(random.below(lengths.len().max(1))).map_or(1, |&length| length as u64);
        random.pick(&[exact, exact, exact / divisor, exact.wrapping_mul(2), 1, 0]) as u32
    };
    let orders = permutations.iter().map(declared).collect();
    vec![Generators { sites, permutations, orders }.line(), Line::Order, Line::Modulus]
}

/// Cycle lengths of up to so many sites, mostly equal ones, all of them different, or any, in any order.
fn cycle_lengths(random: &mut Random, sites: usize) -> Vec<usize> {
    // The most numbers from 1 on whose sum is at most the sites.
    let different = ((8 * sites + 1).isqrt() - 1) / 2;
    let mut lengths = match random.below(3) {
        0 => vec![random.within(1..=16)],
        1 => (1..=random.within(1..=different)).collect(),
        _ => Vec::new(),
    };
    let repeats = if lengths.len() == 1 { random.within(1..=sites / lengths[0]) } else { 1 };
    lengths = lengths.repeat(repeats);
    for _ in 0..random.below(4) {
        let left = sites - lengths.iter().sum::<usize>();
        if left > 0 {
            lengths.push(1 + random.size(left - 1));
        }
    }
    random.shuffle(&mut lengths);
    lengths
}

/// Spoils a generator list in one way, where that is possible.
fn spoil(random: &mut Random, generators: &mut Generators) {
    let Generators { sites, permutations, orders } = generators;
    let g = random.below(permutations.len().max(1));
    match (random.below(10), permutations.get_mut(g)) {
        (0, _) => *sites = random.pick(&[sites.saturating_sub(1), *sites + 1, MAX_SITES + 1, 0, usize::MAX]),
        (1, _) => orders.push(random.below(3) as u32),
        (2, _) => orders.truncate(orders.len().saturating_sub(1)),
        (3, _) => {
            for _ in 0..random.within(1..=4) {
                permutations.push(identity(*sites % (MAX_SITES + 1)));
                orders.push(1);
            }
        }
        (4, Some(permutation)) => permutation.push(random.below(*sites % MAX_SITES + 2) as u32),
        (5, Some(permutation)) if !permutation.is_empty() => {
            let any = random.bits() as u32;
            let q = random.below(permutation.len());
            let target = random.pick(&[*sites as u32, u32::MAX, any, permutation[0], permutation[q] | 1 << 16]);
            permutation[q] = target;
        }
        (6, Some(permutation)) if permutation.len() > 1 => {
            let (a, b) = (random.below(permutation.len()), random.below(permutation.len()));
            permutation.swap(a, b);
            let valid = permutation.iter().all(|&target| (target as usize) < permutation.len());
            if valid && g < orders.len() {
                orders[g] = exact_order(permutation) as u32;
            }
        }
        (7, _) if g < orders.len() => orders[g] = 0,
        (8, _) if g < orders.len() => {
            let any = random.below(300) as u32;
            orders[g] = random.pick(&[1, u32::MAX, orders[g].wrapping_mul(2), orders[g] / 2, any]);
        }
        (9, Some(permutation)) if permutation.len() > 1 => permutation.truncate(random.below(permutation.len())),
        _ => (),
    }
}
