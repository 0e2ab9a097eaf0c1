//! Short inputs, all of them: every word of up to 4 sites under every lattice of that size and every mode list, alone and all in one call, at every index,
//! every pair of short words, every short generator list; every word of 4 to 6 sites under groups of several parts; every entry of the table of phases; and
//! the count of pairs that are kept.

use crate::cases::*;
use crate::groups::{Generators, cycles, fixed, identity, rings_of, shifts_by, turn};
use crate::guard::Side;
use crate::ours::Ours;
use crate::rust::Rust;
use crate::sizes::*;
use crate::words::{moved, representative, word_bytes};
use ppvm_pauli_sum::symmetry::group::TranslationGroup;

const MOST_SITES: usize = 4;

/// All lists of so many members, each of which is below its bound.
fn lists(bounds: &[usize]) -> Vec<Vec<usize>> {
    bounds.iter().fold(vec![vec![]], |lists, &bound| {
        let longer = |list: &Vec<usize>| (0..bound).map(|member| [&list[..], &[member]].concat()).collect::<Vec<_>>();
        lists.iter().flat_map(longer).collect()
    })
}

/// All texts of so many letters.
fn texts(sites: usize) -> Vec<Vec<u8>> {
    lists(&vec![4; sites]).iter().map(|list| list.iter().map(|&i| b"IXYZ"[i]).collect()).collect()
}

/// The group without generators and all lattices of so many sites.
fn groups(sites: usize) -> Vec<Line> {
    let mut groups = vec![Line::Group { sites, list: vec![], orders: vec![] }];
    for a in 1..=sites {
        for b in (1..=sites / a).filter(|b| sites.is_multiple_of(a * b)) {
            let c = sites / a / b;
            groups.push(Line::Lattice(Lattice::Torus3(a, b, c)));
            if c == 1 {
                groups.extend([Line::Lattice(Lattice::Torus2(a, b)), Line::Lattice(Lattice::Ladder(a, b))]);
            }
        }
    }
    if sites > 0 {
        groups.push(Line::Lattice(Lattice::Chain(sites)));
    }
    groups
}

/// Groups of several parts, some with equal generators or orbits of different sizes, which are taken in every numbering of their sites: of 4 and 5 sites.
fn short_parts() -> Vec<Generators> {
    vec![
        rings_of(&[2, 2]),
        turn(&[3]).beside(fixed(1)),
        shifts_by(2, 1, 2, &[(1, 0)]),
        shifts_by(2, 2, 1, &[(1, 0), (1, 1)]),
        rings_of(&[2, 3]),
        rings_of(&[2, 2]).beside(fixed(1)),
        rings_of(&[2, 3]).with_identity(1),
        turn(&[2, 3]),
        turn(&[3]).with_power(0, 1).beside(turn(&[2])).in_order(&[0, 2, 1]),
        shifts_by(2, 2, 1, &[(1, 0), (0, 1)]).beside(fixed(1)),
    ]
}

/// The same of 6 sites, in the numbering that they have.
fn longer_parts() -> Vec<Generators> {
    let shuffled = |generators: Generators| generators.numbered(&[3, 0, 5, 1, 4, 2]);
    let groups = vec![
        rings_of(&[2, 2, 2]).in_order(&[2, 0, 1]),
        rings_of(&[3, 3]),
        rings_of(&[4, 2]),
        shifts_by(2, 2, 1, &[(1, 0), (0, 1)]).beside(turn(&[2])).in_order(&[0, 2, 1]),
        shifts_by(3, 1, 2, &[(1, 0), (0, 1)]),
        shifts_by(2, 1, 3, &[(1, 0)]),
        turn(&[2, 4]),
        turn(&[1, 2]).beside(turn(&[3])),
    ];
    groups.into_iter().map(shuffled).collect()
}

/// A group in every numbering of its sites, each once.
fn numberings(generators: &Generators) -> Vec<Generators> {
    let mut seen = Vec::new();
    for labels in permutations(generators.sites) {
        let numbered = generators.clone().numbered(&labels);
        if !seen.iter().any(|other: &Generators| other.permutations == numbered.permutations) {
            seen.push(numbered);
        }
    }
    seen
}

/// All words of a group of several parts: in one call, and alone in the first numbering that is not the group's own.
fn parted_cases() -> Vec<Case> {
    let mut cases = Vec::new();
    for generators in short_parts() {
        let numbered = numberings(&generators);
        let alone = numbered.get(1).unwrap_or(&generators).line();
        cases.extend(numbered.iter().map(|numbered| many_case(&numbered.line(), texts(generators.sites))));
        cases.extend(texts(generators.sites).into_iter().map(|text| word_case(&alone, text)));
    }
    cases.extend(longer_parts().iter().map(|generators| many_case(&generators.line(), texts(generators.sites))));
    cases
}

/// The group of a line that is accepted.
fn group_of(line: &Line) -> TranslationGroup {
    let mut rust = Rust::new();
    rust.answer(line);
    rust.group().expect("an accepted group").clone()
}

/// The order of each generator of a group.
fn orders(line: &Line) -> Vec<usize> {
    let group = group_of(line);
    (0..group.n_generators()).map(|g| group.generator_order(g) as usize).collect()
}

fn mode_lists(orders: &[usize]) -> Vec<Vec<i32>> {
    lists(orders).iter().map(|list| list.iter().map(|&mode| mode as i32).collect()).collect()
}

pub fn cases() -> Vec<Case> {
    let all_groups = || (0..=MOST_SITES).flat_map(|sites| groups(sites).into_iter().map(move |line| (sites, line)));
    let of_words = all_groups().flat_map(|(sites, line)| texts(sites).into_iter().map(move |text| word_case(&line, text)));
    let of_many = all_groups().map(|(sites, line)| many_case(&line, texts(sites)));
    let of_tables = all_groups().map(|(_, line)| table_case(&line));
    let of_words = of_words.chain(of_many).chain(of_tables).chain(parted_cases());
    of_words.chain([phase_case()]).chain((0..=3).flat_map(compare_cases)).chain(list_cases()).collect()
}

/// All that is asked of a word under a group, at every index and one more, in every mode list; and the way back from its representative.
fn word_case(line: &Line, text: Vec<u8>) -> Case {
    let orders = orders(line);
    let (order, places) = (orders.iter().product::<usize>(), orders.len());
    let (least, index) = representative(&group_of(line), &text);
    let mut case = vec![line.clone(), Line::Word(text), Line::Text, Line::Weight];
    case.extend([Line::Canonicalize, Line::WithIndex, Line::WithShift { places }]);
    case.extend([Line::OrbitList { bytes: WORD_BYTES * order }, Line::Orbit, Line::Next(order + 2)]);
    case.extend((0..=order).map(Line::At));
    case.push(Line::Whole(3));
    for modes in mode_lists(&orders) {
        case.extend([Line::Modes(modes), Line::Sector { places }, Line::Project]);
    }
    case.extend([Line::Word(least), Line::At(index)]);
    case
}

/// Many words in one call, under every mode list.
fn many_case(line: &Line, texts: Vec<Vec<u8>>) -> Case {
    let mut case = vec![line.clone(), Line::Clear];
    case.extend(texts.into_iter().flat_map(|text| [Line::Word(text), Line::Row(0.0)]));
    case.push(Line::Words);
    case.extend(mode_lists(&orders(line)).into_iter().flat_map(|modes| [Line::Modes(modes), Line::SectorWords]));
    case
}

/// Every index of a group, every list of digits that are at most their orders, and every mode list.
fn table_case(line: &Line) -> Case {
    let orders = orders(line);
    let (order, places) = (orders.iter().product::<usize>(), orders.len());
    let mut case = vec![line.clone(), Line::Targets, Line::Order, Line::Modulus];
    case.extend((0..order).flat_map(|index| [Line::Counter { index, places }, Line::Invert(index)]));
    let as_digits = |list: &Vec<usize>| list.iter().map(|&digit| digit as u32).collect::<Vec<u32>>();
    let bounds: Vec<usize> = orders.iter().map(|order| order + 1).collect();
    case.extend(lists(&bounds).iter().map(|list| Line::Index(as_digits(list))));
    for modes in mode_lists(&orders) {
        case.extend([Line::Modes(modes), Line::Table { places: order }]);
        case.extend(lists(&orders).iter().map(|list| Line::Numerator(as_digits(list))));
    }
    case
}

/// Every entry of the table of phases: the words of an orbit that has as many, each projected alone.
fn phase_case() -> Case {
    let permutation = cycles(&[16, 9, 5]);
    let mut text = vec![b'I'; permutation.len()];
    for start in [0, 16, 25] {
        text[start] = b'X';
    }
    let group = Generators { sites: text.len(), permutations: vec![permutation.clone()], orders: vec![PHASES as u32] };
    let mut case = vec![group.line(), Line::Modes(vec![1])];
    for _ in 0..PHASES {
        case.extend([Line::Clear, Line::Word(text.clone()), Line::Whole(1), Line::Project]);
        text = moved(&text, &permutation);
    }
    case
}

/// Every word beside every other.
fn compare_cases(sites: usize) -> Vec<Case> {
    let compares = || texts(sites).into_iter().map(|text| Line::Compare(word_bytes(&text)));
    texts(sites).into_iter().map(|text| [Line::Word(text)].into_iter().chain(compares()).collect()).collect()
}

/// Every list of up to two generators on up to 2 sites and of one on 3, targets one too large and orders 0 to 3; every pair of permutations of up to
/// 4 sites.
fn list_cases() -> Vec<Case> {
    let mut cases = Vec::new();
    for (sites, generators) in [(0, 0), (0, 1), (0, 2), (1, 1), (1, 2), (2, 1), (2, 2), (3, 1)] {
        let bounds = [vec![sites + 1; sites * generators], vec![4; generators]].concat();
        for choice in lists(&bounds) {
            let numbers: Vec<u32> = choice.iter().map(|&number| number as u32).collect();
            let (targets, orders) = numbers.split_at(sites * generators);
            let perms: Vec<&[u32]> = (0..generators).map(|g| &targets[sites * g..][..sites]).collect();
            cases.push(list_case(sites, &perms, orders));
        }
    }
    for sites in 2..=MOST_SITES {
        let perms: Vec<(Vec<u32>, u32)> = permutations(sites).into_iter().map(|perm| (perm.clone(), order_of(&perm))).collect();
        for (left, a) in &perms {
            cases.extend(perms.iter().map(|(right, b)| list_case(sites, &[left, right], &[*a, *b])));
        }
    }
    cases
}

fn list_case(sites: usize, perms: &[&[u32]], orders: &[u32]) -> Case {
    let list = perms.iter().flat_map(|perm| [&[perm.len() as u32], *perm].concat()).collect();
    vec![Line::Group { sites, list, orders: orders.to_vec() }, Line::Targets, Line::Order, Line::Modulus]
}

fn permutations(sites: usize) -> Vec<Vec<u32>> {
    let lists = lists(&vec![sites; sites]).into_iter();
    let different = lists.filter(|list| (0..sites).all(|q| list.contains(&q)));
    different.map(|list| list.iter().map(|&q| q as u32).collect()).collect()
}

fn order_of(perm: &[u32]) -> u32 {
    let apply = |power: &Vec<u32>| power.iter().map(|&q| perm[q as usize]).collect::<Vec<u32>>();
    let powers = std::iter::successors(Some(perm.to_vec()), |power| Some(apply(power)));
    1 + powers.take_while(|power| *power != identity(perm.len())).count() as u32
}

/// The groups under which kept pairs are counted and ways back are taken, with their sites.
pub fn counted() -> Vec<(usize, Line)> {
    let lattices = (0..=MOST_SITES).flat_map(|sites| groups(sites).into_iter().map(move |line| (sites, line)));
    let parted = short_parts().into_iter().flat_map(|generators| numberings(&generators)).chain(longer_parts());
    lattices.chain(parted.map(|generators| (generators.sites, generators.line()))).collect()
}

/// Over all mode lists and representatives of n sites there are 4^n pairs in which our library keeps the word.
pub fn count_pairs(sites: usize, line: &Line) -> Result<(), String> {
    let mut ours = Ours::new(Side::After);
    let orders = orders(line);
    ours.answer(line);
    let mut kept = 0;
    for text in texts(sites) {
        ours.answer(&Line::Word(text.clone()));
        if ours.answer(&Line::Canonicalize).as_bytes() != text {
            continue;
        }
        for modes in mode_lists(&orders) {
            ours.answer(&Line::Modes(modes));
            kept += usize::from(ours.answer(&Line::Sector { places: orders.len() }).starts_with("kept"));
        }
    }
    let expected = 4usize.pow(sites as u32);
    if kept == expected { Ok(()) } else { Err(format!("{line}\nkept pairs: {kept}, and there are {expected} words")) }
}

/// Every index has digits that have this index, and every word a representative and an index that make this word, by our library's own answers.
pub fn come_back(sites: usize, line: &Line) -> Result<(), String> {
    let mut ours = Ours::new(Side::After);
    let orders = orders(line);
    ours.answer(line);
    for index in 0..orders.iter().product() {
        let counter = ours.answer(&Line::Counter { index, places: orders.len() });
        let digits = counter.split_whitespace().skip(1).map(|digit| digit.parse().unwrap_or(u32::MAX)).collect();
        let back = ours.answer(&Line::Index(digits));
        if back != index.to_string() {
            return Err(format!("{line}\ncounter of {index}: {counter}\nits index: {back}"));
        }
    }
    for text in texts(sites) {
        let word = Line::Word(text.clone());
        ours.answer(&word);
        let representative = ours.answer(&Line::WithIndex);
        let (least, index) = representative.split_once(' ').unwrap_or_default();
        ours.answer(&Line::Word(least.into()));
        let back = ours.answer(&Line::At(index.parse().unwrap_or(usize::MAX)));
        if back.as_bytes() != text {
            return Err(format!("{line}\n{word}\nrepresentative and index: {representative}\nthe word that they make: {back}"));
        }
    }
    Ok(())
}
