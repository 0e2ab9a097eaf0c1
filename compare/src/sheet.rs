//! What a sheet prints, by document 01 and the listed Rust.

use crate::cases::*;
use crate::rust::{dropped_by, lattice_group, read_text};
use crate::sizes::*;
use ppvm_pauli_sum::symmetry::group::TranslationGroup;
use ppvm_traits::PauliWordTrait;

/// A refusal, and the line of the sheet that it is of, 0 for the sheet as a whole.
type Faulty = (Refusal, usize);

/// The answer to a sheet put into a list of so many places, all `.` before.
pub fn answer(places: usize, sheet: &[u8]) -> String {
    let printed = printed(sheet);
    if printed.len() > places {
        return format!("refused 21: {}", ".".repeat(places));
    }
    let said = match table(sheet) {
        Ok(_) => format!("table {}", printed.len()),
        Err((refusal, line)) => format!("{refusal} at line {line}, {}", printed.len()),
    };
    format!("{said}: {}{}", visible(printed.as_bytes()), ".".repeat(places - printed.len()))
}

/// What a sheet prints: its table, or one line that says which rule it breaks and where.
pub fn printed(sheet: &[u8]) -> String {
    table(sheet).unwrap_or_else(|(refusal, line)| format!("refused {} {line}\n", refusal.rule))
}

fn table(sheet: &[u8]) -> Result<String, Faulty> {
    if sheet.len() > MAX_SHEET {
        return Err((refusal(30, &[]), 0));
    }
    let mut lines = sheet.split_inclusive(|&byte| byte == b'\n').enumerate().map(|(i, line)| (line, i + 1));
    let mut next = |number| lines.next().unwrap_or((b"", number));
    named(next(1), b"shape a b c\n")?;
    let (group, number) = shape_line(next(2))?;
    named(next(3), b"word k0 k1 k2\n")?;
    let rows = lines.map(|line| word_line(&group, number, line)).collect::<Result<String, Faulty>>()?;
    Ok(format!("word rep index orbit weight keep\n{rows}"))
}

fn named((line, number): (&[u8], usize), names: &[u8]) -> Result<(), Faulty> {
    if line == names { Ok(()) } else { Err(other_form(number)) }
}

fn other_form(number: usize) -> Faulty {
    (refusal(31, &[]), number)
}

/// The four fields of a line.
fn fields((line, number): (&[u8], usize)) -> Result<Vec<&[u8]>, Faulty> {
    let line = line.strip_suffix(b"\n").ok_or(other_form(number))?;
    let fields: Vec<&[u8]> = line.split(|&byte| byte == b' ').collect();
    let whole = fields.len() == 4 && fields.iter().all(|field| !field.is_empty());
    if whole { Ok(fields) } else { Err(other_form(number)) }
}

/// The lattice of a line and how many modes its words have.
fn shape_line(line: (&[u8], usize)) -> Result<(TranslationGroup, usize), Faulty> {
    let fields = fields(line)?;
    let sides: Vec<usize> = fields[1..].iter().map(|field| side(field)).collect::<Option<_>>().ok_or(other_form(line.1))?;
    let [a, b, c] = sides[..] else { unreachable!() };
    let lattice = match fields[0] {
        b"chain" if b == 0 && c == 0 => Lattice::Chain(a),
        b"ladder" if c == 0 => Lattice::Ladder(a, b),
        b"torus2" if c == 0 => Lattice::Torus2(a, b),
        b"torus3" => Lattice::Torus3(a, b, c),
        _ => return Err(other_form(line.1)),
    };
    let group = lattice_group(lattice).map_err(|refusal| (refusal, line.1))?;
    let modes = group.n_generators();
    Ok((group, modes))
}

/// A decimal number without leading zeros; a long one counts as the largest.
fn side(field: &[u8]) -> Option<usize> {
    let digits = field.iter().all(u8::is_ascii_digit) && (field == b"0" || field[0] != b'0');
    digits.then(|| std::str::from_utf8(field).unwrap().parse().unwrap_or(usize::MAX))
}

/// A number of signed 32 bits with an optional minus, not on 0.
fn mode(field: &[u8]) -> Option<i32> {
    let text = std::str::from_utf8(field).ok()?;
    let mode: i32 = text.parse().ok()?;
    (mode.to_string() == text).then_some(mode)
}

fn word_line(group: &TranslationGroup, used: usize, line: (&[u8], usize)) -> Result<String, Faulty> {
    let fields = fields(line)?;
    let modes: Vec<i32> = fields[1..].iter().map(|field| mode(field)).collect::<Option<_>>().ok_or(other_form(line.1))?;
    let (modes, unused) = modes.split_at(used);
    if unused.iter().any(|&mode| mode != 0) {
        return Err(other_form(line.1));
    }
    let word = read_text(fields[0]).map_err(|refusal| (refusal, line.1))?;
    if word.n_qubits() != group.n_qubits() {
        return Err((refusal(16, &[]), line.1));
    }
    let (least, index) = group.canonicalize_with_index(&word);
    let weight = word.weight();
    Ok(match group.canonicalize_in_sector(&word, modes) {
        Some((_, _, size)) => format!("{word} {least} {index} {size} {weight} 1\n"),
        None => format!("{word} - {} - {weight} 0\n", dropped_by(group, &word, modes)),
    })
}
