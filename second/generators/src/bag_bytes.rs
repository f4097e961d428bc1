//! Random bags and questions as bytes: valid ones, ones that break one rule, and damaged ones.

use definitions::bags::is_path;
use definitions::plans::{list_value, number_value, string_value, Column, Entry, Plan};
use definitions::tokens::RESERVED_WORDS;

use crate::policy_texts::put_blanks;
use crate::random::Random;
use crate::wide_strings;

/// Paths that are near one another in the order of bytes, and others.
pub const PATHS: [&str; 24] = [
    "a", "a-b", "a.b", "a.b-c", "a.b.c", "a.bc", "a0", "aA", "a_", "aa", "b", "b.a", "A", "Z9", "flags", "grade",
    "hired", "name", "name.name", "If", "person", "x_1.y-2", "truer", "containsall",
];

/// Paths that no bag may hold.
pub const IMPOSSIBLE_PATHS: [&str; 22] = [
    "", ".", "a.", ".a", "a..b", "1", "a.1", "_", "-a", "a b", "a .b", "a. b", " a", "a ", "a\n", "a:b", "ü", "\"a\"",
    "if", "a.in", "containsAll", "true.a",
];

/// Numbers on the borders of binary64.
const NUMBERS: [u64; 12] = [
    0,
    0x8000_0000_0000_0000, // -0
    1,
    0x800F_FFFF_FFFF_FFFF,
    0x7FEF_FFFF_FFFF_FFFF, // the greatest finite number
    0xFFEF_FFFF_FFFF_FFFF,
    0x3FF0_0000_0000_0000, // 1
    0xBFF0_0000_0000_0000,
    0x4008_0000_0000_0000, // 3
    0x4004_0000_0000_0000, // 2.5
    0x3FB9_9999_9999_999A, // 0.1
    0x0000_0000_0000_F03F,
];

/// Bits that are no finite number.
const NOT_FINITE: [u64; 5] =
    [0x7FF0_0000_0000_0000, 0xFFF0_0000_0000_0000, 0x7FF8_0000_0000_0000, 0x7FF0_0000_0000_0001, u64::MAX];

/// A random bag's plan that keeps the rules.
pub fn bag(random: &mut Random) -> Plan {
    let sections = [section(random), section(random), section(random)];
    Plan { sections, columns: None }
}

/// A random question's plan that keeps the rules.
pub fn question(random: &mut Random) -> Plan {
    let mut plan = bag(random);
    let mut columns: Vec<Column> = Vec::new();
    let wanted = random.pick(&[0, 1, 1, 2, 2, 2, 3, 3, 4, 6]);
    while columns.len() < wanted {
        let new = column(random, &plan);
        if columns.iter().all(|column| column.root != new.root || column.path != new.path) {
            columns.push(new);
        }
    }
    plan.columns = Some(columns);
    plan
}

/// A column for an attribute of the base or for any other.
fn column(random: &mut Random, plan: &Plan) -> Column {
    let attributes = plan.attributes();
    let (mut root, path) = if !attributes.is_empty() && random.one_in(2) {
        attributes[random.below(attributes.len())].clone()
    } else {
        (random.between(1, 3) as u8, path(random))
    };
    if random.one_in(4) {
        root = random.between(1, 3) as u8;
    }
    let mut candidates: Vec<Vec<u8>> = Vec::new();
    let wanted = random.pick(&[1, 2, 2, 2, 3, 3, 4, 8]);
    while candidates.len() < wanted {
        let new = if random.one_in(4) { vec![0] } else { value(random) };
        if !candidates.contains(&new) {
            candidates.push(new);
        }
    }
    Column { root, path, candidates }
}

fn section(random: &mut Random) -> Vec<Entry> {
    let count = random.pick(&[0, 0, 0, 1, 1, 1, 2, 2, 3, 5]);
    let mut entries: Vec<Entry> = (0..count).map(|_| Entry { path: path(random), value: value(random) }).collect();
    entries.sort_by(|first, second| first.path.cmp(&second.path));
    entries.dedup_by(|second, first| first.path == second.path);
    entries
}

fn path(random: &mut Random) -> Vec<u8> {
    if !random.one_in(20) {
        return random.pick(&PATHS).as_bytes().to_vec();
    }
    let length = random.between(50, 64);
    let mut path: Vec<u8> = (0..length).map(|_| random.pick(b"abcXYZ019_-")).collect();
    for at in 0..length {
        if at == 0 || path[at - 1] == b'.' {
            path[at] = b'w';
        } else if at + 1 < length && random.one_in(8) {
            path[at] = b'.';
        }
    }
    if is_path(&path) {
        path
    } else {
        b"w".to_vec()
    }
}

/// A kind byte of 1 to 4 and a value.
fn value(random: &mut Random) -> Vec<u8> {
    match random.below(8) {
        0..=2 => string_value(&string(random)),
        3 | 4 => number_value(number(random)),
        5 => vec![3, random.below(2) as u8],
        _ => {
            let count = random.pick(&[0, 1, 1, 2, 2, 3, 16]);
            let strings: Vec<Vec<u8>> = (0..count).map(|_| string(random)).collect();
            list_value(&strings)
        }
    }
}

fn string(random: &mut Random) -> Vec<u8> {
    match random.below(40) {
        0 => vec![b's'; random.between(120, 127)],
        1..=4 => (0..random.between(0, 9)).map(|_| random.byte()).collect(),
        5 | 6 => wide_strings::any(random, 5),
        _ => random.pick(&["", "x", "own", "loan", "a\"b", "shaft:A1", "teach"]).as_bytes().to_vec(),
    }
}

fn number(random: &mut Random) -> u64 {
    let bits = random.bits();
    if random.one_in(2) || !f64::from_bits(bits).is_finite() {
        random.pick(&NUMBERS)
    } else {
        bits
    }
}

/// Break one rule of the form in the plan, or come near to it.
pub fn break_a_rule(plan: &mut Plan, random: &mut Random) {
    let which = random.below(3);
    if let Some(columns) = &mut plan.columns {
        if random.one_in(2) && !columns.is_empty() {
            let at = random.below(columns.len());
            return break_column(columns, at, random);
        }
    }
    let section = &mut plan.sections[which];
    if section.is_empty() || random.one_in(16) {
        let count = random.pick(&[31, 32, 32, 33, 34]);
        *section =
            (0..count).map(|index| Entry { path: format!("p{:02}", index).into_bytes(), value: vec![3, 1] }).collect();
        return;
    }
    let at = random.below(section.len());
    match random.below(4) {
        0 => section[at].path = bad_path(random),
        1 => section.insert(at, Entry { path: section[at].path.clone(), value: vec![3, 0] }),
        2 => {
            let other = random.below(section.len());
            section.swap(at, other);
        }
        _ => section[at].value = bad_value(random),
    }
}

/// Break a rule of the column.
fn break_column(columns: &mut Vec<Column>, at: usize, random: &mut Random) {
    let last = columns[at].candidates.len() - 1;
    match random.below(10) {
        0 => columns[at].root = random.pick(&[0, 4, 5, 255]),
        1 | 2 => columns[at].path = bad_path(random),
        3 => columns[at].candidates.clear(),
        4 => {
            let count = random.pick(&[7, 8, 8, 9, 10]);
            columns[at].candidates = (0..count).map(|index| vec![1, 1, index]).collect();
        }
        5 | 6 => {
            let repeated = columns[at].candidates[random.below(last + 1)].clone();
            columns[at].candidates.push(repeated);
        }
        7 => columns[at].candidates[last] = bad_value(random),
        8 => {
            let count = random.pick(&[5, 6, 6, 7, 8]);
            *columns = (0..count)
                .map(|index| Column { root: 3, path: vec![b'g' - index], candidates: vec![vec![0]] })
                .collect();
        }
        _ => {
            let same = columns[at].clone();
            columns.push(same);
        }
    }
}

fn bad_path(random: &mut Random) -> Vec<u8> {
    match random.below(6) {
        0 => random.pick(&RESERVED_WORDS).as_bytes().to_vec(),
        1 => vec![b'w'; random.pick(&[63, 64, 64, 65, 66])],
        _ => random.pick(&IMPOSSIBLE_PATHS).as_bytes().to_vec(),
    }
}

fn bad_value(random: &mut Random) -> Vec<u8> {
    match random.below(8) {
        0 => vec![0],
        1 => vec![random.pick(&[5, 6, 255]), 0],
        2 => vec![3, random.pick(&[2, 3, 255])],
        3 | 4 => number_value(random.pick(&NOT_FINITE)),
        5 => string_value(&vec![b's'; random.pick(&[126, 127, 128, 129])]),
        6 => list_value(&vec![Vec::new(); random.pick(&[15, 16, 17, 18])]),
        _ => list_value(&[vec![b's'; random.pick(&[127, 128])]]),
    }
}

/// One or two bytes changed, removed or inserted, or the end cut off.
pub fn damaged(mut bytes: Vec<u8>, random: &mut Random) -> Vec<u8> {
    for _ in 0..random.pick(&[1, 1, 2]) {
        let byte =
            if random.one_in(2) { random.byte() } else { random.pick(&[0, 1, 2, 3, 4, 5, b'a', b'.', 127, 128, 255]) };
        let at = random.below(bytes.len() + 1);
        match random.below(8) {
            0 => bytes.truncate(at),
            1 => bytes.insert(at, byte),
            2 if at < bytes.len() => {
                bytes.remove(at);
            }
            3 | 4 if at < bytes.len() => bytes[at] = bytes[at].wrapping_add(random.pick(&[1, 255])),
            _ if at < bytes.len() => bytes[at] = byte,
            _ => bytes.push(byte),
        }
    }
    bytes
}

/// A root byte and a path to look up: named in the plan, near to one that is, or any other; never with blanks.
pub fn attribute(random: &mut Random, plan: &Plan) -> (u8, Vec<u8>) {
    let attributes = plan.attributes();
    let root = random.pick(&[1, 2, 3, 1, 2, 3, 0, 4, 255]);
    if attributes.is_empty() || random.one_in(8) {
        return (root, path(random));
    }
    let (own_root, own_path) = attributes[random.below(attributes.len())].clone();
    match random.below(12) {
        0 | 1 => (root, own_path),
        2 => (own_root, own_path[..random.below(own_path.len())].to_vec()),
        3 => (own_root, [&own_path[..], random.pick(&["a", ".a", "-", "."]).as_bytes()].concat()),
        4 => (own_root, own_path.to_ascii_uppercase()),
        _ => (own_root, own_path),
    }
}

/// The path with blanks around some of its dots.
pub fn with_blanks(path: &[u8], random: &mut Random) -> Vec<u8> {
    let mut spread = Vec::new();
    for byte in path {
        if *byte == b'.' {
            if random.one_in(2) {
                put_blanks(&mut spread, random);
            }
            spread.push(b'.');
            if random.one_in(2) {
                put_blanks(&mut spread, random);
            }
        } else {
            spread.push(*byte);
        }
    }
    spread
}

#[cfg(test)]
mod tests {
    use super::*;
    use definitions::bags::read_bag;
    use definitions::questions::read_question;

    #[test]
    fn bags_and_questions_keep_the_rules() {
        let mut random = Random::new(81);
        for _ in 0..3_000 {
            let bytes = bag(&mut random).bytes();
            assert!(bytes.len() > 4_096 || read_bag(&bytes).is_some());
            let bytes = question(&mut random).bytes();
            assert!(bytes.len() > 4_096 || read_question(&bytes).is_some());
        }
    }

    #[test]
    fn many_plans_with_a_broken_rule_are_refused() {
        let mut random = Random::new(82);
        let mut refused = 0;
        for _ in 0..3_000 {
            let mut plan = question(&mut random);
            break_a_rule(&mut plan, &mut random);
            if read_question(&plan.bytes()).is_none() {
                refused += 1;
            }
        }
        assert!(refused > 1_500 && refused < 2_900, "{}", refused);
    }
}
