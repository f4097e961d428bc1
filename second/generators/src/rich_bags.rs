//! A bag and a question with every kind of value, bags of a given length, and arbitrary bytes.

use definitions::plans::{list_value, number_value, string_value, Column, Entry, Plan};

use crate::random::Random;

/// A bag with these entries in the principal section.
pub fn bag_of(entries: &[(&[u8], Vec<u8>)]) -> Vec<u8> {
    in_section(0, entries)
}

/// A bag with these entries in one section.
pub fn in_section(index: usize, entries: &[(&[u8], Vec<u8>)]) -> Vec<u8> {
    let mut plan = Plan { sections: [Vec::new(), Vec::new(), Vec::new()], columns: None };
    plan.sections[index] =
        entries.iter().map(|(path, value)| Entry { path: path.to_vec(), value: value.clone() }).collect();
    plan.bytes()
}

/// A bag with every kind of value.
pub fn rich_bag() -> Plan {
    let entry = |path: &str, value: Vec<u8>| Entry { path: path.as_bytes().to_vec(), value };
    let principal = vec![
        entry("a", string_value(b"xyz")),
        entry("a-b", string_value(b"")),
        entry("a.b", number_value(0x8000_0000_0000_0000)),
        entry("a0", vec![3, 1]),
        entry("aa", list_value(&[b"own".to_vec(), b"".to_vec()])),
    ];
    let resource = vec![entry("a", vec![3, 0]), entry("b.c", number_value(0x3FB9_9999_9999_999A))];
    let env = vec![entry("a", list_value(&[])), entry("z", string_value(b"\x00\xff\""))];
    Plan { sections: [principal, resource, env], columns: None }
}

/// A question with the rich bag as base and columns of every kind.
pub fn rich_question() -> Plan {
    let mut plan = rich_bag();
    let column =
        |root: u8, path: &str, candidates: Vec<Vec<u8>>| Column { root, path: path.as_bytes().to_vec(), candidates };
    plan.columns = Some(vec![
        column(2, "a.b", vec![vec![0], number_value(0), number_value(0x8000_0000_0000_0000)]),
        column(1, "a", vec![string_value(b"own"), vec![0]]),
        column(3, "z", vec![list_value(&[b"x".to_vec()]), string_value(b"")]),
        column(1, "a.c", vec![vec![3, 1]]),
    ]);
    plan
}

/// The rich question cut off and changed at each byte, as it is, and longer; other bytes that are short or long.
pub fn cut_and_changed_questions() -> Vec<Vec<u8>> {
    let bytes = rich_question().bytes();
    let mut questions = Vec::new();
    for at in 0..bytes.len() {
        questions.push(bytes[..at].to_vec());
        let mut changed = bytes.clone();
        changed[at] = changed[at].wrapping_add(1);
        questions.push(changed);
    }
    questions.push(bytes.clone());
    questions.push([&bytes[..], &[0]].concat());
    questions.push(vec![0; 4_097]);
    for question in [&[][..], &[0, 0, 0], &[0, 0, 0, 0], &[0, 0, 0, 0, 0], &[0, 0, 0, 7], &[0, 0, 0, 1]] {
        questions.push(question.to_vec());
    }
    questions
}

/// A bag of this length (about 4,096) that keeps all other rules.
pub fn bag_of_length(length: usize) -> Vec<u8> {
    let names: Vec<String> = (0..31).map(|index| format!("p{:02}", index)).collect();
    let mut entries: Vec<(&[u8], Vec<u8>)> =
        names.iter().map(|name| (name.as_bytes(), string_value(&[b's'; 127]))).collect();
    entries[30].1 = string_value(b"");
    let left = length - bag_of(&entries).len();
    entries[30].1 = string_value(&vec![b'x'; left]);
    bag_of(&entries)
}

/// A few bytes, which are small numbers or letters rather than others.
pub fn arbitrary(random: &mut Random) -> Vec<u8> {
    let choices = random.pick(&[&[0, 0, 0, 1, 1, 3, b'a'][..], &[0, 1, 2, 3, 4, b'a', b'b', b'.', 255], &[0]]);
    let length = random.between(0, 14);
    (0..length).map(|_| if random.one_in(10) { random.byte() } else { random.pick(choices) }).collect()
}
