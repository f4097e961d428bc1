//! The bag vectors: a bag, a root byte and a path, and what the look-up gives.

use definitions::bags::look_up;
use definitions::plans::{list_value, string_value};
use definitions::tokens::RESERVED_WORDS;
use generators::bag_bytes::{attribute, bag, break_a_rule, damaged, IMPOSSIBLE_PATHS, PATHS};
use generators::random::Random;
use generators::rich_bags::{arbitrary, bag_of, bag_of_length, in_section, rich_bag};

use crate::vector::{sum_of, Vector};

/// The root bytes that are looked up in the fixed vectors.
const ROOTS: [u8; 6] = [0, 1, 2, 3, 4, 255];

/// Values in their forms, and others that break them.
const VALUES: [&[u8]; 34] = [
    &[0],
    &[0, 0],
    &[1],
    &[1, 0],
    &[1, 0, 0],
    &[1, 1, b'"'],
    &[1, 1, 0],
    &[1, 2, 255],
    &[1, 2, 255, 128],
    &[2, 0, 0, 0, 0, 0, 0, 0, 0],
    &[2, 0, 0, 0, 0, 0, 0, 0],
    &[2, 0, 0, 0, 0, 0, 0, 0, 0, 0],
    &[2, 0, 0, 0, 0, 0, 0, 0, 0x80],
    &[2, 0, 0, 0, 0, 0, 0, 0xF0, 0x7F],
    &[2, 0, 0, 0, 0, 0, 0, 0xF0, 0xFF],
    &[2, 255, 255, 255, 255, 255, 255, 0xEF, 0x7F],
    &[2, 1, 0, 0, 0, 0, 0, 0xF0, 0x7F],
    &[2, 0, 0, 0, 0, 0, 0, 0xF8, 0xFF],
    &[3],
    &[3, 0],
    &[3, 1],
    &[3, 2],
    &[3, 255],
    &[3, 1, 1],
    &[4],
    &[4, 0],
    &[4, 1],
    &[4, 1, 0],
    &[4, 1, 1],
    &[4, 2, 0, 1, b'x'],
    &[4, 1, 1, b'x', 0],
    &[5, 0],
    &[17, 0],
    &[255, 0],
];

fn vector(bag: &[u8], root: u8, path: &[u8]) -> Vector {
    vec![bag.to_vec(), vec![root], path.to_vec()]
}

/// The answer: 24, or kind, the number's bits, place, and the string part's length and the sum of its bytes.
pub fn answer(vector: &Vector) -> String {
    let bag = &vector[0];
    match look_up(bag, vector[1][0], &vector[2]) {
        None => "24".to_string(),
        Some(found) => {
            let bits = found.number.to_bits();
            let part = &bag[found.part_start..found.part_start + found.part_length];
            format!("{} {:016x} {} {} {}", found.kind, bits, found.place, part.len(), sum_of(part))
        }
    }
}

/// The vectors that are the same for every seed.
pub fn fixed() -> Vec<Vector> {
    let mut vectors = Vec::new();
    add_look_ups(&mut vectors);
    add_damaged_bags(&mut vectors);
    add_values(&mut vectors);
    add_paths(&mut vectors);
    add_orders(&mut vectors);
    add_sizes(&mut vectors);
    vectors
}

/// Every attribute, and others, under every root byte; and 24 before all else.
fn add_look_ups(vectors: &mut Vec<Vector>) {
    let plan = rich_bag();
    let bytes = plan.bytes();
    let mut paths: Vec<Vec<u8>> = plan.attributes().into_iter().map(|attribute| attribute.1).collect();
    for path in PATHS.iter().chain(&IMPOSSIBLE_PATHS).chain(&["b.c.d", "b", "b.", "B.c", "action"]) {
        paths.push(path.as_bytes().to_vec());
    }
    paths.push(vec![b'w'; 64]);
    paths.push(vec![b'w'; 65]);
    paths.push(b"a.".repeat(40));
    for path in &paths {
        for root in ROOTS {
            vectors.push(vector(&bytes, root, path));
        }
        vectors.push(vector(&bytes[1..], 9, path));
        vectors.push(vector(&[0, 0, 0], 1, path));
    }
    for root in 0..=255 {
        vectors.push(vector(&bytes, root, b"a"));
    }
}

/// The rich bag cut at every length, with every byte changed, and with something after it.
fn add_damaged_bags(vectors: &mut Vec<Vector>) {
    let bytes = rich_bag().bytes();
    for at in 0..bytes.len() {
        vectors.push(vector(&bytes[..at], 1, b"a"));
        for change in [1, 255, 128, 32] {
            let mut changed = bytes.clone();
            changed[at] = changed[at].wrapping_add(change);
            vectors.push(vector(&changed, 1, b"a.b"));
        }
        let mut removed = bytes.clone();
        removed.remove(at);
        vectors.push(vector(&removed, 1, b"a"));
    }
    for bytes in [&[][..], &[0], &[0, 0], &[0, 0, 0], &[0, 0, 0, 0], &[0, 0, 1], &[33, 0, 0], &[0, 255, 0]] {
        vectors.push(vector(bytes, 1, b"a"));
    }
    for more in [&[0][..], &[0, 0], &[1], &[255]] {
        vectors.push(vector(&[&bytes, more].concat(), 1, b"a"));
    }
}

/// Every value in every section.
fn add_values(vectors: &mut Vec<Vector>) {
    for value in VALUES {
        for index in 0..3 {
            let bytes = in_section(index, &[(b"a", value.to_vec())]);
            vectors.push(vector(&bytes, index as u8 + 1, b"a"));
        }
        let bytes = bag_of(&[(b"a", value.to_vec()), (b"b", vec![3, 1])]);
        vectors.push(vector(&bytes, 1, b"b"));
    }
    for length in [0, 1, 126, 127, 128, 129, 255] {
        let string = vec![b's'; length];
        for value in [string_value(&string), list_value(&[b"x".to_vec(), string])] {
            vectors.push(vector(&bag_of(&[(b"a", value)]), 1, b"a"));
        }
    }
    for count in [0, 1, 15, 16, 17, 18, 255] {
        for string in [b"".to_vec(), b"x".to_vec()] {
            let bytes = bag_of(&[(b"a", list_value(&vec![string; count])), (b"b", vec![3, 0])]);
            vectors.push(vector(&bytes, 1, b"a"));
            vectors.push(vector(&bytes, 1, b"b"));
        }
    }
}

/// Possible and impossible paths as an entry's path, each looked up too.
fn add_paths(vectors: &mut Vec<Vector>) {
    let mut paths: Vec<Vec<u8>> = PATHS.iter().chain(&IMPOSSIBLE_PATHS).map(|path| path.as_bytes().to_vec()).collect();
    for word in RESERVED_WORDS {
        for path in [word.to_string(), format!("a.{}", word), format!("{}.a", word), format!("{}s", word)] {
            paths.push(path.into_bytes());
        }
        paths.push(word.to_ascii_uppercase().into_bytes());
    }
    for length in [63, 64, 65, 66, 128, 255] {
        paths.push(vec![b'w'; length]);
        paths.push(b"w.".repeat(130)[..length].to_vec());
        paths.push(b"ab.".repeat(90)[..length].to_vec());
    }
    for byte in 0..=255 {
        paths.push(vec![byte]);
        paths.push(vec![b'a', byte, b'b']);
    }
    for path in paths {
        vectors.push(vector(&bag_of(&[(&path, vec![3, 1])]), 1, &path));
    }
}

/// Every two paths in both orders.
fn add_orders(vectors: &mut Vec<Vector>) {
    for first in PATHS {
        for second in PATHS {
            let bytes = bag_of(&[(first.as_bytes(), vec![3, 0]), (second.as_bytes(), vec![3, 1])]);
            vectors.push(vector(&bytes, 1, second.as_bytes()));
        }
    }
}

/// Sections of 32 and 33 entries, and bags of 4,096 and 4,097 bytes.
fn add_sizes(vectors: &mut Vec<Vector>) {
    let names: Vec<String> = (0..40).map(|index| format!("p{:02}", index)).collect();
    for index in 0..3 {
        for count in [31, 32, 33, 34] {
            let entries: Vec<(&[u8], Vec<u8>)> =
                names[..count].iter().map(|name| (name.as_bytes(), vec![3, 1])).collect();
            let bytes = in_section(index, &entries);
            vectors.push(vector(&bytes, index as u8 + 1, names[count - 1].as_bytes()));
            vectors.push(vector(&bytes, index as u8 + 1, b"p00"));
        }
    }
    for length in [4_094, 4_095, 4_096, 4_097, 4_098] {
        let bytes = bag_of_length(length);
        vectors.push(vector(&bytes, 1, b"p00"));
        vectors.push(vector(&bytes, 1, b"p30"));
        vectors.push(vector(&bytes, 1, b"p31"));
    }
    vectors.push(vector(&[0; 4_096], 1, b"a"));
    vectors.push(vector(&[0; 4_200], 1, b"a"));
}

/// A random vector.
pub fn random(random: &mut Random) -> Vector {
    let mut plan = bag(random);
    let (root, path) = attribute(random, &plan);
    let bytes = match random.below(20) {
        0..=11 => plan.bytes(),
        12..=14 => {
            break_a_rule(&mut plan, random);
            plan.bytes()
        }
        15..=18 => damaged(plan.bytes(), random),
        _ => arbitrary(random),
    };
    vector(&bytes, root, &path)
}

#[cfg(test)]
mod tests {
    use super::*;
    use definitions::bags::read_bag;

    #[test]
    fn the_answer_is_a_line() {
        let bytes = rich_bag().bytes();
        assert_eq!(answer(&vector(&bytes, 1, b"a")), "1 0000000000000000 4 3 119193");
        assert_eq!(answer(&vector(&bytes, 1, b"a-b")), "1 0000000000000000 13 0 0");
        assert_eq!(answer(&vector(&bytes, 1, b"a.b")), "2 8000000000000000 19 0 0");
        assert_eq!(answer(&vector(&bytes, 1, b"a0")), "3 3ff0000000000000 31 0 0");
        assert_eq!(answer(&vector(&bytes, 1, b"a1")), "0 0000000000000000 0 0 0");
        assert_eq!(answer(&vector(&bytes[1..], 1, b"a")), "24");
    }

    #[test]
    fn bags_have_the_length_that_is_wanted() {
        for length in [4_000, 4_096, 4_097] {
            let bytes = bag_of_length(length);
            assert_eq!(bytes.len(), length);
            assert_eq!(read_bag(&bytes).is_some(), length <= 4_096);
        }
    }

    #[test]
    fn every_kind_of_answer_is_there() {
        let mut source = Random::new(91);
        let answers: Vec<String> = (0..4_000).map(|_| answer(&random(&mut source))).collect();
        for start in ["24", "0 ", "1 ", "2 ", "3 ", "4 "] {
            assert!(answers.iter().filter(|line| line.starts_with(start)).count() >= 100, "{}", start);
        }
    }
}
