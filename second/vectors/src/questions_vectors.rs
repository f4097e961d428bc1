//! The question vectors: a question, and its rows and the places of its candidates.

use definitions::questions::read_question;
use definitions::tokens::RESERVED_WORDS;
use generators::bag_bytes::{break_a_rule, damaged, question, IMPOSSIBLE_PATHS, PATHS};
use generators::random::Random;
use generators::rich_bags::{arbitrary, bag_of_length, rich_bag, rich_question};

use crate::vector::Vector;

/// Columns in their form, and others that break it, after an empty base; the count of columns first.
const COLUMNS: [&[u8]; 34] = [
    &[],
    &[0],
    &[0, 0],
    &[1],
    &[1, 1, 1, b'a', 1, 0],
    &[1, 2, 1, b'a', 1, 0],
    &[1, 3, 1, b'a', 1, 0],
    &[1, 0, 1, b'a', 1, 0],
    &[1, 4, 1, b'a', 1, 0],
    &[1, 255, 1, b'a', 1, 0],
    &[1, 1, 1, b'a', 0],
    &[1, 1, 1, b'a', 0, 0],
    &[1, 1, 1, b'a', 1],
    &[1, 1, 1, b'a', 1, 0, 0],
    &[1, 1, 1, b'a', 2, 0],
    &[1, 1, 1, b'a', 2, 0, 0],
    &[1, 1, 1, b'a', 2, 3, 1, 3, 1],
    &[1, 1, 1, b'a', 2, 3, 1, 3, 0],
    &[1, 1, 1, b'a', 3, 3, 1, 3, 0, 3, 1],
    &[1, 1, 1, b'a', 3, 3, 1, 0, 3, 0],
    &[1, 1, 1, b'a', 2, 1, 0, 4, 0],
    &[1, 1, 1, b'a', 2, 4, 1, 1, 0, 4, 2, 0, 0],
    &[1, 1, 1, b'a', 2, 4, 1, 1, b'x', 1, 1, b'x'],
    &[1, 1, 1, b'a', 1, 5],
    &[1, 1, 1, b'a', 1, 1, 128],
    &[1, 1, 1, b'a', 1, 3, 2],
    &[1, 1, 0, 1, 0],
    &[2, 1, 1, b'a', 1, 0],
    &[2, 1, 1, b'a', 1, 0, 1, 1, b'a', 1, 0],
    &[2, 1, 1, b'a', 1, 0, 2, 1, b'a', 1, 0],
    &[2, 1, 1, b'b', 1, 0, 1, 1, b'a', 1, 0],
    &[2, 1, 1, b'a', 1, 0, 1, 1, b'a', 1, 3, 1],
    &[2, 1, 1, b'a', 1, 0, 1, 3, b'a', b'.', b'a', 1, 0],
    &[3, 1, 1, b'a', 1, 0, 2, 1, b'a', 1, 0, 1, 1, b'a', 2, 0, 3, 0],
];

/// The answer: 24, or the rows, and for each column the number of its candidates and the offsets of their kind bytes.
pub fn answer(vector: &Vector) -> String {
    match read_question(&vector[0]) {
        None => "24".to_string(),
        Some(question) => {
            let mut line = question.rows().to_string();
            for column in &question.columns {
                line.push_str(&format!(" {}", column.candidates.len()));
                for candidate in &column.candidates {
                    line.push_str(&format!(" {}", candidate.at));
                }
            }
            line
        }
    }
}

fn after_empty_base(columns: &[u8]) -> Vec<u8> {
    [&[0, 0, 0], columns].concat()
}

/// The vectors that are the same for every seed.
pub fn fixed() -> Vec<Vector> {
    let mut questions: Vec<Vec<u8>> = COLUMNS.iter().map(|columns| after_empty_base(columns)).collect();
    add_damaged_questions(&mut questions);
    add_paths(&mut questions);
    add_sizes(&mut questions);
    questions.into_iter().map(|question| vec![question]).collect()
}

/// The rich question cut at every length, with every byte changed or removed, and with something after it; bags.
fn add_damaged_questions(questions: &mut Vec<Vec<u8>>) {
    let bytes = rich_question().bytes();
    for at in 0..bytes.len() {
        questions.push(bytes[..at].to_vec());
        for change in [1, 255, 128, 32, 2, 254] {
            let mut changed = bytes.clone();
            changed[at] = changed[at].wrapping_add(change);
            questions.push(changed);
        }
        let mut removed = bytes.clone();
        removed.remove(at);
        questions.push(removed);
        let mut doubled = bytes.clone();
        doubled.insert(at, bytes[at]);
        questions.push(doubled);
    }
    questions.push([&bytes[..], &[0]].concat());
    questions.push(bytes);
    questions.push(rich_bag().bytes());
    questions.push([rich_bag().bytes(), vec![0]].concat());
    questions.push(vec![0, 0, 0]);
}

/// Possible and impossible paths as a column's path, and pairs of columns.
fn add_paths(questions: &mut Vec<Vec<u8>>) {
    let mut paths: Vec<Vec<u8>> =
        PATHS.iter().chain(&IMPOSSIBLE_PATHS).chain(&RESERVED_WORDS).map(|path| path.as_bytes().to_vec()).collect();
    for length in [63, 64, 65, 66] {
        paths.push(vec![b'w'; length]);
        paths.push(b"ab.".repeat(90)[..length].to_vec());
    }
    for path in &paths {
        let column = [&[2, path.len() as u8], &path[..], &[1, 0]].concat();
        questions.push(after_empty_base(&[&[1], &column[..]].concat()));
        for other in PATHS {
            let other = [&[2, other.len() as u8], other.as_bytes(), &[1, 0]].concat();
            questions.push(after_empty_base(&[&[2], &column[..], &other[..]].concat()));
        }
    }
}

/// 5 to 8 columns, 7 to 10 candidates, and questions of 4,096 and 4,097 bytes.
fn add_sizes(questions: &mut Vec<Vec<u8>>) {
    for columns in 0..=8 {
        for candidates in [1, 2, 7, 8, 9, 10, 255] {
            let mut bytes = vec![0, 0, 0, columns];
            for column in 0..columns {
                bytes.extend_from_slice(&[1, 1, b'z' - column, candidates]);
                for candidate in 0..candidates {
                    bytes.extend_from_slice(&[1, 1, candidate]);
                }
            }
            questions.push(bytes);
        }
    }
    for length in [4_090, 4_095, 4_096, 4_097] {
        for columns in [&[0][..], &[1, 1, 1, b'a', 2, 0, 3, 1], &[1, 1, 1, b'a', 2, 0, 3, 1, 0]] {
            questions.push([&bag_of_length(length - columns.len()), columns].concat());
        }
    }
    questions.push(vec![0; 4_096]);
}

/// A random vector.
pub fn random(random: &mut Random) -> Vector {
    let mut plan = question(random);
    let bytes = match random.below(20) {
        0..=7 => plan.bytes(),
        8..=13 => {
            break_a_rule(&mut plan, random);
            plan.bytes()
        }
        14..=18 => damaged(plan.bytes(), random),
        _ => arbitrary(random),
    };
    vec![bytes]
}

#[cfg(test)]
mod tests {
    use super::*;

    #[test]
    fn the_answer_is_a_line() {
        assert_eq!(answer(&vec![after_empty_base(&[0])]), "1");
        assert_eq!(answer(&vec![after_empty_base(&[])]), "24");
        assert_eq!(answer(&vec![after_empty_base(&[1, 1, 1, b'a', 2, 0, 3, 1])]), "2 2 8 9");
        assert_eq!(answer(&vec![after_empty_base(&[2, 1, 1, b'a', 2, 3, 1, 0, 2, 1, b'a', 1, 0])]), "2 2 8 10 1 15");
        assert!(answer(&vec![rich_question().bytes()]).starts_with("12 3 "));
    }

    #[test]
    fn both_answers_are_there() {
        let mut source = Random::new(92);
        let mut vectors = fixed();
        vectors.extend((0..4_000).map(|_| random(&mut source)));
        let refused = vectors.iter().filter(|vector| answer(vector) == "24").count();
        assert!(refused > 2_000 && refused < vectors.len() - 2_000, "{}", refused);
    }
}
