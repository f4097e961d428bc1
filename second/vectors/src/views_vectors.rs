//! The view vectors: a question, a row's choices and an attribute, and its value in that row.

use definitions::bags::path_without_blanks;
use definitions::plans::Plan;
use definitions::questions::read_question;
use generators::bag_bytes::{attribute, break_a_rule, damaged, question, with_blanks, PATHS};
use generators::random::Random;
use generators::rich_bags::rich_question;

use crate::vector::{sum_of, Vector};

/// A vector has the choices of six columns; those of columns that are not there are 0.
const CHOICES: usize = 6;

fn vector(question: &[u8], choices: &[u8], root: u8, path: &[u8]) -> Vector {
    let mut all = choices.to_vec();
    all.resize(CHOICES, 0);
    vec![question.to_vec(), all, vec![root], path.to_vec()]
}

/// The answer: 24, or the value's kind and its number's bits, and for a string or a list the sum of its bytes.
pub fn answer(vector: &Vector) -> String {
    let bytes = &vector[0];
    let question = match read_question(bytes) {
        None => return "24".to_string(),
        Some(question) => question,
    };
    let choices: Vec<usize> = vector[1].iter().map(|choice| usize::from(*choice)).collect();
    match question.look_up(&choices, vector[2][0], &path_without_blanks(&vector[3])) {
        None => format!("0 {:016x}", 0),
        Some(value) => {
            let bits = value.number().to_bits();
            match value.kind() {
                1 | 4 => format!("{} {:016x} {}", value.kind(), bits, sum_of(&bytes[value.place..value.end])),
                kind => format!("{} {:016x}", kind, bits),
            }
        }
    }
}

/// The vectors that are the same for every seed: every attribute and some others in every row of the rich question, with
/// and without blanks; and rows of questions that are none.
pub fn fixed() -> Vec<Vector> {
    let mut vectors = Vec::new();
    let plan = rich_question();
    let bytes = plan.bytes();
    let mut attributes = plan.attributes();
    for path in PATHS.iter().chain(&["z.a", "b.c", "a.c", "a..b", "if", ""]) {
        for root in [0, 1, 2, 3, 4, 255] {
            attributes.push((root, path.as_bytes().to_vec()));
        }
    }
    for choices in all_choices(&plan) {
        for (root, path) in &attributes {
            vectors.push(vector(&bytes, &choices, *root, path));
        }
    }
    for path in ["a .b", "a. b", "a . b", "a\n.\t\r b", "a \n\n . c", "a  .  b"] {
        for root in [1, 2] {
            for choices in all_choices(&plan) {
                vectors.push(vector(&bytes, &choices, root, path.as_bytes()));
            }
        }
    }
    for length in 0..bytes.len() {
        vectors.push(vector(&bytes[..length], &[], 1, b"a"));
    }
    vectors
}

/// The choices of all rows.
fn all_choices(plan: &Plan) -> Vec<Vec<u8>> {
    let mut all = vec![Vec::new()];
    for column in plan.columns.iter().flatten() {
        let mut longer = Vec::new();
        for choices in &all {
            for choice in 0..column.candidates.len() {
                longer.push([&choices[..], &[choice as u8]].concat());
            }
        }
        all = longer;
    }
    all
}

/// A random vector.
pub fn random(random: &mut Random) -> Vector {
    let mut plan = question(random);
    let columns = plan.columns.clone().unwrap_or_default();
    let choices: Vec<u8> = columns.iter().map(|column| random.below(column.candidates.len()) as u8).collect();
    let (root, path) = if !columns.is_empty() && random.one_in(3) {
        let column = &columns[random.below(columns.len())];
        (column.root, column.path.clone())
    } else {
        attribute(random, &plan)
    };
    let path = if is_well_formed(&path) && random.one_in(3) { with_blanks(&path, random) } else { path };
    match random.below(16) {
        0 => {
            break_a_rule(&mut plan, random);
            only_if_refused(plan.bytes(), &choices, root, &path)
        }
        1 => only_if_refused(damaged(plan.bytes(), random), &choices, root, &path),
        _ => vector(&plan.bytes(), &choices, root, &path),
    }
}

/// Blanks stand between names and dots: not where a name is missing.
fn is_well_formed(path: &[u8]) -> bool {
    path.split(|byte| *byte == b'.').all(|name| !name.is_empty())
}

/// The vector; if the question turned out to be one, all choices are the first candidates.
fn only_if_refused(question: Vec<u8>, choices: &[u8], root: u8, path: &[u8]) -> Vector {
    match read_question(&question) {
        None => vector(&question, choices, root, path),
        Some(_) => vector(&question, &[], root, path),
    }
}

#[cfg(test)]
mod tests {
    use super::*;

    #[test]
    fn the_answer_is_a_line() {
        let bytes = rich_question().bytes();
        let own = sum_of(b"\x03own");
        assert_eq!(answer(&vector(&bytes, &[0, 0, 0, 0], 1, b"a")), format!("1 0000000000000000 {}", own));
        assert_eq!(answer(&vector(&bytes, &[0, 1, 0, 0], 1, b"a")), "0 0000000000000000");
        assert_eq!(answer(&vector(&bytes, &[0, 0, 0, 0], 2, b"a . b")), "0 0000000000000000");
        assert_eq!(answer(&vector(&bytes, &[1, 0, 0, 0], 2, b"a . b")), "2 0000000000000000");
        assert_eq!(answer(&vector(&bytes, &[2, 0, 0, 0], 2, b"a\n.b")), "2 8000000000000000");
        assert_eq!(answer(&vector(&bytes, &[0, 0, 0, 0], 1, b"a.b")), "2 8000000000000000");
        assert_eq!(answer(&vector(&bytes, &[0, 0, 1, 0], 3, b"z")), "1 0000000000000000 0");
        assert_eq!(answer(&vector(&bytes[1..], &[], 3, b"z")), "24");
    }

    #[test]
    fn each_choice_is_below_its_columns_count() {
        let mut source = Random::new(93);
        let mut vectors = fixed();
        vectors.extend((0..5_000).map(|_| random(&mut source)));
        for vector in vectors {
            assert_eq!(vector[1].len(), 6);
            if let Some(question) = read_question(&vector[0]) {
                for (index, choice) in vector[1].iter().enumerate() {
                    let count = question.columns.get(index).map_or(1, |column| column.candidates.len());
                    assert!(usize::from(*choice) < count);
                }
            }
        }
    }

    #[test]
    fn every_kind_of_answer_is_there() {
        let mut source = Random::new(94);
        let answers: Vec<String> = (0..4_000).map(|_| answer(&random(&mut source))).collect();
        for start in ["24", "0 ", "1 ", "2 ", "3 ", "4 "] {
            assert!(answers.iter().filter(|line| line.starts_with(start)).count() >= 100, "{}", start);
        }
    }
}
