//! Questions: a base, columns with their candidates, and the rows' views of the attributes (01, "Bags and questions" and
//! "The sheet").

use crate::bags::{Bag, BagReader, Value, LONGEST_BAG};

/// A question has 0 to 6 columns.
pub const MOST_COLUMNS: u8 = 6;
/// A column has 1 to 8 candidates.
pub const MOST_CANDIDATES: u8 = 8;

/// A question: the three sections of a bag, and the columns.
#[derive(PartialEq, Debug)]
pub struct Question {
    pub base: Bag,
    pub columns: Vec<Column>,
}

/// A column names an attribute by root byte and path.
#[derive(PartialEq, Debug)]
pub struct Column {
    pub root: u8,
    pub path: Vec<u8>,
    pub candidates: Vec<Candidate>,
}

/// A candidate: the offset of its kind byte, and its value, or nothing if it is absent (kind 0).
#[derive(PartialEq, Debug)]
pub struct Candidate {
    pub at: usize,
    pub value: Option<Value>,
}

impl Question {
    /// 01, "The sheet": rows are over all choices; no columns give one row.
    pub fn rows(&self) -> usize {
        self.columns.iter().map(|column| column.candidates.len()).product()
    }

    /// 01, "The sheet": the choices of a row, the first column slowest.
    pub fn choices_of(&self, row: usize) -> Vec<usize> {
        let mut choices = Vec::new();
        let mut rest = row;
        for column in self.columns.iter().rev() {
            choices.push(rest % column.candidates.len());
            rest /= column.candidates.len();
        }
        choices.reverse();
        choices
    }

    /// 01, "The sheet": a row's bag is the base with each column's attribute set to its choice or removed.
    pub fn look_up(&self, choices: &[usize], root: u8, path: &[u8]) -> Option<&Value> {
        for (column, choice) in self.columns.iter().zip(choices) {
            if column.root == root && column.path == path {
                return column.candidates[*choice].value.as_ref();
            }
        }
        self.base.look_up(root, path)
    }
}

/// A question out of its bytes, or nothing if they are not a question (refusal 24).
pub fn read_question(bytes: &[u8]) -> Option<Question> {
    if bytes.len() > LONGEST_BAG {
        return None;
    }
    let mut reader = BagReader { bytes, at: 0 };
    let base = reader.sections()?;
    let mut columns: Vec<Column> = Vec::new();
    for _ in 0..reader.byte_up_to(MOST_COLUMNS)? {
        let column = read_column(&mut reader)?;
        // No two columns name the same root and path.
        if columns.iter().any(|other| other.root == column.root && other.path == column.path) {
            return None;
        }
        columns.push(column);
    }
    if reader.is_at_end() {
        Some(Question { base, columns })
    } else {
        None
    }
}

/// A root byte (1 to 3), path length, path, a count byte of 1 to 8 candidates, and these.
fn read_column(reader: &mut BagReader) -> Option<Column> {
    let root = reader.byte()?;
    if !(1..=3).contains(&root) {
        return None;
    }
    let path = reader.path()?;
    let count = reader.byte()?;
    if !(1..=MOST_CANDIDATES).contains(&count) {
        return None;
    }
    let mut candidates = Vec::new();
    let mut written: Vec<&[u8]> = Vec::new();
    for _ in 0..count {
        let at = reader.at;
        let value = match reader.byte()? {
            0 => None,
            kind => Some(reader.value(kind)?),
        };
        // No two candidates of one column have the same bytes, the kind byte included.
        let bytes = &reader.bytes[at..reader.at];
        if written.contains(&bytes) {
            return None;
        }
        written.push(bytes);
        candidates.push(Candidate { at, value });
    }
    Some(Column { root, path, candidates })
}

#[cfg(test)]
mod tests {
    use super::*;
    use crate::bags::Content;

    /// A question with an empty base and these bytes of columns, their count first.
    fn columns(bytes: &[u8]) -> Option<Question> {
        read_question(&[&[0, 0, 0], bytes].concat())
    }

    fn is_question(bytes: &[u8]) -> bool {
        columns(bytes).is_some()
    }

    #[test]
    fn the_least_question_has_4_bytes() {
        assert_eq!(columns(&[0]).unwrap().rows(), 1);
        assert!(read_question(&[0, 0, 0]).is_none());
        assert!(!is_question(&[0, 0]));
        assert!(!is_question(&[1]));
    }

    #[test]
    fn columns_have_this_form() {
        assert!(is_question(&[1, 1, 1, b'a', 1, 0]));
        for root in [0, 4, 255] {
            assert!(!is_question(&[1, root, 1, b'a', 1, 0]));
        }
        assert!(is_question(&[1, 3, 1, b'a', 1, 3, 1]));
        assert!(!is_question(&[1, 1, 1, b'a', 0]));
        assert!(!is_question(&[1, 1, 1, b'a', 1, 5]));
        assert!(!is_question(&[1, 1, 0, 1, 0]));
        assert!(!is_question(&[1, 1, 1, b'1', 1, 0]));
        assert!(!is_question(&[1, 1, 2, b'i', b'f', 1, 0]));
        assert!(!is_question(&[1, 1, 1, b'a', 2, 0]));
        assert!(!is_question(&[2, 1, 1, b'a', 1, 0]));
    }

    #[test]
    fn there_are_6_columns_of_8_candidates() {
        let column = |name: u8, count: u8| {
            let mut column = vec![1, 1, name, count];
            for candidate in 0..count {
                column.extend_from_slice(&[1, 1, candidate]);
            }
            column
        };
        let question = |names: &[u8], count: u8| {
            let all: Vec<u8> = names.iter().flat_map(|name| column(*name, count)).collect();
            columns(&[&[names.len() as u8], &all[..]].concat()).map(|question| question.rows())
        };
        assert_eq!(question(b"fedcba", 8), Some(262_144));
        assert_eq!(question(b"gfedcba", 8), None);
        assert_eq!(question(b"a", 9), None);
    }

    #[test]
    fn columns_and_candidates_differ() {
        let two = |first: (u8, u8), second: (u8, u8)| {
            is_question(&[2, first.0, 1, first.1, 1, 0, second.0, 1, second.1, 1, 0])
        };
        assert!(two((1, b'a'), (1, b'b')));
        assert!(two((1, b'b'), (1, b'a')));
        assert!(two((1, b'a'), (2, b'a')));
        assert!(!two((1, b'a'), (1, b'a')));
        let candidates = |count: u8, bytes: &[u8]| is_question(&[&[1, 1, 1, b'a', count], bytes].concat());
        assert!(candidates(2, &[0, 1, 0]));
        assert!(!candidates(2, &[0, 0]));
        assert!(!candidates(3, &[0, 3, 1, 0]));
        // The kind byte counts: an empty string and an empty list.
        assert!(candidates(2, &[1, 0, 4, 0]));
        assert!(candidates(2, &[3, 0, 3, 1]));
        assert!(!candidates(2, &[3, 1, 3, 1]));
        // 0 and -0 are two choices.
        let zero = [2, 0, 0, 0, 0, 0, 0, 0, 0];
        let minus_zero = [2, 0, 0, 0, 0, 0, 0, 0, 0x80];
        assert!(candidates(2, &[zero, minus_zero].concat()));
        assert!(!candidates(2, &[zero, zero].concat()));
        // Lists with the same strings, cut otherwise.
        assert!(candidates(2, &[4, 1, 1, 0, 4, 2, 0, 0]));
    }

    #[test]
    fn rows_count_with_the_first_column_slowest() {
        let question = columns(&[2, 1, 1, b'a', 2, 0, 3, 1, 3, 1, b'a', 3, 0, 3, 0, 3, 1]).unwrap();
        assert_eq!(question.rows(), 6);
        let choices: Vec<Vec<usize>> = (0..6).map(|row| question.choices_of(row)).collect();
        assert_eq!(choices, vec![vec![0, 0], vec![0, 1], vec![0, 2], vec![1, 0], vec![1, 1], vec![1, 2]]);
        let places: Vec<usize> =
            question.columns.iter().flat_map(|column| &column.candidates).map(|candidate| candidate.at).collect();
        assert_eq!(places, vec![8, 9, 15, 16, 18]);
        assert_eq!(columns(&[0]).unwrap().choices_of(0), Vec::<usize>::new());
    }

    #[test]
    fn a_row_sets_or_removes_its_attributes() {
        // Base: principal.a = true, principal.b = true; columns principal.a (absent, "x"), resource.b (false).
        let bytes = [2, 1, b'a', 3, 1, 1, b'b', 3, 1, 0, 0, 2, 1, 1, b'a', 2, 0, 1, 1, b'x', 2, 1, b'b', 1, 3, 0];
        let question = read_question(&bytes).unwrap();
        let content = |choices: &[usize], root: u8, path: &[u8]| {
            question.look_up(choices, root, path).map(|value| value.content.clone())
        };
        assert_eq!(content(&[0, 0], 1, b"a"), None);
        assert_eq!(content(&[1, 0], 1, b"a"), Some(Content::String(b"x".to_vec())));
        assert_eq!(content(&[0, 0], 1, b"b"), Some(Content::Flag(true)));
        assert_eq!(content(&[0, 0], 2, b"b"), Some(Content::Flag(false)));
        assert_eq!(content(&[1, 0], 2, b"a"), None);
        assert_eq!(content(&[1, 0], 0, b"a"), None);
        assert_eq!(content(&[1, 0], 4, b"a"), None);
    }
}
