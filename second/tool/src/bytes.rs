//! A question or a bag read from its bytes, or what is wrong with them and at which byte.

use definitions::bags::{is_path, Content, LONGEST_BAG, LONGEST_STRING, MOST_ENTRIES, MOST_STRINGS};
use definitions::compile::LONGEST_PATH;
use definitions::numbers::finite_number;
use definitions::questions::{MOST_CANDIDATES, MOST_COLUMNS};

use crate::form::{attribute, bytes_of_candidate, Column, Form, Section, ROOTS};
use crate::words::{count_of, grouped, ordinal};
use crate::writing::quoted;

/// What is wrong, and the offset of the byte, from 0.
#[derive(PartialEq, Debug)]
pub struct BadByte {
    pub at: usize,
    pub what: String,
}

/// A question or a bag, whichever the bytes are: a bag ends after its sections, a question has its columns there.
pub fn read_bytes(bytes: &[u8]) -> Result<Form, BadByte> {
    let mut reader = Reader { bytes, at: 0 };
    if bytes.len() > LONGEST_BAG {
        let what = format!(
            "a bag or question has at most {} bytes, and this file has {}",
            grouped(LONGEST_BAG),
            grouped(bytes.len())
        );
        return Err(BadByte { at: LONGEST_BAG, what });
    }
    let mut form = Form::default();
    for (root, section) in form.sections.iter_mut().enumerate() {
        *section = reader.section(root)?;
    }
    if reader.at < bytes.len() {
        form.columns = Some(reader.columns()?);
    }
    if reader.at < bytes.len() {
        let left = count_of(bytes.len() - reader.at, "byte follows", "bytes follow");
        return reader.wrong(format!("the question ends before this byte, but {}", left));
    }
    Ok(form)
}

struct Reader<'a> {
    bytes: &'a [u8],
    at: usize,
}

impl<'a> Reader<'a> {
    fn wrong<T>(&self, what: String) -> Result<T, BadByte> {
        Err(BadByte { at: self.at, what })
    }

    /// Go back to `at`, where the wrong thing begins.
    fn wrong_at<T>(&self, at: usize, what: String) -> Result<T, BadByte> {
        Err(BadByte { at, what })
    }

    /// The next `count` bytes, which are `part`.
    fn take(&mut self, count: usize, part: &str) -> Result<&'a [u8], BadByte> {
        match self.bytes.get(self.at..self.at + count) {
            Some(taken) => {
                self.at += count;
                Ok(taken)
            }
            None => {
                let missing = self.at + count - self.bytes.len();
                let at = self.bytes.len();
                let missing = count_of(missing, "byte", "bytes");
                self.wrong_at(at, format!("the file ends here, and {} of {} should follow", missing, part))
            }
        }
    }

    fn byte(&mut self, part: &str) -> Result<u8, BadByte> {
        Ok(self.take(1, part)?[0])
    }

    /// A count or length byte from `least` to `most`.
    fn count(&mut self, least: u8, most: u8, part: &str) -> Result<usize, BadByte> {
        let count = self.byte(part)?;
        if (least..=most).contains(&count) {
            Ok(usize::from(count))
        } else {
            self.wrong_at(self.at - 1, format!("{} is {}; expected {} to {}", part, count, least, most))
        }
    }

    /// A count byte and the entries, which ascend by their paths.
    fn section(&mut self, root: usize) -> Result<Section, BadByte> {
        let mut section = Section::new();
        let mut last: Option<Vec<u8>> = None;
        for _ in 0..self.count(0, MOST_ENTRIES, &format!("the count of the section {}", ROOTS[root]))? {
            let start = self.at;
            let path = self.path()?;
            if let Some(last) = last.filter(|last| *last >= path) {
                let name = attribute(root, &path);
                let what = if last == path {
                    format!("{} stands twice in its section", name)
                } else {
                    format!(
                        "{} stands after {}; entries ascend by the bytes of their paths",
                        name,
                        attribute(root, &last)
                    )
                };
                return self.wrong_at(start, what);
            }
            let kind = self.byte("a kind")?;
            let value = self.value(kind, "")?;
            section.insert(path.clone(), value);
            last = Some(path);
        }
        Ok(section)
    }

    /// A length byte and the path.
    fn path(&mut self) -> Result<Vec<u8>, BadByte> {
        let length = self.count(1, LONGEST_PATH as u8, "the length of a path")?;
        let start = self.at;
        let path = self.take(length, "a path")?;
        if is_path(path) {
            return Ok(path.to_vec());
        }
        let shown = quoted(path);
        self.wrong_at(start, format!("{} is no path; expected names joined by dots, none a reserved word", shown))
    }

    /// The value of a kind from 1 to 4; `or_absent` is said of the kinds that are expected too.
    fn value(&mut self, kind: u8, or_absent: &str) -> Result<Content, BadByte> {
        let start = self.at;
        match kind {
            1 => Ok(Content::String(self.string()?)),
            2 => {
                let mut number = [0; 8];
                number.copy_from_slice(self.take(8, "a number")?);
                match finite_number(number) {
                    Some(number) => Ok(Content::Number(number)),
                    None => self.wrong_at(start, "these 8 bytes are no finite number".to_string()),
                }
            }
            3 => Ok(Content::Flag(self.count(0, 1, "a flag")? == 1)),
            4 => {
                let count = self.count(0, MOST_STRINGS, "the count of a list")?;
                let strings = (0..count).map(|_| self.string());
                Ok(Content::List(strings.collect::<Result<_, _>>()?))
            }
            _ => {
                let what = format!("kind {}; expected {}1 string, 2 number, 3 flag or 4 list", kind, or_absent);
                self.wrong_at(start - 1, what)
            }
        }
    }

    fn string(&mut self) -> Result<Vec<u8>, BadByte> {
        let length = self.count(0, LONGEST_STRING, "the length of a string")?;
        Ok(self.take(length, "a string")?.to_vec())
    }

    /// A count byte and the columns, which name different attributes.
    fn columns(&mut self) -> Result<Vec<Column>, BadByte> {
        let mut columns: Vec<Column> = Vec::new();
        for _ in 0..self.count(0, MOST_COLUMNS, "the count of columns")? {
            let start = self.at;
            let column = self.column()?;
            if columns.iter().any(|other| other.root == column.root && other.path == column.path) {
                return self.wrong_at(start, format!("{} is a column already", column.name()));
            }
            columns.push(column);
        }
        Ok(columns)
    }

    /// Root byte, path, count and candidates, whose bytes differ.
    fn column(&mut self) -> Result<Column, BadByte> {
        let root = self.byte("a column")?;
        if !(1..=3).contains(&root) {
            let what = format!("root {}; expected 1 principal, 2 resource or 3 env", root);
            return self.wrong_at(self.at - 1, what);
        }
        let path = self.path()?;
        let mut column = Column { root: usize::from(root) - 1, path, candidates: Vec::new() };
        for _ in 0..self.count(1, MOST_CANDIDATES, "the count of candidates")? {
            let start = self.at;
            let candidate = match self.byte("a kind")? {
                0 => None,
                kind => Some(self.value(kind, "0 absent, ")?),
            };
            let bytes = bytes_of_candidate(&candidate);
            if let Some(same) = column.candidates.iter().position(|other| bytes_of_candidate(other) == bytes) {
                let what = format!("this candidate is the same as the {} of {}", ordinal(same + 1), column.name());
                return self.wrong_at(start, what);
            }
            column.candidates.push(candidate);
        }
        Ok(column)
    }
}

#[cfg(test)]
mod tests {
    use super::*;
    use crate::documented;
    use definitions::bags::read_bag;
    use definitions::questions::read_question;
    use generators::bag_bytes::{break_a_rule, damaged, question};
    use generators::random::Random;

    fn wrong(bytes: &[u8]) -> String {
        let bad = read_bytes(bytes).unwrap_err();
        let message = format!("byte {}: {}", bad.at, bad.what);
        assert!(documented(&bad.what), "not in docs/QUESTIONS.md: {}", bad.what);
        message
    }

    #[test]
    fn what_is_wrong_is_said() {
        for (bytes, message) in [
            (&[][..], "byte 0: the file ends here, and 1 byte of the count of the section principal should follow"),
            (&[33], "byte 0: the count of the section principal is 33; expected 0 to 32"),
            (&[1, 0], "byte 1: the length of a path is 0; expected 1 to 64"),
            (&[1, 65], "byte 1: the length of a path is 65; expected 1 to 64"),
            (&[1, 3, b'a'], "byte 3: the file ends here, and 2 bytes of a path should follow"),
            (&[1, 2, b'i', b'f'], "byte 2: \"if\" is no path; expected names joined by dots, none a reserved word"),
            (&[1, 1, b'a', 0], "byte 3: kind 0; expected 1 string, 2 number, 3 flag or 4 list"),
            (&[1, 1, b'a', 1, 128], "byte 4: the length of a string is 128; expected 0 to 127"),
            (&[1, 1, b'a', 2, 0, 0, 0, 0, 0, 0, 0xF0, 0x7F], "byte 4: these 8 bytes are no finite number"),
            (&[1, 1, b'a', 3, 2], "byte 4: a flag is 2; expected 0 to 1"),
            (&[1, 1, b'a', 4, 17], "byte 4: the count of a list is 17; expected 0 to 16"),
            (&[2, 1, b'a', 3, 0, 1, b'a', 3, 0], "byte 5: principal.a stands twice in its section"),
            (
                &[0, 2, 1, b'b', 3, 0, 1, b'a', 3, 0],
                "byte 6: resource.a stands after resource.b; entries ascend by the bytes of their paths",
            ),
            (&[0, 0, 0, 7], "byte 3: the count of columns is 7; expected 0 to 6"),
            (&[0, 0, 0, 1, 4], "byte 4: root 4; expected 1 principal, 2 resource or 3 env"),
            (&[0, 0, 0, 1, 1, 1, b'a', 0], "byte 7: the count of candidates is 0; expected 1 to 8"),
            (
                &[0, 0, 0, 1, 1, 1, b'a', 1, 5],
                "byte 8: kind 5; expected 0 absent, 1 string, 2 number, 3 flag or 4 list",
            ),
            (
                &[0, 0, 0, 1, 1, 1, b'a', 3, 3, 0, 3, 1, 3, 0],
                "byte 12: this candidate is the same as the 1st of principal.a",
            ),
            (&[0, 0, 0, 2, 1, 1, b'a', 1, 0, 1, 1, b'a', 1, 0], "byte 9: principal.a is a column already"),
            (&[0, 0, 0, 0, 0], "byte 4: the question ends before this byte, but 1 byte follows"),
            (&[0; 4_097], "byte 4096: a bag or question has at most 4,096 bytes, and this file has 4,097"),
        ] {
            assert_eq!(wrong(bytes), message);
        }
    }

    // The second program's own readers say what is a bag or a question.
    #[test]
    fn the_same_bytes_are_read() {
        let mut random = Random::new(91);
        let mut refused = 0;
        for _ in 0..6_000 {
            let mut plan = question(&mut random);
            if random.one_in(3) {
                plan.columns = None;
            }
            if random.one_in(3) {
                break_a_rule(&mut plan, &mut random);
            }
            let mut bytes = plan.bytes();
            if random.one_in(2) {
                bytes = damaged(bytes, &mut random);
            }
            match read_bytes(&bytes) {
                Ok(form) => {
                    let known = if form.columns.is_some() {
                        read_question(&bytes).is_some()
                    } else {
                        read_bag(&bytes).is_some()
                    };
                    assert!(known, "{:?}", bytes);
                    assert_eq!(form.bytes(), bytes);
                }
                Err(bad) => {
                    assert!(read_bag(&bytes).is_none() && read_question(&bytes).is_none(), "{:?} {:?}", bad, bytes);
                    assert!(bad.at <= bytes.len());
                    refused += 1;
                }
            }
        }
        assert!(refused > 1_500 && refused < 4_500, "{}", refused);
    }
}
