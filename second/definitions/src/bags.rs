//! Bags: their form, and the attributes that are looked up in them (01, "Bags and questions").

use std::collections::BTreeMap;

use crate::compile::LONGEST_PATH;
use crate::numbers::finite_number;
use crate::tokens::{class_of, token_at, Class, NAME};

/// 01, "Bags and questions": a bag has at most 4,096 bytes, and a question too.
pub const LONGEST_BAG: usize = 4_096;
/// A section has 0 to 32 entries.
pub const MOST_ENTRIES: u8 = 32;
/// A string has 0 to 127 bytes.
pub const LONGEST_STRING: u8 = 127;
/// A list has 0 to 16 strings.
pub const MOST_STRINGS: u8 = 16;

/// What a value is.
#[derive(Clone, PartialEq, Debug)]
pub enum Content {
    String(Vec<u8>),
    Number(f64),
    Flag(bool),
    List(Vec<Vec<u8>>),
}

/// A value and where it stands: `place` is the offset of the byte after the kind byte, `end` that after its last byte.
#[derive(Clone, PartialEq, Debug)]
pub struct Value {
    pub content: Content,
    pub place: usize,
    pub end: usize,
}

impl Value {
    /// The kind byte.
    pub fn kind(&self) -> u8 {
        match self.content {
            Content::String(_) => 1,
            Content::Number(_) => 2,
            Content::Flag(_) => 3,
            Content::List(_) => 4,
        }
    }

    /// The number: a flag counts 0 or 1, a string and a list 0.
    pub fn number(&self) -> f64 {
        match self.content {
            Content::Number(number) => number,
            Content::Flag(true) => 1.0,
            Content::String(_) | Content::Flag(false) | Content::List(_) => 0.0,
        }
    }
}

/// The entries of one section by their paths.
pub type Section = BTreeMap<Vec<u8>, Value>;

/// The sections principal, resource and env.
#[derive(PartialEq, Debug)]
pub struct Bag {
    pub sections: [Section; 3],
}

impl Bag {
    /// The value of an attribute. 01: absence, an impossible path (which no section holds) or a root byte other than 1
    /// to 3 gives nothing.
    pub fn look_up(&self, root: u8, path: &[u8]) -> Option<&Value> {
        let index = usize::from(root).checked_sub(1)?;
        self.sections.get(index)?.get(path)
    }
}

/// What the two calls answer: kind, number and place, and the string's part of the bag as start and length.
#[derive(PartialEq, Debug)]
pub struct Found {
    pub kind: u8,
    pub number: f64,
    pub place: usize,
    pub part_start: usize,
    pub part_length: usize,
}

/// 01: an attribute is looked up by bag, root byte and dotted path; nothing if it is not a bag (24). An empty part is
/// named by start 0 and length 0, whatever it comes from.
pub fn look_up(bag: &[u8], root: u8, path: &[u8]) -> Option<Found> {
    let read = read_bag(bag)?;
    let mut found = Found { kind: 0, number: 0.0, place: 0, part_start: 0, part_length: 0 };
    if let Some(value) = read.look_up(root, path) {
        found.kind = value.kind();
        found.number = value.number();
        found.place = value.place;
        match &value.content {
            Content::String(string) if !string.is_empty() => {
                found.part_start = value.place + 1;
                found.part_length = string.len();
            }
            _ => {}
        }
    }
    Some(found)
}

/// A bag out of its bytes, or nothing if they are not a bag (refusal 24). Nothing follows the sections.
pub fn read_bag(bytes: &[u8]) -> Option<Bag> {
    if bytes.len() > LONGEST_BAG {
        return None;
    }
    let mut reader = BagReader { bytes, at: 0 };
    let bag = reader.sections()?;
    if reader.is_at_end() {
        Some(bag)
    } else {
        None
    }
}

/// 01: paths are as in the text, without blanks: names joined by dots, 1 to 64 bytes.
pub fn is_path(path: &[u8]) -> bool {
    !path.is_empty() && path.len() <= LONGEST_PATH && path.split(|byte| *byte == b'.').all(is_name)
}

/// A name is a word that is not reserved.
fn is_name(word: &[u8]) -> bool {
    let token = token_at(word, 0);
    token.kind == NAME && token.start == 0 && token.end == word.len()
}

/// A path as it stands in a text may have blanks around its dots; in a bag it has none.
pub fn path_without_blanks(written: &[u8]) -> Vec<u8> {
    written.iter().copied().filter(|byte| class_of(*byte) != Class::Blank).collect()
}

/// Reads the parts of bags and questions from their bytes; each function gives nothing where a rule is broken.
pub struct BagReader<'a> {
    pub bytes: &'a [u8],
    pub at: usize,
}

impl<'a> BagReader<'a> {
    pub fn is_at_end(&self) -> bool {
        self.at == self.bytes.len()
    }

    /// The next `count` bytes.
    fn take(&mut self, count: usize) -> Option<&'a [u8]> {
        let taken = self.bytes.get(self.at..self.at + count)?;
        self.at += count;
        Some(taken)
    }

    pub fn byte(&mut self) -> Option<u8> {
        Some(self.take(1)?[0])
    }

    /// A byte that is at most `most`.
    pub fn byte_up_to(&mut self, most: u8) -> Option<u8> {
        self.byte().filter(|byte| *byte <= most)
    }

    /// Sections principal, resource, env, in that order.
    pub fn sections(&mut self) -> Option<Bag> {
        Some(Bag { sections: [self.section()?, self.section()?, self.section()?] })
    }

    /// A count byte of 0 to 32 and so many entries, which ascend strictly by path bytes, a shorter path before one it
    /// begins (which is how Rust orders byte strings).
    fn section(&mut self) -> Option<Section> {
        let mut section = Section::new();
        let mut last_path: Option<Vec<u8>> = None;
        for _ in 0..self.byte_up_to(MOST_ENTRIES)? {
            let path = self.path()?;
            if let Some(last) = &last_path {
                if *last >= path {
                    return None;
                }
            }
            let kind = self.byte()?;
            let value = self.value(kind)?;
            section.insert(path.clone(), value);
            last_path = Some(path);
        }
        Some(section)
    }

    /// A path length byte (1 to 64) and the path.
    pub fn path(&mut self) -> Option<Vec<u8>> {
        let length = self.byte()?;
        let path = self.take(usize::from(length))?;
        if is_path(path) {
            Some(path.to_vec())
        } else {
            None
        }
    }

    /// The value after a kind byte of 1 to 4.
    pub fn value(&mut self, kind: u8) -> Option<Value> {
        let place = self.at;
        let content = match kind {
            1 => Content::String(self.string()?),
            2 => {
                let mut number = [0; 8];
                number.copy_from_slice(self.take(8)?);
                Content::Number(finite_number(number)?)
            }
            3 => Content::Flag(self.byte_up_to(1)? == 1),
            4 => {
                let mut strings = Vec::new();
                for _ in 0..self.byte_up_to(MOST_STRINGS)? {
                    strings.push(self.string()?);
                }
                Content::List(strings)
            }
            _ => return None,
        };
        Some(Value { content, place, end: self.at })
    }

    /// A length byte (0 to 127) and any bytes.
    fn string(&mut self) -> Option<Vec<u8>> {
        let length = self.byte_up_to(LONGEST_STRING)?;
        Some(self.take(usize::from(length))?.to_vec())
    }
}

#[cfg(test)]
mod tests {
    use super::*;

    /// A bag whose principal section holds these entries: path, kind, value bytes.
    fn bag_of(entries: &[(&str, u8, &[u8])]) -> Vec<u8> {
        let mut bag = vec![entries.len() as u8];
        for (path, kind, value) in entries {
            bag.push(path.len() as u8);
            bag.extend_from_slice(path.as_bytes());
            bag.push(*kind);
            bag.extend_from_slice(value);
        }
        bag.extend_from_slice(&[0, 0]);
        bag
    }

    fn is_bag(bytes: &[u8]) -> bool {
        read_bag(bytes).is_some()
    }

    fn found(bag: &[u8], root: u8, path: &str) -> (u8, u64, usize, usize, usize) {
        let found = look_up(bag, root, path.as_bytes()).unwrap();
        (found.kind, found.number.to_bits(), found.place, found.part_start, found.part_length)
    }

    #[test]
    fn the_least_bag_has_3_bytes() {
        assert!(is_bag(&[0, 0, 0]));
        assert!(!is_bag(&[]));
        assert!(!is_bag(&[0]));
        assert!(!is_bag(&[0, 0]));
        // A question is no bag.
        assert!(!is_bag(&[0, 0, 0, 0]));
    }

    #[test]
    fn values_have_these_forms() {
        for (kind, value, good) in [
            (0, &[][..], false),
            (1, &[0], true),
            (1, &[1, b'"'], true),
            (1, &[2, 0, 255], true),
            (1, &[2, 0], false),
            (1, &[0, 0], false),
            (2, &[0; 8], true),
            (2, &[0; 7], false),
            (2, &[0, 0, 0, 0, 0, 0, 0, 0x80], true),
            (2, &[255, 255, 255, 255, 255, 255, 0xEF, 0x7F], true),
            (2, &[0, 0, 0, 0, 0, 0, 0xF0, 0x7F], false),
            (2, &[0, 0, 0, 0, 0, 0, 0xF0, 0xFF], false),
            (2, &[1, 0, 0, 0, 0, 0, 0xF8, 0x7F], false),
            (3, &[0], true),
            (3, &[1], true),
            (3, &[2], false),
            (3, &[], false),
            (4, &[0], true),
            (4, &[2, 0, 1, b'x'], true),
            (4, &[2, 0], false),
            (4, &[1, 1, b'x', 0], false),
            (5, &[0], false),
            (255, &[0], false),
        ] {
            assert_eq!(is_bag(&bag_of(&[("a", kind, value)])), good, "{} {:?}", kind, value);
        }
    }

    #[test]
    fn strings_and_lists_pass_at_their_sizes() {
        let string = |length: u8| [vec![length], vec![b's'; usize::from(length)]].concat();
        assert!(is_bag(&bag_of(&[("a", 1, &string(127))])));
        assert!(!is_bag(&bag_of(&[("a", 1, &string(128))])));
        assert!(is_bag(&bag_of(&[("a", 4, &[&[1], &string(127)[..]].concat())])));
        assert!(!is_bag(&bag_of(&[("a", 4, &[&[1], &string(128)[..]].concat())])));
        assert!(is_bag(&bag_of(&[("a", 4, &[vec![16], vec![0; 16]].concat())])));
        assert!(!is_bag(&bag_of(&[("a", 4, &[vec![17], vec![0; 17]].concat())])));
    }

    // Paths are as in the text: names, so no reserved words.
    #[test]
    fn paths_are_names_joined_by_dots() {
        for path in ["a", "A", "a.b", "a-b_9.Z", "If", "name", "person", "containsall", "a.truer"] {
            assert!(is_path(path.as_bytes()), "{}", path);
        }
        for path in
            ["", ".", "a.", ".a", "a..b", "1", "_a", "-a", "a b", " a", "a ", "a .b", "a\n", "a:b", "ü", "\"a\"", "a.1"]
        {
            assert!(!is_path(path.as_bytes()), "{}", path);
        }
        for word in crate::tokens::RESERVED_WORDS {
            assert!(!is_path(word.as_bytes()));
            assert!(!is_path(format!("a.{}", word).as_bytes()));
            assert!(!is_path(format!("{}.a", word).as_bytes()));
            assert!(is_path(format!("{}s", word).as_bytes()));
        }
        assert!(is_path(&[b'w'; 64]));
        assert!(!is_path(&[b'w'; 65]));
        assert!(is_path(&b"abc.".repeat(16)[..63]));
        assert!(!is_path(format!("{}zz", "abc.".repeat(16)).as_bytes()));
    }

    #[test]
    fn a_texts_path_loses_its_blanks() {
        assert_eq!(path_without_blanks(b"a . b\r\n\t.c"), b"a.b.c");
    }

    #[test]
    fn entries_ascend_strictly() {
        let paths = ["a", "a-b", "a.b", "a0", "aA", "a_", "aa"];
        for (index, first) in paths.iter().enumerate() {
            for (other, second) in paths.iter().enumerate() {
                let bag = bag_of(&[(first, 3, &[0]), (second, 3, &[1])]);
                assert_eq!(is_bag(&bag), index < other, "{} {}", first, second);
            }
        }
        // The next section begins anew.
        assert!(is_bag(&[1, 1, b'b', 3, 0, 1, 1, b'a', 3, 0, 0]));
        assert!(is_bag(&[1, 1, b'a', 3, 0, 1, 1, b'a', 3, 0, 1, 1, b'a', 3, 0]));
    }

    #[test]
    fn a_section_has_32_entries() {
        let paths: Vec<String> = (0..33).map(|index| format!("p{:02}", index)).collect();
        let entries: Vec<(&str, u8, &[u8])> = paths.iter().map(|path| (path.as_str(), 3, &[0][..])).collect();
        assert!(is_bag(&bag_of(&entries[..32])));
        assert!(!is_bag(&bag_of(&entries)));
    }

    #[test]
    fn a_bag_has_4096_bytes() {
        let string = [vec![127], vec![b's'; 127]].concat();
        let paths: Vec<String> = (0..31).map(|index| format!("p{:02}", index)).collect();
        let mut entries: Vec<(&str, u8, &[u8])> = paths.iter().map(|path| (path.as_str(), 1, &string[..])).collect();
        entries.truncate(30);
        let left = 4_096 - bag_of(&entries).len();
        let last = [vec![(left - 6) as u8], vec![b'x'; left - 6]].concat();
        let longer = [vec![(left - 5) as u8], vec![b'x'; left - 5]].concat();
        entries.push((&paths[30], 1, &last));
        assert_eq!(bag_of(&entries).len(), 4_096);
        assert!(is_bag(&bag_of(&entries)));
        entries[30].2 = &longer;
        assert_eq!(bag_of(&entries).len(), 4_097);
        assert!(!is_bag(&bag_of(&entries)));
    }

    #[test]
    fn attributes_are_looked_up() {
        let mut bag = bag_of(&[
            ("a", 1, &[2, b'x', b'y']),
            ("b", 2, &[0, 0, 0, 0, 0, 0, 0, 0x80]),
            ("c.d", 3, &[1]),
            ("e", 4, &[1, 1, b'z']),
            ("f", 1, &[0]),
            ("g", 3, &[0]),
        ]);
        let end = bag.len();
        bag[end - 2] = 1;
        bag.splice(end - 1..end - 1, [1, b'a', 3, 1]);
        assert_eq!(found(&bag, 1, "a"), (1, 0, 4, 5, 2));
        // -0 comes back with its sign.
        assert_eq!(found(&bag, 1, "b"), (2, 0x8000_0000_0000_0000, 10, 0, 0));
        assert_eq!(found(&bag, 1, "c.d"), (3, 1.0_f64.to_bits(), 23, 0, 0));
        assert_eq!(found(&bag, 1, "e"), (4, 0, 27, 0, 0));
        // The empty string's part is the empty part.
        assert_eq!(found(&bag, 1, "f"), (1, 0, 33, 0, 0));
        assert_eq!(found(&bag, 1, "g"), (3, 0, 37, 0, 0));
        assert_eq!(found(&bag, 2, "a"), (3, 1.0_f64.to_bits(), 42, 0, 0));
        for (root, path) in
            [(3, "a"), (0, "a"), (4, "a"), (255, "a"), (1, "c"), (1, "c."), (1, "c.d.e"), (1, ""), (1, "if"), (1, "A")]
        {
            assert_eq!(found(&bag, root, path), (0, 0, 0, 0, 0));
        }
        // 24 comes first.
        assert_eq!(look_up(&bag[1..], 9, b"if"), None);
    }
}
