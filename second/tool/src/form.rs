//! A question or a bag as a person thinks of it, and its bytes (01, "Bags and questions").

use std::collections::BTreeMap;

use definitions::bags::Content;

/// The roots that have a section; root byte n is the nth.
pub const ROOTS: [&str; 3] = ["principal", "resource", "env"];

/// The entries of one section by their paths, which is the order of the bytes.
pub type Section = BTreeMap<Vec<u8>, Content>;

/// The names of a request's parts, in their order.
pub const PARTS: [&str; 3] = ["subject", "action", "resource"];

/// A request: subject, action and resource.
pub type Parts = [Vec<u8>; 3];

/// Subject, action and resource, as far as they are said.
pub type SaidParts = [Option<Vec<u8>>; 3];

/// The request of its own parts, and else of those that hold for all; or the name of the first part that is missing. For the system
/// the subject alone is enough.
pub fn whole_request(common: &SaidParts, own: SaidParts) -> Result<Parts, &'static str> {
    let mut parts = common.clone();
    for (part, own) in parts.iter_mut().zip(own) {
        *part = own.or_else(|| part.take());
    }
    match parts.iter().position(Option::is_none) {
        Some(missing) if parts[0].as_deref() != Some(b"system") => Err(PARTS[missing]),
        _ => Ok(parts.map(Option::unwrap_or_default)),
    }
}

/// A question; without columns (which is not the same as with none) a bag.
#[derive(Clone, PartialEq, Debug, Default)]
pub struct Form {
    /// Subject, action and resource, as far as the text says them before its first line `request`; they are not among the bytes.
    pub request: SaidParts,
    /// The requests that lines `request` begin, each with all its parts.
    pub requests: Vec<Parts>,
    pub sections: [Section; 3],
    pub columns: Option<Vec<Column>>,
}

/// A column: the root's index in `ROOTS`, the path, and the candidates; nothing is absent.
#[derive(Clone, PartialEq, Debug)]
pub struct Column {
    pub root: usize,
    pub path: Vec<u8>,
    pub candidates: Vec<Option<Content>>,
}

impl Form {
    /// `question` or `bag`.
    pub fn name(&self) -> &'static str {
        name_of(self.columns.is_some())
    }

    /// The bytes. All counts and lengths must be in their limits.
    pub fn bytes(&self) -> Vec<u8> {
        let mut bytes = Vec::new();
        for section in &self.sections {
            bytes.push(section.len() as u8);
            for (path, value) in section {
                bytes.extend(bytes_of_entry(path, value));
            }
        }
        if let Some(columns) = &self.columns {
            bytes.push(columns.len() as u8);
            for column in columns {
                bytes.extend(column.bytes());
            }
        }
        bytes
    }
}

/// `question` or `bag`.
pub fn name_of(is_question: bool) -> &'static str {
    if is_question {
        "question"
    } else {
        "bag"
    }
}

/// The attribute's name: root, dot and path.
pub fn attribute(root: usize, path: &[u8]) -> String {
    format!("{}.{}", ROOTS[root], String::from_utf8_lossy(path))
}

impl Column {
    /// The attribute's name.
    pub fn name(&self) -> String {
        attribute(self.root, &self.path)
    }

    /// Root byte, path, count and candidates.
    pub fn bytes(&self) -> Vec<u8> {
        let mut bytes = vec![self.root as u8 + 1];
        bytes.extend(with_length(&self.path));
        bytes.push(self.candidates.len() as u8);
        for candidate in &self.candidates {
            bytes.extend(bytes_of_candidate(candidate));
        }
        bytes
    }
}

/// Path, kind and value.
pub fn bytes_of_entry(path: &[u8], value: &Content) -> Vec<u8> {
    let mut bytes = with_length(path);
    bytes.extend(bytes_of_value(value));
    bytes
}

/// Kind and value; kind 0 alone is absent.
pub fn bytes_of_candidate(candidate: &Option<Content>) -> Vec<u8> {
    candidate.as_ref().map_or_else(|| vec![0], bytes_of_value)
}

/// Kind and value.
fn bytes_of_value(value: &Content) -> Vec<u8> {
    match value {
        Content::String(string) => [vec![1], with_length(string)].concat(),
        Content::Number(number) => [vec![2], number.to_bits().to_le_bytes().to_vec()].concat(),
        Content::Flag(flag) => vec![3, u8::from(*flag)],
        Content::List(strings) => {
            let mut bytes = vec![4, strings.len() as u8];
            for string in strings {
                bytes.extend(with_length(string));
            }
            bytes
        }
    }
}

fn with_length(bytes: &[u8]) -> Vec<u8> {
    [&[bytes.len() as u8], bytes].concat()
}
