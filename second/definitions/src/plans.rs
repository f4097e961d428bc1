//! Bags and questions to be written, whether they keep the rules or not, and their bytes (01, "Bags and questions").

/// One entry of a section: its path, and its kind byte and value.
#[derive(Clone)]
pub struct Entry {
    pub path: Vec<u8>,
    pub value: Vec<u8>,
}

#[derive(Clone)]
pub struct Column {
    pub root: u8,
    pub path: Vec<u8>,
    /// The kind bytes and values.
    pub candidates: Vec<Vec<u8>>,
}

/// What is to be written, whether it keeps the rules or not. Without columns it is a bag.
#[derive(Clone)]
pub struct Plan {
    pub sections: [Vec<Entry>; 3],
    pub columns: Option<Vec<Column>>,
}

impl Plan {
    /// The bytes; a count or length that is too great for its byte is written as far as the byte holds it.
    pub fn bytes(&self) -> Vec<u8> {
        let mut bytes = Vec::new();
        for section in &self.sections {
            bytes.push(section.len() as u8);
            for entry in section {
                put_path(&mut bytes, &entry.path);
                bytes.extend_from_slice(&entry.value);
            }
        }
        if let Some(columns) = &self.columns {
            bytes.push(columns.len() as u8);
            for column in columns {
                bytes.push(column.root);
                put_path(&mut bytes, &column.path);
                bytes.push(column.candidates.len() as u8);
                bytes.extend(column.candidates.concat());
            }
        }
        bytes
    }

    /// All root bytes and paths that are named.
    pub fn attributes(&self) -> Vec<(u8, Vec<u8>)> {
        let mut all = Vec::new();
        for (index, section) in self.sections.iter().enumerate() {
            all.extend(section.iter().map(|entry| (index as u8 + 1, entry.path.clone())));
        }
        if let Some(columns) = &self.columns {
            all.extend(columns.iter().map(|column| (column.root, column.path.clone())));
        }
        all
    }
}

fn put_path(bytes: &mut Vec<u8>, path: &[u8]) {
    bytes.push(path.len() as u8);
    bytes.extend_from_slice(path);
}

/// The kind byte and value of a string.
pub fn string_value(string: &[u8]) -> Vec<u8> {
    [&[1, string.len() as u8], string].concat()
}

/// The kind byte and value of a number.
pub fn number_value(bits: u64) -> Vec<u8> {
    [&[2], &bits.to_le_bytes()[..]].concat()
}

/// The kind byte and value of a list.
pub fn list_value(strings: &[Vec<u8>]) -> Vec<u8> {
    let mut value = vec![4, strings.len() as u8];
    for string in strings {
        value.push(string.len() as u8);
        value.extend_from_slice(string);
    }
    value
}
