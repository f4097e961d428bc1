//! A refusal in plain words, with the line of the rule text and the place in it (01, "Refusal numbers").

use definitions::deciding::Request;

use crate::answers::Refused;
use crate::bytes::read_bytes;
use crate::expected::{cause_of_byte, expected, reserved_words};
use crate::places::{offset_in_rules, PlaceShown};
use crate::plain::{wrapped, WIDTH};
use crate::words::{count_of, grouped};
use crate::writing::{first_character, quoted};

/// The refusal of a version that is none (02, request 7).
pub const NO_VERSION: usize = 30;

/// A refusal as it is shown.
#[derive(PartialEq, Debug)]
pub struct RefusalShown {
    pub number: usize,
    /// What the number means.
    pub meaning: String,
    /// The place in the rule text, if it has one.
    pub place: Option<PlaceShown>,
}

/// What was asked.
pub struct Files<'a> {
    pub text: &'a [u8],
    /// The version of the rules that is asked for.
    pub version: u64,
    pub question: &'a [u8],
    /// The request that is refused, if one is, and how many are asked.
    pub request: Request<'a>,
    pub requests: usize,
}

impl RefusalShown {
    /// A refusal of these files, or what is wrong with it, in words.
    pub fn new(files: &Files, refused: Refused) -> Result<RefusalShown, String> {
        let Refused { number, line, column, length } = refused;
        let mut place = None;
        let mut offset = 0;
        if (line, column) != (0, 0) {
            let shown = PlaceShown::new(files.text, line, column, length);
            place = Some(shown.ok_or_else(|| {
                format!("the refusal is said of line {}, column {}, which the rules have not", line, column)
            })?);
            offset = offset_in_rules(files.text, line, column).unwrap_or(0);
        }
        let meaning = meaning_of(files, number, offset)
            .ok_or_else(|| format!("the answer is refused {}, which is no refusal's number", number))?;
        Ok(RefusalShown { number, meaning, place })
    }

    /// The refusal as sentences, with carets under the refused token in the file of this name.
    pub fn text(&self, name: &str) -> String {
        let mut text = format!("Refused, number {}.\n", self.number);
        for line in wrapped(&self.meaning, WIDTH) {
            text.push_str(&format!("{}\n", line));
        }
        if let Some(place) = &self.place {
            text.push_str(&format!("\n{}, line {}, column {}:\n\n", name, place.line, place.column));
            text.push_str(&place.lines());
        }
        text
    }
}

/// What a refusal's number means here; the offset is that of its place in the rules.
fn meaning_of(files: &Files, number: usize, offset: usize) -> Option<String> {
    let request = &files.request;
    let found = |part: &[u8]| format!("Found: {}, {}.", quoted(part), count_of(part.len(), "byte", "bytes"));
    let meaning = match number {
        1 => format!("The rules are too long: they have {} bytes, and at most 8,192 are allowed.", grouped(files.text.len())),
        2 => "The table is too small: it needs 8 bytes for each byte of the rules.".to_string(),
        3..=17 => meaning_of_place(files.text, number, offset),
        20 => "The table is not the one of these rules.".to_string(),
        21 => format!(
            "The subject is not as it must be: system, or person: or tool: and an id, at most 100 bytes. {}",
            found(request.subject)
        ),
        22 => format!("The action must have 1 to 100 bytes. {}", found(request.action)),
        23 => format!(
            "The resource is not as it must be: controller:, shaft:, parameter: or record: and an id, at most 100 bytes. {}",
            found(request.resource)
        ),
        24 => format!("The question's bytes are no question. {}", trouble_of_question(files.question)),
        25 => "The sheet that was lent has less than 14 bytes from the named byte on.".to_string(),
        26 => "The start row is above the number of rows.".to_string(),
        27 => format!("A tally takes one to eight requests, and here {}.", too_few_or_many(files.requests)),
        NO_VERSION => format!(
            "There is no version {} of the rules: there are versions 1 and 2. Say --version 1, under which an operator is false \
             where it meets what is absent, or --version 2, under which its policy is then unsatisfied.",
            files.version
        ),
        _ => return None,
    };
    Some(meaning)
}

/// How many requests there are, and what to do.
fn too_few_or_many(requests: usize) -> String {
    match requests {
        0 => "is none: say subject, action and resource".to_string(),
        1..=8 => format!("are {}", requests),
        _ => format!("are {}: put {} of them into another question", grouped(requests), grouped(requests - 8)),
    }
}

/// What the numbers with a place in the rules mean.
fn meaning_of_place(text: &[u8], number: usize, offset: usize) -> String {
    let meaning = match number {
        3 => return format!("A byte stands here that may not: {}.", cause_of_byte(text, offset)),
        4 => "A colon stands outside a string: types are written without one, as in principal is person, and names in quotes.",
        5 => "A string begins here and has no closing quote.",
        6 => "Too long: a word has at most 64 bytes, a string 127, a number 15 digits.",
        7 => return format!("This is a reserved word, and a name of a path must stand here. Reserved are: {}.", reserved_words()),
        8 => "The attribute before this place stands alone: it must be compared, as in principal.oncall == true.",
        9 => "This is no type. Principals are person or tool; resources are controller, shaft, parameter or record.",
        10 => {
            let ends = if offset >= text.len() { "The rules end inside a policy" } else { "This may not stand here" };
            return expected(text, offset).map_or(format!("{}.", ends), |expected| format!("{}: {}.", ends, expected));
        }
        11 => "After action only name may stand: action.name is the request's action.",
        12 => "Conditions are nested deeper than 32 levels here.",
        13 => "A pattern has at most 100 characters and 5 wildcards, and no [, { or **.",
        14 => "This is the 17th literal of a list; a list has at most 16.",
        15 => "This is the 65th policy; a rule text has at most 64.",
        16 => "This name makes its path longer than 64 bytes.",
        _ => return not_utf8(text, offset),
    };
    meaning.to_string()
}

/// What is wrong with the string at an offset, and what to do: the first bytes of it that are no character, by their number.
fn not_utf8(text: &[u8], offset: usize) -> String {
    let inside = text[offset..].split(|byte| *byte == b'"').nth(1).unwrap_or(&[]);
    let mut at = 0;
    while let (Some(_), length) = first_character(&inside[at..]) {
        at += length;
    }
    let bad = inside
        .get(at)
        .map_or(String::new(), |byte| format!(": its byte {} is 0x{:02X}, and no character", at + 1, byte));
    format!("This string is not UTF-8{}. Save the rules as UTF-8, in which ü is two bytes, and write it again.", bad)
}

/// What is wrong with the bytes of a question.
fn trouble_of_question(bytes: &[u8]) -> String {
    match read_bytes(bytes) {
        Err(bad) => format!("Byte {}: {}.", bad.at, bad.what),
        Ok(form) if form.columns.is_none() => "It is a bag: the columns are missing.".to_string(),
        Ok(_) => "Yet it reads as one here.".to_string(),
    }
}

#[cfg(test)]
mod tests {
    use super::*;
    use definitions::sheets::read_request;

    fn refusal(text: &[u8], request: &[u8], question: &[u8], said: [usize; 4]) -> Result<RefusalShown, String> {
        let files = Files { text, version: 257, question, request: read_request(request), requests: 9 };
        RefusalShown::new(&files, Refused { number: said[0], line: said[1], column: said[2], length: said[3] })
    }

    #[test]
    fn a_place_must_be_in_the_text() {
        for (line, column) in [(3, 1), (1, 0), (0, 1), (2, 2)] {
            assert!(refusal(b"permit\n", b"", b"", [10, line, column, 1]).is_err());
        }
        assert!(refusal(b"", b"", b"", [18, 0, 0, 0]).is_err());
    }

    #[test]
    fn every_number_has_a_meaning() {
        for number in (1..=17).chain(20..=27).chain([30]) {
            assert!(!refusal(b"x", b"a\nb", &[0, 0, 0], [number, 0, 0, 0]).unwrap().meaning.is_empty());
        }
        let meaning = |number: usize| refusal(b"x", b"dog:1\n\nshaft", &[0, 0, 0], [number, 0, 0, 0]).unwrap().meaning;
        assert!(meaning(21).ends_with("Found: \"dog:1\", 5 bytes."));
        assert!(meaning(22).ends_with("Found: \"\", 0 bytes."));
        assert!(meaning(23).ends_with("Found: \"shaft\", 5 bytes."));
        assert!(meaning(24).ends_with("It is a bag: the columns are missing."));
        let not_utf8 = refusal(b"permit \"S\xFCd\"", b"", b"", [17, 1, 8, 5]).unwrap();
        assert!(not_utf8
            .meaning
            .starts_with("This string is not UTF-8: its byte 2 is 0xFC, and no character. Save the rules as"));
        assert_eq!(not_utf8.place.unwrap().carets(), "       ^^^^^");
        assert!(meaning(27).ends_with("and here are 9: put 1 of them into another question."));
        assert!(meaning(30)
            .starts_with("There is no version 257 of the rules: there are versions 1 and 2. Say --version 1,"));
    }
}
