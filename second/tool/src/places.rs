//! A place in a text as it is shown: its line, and what is needed to put carets under it.

use definitions::tokens::{columns_begun, Place};

use crate::reading::Wrong;
use crate::writing::{first_character, is_seen};

/// What is wrong in a text: file, line, column and words, and the line with a caret under the place.
pub fn wrong_in_text(name: &str, text: &[u8], wrong: &Wrong) -> String {
    let place = place_in_text(text, wrong.at);
    let shown = PlaceShown::at(text, place, wrong.at, 1);
    format!("{}:{}:{}: {}\n{}", name, place.line, place.column, wrong.what, shown.lines().trim_end())
}

/// The line and column of an offset in a question, a bag, tests or locks as text. As in rule texts columns count characters; a byte with which no
/// character begins is one column.
pub fn place_in_text(text: &[u8], offset: usize) -> Place {
    let before = &text[..offset];
    let line = before.iter().filter(|byte| **byte == b'\n').count() + 1;
    let mut rest = &before[start_of_line(text, offset)..];
    let mut column = 1;
    while !rest.is_empty() {
        rest = &rest[first_character(rest).1..];
        column += 1;
    }
    Place { line, column }
}

/// Where the line of an offset begins.
fn start_of_line(text: &[u8], offset: usize) -> usize {
    text[..offset].iter().rposition(|byte| *byte == b'\n').map_or(0, |line_feed| line_feed + 1)
}

/// The offset of a line and a column of a rule text; nothing if the text has no such place. The column after the last is one too.
pub fn offset_in_rules(text: &[u8], line: usize, column: usize) -> Option<usize> {
    let lines: Vec<&[u8]> = text.split(|byte| *byte == b'\n').collect();
    let bytes = lines.get(line.checked_sub(1)?)?;
    let start: usize = lines[..line - 1].iter().map(|line| line.len() + 1).sum();
    let begun = &columns_begun(text)[start..start + bytes.len()];
    let mut offsets = (0..begun.len()).filter(|at| begun[*at]).chain([begun.len()]);
    offsets.nth(column.checked_sub(1)?).map(|offset| start + offset)
}

/// The most characters of a line that are shown; a longer line is cut around the place.
const LONGEST_SHOWN: usize = 88;

/// A line and a column from 1, in characters; the line as it is shown, how many characters of it stand before the place, and how many carets
/// stand under it: one for each character there, and one where there is none.
#[derive(PartialEq, Debug)]
pub struct PlaceShown {
    pub line: usize,
    pub column: usize,
    pub text: String,
    pub before: usize,
    pub under: usize,
}

impl PlaceShown {
    /// The line of a place of the rules as characters, the place having so many bytes of it; nothing if the rules have no such place. The
    /// column after the last is a place too, of no bytes.
    pub fn new(text: &[u8], line: usize, column: usize, length: usize) -> Option<PlaceShown> {
        offset_in_rules(text, line, column).map(|offset| PlaceShown::at(text, Place { line, column }, offset, length))
    }

    /// The same for a place of any text, which stands at this offset.
    pub fn at(text: &[u8], place: Place, offset: usize, length: usize) -> PlaceShown {
        let start = start_of_line(text, offset);
        let bytes = text[start..].split(|byte| *byte == b'\n').next().unwrap_or(&[]);
        let offset = offset - start;
        let mut characters = Vec::new();
        let (mut before, mut past) = (0, 0);
        let mut at = 0;
        while at < bytes.len() {
            let (character, size) = first_character(&bytes[at..]);
            if at <= offset {
                before = characters.len();
            }
            characters.push(match character {
                Some('\t') | Some('\r') => ' ',
                Some(character) if is_seen(character) => character,
                _ => '\u{FFFD}',
            });
            if at < offset + length {
                past = characters.len();
            }
            at += size;
        }
        if offset == bytes.len() {
            before = characters.len();
        }
        let (text, shown_before) = cut_around(&characters, before);
        let room = text.chars().count().saturating_sub(shown_before).max(1);
        let under = past.saturating_sub(before).clamp(1, room);
        PlaceShown { line: place.line, column: place.column, text, before: shown_before, under }
    }

    /// What stands under the line: carets under the place.
    pub fn carets(&self) -> String {
        format!("{}{}", " ".repeat(self.before), "^".repeat(self.under))
    }

    /// The line, and under it the carets, both indented.
    pub fn lines(&self) -> String {
        format!("    {}\n    {}\n", self.text, self.carets())
    }
}

/// The part of a long line around the place, and the characters before the place in it.
fn cut_around(characters: &[char], before: usize) -> (String, usize) {
    let fits = characters.len() <= LONGEST_SHOWN;
    let start = if fits { 0 } else { (before + 1).saturating_sub(LONGEST_SHOWN * 3 / 4) };
    let end = characters.len().min(start + LONGEST_SHOWN);
    let text: String = characters[start..end].iter().collect();
    let (left, right) = (if start > 0 { ".." } else { "" }, if end < characters.len() { ".." } else { "" });
    (format!("{}{}{}", left, text, right), before - start + left.len())
}

#[cfg(test)]
mod tests {
    use super::*;

    fn place(text: &[u8], line: usize, column: usize) -> (String, usize) {
        let place = PlaceShown::new(text, line, column, 1).unwrap();
        (place.text, place.before)
    }

    // 02, request 5: a column of the rules is a character, and in a string that is not UTF-8 a byte.
    #[test]
    fn every_place_of_the_rules_is_found_again() {
        for text in ["\"Süd\" x\n\"ü\" y ü", "\"Sü\u{1}\"", "", "\n", "permit\n:"] {
            for text in [text.as_bytes().to_vec(), [text.as_bytes(), b"\"a\xC3\" z"].concat()] {
                let begun = definitions::tokens::columns_begun(&text);
                for offset in (0..=text.len()).filter(|offset| begun.get(*offset) != Some(&false)) {
                    let place = definitions::tokens::place_of(&text, offset);
                    assert_eq!(offset_in_rules(&text, place.line, place.column), Some(offset));
                }
            }
        }
        assert_eq!(offset_in_rules("\"ü\"".as_bytes(), 1, 4), Some(4));
        assert_eq!(offset_in_rules("\"ü\"".as_bytes(), 1, 5), None);
        assert_eq!(offset_in_rules(b"a", 2, 1), None);
    }

    // The same in questions: comments too have characters, and quotes that do not count.
    #[test]
    fn columns_of_a_question_are_characters() {
        let place = |text: &[u8], offset: usize| {
            let place = place_in_text(text, offset);
            (place.line, place.column)
        };
        assert_eq!(place("# \"Süd\nenv.a = \"ü\" x".as_bytes(), 21), (2, 13));
        assert_eq!(place(b"env.a = \"S\xFCd\" x", 14), (1, 15));
        let wrong = Wrong { at: 14, what: "no".to_string() };
        let said = wrong_in_text("q", "env.a = \"Sü\" x".as_bytes(), &wrong);
        assert_eq!(said, "q:1:14: no\n    env.a = \"Sü\" x\n                 ^");
    }

    // 02, request 4: the whole token is underlined, the end of text by one caret.
    #[test]
    fn carets_stand_under_every_character() {
        let carets = |text: &[u8], line, column, length| PlaceShown::new(text, line, column, length).unwrap().carets();
        assert_eq!(carets(b"permit x", 1, 8, 1), "       ^");
        assert_eq!(carets(b"permit(principal", 1, 8, 9), "       ^^^^^^^^^");
        assert_eq!(carets("1 like \"Süd**\"".as_bytes(), 1, 8, 8), "       ^^^^^^^");
        assert_eq!(carets("permit ü".as_bytes(), 1, 8, 1), "       ^");
        assert_eq!(carets(b"permit", 1, 7, 0), "      ^");
        assert_eq!(carets(b"permit\n", 2, 1, 0), "^");
        let long = PlaceShown::new(&[b'w'; 300], 1, 1, 300).unwrap();
        assert_eq!(long.under, long.text.chars().count());
    }

    #[test]
    fn the_place_is_under_its_character() {
        assert_eq!(place(b"permit\n :", 2, 2), (" :".to_string(), 1));
        assert_eq!(place(b"permit\n", 2, 1), (String::new(), 0));
        assert_eq!(place(b"permit", 1, 7), ("permit".to_string(), 6));
        assert_eq!(place("\t\"Süd\" x\r\n".as_bytes(), 1, 8), (" \"Süd\" x ".to_string(), 7));
        assert_eq!(place("1 == \"aü€😀\" x".as_bytes(), 1, 13), ("1 == \"aü€😀\" x".to_string(), 12));
        assert_eq!(place(b"\"\xFF\x01\" x", 1, 3), ("\"\u{FFFD}\u{FFFD}\" x".to_string(), 2));
        let (text, before) = place(&[vec![b'a'; 300], vec![b':'], vec![b'b'; 300]].concat(), 1, 301);
        assert_eq!(text.chars().nth(before), Some(':'));
        assert!(text.len() <= LONGEST_SHOWN + 4 && text.starts_with("..a") && text.ends_with("b.."));
    }
}
