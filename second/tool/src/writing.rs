//! The text form of questions and bags, written: one attribute a line (docs/QUESTIONS.md).

use definitions::bags::Content;

use crate::form::{attribute, Column, Form, PARTS};

/// A line with more characters is broken: then each candidate has a line.
const LONGEST_LINE: usize = 100;

/// The whole text: `question` or `bag`, the base, and the columns.
pub fn text_of(form: &Form) -> String {
    let mut text = format!("{}\n", form.name());
    if form.request.iter().any(Option::is_some) {
        text.push('\n');
    }
    for (part, value) in PARTS.iter().zip(&form.request) {
        if let Some(value) = value {
            text.push_str(&format!("{} = {}\n", part, quoted(value)));
        }
    }
    for (root, section) in form.sections.iter().enumerate() {
        if !section.is_empty() {
            text.push('\n');
        }
        for (path, value) in section {
            text.push_str(&format!("{} = {}\n", attribute(root, path), value_text(value)));
        }
    }
    let columns = form.columns.as_deref().unwrap_or(&[]);
    if !columns.is_empty() {
        text.push('\n');
    }
    for column in columns {
        text.push_str(&column_text(column));
    }
    for request in &form.requests {
        text.push_str("\nrequest\n");
        for (part, value) in PARTS.iter().zip(request) {
            text.push_str(&format!("{} = {}\n", part, quoted(value)));
        }
    }
    text
}

/// The line or lines of a column.
fn column_text(column: &Column) -> String {
    let candidates: Vec<String> = column.candidates.iter().map(candidate_text).collect();
    let line = format!("column {} = {}", column.name(), candidates.join(" | "));
    if line.chars().count() <= LONGEST_LINE {
        line + "\n"
    } else {
        format!("column {} =\n    {}\n", column.name(), candidates.join("\n  | "))
    }
}

/// A value, or `absent`.
pub fn candidate_text(candidate: &Option<Content>) -> String {
    candidate.as_ref().map_or_else(|| "absent".to_string(), value_text)
}

/// A value as it is written in the text.
pub fn value_text(value: &Content) -> String {
    match value {
        Content::String(string) => quoted(string),
        Content::Number(number) => number_text(*number),
        Content::Flag(flag) => flag.to_string(),
        Content::List(strings) => {
            let strings: Vec<String> = strings.iter().map(|string| quoted(string)).collect();
            format!("[{}]", strings.join(", "))
        }
    }
}

/// The shortest decimal that reads back to the same bits; a whole number without `.0`.
pub fn number_text(number: f64) -> String {
    let shortest = format!("{:?}", number);
    match shortest.strip_suffix(".0") {
        Some(whole) => whole.to_string(),
        None => shortest,
    }
}

/// The string in quotes, with escapes for what a person could not see or type.
pub fn quoted(string: &[u8]) -> String {
    format!("\"{}\"", escaped(string, true))
}

/// The string without quotes, as it is shown in titles: quotes and backslashes need no escape there.
pub fn shown(string: &[u8]) -> String {
    escaped(string, false)
}

fn escaped(string: &[u8], in_quotes: bool) -> String {
    let mut text = String::new();
    let mut rest = string;
    while !rest.is_empty() {
        let (character, length) = first_character(rest);
        match character {
            Some(mark @ ('"' | '\\')) if in_quotes => text.extend(['\\', mark]),
            Some('\n') => text.push_str("\\n"),
            Some('\r') => text.push_str("\\r"),
            Some('\t') => text.push_str("\\t"),
            Some(character) if is_seen(character) => text.push(character),
            _ => rest[..length].iter().for_each(|byte| text.push_str(&format!("\\x{:02X}", byte))),
        }
        rest = &rest[length..];
    }
    text
}

/// The first character and its bytes' number; nothing and 1 where no character of UTF-8 begins.
pub fn first_character(bytes: &[u8]) -> (Option<char>, usize) {
    for length in 1..=bytes.len().min(4) {
        if let Ok(text) = std::str::from_utf8(&bytes[..length]) {
            return (text.chars().next(), length);
        }
    }
    (None, 1)
}

/// Whether the character shows on paper: no control, no invisible and no combining one.
pub fn is_seen(character: char) -> bool {
    if character.is_ascii() {
        return character == ' ' || character.is_ascii_graphic();
    }
    !character.is_whitespace() && character.escape_debug().count() == 1
}

#[cfg(test)]
mod tests {
    use super::*;

    #[test]
    fn numbers_are_short_and_read_back() {
        for (number, text) in [
            (3.0, "3"),
            (-0.0, "-0"),
            (0.0, "0"),
            (2.5, "2.5"),
            (0.1, "0.1"),
            (1e15, "1000000000000000"),
            (1e23, "1e23"),
            (f64::MAX, "1.7976931348623157e308"),
            (-f64::MAX, "-1.7976931348623157e308"),
            (5e-324, "5e-324"),
            (f64::MIN_POSITIVE, "2.2250738585072014e-308"),
        ] {
            assert_eq!(number_text(number), text);
            assert_eq!(text.parse::<f64>().unwrap().to_bits(), number.to_bits());
        }
    }

    #[test]
    fn strings_show_every_byte() {
        assert_eq!(quoted(b"a\"b\\c'"), r#""a\"b\\c'""#);
        assert_eq!(quoted(b"\n\r\t\x00\x7F"), r#""\n\r\t\x00\x7F""#);
        assert_eq!(quoted("Süd".as_bytes()), "\"Süd\"");
        assert_eq!(quoted(b"S\xFCd"), "\"S\\xFCd\"");
        // A half of a character, a zero-width space, an accent on its own, a right-to-left mark.
        assert_eq!(quoted(b"\xC3"), r#""\xC3""#);
        assert_eq!(quoted("\u{200B}\u{301}\u{202E}".as_bytes()), r#""\xE2\x80\x8B\xCC\x81\xE2\x80\xAE""#);
        assert_eq!(shown(b"shaft:\"A\"\n"), "shaft:\"A\"\\n");
    }

    #[test]
    fn a_long_column_has_a_line_for_each_candidate() {
        let long = |byte: u8| Some(Content::String(vec![byte; 60]));
        let column = Column { root: 2, path: b"zone".to_vec(), candidates: vec![None, long(b'a'), long(b'b')] };
        let (a, b) = ("a".repeat(60), "b".repeat(60));
        assert_eq!(column_text(&column), format!("column env.zone =\n    absent\n  | \"{}\"\n  | \"{}\"\n", a, b));
    }
}
