//! The tokens of a rule text, with their places and their refusals (01, "The rule text" and "Refusal numbers").

use crate::characters::{goes_on, is_utf8};

/// The end of text.
pub const END_OF_TEXT: u8 = 0;
/// 01, "Refusal numbers", 3: a byte at which no token starts, or a byte that no string may hold.
pub const BAD_BYTE: u8 = 3;
/// 01, "Refusal numbers", 4: a colon outside a string.
pub const COLON: u8 = 4;
/// 01, "Refusal numbers", 5: a string without its end.
pub const UNENDED_STRING: u8 = 5;
/// 01, "Refusal numbers", 6: a word, string or number too long.
pub const TOO_LONG: u8 = 6;
/// A word that is not reserved.
pub const NAME: u8 = b'n';
/// A string.
pub const STRING: u8 = b'"';
/// A number.
pub const NUMBER: u8 = b'0';
/// The kind of the first reserved word; the others follow in the order of `RESERVED_WORDS`.
pub const FIRST_RESERVED: u8 = 201;

/// 01, "The rule text", Word: the reserved words in the order of that list.
pub const RESERVED_WORDS: [&str; 18] = [
    "permit", "forbid", "when", "principal", "resource", "action", "env", "is", "in", "has", "like", "true", "false",
    "if", "then", "else", "containsAll", "containsAny",
];

/// The kinds of the reserved words, and of those marks that are not their first byte.
pub const PERMIT: u8 = FIRST_RESERVED;
pub const FORBID: u8 = FIRST_RESERVED + 1;
pub const WHEN: u8 = FIRST_RESERVED + 2;
pub const PRINCIPAL: u8 = FIRST_RESERVED + 3;
pub const RESOURCE: u8 = FIRST_RESERVED + 4;
pub const ACTION: u8 = FIRST_RESERVED + 5;
pub const ENV: u8 = FIRST_RESERVED + 6;
pub const IS: u8 = FIRST_RESERVED + 7;
pub const IN: u8 = FIRST_RESERVED + 8;
pub const HAS: u8 = FIRST_RESERVED + 9;
pub const LIKE: u8 = FIRST_RESERVED + 10;
pub const TRUE: u8 = FIRST_RESERVED + 11;
pub const FALSE: u8 = FIRST_RESERVED + 12;
pub const IF: u8 = FIRST_RESERVED + 13;
pub const THEN: u8 = FIRST_RESERVED + 14;
pub const ELSE: u8 = FIRST_RESERVED + 15;
pub const CONTAINS_ALL: u8 = FIRST_RESERVED + 16;
pub const CONTAINS_ANY: u8 = FIRST_RESERVED + 17;
pub const NOT_EQUAL: u8 = b'!' + 128;
pub const GREATER_OR_EQUAL: u8 = b'>' + 128;
pub const LESS_OR_EQUAL: u8 = b'<' + 128;

/// 01, "Sizes": word 64 bytes.
const LONGEST_WORD: usize = 64;
/// 01, "Sizes": string 127 inside its quotes.
const LONGEST_STRING: usize = 127;
/// 01, "Sizes": number 15 digits in all.
const MOST_DIGITS: usize = 15;

/// One token: what it is, and its bytes `start..end` of the text.
#[derive(Clone, Copy, PartialEq, Eq, Debug)]
pub struct Token {
    pub kind: u8,
    pub start: usize,
    pub end: usize,
}

impl Token {
    /// Whether the token itself breaks a rule (refusals 3 to 6).
    pub fn is_refused(self) -> bool {
        (BAD_BYTE..=TOO_LONG).contains(&self.kind)
    }

    /// Whether the token is a reserved word.
    pub fn is_reserved(self) -> bool {
        (PERMIT..=CONTAINS_ANY).contains(&self.kind)
    }
}

/// A line and a column, both from 1; the column counts characters.
#[derive(Clone, Copy, PartialEq, Eq, Debug)]
pub struct Place {
    pub line: usize,
    pub column: usize,
}

/// 01, "The rule text": the classes of bytes.
#[derive(Clone, Copy, PartialEq, Eq, Debug)]
pub enum Class {
    Letter,
    Digit,
    Blank,
    Mark,
    TextOnly,
    Never,
}

/// 01, "The rule text": every byte's class. A mark is here any other byte of a token's form.
pub fn class_of(byte: u8) -> Class {
    match byte {
        b'A'..=b'Z' | b'a'..=b'z' => Class::Letter,
        b'0'..=b'9' => Class::Digit,
        b' ' | b'\t' | b'\n' | b'\r' => Class::Blank,
        b'(' | b')' | b'{' | b'}' | b'[' | b']' | b',' | b';' | b'.' => Class::Mark,
        b'!' | b'&' | b'|' | b'=' | b'<' | b'>' | b'"' | b'-' | b'_' => Class::Mark,
        0x00..=0x1F | 0x7F => Class::Never,
        _ => Class::TextOnly,
    }
}

/// The next token at or after `at`: blanks are passed first, then the longest possible token is read.
pub fn token_at(text: &[u8], at: usize) -> Token {
    let start = end_of_run(text, at, |byte| class_of(byte) == Class::Blank);
    if start >= text.len() {
        return Token { kind: END_OF_TEXT, start: text.len(), end: text.len() };
    }
    match class_of(text[start]) {
        Class::Letter => word_at(text, start),
        Class::Digit => number_at(text, start),
        Class::Mark => match text[start] {
            b'"' => string_at(text, start),
            b'-' if is_digit_at(text, start + 1) => number_at(text, start),
            _ => mark_at(text, start),
        },
        Class::Blank | Class::TextOnly | Class::Never => no_token_at(text, start),
    }
}

/// All tokens one after the other, the end of text last. A refused token is passed like any other.
pub fn all_tokens(text: &[u8]) -> Vec<Token> {
    let mut tokens = Vec::new();
    let mut at = 0;
    loop {
        let token = token_at(text, at);
        tokens.push(token);
        if token.kind == END_OF_TEXT {
            return tokens;
        }
        at = token.end;
    }
}

/// 01, "Refusal numbers": the line and column of an offset; the end of text is one past the last byte.
/// 01, "The rule text": only a line feed ends a line. 02, request 5: columns count characters.
pub fn place_of(text: &[u8], offset: usize) -> Place {
    let before = &text[..offset];
    let line_feeds = before.iter().filter(|byte| **byte == b'\n').count();
    let line_start = match before.iter().rposition(|byte| *byte == b'\n') {
        Some(line_feed) => line_feed + 1,
        None => 0,
    };
    let columns = columns_begun(text)[line_start..offset].iter().filter(|begun| **begun).count();
    Place { line: line_feeds + 1, column: columns + 1 }
}

/// For each byte of a text whether a column begins at it. 02, request 5: a string's characters are its columns; in a string that isn't
/// UTF-8, and outside of strings, where no byte of a longer character may stand, each byte is one. What stands between one quote and the
/// next, or the end of text, is a string, and is judged whole.
pub fn columns_begun(text: &[u8]) -> Vec<bool> {
    let mut begun = Vec::new();
    for (index, piece) in text.split(|byte| *byte == b'"').enumerate() {
        if index > 0 {
            begun.push(true);
        }
        let by_characters = index % 2 == 1 && is_utf8(piece);
        begun.extend(piece.iter().map(|byte| !(by_characters && goes_on(*byte))));
    }
    begun
}

/// The first offset at or after `from` whose byte does not belong to the run, or the text's length.
fn end_of_run(text: &[u8], from: usize, belongs: fn(u8) -> bool) -> usize {
    let mut at = from;
    while at < text.len() && belongs(text[at]) {
        at += 1;
    }
    at
}

fn is_digit(byte: u8) -> bool {
    class_of(byte) == Class::Digit
}

fn is_digit_at(text: &[u8], at: usize) -> bool {
    at < text.len() && is_digit(text[at])
}

/// 01, "The rule text", Word: a letter, then letters, digits, `_`, `-`.
fn continues_word(byte: u8) -> bool {
    class_of(byte) == Class::Letter || is_digit(byte) || byte == b'_' || byte == b'-'
}

/// 01, "The rule text", Word. Reserved words have their own kinds; any other word is a name.
fn word_at(text: &[u8], start: usize) -> Token {
    let end = end_of_run(text, start, continues_word);
    let kind = if end - start > LONGEST_WORD { TOO_LONG } else { kind_of_word(&text[start..end]) };
    Token { kind, start, end }
}

fn kind_of_word(word: &[u8]) -> u8 {
    match RESERVED_WORDS.iter().position(|reserved| reserved.as_bytes() == word) {
        Some(index) => FIRST_RESERVED + index as u8,
        None => NAME,
    }
}

/// 01, "The rule text", Number: optional `-` directly before digits, optionally `.` and digits.
fn number_at(text: &[u8], start: usize) -> Token {
    let digits_start = if text[start] == b'-' { start + 1 } else { start };
    let mut end = end_of_run(text, digits_start, is_digit);
    let mut digits = end - digits_start;
    if end < text.len() && text[end] == b'.' && is_digit_at(text, end + 1) {
        let fraction_start = end + 1;
        end = end_of_run(text, fraction_start, is_digit);
        digits += end - fraction_start;
    }
    let kind = if digits > MOST_DIGITS { TOO_LONG } else { NUMBER };
    Token { kind, start, end }
}

/// 01, "The rule text", String: between two `"`, bytes 0x20 to 0x7E and 0x80 up, without `"`.
/// 01, "Refusal numbers": at one token the lowest number, so 3 before 5 before 6.
fn string_at(text: &[u8], start: usize) -> Token {
    let inside_start = start + 1;
    let inside_end = end_of_run(text, inside_start, |byte| byte != b'"');
    let inside = &text[inside_start..inside_end];
    if let Some(index) = inside.iter().position(|byte| *byte < 0x20 || *byte == 0x7F) {
        let bad = inside_start + index;
        return Token { kind: BAD_BYTE, start: bad, end: bad + 1 };
    }
    if inside_end == text.len() {
        return Token { kind: UNENDED_STRING, start, end: text.len() };
    }
    let kind = if inside.len() > LONGEST_STRING { TOO_LONG } else { STRING };
    Token { kind, start, end: inside_end + 1 }
}

/// 01, "The rule text", Marks. `!=`, `<=` and `>=` are their first byte with 128 added.
fn mark_at(text: &[u8], start: usize) -> Token {
    let first = text[start];
    let second = text.get(start + 1).copied();
    let (kind, length) = match (first, second) {
        (b'&', Some(b'&')) | (b'|', Some(b'|')) | (b'=', Some(b'=')) => (first, 2),
        (b'!', Some(b'=')) | (b'<', Some(b'=')) | (b'>', Some(b'=')) => (first + 128, 2),
        (b'(' | b')' | b'{' | b'}' | b'[' | b']', _) => (first, 1),
        (b',' | b';' | b'.' | b'!' | b'<' | b'>', _) => (first, 1),
        _ => return no_token_at(text, start),
    };
    Token { kind, start, end: start + length }
}

/// 01, "Refusal numbers", 3 and 4: a byte at which no token starts.
fn no_token_at(text: &[u8], start: usize) -> Token {
    let kind = if text[start] == b':' { COLON } else { BAD_BYTE };
    Token { kind, start, end: start + 1 }
}

#[cfg(test)]
mod tests {
    use super::*;

    const P: &str = "permit(principal,action,resource)";

    /// Each token as (kind, start, end), the end of text left out.
    fn read(text: &[u8]) -> Vec<(u8, usize, usize)> {
        let mut tokens = all_tokens(text);
        let last = tokens.pop().unwrap();
        assert_eq!(last, Token { kind: END_OF_TEXT, start: text.len(), end: text.len() });
        tokens.iter().map(|token| (token.kind, token.start, token.end)).collect()
    }

    fn place(text: &[u8], offset: usize) -> (usize, usize) {
        let place = place_of(text, offset);
        (place.line, place.column)
    }

    /// A string with `length` bytes inside its quotes.
    fn string_of(length: usize) -> Vec<u8> {
        let mut text = vec![b's'; length + 2];
        text[0] = b'"';
        text[length + 1] = b'"';
        text
    }

    #[test]
    fn case_a_the_empty_text_is_only_its_end() {
        assert_eq!(all_tokens(b""), vec![Token { kind: 0, start: 0, end: 0 }]);
        assert_eq!(place(b"", 0), (1, 1));
    }

    #[test]
    fn case_b_has_nine_tokens() {
        let text = format!("{};", P);
        let kinds: Vec<u8> = read(text.as_bytes()).iter().map(|token| token.0).collect();
        assert_eq!(kinds, vec![201, 40, 204, 44, 206, 44, 205, 41, 59]);
    }

    #[test]
    fn case_c_the_end_of_text_is_at_1_34() {
        let text = P.as_bytes();
        assert_eq!(place(text, all_tokens(text).last().unwrap().start), (1, 34));
    }

    #[test]
    fn cases_d_e_f_name_these_tokens() {
        for (rest, column, kind) in [
            ("when{principal.a};", 50, b'}'),
            ("when{principal.if==1};", 49, 214),
            ("when{action.kind==\"x\"};", 46, NAME),
        ] {
            let text = format!("{}{}", P, rest);
            let tokens = all_tokens(text.as_bytes());
            let token = tokens.iter().find(|token| token.start == column - 1).unwrap();
            assert_eq!(token.kind, kind);
            assert_eq!(place(text.as_bytes(), token.start), (1, column));
        }
    }

    #[test]
    fn reserved_words_have_the_kinds_201_to_218() {
        for (index, word) in RESERVED_WORDS.iter().enumerate() {
            assert_eq!(read(word.as_bytes()), vec![(201 + index as u8, 0, word.len())]);
            let longer = format!("{}s", word);
            assert_eq!(read(longer.as_bytes()), vec![(NAME, 0, longer.len())]);
            assert_eq!(read(word.to_ascii_uppercase().as_bytes())[0].0, NAME);
        }
        assert_eq!(read(b"else")[0].0, ELSE);
        assert_eq!(read(b"containsAny")[0].0, CONTAINS_ANY);
        assert_eq!(read(b"containsAny")[0].0, 218);
        assert_eq!(read(b"containsany")[0].0, NAME);
    }

    #[test]
    fn marks_have_their_kinds() {
        for (mark, kind) in [
            ("(", 40),
            (")", 41),
            ("{", 123),
            ("}", 125),
            ("[", 91),
            ("]", 93),
            (",", 44),
            (";", 59),
            (".", 46),
            ("!", 33),
            ("&&", 38),
            ("||", 124),
            ("==", 61),
            ("!=", 161),
            (">", 62),
            (">=", 190),
            ("<", 60),
            ("<=", 188),
        ] {
            assert_eq!(read(mark.as_bytes()), vec![(kind, 0, mark.len())]);
        }
    }

    // Several rules broken at one token: 3 before 5 before 6, over the string up to its closing quote or the end.
    #[test]
    fn a_string_is_judged_up_to_its_closing_quote() {
        let mut long_with_bad_byte = string_of(300);
        long_with_bad_byte[250] = 0x01;
        assert_eq!(token_at(&long_with_bad_byte, 0), Token { kind: 3, start: 250, end: 251 });

        assert_eq!(token_at(b"\"ab\x01cd", 0), Token { kind: 3, start: 3, end: 4 });
        assert_eq!(token_at(b"\"ab\tcd\"", 0), Token { kind: 3, start: 3, end: 4 });
        assert_eq!(token_at(b"\"a\x7f\x01\"", 0), Token { kind: 3, start: 2, end: 3 });

        let unended = &string_of(300)[..301];
        assert_eq!(token_at(unended, 0), Token { kind: 5, start: 0, end: 301 });
        assert_eq!(token_at(b"  \"", 0), Token { kind: 5, start: 2, end: 3 });

        assert_eq!(token_at(&string_of(0), 0), Token { kind: STRING, start: 0, end: 2 });
        assert_eq!(token_at(&string_of(127), 0), Token { kind: STRING, start: 0, end: 129 });
        assert_eq!(token_at(&string_of(128), 0), Token { kind: 6, start: 0, end: 130 });
    }

    // After a bad byte in a string the next token is read from the byte after it.
    #[test]
    fn reading_goes_on_after_the_bad_byte() {
        assert_eq!(read(b"\"a\x01b\""), vec![(3, 2, 3), (NAME, 3, 4), (5, 4, 5)]);
    }

    #[test]
    fn words_and_numbers_pass_at_their_size_and_not_one_above() {
        assert_eq!(read(&[b'w'; 64]), vec![(NAME, 0, 64)]);
        assert_eq!(read(&[b'w'; 65]), vec![(6, 0, 65)]);
        assert_eq!(read(&[b'7'; 15]), vec![(NUMBER, 0, 15)]);
        assert_eq!(read(&[b'7'; 16]), vec![(6, 0, 16)]);
        assert_eq!(read(b"-12345678.1234567"), vec![(NUMBER, 0, 17)]);
        assert_eq!(read(b"-12345678.12345678"), vec![(6, 0, 18)]);
        assert_eq!(read(b"123456789012345."), vec![(NUMBER, 0, 15), (b'.', 15, 16)]);
    }

    // Bytes at which no token starts, and neighbours that do or do not join.
    #[test]
    fn the_longest_possible_token_is_read() {
        for lone in ["&", "|", "=", "-", "_", "@", "/", "\u{7f}", "*", "+", "?", "'", "\\"] {
            assert_eq!(read(lone.as_bytes()), vec![(3, 0, 1)]);
        }
        assert_eq!(read(b"\x80\xff"), vec![(3, 0, 1), (3, 1, 2)]);
        assert_eq!(read(b"a:b"), vec![(NAME, 0, 1), (4, 1, 2), (NAME, 2, 3)]);
        assert_eq!(read(b"==="), vec![(61, 0, 2), (3, 2, 3)]);
        assert_eq!(read(b"!=="), vec![(161, 0, 2), (3, 2, 3)]);
        assert_eq!(read(b"<=="), vec![(188, 0, 2), (3, 2, 3)]);
        assert_eq!(read(b"&&&"), vec![(38, 0, 2), (3, 2, 3)]);
        assert_eq!(read(b"|||"), vec![(124, 0, 2), (3, 2, 3)]);
        assert_eq!(read(b"1-5"), vec![(NUMBER, 0, 1), (NUMBER, 1, 3)]);
        assert_eq!(read(b"a-5"), vec![(NAME, 0, 3)]);
        assert_eq!(read(b"5."), vec![(NUMBER, 0, 1), (46, 1, 2)]);
        assert_eq!(read(b".5"), vec![(46, 0, 1), (NUMBER, 1, 2)]);
        assert_eq!(read(b"1e5"), vec![(NUMBER, 0, 1), (NAME, 1, 3)]);
        assert_eq!(read(b"--1"), vec![(3, 0, 1), (NUMBER, 1, 3)]);
        assert_eq!(read(b"1.2.3"), vec![(NUMBER, 0, 3), (46, 3, 4), (NUMBER, 4, 5)]);
        assert_eq!(read(b"- 1"), vec![(3, 0, 1), (NUMBER, 2, 3)]);
    }

    // The classes, counted; and that a string's bytes are not "every class but never".
    #[test]
    fn every_byte_has_its_class() {
        let count = |class| (0..=255u8).filter(|byte| class_of(*byte) == class).count();
        assert_eq!(count(Class::Letter), 52);
        assert_eq!(count(Class::Digit), 10);
        assert_eq!(count(Class::Blank), 4);
        assert_eq!(count(Class::Mark), 18);
        assert_eq!(count(Class::TextOnly), 142);
        assert_eq!(count(Class::Never), 30);
        for byte in b"(){}[],;.!&|=<>\"-_".iter() {
            assert_eq!(class_of(*byte), Class::Mark);
        }
        for byte in 0..=255u8 {
            let token = token_at(&[b'"', byte, b'"'], 0);
            let expected = match byte {
                b'"' => Token { kind: STRING, start: 0, end: 2 },
                0x20..=0x7E | 0x80..=0xFF => Token { kind: STRING, start: 0, end: 3 },
                _ => Token { kind: 3, start: 1, end: 2 },
            };
            assert_eq!(token, expected, "byte {}", byte);
        }
    }

    #[test]
    fn the_end_of_text_has_a_place() {
        assert_eq!(place(b"a\n", 2), (2, 1));
        assert_eq!(place(b"a\n\n", 3), (3, 1));
        assert_eq!(place(b"a  ", 3), (1, 4));
        assert_eq!(place(b"a\r", 2), (1, 3));
        assert_eq!(place(b"a\r\nb", 3), (2, 1));
        assert_eq!(place(b"a\n", 1), (1, 2));
        assert_eq!(token_at(b"a \n ", 1), Token { kind: 0, start: 4, end: 4 });
    }

    // 02, request 5. The only place inside a string is that of a byte that it may not hold.
    #[test]
    fn columns_count_characters() {
        assert_eq!(place("\"Süd\" x".as_bytes(), 7), (1, 7));
        assert_eq!(place(b"\"S\xFCd\" x", 6), (1, 7));
        assert_eq!(place("\"aü€😀\"x".as_bytes(), 12), (1, 7));
        assert_eq!(place("\"Sü\u{1}\"".as_bytes(), 4), (1, 4));
        assert_eq!(place(b"\"S\xC3\xBC\x01\xFF\"", 4), (1, 5));
        // Up to the end of text where no quote ends the string.
        assert_eq!(place("\"Sü\u{1}".as_bytes(), 4), (1, 4));
        assert_eq!(place(b"\"S\xC3\xBC\x01\xFF", 4), (1, 5));
        // Only up to its quote: what stands behind is judged by itself.
        assert_eq!(place(b"\"S\xC3\xBC\x01\"\xFF\"\xFF", 4), (1, 4));
        assert_eq!(place("\"ü\"\n\"ü\" ü".as_bytes(), 9), (2, 4));
        // Outside of strings each byte is one.
        assert_eq!(place("ü ü".as_bytes(), 3), (1, 4));
    }
}
