//! The token vectors: texts, and one line that sums up all their tokens.

use definitions::tokens::{all_tokens, place_of, RESERVED_WORDS};
use generators::policy_texts::{policy, put_blanks, text_of};
use generators::random::Random;
use generators::wide_strings::{self, BROKEN, CHARACTERS};

use crate::vector::Vector;

/// Every mark, and the bytes that only begin one.
const MARKS: [&str; 21] =
    ["(", ")", "{", "}", "[", "]", ",", ";", ".", "!", "&", "&&", "|", "||", "=", "==", "!=", ">", ">=", "<", "<="];

/// Texts on the borders between tokens.
const BORDERS: [&str; 62] = [
    "5.", ".5", "5.5", "5..5", "5.5.5", "-5.", "-.5", "-", "--", "--1", "- 1", "-1-1", "1-5", "1 -5", "1--5", "a-5",
    "a -5", "a--5", "1e5", "1a", "1_", "_1", "a_", "a.b", "a .b", "a. b", "a.5", "5.a", "0x1", "+1", "1,5", "00", "-0",
    "-00.00", "===", "====", "= =", "!==", "!===", "! =", "!!", "!!=", "<==", "<=>", "<>", "><", ">==", ">>=", "&&&",
    "&&&&", "& &", "|||", "||||", "| |", "&|", "=!", "a:b", "::", "\":\"", "\"\"\"", "\"\"\"\"", "//",
];

/// Byte sequences that are no UTF-8, and some that are.
const SEQUENCES: [&[u8]; 12] = [
    b"\x80", b"\xbf", b"\xc3", b"\xc3\x28", b"\xc0\xaf", b"\xe2\x82", b"\xe2\x28\xa1", b"\xed\xa0\x80",
    b"\xf0\x9f\x98", b"\xf5\x80\x80\x80", b"\xc3\xbc", b"\xff\xfe",
];

/// Bytes that tell much about a reader of tokens.
const TELLING: &[u8] = b"\"\"::..--019aZn__&&||==!!<>>(;{/\\ \n\r\t\x00\x01\x1f\x7f\x80\xc3\xff";

/// The same without most of those that give refusal 3 at once.
const MILD: &[u8] = b"\"\"\":..-019aZn!!<>=(;{  \n";

/// Bytes that no string may hold.
const BAD_IN_STRINGS: [u8; 7] = [0x00, 0x01, 0x09, 0x0A, 0x0D, 0x1F, 0x7F];

/// The answer: count, sum, then the first refused token (or the end of text) with its place.
pub fn answer(vector: &Vector) -> String {
    let text = &vector[0];
    let tokens = all_tokens(text);
    let mut sum: u64 = 0;
    for token in &tokens {
        let place = place_of(text, token.start);
        for number in [token.kind as usize, token.start, token.end, place.line, place.column] {
            sum = (sum * 31 + number as u64) % 1_000_003;
        }
    }
    let end_of_text = tokens[tokens.len() - 1];
    let told = tokens.iter().copied().find(|token| token.is_refused()).unwrap_or(end_of_text);
    let place = place_of(text, told.start);
    format!("{} {} {} {} {} {} {}", tokens.len(), sum, told.kind, told.start, told.end, place.line, place.column)
}

/// The vectors that are the same for every seed.
pub fn fixed() -> Vec<Vector> {
    let mut texts = vec![Vec::new()];
    add_every_byte(&mut texts);
    add_reserved_words(&mut texts);
    add_words(&mut texts);
    add_strings(&mut texts);
    add_numbers(&mut texts);
    add_sequences(&mut texts);
    add_longest_texts(&mut texts);
    texts.extend(BORDERS.iter().map(|text| text.as_bytes().to_vec()));
    add_wide_strings(&mut texts);
    texts.into_iter().map(|text| vec![text]).collect()
}

/// Each byte alone, inside a string, and after a letter, a digit, a point, a `-`, a quote and each mark.
fn add_every_byte(texts: &mut Vec<Vec<u8>>) {
    let mut befores = vec!["", "a", "1", "1.", "-", "\""];
    befores.extend_from_slice(&MARKS);
    for byte in 0..=255u8 {
        for before in &befores {
            texts.push([before.as_bytes(), &[byte]].concat());
        }
        texts.push(vec![b'"', byte, b'"']);
    }
}

/// Each reserved word, with a letter more, a letter less, other case, and glued to a neighbour.
fn add_reserved_words(texts: &mut Vec<Vec<u8>>) {
    for word in RESERVED_WORDS {
        let (first, rest) = word.split_at(1);
        let (start, last) = word.split_at(word.len() - 1);
        for text in [
            word.to_string(),
            format!("{}s", word),
            format!("x{}", word),
            format!("{}1", word),
            format!("{}-", word),
            format!("{}_", word),
            start.to_string(),
            rest.to_string(),
            word.to_ascii_uppercase(),
            word.to_ascii_lowercase(),
            format!("{}{}", first.to_ascii_uppercase(), rest),
            format!("{}{}", start, last.to_ascii_uppercase()),
            format!("{}.{}({}", word, word, word),
            format!("1{}-1", word),
            format!("\"{}\"{}\n{} ", word, word, word),
        ] {
            texts.push(text.into_bytes());
        }
    }
}

/// Words of about 64 bytes, and twice that.
fn add_words(texts: &mut Vec<Vec<u8>>) {
    for length in [63, 64, 65, 66, 127, 128, 129] {
        for filler in [b'a', b'Z', b'-', b'_', b'9'] {
            let mut word = vec![filler; length];
            word[0] = b'w';
            texts.push(word.clone());
            texts.push([b"\n ", word.as_slice(), b".x"].concat());
            word[..6].copy_from_slice(b"permit");
            texts.push([word.as_slice(), b"\x80a"].concat());
        }
    }
}

/// Strings of about 127 bytes, ended and unended, with and without a bad byte.
fn add_strings(texts: &mut Vec<Vec<u8>>) {
    for length in [0, 1, 126, 127, 128, 129, 255, 256] {
        for ended in [true, false] {
            let end: &[u8] = if ended { b"\"" } else { b"" };
            for filler in [b's', b' ', b':', 0x80, 0xFF] {
                let inside = vec![filler; length];
                texts.push([b"\"", inside.as_slice(), end].concat());
                texts.push([b"x\n\"", inside.as_slice(), end, b";1"].concat());
            }
            for at in [0, 1, 125, 126, 127, 128, 200, 254] {
                if at < length {
                    for bad in BAD_IN_STRINGS {
                        let mut inside = vec![b's'; length];
                        inside[at] = bad;
                        texts.push([b"\"", inside.as_slice(), end].concat());
                    }
                }
            }
        }
    }
}

/// Numbers of about 15 digits, with the point at every place, before and after other tokens.
fn add_numbers(texts: &mut Vec<Vec<u8>>) {
    for digits in [1, 2, 14, 15, 16, 17, 31] {
        for before_point in 0..=digits {
            let mut number: Vec<u8> = (0..digits).map(|index| b'0' + (index % 10) as u8).collect();
            number.insert(before_point, b'.');
            for (before, after) in [("", ""), ("-", ""), ("a ", "."), ("-", "a"), ("1-", ".5"), ("", "-1")] {
                texts.push([before.as_bytes(), &number, after.as_bytes()].concat());
            }
        }
        texts.push(vec![b'9'; digits]);
        texts.push([b"-", vec![b'0'; digits].as_slice(), b"]"].concat());
    }
}

/// Malformed UTF-8, outside and inside strings and at their ends.
fn add_sequences(texts: &mut Vec<Vec<u8>>) {
    for sequence in SEQUENCES {
        for (before, after) in [("", ""), ("\"", "\""), ("\"", ""), ("a", "b"), ("\"x", "x\" y\n"), ("\n\"a\" ", ";")] {
            texts.push([before.as_bytes(), sequence, after.as_bytes()].concat());
        }
    }
}

/// 02, request 5: columns behind and inside strings of characters of every length, and of strings that are not UTF-8, whole, cut off, and with
/// bytes that no string may hold.
fn add_wide_strings(texts: &mut Vec<Vec<u8>>) {
    let characters = CHARACTERS.iter().map(|character| character.to_string().into_bytes());
    for sequence in characters.chain(BROKEN.iter().map(|bytes| bytes.to_vec())) {
        for (before, after) in [
            ("\"", "\" x"),
            ("\"S", "d\"\"ü\" x"),
            ("\"ü", "\u{1}\" x"),
            ("\"\u{1}ü", "\" x"),
            ("\"ü\n€", "\" x"),
            ("\"ü", ""),
            ("\"\u{1}", "ü"),
            ("ü\"", "\"ü"),
        ] {
            texts.push([before.as_bytes(), &sequence, after.as_bytes()].concat());
        }
    }
}

/// 8,192 bytes (and once 8,200) of one token or of blanks, and many short lines.
fn add_longest_texts(texts: &mut Vec<Vec<u8>>) {
    let run = |byte: u8, length: usize| vec![byte; length];
    texts.push(run(b'w', 8_192));
    texts.push(run(b'7', 8_192));
    texts.push([b"0.", run(b'7', 8_190).as_slice()].concat());
    texts.push([b"\"", run(b's', 8_190).as_slice(), b"\""].concat());
    texts.push([b"\"", run(b's', 8_191).as_slice()].concat());
    texts.push([b"\"", run(b's', 8_190).as_slice(), b"\x7f"].concat());
    texts.push(run(b' ', 8_192));
    texts.push(run(b'\n', 8_192));
    texts.push([run(b'\r', 8_191).as_slice(), b";"].concat());
    texts.push([run(b' ', 4_096).as_slice(), b"\n", &run(b' ', 4_103)].concat());
    texts.push(b"a\n".repeat(1_000));
    texts.push(b"\n\n\t!=".repeat(400));
}

/// A random vector.
pub fn random(random: &mut Random) -> Vector {
    let text = match random.below(100) {
        0..=14 => valid_text(random),
        15..=37 => {
            let text = valid_text(random);
            damaged(text, random)
        }
        38..=59 => row_of_tokens(random),
        60..=63 => random_bytes(random),
        64..=67 => wide_strings::text(random),
        68..=84 => telling_bytes(random),
        _ => text_at_the_sizes(random),
    };
    vec![text]
}

/// A valid text: mostly one policy, sometimes a few, rarely as many as 8,192 bytes hold.
fn valid_text(random: &mut Random) -> Vec<u8> {
    let wanted = match random.below(600) {
        0 => 64,
        1..=40 => random.between(2, 4),
        _ => 1,
    };
    let mut text = Vec::new();
    for _ in 0..wanted {
        let tokens = policy(random);
        let more = text_of(&tokens, random);
        if text.len() + more.len() <= 8_192 {
            text.extend(more);
        }
    }
    text
}

/// The text with one to three bytes changed, removed or inserted, or cut anywhere.
fn damaged(mut text: Vec<u8>, random: &mut Random) -> Vec<u8> {
    for _ in 0..random.between(1, 3) {
        let byte = if random.one_in(3) { random.byte() } else { random.pick(TELLING) };
        let at = random.below(text.len() + 1);
        match random.below(5) {
            0 => text.insert(at, byte),
            1 => text.truncate(at),
            2 => text = text.split_off(at),
            3 if at < text.len() => {
                text.remove(at);
            }
            _ if at < text.len() => text[at] = byte,
            _ => text.push(byte),
        }
    }
    text
}

/// Some tokens of any kind in a row, with blanks or without.
fn row_of_tokens(random: &mut Random) -> Vec<u8> {
    let blanks_in = random.pick(&[1, 2, 5, 1_000]);
    let mut text = Vec::new();
    for _ in 0..random.between(1, 16) {
        match random.below(8) {
            0 => text.extend_from_slice(random.pick(&RESERVED_WORDS).as_bytes()),
            1 => put_some(&mut text, random, b"abcXYZ019_-", 6),
            2 => put_some(&mut text, random, b"0123456789.-", 6),
            3 => {
                text.push(b'"');
                put_some(&mut text, random, b"ab :*?;}\xc3\xbc/1", 6);
                text.push(b'"');
            }
            4 => text.extend_from_slice(random.pick(&BORDERS).as_bytes()),
            _ => text.extend_from_slice(random.pick(&MARKS).as_bytes()),
        }
        if random.one_in(blanks_in) {
            put_blanks(&mut text, random);
        }
    }
    text
}

/// None to `most` bytes out of the choices.
fn put_some(text: &mut Vec<u8>, random: &mut Random, choices: &[u8], most: usize) {
    for _ in 0..random.between(0, most) {
        text.push(random.pick(choices));
    }
}

fn random_bytes(random: &mut Random) -> Vec<u8> {
    (0..random.between(0, 60)).map(|_| random.byte()).collect()
}

fn telling_bytes(random: &mut Random) -> Vec<u8> {
    let (choices, most) = random.pick(&[(TELLING, 40), (MILD, 10), (MILD, 40)]);
    (0..random.between(0, most)).map(|_| random.pick(choices)).collect()
}

/// A word, string or number at its greatest size or near it, between other tokens.
fn text_at_the_sizes(random: &mut Random) -> Vec<u8> {
    let mut text = Vec::new();
    put_some(&mut text, random, b"a1.(\n \t;", 6);
    match random.below(5) {
        0 | 1 => {
            text.push(random.pick(b"aZp"));
            let length = random.between(61, 66);
            text.extend((0..length).map(|_| random.pick(b"abcXYZ019_-")));
        }
        2 | 3 => {
            let length = random.between(13, 17);
            let start = text.len();
            text.extend((0..length).map(|_| random.pick(b"0123456789")));
            let point = start + random.between(0, length);
            text.insert(point, b'.');
            if random.one_in(2) {
                text.insert(start, b'-');
            }
        }
        _ => {
            text.push(b'"');
            let length = random.between(124, 130);
            text.extend((0..length).map(|_| random.pick(b"ab :;}\xc3\xbc")));
            if random.one_in(4) {
                let at = text.len() - random.between(1, 10);
                text[at] = random.pick(&BAD_IN_STRINGS);
            }
            if !random.one_in(4) {
                text.push(b'"');
            }
        }
    }
    put_some(&mut text, random, b"a1.(\n \t;\"", 6);
    text
}

#[cfg(test)]
mod tests {
    use super::*;

    // Worked by hand: the name (110 0 1 1 1) and the end of text (0 1 1 1 2).
    #[test]
    fn the_answer_sums_up_the_tokens() {
        assert_eq!(answer(&vec![b"a".to_vec()]), "2 317115 0 1 1 1 2");
    }

    #[test]
    fn the_first_refused_token_is_told() {
        let answer = answer(&vec![b"a\n :\x01".to_vec()]);
        assert!(answer.starts_with("4 "));
        assert!(answer.ends_with(" 4 3 4 2 2"));
    }

    #[test]
    fn texts_have_at_most_8200_bytes() {
        let mut source = Random::new(6);
        assert!(fixed().iter().all(|vector| vector[0].len() <= 8_200));
        for _ in 0..20_000 {
            assert!(random(&mut source)[0].len() <= 8_200);
        }
    }
}
