//! The pattern vectors: a pattern and a string, and whether the string is like the pattern, or that the pattern is not UTF-8.

use definitions::characters::is_utf8;
use definitions::patterns::like;
use generators::random::Random;
use generators::wide_strings::{BROKEN, CHARACTERS};

use crate::vector::Vector;

/// The characters of some strings, all of one byte, and of the others, which have up to four bytes.
const ALPHABET: &[char] = &['a', 'a', 'a', 'a', 'b', 'b', 'A', '1'];
const WIDE: &[char] = &['a', 'ü', 'ü', 'ü', 'ö', '€', '😀', '\u{fb}'];

/// The most bytes of a pattern and of a string.
const LONGEST_PATTERN: usize = 127;
const LONGEST_STRING: usize = 130;

/// Pairs that every seed has: cases J and K of 01, `Süd` of 02, request 5, and others that go wrong easily.
const PAIRS: [(&str, &str); 48] = [
    ("S?d", "Süd"),
    ("S??d", "Süd"),
    ("Süd", "Süd"),
    ("Süd", "Sud"),
    ("Sud", "Süd"),
    ("S?d", "Su\u{308}d"),
    ("S??d", "Su\u{308}d"),
    ("?", "ü"),
    ("?", "€"),
    ("?", "😀"),
    ("*ü", "üü"),
    ("ü*ü", "ü"),
    ("*€?", "€€😀"),
    ("ü:?", "ü:€"),
    ("shaft:*", "shaft:A1"),
    ("shaft:*", "shaft:"),
    ("shaft:*", "shaft:b:A1"),
    ("shaft:*", "shaft"),
    ("shaft:*", "Shaft:A1"),
    ("*A1", "A1A1"),
    ("*A1", "A1A"),
    ("A1*", "A1A1"),
    ("*A1*", "A1A1"),
    ("A1*A1", "A1"),
    ("A1*A1", "A1A1"),
    ("*A1", "A1:A1"),
    ("*:A1", "A1:A1"),
    ("*:A1", ":A1"),
    ("*:*", ":"),
    ("*:*", "a:b:c"),
    ("*:*:*", "a:b:c"),
    ("?:?", "a:b"),
    ("?:?", ":::"),
    ("*?", "a"),
    ("*?", ""),
    ("?*", ":"),
    ("?*?", "ab"),
    ("?*?", "a"),
    ("a*ab", "aaab"),
    ("a*aab", "aab"),
    ("*ab*ab", "abab"),
    ("*ab*ab", "aab"),
    ("*aab*", "aaaab"),
    ("*1*2*3*", "112233"),
    ("[a]", "a"),
    ("{a,b}", "a"),
    ("\\*", "*"),
    ("\\*", "\\a"),
];

fn vector(pattern: &[u8], string: &[u8]) -> Vector {
    vec![pattern.to_vec(), string.to_vec()]
}

/// The answer: 1 if the string is like the pattern, else 0; 2 if the pattern is not UTF-8, as no rule text's is.
pub fn answer(vector: &Vector) -> String {
    let answer = match (is_utf8(&vector[0]), like(&vector[0], &vector[1])) {
        (false, _) => "2",
        (true, true) => "1",
        (true, false) => "0",
    };
    answer.to_string()
}

/// The vectors that are the same for every seed.
pub fn fixed() -> Vec<Vector> {
    let mut vectors: Vec<Vector> =
        PAIRS.iter().map(|(pattern, string)| vector(pattern.as_bytes(), string.as_bytes())).collect();
    add_every_byte(&mut vectors);
    add_all_short_pairs(&mut vectors);
    add_colons_at_every_place(&mut vectors);
    add_long_pairs(&mut vectors);
    add_wide_characters(&mut vectors);
    add_broken_strings(&mut vectors);
    add_all_short_wide_pairs(&mut vectors);
    add_long_wide_pairs(&mut vectors);
    vectors
}

/// Each character of the borders against wildcards, itself, its neighbours, and beside others.
fn add_wide_characters(vectors: &mut Vec<Vector>) {
    for (index, character) in CHARACTERS.iter().enumerate() {
        let own = character.to_string();
        let next = CHARACTERS[(index + 1) % CHARACTERS.len()].to_string();
        for (pattern, string) in [
            ("?".to_string(), own.clone()),
            ("??".to_string(), own.clone()),
            ("*".to_string(), own.clone()),
            ("S?d".to_string(), format!("S{}d", own)),
            ("S??d".to_string(), format!("S{}d", own)),
            ("S*d".to_string(), format!("S{}{}d", own, next)),
            (own.clone(), own.clone()),
            (own.clone(), next.clone()),
            (format!("*{}", next), format!("{}{}", own, next)),
            (format!("{}?", own), format!("{}{}", own, next)),
            (format!("?{}*", next), format!("{}{}{}", own, next, own)),
            (format!("*{}:?", own), format!("{}:{}", own, next)),
        ] {
            vectors.push(vector(pattern.as_bytes(), string.as_bytes()));
        }
    }
}

/// Strings that are not UTF-8 against patterns that would match each of their bytes, or all; patterns that are not UTF-8.
fn add_broken_strings(vectors: &mut Vec<Vector>) {
    for broken in BROKEN {
        for (before, after) in [("", ""), ("S", "d"), ("", "ü"), ("€:", "")] {
            let string = [before.as_bytes(), broken, after.as_bytes()].concat();
            for pattern in ["*", "?", "??", "S?d", "S??d", "S*d", "*d", "*ü", "?ü", "*:*", "€:*"] {
                vectors.push(vector(pattern.as_bytes(), &string));
            }
            vectors.push(vector("?".repeat(string.len()).as_bytes(), &string));
            vectors.push(vector(&string, &string));
            vectors.push(vector(&[&string[..], b"*"].concat(), b"S"));
        }
    }
}

/// Every pattern of up to 3 characters out of `ü : * ?` against every string of up to 3 characters out of `ü û :`, which differ in their last
/// byte alone.
fn add_all_short_wide_pairs(vectors: &mut Vec<Vector>) {
    let widened = |bytes: Vec<u8>| String::from_utf8_lossy(&bytes).replace('a', "ü").replace('b', "û");
    for pattern in all_short(b"a:*?").into_iter().map(widened) {
        for string in all_short(b"ab:").into_iter().map(widened) {
            vectors.push(vector(pattern.as_bytes(), string.as_bytes()));
        }
    }
}

/// Patterns of 100 characters and of 127 bytes, and strings of up to 130 bytes, of characters of one length each.
fn add_long_wide_pairs(vectors: &mut Vec<Vector>) {
    for character in ["ü", "€", "😀"] {
        let size = character.len();
        for length in [125, 126, 127] {
            let wide = character.repeat(length / size);
            let padded = [&wide[..], &"a".repeat(length % size)].concat();
            vectors.push(vector(padded.as_bytes(), padded.as_bytes()));
            vectors.push(vector(padded.as_bytes(), wide.as_bytes()));
            vectors.push(vector("?".repeat(length / size).as_bytes(), wide.as_bytes()));
            vectors.push(vector("?".repeat(length).as_bytes(), wide.as_bytes()));
            vectors.push(vector(b"*", wide.as_bytes()));
            vectors.push(vector(b"*?", wide.as_bytes()));
            vectors.push(vector(b"*a*", wide.as_bytes()));
            vectors.push(vector(["*", character, "*", character, "*b"].concat().as_bytes(), wide.as_bytes()));
            vectors.push(vector(b"*", &wide.as_bytes()[..wide.len() - 1]));
            vectors.push(vector(b"*", &wide.as_bytes()[1..]));
        }
        let hundred = [character.repeat(27 / (size - 1)), "a".repeat(100 - 27 / (size - 1))].concat();
        vectors.push(vector(hundred.as_bytes(), hundred.as_bytes()));
        vectors.push(vector("?".repeat(100).as_bytes(), hundred.as_bytes()));
        vectors.push(vector("?".repeat(99).as_bytes(), hundred.as_bytes()));
    }
}

/// Each byte against `?`, `*`, itself, itself in the other case, and as a pattern against two others.
fn add_every_byte(vectors: &mut Vec<Vector>) {
    for byte in 0..=255u8 {
        vectors.push(vector(b"?", &[byte]));
        vectors.push(vector(b"a*b", &[b'a', byte, b'b']));
        vectors.push(vector(&[byte], &[byte]));
        vectors.push(vector(&[byte], &[byte ^ 0x20]));
        vectors.push(vector(&[byte], b"a"));
        vectors.push(vector(&[b'a', byte], b"a"));
    }
}

/// Every pattern of up to 3 bytes out of `a : * ?` against every string of up to 3 bytes out of `a b :`.
fn add_all_short_pairs(vectors: &mut Vec<Vector>) {
    for pattern in all_short(b"a:*?") {
        for string in all_short(b"ab:") {
            vectors.push(vector(&pattern, &string));
        }
    }
}

/// Every byte string of up to 3 bytes out of these bytes.
fn all_short(bytes: &[u8]) -> Vec<Vec<u8>> {
    let mut all = vec![Vec::new()];
    let mut last_length = all.clone();
    for _ in 0..3 {
        let mut next_length = Vec::new();
        for start in &last_length {
            for byte in bytes {
                next_length.push([start.as_slice(), &[*byte]].concat());
            }
        }
        all.extend_from_slice(&next_length);
        last_length = next_length;
    }
    all
}

/// A colon put in at every place of the pattern, of the string, and of both.
fn add_colons_at_every_place(vectors: &mut Vec<Vector>) {
    for (pattern, string) in [("a*b?1", "aabbA1"), ("*ab*", "1ab1"), ("??*A", "abbA"), ("*", "ab")] {
        for in_pattern in 0..=pattern.len() {
            for in_string in 0..=string.len() {
                let mut with_colon = (pattern.as_bytes().to_vec(), string.as_bytes().to_vec());
                with_colon.0.insert(in_pattern, b':');
                with_colon.1.insert(in_string, b':');
                vectors.push(vector(pattern.as_bytes(), &with_colon.1));
                vectors.push(vector(&with_colon.0, string.as_bytes()));
                vectors.push(vector(&with_colon.0, &with_colon.1));
            }
        }
    }
}

/// The longest patterns and strings, and a few that cost much to whoever tries every run.
fn add_long_pairs(vectors: &mut Vec<Vector>) {
    let run = |byte: u8, length: usize| vec![byte; length];
    for length in [99, 100, 101, 110] {
        vectors.push(vector(&run(b'a', length), &run(b'a', length)));
        vectors.push(vector(&run(b'a', length), &run(b'a', length - 1)));
        vectors.push(vector(&run(b'?', length), &run(b'b', length)));
        vectors.push(vector(&run(b'?', length), &run(b'b', length + 1)));
    }
    for length in [126, 127, 128, 130] {
        vectors.push(vector(b"*", &run(b'a', length)));
        vectors.push(vector(b"*", &[run(b'a', length - 1).as_slice(), b":"].concat()));
        vectors.push(vector(b"a*a", &run(b'a', length)));
        vectors.push(vector(b"*b*", &run(b'a', length)));
        vectors.push(vector(b"*a*b*", &run(b'a', length)));
    }
    for pattern in ["*a*a*a*a*b", "a*a*a*a*a*b", "*aa*aa*aa*b", "*a*a*a*a*"] {
        vectors.push(vector(pattern.as_bytes(), &run(b'a', 40)));
        vectors.push(vector(pattern.as_bytes(), &[run(b'a', 40).as_slice(), b"b"].concat()));
    }
}

/// A random vector.
pub fn random(random: &mut Random) -> Vector {
    let letters = random.pick(&[ALPHABET, WIDE, WIDE]);
    let pattern = pattern(random, letters);
    let mut string = match random.below(12) {
        0 => some_string(random, letters),
        _ => string_like(&pattern, random, letters),
    };
    for _ in 0..random.pick(&[0, 0, 1, 1, 1, 2, 2, 3]) {
        damage(&mut string, random, letters);
    }
    let mut parts = [bytes_of(&pattern, LONGEST_PATTERN), bytes_of(&string, LONGEST_STRING)];
    if random.one_in(8) {
        break_characters(&mut parts[usize::from(!random.one_in(6))], random);
    }
    parts.to_vec()
}

/// The bytes of characters, without those that would be too many.
fn bytes_of(characters: &[char], most: usize) -> Vec<u8> {
    let mut bytes = Vec::new();
    for character in characters {
        let character = character.to_string();
        if bytes.len() + character.len() <= most {
            bytes.extend(character.bytes());
        }
    }
    bytes
}

/// A sequence that is no character put in anywhere, or a byte changed or removed: mostly not UTF-8 any more.
fn break_characters(bytes: &mut Vec<u8>, random: &mut Random) {
    let at = random.below(bytes.len() + 1);
    match random.below(4) {
        0 if at < bytes.len() => drop(bytes.remove(at)),
        1 if at < bytes.len() => bytes[at] = 0x80 | random.byte(),
        _ => drop(bytes.splice(at..at, random.pick(&BROKEN).iter().copied())),
    }
}

/// A pattern with up to 5 stars; two stars side by side are rare.
fn pattern(random: &mut Random, letters: &[char]) -> Vec<char> {
    let length = if random.one_in(40) { random.between(20, LONGEST_PATTERN) } else { random.between(0, 12) };
    let wildcards_in = if length > 20 { 12 } else { 4 };
    let most_stars = random.between(0, 5);
    let mut stars = 0;
    let mut pattern: Vec<char> = Vec::new();
    while pattern.len() < length {
        let after_star = pattern.last() == Some(&'*');
        if random.one_in(wildcards_in) && stars < most_stars && (!after_star || random.one_in(10)) {
            pattern.push('*');
            stars += 1;
        } else if random.one_in(2 * wildcards_in) {
            pattern.push('?');
        } else if random.one_in(8) {
            pattern.push(':');
        } else {
            pattern.push(plain(random, letters));
        }
    }
    pattern
}

/// A character but `:`, `*` and `?`.
fn plain(random: &mut Random, letters: &[char]) -> char {
    let character = if random.one_in(2) { char::from(random.byte()) } else { random.pick(&CHARACTERS) };
    if random.one_in(50) && !matches!(character, ':' | '*' | '?') {
        character
    } else {
        random.pick(letters)
    }
}

/// A string that is like the pattern: each `*` becomes a run, each `?` a character.
fn string_like(pattern: &[char], random: &mut Random, letters: &[char]) -> Vec<char> {
    let mut string = Vec::new();
    for (index, character) in pattern.iter().enumerate() {
        match character {
            '*' => put_run(&mut string, &pattern[index + 1..], random, letters),
            '?' => string.push(plain(random, letters)),
            _ => string.push(*character),
        }
    }
    string
}

/// A run for a `*`: nothing, some characters, or a false start of what follows in the pattern (for greedy matchers).
fn put_run(string: &mut Vec<char>, rest_of_pattern: &[char], random: &mut Random, letters: &[char]) {
    if random.one_in(3) {
        let is_plain = |character: &&char| !matches!(**character, '*' | '?' | ':');
        string.extend(rest_of_pattern.iter().take(4).take_while(is_plain));
    }
    let longest = random.pick(&[0, 1, 2, 3, 4, 20]);
    for _ in 0..random.between(0, longest) {
        string.push(plain(random, letters));
    }
}

/// A string that has nothing to do with the pattern.
fn some_string(random: &mut Random, letters: &[char]) -> Vec<char> {
    (0..random.between(0, 12)).map(|_| if random.one_in(6) { ':' } else { plain(random, letters) }).collect()
}

/// The string with a character changed, removed or inserted; a wildcard may become a character of the string.
fn damage(string: &mut Vec<char>, random: &mut Random, letters: &[char]) {
    let at = random.below(string.len() + 1);
    let character = match random.below(6) {
        0 | 1 => ':',
        2 => random.pick(&['*', '?']),
        _ => plain(random, letters),
    };
    match random.below(3) {
        0 => string.insert(at, character),
        1 if at < string.len() => {
            string.remove(at);
        }
        2 if at < string.len() => string[at] = character,
        _ => string.push(character),
    }
}

#[cfg(test)]
mod tests {
    use super::*;

    #[test]
    fn the_answer_is_one_digit() {
        assert_eq!(answer(&vector(b"*A1", b"A1A1")), "1");
        assert_eq!(answer(&vector(b"*A1", b"A1A")), "0");
        assert_eq!(answer(&vector(b"S?d", "Süd".as_bytes())), "1");
        assert_eq!(answer(&vector(b"S?d", b"S\xFCd")), "0");
        assert_eq!(answer(&vector(b"S\xFCd", b"S\xFCd")), "2");
    }

    #[test]
    fn an_undamaged_string_is_like_its_pattern() {
        let mut random = Random::new(10);
        for letters in [ALPHABET, WIDE] {
            for _ in 0..10_000 {
                let pattern = pattern(&mut random, letters);
                let string = string_like(&pattern, &mut random, letters);
                let parts = [bytes_of(&pattern, usize::MAX), bytes_of(&string, usize::MAX)];
                assert!(like(&parts[0], &parts[1]), "{:?} {:?}", pattern, string);
            }
        }
    }

    #[test]
    fn patterns_have_at_most_127_bytes_and_5_stars_and_strings_at_most_130() {
        let mut source = Random::new(11);
        let mut vectors = fixed();
        vectors.extend((0..20_000).map(|_| random(&mut source)));
        for vector in vectors {
            assert!(vector[0].len() <= LONGEST_PATTERN + 8);
            assert!(vector[1].len() <= LONGEST_STRING + 8);
            assert!(vector[0].iter().filter(|byte| **byte == b'*').count() <= 5);
        }
    }

    /// The clause once more, by trying every run: good for short inputs only. The characters are the standard library's.
    fn like_by_trying(pattern: &[char], string: &[char]) -> bool {
        if pattern.is_empty() {
            return string.is_empty();
        }
        let rest = &pattern[1..];
        if pattern[0] == '*' {
            let longest = string.iter().position(|character| *character == ':').unwrap_or(string.len());
            return (0..=longest).any(|run| like_by_trying(rest, &string[run..]));
        }
        if string.is_empty() {
            return false;
        }
        let fits = if pattern[0] == '?' { string[0] != ':' } else { string[0] == pattern[0] };
        fits && like_by_trying(rest, &string[1..])
    }

    fn answer_by_trying(vector: &Vector) -> &'static str {
        let characters = |bytes: &[u8]| std::str::from_utf8(bytes).ok().map(|text| text.chars().collect::<Vec<char>>());
        match (characters(&vector[0]), characters(&vector[1])) {
            (None, _) => "2",
            (Some(pattern), Some(string)) if like_by_trying(&pattern, &string) => "1",
            _ => "0",
        }
    }

    #[test]
    fn it_agrees_with_trying_every_run() {
        let mut source = Random::new(38);
        let mut tried = 0;
        while tried < 20_000 {
            let vector = random(&mut source);
            if vector[0].len() <= 20 && vector[1].len() <= 30 {
                assert_eq!(answer(&vector), answer_by_trying(&vector), "{:?}", vector);
                tried += 1;
            }
        }
    }
}
