//! Strings of characters of every length, strings that are not UTF-8, and rule texts with such strings at every place where one may
//! stand and where none may (02, request 5).

use crate::random::Random;

/// A bare policy without its `;`.
const P: &[u8] = b"permit(principal,action,resource)";

/// Characters of one to four bytes that a string may hold, those at the borders of the lengths among them.
pub const CHARACTERS: [char; 24] = [
    'a', 'b', '~', ' ', '*', '?', ':', 'ü', 'Ü', 'ß', '\u{80}', '\u{7FF}', '€', '\u{800}', '\u{FFF}', '\u{1000}',
    '\u{D7FF}', '\u{E000}', '\u{FFFD}', '\u{FFFF}', '😀', '\u{10000}', '\u{FFFFF}', '\u{10FFFF}',
];

/// Characters of two to four bytes, and a plain one.
pub const FEW: [char; 6] = ['S', 'd', 'ü', 'ö', '€', '😀'];

/// Bytes that are no UTF-8: bytes that only go on, first bytes of nothing, sequences cut off, overlong forms, surrogates, numbers above
/// 10FFFF, and sequences whose later bytes do not go on.
pub const BROKEN: [&[u8]; 34] = [
    b"\x80",
    b"\xBF",
    b"\xFC",
    b"\xC3",
    b"\xE2\x82",
    b"\xE2",
    b"\xF0\x9F\x98",
    b"\xF0\x9F",
    b"\xF0",
    b"\xC0\x80",
    b"\xC0\xAF",
    b"\xC1\xBF",
    b"\xE0\x80\x80",
    b"\xE0\x9F\xBF",
    b"\xF0\x80\x80\x80",
    b"\xF0\x8F\xBF\xBF",
    b"\xED\xA0\x80",
    b"\xED\xAF\xBF",
    b"\xED\xB0\x80",
    b"\xED\xBF\xBF",
    b"\xED\xA1\x8C\xED\xBE\xB4",
    b"\xF4\x90\x80\x80",
    b"\xF5\x80\x80\x80",
    b"\xF7\xBF\xBF\xBF",
    b"\xF8\x88\x80\x80\x80",
    b"\xFE",
    b"\xFF",
    b"\xC3(",
    b"\xC3\xC3\xBC",
    b"\xE2\x28\xA1",
    b"\xE2\x82\x28",
    b"\xF0\x9F\x28\x80",
    b"\xF0\x9F\x98\x28",
    b"\xC3\xBC\xBC",
];

/// Bytes that no string may hold.
pub const BAD_IN_STRINGS: [u8; 7] = [0x00, 0x01, 0x09, 0x0A, 0x0D, 0x1F, 0x7F];

/// The bytes of a string of characters of every length, so many or less.
pub fn characters(random: &mut Random, most: usize) -> Vec<u8> {
    let all = if random.one_in(2) { &CHARACTERS[..] } else { &FEW };
    (0..random.between(0, most)).map(|_| random.pick(all)).collect::<String>().into_bytes()
}

/// The bytes of a string that is mostly not UTF-8: with such a sequence anywhere, cut off, or with a byte changed, removed or put in.
pub fn broken(random: &mut Random, most: usize) -> Vec<u8> {
    let mut bytes = characters(random, most);
    let at = random.below(bytes.len() + 1);
    match random.below(8) {
        0..=2 => drop(bytes.splice(at..at, random.pick(&BROKEN).iter().copied())),
        3 => bytes.extend_from_slice(random.pick(&BROKEN)),
        4 => bytes.truncate(at),
        5 if at < bytes.len() => drop(bytes.remove(at)),
        6 if at < bytes.len() => bytes[at] = 0x80 | random.byte(),
        _ => bytes.insert(at, 0x80 | random.byte()),
    }
    bytes
}

/// Either of both.
pub fn any(random: &mut Random, most: usize) -> Vec<u8> {
    if random.one_in(2) {
        characters(random, most)
    } else {
        broken(random, most)
    }
}

/// A string with its quotes: sometimes with a byte that it may not hold, without its end, or about as long as it may be.
fn token(random: &mut Random) -> Vec<u8> {
    let mut inside = if random.one_in(12) { long(random) } else { any(random, 6) };
    if random.one_in(6) {
        let at = random.below(inside.len() + 1);
        inside.insert(at, random.pick(&BAD_IN_STRINGS));
        if random.one_in(2) {
            inside.extend(any(random, 2));
        }
    }
    let end: &[u8] = if random.one_in(25) { b"" } else { b"\"" };
    [b"\"", &inside[..], end].concat()
}

/// Strings of about 100 characters or about 127 bytes, some of them broken.
fn long(random: &mut Random) -> Vec<u8> {
    let character = random.pick(&FEW).to_string();
    let plain = if random.one_in(2) { random.between(97, 103) } else { random.between(124, 129) };
    let wide = random.between(0, 14).min(plain / character.len());
    let by_bytes = random.one_in(2);
    let rest = plain - if by_bytes { wide * character.len() } else { wide };
    let mut inside = "a".repeat(rest).into_bytes();
    for _ in 0..wide {
        let at = random.pick(&[0, inside.len()]);
        inside.splice(at..at, character.bytes());
    }
    if random.one_in(5) {
        let at = random.pick(&[0, inside.len()]);
        inside.splice(at..at, random.pick(&BROKEN).iter().copied());
    }
    inside
}

/// Places where a string is admitted, and some where none is.
const PLACES: [(&str, &str); 22] = [
    ("permit(principal,action in[", "],resource);"),
    ("permit(principal,action in[\"a\",", ",\"b\"],resource);"),
    ("permit(principal,action,resource==", ");"),
    ("permit(principal,action,resource)when{", "==env.a};"),
    ("permit(principal,action,resource)when{env.a==", "};"),
    ("permit(principal,action,resource)when{env.a!=", "&&true};"),
    ("permit(principal,action,resource)when{env.a in[", "]};"),
    ("permit(principal,action,resource)when{1 in[1,", ",true]};"),
    ("permit(principal,action,resource)when{", " in[1]};"),
    ("permit(principal,action,resource)when{env.a.containsAll([", "])};"),
    ("permit(principal,action,resource)when{env.a.containsAny([\"x\",", "])};"),
    ("permit(principal,action,resource)when{env.a like", "};"),
    ("permit(principal,action,resource)when{env.a like ", "};"),
    ("permit(principal,action,resource)when{action.name like", "||false};"),
    ("permit(principal,action,resource)when{", "like\"*\"};"),
    ("permit(principal,action,resource)when{", " in principal.l};"),
    ("permit(principal,action,resource)when{", "};"),
    ("permit(principal is ", ",action,resource);"),
    ("permit(principal,action,resource is", ");"),
    ("permit(principal,action,resource)when{env.", "==1};"),
    ("permit(principal,action,resource)", ";"),
    ("", ""),
];

/// A text with such a string at any place.
pub fn text(random: &mut Random) -> Vec<u8> {
    match random.below(16) {
        0 | 1 => text_with_full_list(random),
        2 | 3 => text_with_pattern(random),
        4 | 5 => text_with_places(random),
        _ => {
            let (before, after) = random.pick(&PLACES);
            let string = token(random);
            [before.as_bytes(), &string, after.as_bytes()].concat()
        }
    }
}

/// A list of 15 to 17 literals with such strings at its end.
fn text_with_full_list(random: &mut Random) -> Vec<u8> {
    let (before, after) = random.pick(&[
        ("permit(principal,action in[", "],resource);"),
        ("permit(principal,action,resource)when{1 in[", "]};"),
        ("permit(principal,action,resource)when{env.a.containsAny([", "])};"),
    ]);
    let count = random.between(14, 16);
    let last: Vec<Vec<u8>> = (0..random.between(1, 2)).map(|_| token(random)).collect();
    let mut text = before.as_bytes().to_vec();
    text.extend(b"\"\",".repeat(count));
    text.extend(last.join(&b','));
    text.extend(after.as_bytes());
    text
}

/// A pattern near its limits: characters, wildcards, `**`, `[`, and bytes that are none.
fn text_with_pattern(random: &mut Random) -> Vec<u8> {
    let mut pattern = if random.one_in(2) { long(random) } else { any(random, 8) };
    for _ in 0..random.pick(&[0, 0, 1, 2, 5, 6]) {
        let at = random.pick(&[0, pattern.len()]);
        pattern.insert(at, random.pick(b"*?"));
    }
    if random.one_in(6) {
        pattern.extend_from_slice(random.pick(&["[", "{", "**"]).as_bytes());
    }
    [P, b"when{env.a like\"", &pattern, b"\"};"].concat()
}

/// Strings before a place that is refused, in its line and in lines before.
fn text_with_places(random: &mut Random) -> Vec<u8> {
    let mut text = P.to_vec();
    text.extend_from_slice(b"when{");
    for _ in 0..random.between(1, 3) {
        text.push(b'"');
        text.extend(characters(random, 5));
        text.extend_from_slice(b"\"==env.a&&");
        text.extend_from_slice(random.pick(&["", "", " ", "\n", "\t\r"]).as_bytes());
    }
    text.extend_from_slice(random.pick(&["", ":", "ü", ";", "env.if==1};", "env.a};", "1==\"", "true};x"]).as_bytes());
    if random.one_in(2) {
        text.extend(token(random));
    }
    text
}

/// Texts with strings that every seed has: each character and each broken sequence at each place, alone, between others and at the end; with
/// bytes that no string may hold before and behind; without an end.
pub fn fixed_texts() -> Vec<Vec<u8>> {
    let mut texts = Vec::new();
    let wide: Vec<Vec<u8>> = CHARACTERS.iter().map(|character| character.to_string().into_bytes()).collect();
    let sequences: Vec<Vec<u8>> = wide.into_iter().chain(BROKEN.iter().map(|bytes| bytes.to_vec())).collect();
    for (index, sequence) in sequences.iter().enumerate() {
        for (before, after) in PLACES {
            let put = |string: &[&[u8]]| [before.as_bytes(), b"\"", &string.concat(), b"\"", after.as_bytes()].concat();
            texts.push(put(&[sequence]));
            texts.push(put(&[b"S", sequence, b"d"]));
        }
        for (before, after) in [PLACES[0], PLACES[2], PLACES[4], PLACES[11], PLACES[20]] {
            let other = &sequences[(7 * index + 3) % sequences.len()];
            for bad in [b"\x01", b"\n", b"\x7F"] {
                for string in [
                    [&b"\""[..], sequence, bad, b"\""].concat(),
                    [b"\"", &bad[..], sequence, b"\""].concat(),
                    ["\"ü".as_bytes(), sequence, bad, b"x", other, b"\""].concat(),
                    ["\"ü".as_bytes(), bad, b"x", sequence].concat(),
                ] {
                    texts.push([before.as_bytes(), &string, after.as_bytes()].concat());
                }
            }
            texts.push([before.as_bytes(), b"\"", sequence, after.as_bytes()].concat());
            texts.push([before.as_bytes(), "\"€\"".as_bytes(), b"\"", sequence, b"\"", after.as_bytes()].concat());
        }
        for (before, after) in [PLACES[0], PLACES[6], PLACES[9]] {
            for count in [14, 15, 16] {
                let list = b"\"\",".repeat(count);
                texts.push([before.as_bytes(), &list, b"\"", sequence, b"\"", after.as_bytes()].concat());
            }
        }
        add_patterns(&mut texts, sequence);
        add_places(&mut texts, sequence);
    }
    texts
}

/// Patterns of 99 to 101 characters or about 127 bytes with this sequence first or last; 17 and the other things that a pattern may break.
fn add_patterns(texts: &mut Vec<Vec<u8>>, sequence: &[u8]) {
    let mut put = |pattern: &[&[u8]]| texts.push([P, b"when{env.a like\"", &pattern.concat(), b"\"};"].concat());
    for plain in [98, 99, 100, 101] {
        let plain = vec![b'a'; plain];
        put(&[&plain, sequence]);
        put(&[sequence, &plain]);
    }
    for length in [126, 127, 128] {
        put(&[&vec![b'a'; length - sequence.len()], sequence]);
        let wide = length / sequence.len().max(1);
        put(&[&sequence.repeat(wide.min(length))]);
        let further = (length - sequence.len()) / 2;
        put(&["ü".repeat(further).as_bytes(), sequence]);
        put(&["😀".repeat((length - sequence.len()) / 4).as_bytes(), sequence]);
    }
    for wild in ["**", "[", "{", "??????", "?????", "*?*?*"] {
        put(&[sequence, wild.as_bytes()]);
        put(&[wild.as_bytes(), sequence]);
    }
}

/// Errors behind strings with this sequence, in the same line and in the next.
fn add_places(texts: &mut Vec<Vec<u8>>, sequence: &[u8]) {
    for between in ["", "\n", "\t", "\r"] {
        for last in [":", "}", "ü", "\"", "env.if"] {
            let condition =
                [b"\"S", sequence, b"d\"==\"", sequence, b"\"&&", between.as_bytes(), last.as_bytes()].concat();
            texts.push([P, b"when{", &condition].concat());
        }
    }
}

#[cfg(test)]
mod tests {
    use super::*;
    use definitions::characters::is_utf8;
    use definitions::compile::policies_of;

    #[test]
    fn broken_sequences_are_not_utf8() {
        assert!(BROKEN.iter().all(|bytes| !is_utf8(bytes)));
        for character in CHARACTERS {
            assert!(is_utf8(character.to_string().as_bytes()));
        }
    }

    #[test]
    fn the_refusals_of_strings_arise() {
        let mut random = Random::new(171);
        let mut seen = [0; 18];
        for _ in 0..20_000 {
            match policies_of(&text(&mut random)) {
                Ok(_) => seen[0] += 1,
                Err(refusal) => seen[usize::from(refusal.number)] += 1,
            }
        }
        for (number, least) in [
            (0, 4_000),
            (3, 2_000),
            (4, 50),
            (5, 300),
            (6, 150),
            (7, 50),
            (8, 50),
            (10, 2_000),
            (13, 300),
            (14, 400),
            (17, 3_000),
        ] {
            assert!(seen[number] >= least, "{}: {:?}", number, seen);
        }
    }
}
