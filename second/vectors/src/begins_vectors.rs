//! The begins vectors: a text and a table, and whether the table begins with the text's compiled bytes.

use definitions::compile::{set_said_by, table_of};

use definitions::policies::Version;
use generators::damaged_texts::{any_text, good_text};
use generators::policy_texts::{policy_with_condition, text_of};
use generators::random::Random;

use crate::vector::Vector;

/// Texts whose tables are cut and damaged at every byte.
pub const GOOD_TEXTS: [&str; 4] = [
    "",
    "permit(principal,action,resource);",
    "forbid(principal is tool,action in[\"a\"],resource==\"shaft:1\")when{principal.a . b==1||!true};",
    "permit(principal,action,resource)when{if env has a then true else 1 in[2]};permit(principal,action,resource);",
];

/// Texts that do not compile.
pub const BAD_TEXTS: [&str; 6] = [
    "permit(principal,action,resource)",
    "permit(principal,action,resource)when{principal.a};",
    "permit(principal,action,resource);:",
    "permit(principal,action,resource);\"",
    "permit(principal,action,resource); permit",
    ";",
];

pub fn vector(text: &[u8], table: &[u8]) -> Vector {
    vec![text.to_vec(), table.to_vec()]
}

/// The answer: 1 if the text compiles and the table begins with its compiled bytes, else 0.
pub fn answer(vector: &Vector) -> String {
    let answer = if set_said_by(&vector[0], &vector[1]).is_some() { "1" } else { "0" };
    answer.to_string()
}

/// The vectors that are the same for every seed.
pub fn fixed() -> Vec<Vector> {
    let mut vectors = Vec::new();
    for text in GOOD_TEXTS.map(str::as_bytes) {
        let table = table_of(text, Version::One);
        for other in GOOD_TEXTS.iter().chain(&BAD_TEXTS) {
            vectors.push(vector(other.as_bytes(), &table));
        }
        for length in 0..table.len() {
            vectors.push(vector(text, &table[..length]));
            let mut damaged = table.clone();
            damaged[length] = damaged[length].wrapping_add(1);
            vectors.push(vector(text, &damaged));
        }
        for more in [&[0][..], &[255], &[0; 5], &[34, 0, 0, 3, 0]] {
            vectors.push(vector(text, &[&table, more].concat()));
        }
        vectors.push(vector(text, &[&table[..], &table].concat()));
        vectors.push(vector(text, &[&[0], &table[..]].concat()));
        vectors.push(vector(&[b" ", text].concat(), &table));
        vectors.push(vector(&[text, b"\n"].concat(), &table));
    }
    for text in BAD_TEXTS.map(str::as_bytes) {
        for table in [&[][..], &[0], &[29, 0, 0, 0, 0], &[0; 64]] {
            vectors.push(vector(text, table));
        }
    }
    vectors.push(vector(&[b' '; 8_192], &[]));
    vectors.push(vector(&[b' '; 8_193], &[]));
    let many = GOOD_TEXTS[1].repeat(64).into_bytes();
    vectors.push(vector(&many, &table_of(&many, Version::One)));
    vectors.push(vector(&[many.as_slice(), b"permit"].concat(), &table_of(&many, Version::One)));
    vectors
}

/// A random vector.
pub fn random(random: &mut Random) -> Vector {
    let text = short_text(random);
    let mut table = table_of(&text, Version::One);
    match random.below(16) {
        0..=3 => {}
        4..=6 => table.extend((0..random.between(1, 12)).map(|_| random.byte())),
        7 => {
            table.pop();
        }
        8 => table.truncate(random.below(table.len() + 1)),
        9 | 10 if !table.is_empty() => {
            let at = random.below(table.len());
            table[at] ^= 1 << random.below(8);
        }
        11 if !table.is_empty() => {
            let at = table.len() - 1 - random.below(table.len().min(5));
            table[at] = table[at].wrapping_add(1);
        }
        12 => table = table_of(&short_text(random), Version::One),
        13 => return vector(&almost_the_same(text, random), &table),
        14 => table = (0..random.between(0, 60)).map(|_| random.byte()).collect(),
        _ => {}
    }
    vector(&text, &table)
}

/// A text of at most 160 bytes, which mostly compiles.
pub fn short_text(random: &mut Random) -> Vec<u8> {
    loop {
        let text = match random.below(8) {
            0 => any_text(random),
            1..=3 => good_text(random),
            _ => {
                let tokens = policy_with_condition(random);
                text_of(&tokens, random)
            }
        };
        if text.len() <= 160 {
            return text;
        }
    }
}

/// The text with one byte more, or changed: often with another table, sometimes with the same, sometimes with none.
pub fn almost_the_same(mut text: Vec<u8>, random: &mut Random) -> Vec<u8> {
    let at = random.below(text.len() + 1);
    match random.below(3) {
        0 => text.push(random.pick(b" \n;:")),
        1 if at < text.len() => text[at] = random.pick(b" a1b;=<"),
        _ => text.insert(at, random.pick(b"  a1\"")),
    }
    text
}

#[cfg(test)]
mod tests {
    use super::*;

    #[test]
    fn both_answers_are_there() {
        let mut source = Random::new(71);
        let mut vectors = fixed();
        vectors.extend((0..5_000).map(|_| random(&mut source)));
        let yes = vectors.iter().filter(|vector| answer(vector) == "1").count();
        assert!(yes > 1_500 && yes < vectors.len() - 1_500, "{}", yes);
    }

    #[test]
    fn the_answer_is_one_digit() {
        let text = GOOD_TEXTS[1].as_bytes();
        assert_eq!(answer(&vector(text, &table_of(text, Version::One))), "1");
        assert_eq!(answer(&vector(text, &table_of(text, Version::One)[1..])), "0");
        assert_eq!(answer(&vector(b"", b"x")), "1");
        assert_eq!(answer(&vector(b";", b"x")), "0");
    }
}
