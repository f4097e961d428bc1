//! The begins vectors of 02's request 7: tables of version 2, tables whose policies record different versions or none, and any table for
//! a text without policies.

use definitions::compile::table_of;
use definitions::policies::Version;
use generators::random::Random;

use crate::begins_vectors::{almost_the_same, short_text, vector, BAD_TEXTS, GOOD_TEXTS};
use crate::vector::{policy_starts, Vector};

/// Three policies, with bare principal parts and others, bare resource parts and others.
const THREE: &str =
    "permit(principal,action,resource is shaft);forbid(principal is person,action in[\"a\",\"b\"],resource)\
    when{if true then !env.a==1 else principal has b};permit(principal is tool,action,resource==\"record:1\");";

/// Texts without policies.
const EMPTY_TEXTS: [&str; 4] = ["", " ", "\n", " \t\r\n "];

/// Kinds near those that record a version, and others.
const KINDS: [u8; 24] =
    [0, 1, 22, 23, 27, 28, 29, 30, 31, 32, 33, 34, 35, 36, 37, 38, 39, 42, 43, 44, 45, 100, 164, 255];

/// The vectors that are the same for every seed.
pub fn fixed() -> Vec<Vector> {
    let mut vectors = Vec::new();
    for text in GOOD_TEXTS[1..].iter().chain(&[THREE]) {
        add_tables_of_version_2(&mut vectors, text.as_bytes());
        add_kinds(&mut vectors, text.as_bytes());
    }
    add_mixed(&mut vectors);
    add_empty(&mut vectors);
    vectors
}

/// A text's table under version 2: for this text and others, cut and damaged at every byte, longer, and with bytes before it.
fn add_tables_of_version_2(vectors: &mut Vec<Vector>, text: &[u8]) {
    let table = table_of(text, Version::Two);
    for other in GOOD_TEXTS.iter().chain(&BAD_TEXTS).chain(&[THREE]) {
        vectors.push(vector(other.as_bytes(), &table));
    }
    for at in 0..table.len() {
        vectors.push(vector(text, &table[..at]));
        for change in [1, 7, 249] {
            let mut damaged = table.clone();
            damaged[at] = damaged[at].wrapping_add(change);
            vectors.push(vector(text, &damaged));
        }
    }
    let one = table_of(text, Version::One);
    for more in [&[0][..], &[255], &[36, 0, 0, 0, 0], &table, &one] {
        vectors.push(vector(text, &[&table, more].concat()));
        vectors.push(vector(text, &[&one, more].concat()));
        vectors.push(vector(text, &[more, &table].concat()));
    }
    vectors.push(vector(&[b" ", text].concat(), &table));
    vectors.push(vector(&[text, b"\n"].concat(), &table));
    vectors.push(vector(&[text, b";"].concat(), &table));
}

/// Every kind for the entry of each principal part and of each resource part, in tables of each version.
fn add_kinds(vectors: &mut Vec<Vector>, text: &[u8]) {
    for version in Version::ALL {
        let table = table_of(text, version);
        for at in (0..table.len()).step_by(5).filter(|at| matches!(table[*at], 29 | 30 | 31 | 36 | 37)) {
            for kind in KINDS {
                let mut changed = table.clone();
                changed[at] = kind;
                vectors.push(vector(text, &changed));
            }
        }
    }
}

/// Three policies that record each of the two versions, in all ways; and 64, of which one records the other version.
fn add_mixed(vectors: &mut Vec<Vector>) {
    let tables = Version::ALL.map(|version| table_of(THREE.as_bytes(), version));
    for ways in 0..8 {
        let mut mixed = tables[0].clone();
        for (number, start) in policy_starts(&tables[0]).into_iter().enumerate() {
            mixed[start] = tables[ways >> number & 1][start];
        }
        vectors.push(vector(THREE.as_bytes(), &mixed));
        vectors.push(vector(THREE.as_bytes(), &[&mixed, &[1, 2, 3][..]].concat()));
    }
    let many = GOOD_TEXTS[1].repeat(64).into_bytes();
    for version in Version::ALL {
        let table = table_of(&many, version);
        vectors.push(vector(&many, &table));
        for policy in [0, 1, 31, 62, 63] {
            let mut mixed = table.clone();
            mixed[policy_starts(&table)[policy]] = if version == Version::One { 36 } else { 29 };
            vectors.push(vector(&many, &mixed));
        }
    }
}

/// A text without policies has no version: any table will do.
fn add_empty(vectors: &mut Vec<Vector>) {
    for text in EMPTY_TEXTS.map(str::as_bytes) {
        for kind in KINDS {
            vectors.push(vector(text, &[kind]));
            vectors.push(vector(text, &[kind, 0, 0, 0, 0]));
        }
        for version in Version::ALL {
            vectors.push(vector(text, &table_of(THREE.as_bytes(), version)));
        }
        vectors.push(vector(text, &[]));
    }
    for table in [&[29][..], &[36], &[38], &[0; 20]] {
        vectors.push(vector(&[b' '; 8_192], table));
        vectors.push(vector(&[b' '; 8_193], table));
    }
}

/// A random vector.
pub fn random(random: &mut Random) -> Vec<Vector> {
    let text = short_text(random);
    let mut table = table_of(&text, Version::Two);
    let starts = policy_starts(&table);
    match random.below(12) {
        0 => table.extend((0..random.between(1, 12)).map(|_| random.byte())),
        1 => table.truncate(random.below(table.len() + 1)),
        2 | 3 if !table.is_empty() => {
            let at = random.below(table.len());
            table[at] ^= 1 << random.below(8);
        }
        4 | 5 if !table.is_empty() => table[random.pick(&starts)] -= 7,
        6 if !table.is_empty() => table[random.pick(&starts)] = random.pick(&KINDS),
        7 if !table.is_empty() => {
            let at = random.below(table.len() / 5) * 5;
            table[at] = table[at].wrapping_add(random.pick(&[7, 249]));
        }
        8 => table = table_of(&short_text(random), Version::Two),
        9 => return vec![vector(&almost_the_same(text, random), &table)],
        _ => {}
    }
    vec![vector(&text, &table)]
}

#[cfg(test)]
mod tests {
    use super::*;
    use crate::begins_vectors::answer;

    // Of all ways to record two versions in three policies only those with one version are good.
    #[test]
    fn mixed_tables_are_not_good() {
        let mut vectors = Vec::new();
        add_mixed(&mut vectors);
        let good: Vec<bool> = vectors.iter().map(|vector| answer(vector) == "1").collect();
        assert_eq!(good.len(), 16 + 12);
        let expected = |index: &usize| [0, 1, 14, 15, 16, 22].contains(index);
        assert!((0..good.len()).all(|index| good[index] == expected(&index)), "{:?}", good);
    }

    #[test]
    fn any_table_will_do_without_policies() {
        let mut vectors = Vec::new();
        add_empty(&mut vectors);
        assert!(vectors.iter().all(|vector| (answer(vector) == "1") == (vector[0].len() <= 8_192)));
    }

    #[test]
    fn the_first_kind_tells_the_version() {
        let mut vectors = Vec::new();
        add_kinds(&mut vectors, GOOD_TEXTS[1].as_bytes());
        let good: Vec<(u8, u8)> =
            vectors.iter().filter(|vector| answer(vector) == "1").map(|vector| (vector[1][0], vector[1][10])).collect();
        // Each table by itself, and made of the other by its first kind.
        assert_eq!(good, [(29, 29), (36, 29), (29, 29), (29, 29), (36, 29), (36, 29)]);
    }

    #[test]
    fn both_answers_are_there() {
        let mut source = Random::new(72);
        let mut vectors = fixed();
        vectors.extend((0..2_000).flat_map(|_| random(&mut source)));
        let yes = vectors.iter().filter(|vector| answer(vector) == "1").count();
        assert!(yes > 1_000 && yes < vectors.len() - 1_000, "{} of {}", yes, vectors.len());
    }
}
