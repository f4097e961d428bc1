//! The compile vectors of 02's request 7: texts under version 2, and under numbers that name no version.

use generators::damaged_texts::{any_text, good_text};
use generators::policy_texts::{policy, text_of};
use generators::random::Random;

use crate::compile_vectors::{self, vector_under, with_condition, P};
use crate::vector::Vector;

/// Numbers that name no version: near 1 and 2, like them in their low bytes, and far from them.
const NO_VERSIONS: [u64; 26] = [
    0,
    3,
    4,
    5,
    9,
    129,
    130,
    255,
    256,
    257,
    258,
    513,
    0x0101,
    0x0202,
    0xFF01,
    (1 << 16) + 1,
    (1 << 16) + 2,
    1 << 31,
    (1 << 32) - 1,
    1 << 32,
    (1 << 32) + 1,
    (1 << 32) + 2,
    1 << 63,
    (1 << 63) + 1,
    (1 << 63) + 2,
    u64::MAX,
];

/// The vectors that are the same for every seed.
pub fn fixed() -> Vec<Vector> {
    let mut vectors = Vec::new();
    add_other_vectors(&mut vectors);
    add_no_versions(&mut vectors);
    vectors
}

/// The other fixed vectors under version 2: all whose text compiles, and some whose text or room is refused.
fn add_other_vectors(vectors: &mut Vec<Vector>) {
    for (index, other) in compile_vectors::fixed().iter().enumerate() {
        let compiles = compile_vectors::answer(other).starts_with('P');
        if compiles || index % 20 == 0 || other[1] != [0, 0] {
            vectors.push(vec![other[0].clone(), other[1].clone(), 2_u64.to_le_bytes().to_vec()]);
        }
    }
}

/// Good texts, bad ones, such that are too long and rooms that are too small, under every number: 30 before 1 and 2, and before a
/// token's.
fn add_no_versions(vectors: &mut Vec<Vector>) {
    let good = [P, ";"].concat();
    let two = [&good, "forbid(principal is tool,action in[\"a\"],resource is shaft)when{!env.a==1};"].concat();
    let bad = with_condition("principal.a");
    let texts = [&b""[..], b" ", b":", b"permit", b"\"\xFF\"", good.as_bytes(), two.as_bytes(), &bad];
    for version in NO_VERSIONS.iter().chain(&[1, 2]) {
        for text in texts {
            for shift in [0, -1, i16::MIN] {
                vectors.push(vector_under(text, shift, *version));
            }
        }
    }
    for version in [0, 1, 2, 3, 257, (1 << 32) + 1, (1 << 32) + 2, 1 << 63, u64::MAX] {
        for (length, byte) in [(8_192, b' '), (8_193, b' '), (8_193, b':')] {
            for shift in [0, -1] {
                vectors.push(vector_under(&vec![byte; length], shift, version));
            }
        }
    }
}

/// A random vector, mostly under version 2.
pub fn random(random: &mut Random) -> Vec<Vector> {
    let text = match random.below(4) {
        0 => any_text(random),
        1 => {
            let tokens: Vec<Vec<u8>> = (0..random.between(2, 5)).flat_map(|_| policy(random)).collect();
            text_of(&tokens, random)
        }
        _ => good_text(random),
    };
    let version = match random.below(12) {
        0 => random.pick(&NO_VERSIONS),
        1 => random.between(1, 2) as u64 + (1 << random.between(2, 63)),
        2 => random.bits(),
        3 => 1,
        _ => 2,
    };
    let shift = if random.one_in(20) { random.pick(&[-1, -8, 1, 100, i16::MIN]) } else { 0 };
    vec![vector_under(&text, shift, version)]
}

#[cfg(test)]
mod tests {
    use super::*;
    use crate::compile_vectors::{answer, version_of};

    #[test]
    fn every_number_is_refused_before_all() {
        let vectors = fixed();
        for version in NO_VERSIONS {
            let of_it: Vec<&Vector> = vectors.iter().filter(|vector| version_of(vector) == version).collect();
            assert!(of_it.len() >= 24);
            assert!(of_it.iter().all(|vector| answer(vector) == "R 30 0 0 0"));
        }
    }

    // Worked by hand: the entries 36 0 0, 32 0 0, 29 0 0, 34 0 3.
    #[test]
    fn version_2_uses_as_many_bytes_and_others() {
        let text = [P, ";"].concat();
        let table = [36, 0, 0, 0, 0, 32, 0, 0, 0, 0, 29, 0, 0, 0, 0, 34, 0, 0, 3, 0];
        let sum = crate::vector::sum_of(&table);
        assert_eq!(answer(&vector_under(text.as_bytes(), 0, 2)), format!("P 1 20 {}", sum));
        assert_eq!(answer(&vector_under(b"", 0, 2)), "P 0 0 0");
        assert_eq!(answer(&vector_under(P.as_bytes(), -1, 2)), "R 2 0 0 0");
        let mut same = 0;
        for vector in fixed().iter().filter(|vector| version_of(vector) == 2) {
            let mut first = vector.clone();
            first[2] = 1_u64.to_le_bytes().to_vec();
            let (one, two) = (answer(&first), answer(vector));
            let but_sum = |line: &str| line.rsplit_once(' ').map(|parts| parts.0.to_string());
            assert_eq!(but_sum(&one), but_sum(&two));
            let has_policies = two.starts_with("P ") && !two.starts_with("P 0 ");
            assert_eq!(one != two, has_policies);
            same += usize::from(has_policies);
        }
        assert!(same > 2_000, "{}", same);
    }
}
