//! The number vectors: a literal and 8 bytes, and how their values compare.

use definitions::numbers::{finite_number, value_of, COMPARATORS};
use generators::literals;
use generators::random::Random;

use crate::vector::Vector;

/// Literals that every seed has.
const LITERALS: [&str; 27] = [
    "0", "-0", "0.0", "-0.00", "00", "1", "-1", "1.0", "01", "3", "2.5", "-2.5", "0.1", "-0.1", "0.10", "0.3", "0.7",
    "10", "75.5", "999999999999999", "-999999999999999", "0.00000000000001", "9.99999999999999", "123456789.012345",
    "0.1234567890123", "5.00000000000000", "000000000000000",
];

/// Numbers on the borders of binary64, and others that are none.
const BITS: [u64; 20] = [
    0x0000_0000_0000_0000, // 0
    0x8000_0000_0000_0000, // -0
    0x0000_0000_0000_0001, // the least subnormal
    0x8000_0000_0000_0001,
    0x000F_FFFF_FFFF_FFFF, // the greatest subnormal
    0x800F_FFFF_FFFF_FFFF,
    0x0010_0000_0000_0000, // the least normal number
    0x7FEF_FFFF_FFFF_FFFF, // the greatest finite number
    0xFFEF_FFFF_FFFF_FFFF,
    0x7FF0_0000_0000_0000, // the infinities
    0xFFF0_0000_0000_0000,
    0x7FF0_0000_0000_0001, // some that are not a number
    0x7FF8_0000_0000_0000,
    0xFFF8_0000_0000_0001,
    0x7FFF_FFFF_FFFF_FFFF,
    0xFFFF_FFFF_FFFF_FFFF,
    0x3FF0_0000_0000_0000, // 1
    0xBFF0_0000_0000_0000, // -1
    0x3FB9_9999_9999_999A, // 0.1
    0x0000_0000_0000_F03F, // 1 with its bytes in the wrong order
];

fn vector(literal: &[u8], bits: u64) -> Vector {
    vec![literal.to_vec(), bits.to_le_bytes().to_vec()]
}

/// The answer: the literal's bits, whether the 8 bytes are a finite number, and then the six comparators.
pub fn answer(vector: &Vector) -> String {
    let value = value_of(&vector[0]);
    let mut bytes = [0; 8];
    bytes.copy_from_slice(&vector[1]);
    match finite_number(bytes) {
        None => format!("{:016x} 0", value.to_bits()),
        Some(number) => {
            let digit = |holds: bool| if holds { '1' } else { '0' };
            let answers: String = COMPARATORS.iter().map(|comparator| digit(comparator.holds(value, number))).collect();
            format!("{:016x} 1 {}", value.to_bits(), answers)
        }
    }
}

/// The vectors that are the same for every seed.
pub fn fixed() -> Vec<Vector> {
    let mut vectors = Vec::new();
    for literal in LITERALS {
        let own = value_of(literal.as_bytes()).to_bits();
        for bits in BITS {
            vectors.push(vector(literal.as_bytes(), bits));
        }
        for bits in [own, own.wrapping_add(1), own.wrapping_sub(1), own ^ (1 << 63), own ^ (1 << 52)] {
            vectors.push(vector(literal.as_bytes(), bits));
        }
    }
    vectors
}

/// A random vector.
pub fn random(random: &mut Random) -> Vector {
    let literal = literals::literal(random);
    let own = value_of(&literal).to_bits();
    let bits = match random.below(16) {
        0 | 1 => random.bits(),
        2..=4 => own,
        5 => own.wrapping_add(1),
        6 => own.wrapping_sub(1),
        7 => own ^ (1 << 63),
        8 => own ^ (1 << random.below(64)),
        9 => random.pick(&BITS),
        10 => random.bits() & 0x800F_FFFF_FFFF_FFFF, // a subnormal number
        11 => random.bits() | 0x7FF0_0000_0000_0000, // not a number
        12 | 13 => value_of(&with_one_other_digit(&literal, random)).to_bits(),
        _ => value_of(&literals::literal(random)).to_bits(),
    };
    vector(&literal, bits)
}

/// The literal with one digit changed.
fn with_one_other_digit(literal: &[u8], random: &mut Random) -> Vec<u8> {
    let mut other = literal.to_vec();
    let at = random.below(other.len());
    if other[at].is_ascii_digit() {
        other[at] = b'0' + random.below(10) as u8;
    }
    other
}

#[cfg(test)]
mod tests {
    use super::*;
    use definitions::tokens::{token_at, NUMBER};

    #[test]
    fn the_answer_has_bits_and_comparators() {
        assert_eq!(answer(&vector(b"0.1", 0x3FB9_9999_9999_999A)), "3fb999999999999a 1 010110");
        assert_eq!(answer(&vector(b"-0", 0)), "8000000000000000 1 010110");
        assert_eq!(answer(&vector(b"1", 0x4000_0000_0000_0000)), "3ff0000000000000 1 110001");
        assert_eq!(answer(&vector(b"1", 0x7FF0_0000_0000_0000)), "3ff0000000000000 0");
    }

    #[test]
    fn every_literal_is_one_number_token() {
        let mut source = Random::new(5);
        let mut vectors = fixed();
        vectors.extend((0..20_000).map(|_| random(&mut source)));
        for vector in vectors {
            let token = token_at(&vector[0], 0);
            assert_eq!((token.kind, token.start, token.end), (NUMBER, 0, vector[0].len()));
            assert_eq!(vector[1].len(), 8);
        }
    }
}
