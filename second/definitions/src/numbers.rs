//! Numbers: a literal's value, the finite numbers of a bag, and the six comparators (01, "Bags and questions" and "Deciding").

/// 01, "Deciding": the value of a number literal, which must be a number token's bytes.
///
/// The clause is "N divided by ten to the k, rounded once to binary64, negated under a minus". That is the binary64
/// nearest to the written decimal, and so what Rust's own reader of numbers gives.
pub fn value_of(literal: &[u8]) -> f64 {
    let written = std::str::from_utf8(literal).expect("a number token is ASCII");
    written.parse::<f64>().expect("a number token is a number to Rust")
}

/// 01, "Bags and questions", kind 2: 8 bytes, little-endian binary64, finite.
pub fn finite_number(bytes: [u8; 8]) -> Option<f64> {
    let number = f64::from_bits(u64::from_le_bytes(bytes));
    if number.is_finite() {
        Some(number)
    } else {
        None
    }
}

/// 01, "The rule text", Marks: the comparators.
#[derive(Clone, Copy, PartialEq, Eq, Debug)]
pub enum Comparator {
    Less,
    LessOrEqual,
    Greater,
    GreaterOrEqual,
    Equal,
    NotEqual,
}

/// The comparators in the order of the number vectors.
pub const COMPARATORS: [Comparator; 6] = [
    Comparator::Less,
    Comparator::LessOrEqual,
    Comparator::Greater,
    Comparator::GreaterOrEqual,
    Comparator::Equal,
    Comparator::NotEqual,
];

impl Comparator {
    /// Whether two finite numbers compare so (01, "Deciding": -0 equals 0).
    pub fn holds(self, left: f64, right: f64) -> bool {
        match self {
            Comparator::Less => left < right,
            Comparator::LessOrEqual => left <= right,
            Comparator::Greater => left > right,
            Comparator::GreaterOrEqual => left >= right,
            Comparator::Equal => left == right,
            Comparator::NotEqual => left != right,
        }
    }
}

#[cfg(test)]
mod tests {
    use super::*;

    #[test]
    fn the_checked_example_0_1() {
        assert_eq!(value_of(b"0.1").to_bits(), 0x3FB9_9999_9999_999A);
        assert_eq!(finite_number([0x9A, 0x99, 0x99, 0x99, 0x99, 0x99, 0xB9, 0x3F]), Some(0.1));
    }

    #[test]
    fn literals_have_these_bits() {
        for (literal, bits) in [
            ("0", 0),
            ("-0", 0x8000_0000_0000_0000),
            ("-0.0", 0x8000_0000_0000_0000),
            ("1", 0x3FF0_0000_0000_0000),
            ("1.0", 0x3FF0_0000_0000_0000),
            ("001", 0x3FF0_0000_0000_0000),
            ("-2.5", 0xC004_0000_0000_0000),
            ("0.3", 0x3FD3_3333_3333_3333),
            ("999999999999999", 0x430C_6BF5_2633_FFF8),
        ] {
            assert_eq!(value_of(literal.as_bytes()).to_bits(), bits, "{}", literal);
        }
    }

    #[test]
    fn minus_zero_equals_zero() {
        let minus_zero = value_of(b"-0");
        assert!(minus_zero.is_sign_negative());
        let answers = COMPARATORS.map(|comparator| comparator.holds(minus_zero, 0.0));
        assert_eq!(answers, [false, true, false, true, true, false]);
    }

    #[test]
    fn the_comparators_hold_as_their_marks_say() {
        let compare = |left: f64, right: f64| COMPARATORS.map(|comparator| comparator.holds(left, right));
        assert_eq!(compare(1.0, 2.0), [true, true, false, false, false, true]);
        assert_eq!(compare(2.0, 1.0), [false, false, true, true, false, true]);
        assert_eq!(compare(2.0, 2.0), [false, true, false, true, true, false]);
        assert_eq!(compare(-2.0, -1.0), [true, true, false, false, false, true]);
    }

    #[test]
    fn nan_and_infinities_are_not_finite() {
        for bits in [
            0x7FF0_0000_0000_0000_u64,
            0xFFF0_0000_0000_0000,
            0x7FF0_0000_0000_0001,
            0x7FF8_0000_0000_0000,
            0xFFFF_FFFF_FFFF_FFFF,
        ] {
            assert_eq!(finite_number(bits.to_le_bytes()), None);
        }
        for bits in
            [0_u64, 1, 0x8000_0000_0000_0000, 0x000F_FFFF_FFFF_FFFF, 0x7FEF_FFFF_FFFF_FFFF, 0xFFEF_FFFF_FFFF_FFFF]
        {
            assert_eq!(finite_number(bits.to_le_bytes()).map(f64::to_bits), Some(bits));
        }
    }
}
