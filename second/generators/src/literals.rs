//! Random number literals.

use crate::random::Random;

/// A random literal: 1 to 15 digits, the point anywhere between them or nowhere, maybe zeros first, maybe a minus.
pub fn literal(random: &mut Random) -> Vec<u8> {
    let count = if random.one_in(3) { random.between(1, 3) } else { random.between(1, 15) };
    let mut digits: Vec<u8> = (0..count).map(|_| b'0' + random.below(10) as u8).collect();
    if random.one_in(5) {
        let zeros = random.between(1, count);
        digits[..zeros].fill(b'0');
    }
    if random.one_in(10) {
        let same = random.between(0, count);
        let digit = random.pick(b"09");
        digits[same..].fill(digit);
    }
    let before_point = random.between(1, count);
    if before_point < count {
        digits.insert(before_point, b'.');
    }
    if random.one_in(3) {
        digits.insert(0, b'-');
    }
    digits
}

#[cfg(test)]
mod tests {
    use super::*;
    use definitions::numbers::value_of;

    /// The clause to the letter: N and ten to the k are exact in binary64, and one division rounds once.
    fn divided_once(literal: &[u8]) -> f64 {
        let mut whole: u64 = 0;
        let mut power: u64 = 1;
        let mut after_point = false;
        for byte in literal {
            match byte {
                b'0'..=b'9' => {
                    whole = whole * 10 + u64::from(byte - b'0');
                    if after_point {
                        power *= 10;
                    }
                }
                b'.' => after_point = true,
                _ => assert_eq!(*byte, b'-'),
            }
        }
        assert!(whole < 1 << 53 && power < 1 << 53);
        let value = whole as f64 / power as f64;
        if literal[0] == b'-' {
            -value
        } else {
            value
        }
    }

    #[test]
    fn the_value_is_one_division() {
        let mut random = Random::new(19);
        for _ in 0..200_000 {
            let literal = literal(&mut random);
            let value = value_of(&literal);
            assert_eq!(value.to_bits(), divided_once(&literal).to_bits(), "{:?}", literal);
        }
    }
}
