//! Numbers and counts as words.

/// A number with a comma after its thousands.
pub fn grouped(number: usize) -> String {
    let digits = number.to_string();
    let mut result = String::new();
    for (index, digit) in digits.chars().enumerate() {
        if index > 0 && (digits.len() - index) % 3 == 0 {
            result.push(',');
        }
        result.push(digit);
    }
    result
}

/// `1 row`, `2 rows`.
pub fn count_of(count: usize, one: &str, many: &str) -> String {
    format!("{} {}", grouped(count), if count == 1 { one } else { many })
}

/// A sentence with its full stop, unless it is a question.
pub fn sentence(said: &str) -> String {
    format!("{}{}", said, if said.ends_with('?') { "" } else { "." })
}

/// `1st`, `2nd`, `33rd`.
pub fn ordinal(number: usize) -> String {
    let ending = match (number % 100, number % 10) {
        (11..=13, _) => "th",
        (_, 1) => "st",
        (_, 2) => "nd",
        (_, 3) => "rd",
        _ => "th",
    };
    format!("{}{}", number, ending)
}

/// Numbers that ascend, as `1, 2, 4 to 32`.
pub fn ranges(numbers: &[usize]) -> String {
    let mut parts = Vec::new();
    let mut rest = numbers;
    while let [first, ..] = rest {
        let length = rest.iter().zip(*first..).take_while(|(number, next)| *number == next).count();
        let last = first + length - 1;
        match length {
            1 => parts.push(first.to_string()),
            2 => parts.extend([first.to_string(), last.to_string()]),
            _ => parts.push(format!("{} to {}", first, last)),
        }
        rest = &rest[length..];
    }
    parts.join(", ")
}

#[cfg(test)]
mod tests {
    use super::*;

    #[test]
    fn numbers_are_written_for_people() {
        assert_eq!(grouped(7), "7");
        assert_eq!(grouped(4_096), "4,096");
        assert_eq!(grouped(262_144), "262,144");
        assert_eq!(count_of(1, "row", "rows"), "1 row");
        assert_eq!(count_of(1_000, "row", "rows"), "1,000 rows");
        assert_eq!(sentence("so it is"), "so it is.");
        assert_eq!(sentence("is it?"), "is it?");
        assert_eq!(ordinal(1), "1st");
        assert_eq!(ordinal(11), "11th");
        assert_eq!(ordinal(33), "33rd");
        assert_eq!(ranges(&[1, 2, 4, 5, 6, 9]), "1, 2, 4 to 6, 9");
        assert_eq!(ranges(&[7]), "7");
    }
}
