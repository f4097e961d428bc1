//! Rules of 64 policies for marks (02, request 6): some are satisfied whatever the bag has, or others in each row.

/// The most policies of a text: a mark has a bit for each.
pub const PLACES: usize = 64;

/// 64 policies with these effects. For a person those are satisfied that are said to be: of even number by their target, the others
/// by their condition.
pub fn rules_satisfied(effect_of: impl Fn(usize) -> &'static str, is_satisfied: impl Fn(usize) -> bool) -> String {
    let rest_of = |number: usize| match (number % 2 == 0, is_satisfied(number)) {
        (true, true) => "(principal,action,resource);",
        (true, false) => "(principal is tool,action,resource);",
        (false, true) => "(principal,action,resource)when{!principal has none};",
        (false, false) => "(principal,action,resource)when{principal has none};",
    };
    (1..=PLACES).map(|number| [effect_of(number), rest_of(number)].concat()).collect()
}

/// 64 policies over the columns env.c0 to env.c5, permits but for one of them, or for none: policy n is satisfied in the rows in which
/// those are there that the six bits of n - 1 say, the first column's being the highest. So each row has a mark of its own.
pub fn rules_with_marks_of_their_own(forbid: usize) -> String {
    (1..=PLACES)
        .map(|number| {
            let effect = if number == forbid { "forbid" } else { "permit" };
            let is_asked = |column: &usize| (number - 1) >> (5 - column) & 1 == 1;
            let parts: Vec<String> = (0..6).filter(is_asked).map(|column| format!("env has c{}", column)).collect();
            let condition = if parts.is_empty() { "true".to_string() } else { parts.join("&&") };
            format!("{}(principal,action,resource)when{{{}}};", effect, condition)
        })
        .collect()
}

#[cfg(test)]
mod tests {
    use super::*;
    use crate::examples::{question_of_rows, REQUEST};
    use definitions::compile::{policies_of, table_of};
    use definitions::policies::Version;
    use definitions::tallies::decisions;

    #[test]
    fn there_are_64_policies() {
        for text in [rules_satisfied(|_| "forbid", |number| number > 9), rules_with_marks_of_their_own(7)] {
            assert_eq!(policies_of(text.as_bytes()).unwrap().len(), PLACES);
        }
    }

    // In row r policy n is satisfied if the bits of n - 1 are among those of r.
    #[test]
    fn each_row_has_a_mark_of_its_own() {
        let text = rules_with_marks_of_their_own(0);
        let decided =
            decisions(text.as_bytes(), &table_of(text.as_bytes(), Version::One), &question_of_rows(&[2; 6]), REQUEST);
        for (row, decision) in decided.iter().enumerate() {
            let expected: u64 = (0..64).filter(|bits| bits & row == *bits).map(|bits| 1 << bits).sum();
            assert_eq!((decision.outcome, decision.policy, decision.mark), (1, 1, expected));
        }
        assert_eq!((decided[0].mark, decided[1].mark, decided[32].mark), (1, 3, 1 << 32 | 1));
        assert_eq!(decided[63].mark, u64::MAX);
    }
}
