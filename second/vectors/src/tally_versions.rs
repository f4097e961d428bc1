//! The tally vectors of 02's request 7: tallies under both versions, over columns with absent candidates.

use definitions::compile::table_of;
use definitions::policies::Version;
use definitions::tallies::requests_lent;
use generators::absences::{self, rules_with_missing_columns, ROW_CONDITIONS};
use generators::bag_bytes::damaged;
use generators::examples::{example_question, question_of_rows, EXAMPLE};
use generators::random::Random;
use generators::requests;
use generators::tallies::{self, REFUSED, REQUESTS};

use crate::sheet_versions::example_under_not;
use crate::tally_vectors::{vector, with_own_table, BY_REQUEST, SYSTEM, TEACH};
use crate::vector::{policy_starts, under_both, Vector};

/// The vectors that are the same for every seed.
pub fn fixed() -> Vec<Vector> {
    let mut vectors = Vec::new();
    for count in 1..=REQUESTS.len() {
        for text in [EXAMPLE, &example_under_not()] {
            vectors.push(with_own_table(text, &example_question(), &REQUESTS[..count]));
            vectors.push(with_own_table(text, &example_question(), &REQUESTS[REQUESTS.len() - count..]));
        }
        vectors.push(with_own_table(BY_REQUEST, &question_of_rows(&[3, 2, 2]), &REQUESTS[..count]));
    }
    add_columns(&mut vectors);
    vectors.push(with_own_table(&rules_with_missing_columns(), &question_of_rows(&[2; 6]), &REQUESTS[1..3]));
    let mut all: Vec<Vector> = vectors.iter().flat_map(under_both).collect();
    add_wrong_tables(&mut all);
    all
}

/// Columns whose first candidate is absent.
fn add_columns(vectors: &mut Vec<Vector>) {
    for (index, counts) in
        [&[][..], &[1], &[8], &[2, 3], &[3, 1, 2], &[2, 2, 2, 2], &[1, 2, 1, 3, 1, 2]].iter().enumerate()
    {
        for (number, condition) in ROW_CONDITIONS.iter().enumerate() {
            let text = format!(
                "permit(principal,action,resource)when{{{0}}};forbid(principal is tool,action,resource)when{{!({0})}};",
                condition
            );
            let first = (index + number) % 6;
            vectors.push(with_own_table(&text, &question_of_rows(counts), &REQUESTS[first..first + 1 + number % 3]));
        }
    }
}

/// 20: tables that record two versions or none, at each turn; any table for a text without policies.
fn add_wrong_tables(vectors: &mut Vec<Vector>) {
    let text = example_under_not();
    for requests in [&[TEACH][..], &[SYSTEM], &[SYSTEM, TEACH], &[SYSTEM, REFUSED[0].1], &REQUESTS] {
        let mut add = |text: &[u8], table: &[u8]| {
            let lent = requests_lent(requests);
            vectors.push(vector(text, table, &example_question(), requests.len() as u64, &lent));
        };
        for version in Version::ALL {
            let table = table_of(text.as_bytes(), version);
            for start in policy_starts(&table) {
                for kind in [0, 23, 28, 29, 30, 31, 35, 36, 37, 38, 43, 44] {
                    let mut changed = table.clone();
                    changed[start] = kind;
                    add(text.as_bytes(), &changed);
                }
            }
            add(text.as_bytes(), &table[..table.len() - 1]);
            add(b"\n", &table);
        }
    }
}

/// A random tally under both versions.
pub fn random(random: &mut Random) -> Vec<Vector> {
    let wish = requests::wish(random);
    let text = absences::text(random, &wish);
    let most = random.pick(&[8, 30, 60, 100]);
    let question = requests::question(random, most).bytes();
    let asked = tallies::requests(random, &wish);
    let (many, lent) =
        if random.one_in(8) { tallies::lent(random, &asked) } else { (asked.len() as u64, requests_lent(&asked)) };
    let mut both = under_both(&vector(&text, b"", &question, many, &lent));
    if random.one_in(25) {
        both[1][1] = damaged(both[1][1].clone(), random);
    }
    both.to_vec()
}

#[cfg(test)]
mod tests {
    use super::*;
    use crate::tally_vectors::answer;

    // By hand, as for the sheet: rows 2 and 8 are allowed, six forbidden, and row 5 is neither; under version 2 rows 6 and 8 are allowed,
    // rows 1, 4 and 7 forbidden, and four are neither.
    #[test]
    fn the_example_under_not() {
        let [one, two] = under_both(&with_own_table(&example_under_not(), &example_question(), &[TEACH]));
        assert_eq!(answer(&one), "T 0 2 1 6 2 1 4 2 5 6 544 2 545 6 546 1 548 2 549 6");
        assert_eq!(answer(&two), "T 0 2 1 3 2 4 4 2 5 3 544 2 545 3 546 4 548 2 549 3");
    }

    #[test]
    fn tables_are_refused_at_their_turn() {
        let answers: Vec<String> = fixed().iter().map(answer).collect();
        let count = |start: &str| answers.iter().filter(|line| line.starts_with(start)).count();
        assert!(count("R 20 ") > 100 && count("R 21 ") > 20 && count("T ") > 300);
    }
}
