//! The sheet vectors of 02's request 7: pages under both versions, over columns with absent candidates, from several start rows.

use definitions::compile::table_of;
use definitions::deciding::Request;
use definitions::policies::Version;
use definitions::questions::read_question;
use generators::absences::{self, rules_with_missing_columns, ROW_CONDITIONS};
use generators::bag_bytes::damaged;
use generators::examples::{example_question, question_of_rows, EXAMPLE, REQUEST};
use generators::random::Random;
use generators::requests;

use crate::sheet_vectors::{vector, with_own_table, Wanted, EXAMPLE_REQUEST};
use crate::vector::{policy_starts, under_both, Vector};

/// The worked example with `!` before its conditions.
pub fn example_under_not() -> String {
    EXAMPLE.replace("when { ", "when { !")
}

/// The vectors that are the same for every seed.
pub fn fixed() -> Vec<Vector> {
    let mut vectors = Vec::new();
    add_example(&mut vectors);
    add_columns(&mut vectors);
    add_marks(&mut vectors);
    add_many_rows(&mut vectors);
    let mut all: Vec<Vector> = vectors.iter().flat_map(under_both).collect();
    add_wrong_tables(&mut all);
    all
}

/// The worked example, and the same with `!` before its conditions, from each start row; and the system's rows.
fn add_example(vectors: &mut Vec<Vector>) {
    let under_not = example_under_not();
    for start in 0..=10 {
        for (length, named) in [(14, 0), (15, 1), (28, 0), (33, 5), (600, 7)] {
            let wanted = Wanted { start, length, named };
            for text in [EXAMPLE, &under_not] {
                vectors.push(with_own_table(text, &example_question(), EXAMPLE_REQUEST, wanted));
            }
        }
        let wanted = Wanted { start, length: 50, named: 2 };
        for subject in [&b"system"[..], b"tool:1", b"system:"] {
            let request = Request { subject, ..EXAMPLE_REQUEST };
            vectors.push(with_own_table(&under_not, &example_question(), request, wanted));
        }
    }
}

/// Columns whose first candidate is absent.
fn add_columns(vectors: &mut Vec<Vector>) {
    for counts in [&[][..], &[1], &[2], &[8], &[2, 3], &[3, 3], &[3, 1, 2], &[2, 2, 2, 2], &[1, 2, 1, 3, 1, 2]] {
        let question = question_of_rows(counts);
        let rows = counts.iter().map(|count| u64::from(*count)).product::<u64>();
        for condition in ROW_CONDITIONS {
            let permit = format!("permit(principal,action,resource)when{{{}}};", condition);
            let forbid = format!("forbid(principal is person,action,resource)when{{{}}};", condition);
            for text in [permit.clone(), ["permit(principal,action,resource);", &forbid, &permit].concat()] {
                for (start, length, named) in [(0, 400, 0), (rows / 2, 44, 1)] {
                    vectors.push(with_own_table(&text, &question, REQUEST, Wanted { start, length, named }));
                }
            }
        }
    }
}

/// 64 policies that under version 2 give each row a mark of its own.
fn add_marks(vectors: &mut Vec<Vector>) {
    let question = question_of_rows(&[2; 6]);
    let text = rules_with_missing_columns();
    for start in (0..64).step_by(3).chain([63]) {
        vectors.push(with_own_table(&text, &question, REQUEST, Wanted { start, length: 30, named: start % 3 }));
    }
    for (start, length) in [(0, 896), (0, 100), (40, 1_000)] {
        vectors.push(with_own_table(&text, &question, REQUEST, Wanted { start, length, named: 0 }));
    }
}

/// The last rows of the question with the most.
fn add_many_rows(vectors: &mut Vec<Vector>) {
    let question = question_of_rows(&[8; 6]);
    let text = "permit(principal,action,resource)when{env.c0 in env.c1||!env.c5==false&&env.c4==true};";
    for start in [260_000, 262_140, 262_144, 262_145] {
        vectors.push(with_own_table(text, &question, REQUEST, Wanted { start, length: 140, named: 0 }));
    }
}

/// Tables that record two versions or none, that are cut, and any for a text without policies.
fn add_wrong_tables(vectors: &mut Vec<Vector>) {
    let text = example_under_not();
    let wanted = Wanted { start: 0, length: 48, named: 0 };
    for subject in [&b"person:K7"[..], b"system", b""] {
        let request = Request { subject, ..EXAMPLE_REQUEST };
        let mut add =
            |text: &[u8], table: &[u8]| vectors.push(vector(text, table, &example_question(), request, wanted));
        for version in Version::ALL {
            let table = table_of(text.as_bytes(), version);
            for start in policy_starts(&table) {
                for kind in [0, 22, 23, 28, 29, 30, 31, 35, 36, 37, 38, 43, 44] {
                    let mut changed = table.clone();
                    changed[start] = kind;
                    add(text.as_bytes(), &changed);
                }
            }
            add(text.as_bytes(), &table[..table.len() - 1]);
            add(text.as_bytes(), &[&table[..], &[9]].concat());
            add(b" ", &table);
        }
        add(b"", &[38]);
    }
}

/// A random question from two start rows, each under both versions.
pub fn random(random: &mut Random) -> Vec<Vector> {
    let wish = requests::wish(random);
    let text = absences::text(random, &wish);
    let most = random.pick(&[8, 30, 60, 100]);
    let question = requests::question(random, most).bytes();
    let rows = read_question(&question).map_or(0, |question| question.rows());
    let request = Request {
        subject: if random.one_in(20) { b"system" } else { wish.subject.as_bytes() },
        action: wish.action.as_bytes(),
        resource: wish.resource.as_bytes(),
    };
    let mut vectors = Vec::new();
    for start in [0, random.below(rows + 1) as u64] {
        let length = random.pick(&[14, 28, 56, 140, 1_400]) + random.pick(&[0, 0, 1, 6]);
        let named = random.below(length - 13);
        let wanted = Wanted { start, length: length as u16, named: if random.one_in(2) { 0 } else { named as u64 } };
        let mut both = under_both(&vector(&text, b"", &question, request, wanted));
        if random.one_in(25) {
            both[1][1] = damaged(both[1][1].clone(), random);
        }
        vectors.extend(both);
    }
    vectors
}

#[cfg(test)]
mod tests {
    use super::*;
    use crate::sheet_vectors::{answer, lent};
    use crate::vector::sum_of;

    // By hand, grade slowest: under `!` policy 1 is satisfied where the grade is 2.5, in rows 6 to 8, and policy 2 where hired is "own", in
    // rows 1, 4 and 7; under version 1 also in rows 0 to 2, which have no grade, and 0, 3 and 6, which have no hired. So rows 2 and 8 are
    // listed under version 1, and rows 6 and 8 under version 2.
    #[test]
    fn the_example_under_not() {
        let wanted = Wanted { start: 0, length: 56, named: 0 };
        let [one, two] =
            under_both(&with_own_table(&example_under_not(), &example_question(), EXAMPLE_REQUEST, wanted));
        let row = |number: u8| [number, 0, 0, 0, 1, 1, 1, 0, 0, 0, 0, 0, 0, 0];
        let line = |first: u8| {
            let sheet = [&row(first)[..], &row(8), &lent(56)[28..]].concat();
            format!("2 9 {}", sum_of(&sheet))
        };
        assert_eq!((answer(&one), answer(&two)), (line(2), line(6)));
    }

    #[test]
    fn refusals_and_pages_are_there() {
        let answers: Vec<String> = fixed().iter().map(answer).collect();
        let count = |start: &str| answers.iter().filter(|line| line.starts_with(start)).count();
        assert!(count("R 20 ") > 40 && count("R 21 ") > 20 && count("R 26 ") > 4);
        assert!(count("0 ") > 100 && count("1 ") > 100 && count("4 ") > 20 && count("64 ") >= 2);
    }
}
