//! What is decided of rows that no sheet lists: the proved program is asked for each alone.

use std::collections::BTreeMap;

use definitions::questions::Question;

use crate::answers::{decide, Answer, Answers};
use crate::asked::Asked;
use crate::command::{not_asked, Done};

/// What is decided of a row that is not allowed.
#[derive(Clone, Copy, PartialEq, Debug)]
pub struct No {
    pub outcome: usize,
    pub policy: usize,
    pub mark: u64,
}

/// What is decided of rows that are not allowed; nothing where a row's attributes do not fit a bag.
pub fn noes(desk: &dyn Answers, asked: &Asked, question: &Question, rows: &[usize]) -> Done<BTreeMap<usize, No>> {
    let mut cases = Vec::new();
    let mut numbers = Vec::new();
    for row in rows {
        if let Some(case) = asked.case_of(&question.choices_of(*row)) {
            cases.push(case);
            numbers.push(*row);
        }
    }
    let answers = match decide(desk, asked.version, &asked.rules, &cases)? {
        Ok(answers) => answers,
        Err(_) => {
            return not_asked("the sheet has rows, but the rules are refused: one of the proved programs is wrong")
        }
    };
    let mut decided = BTreeMap::new();
    for (row, answer) in numbers.into_iter().zip(answers) {
        match answer {
            Answer::Decided { outcome: outcome @ (2 | 3), policy, mark } => {
                decided.insert(row, No { outcome, policy, mark })
            }
            _ => {
                return not_asked(format!(
                    "row {} is not on the sheet, but asked alone it is not a no: one of the proved programs is wrong",
                    row
                ))
            }
        };
    }
    Ok(decided)
}
