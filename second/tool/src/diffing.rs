//! Two rule texts, or one under two versions, and one question: the rows opened, closed, and decided by another policy.

use definitions::compile::policies_of;
use definitions::policies::Version;
use definitions::questions::Question;

use crate::answers::{decide, Answer, Answers};
use crate::asked::Asked;
use crate::command::{not_asked, Done};
use crate::printed::Listed;
use crate::rules::{policy_texts, PolicyText};
use crate::testing::answer_text;
use crate::versions::{met_absent, under};
use crate::words::count_of;
use crate::writing::candidate_text;

/// A row that is decided otherwise: its number, and both answers.
#[derive(PartialEq, Debug)]
pub struct Changed {
    pub row: usize,
    pub before: Answer,
    pub after: Answer,
}

/// The rows that changed, in three sorts.
#[derive(PartialEq, Debug, Default)]
pub struct Diff {
    pub opened: Vec<Changed>,
    pub closed: Vec<Changed>,
    pub by_another: Vec<Changed>,
    pub same: usize,
}

/// The difference between two sheets of one question. Policies are the same if their tokens are, whatever their numbers.
pub fn diff(desk: &dyn Answers, before: &Asked, after: &Asked, listed: [&[Listed]; 2]) -> Done<Diff> {
    let texts = [policy_texts(&before.rules), policy_texts(&after.rules)];
    let rows = before.question()?.rows();
    let mut both: Vec<[Option<Listed>; 2]> = vec![[None, None]; rows];
    for (side, listed) in listed.into_iter().enumerate() {
        listed.iter().for_each(|one| both[one.row][side] = Some(*one));
    }
    let only = |side: usize| {
        (0..rows).filter(|row| both[*row][side].is_some() && both[*row][1 - side].is_none()).collect::<Vec<_>>()
    };
    let (closed, opened) = (only(0), only(1));
    let mut found = Diff::default();
    for (row, after) in closed.iter().zip(noes(desk, after, &closed)?) {
        found.closed.push(Changed { row: *row, before: yes(both[*row][0])?, after });
    }
    for (row, before) in opened.iter().zip(noes(desk, before, &opened)?) {
        found.opened.push(Changed { row: *row, before, after: yes(both[*row][1])? });
    }
    for (row, sides) in both.iter().enumerate() {
        if let [Some(one), Some(other)] = sides {
            let tokens = |side: usize, policy: usize| policy.checked_sub(1).map(|index| &texts[side][index].tokens);
            if tokens(0, one.policy) != tokens(1, other.policy) {
                found.by_another.push(Changed { row, before: yes(sides[0])?, after: yes(sides[1])? });
            }
        }
    }
    found.same = rows - found.opened.len() - found.closed.len() - found.by_another.len();
    Ok(found)
}

fn yes(listed: Option<Listed>) -> Done<Answer> {
    match listed {
        Some(Listed { outcome, policy, mark, .. }) => Ok(Answer::Decided { outcome, policy, mark }),
        None => not_asked("a row is missing on a sheet"),
    }
}

/// What is decided of rows that are not on the sheet.
fn noes(desk: &dyn Answers, asked: &Asked, rows: &[usize]) -> Done<Vec<Answer>> {
    let question = asked.question()?;
    let cases: Option<Vec<_>> = rows.iter().map(|row| asked.case_of(&question.choices_of(*row))).collect();
    let cases = match cases {
        Some(cases) => cases,
        None => {
            return not_asked(
                "a row has more attributes than a bag can hold, so it cannot be asked alone; make the base smaller",
            )
        }
    };
    match decide(desk, asked.version, &asked.rules, &cases)? {
        Ok(answers) => Ok(answers),
        Err(_) => not_asked("the sheet has rows, but the rules are refused: one of the proved programs is wrong"),
    }
}

/// The difference as text.
pub fn diff_text(diff: &Diff, before: &Asked, after: &Asked) -> Done<String> {
    let question = before.question()?;
    let named = |asked: &Asked| match before.version == after.version {
        true => format!("{}{}", asked.rules_name, under(asked.version)),
        false => format!("{} under version {}", asked.rules_name, asked.version),
    };
    let mut text = format!("{} before, {} after.\n", named(before), named(after));
    text += &format!(
        "{}: {} opened, {} closed, {} decided by another policy, {} as before.\n",
        count_of(question.rows(), "row", "rows"),
        diff.opened.len(),
        diff.closed.len(),
        diff.by_another.len(),
        diff.same
    );
    for (title, rows) in [
        ("Opened: not allowed before, allowed after", &diff.opened),
        ("Closed: allowed before, not allowed after", &diff.closed),
        ("Allowed before and after, by another policy", &diff.by_another),
    ] {
        if !rows.is_empty() {
            let rows: String = rows.iter().map(|changed| changed_text(changed, &question, before, after)).collect();
            text += &format!("\n{}\n{}", title, rows);
        }
    }
    Ok(text + &policies_text(diff, before, after))
}

/// A row that is decided otherwise: its values, both answers, and what version 2 meets there.
fn changed_text(changed: &Changed, question: &Question, before: &Asked, after: &Asked) -> String {
    let choices = question.choices_of(changed.row);
    let columns = before.form.columns.iter().flatten().zip(choices);
    let values: Vec<String> = columns
        .map(|(column, choice)| format!("{} = {}", column.name(), candidate_text(&column.candidates[choice])))
        .collect();
    let values = if values.is_empty() { String::new() } else { format!("  {}", values.join(", ")) };
    format!(
        "  row {}{}\n      before: {}\n      after:  {}\n{}",
        changed.row,
        values,
        answer_text(changed.before),
        answer_text(changed.after),
        met_text(changed, question, before, after).unwrap_or_default()
    )
}

/// Which absent attribute makes the policy that decides under version 1 unsatisfied under version 2; nothing where more than the version
/// differs.
fn met_text(changed: &Changed, question: &Question, before: &Asked, after: &Asked) -> Option<String> {
    let under_first = match (before.known_version(), after.known_version()) {
        (Version::One, Version::Two) => changed.before,
        (Version::Two, Version::One) => changed.after,
        _ => return None,
    };
    let policy = match under_first {
        Answer::Decided { policy, .. } if before.rules == after.rules => policy,
        _ => return None,
    };
    let policies = policies_of(&before.rules).ok()?;
    let attribute = met_absent(before, question, changed.row, policies.get(policy.checked_sub(1)?)?)?;
    let said = format!("policy {} meets {}, which is absent, and is unsatisfied", policy, attribute);
    Some(format!("      under version 2 {}\n", said))
}

/// The policies that are named, as they stand in their files; those of one text under two versions once.
fn policies_text(diff: &Diff, before: &Asked, after: &Asked) -> String {
    let changed = || diff.opened.iter().chain(&diff.closed).chain(&diff.by_another);
    let befores: Vec<Answer> = changed().map(|one| one.before).collect();
    let afters: Vec<Answer> = changed().map(|one| one.after).collect();
    let is_one_file = (&before.rules_name, &before.rules) == (&after.rules_name, &after.rules);
    let sides = match is_one_file {
        true => vec![(before, [befores, afters].concat())],
        false => vec![(before, befores), (after, afters)],
    };
    let mut text = String::new();
    for (asked, answers) in sides {
        let is_named = |policy: &&PolicyText| {
            answers
                .iter()
                .any(|answer| matches!(answer, Answer::Decided { policy: number, .. } if *number == policy.number))
        };
        for policy in policy_texts(&asked.rules).iter().filter(is_named) {
            text += &format!("\n{}, policy {} in line {}:\n", asked.rules_name, policy.number, policy.line);
            policy.lines.iter().for_each(|line| text += &format!("    {}\n", line));
        }
    }
    text
}
