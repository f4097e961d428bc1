//! What the sheet program printed, read (01, "Checked examples"; 02, request 6).

use definitions::deciding::is_marked;

use crate::answers::{before_mark, read_refused, Refused};
use crate::words::{count_of, grouped};

/// What the sheet program printed.
#[derive(PartialEq, Debug)]
pub enum Printed {
    Sheet { rows: usize, listed: Vec<Listed> },
    Refused(Refused),
}

/// A listed row: its number, outcome, policy and mark.
#[derive(Clone, Copy, PartialEq, Debug)]
pub struct Listed {
    pub row: usize,
    pub outcome: usize,
    pub policy: usize,
    pub mark: u64,
}

/// The lines, or what is wrong with them, in words.
pub fn read_printed(bytes: &[u8]) -> Result<Printed, String> {
    let text = String::from_utf8_lossy(bytes);
    let lines: Vec<&str> = text.lines().collect();
    let first = lines.first().ok_or("the sheet's output is empty; expected what the sheet program prints")?;
    if let Some(refused) = read_refused(first) {
        return match lines.len() {
            1 => Ok(Printed::Refused(refused)),
            _ => Err("line 2 of the sheet's output: expected nothing after the refusal".to_string()),
        };
    }
    let rows = match numbers_after("rows", first, 1) {
        Some(numbers) => numbers[0],
        None => return Err("line 1 of the sheet's output: expected rows and a number, or refused and four".to_string()),
    };
    let mut listed: Vec<Listed> = Vec::new();
    for (index, line) in lines.iter().enumerate().skip(1) {
        let wrong = |what: String| format!("line {} of the sheet's output: {}", index + 1, what);
        match numbers_after("allowed", line, 1) {
            None => {
                let row = row_of(line, rows, listed.last()).map_err(wrong)?;
                listed.push(row);
            }
            Some(numbers) if numbers[0] != listed.len() => {
                return Err(wrong(format!("expected allowed {}, the number of rows above", listed.len())));
            }
            Some(_) if index + 1 < lines.len() => {
                return Err(format!("line {} of the sheet's output: expected nothing after allowed", index + 2));
            }
            Some(_) => return Ok(Printed::Sheet { rows, listed }),
        }
    }
    Err("the sheet's output has no last line: expected allowed and a number".to_string())
}

/// The row that a line lists, after the last one.
fn row_of(line: &str, rows: usize, last: Option<&Listed>) -> Result<Listed, String> {
    let (before, mark) = before_mark(line).unwrap_or(("", 0));
    match numbers_after("", before, 3).as_deref() {
        Some([row, outcome, policy]) => {
            if *row >= rows || last.map_or(false, |last| last.row >= *row) {
                return Err(format!("row {} is out of order or past the last", row));
            }
            Ok(Listed { row: *row, outcome: *outcome, policy: *policy, mark })
        }
        _ => Err("expected a row's number, outcome, policy and mark, or allowed and a number".to_string()),
    }
}

/// So many numbers after a word, with single blanks between.
fn numbers_after(word: &str, line: &str, count: usize) -> Option<Vec<usize>> {
    let rest = if word.is_empty() { line } else { line.strip_prefix(word)?.strip_prefix(' ')? };
    let numbers: Option<Vec<usize>> = rest.split(' ').map(|number| number.parse().ok()).collect();
    numbers.filter(|numbers| numbers.len() == count)
}

/// Whether the rows belong to a question with so many rows and a text with so many policies: the policy that decides is marked, none
/// that is not there, and for the system none.
pub fn check_belongs(printed: &Printed, rows_of_question: usize, policies: usize) -> Result<(), String> {
    let (rows, listed) = match printed {
        Printed::Sheet { rows, listed } => (*rows, listed),
        Printed::Refused(_) => return Ok(()),
    };
    if rows != rows_of_question {
        let own = count_of(rows_of_question, "row", "rows");
        return Err(format!("the sheet's output says {} rows, but question.bin has {}", grouped(rows), own));
    }
    for Listed { row, outcome, policy, mark } in listed {
        let is_good = match outcome {
            1 => {
                (1..=policies).contains(policy)
                    && is_marked(*mark, *policy)
                    && mark.checked_shr(policies as u32).unwrap_or(0) == 0
            }
            4 => *policy == 0 && *mark == 0,
            _ => false,
        };
        if !is_good {
            let own = count_of(policies, "policy", "policies");
            return Err(format!(
                "the sheet's output says outcome {} by policy {} with mark {} for row {}, but policy.txt has {}",
                outcome, policy, mark, row, own
            ));
        }
    }
    Ok(())
}

#[cfg(test)]
mod tests {
    use super::*;

    #[test]
    fn what_is_printed_is_read() {
        let row = |row: usize, mark: u64| Listed { row, outcome: 1, policy: 1, mark };
        let listed = vec![row(3, 1), row(4, u64::MAX)];
        let printed = read_printed(b"rows 9\n3 1 1 1\n4 1 1 18446744073709551615\nallowed 2\n");
        assert_eq!(printed, Ok(Printed::Sheet { rows: 9, listed }));
        assert_eq!(read_printed(b"rows 1\nallowed 0\n"), Ok(Printed::Sheet { rows: 1, listed: vec![] }));
        let refused = Refused { number: 8, line: 1, column: 50, length: 1 };
        assert_eq!(read_printed(b"refused 8 1 50 1\n"), Ok(Printed::Refused(refused)));
    }

    #[test]
    fn other_lines_are_not() {
        for (text, what) in [
            ("", "output is empty"),
            ("row 9\n", "line 1 of the sheet's output: expected rows and a number, or refused and four"),
            ("rows 9\n", "no last line"),
            (
                "rows 9\n3 1\nallowed 1\n",
                "line 2 of the sheet's output: expected a row's number, outcome, policy and mark",
            ),
            (
                "rows 9\n3 1 1\nallowed 1\n",
                "line 2 of the sheet's output: expected a row's number, outcome, policy and mark",
            ),
            (
                "rows 9\n3 1 1 18446744073709551616\nallowed 1\n",
                "line 2 of the sheet's output: expected a row's number",
            ),
            ("rows 9\n3 1 1 1\nallowed 2\n", "line 3 of the sheet's output: expected allowed 1"),
            ("rows 9\n9 1 1 1\nallowed 1\n", "line 2 of the sheet's output: row 9 is out of order"),
            ("rows 9\n4 1 1 1\n3 1 1 1\nallowed 2\n", "line 3 of the sheet's output: row 3 is out of order"),
            ("rows 9\nallowed 0\nmore\n", "line 3 of the sheet's output: expected nothing"),
            ("refused 8 1\n", "line 1"),
            ("refused 8 1 2 2\nmore\n", "line 2"),
        ] {
            let said = read_printed(text.as_bytes()).unwrap_err();
            assert!(said.contains(what), "{}: {}", text, said);
        }
    }

    #[test]
    fn a_sheet_belongs_to_its_folder() {
        let sheet = |text: &str| read_printed(text.as_bytes()).unwrap();
        assert!(check_belongs(&sheet("rows 9\n3 1 2 2\nallowed 1"), 9, 2).is_ok());
        assert!(check_belongs(&sheet("rows 9\n3 1 2 3\nallowed 1"), 9, 2).is_ok());
        assert!(check_belongs(&sheet("rows 9\n3 4 0 0\nallowed 1"), 9, 2).is_ok());
        assert!(check_belongs(&sheet("rows 9\n3 1 1 18446744073709551615\nallowed 1"), 9, 64).is_ok());
        for bad in [
            "rows 8\nallowed 0",
            "rows 9\n3 1 3 4\nallowed 1",
            "rows 9\n3 1 0 0\nallowed 1",
            "rows 9\n3 2 1 1\nallowed 1",
            "rows 9\n3 1 2 1\nallowed 1",
            "rows 9\n3 1 2 6\nallowed 1",
            "rows 9\n3 1 1 0\nallowed 1",
            "rows 9\n3 4 0 1\nallowed 1",
        ] {
            assert!(check_belongs(&sheet(bad), 9, 2).is_err(), "{}", bad);
        }
    }
}
