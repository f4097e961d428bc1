//! Sheets: the listed rows of a question, page by page, and what the sheet program prints (01, "The sheet" and "Checked
//! examples"; 02, request 6).

use crate::compile::{compile, set_said_by, Refusal, ROOM_FOR_EACH_BYTE};
use crate::deciding::{decision_of_set, Decision, Request, ALLOWED, SYSTEM, SYSTEM_DECISION};
use crate::policies::Set;
use crate::questions::{read_question, Question};

/// A listed row is 14 bytes.
pub const ROW_BYTES: usize = 14;

/// What a call answers: the rows written, and the first listed row at or after the start that was not written, else the
/// number of rows.
#[derive(Clone, Copy, PartialEq, Eq, Debug)]
pub struct Page {
    pub written: usize,
    pub next: usize,
}

/// Where a call writes: into the lent bytes from the named byte on, listed rows from the start row on.
pub struct PageWanted<'a> {
    pub lent: &'a mut [u8],
    pub named_byte: usize,
    pub start_row: usize,
}

/// Write a page, or the refusal's number; a refusal changes nothing lent. 01, "Refusal numbers": 25, 24, 26; system rows
/// are then all outcome 4; else 21, 22, 23, 20.
pub fn write_page(
    text: &[u8],
    table: &[u8],
    question: &[u8],
    request: Request,
    wanted: PageWanted,
) -> Result<Page, u8> {
    let PageWanted { lent, named_byte, start_row } = wanted;
    if named_byte > lent.len() || lent.len() - named_byte < ROW_BYTES {
        return Err(25);
    }
    let question = read_question(question).ok_or(24)?;
    if start_row > question.rows() {
        return Err(26);
    }
    let mut set = Set::default();
    if !request.is_of_system() {
        if let Some(number) = request.refusal() {
            return Err(number);
        }
        set = set_said_by(text, table).ok_or(20)?;
    }
    let mut room = lent[named_byte..].chunks_exact_mut(ROW_BYTES);
    let mut written = 0;
    for row in start_row..question.rows() {
        let decision = decision_of_row(text, &set, &question, request, row);
        if decision.outcome == ALLOWED || decision.outcome == SYSTEM {
            match room.next() {
                None => return Ok(Page { written, next: row }),
                Some(bytes) => bytes.copy_from_slice(&bytes_of_row(row, decision)),
            }
            written += 1;
        }
    }
    Ok(Page { written, next: question.rows() })
}

/// A row's decision: that over the base with each column's attribute set to its choice or removed.
pub fn decision_of_row(text: &[u8], set: &Set, question: &Question, request: Request, row: usize) -> Decision {
    if request.is_of_system() {
        return SYSTEM_DECISION;
    }
    let choices = question.choices_of(row);
    decision_of_set(text, set, request, &|root, path| question.look_up(&choices, root, path))
}

/// The row number (4 bytes, little-endian), outcome, policy, and the mark (8 bytes, little-endian).
fn bytes_of_row(row: usize, decision: Decision) -> [u8; ROW_BYTES] {
    let mut bytes = [0; ROW_BYTES];
    bytes[..4].copy_from_slice(&(row as u32).to_le_bytes());
    bytes[4] = decision.outcome;
    bytes[5] = decision.policy as u8;
    bytes[6..].copy_from_slice(&decision.mark.to_le_bytes());
    bytes
}

/// A written row: its number, outcome, policy and mark.
fn row_of_bytes(bytes: &[u8]) -> (u32, u8, u8, u64) {
    let number = u32::from_le_bytes([bytes[0], bytes[1], bytes[2], bytes[3]]);
    let mark = bytes[6..ROW_BYTES].iter().rev().fold(0, |mark, byte| mark << 8 | u64::from(*byte));
    (number, bytes[4], bytes[5], mark)
}

/// The request out of `request.txt`: subject, action, resource, each up to a line feed, a missing line being empty.
pub fn read_request(bytes: &[u8]) -> Request<'_> {
    let mut lines = bytes.split(|byte| *byte == b'\n');
    let mut line = || lines.next().unwrap_or(&[]);
    Request { subject: line(), action: line(), resource: line() }
}

/// What the sheet program prints for `policy.txt`, `question.bin` and `request.txt`, with pages of so many bytes; it is version 1,
/// and `ask sheet` prints the same under another. A refusal is one line and nothing else; one that is not of compiling has line,
/// column and length 0.
pub fn printed(text: &[u8], question: &[u8], request: &[u8], page_bytes: usize, version: u64) -> String {
    let compiled = match compile(text, ROOM_FOR_EACH_BYTE * text.len(), version) {
        Ok(compiled) => compiled,
        Err(refusal) => return refusal.printed(),
    };
    let request = read_request(request);
    let mut lines = String::new();
    let mut listed = 0;
    let mut start_row = 0;
    loop {
        let mut sheet = vec![0; page_bytes];
        let wanted = PageWanted { lent: &mut sheet, named_byte: 0, start_row };
        match write_page(text, &compiled.table, question, request, wanted) {
            Err(number) => return Refusal::without_place(number).printed(),
            Ok(page) => {
                for row in sheet.chunks(ROW_BYTES).take(page.written) {
                    let (number, outcome, policy, mark) = row_of_bytes(row);
                    lines.push_str(&format!("{} {} {} {}\n", number, outcome, policy, mark));
                }
                listed += page.written;
                start_row = page.next;
            }
        }
        let rows = read_question(question).map_or(0, |question| question.rows());
        if start_row == rows {
            return format!("rows {}\n{}allowed {}\n", rows, lines, listed);
        }
    }
}

#[cfg(test)]
mod tests {
    use super::*;
    use crate::example::{example_question, EXAMPLE};
    use crate::plans::{number_value, Column, Plan};

    const REQUEST: &[u8] = b"person:K7\nteach\nshaft:A\n";

    fn table_of(text: &str) -> Vec<u8> {
        compile(text.as_bytes(), 8 * text.len(), 1).unwrap().table
    }

    /// A page of the example, over lent bytes that are all 99.
    fn page(subject: &[u8], length: usize, named_byte: usize, start_row: usize) -> (Result<Page, u8>, Vec<u8>) {
        let request = Request { subject, action: b"teach", resource: b"shaft:A" };
        let mut lent = vec![99; length];
        let wanted = PageWanted { lent: &mut lent, named_byte, start_row };
        let answer = write_page(EXAMPLE.as_bytes(), &table_of(EXAMPLE), &example_question(), request, wanted);
        (answer, lent)
    }

    #[test]
    fn the_worked_example_is_printed() {
        for page_bytes in [14, 15, 28, 1_000] {
            let lines = printed(EXAMPLE.as_bytes(), &example_question(), REQUEST, page_bytes, 1);
            assert_eq!(lines, "rows 9\n3 1 1 1\n4 1 1 1\nallowed 2\n");
        }
        assert_eq!(printed(EXAMPLE.as_bytes(), &example_question(), REQUEST, 13, 1), "refused 25 0 0 0\n");
    }

    #[test]
    fn refusals_are_printed_alone() {
        let question = example_question();
        assert_eq!(printed(b"\n :", &question, REQUEST, 60, 1), "refused 4 2 2 1\n");
        assert_eq!(printed(b":", b"", b"system", 60, 1), "refused 4 1 1 1\n");
        assert_eq!(printed(b"", b"", b"system", 60, 1), "refused 24 0 0 0\n");
        assert_eq!(printed(b"", &question, b"", 60, 1), "refused 21 0 0 0\n");
        assert_eq!(printed(b"", &question, b"tool:1", 60, 1), "refused 22 0 0 0\n");
        assert_eq!(printed(b"", &question, b"tool:1\na\n", 60, 1), "refused 23 0 0 0\n");
        assert_eq!(printed(b"", &question, b"tool:1\r\na\nshaft:1\nmore", 60, 1), "rows 9\nallowed 0\n");
        assert_eq!(printed(b"", &question, b"system\r\na\nshaft:1", 60, 1), "refused 21 0 0 0\n");
        assert_eq!(printed(b"", &[0, 0, 0, 0], b"system", 60, 1), "rows 1\n0 4 0 0\nallowed 1\n");
    }

    // Every start row, and every number of rows that fit.
    #[test]
    fn a_page_holds_the_listed_rows_that_fit() {
        let listed = [(3_u8, 1_u8, 1_u8), (4, 1, 1)];
        for start_row in 0..=9 {
            for fitting in 1..4 {
                for (before, after) in [(0, 0), (5, 3)] {
                    let (answer, lent) = page(b"person:K7", before + 14 * fitting + after, before, start_row);
                    let from_start: Vec<_> = listed.iter().filter(|row| usize::from(row.0) >= start_row).collect();
                    let written = from_start.len().min(fitting);
                    let next = from_start.get(written).map_or(9, |row| usize::from(row.0));
                    assert_eq!(answer, Ok(Page { written, next }));
                    let mut expected = vec![99; lent.len()];
                    for (index, row) in from_start.iter().take(written).enumerate() {
                        let bytes = [row.0, 0, 0, 0, row.1, row.2, 1, 0, 0, 0, 0, 0, 0, 0];
                        expected[before + 14 * index..before + 14 * index + 14].copy_from_slice(&bytes);
                    }
                    assert_eq!(lent, expected);
                }
            }
        }
    }

    #[test]
    fn rows_of_the_system_are_all_listed() {
        let (answer, lent) = page(b"system", 36, 1, 7);
        assert_eq!(answer, Ok(Page { written: 2, next: 9 }));
        let row = |number: u8| [&[number, 0, 0, 0, 4, 0][..], &[0; 8]].concat();
        assert_eq!(lent, [&[99][..], &row(7), &row(8), &[99; 7]].concat());
        assert_eq!(page(b"system", 14, 0, 0).0, Ok(Page { written: 1, next: 1 }));
        assert_eq!(page(b"system", 14, 0, 9).0, Ok(Page { written: 0, next: 9 }));
    }

    // By hand: policies 1 and 64 are satisfied in row 0, policies 1, 2 and 9 in row 1; row 2 has a forbid, and is not listed.
    #[test]
    fn rows_carry_their_marks() {
        let policy =
            |effect: &str, condition: &str| format!("{}(principal,action,resource)when{{{}}};", effect, condition);
        let mut policies = vec![policy("permit", "false"); 64];
        policies[0] = policy("permit", "true");
        policies[63] = policy("permit", "!(env has a)");
        policies[1] = policy("permit", "env.a==1");
        policies[8] = policy("permit", "env.a<=1");
        policies[2] = policy("forbid", "env.a==2");
        let text = policies.concat();
        let candidates = vec![vec![0], number_value(1.0_f64.to_bits()), number_value(2.0_f64.to_bits())];
        let columns = Some(vec![Column { root: 3, path: b"a".to_vec(), candidates }]);
        let question = Plan { sections: [Vec::new(), Vec::new(), Vec::new()], columns }.bytes();
        let request = Request { subject: b"person:K7", action: b"teach", resource: b"shaft:A" };
        let mut lent = [99; 30];
        let wanted = PageWanted { lent: &mut lent, named_byte: 1, start_row: 0 };
        assert_eq!(
            write_page(text.as_bytes(), &table_of(&text), &question, request, wanted),
            Ok(Page { written: 2, next: 3 })
        );
        let rows = [[0, 0, 0, 0, 1, 1, 1, 0, 0, 0, 0, 0, 0, 0x80], [1, 0, 0, 0, 1, 1, 3, 1, 0, 0, 0, 0, 0, 0]];
        assert_eq!(lent.to_vec(), [&[99][..], &rows.concat(), &[99]].concat());
        assert_eq!(
            printed(text.as_bytes(), &question, REQUEST, 14, 1),
            "rows 3\n0 1 1 9223372036854775809\n1 1 1 259\nallowed 2\n"
        );
    }

    // 25, 24, 26, for the system too; then 21, 22, 23, 20, which the system never gets.
    #[test]
    fn refusals_come_in_their_order() {
        let refused = |subject: &[u8], action: &[u8], resource: &[u8], bad_form: bool, length: usize, row: usize| {
            let mut lent = vec![99; length];
            let question = if bad_form { vec![0, 0, 0] } else { example_question() };
            let wanted = PageWanted { lent: &mut lent, named_byte: 1, start_row: row };
            let request = Request { subject, action, resource };
            let answer = write_page(b":", b"", &question, request, wanted);
            assert!(answer.is_ok() || lent.iter().all(|byte| *byte == 99));
            answer.map(|page| page.written)
        };
        for subject in [&b""[..], b"system"] {
            assert_eq!(refused(subject, b"", b"", true, 0, 10), Err(25));
            assert_eq!(refused(subject, b"", b"", true, 7, 10), Err(25));
            assert_eq!(refused(subject, b"", b"", true, 14, 10), Err(25));
            assert_eq!(refused(subject, b"", b"", true, 15, 10), Err(24));
            assert_eq!(refused(subject, b"", b"", false, 15, 10), Err(26));
        }
        assert_eq!(refused(b"system", b"", b"", false, 15, 8), Ok(1));
        assert_eq!(refused(b"", b"", b"", false, 15, 9), Err(21));
        assert_eq!(refused(b"tool:1", b"", b"", false, 15, 9), Err(22));
        assert_eq!(refused(b"tool:1", b"a", b"", false, 15, 9), Err(23));
        assert_eq!(refused(b"tool:1", b"a", b"record:1", false, 15, 9), Err(20));
    }

    // More than 32 entries in a section are decided alike.
    #[test]
    fn a_rows_bag_may_have_more_than_32_entries() {
        let mut plan = Plan { sections: [Vec::new(), Vec::new(), Vec::new()], columns: None };
        for index in 0..32 {
            let path = format!("p{:02}", index).into_bytes();
            plan.sections[0].push(crate::plans::Entry { path, value: vec![3, 1] });
        }
        plan.columns = Some(vec![Column { root: 1, path: b"q".to_vec(), candidates: vec![vec![0], vec![3, 1]] }]);
        let text = "permit(principal,action,resource)when{principal.p31==true&&principal.q==true};";
        assert_eq!(printed(text.as_bytes(), &plan.bytes(), REQUEST, 60, 1), "rows 2\n1 1 1 1\nallowed 1\n");
    }
}
