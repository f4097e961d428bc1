//! The tally as plain text: how many rows have each outcome, how many each policy decides, and in how many it is satisfied beside.

use std::ops::Range;

use crate::plain::{cut, fitted, length, wrapped, ROOM_FOR_POLICY, WIDTH};
use crate::report::{outcome_text, Report};
use crate::rules::PolicyText;
use crate::tallies::{Counts, TallyShown};
use crate::versions::said_of_version;
use crate::words::{count_of, grouped};

/// Between two columns.
const GAP: &str = "  ";

/// The title, the version where it is not version 1, warnings, the number of rows, and the tally.
pub fn tally_text(report: &Report) -> String {
    let mut lines = wrapped(&report.title, WIDTH);
    lines.extend(said_of_version(report.version));
    lines.push(String::new());
    for warning in &report.warnings {
        lines.extend(wrapped(&format!("Warning: {}.", warning), WIDTH));
    }
    if !report.warnings.is_empty() {
        lines.push(String::new());
    }
    lines.extend(tally_lines(&report.tally));
    lines.pop();
    lines.iter().map(|line| format!("{}\n", line.trim_end())).collect()
}

/// The tables of outcomes and of policies, which policies decide no row, and which are satisfied where another decides.
pub fn tally_lines(tally: &TallyShown) -> Vec<String> {
    let mut lines = vec![heading(tally), String::new()];
    lines.extend(outcomes(tally));
    if tally.chosen.is_some() {
        lines.push("* the request of this sheet".to_string());
    }
    lines.push(String::new());
    let deciding = policies(tally, &tally.deciding());
    if !deciding.is_empty() {
        let by_request = if tally.has_several() { ", for each request and in sum" } else { "" };
        lines.extend([format!("How many rows each policy decides{}:", by_request), String::new()]);
        lines.extend(deciding);
    }
    lines.extend(tally.idle().iter().flat_map(|sentence| wrapped(sentence, WIDTH)));
    lines.push(String::new());
    if let Some(said) = tally.said_of_others() {
        let beside = policies(tally, &tally.beside());
        lines.extend(wrapped(&said, WIDTH));
        lines.extend([String::new()].into_iter().filter(|_| !beside.is_empty()));
        lines.extend(beside);
        lines.push(String::new());
    }
    lines
}

/// How many rows are counted.
pub fn heading(tally: &TallyShown) -> String {
    let rows = count_of(tally.tally.rows, "row", "rows");
    match tally.requests.len() {
        1 => format!("The tally of {}:", rows),
        many => format!("The tally of {} requests, each over {}:", many, rows),
    }
}

/// Each request with its four outcomes, and the sums if there are several.
fn outcomes(tally: &TallyShown) -> Vec<String> {
    let counted = |counts: &Counts| counts.outcomes.iter().map(|count| grouped(*count)).collect::<Vec<String>>();
    let names: Vec<String> = (1..=4).map(|outcome| outcome_text(outcome).to_string()).collect();
    if !tally.has_several() {
        return Table { heading: names, rows: vec![counted(&tally.tally.sums)], words: 0..0 }.lines(0);
    }
    let words = ["request", "subject", "action", "resource"].map(str::to_string);
    let mut table = Table { heading: [&words[..], &names].concat(), rows: Vec::new(), words: 1..4 };
    for (index, (parts, counts)) in tally.requests.iter().zip(&tally.tally.requests).enumerate() {
        let mark = if tally.chosen == Some(index + 1) { "* " } else { "" };
        let number = [format!("{}{}", mark, index + 1)];
        table.rows.push([&number[..], parts, &counted(counts)].concat());
    }
    let sums = ["sums", "", "", ""].map(str::to_string);
    table.rows.push([&sums[..], &counted(&tally.tally.sums)].concat());
    table.lines(1)
}

/// Policies with their counts: number, line, how many rows, and its first line, in a line of its own where there is no room.
fn policies(tally: &TallyShown, counted: &[(&PolicyText, Vec<usize>)]) -> Vec<String> {
    if counted.is_empty() {
        return Vec::new();
    }
    let mut heading = vec!["policy".to_string(), "line".to_string()];
    if tally.has_several() {
        heading.extend((1..=tally.requests.len()).map(|number| number.to_string()));
        heading.push("sums".to_string());
    } else {
        heading.push("rows".to_string());
    }
    let cells = |(policy, counts): &(&PolicyText, Vec<usize>)| {
        [policy.number, policy.line].iter().chain(counts).map(|number| grouped(*number)).collect()
    };
    let lines = Table { heading, rows: counted.iter().map(cells).collect(), words: 0..0 }.lines(0);
    let room = WIDTH.saturating_sub(length(&lines[0]) + GAP.len());
    let mut told = lines[..2].to_vec();
    for (line, (policy, _)) in lines[2..].iter().zip(counted) {
        if room < ROOM_FOR_POLICY {
            told.extend([line.clone(), format!("        {}", cut(&policy.lines[0], WIDTH - 8))]);
        } else {
            told.push(format!("{}{}{}", line, GAP, cut(&policy.lines[0], room)));
        }
    }
    told
}

/// A heading and rows of cells. Words stand at the left of their column, numbers at the right.
struct Table {
    heading: Vec<String>,
    rows: Vec<Vec<String>>,
    words: Range<usize>,
}

/// A column of words is not made narrower, if it was wider.
const NARROWEST: usize = 8;

impl Table {
    /// The heading, a rule, the rows, and a rule before so many last ones. Words that are too long go over several lines.
    fn lines(&self, last: usize) -> Vec<String> {
        let widths = self.widths();
        let rule: Vec<String> = widths.iter().map(|width| "-".repeat(*width)).collect();
        let (before, behind) = self.rows.split_at(self.rows.len() - last);
        let mut rows = vec![&self.heading, &rule];
        rows.extend(before);
        rows.extend([&rule].iter().take(last));
        rows.extend(behind);
        rows.into_iter().flat_map(|cells| self.laid_out(cells, &widths)).collect()
    }

    fn widths(&self) -> Vec<usize> {
        let all = || self.rows.iter().chain([&self.heading]);
        let full: Vec<usize> = (0..self.heading.len())
            .map(|column| all().map(|cells| length(&cells[column])).max().unwrap_or(0))
            .collect();
        let least: Vec<usize> = full
            .iter()
            .enumerate()
            .map(|(column, width)| if self.words.contains(&column) { NARROWEST.min(*width) } else { *width })
            .collect();
        let room = WIDTH.saturating_sub(GAP.len() * full.len().saturating_sub(1));
        fitted(&full, &least, room).unwrap_or(least)
    }

    /// One row over as many lines as its cells need.
    fn laid_out(&self, cells: &[String], widths: &[usize]) -> Vec<String> {
        let parts: Vec<Vec<String>> = cells.iter().zip(widths).map(|(cell, width)| wrapped(cell, *width)).collect();
        let height = parts.iter().map(Vec::len).max().unwrap_or(0);
        let padded = |(column, width): (usize, &usize), n: usize| {
            let text = parts[column].get(n).map_or("", String::as_str);
            let blanks = " ".repeat(width.saturating_sub(length(text)));
            if self.words.contains(&column) {
                text.to_string() + &blanks
            } else {
                blanks + text
            }
        };
        let line = |n: usize| widths.iter().enumerate().map(|one| padded(one, n)).collect::<Vec<String>>().join(GAP);
        (0..height).map(line).collect()
    }
}

#[cfg(test)]
mod tests {
    use super::*;
    use crate::tallies::Tally;

    fn counts(outcomes: [usize; 4], policies: &[usize]) -> Counts {
        Counts { outcomes, policies: policies.to_vec() }
    }

    fn policy(number: usize) -> PolicyText {
        let lines = vec![format!("permit(principal, action in [\"{}\"], resource)", "a".repeat(100))];
        PolicyText { number, line: 2 * number - 1, last_line: 2 * number, lines, tokens: Vec::new() }
    }

    // Eight requests with the greatest counts and the longest parts keep the width.
    #[test]
    fn the_greatest_tally_keeps_the_width() {
        let one = counts([262_144, 0, 0, 0], &[0, 262_144]);
        let sums = counts([2_097_152, 0, 0, 0], &[0, 2_097_152]);
        let parts = ["person:", "", "parameter:"].map(|start| format!("{}{}", start, "x".repeat(90)));
        let tally = Tally { rows: 262_144, requests: vec![one; 8], sums };
        let shown = TallyShown {
            requests: vec![parts; 8],
            chosen: Some(3),
            policies: vec![policy(1), policy(2)],
            tally,
            also: vec![vec![262_144, 0]; 8],
        };
        let lines = tally_lines(&shown);
        let text = lines.join("\n");
        assert!(lines.iter().all(|line| length(line) <= WIDTH), "{}", text);
        assert!(text.starts_with("The tally of 8 requests, each over 262,144 rows:"));
        assert!(text.contains("\n    * 3  person:") && text.contains("* the request of this sheet"), "{}", text);
        assert!(text.contains("2,097,152\n        permit(principal"), "{}", text);
        assert!(
            text.contains("\nNo row is decided by policy 1.\n\nIn how many rows a policy is satisfied"),
            "{}",
            text
        );
        assert_eq!(text.matches("2,097,152\n        permit(principal").count(), 2, "{}", text);
    }

    #[test]
    fn a_tally_of_the_system_has_no_policies() {
        let one = counts([0, 0, 0, 9], &[0]);
        let tally = Tally { rows: 9, requests: vec![one.clone()], sums: one };
        let requests = vec![["system", "", ""].map(str::to_string)];
        let shown = TallyShown { requests, chosen: None, policies: vec![policy(1)], tally, also: vec![vec![0]] };
        assert_eq!(
            tally_lines(&shown),
            [
                "The tally of 9 rows:",
                "",
                "allowed  forbidden  not permitted  system",
                "-------  ---------  -------------  ------",
                "      0          0              0       9",
                "",
                "No row is decided by policy 1.",
                ""
            ]
        );
    }
}
