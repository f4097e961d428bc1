//! The printed sheet as plain text: aligned, and no line longer than 100 characters where that can be helped.

use crate::report::{has_others, said_of_others, title_of, Absence, ColumnShown, Report, RowShown};
use crate::tally_text::tally_lines;
use crate::versions::said_of_version;
use crate::words::{count_of, grouped, ranges, sentence};

/// The width of the page.
pub const WIDTH: usize = 100;
/// Between two columns of the table.
const GAP: usize = 2;
/// A column of the table is not made narrower, if it was wider.
const NARROWEST: usize = 8;
/// The least room that is worth a policy's first line.
pub const ROOM_FOR_POLICY: usize = 28;
/// How an absent attribute is shown, and one that is a hole. Strings are in quotes, so no value looks like these.
const ABSENT: &str = "absent";
const HOLE: &str = "ABSENT !!";

/// The title line, warnings, the sums, what version 2 changes, the tally, the base and the columns, the tables, the policies that decide, and
/// the holes.
pub fn sheet_text(report: &Report) -> String {
    let mut lines = wrapped(&report.title, WIDTH);
    let whose = title_of(&report.request);
    if whose != report.title {
        lines.extend(wrapped(&whose, WIDTH));
    }
    lines.extend(said_of_version(report.version));
    lines.push(String::new());
    for warning in &report.warnings {
        lines.extend(wrapped(&format!("Warning: {}", sentence(warning)), WIDTH));
    }
    if !report.warnings.is_empty() {
        lines.push(String::new());
    }
    lines.extend(sums(report).iter().flat_map(|line| wrapped(line, WIDTH)));
    lines.extend(versions(report));
    lines.extend(tally_lines(&report.tally));
    lines.extend(base(report));
    if report.listed.is_empty() {
        lines.extend(["No row is allowed.".to_string(), String::new()]);
    } else {
        lines.extend(table(report, &report.listed));
    }
    lines.extend(policies(report));
    lines.extend(holes(report));
    if let Some(others) = &report.others {
        lines.extend(["Rows that are not allowed:".to_string(), String::new()]);
        lines.extend(table(report, others));
    }
    while lines.last().map_or(false, String::is_empty) {
        lines.pop();
    }
    let mut text = String::new();
    for line in lines {
        text.push_str(line.trim_end());
        text.push('\n');
    }
    text
}

fn sums(report: &Report) -> Vec<String> {
    let sums = report.sums();
    let allowed = if sums.listed == 1 { "is allowed" } else { "are allowed" };
    let mut lines = vec![format!("{}, {} {}.", count_of(report.rows, "row", "rows"), grouped(sums.listed), allowed)];
    if sums.absent > 0 {
        let rows = count_of(sums.absent, "row is", "rows are");
        lines.push(format!("!   {} allowed though an attribute is absent.", rows));
    }
    if sums.holes > 0 {
        let rows = grouped(sums.holes);
        lines.push(format!(
            "!!  {} of them would not be allowed with other candidates in place of what is absent.",
            rows
        ));
    }
    for column in report.columns.iter().filter(|column| column.sums.absent > 0) {
        let rows = count_of(column.sums.absent, "row", "rows");
        lines.push(format!("    {} is absent in {} (!! {})", column.name, rows, grouped(column.sums.holes)));
    }
    lines.push(String::new());
    lines
}

/// What version 2 changes beside version 1: the rows that it opens, loudly, with the policies that it disarms.
fn versions(report: &Report) -> Vec<String> {
    let versions = match &report.versions {
        Some(versions) => versions,
        None => return Vec::new(),
    };
    let mut lines = vec![format!("{}:", versions.heading())];
    let indented =
        |said: &str| wrapped(said, WIDTH - 4).into_iter().map(|line| format!("    {}", line)).collect::<Vec<_>>();
    lines.extend(versions.sentences().iter().flat_map(|sentence| indented(sentence)));
    lines.extend(versions.alarm().map(|alarm| format!("!!! {}", alarm)));
    for opened in &versions.opened {
        lines.extend(indented(&opened.sentence(|number| report.line_of(number))));
        if let Some(policy) = opened.policy.and_then(|number| report.policy(number)) {
            lines.extend(policy_lines(&policy.text.lines));
        }
    }
    lines.push(String::new());
    lines
}

/// The attributes that are the same in all rows.
fn base(report: &Report) -> Vec<String> {
    if report.base.is_empty() {
        return Vec::new();
    }
    let mut lines = vec!["The same in all rows:".to_string()];
    for (name, value) in &report.base {
        let mut parts = wrapped(&format!("{} = {}", name, value), WIDTH - 8).into_iter();
        lines.extend(parts.next().map(|first| format!("    {}", first)));
        lines.extend(parts.map(|part| format!("        {}", part)));
    }
    lines.push(String::new());
    lines
}

/// The widths of the table: rows' numbers, each column, outcome, whether the other version allows the row, if it differs in one, the policy
/// with its first line, and the other policies if there are any.
struct Widths {
    row: usize,
    columns: Vec<usize>,
    outcome: usize,
    other: Option<usize>,
    policy: usize,
    also: Option<usize>,
}

/// The other policies' numbers go over several lines where they need more.
const MOST_ALSO: usize = 12;
const ALSO: &str = "also";

/// The width of `!!`.
const MARK: usize = 2;

impl Widths {
    /// Of all columns of the table, from the left.
    fn all(&self) -> Vec<usize> {
        let widths = [&[MARK, self.row][..], &self.columns, &[self.outcome]].concat();
        widths.into_iter().chain(self.other).chain([self.policy]).chain(self.also).collect()
    }
}

fn widths(report: &Report, rows: &[RowShown]) -> Widths {
    let row = rows.last().map_or(1, |row| row.number.to_string().len()).max(3);
    let number = "policy".len();
    let outcome = rows.iter().map(|row| row.outcome.len()).max().unwrap_or(0).max("outcome".len());
    let full: Vec<usize> = report.columns.iter().map(|column| length(&column.name).max(longest_cell(column))).collect();
    let unbroken: Vec<usize> =
        report.columns.iter().map(|column| longest_part(column).max(longest_cell(column))).collect();
    let also = rows.iter().map(|row| ranges(&row.also).len()).max().unwrap_or(0);
    let also = Some(also.clamp(ALSO.len(), MOST_ALSO)).filter(|_| has_others(rows));
    let other = report.other_version(rows).map(str::len);
    let maybe: usize = [also, other].iter().flatten().map(|width| width + GAP).sum();
    let others = MARK + GAP + row + GAP + outcome + GAP + full.len() * GAP + maybe;
    let with_policies = fitted(&full, &unbroken, WIDTH.saturating_sub(others + ROOM_FOR_POLICY));
    let columns = with_policies.unwrap_or_else(|| {
        let narrowest: Vec<usize> = full.iter().map(|width| NARROWEST.min(*width)).collect();
        fitted(&full, &narrowest, WIDTH.saturating_sub(others + number)).unwrap_or(narrowest)
    });
    let left = WIDTH.saturating_sub(others + columns.iter().sum::<usize>());
    Widths { row, columns, outcome, other, policy: left.max(number), also }
}

/// The most characters of a column's values.
fn longest_cell(column: &ColumnShown) -> usize {
    column.candidates.iter().map(|candidate| length(candidate.as_deref().unwrap_or(HOLE))).max().unwrap_or(0)
}

/// The most characters of a part of the column's name, up to a dot.
fn longest_part(column: &ColumnShown) -> usize {
    column.name.split_inclusive('.').map(length).max().unwrap_or(0)
}

/// The widths made narrower, the widest first, until they fit the room; nothing if the least widths do not fit.
pub fn fitted(full: &[usize], least: &[usize], room: usize) -> Option<Vec<usize>> {
    let mut widths = full.to_vec();
    while widths.iter().sum::<usize>() > room {
        let widest = (0..widths.len()).filter(|n| widths[*n] > least[*n]).max_by_key(|n| widths[*n])?;
        widths[widest] -= 1;
    }
    Some(widths)
}

/// The heading, and the rows with an empty line between the groups of the first column.
fn table(report: &Report, rows: &[RowShown]) -> Vec<String> {
    let widths = widths(report, rows);
    let mut names: Vec<String> = vec![String::new(), "row".to_string()];
    names.extend(report.columns.iter().map(|column| column.name.clone()));
    names.push("outcome".to_string());
    names.extend(report.other_version(rows).map(str::to_string));
    names.extend(["policy".to_string(), ALSO.to_string()]);
    let mut lines = laid_out(&names, &widths);
    let mut rules: Vec<String> = widths.all().iter().map(|width| "-".repeat(*width)).collect();
    rules[0].clear();
    lines.extend(laid_out(&rules, &widths));
    for (index, group) in report.groups(rows).into_iter().enumerate() {
        if index > 0 {
            lines.push(String::new());
        }
        for row in group {
            lines.extend(laid_out(&cells(report, row, &widths), &widths));
        }
    }
    lines.extend(report.said_of_other_version(rows));
    lines.extend(said_of_others(rows).map(str::to_string));
    lines.push(String::new());
    lines
}

/// The texts of a row of the table, the other policies last: where no row has any, there is no column for them.
fn cells(report: &Report, row: &RowShown, widths: &Widths) -> Vec<String> {
    let mut cells = vec![row.absence().text().to_string(), row.number.to_string()];
    for ((column, choice), absence) in report.columns.iter().zip(&row.choices).zip(&row.absences) {
        let absent = if *absence == Absence::Hole { HOLE } else { ABSENT };
        cells.push(column.candidates[*choice].clone().unwrap_or_else(|| absent.to_string()));
    }
    cells.push(row.outcome.to_string());
    cells.extend(widths.other.map(|_| row.other_text(report.version)));
    cells.push(match report.policy(row.policy) {
        None => String::new(),
        Some(policy) if widths.policy < ROOM_FOR_POLICY => policy.text.number.to_string(),
        Some(policy) => cut(&format!("{} {}", policy.text.number, policy.text.lines[0]), widths.policy),
    });
    cells.push(ranges(&row.also));
    cells
}

/// One row of the table over as many lines as its cells need.
fn laid_out(cells: &[String], widths: &Widths) -> Vec<String> {
    let all = widths.all();
    let parts: Vec<Vec<String>> = cells.iter().zip(&all).map(|(cell, width)| wrapped(cell, *width)).collect();
    let height = parts.iter().map(Vec::len).max().unwrap_or(0);
    let line = |n: usize| {
        let mut line = String::new();
        for (index, (part, width)) in parts.iter().zip(&all).enumerate() {
            let text = part.get(n).map_or("", String::as_str);
            let blanks = " ".repeat(width.saturating_sub(length(text)));
            // Rows' numbers stand at the right.
            line += &if index == 1 { blanks + text } else { text.to_string() + &blanks };
            line += "  ";
        }
        line
    };
    (0..height).map(line).collect()
}

/// The policies that decide, whole, with their rows.
fn policies(report: &Report) -> Vec<String> {
    let mut lines = Vec::new();
    for policy in report.deciding() {
        if lines.is_empty() {
            lines.push(format!("The policies of {} that decide these rows:", report.rules_name));
        }
        let rows = count_of(policy.sums.listed, "row", "rows");
        let absent = format!("! {}, !! {}", grouped(policy.sums.absent), grouped(policy.sums.holes));
        lines.push(format!("    {}  in line {}, {} ({})", policy.text.number, policy.text.line, rows, absent));
        lines.extend(policy_lines(&policy.text.lines));
    }
    if !lines.is_empty() {
        lines.push(String::new());
    }
    lines
}

/// A policy's lines, indented.
pub fn policy_lines(lines: &[String]) -> Vec<String> {
    lines.iter().flat_map(|line| wrapped(line, WIDTH - 8)).map(|part| format!("        {}", part)).collect()
}

/// What would take the yes away from rows in which something is absent.
fn holes(report: &Report) -> Vec<String> {
    let mut lines = Vec::new();
    for hole in &report.holes {
        if lines.is_empty() {
            lines.push("The holes (!!):".to_string());
        }
        let sentence = hole.sentence(|number| report.line_of(number));
        lines.extend(wrapped(&sentence, WIDTH - 4).into_iter().map(|line| format!("    {}", line)));
        if let Some(policy) = hole.policy.and_then(|number| report.policy(number)) {
            lines.extend(policy_lines(&policy.text.lines));
        }
    }
    if !lines.is_empty() {
        lines.push(String::new());
    }
    lines
}

pub fn length(text: &str) -> usize {
    text.chars().count()
}

/// The text, with `..` at its end if it had to be cut.
pub fn cut(text: &str, width: usize) -> String {
    if length(text) <= width {
        return text.to_string();
    }
    text.chars().take(width - 2).collect::<String>() + ".."
}

/// The text in parts of at most this width, broken after a blank or a mark where there is one.
pub fn wrapped(text: &str, width: usize) -> Vec<String> {
    let mut rest: Vec<char> = text.chars().collect();
    let mut parts = Vec::new();
    while rest.len() > width {
        let is_good = |n: &usize| matches!(rest[*n - 1], ' ' | '.' | ',' | ':' | '-' | '_');
        let end = (1..=width).rev().find(is_good).unwrap_or(width);
        parts.push(rest[..end].iter().collect::<String>().trim_end().to_string());
        rest.drain(..end);
    }
    parts.push(rest.into_iter().collect());
    parts
}
