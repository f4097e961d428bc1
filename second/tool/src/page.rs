//! The printed sheet as one HTML page for A4 paper: no scripts, nothing from elsewhere. It is a record: with the rules, the day, the
//! sums of the files and a line to sign.

use crate::record::Record;
use crate::refusals::RefusalShown;
use crate::report::{has_others, said_of_others, title_of, Absence, ColumnShown, PolicyShown, Report, RowShown};
use crate::tally_page::{lies_on_its_side, tally_section};
use crate::versions::{said_of_version, under};
use crate::words::{count_of, grouped, ranges, sentence};

/// With more columns the page lies on its side.
const MOST_COLUMNS_UPRIGHT: usize = 3;

/// The width between the margins, upright and on its side, in millimetres.
const UPRIGHT: usize = 186;
const ON_ITS_SIDE: usize = 273;

/// A longer part of a name may be broken inside.
const LONGEST_UNBROKEN: usize = 24;

const STYLE: &str = include_str!("style.css");

/// The page of a sheet.
pub fn sheet_page(report: &Report, record: &Record) -> String {
    let mut body = format!("<h1>{}</h1>\n", escaped(&report.title));
    let whose = title_of(&report.request);
    let whose = if whose == report.title { String::new() } else { format!("{}. ", escaped(&whose)) };
    body += &format!("<p>{}Made on {}.{}</p>\n", whose, record.day, version(report.version));
    body += &warnings(&report.warnings);
    body += &sums(report);
    body += &versions(report);
    body += &tally_section(report);
    body += &columns(report);
    body += &base(report);
    body += &policies(report);
    body += &holes(report);
    if report.listed.is_empty() {
        body += "<p><b>No row is allowed.</b></p>\n";
    } else {
        body += &table(report, &report.listed, "Allowed rows");
    }
    if let Some(others) = &report.others {
        body += &table(report, others, "Rows that are not allowed");
    }
    body += &rules(report);
    body += &recorded(record, report.version);
    page(&report.title, &body, report.columns.len() > MOST_COLUMNS_UPRIGHT || lies_on_its_side(&report.tally))
}

/// The page of a refusal.
pub fn refusal_page(refusal: &RefusalShown, name: &str, version: u64, notes: &[String], record: &Record) -> String {
    let title = format!("Refused, number {}", refusal.number);
    let mut body = format!("<h1>{}</h1>\n<p>Made on {}.</p>\n{}", title, record.day, warnings(notes));
    body += &format!("<p>{}</p>\n", escaped(&refusal.meaning));
    if let Some(place) = &refusal.place {
        body += &format!("<p>{}, line {}, column {}:</p>\n", escaped(name), place.line, place.column);
        body += &format!("<pre>{}\n{}</pre>\n", escaped(&place.text), place.carets());
    }
    body += &recorded(record, version);
    page(&title, &body, false)
}

/// Under which version, in bold behind the day; nothing for version 1.
pub fn version(version: u64) -> String {
    said_of_version(version).map_or(String::new(), |said| format!(" <b>{}</b>", said))
}

pub fn page(title: &str, body: &str, on_its_side: bool) -> String {
    let (side, wide) = if on_its_side { ("landscape", ON_ITS_SIDE) } else { ("portrait", UPRIGHT) };
    // In the style the title is a string of CSS: only letters, digits and plain marks.
    let plain: String = title.chars().filter(|one| one.is_alphanumeric() || " ,.:?!-()".contains(*one)).collect();
    let style = STYLE.replace("SIDE", side).replace("WIDE", &wide.to_string()).replace("TITLE", &plain);
    format!(
        "<!DOCTYPE html>\n<html lang=\"en\">\n<head>\n<meta charset=\"utf-8\">\n<title>{}</title>\n<style>\n{}</style>\n</head>\n\
         <body>\n{}</body>\n</html>\n",
        escaped(title),
        style,
        body
    )
}

pub fn warnings(warnings: &[String]) -> String {
    if warnings.is_empty() {
        return String::new();
    }
    let lines: Vec<String> =
        warnings.iter().map(|warning| format!("<p><b>Warning:</b> {}</p>", escaped(&sentence(warning)))).collect();
    format!("<div class=\"warning\">{}</div>\n", lines.join("\n"))
}

fn sums(report: &Report) -> String {
    let sums = report.sums();
    let allowed = if sums.listed == 1 { "is" } else { "are" };
    let rows = count_of(report.rows, "row", "rows");
    let mut text = format!("<p><b>{}, {} {} allowed.</b></p>\n", rows, grouped(sums.listed), allowed);
    if sums.absent > 0 {
        let rows = count_of(sums.absent, "row is", "rows are");
        text += &format!("<p><b>!</b> {} allowed though an attribute is {}.</p>\n", rows, absent());
    }
    if sums.holes > 0 {
        text += &format!(
            "<p><b>!!</b> {} of them would not be allowed with other candidates in place of what is absent: it is shown as \
             <span class=\"hole\">{}</span>.</p>\n",
            grouped(sums.holes),
            absent()
        );
    }
    text
}

/// What version 2 changes beside version 1: the rows that it opens in a box, with the policies that it disarms.
fn versions(report: &Report) -> String {
    let versions = match &report.versions {
        Some(versions) => versions,
        None => return String::new(),
    };
    let mut text = format!("<h2>{}</h2>\n", versions.heading());
    for sentence in versions.sentences() {
        text += &format!("<p>{}</p>\n", escaped(&sentence));
    }
    if let Some(alarm) = versions.alarm() {
        text += &format!("<div class=\"opened\"><p><b>!!! {}</b></p>\n", alarm);
        for opened in &versions.opened {
            text += &format!("<p>{}.</p>\n", escaped(&opened.sentence(|number| report.line_of(number))));
            if let Some(policy) = opened.policy.and_then(|number| report.policy(number)) {
                text += &format!("<pre>{}</pre>\n", escaped(&policy.text.lines.join("\n")));
            }
        }
        text += "</div>\n";
    }
    text
}

/// The columns with their candidates alone.
pub fn candidates(report: &Report) -> String {
    if report.columns.is_empty() {
        return String::new();
    }
    let mut text =
        "<h2>Columns</h2>\n<table>\n<thead><tr><th>attribute</th><th>candidates</th></tr></thead>\n<tbody>\n"
            .to_string();
    for column in &report.columns {
        text += &format!("<tr><td>{}</td><td>{}</td></tr>\n", escaped(&column.name), candidates_of(column));
    }
    text + "</tbody>\n</table>\n"
}

fn candidates_of(column: &ColumnShown) -> String {
    column.candidates.iter().map(value).collect::<Vec<String>>().join(" | ")
}

/// The columns with their candidates, and how many listed rows have the attribute absent.
fn columns(report: &Report) -> String {
    if report.columns.is_empty() {
        return String::new();
    }
    let mut text = "<h2>Columns</h2>\n<table>\n<thead><tr><th>attribute</th><th>candidates</th>\
        <th class=\"number\">absent and allowed</th><th class=\"number\">of these !!</th></tr></thead>\n<tbody>\n"
        .to_string();
    for column in &report.columns {
        text += &format!(
            "<tr><td>{}</td><td>{}</td><td class=\"number\">{}</td><td class=\"number\">{}</td></tr>\n",
            escaped(&column.name),
            candidates_of(column),
            grouped(column.sums.absent),
            grouped(column.sums.holes)
        );
    }
    text + "</tbody>\n</table>\n"
}

pub fn base(report: &Report) -> String {
    if report.base.is_empty() {
        return String::new();
    }
    let mut text = "<h2>The same in all rows</h2>\n<dl>\n".to_string();
    for (name, value) in &report.base {
        let (name, value) = (escaped(name), escaped(value));
        text += &format!("<dt class=\"value\">{}</dt><dd class=\"value\">{}</dd>\n", name, value);
    }
    text + "</dl>\n"
}

/// Of several requests the tally has the policies of all, and this the policies of the sheet's; of one the tally has both.
fn policies(report: &Report) -> String {
    if !report.tally.has_several() {
        return String::new();
    }
    let mut text = String::new();
    for policy in report.deciding() {
        let number = |count: usize| format!("<td class=\"number\">{}</td>", grouped(count));
        text += &format!(
            "<tr>{}{}<td>{}</td>{}{}{}</tr>\n",
            number(policy.text.number),
            number(policy.text.line),
            escaped(&policy.text.lines[0]),
            number(policy.sums.listed),
            number(policy.sums.absent),
            number(policy.sums.holes)
        );
    }
    if text.is_empty() {
        return text;
    }
    format!(
        "<h2>Policies that decide the allowed rows</h2>\n<table>\n<thead><tr><th class=\"number\">policy</th><th class=\"number\">line</th>\
         <th>first line</th><th class=\"number\">rows</th><th class=\"number\">!</th><th class=\"number\">!!</th></tr></thead>\n\
         <tbody>\n{}</tbody>\n</table>\n",
        text
    )
}

/// What would take the yes away from rows in which something is absent, with the policy that would forbid.
fn holes(report: &Report) -> String {
    let mut text = String::new();
    for hole in &report.holes {
        let sentence = hole.sentence(|number| report.line_of(number));
        text += &format!("<p><b>!!</b> {}.</p>\n", escaped(&sentence));
        if let Some(policy) = hole.policy.and_then(|number| report.policy(number)) {
            text += &format!("<pre>{}</pre>\n", escaped(&policy.text.lines.join("\n")));
        }
    }
    if text.is_empty() {
        text
    } else {
        format!("<h2>Holes</h2>\n{}", text)
    }
}

/// Rows, a group for each choice of the first column.
fn table(report: &Report, rows: &[RowShown], title: &str) -> String {
    let mut text =
        format!("<h2>{}</h2>\n<table>\n<thead><tr><th class=\"mark\"></th><th class=\"number\">row</th>", title);
    for column in &report.columns {
        text += &format!("<th>{}</th>", broken_at_dots(&column.name));
    }
    let last = LastColumns { other: report.other_version(rows), also: has_others(rows) };
    let other = last.other.map_or(String::new(), |version| format!("<th class=\"short\">{}</th>", version));
    let also = if last.also { "<th class=\"also\">also</th>" } else { "" };
    text +=
        &format!("<th class=\"short\">outcome</th>{}<th class=\"policy\">policy</th>{}</tr></thead>\n", other, also);
    for group in report.groups(rows) {
        text += "<tbody>\n";
        text += &group_heading(report, group, &last);
        for row in group {
            text += &row_text(report, row, &last);
        }
        text += "</tbody>\n";
    }
    let said = report.said_of_other_version(rows).into_iter().chain(said_of_others(rows).map(str::to_string));
    text + "</table>\n" + &said.map(|said| format!("<p>{}</p>\n", said)).collect::<String>()
}

/// The columns that not every table has: whether the other version allows the row, and the other policies.
struct LastColumns {
    other: Option<&'static str>,
    also: bool,
}

/// The first column's choice over the rows of a group.
fn group_heading(report: &Report, group: &[RowShown], last: &LastColumns) -> String {
    let (column, choice) = match (report.columns.first(), group.first().and_then(|row| row.choices.first())) {
        (Some(column), Some(choice)) => (column, *choice),
        _ => return String::new(),
    };
    format!(
        "<tr class=\"group\"><th colspan=\"{}\">{} = {}: {} of {} rows</th></tr>\n",
        report.columns.len() + 4 + usize::from(last.also) + usize::from(last.other.is_some()),
        escaped(&column.name),
        value(&column.candidates[choice]),
        grouped(group.len()),
        grouped(report.rows / column.candidates.len())
    )
}

fn row_text(report: &Report, row: &RowShown, last: &LastColumns) -> String {
    let absence = row.absence().text();
    let mut text = format!("<tr><td class=\"mark\">{}</td><td class=\"number\">{}</td>", absence, row.number);
    for ((column, choice), absence) in report.columns.iter().zip(&row.choices).zip(&row.absences) {
        let class = if *absence == Absence::Hole { " class=\"hole\"" } else { "" };
        text += &format!("<td{}>{}</td>", class, value(&column.candidates[*choice]));
    }
    let policy = report
        .policy(row.policy)
        .map_or(String::new(), |policy| format!("<b>{}</b> {}", policy.text.number, escaped(&policy.text.lines[0])));
    let class = if row.is_opened(report.version) { "short opened" } else { "short" };
    let other = last.other.map(|_| format!("<td class=\"{}\">{}</td>", class, row.other_text(report.version)));
    let also = if last.also { format!("<td class=\"also\">{}</td>", ranges(&row.also)) } else { String::new() };
    text + &format!(
        "<td class=\"short\">{}</td>{}<td class=\"policy\">{}</td>{}</tr>\n",
        row.outcome,
        other.unwrap_or_default(),
        policy,
        also
    )
}

/// The rules with their lines numbered: the lines of policies that decide, and of those that an absence disarms, are marked.
pub fn rules(report: &Report) -> String {
    let is_disarmed = |policy: &PolicyShown| policy.is_disarmed;
    let disarmed = ", <b>!!</b> would forbid allowed rows but for what is absent";
    let mut text = format!(
        "<h2>The rules: {}</h2>\n<p>Marked: <b>+</b> decides rows{}.</p>\n<table class=\"rules\">\n<tbody>\n",
        escaped(&report.rules_name),
        if report.policies.iter().any(is_disarmed) { disarmed } else { "" }
    );
    for (index, line) in report.rules.iter().enumerate() {
        let number = index + 1;
        let stands = |policy: &&PolicyShown| (policy.text.line..=policy.text.last_line).contains(&number);
        let begins: Vec<String> = report
            .policies
            .iter()
            .filter(|policy| policy.text.line == number)
            .map(|policy| policy.text.number.to_string())
            .collect();
        let (class, mark) = if report.policies.iter().filter(stands).any(|policy| policy.is_disarmed) {
            (" class=\"disarmed\"", "!!")
        } else if report.policies.iter().filter(stands).any(|policy| report.decides(policy)) {
            (" class=\"decides\"", "+")
        } else {
            ("", "")
        };
        let policy = if begins.is_empty() { String::new() } else { format!("policy {}", begins.join(", ")) };
        text += &format!(
            "<tr{}><td class=\"mark\">{}</td><td class=\"number\">{}</td><td class=\"number\">{}</td><td class=\"line\">{}</td></tr>\n",
            class,
            mark,
            policy,
            number,
            escaped(line)
        );
    }
    text + "</tbody>\n</table>\n"
}

/// The day, the version where it is not version 1, the sums of the files, and a line to sign.
pub fn recorded(record: &Record, version: u64) -> String {
    let mut text = format!(
        "<div class=\"record\">\n<p>Made on {}{} from these files (SHA-256):</p>\n<dl>\n",
        record.day,
        under(version)
    );
    for (name, sum) in &record.sums {
        text += &format!("<dt class=\"value\">{}</dt><dd class=\"value\">{}</dd>\n", escaped(name), sum);
    }
    text + "</dl>\n<div class=\"sign\"><span>looked through by</span><span>date</span><span>signature</span></div>\n</div>\n"
}

fn absent() -> &'static str {
    "<span class=\"absent\">absent</span>"
}

/// A candidate.
fn value(candidate: &Option<String>) -> String {
    candidate
        .as_deref()
        .map_or_else(|| absent().to_string(), |text| format!("<span class=\"value\">{}</span>", escaped(text)))
}

/// A name that may be broken after its dots, and inside only where a part is very long.
fn broken_at_dots(name: &str) -> String {
    let part = |part: &str| {
        let class = if part.chars().count() > LONGEST_UNBROKEN { " class=\"long\"" } else { "" };
        format!("<span{}>{}</span>", class, escaped(part))
    };
    name.split_inclusive('.').map(part).collect::<Vec<String>>().join("<wbr>")
}

pub fn escaped(text: &str) -> String {
    let mut result = String::new();
    for character in text.chars() {
        match character {
            '&' => result.push_str("&amp;"),
            '<' => result.push_str("&lt;"),
            '>' => result.push_str("&gt;"),
            '"' => result.push_str("&quot;"),
            _ => result.push(character),
        }
    }
    result
}
