//! The tally on a page for paper: a table of the requests with their outcomes, one of the policies that decide, and one of those that are
//! satisfied where another decides.

use crate::page::{base, candidates, escaped, page, recorded, rules, version, warnings};
use crate::record::Record;
use crate::report::{outcome_text, Report};
use crate::rules::PolicyText;
use crate::tallies::{Counts, TallyShown};
use crate::words::{count_of, grouped};

/// With more requests the page lies on its side.
const MOST_REQUESTS_UPRIGHT: usize = 3;

/// The page of a tally without a sheet: with the question, the rules, the day, the sums of the files and a line to sign.
pub fn tally_page(report: &Report, record: &Record) -> String {
    let version = version(report.version);
    let mut body = format!("<h1>{}</h1>\n<p>Made on {}.{}</p>\n", escaped(&report.title), record.day, version);
    body += &warnings(&report.warnings);
    body += &tally_section(report);
    body += &candidates(report);
    body += &base(report);
    body += &rules(report);
    body += &recorded(record, report.version);
    page(&report.title, &body, lies_on_its_side(&report.tally))
}

/// Whether the tables need a page that lies on its side.
pub fn lies_on_its_side(tally: &TallyShown) -> bool {
    tally.requests.len() > MOST_REQUESTS_UPRIGHT
}

/// The tables. Beside the sheet of the only request, the policies that decide have in how many of their rows something is absent.
pub fn tally_section(report: &Report) -> String {
    let tally = &report.tally;
    let rows = count_of(tally.tally.rows, "row", "rows");
    let what = match tally.requests.len() {
        1 => format!("{}, the allowed ones and the others, by outcome and by the policy that decides", rows),
        many => format!("{} requests, each over {}, by outcome and by the policy that decides", many, rows),
    };
    let idle = tally.idle().map_or(String::new(), |sentence| format!("<p>{}</p>\n", sentence));
    let beside = tally.said_of_others().map_or(String::new(), |said| format!("<p>{}</p>\n{}", said, beside(tally)));
    format!("<h2>Tally</h2>\n<p>{}.</p>\n{}{}{}{}", what, outcomes(tally), policies(report), idle, beside)
}

/// The policies that are satisfied where another decides.
fn beside(tally: &TallyShown) -> String {
    let rows: Vec<String> = tally.beside().iter().map(|(policy, counts)| policy_row(policy, counts, "")).collect();
    policy_table(&heads(tally), &rows)
}

/// A cell with a number; none is shown fainter.
fn number(count: usize) -> String {
    let class = if count == 0 { "number none" } else { "number" };
    format!("<td class=\"{}\">{}</td>", class, grouped(count))
}

fn outcomes(tally: &TallyShown) -> String {
    let names: String = (1..=4).map(|outcome| format!("<th class=\"number\">{}</th>", outcome_text(outcome))).collect();
    let counted = |counts: &Counts| counts.outcomes.iter().map(|count| number(*count)).collect::<String>();
    if !tally.has_several() {
        let row = counted(&tally.tally.sums);
        return format!(
            "<table class=\"narrow\">\n<thead><tr>{}</tr></thead>\n<tbody>\n<tr>{}</tr>\n</tbody>\n</table>\n",
            names, row
        );
    }
    let mut text = format!(
        "<table>\n<thead><tr><th class=\"number\">request</th><th>subject</th><th>action</th><th>resource</th>{}</tr></thead>\n<tbody>\n",
        names
    );
    for (index, (parts, counts)) in tally.requests.iter().zip(&tally.tally.requests).enumerate() {
        let class = if tally.chosen == Some(index + 1) { " class=\"chosen\"" } else { "" };
        let parts: String = parts.iter().map(|part| format!("<td>{}</td>", escaped(part))).collect();
        text += &format!("<tr{}>{}{}{}</tr>\n", class, number(index + 1), parts, counted(counts));
    }
    text += &format!(
        "</tbody>\n<tbody>\n<tr class=\"sums\"><th colspan=\"4\">sums</th>{}</tr>\n</tbody>\n</table>\n",
        counted(&tally.tally.sums)
    );
    match tally.chosen {
        Some(chosen) => text + &format!("<p>The rows of this sheet are those of request {}.</p>\n", chosen),
        None => text,
    }
}

/// The policies that decide, and of the only request's sheet in how many of their rows something is absent.
fn policies(report: &Report) -> String {
    let tally = &report.tally;
    let has_absences = !tally.has_several() && !report.listed.is_empty();
    let mut heads = heads(tally);
    if has_absences {
        heads.extend(["!".to_string(), "!!".to_string()]);
    }
    let row = |(policy, counts): &(&PolicyText, Vec<usize>)| {
        let absences = match report.policy(policy.number) {
            Some(shown) if has_absences && shown.sums.listed > 0 => {
                number(shown.sums.absent) + &number(shown.sums.holes)
            }
            _ if has_absences => "<td class=\"number\"></td><td class=\"number\"></td>".to_string(),
            _ => String::new(),
        };
        policy_row(policy, counts, &absences)
    };
    policy_table(&heads, &tally.deciding().iter().map(row).collect::<Vec<String>>())
}

/// What stands over the counts of a policy.
fn heads(tally: &TallyShown) -> Vec<String> {
    if !tally.has_several() {
        return vec!["rows".to_string()];
    }
    let requests = (1..=tally.requests.len()).map(|request| format!("request {}", request));
    requests.chain(["sums".to_string()]).collect()
}

/// A policy with its counts, and cells behind them.
fn policy_row(policy: &PolicyText, counts: &[usize], behind: &str) -> String {
    format!(
        "<tr>{}{}<td>{}</td>{}{}</tr>\n",
        number(policy.number),
        number(policy.line),
        escaped(&policy.lines[0]),
        counts.iter().map(|count| number(*count)).collect::<String>(),
        behind
    )
}

/// A table of policies; nothing if there is none.
fn policy_table(heads: &[String], rows: &[String]) -> String {
    if rows.is_empty() {
        return String::new();
    }
    let heads: String = heads.iter().map(|head| format!("<th class=\"number\">{}</th>", head)).collect();
    let words = "<th class=\"number\">policy</th><th class=\"number\">line</th><th>first line</th>";
    format!("<table>\n<thead><tr>{}{}</tr></thead>\n<tbody>\n{}</tbody>\n</table>\n", words, heads, rows.concat())
}
