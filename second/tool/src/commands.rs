//! The commands: each reads its files, asks the proved programs, and says what they answered.

use std::fs;
use std::path::Path;

use definitions::compile::policies_of;
use definitions::locks::{permit_of, NO_LOCK};
use definitions::policies::{Effect, Policy, Version};

use crate::answers::{self, Answer, Answers, Refused};
use crate::asked::{file_name, read_asked, write_made, Asked, RULES};
use crate::bytes::read_bytes;
use crate::command::{not_asked, read_file, Done, Said, Words};
use crate::diffing::{diff, diff_text};
use crate::doubts::{doubts, doubts_of_all};
use crate::explaining::{also_satisfied, conclusion, disarmed, explained, Rules};
use crate::lock_reasons::{doubts_of, no_room, sentence_of};
use crate::locking::{read_locks, LockFile, LockLine};
use crate::page;
use crate::places::{place_in_text, wrong_in_text, PlaceShown};
use crate::plain;
use crate::printed::{check_belongs, read_printed, Listed, Printed};
use crate::record::record_of;
use crate::refusals::{Files, RefusalShown, NO_VERSION};
use crate::report::{report, tally_report, Sheets};
use crate::rules::{condition_lines, policy_texts, PolicyText};
use crate::tallies::{self, check_lists, check_marks, RefusedTally, TallyShown};
use crate::tally_page::tally_page;
use crate::tally_text::tally_text;
use crate::testing::{answer_text, read_tests};
use crate::versions::{said_of_version, under};
use crate::words::count_of;
use crate::writing::text_of;

/// `sheet`: plain lines, a table or a page.
pub fn sheet(desk: &dyn Answers, words: &[&str]) -> Done<Said> {
    let options = ["--rules", "--version", "--request", "--table", "--html", "--forbidden", "--missing-is-empty"];
    let words = Words::read(words, &options, 1..=1)?;
    let mut asked = what_is_asked(&words, words.missing_is_empty)?;
    if !words.missing_is_empty {
        check_has_rows(&asked)?;
    }
    asked.choose(words.request)?;
    let printed = desk.sheet(asked.version, &asked.rules, &asked.sent, &asked.request_bytes())?;
    let listed = match read_sheet(&asked, &printed)? {
        Ok(listed) => listed,
        Err(refused) => return refused_sheet(&asked, &words, &printed, refused),
    };
    add_doubts(&mut asked);
    if !words.table && words.html.is_none() {
        return Ok(said_in_lines(&asked, printed));
    }
    let tally = match tallies::tally(desk, &asked)? {
        (_, Ok(tally)) => tally,
        (printed, Err(refused)) => return refused_tally(&asked, &words, &printed, refused),
    };
    let chosen = words.request.unwrap_or(1);
    check_lists(&tally.requests[chosen - 1], &listed)?;
    check_marks(&asked, &listed)?;
    let other = other_sheet(desk, &asked)?;
    let sheets = Sheets { listed: &listed, other: other.as_deref() };
    let report = report(desk, &asked, sheets, TallyShown::new(&asked, tally, Some(chosen))?, words.forbidden)?;
    let mut said = Said::default();
    if let Some(name) = &words.html {
        put_page(name, &page::sheet_page(&report, &record_of(&recorded(&asked))))?;
        said.warnings = asked.warnings.clone();
        said.out = format!("wrote {}\n", name);
    }
    if words.table {
        said.out = plain::sheet_text(&report);
    }
    Ok(said)
}

/// What the words' first name asks, under the version that they name.
fn what_is_asked(words: &Words, missing_is_empty: bool) -> Done<Asked> {
    let asked = read_asked(&words.names[0], words.rules.as_deref(), missing_is_empty)?;
    Ok(Asked { version: words.version(), ..asked })
}

/// Plain lines as a proved program printed them. Under which version, where it is not version 1, is said beside them.
fn said_in_lines(asked: &Asked, printed: String) -> Said {
    let mut said = Said::answered(printed);
    said.warnings.extend(asked.warnings.iter().cloned());
    if asked.version != 1 {
        said.warnings.push(format!("these lines are{}", under(asked.version)));
    }
    said
}

/// The rows that the sheet lists under the other version; nothing where there is no rule to compare.
fn other_sheet(desk: &dyn Answers, asked: &Asked) -> Done<Option<Vec<Listed>>> {
    let other = match asked.other_version() {
        Some(version) => asked.under(version),
        None => return Ok(None),
    };
    let printed = desk.sheet(other.version, &other.rules, &other.sent, &other.request_bytes())?;
    match read_sheet(&other, &printed)? {
        Ok(listed) => {
            check_marks(&other, &listed)?;
            Ok(Some(listed))
        }
        Err(_) => not_asked("the sheet is refused under one version alone: one of the proved programs is wrong"),
    }
}

/// `tally`: tables of counts, a page, or plain lines.
pub fn tally(desk: &dyn Answers, words: &[&str]) -> Done<Said> {
    let words = Words::read(words, &["--rules", "--version", "--lines", "--html"], 1..=1)?;
    let words = Words { table: !words.lines && words.html.is_none(), ..words };
    let mut asked = what_is_asked(&words, false)?;
    check_has_rows(&asked)?;
    let (printed, tally) = match tallies::tally(desk, &asked)? {
        (printed, Ok(tally)) => (printed, tally),
        (printed, Err(refused)) => return refused_tally(&asked, &words, &printed, refused),
    };
    let policies = policies_of(&asked.rules).unwrap_or_default();
    asked.warnings.extend(doubts_of_all(&asked, &policies));
    let report = tally_report(&asked, tally)?;
    if let Some(name) = &words.html {
        put_page(name, &tally_page(&report, &record_of(&recorded(&asked))))?;
        return Ok(Said { out: format!("wrote {}\n", name), warnings: asked.warnings, status: 0 });
    }
    Ok(if words.table { Said::answered(tally_text(&report)) } else { said_in_lines(&asked, printed) })
}

/// A refused tally, as it is shown: which request is refused, why, and what to do.
fn refused_tally(asked: &Asked, words: &Words, printed: &str, refused: RefusedTally) -> Done<Said> {
    let number = match refused.request {
        Some(number) if asked.requests.len() > 1 => number,
        _ => return refused_sheet(asked, words, printed, refused.refused),
    };
    let one = Asked { request: asked.requests[number - 1].clone(), ..asked.clone() };
    let mut shown = refusal_shown(&one, refused.refused)?;
    shown.meaning = format!(
        "Request {} of {} is refused, and with it the whole tally. {} Mend it in {}, or take it out.",
        number,
        asked.requests.len(),
        shown.meaning,
        asked.name
    );
    said_refusal(asked, words, printed, shown)
}

/// A bag has no rows.
fn check_has_rows(asked: &Asked) -> Done<()> {
    if asked.is_bag() {
        return not_asked(format!("{} is a bag and has no rows: ./desk decide {} decides it", asked.name, asked.name));
    }
    Ok(())
}

/// A refusal of the sheet program, as it is shown.
fn refused_sheet(asked: &Asked, words: &Words, printed: &str, refused: Refused) -> Done<Said> {
    said_refusal(asked, words, printed, refusal_shown(asked, refused)?)
}

/// A refusal as the options want it: a page, sentences, or the printed line and a hint.
fn said_refusal(asked: &Asked, words: &Words, printed: &str, shown: RefusalShown) -> Done<Said> {
    let mut said = Said::refused(printed.to_string());
    said.warnings = asked.warnings.clone();
    if let Some(name) = &words.html {
        let record = record_of(&recorded(asked));
        put_page(name, &page::refusal_page(&shown, &asked.rules_name, asked.version, &asked.warnings, &record))?;
        said.out.clear();
    }
    if words.table {
        said.out = shown.text(&asked.rules_name);
    } else {
        let hint = match shown.place {
            Some(_) => format!("refused: ./desk check {} shows the place and what is expected there", asked.rules_name),
            None => format!("refused: {}", shown.meaning),
        };
        said.warnings.push(hint.trim_end_matches('.').to_string());
    }
    Ok(said)
}

/// The files whose sums stand on the page: the rules, the question, and the request where it is a file of its own.
pub fn recorded(asked: &Asked) -> Vec<(String, Vec<u8>)> {
    let mut files =
        vec![(file_name(&asked.rules_name), asked.rules.clone()), (file_name(&asked.name), asked.file.clone())];
    files.extend(asked.request_file.iter().map(|(name, bytes)| (file_name(name), bytes.clone())));
    files
}

fn put_page(name: &str, page: &str) -> Done<()> {
    fs::write(name, page).or_else(|error| not_asked(format!("{} cannot be written: {}", name, error)))
}

/// The listed rows that the sheet program printed, or its refusal; what does not belong to the files is an error.
fn read_sheet(asked: &Asked, printed: &str) -> Done<Result<Vec<Listed>, Refused>> {
    let read = read_printed(printed.as_bytes()).or_else(not_asked)?;
    match read {
        Printed::Refused(refused) => Ok(Err(refused)),
        Printed::Sheet { ref listed, .. } => {
            let listed = listed.clone();
            check_belongs(&read, asked.question()?.rows(), policy_texts(&asked.rules).len()).or_else(not_asked)?;
            Ok(Ok(listed))
        }
    }
}

/// A refusal in words. One with a place must be where, and as long as, what explains it finds it; one of the version, and no other, must be
/// for a version that is none.
fn refusal_shown(asked: &Asked, refused: Refused) -> Done<RefusalShown> {
    let own = policies_of(&asked.rules).err().map(|own| Refused {
        number: usize::from(own.number),
        line: own.line,
        column: own.column,
        length: own.length,
    });
    if (refused.number == NO_VERSION) != Version::named(asked.version).is_none() {
        return not_asked(format!(
            "the proved program refuses version {} with {}: it is wrong, so nothing is shown",
            asked.version, refused.number
        ));
    }
    if refused.line > 0 && own != Some(refused) {
        let Refused { number, line, column, length } = refused;
        return not_asked(format!(
            "the proved program refuses with {} at {}:{}, for {}, and what explains it does not: one of them is wrong, so nothing is shown",
            number, line, column, count_of(length, "byte", "bytes")
        ));
    }
    let files = Files {
        text: &asked.rules,
        version: asked.version,
        question: &asked.sent,
        request: asked.request(),
        requests: asked.requests.len(),
    };
    RefusalShown::new(&files, refused).or_else(not_asked)
}

/// The warnings about rules that compile.
fn add_doubts(asked: &mut Asked) -> Vec<Policy> {
    let policies = policies_of(&asked.rules).unwrap_or_default();
    let doubts = doubts(asked, &policies);
    asked.warnings.extend(doubts);
    policies
}

/// `check`: whether a rule text compiles.
pub fn check(desk: &dyn Answers, words: &[&str]) -> Done<Said> {
    let words = Words::read(words, &["--version"], 1..=1)?;
    let name = in_folder(&words.names[0], RULES);
    let text = read_file(&name)?;
    let policies = match answers::check(desk, words.version(), &text)? {
        Ok(policies) => policies,
        Err(refused) => return Ok(Said::refused(refused_rules(&name, &text, words.version(), refused)?)),
    };
    let permits = policies_of(&text).unwrap_or_default().iter().filter(|one| one.effect == Effect::Permit).count();
    // A text without policies has no version.
    let under = if policies == 0 { String::new() } else { under(words.version()) };
    Ok(Said::answered(format!(
        "{}{}: {}, {} and {}.\n",
        name,
        under,
        count_of(policies, "policy", "policies"),
        count_of(permits, "permit", "permits"),
        count_of(policies - permits, "forbid", "forbids")
    )))
}

/// The file of this name in a folder, or the file that is named.
fn in_folder(name: &str, file: &str) -> String {
    if Path::new(name).is_dir() {
        Path::new(name).join(file).to_string_lossy().into_owned()
    } else {
        name.to_string()
    }
}

/// A refusal of rules, with its place and what is expected there.
fn refused_rules(name: &str, text: &[u8], version: u64, refused: Refused) -> Done<String> {
    let files = Files {
        text,
        version,
        question: &[],
        request: definitions::deciding::Request { subject: b"", action: b"", resource: b"" },
        requests: 0,
    };
    Ok(RefusalShown::new(&files, refused).or_else(not_asked)?.text(name))
}

/// The one case that is asked, and its answer; a text that is refused says so.
fn one_case(
    desk: &dyn Answers,
    asked: &Asked,
    row: Option<usize>,
) -> Done<Result<(definitions::asking::Case, Answer), Refused>> {
    let question = asked.question()?;
    let rows = question.rows();
    let row = match row {
        Some(row) if row >= rows => {
            return not_asked(format!("there is no row {}: {} has rows 0 to {}", row, asked.name, rows - 1))
        }
        Some(row) => row,
        None if rows == 1 => 0,
        None => {
            return not_asked(format!(
                "{} has {}: ./desk sheet shows them all, ./desk explain with --row 0 to {} one of them",
                asked.name,
                count_of(rows, "row", "rows"),
                rows - 1
            ))
        }
    };
    let case = match asked.case_of(&question.choices_of(row)) {
        Some(case) => case,
        None => {
            return not_asked(format!(
                "row {} has more attributes than a bag can hold, so it cannot be asked alone",
                row
            ))
        }
    };
    Ok(answers::decide(desk, asked.version, &asked.rules, &[case.clone()])?.map(|answers| (case, answers[0])))
}

/// `decide`: one request over a bag.
pub fn decide(desk: &dyn Answers, words: &[&str]) -> Done<Said> {
    let words = Words::read(words, &["--rules", "--version", "--request"], 1..=1)?;
    let mut asked = what_is_asked(&words, false)?;
    asked.choose(words.request)?;
    let (case, answer) = match one_case(desk, &asked, None)? {
        Ok(answered) => answered,
        Err(refused) => return Ok(Said::refused(refusal_shown(&asked, refused)?.text(&asked.rules_name))),
    };
    let mut said = match answer {
        Answer::Refused(refused) => Said::refused(refusal_shown(&asked, refused)?.text(&asked.rules_name)),
        Answer::Decided { outcome, policy, .. } => {
            let texts = policy_texts(&asked.rules);
            let mut lines = Vec::from_iter(said_of_version(asked.version));
            lines.extend(conclusion(answer, &texts));
            lines.extend(texts.iter().filter(|text| text.number == policy).flat_map(|text| condition_lines(text)));
            lines.extend(also_satisfied(answer, &texts));
            if outcome == 1 {
                let policies = policies_of(&asked.rules).unwrap_or_default();
                lines.extend(disarmed(&rules_of(&asked, &policies, &texts), &case));
            }
            Said::answered(lines.join("\n") + "\n")
        }
    };
    add_doubts(&mut asked);
    said.warnings = asked.warnings;
    Ok(said)
}

/// `explain`: why a row, or one request, is decided as it is.
pub fn explain(desk: &dyn Answers, words: &[&str]) -> Done<Said> {
    let words = Words::read(words, &["--rules", "--version", "--row", "--request"], 1..=1)?;
    let mut asked = what_is_asked(&words, false)?;
    asked.choose(words.request)?;
    let (case, answer) = match one_case(desk, &asked, words.row)? {
        Ok(answered) => answered,
        Err(refused) => return Ok(Said::refused(refusal_shown(&asked, refused)?.text(&asked.rules_name))),
    };
    if let Answer::Refused(refused) = answer {
        return Ok(Said::refused(refusal_shown(&asked, refused)?.text(&asked.rules_name)));
    }
    let policies = add_doubts(&mut asked);
    let texts = policy_texts(&asked.rules);
    let mut lines = Vec::from_iter(said_of_version(asked.version).map(|said| said + "\n"));
    lines.extend(explained(&rules_of(&asked, &policies, &texts), &case, answer));
    let mut said = Said::answered(lines.join("\n") + "\n");
    said.warnings = asked.warnings;
    Ok(said)
}

/// The rules of what is asked, to be explained.
fn rules_of<'a>(asked: &'a Asked, policies: &'a [Policy], texts: &'a [PolicyText]) -> Rules<'a> {
    Rules { text: &asked.rules, version: asked.known_version(), policies, texts }
}

/// `test`: requests with expected outcomes.
pub fn test(desk: &dyn Answers, words: &[&str]) -> Done<Said> {
    let words = Words::read(words, &["--rules", "--version"], 1..=usize::MAX)?;
    let mut said = Said::default();
    let (mut all, mut failed) = (0, 0);
    for name in &words.names {
        let text = read_file(name)?;
        let tests = read_tests(&text).or_else(|wrong| not_asked(wrong_in_text(name, &text, &wrong)))?;
        let beside = Path::new(name).with_file_name(RULES).to_string_lossy().into_owned();
        let rules_name = words.rules.clone().unwrap_or(beside);
        let rules = read_file(&rules_name)?;
        let cases: Vec<_> = tests.iter().map(|test| test.case.clone()).collect();
        let answers = match answers::decide(desk, words.version(), &rules, &cases)? {
            Ok(answers) => answers,
            Err(refused) => return Ok(Said::refused(refused_rules(&rules_name, &rules, words.version(), refused)?)),
        };
        for (test, answer) in tests.iter().zip(answers) {
            all += 1;
            if test.expected.is_met_by(answer) {
                said.out += &format!("ok    {}: {}\n", test.name, answer_text(answer));
            } else {
                failed += 1;
                said.out += &format!(
                    "FAIL  {} ({}, line {}): expected {}, but it is {}\n",
                    test.name,
                    name,
                    test.line,
                    test.expected.text(),
                    answer_text(answer)
                );
            }
        }
    }
    said.out += &format!("{}{}, {} failed\n", count_of(all, "test", "tests"), under(words.version()), failed);
    said.status = i32::from(failed > 0);
    Ok(said)
}

/// `diff`: two rule texts, one question.
pub fn difference(desk: &dyn Answers, words: &[&str]) -> Done<Said> {
    let words = Words::read(words, &["--request", "--version", "--versions"], 3..=3)?;
    let [before, after] =
        [0, 1].map(|side: usize| read_asked(&words.names[2], Some(words.names[side].as_str()), false));
    let (mut before, mut after) = (before?, after?);
    [before.version, after.version] = words.versions();
    before.choose(words.request)?;
    after.choose(words.request)?;
    let mut sheets = Vec::new();
    for asked in [&before, &after] {
        let printed = desk.sheet(asked.version, &asked.rules, &asked.question_bytes(), &asked.request_bytes())?;
        match read_sheet(asked, &printed)? {
            Ok(listed) => sheets.push(listed),
            Err(refused) => return Ok(Said::refused(refusal_shown(asked, refused)?.text(&asked.rules_name))),
        }
    }
    let found = diff(desk, &before, &after, [&sheets[0], &sheets[1]])?;
    let mut said = Said::answered(diff_text(&found, &before, &after)?);
    for asked in [&mut before, &mut after] {
        add_doubts(asked);
        for warning in &asked.warnings {
            let warning = format!("{}: {}", asked.rules_name, warning);
            if !said.warnings.contains(&warning) {
                said.warnings.push(warning);
            }
        }
    }
    Ok(said)
}

/// `write`: what the sheet program reads, made of a question's text.
pub fn write(words: &[&str]) -> Done<Said> {
    let words = Words::read(words, &[], 1..=1)?;
    write_made(&words.names[0]).map(Said::answered)
}

/// `read`: bytes as text.
pub fn read(words: &[&str]) -> Done<Said> {
    let words = Words::read(words, &[], 1..=1)?;
    let name = &words.names[0];
    match read_bytes(&read_file(name)?) {
        Ok(form) => Ok(Said::answered(text_of(&form))),
        Err(bad) => not_asked(format!("{}: byte {}: {}", name, bad.at, bad.what)),
    }
}

/// The name of a folder's file of locks, and the bytes of the longest permit.
const LOCKS: &str = "lock.txt";
const LONGEST_PERMIT: usize = 5_651;

/// `lock`: the permits of a file's locks, or why one is refused.
pub fn lock(desk: &dyn Answers, words: &[&str]) -> Done<Said> {
    let words = Words::read(words, &["--room"], 1..=1)?;
    let name = in_folder(&words.names[0], LOCKS);
    let text = read_file(&name)?;
    let file = read_locks(&text).or_else(|wrong| not_asked(wrong_in_text(&name, &text, &wrong)))?;
    let room = words.room.unwrap_or(LONGEST_PERMIT);
    let mut said = Said::default();
    let mut refusals = String::new();
    for line in &file.locks {
        let lent = file.lent(line);
        match answers::lock(desk, lent.lent(), room)? {
            Ok(permit) => {
                said.out += &format!("{}\n", permit);
                for doubt in doubts_of(&lent, line) {
                    if !said.warnings.contains(&doubt) {
                        said.warnings.push(doubt);
                    }
                }
            }
            Err(refused) => refusals += &refused_lock(&file, line, (&name, &text), (refused.number, room))?,
        }
    }
    Ok(if refusals.is_empty() { said } else { Said::refused(refusals) })
}

/// A refusal of a lock, with its reason and its place in the file of this name.
fn refused_lock(file: &LockFile, line: &LockLine, named: (&str, &[u8]), refused: (usize, usize)) -> Done<String> {
    let ((name, text), (number, room)) = (named, refused);
    let (at, meaning) = match permit_of(file.lent(line).lent()) {
        Err(flaw) if number == usize::from(NO_LOCK) => (file.place(line, &flaw), sentence_of(file, line, &flaw)),
        Ok(permit) => (line.lock.at, no_room(permit.text().len(), room)),
        Err(_) => {
            return not_asked(format!("the proved program refuses with {}, and what explains it with 28", number))
        }
    };
    let place = PlaceShown::at(text, place_in_text(text, at), at, 1);
    let shown = RefusalShown { number, meaning, place: Some(place) };
    Ok(shown.text(name))
}
