//! Tests of the printed sheet as a whole: the examples' folders, and random questions.

use std::fs;
use std::path::{Path, PathBuf};

use definitions::questions::read_question;
use definitions::sheets::printed;
use generators::bag_bytes::question;
use generators::marks::rules_satisfied;
use generators::random::Random;

use crate::answers::tests::StandIn;
use crate::answers::Refused;
use crate::asked::{read_asked, Asked};
use crate::bytes::read_bytes;
use crate::commands::recorded;
use crate::doubts::doubts_of_all;
use crate::page::{refusal_page, sheet_page};
use crate::plain::sheet_text;
use crate::record::record_at;
use crate::refusals::{Files, RefusalShown};
use crate::report::tally_report;
use crate::report::tests::{asked, report_on, EXAMPLE, REQUEST};
use crate::tallies::tally;
use crate::tally_page::tally_page;
use crate::tally_text::tally_text;

const FOLDERS: [&str; 6] = ["worked", "crew", "crew/night", "crew/records", "south", VERSIONS];

/// The folder whose rules are shown under both versions.
const VERSIONS: &str = "versions";

/// The folder with several requests.
const SEVERAL: &str = "crew/shift";

/// The folders whose pages are stored, and the time they were made: examples/renew sets the same.
const WITH_PAGE: [&str; 2] = ["crew", VERSIONS];
const MADE: u64 = 1_794_700_800;

fn folder(name: &str) -> PathBuf {
    Path::new(env!("CARGO_MANIFEST_DIR")).join("../../examples").join(name)
}

fn file(directory: &Path, name: &str) -> Vec<u8> {
    let path = directory.join(name);
    fs::read(&path).unwrap_or_else(|error| panic!("{}: {}", path.display(), error))
}

/// What a folder of the examples asks, with its doubts.
fn asked_in(name: &str) -> Asked {
    let mut asked = read_asked(&folder(name).to_string_lossy(), None, false).unwrap();
    let policies = definitions::compile::policies_of(&asked.rules).unwrap();
    let doubts = crate::doubts::doubts(&asked, &policies);
    asked.warnings.extend(doubts);
    asked
}

// The files beside policy.txt and question.txt are what the programs make of these: examples/renew.
#[test]
fn the_examples_are_as_stored() {
    for name in FOLDERS {
        let directory = folder(name);
        let asked = asked_in(name);
        let sheet = printed(&asked.rules, &asked.question_bytes(), &asked.request_bytes(), 600, 1);
        assert_eq!(sheet.as_bytes(), file(&directory, "expected.txt"), "{}/expected.txt", name);
        let report = report_on(&asked, false);
        assert!(sheet_text(&report).as_bytes() == file(&directory, "table.txt"), "{}/table.txt", name);
        if WITH_PAGE.contains(&name) {
            let page = sheet_page(&report, &record_at(MADE, &recorded(&asked)));
            assert!(page.as_bytes() == file(&directory, "page.html"), "{}/page.html", name);
            check_tags(&page);
        }
    }
}

// So is what version 2 makes of the example of versions; both.txt, whose rules ask with has first, is read alike under both.
#[test]
fn the_example_of_versions_is_as_stored() {
    let directory = folder(VERSIONS);
    let asked = Asked { version: 2, ..asked_in(VERSIONS) };
    let sheet = |rules: &[u8], version| printed(rules, &asked.sent, &asked.request_bytes(), 600, version);
    assert_eq!(sheet(&asked.rules, 2).as_bytes(), file(&directory, "expected2.txt"));
    let report = report_on(&asked, false);
    assert!(sheet_text(&report).as_bytes() == file(&directory, "table2.txt"), "table2.txt");
    let page = sheet_page(&report, &record_at(MADE, &recorded(&asked)));
    check_tags(&page);
    for part in [
        "Made on 2026-11-15. <b>Under version 2 of the rules.</b>",
        "Made on 2026-11-15 under version 2 from these files",
        "<td class=\"short opened\">NO</td>",
    ] {
        assert!(page.contains(part), "{}", part);
    }
    let both = file(&directory, "both.txt");
    assert_eq!(sheet(&both, 1), "rows 27\n14 1 1 1\nallowed 1\n");
    assert_eq!(sheet(&both, 2), sheet(&both, 1));
}

// So are the tally, its lines and its page.
#[test]
fn the_example_of_several_requests_is_as_stored() {
    let directory = folder(SEVERAL);
    let mut asked = read_asked(&directory.to_string_lossy(), None, false).unwrap();
    let policies = definitions::compile::policies_of(&asked.rules).unwrap();
    asked.warnings.extend(doubts_of_all(&asked, &policies));
    assert_eq!(asked.sent, file(&directory, "question.bin"));
    assert_eq!(asked.requests_bytes(), file(&directory, "requests.bin"));
    let (lines, counted) = tally(&StandIn, &asked).unwrap();
    assert_eq!(lines.as_bytes(), file(&directory, "counts.txt"));
    let report = tally_report(&asked, counted.unwrap()).unwrap();
    assert!(tally_text(&report).as_bytes() == file(&directory, "tally.txt"), "{}/tally.txt", SEVERAL);
    let page = tally_page(&report, &record_at(MADE, &recorded(&asked)));
    assert!(page.as_bytes() == file(&directory, "page.html"), "{}/page.html", SEVERAL);
    check_tags(&page);
}

// 01, "Checked examples".
#[test]
fn the_worked_example_is_document_01s() {
    assert_eq!(file(&folder("worked"), "expected.txt"), b"rows 9\n3 1 1 1\n4 1 1 1\nallowed 2\n");
    let table = String::from_utf8(file(&folder("worked"), "table.txt")).unwrap();
    let lines: Vec<&str> = table.lines().collect();
    assert!(lines.contains(
        &"!!    3  3                ABSENT !!        allowed  1 permit(principal is person, action, resource.."
    ));
    assert!(lines.contains(
        &"      4  3                \"own\"            allowed  1 permit(principal is person, action, resource.."
    ));
}

/// The tags of a page, each opened and closed in its turn; no other `<`.
fn check_tags(page: &str) {
    let mut open: Vec<&str> = Vec::new();
    for part in page.split('<').skip(1) {
        let end = part.find('>').expect("a tag ends");
        let name = part[..end].split(' ').next().unwrap_or("");
        match name {
            "!DOCTYPE" | "meta" | "col" | "wbr" => {}
            _ if name.starts_with('/') => assert_eq!(open.pop(), Some(&name[1..])),
            _ => open.push(name),
        }
    }
    assert!(open.is_empty());
    assert!(page.chars().all(|character| character == '\n' || !character.is_control()));
    assert!(!page.contains("<script") && !page.contains("http") && !page.contains("url("));
}

#[test]
fn random_sheets_keep_the_width_and_the_tags() {
    let mut random = Random::new(94);
    // One policy, one that not all rows satisfy, and 64, with many others in each row.
    let many = rules_satisfied(|_| "permit", |number| number % 3 > 0);
    let differ = "permit(principal,action,resource)when{!(env.a==env.b)};forbid(principal,action,resource)when{!(principal.a==1||resource.a==1)};";
    let texts = [
        "permit(principal,action,resource);",
        "permit(principal,action,resource)when{!(env.a==env.b)};",
        differ,
        &many,
    ];
    let mut shown = 0;
    while shown < 200 {
        let bytes = question(&mut random).bytes();
        match read_question(&bytes) {
            Some(question) if question.rows() <= 400 => {}
            _ => continue,
        }
        let request = if random.one_in(4) { "system" } else { "person:<b>&\"\nte\u{0}ach\nshaft:\u{FF}" };
        let mut asked = asked(random.pick(&texts), "", request);
        asked.form = read_bytes(&bytes).unwrap();
        asked.sent = bytes;
        asked.title = Some("</title> \"';}".to_string()).filter(|_| random.one_in(3));
        asked.version = if random.one_in(2) { 1 } else { 2 };
        asked.warnings = vec!["<b>".to_string()];
        let report = report_on(&asked, random.one_in(4));
        let table = sheet_text(&report);
        let longest = table.lines().map(|line| line.chars().count()).max().unwrap_or(0);
        assert!(longest <= 100, "{}", table);
        check_tags(&sheet_page(&report, &record_at(MADE, &recorded(&asked))));
        shown += 1;
    }
}

#[test]
fn a_refusal_is_shown_with_its_line() {
    let text = b"permit(principal,action,resource)when{principal.a};";
    let request = definitions::sheets::read_request(b"tool:1\na\nshaft:1");
    let files = Files { text, version: 1, question: &[0, 0, 0, 0], request, requests: 1 };
    let refusal = RefusalShown::new(&files, Refused { number: 8, line: 1, column: 50, length: 1 }).unwrap();
    let said = refusal.text("policy.txt");
    let caret = format!("    {}^\n", " ".repeat(49));
    assert!(said.starts_with("Refused, number 8.\nThe attribute before this place stands alone"), "{}", said);
    assert!(said.ends_with(&format!("    {}\n{}", String::from_utf8_lossy(text), caret)), "{}", said);
    let page = refusal_page(&refusal, "policy.txt", 1, &["<".to_string()], &record_at(MADE, &[]));
    assert!(page.contains("policy.txt, line 1, column 50:"));
    check_tags(&page);
}

// The page has the rules with their lines numbered, the deciding ones marked, the day, the sums and a line to sign.
#[test]
fn the_page_is_a_record() {
    let asked =
        asked(EXAMPLE, "# May K7 teach?\ncolumn principal.hired = absent | \"loan\"\nprincipal.grade = 3", REQUEST);
    let page = sheet_page(&report_on(&asked, true), &record_at(MADE, &recorded(&asked)));
    for part in [
        "<h1>May K7 teach?</h1>",
        "Sheet for person:K7, teach, shaft:A. Made on 2026-11-15.",
        "<tr class=\"decides\"><td class=\"mark\">+</td><td class=\"number\">policy 1</td><td class=\"number\">1</td>",
        "<tr class=\"disarmed\"><td class=\"mark\">!!</td><td class=\"number\">policy 2</td><td class=\"number\">3</td>",
        "(SHA-256)",
        "signature",
        "Rows that are not allowed",
        "<th><span>principal.</span><wbr><span>hired</span></th>",
        "policy 2 in line 3 would forbid, as in row 0 with principal.hired = &quot;loan&quot;",
    ] {
        assert!(page.contains(part), "{}", part);
    }
}
