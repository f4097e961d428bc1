//! Tests of whole commands, answered by a stand-in: mistakes and their messages, exit statuses, what is said of the examples.

use std::fs;
use std::path::{Path, PathBuf};
use std::sync::atomic::{AtomicUsize, Ordering};

use crate::answers::tests::{StandIn, Wrong};
use crate::command::Said;
use crate::{documented, failed, run};

/// A folder of its own for one test.
struct Folder(PathBuf);

impl Folder {
    fn new(files: &[(&str, &str)]) -> Folder {
        static NEXT: AtomicUsize = AtomicUsize::new(0);
        let name = format!("desk-test-{}-{}", std::process::id(), NEXT.fetch_add(1, Ordering::Relaxed));
        let path = std::env::temp_dir().join(name);
        fs::create_dir(&path).unwrap();
        for (name, text) in files {
            fs::write(path.join(name), text).unwrap();
        }
        Folder(path)
    }

    fn path(&self, name: &str) -> String {
        self.0.join(name).to_string_lossy().into_owned()
    }

    /// The command with the folder's files in place of words that begin with `@`; `@` alone is the folder.
    fn says(&self, words: &[&str]) -> Said {
        let words: Vec<String> = words
            .iter()
            .map(|word| match word.strip_prefix('@') {
                Some("") => self.0.to_string_lossy().into_owned(),
                Some(name) => self.path(name),
                None => word.to_string(),
            })
            .collect();
        let words: Vec<&str> = words.iter().map(String::as_str).collect();
        run(&StandIn, &words).unwrap_or_else(|failure| failed(&words, failure))
    }
}

impl Drop for Folder {
    fn drop(&mut self) {
        let _ = fs::remove_dir_all(&self.0);
    }
}

const RULES: &str = "permit(principal is person, action, resource is shaft)\n  when { principal.grade >= 3 };\n\
    forbid(principal, action in [\"teach\"], resource)\n  when { principal.hired != \"own\" };\n";
const REQUEST: &str = "subject = \"person:K7\"\naction = \"teach\"\nresource = \"shaft:A\"\n";
const COLUMNS: &str =
    "column principal.grade = absent | 3 | 2.5\ncolumn principal.hired = absent | \"own\" | \"loan\"\n";

fn with_question(rules: &str, question: &str) -> Folder {
    Folder::new(&[("policy.txt", rules), ("question.txt", question)])
}

/// The folder of document 01's example.
fn worked() -> Folder {
    with_question(RULES, &[REQUEST, COLUMNS].concat())
}

/// All that a command says.
fn all(said: &Said) -> String {
    format!("{}{}", said.out, said.warnings.join("\n"))
}

#[test]
fn every_command_has_help() {
    let folder = worked();
    for command in &crate::help::COMMANDS {
        for words in [&[command.name, "--help"][..], &["help", command.name], &[command.name, "x", "-h"]] {
            let said = folder.says(words);
            assert_eq!(said.status, 0);
            assert!(said.out.starts_with(&format!("usage: ./desk {} ", command.name)), "{}", said.out);
            assert!(said.out.contains("Exit status: 0 answered; 1 refused"));
        }
    }
    for words in [&["--help"][..], &["-h"], &["help"]] {
        assert!(folder.says(words).out.contains("  explain  why a row"));
    }
}

#[test]
fn the_worked_example_is_answered() {
    let folder = worked();
    let said = folder.says(&["sheet", "@"]);
    assert_eq!((said.out.as_str(), said.status), ("rows 9\n3 1 1 1\n4 1 1 1\nallowed 2\n", 0));
    assert!(said.warnings.is_empty(), "{:?}", said.warnings);
    assert_eq!(folder.says(&["sheet", "@question.txt"]).out, said.out);
    let table = folder.says(&["sheet", "@", "--table"]).out;
    assert!(table.contains("policy 2 in line 3 would forbid,"), "{}", table);
    let explained = folder.says(&["explain", "@", "--row", "3"]);
    assert!(explained.out.contains("!! disarmed: it could forbid if principal.hired were there"), "{}", explained.out);
    assert_eq!(
        folder.says(&["check", "@"]).out,
        format!("{}: 2 policies, 1 permit and 1 forbid.\n", folder.path("policy.txt"))
    );
    let page = folder.path("page.html");
    let said = folder.says(&["sheet", "@", "--html", "@page.html", "--forbidden"]);
    assert_eq!((said.out, said.status), (format!("wrote {}\n", page), 0));
    assert!(fs::read_to_string(page).unwrap().contains("Rows that are not allowed"));
}

// Two permits and two forbids: in row 0 policies 1 and 4 are satisfied, in row 1 all.
#[test]
fn the_other_rules_that_applied_are_shown() {
    let rules = "permit(principal, action, resource);\nforbid(principal, action, resource) when { env.a == 1 };\n\
        forbid(principal, action, resource) when { env has a };\npermit(principal, action, resource) when { true };\n";
    let folder = with_question(rules, &[REQUEST, "column env.a = absent | 1\n"].concat());
    assert_eq!(folder.says(&["sheet", "@"]).out, "rows 2\n0 1 1 9\nallowed 1\n");
    let table = folder.says(&["sheet", "@", "--table", "--forbidden"]).out;
    for line in [
        "    row  env.a      outcome  policy                                                             also",
        "!!    0  ABSENT !!  allowed  1 permit(principal, action, resource);                             4",
        "      1  1          forbidden  2 forbid(principal, action, resource) when { env.a == 1 };    1, 3, 4",
        "also: other policies that are satisfied in the row, though they do not decide it.",
    ] {
        assert!(table.lines().any(|said| said == line), "{}\n{}", line, table);
    }
    assert_eq!(folder.says(&["sheet", "@", "--html", "@page.html", "--forbidden"]).status, 0);
    let page = fs::read_to_string(folder.path("page.html")).unwrap();
    for part in ["<th class=\"also\">also</th>", "<td class=\"also\">4</td>", "<td class=\"also\">1, 3, 4</td>"] {
        assert!(page.contains(part), "{}\n{}", part, page);
    }
    let tally = folder.says(&["tally", "@"]).out;
    let counted: Vec<&str> = tally.split("another decides (counted by the tool):").nth(1).unwrap().lines().collect();
    assert_eq!(&counted[1..3], ["", "policy  line  rows"]);
    for (line, start) in
        counted[4..].iter().zip(["     1     1     1  ", "     3     3     1  ", "     4     4     2  "])
    {
        assert!(line.starts_with(start), "{}", tally);
    }
    assert_eq!(counted.len(), 7, "{}", tally);
    let also = "\nSatisfied too, but not deciding: policy 4 in line 4 (permit).\n";
    assert!(folder.says(&["explain", "@", "--row", "0"]).out.ends_with(also));
    let also = "\nSatisfied too, but not deciding: policy 1 in line 1 (permit), policy 3 in line 3 (forbid), policy 4 in line 4 (permit).\n";
    assert!(folder.says(&["explain", "@", "--row", "1"]).out.ends_with(also));
    fs::write(folder.path("bag.txt"), ["bag\n", REQUEST, "env.a = 2\n"].concat()).unwrap();
    let said = folder.says(&["decide", "@bag.txt"]);
    assert_eq!(
        said.out,
        "Forbidden by policy 3 in line 3: it is the first forbid that is satisfied.\n    forbid(principal, action, resource) \
         when { env has a };\nSatisfied too, but not deciding: policy 1 in line 1 (permit), policy 4 in line 4 (permit).\n"
    );
    fs::write(folder.path("policy.txt"), "permit(principal, action, resource);").unwrap();
    let table = folder.says(&["sheet", "@", "--table"]).out;
    assert!(table.contains("\nIn none of these rows is another policy satisfied.\n"), "{}", table);
    assert!(table.contains("\nNo policy is satisfied in a row that another decides.\n"), "{}", table);
    assert!(!table.contains("also"), "{}", table);
    assert!(folder.says(&["explain", "@", "--row", "0"]).out.ends_with("\nNo other policy is satisfied.\n"));
    // The system's rows have no mark, and nothing is said of other policies.
    fs::write(folder.path("question.txt"), "subject = \"system\"\ncolumn env.a = absent | 1\n").unwrap();
    assert_eq!(folder.says(&["sheet", "@"]).out, "rows 2\n0 4 0 0\n1 4 0 0\nallowed 2\n");
    let table = folder.says(&["sheet", "@", "--table"]).out;
    assert!(!table.contains("another policy") && !table.contains("another decides"), "{}", table);
}

#[test]
fn wrong_words_are_said_with_the_usage() {
    let folder = worked();
    for (words, what) in [
        (&[][..], "which command?\nusage: ./desk COMMAND .."),
        (&["shet", "@"], "there is no command shet\nusage: ./desk COMMAND .."),
        (&["sheet"], "a name is missing; usage: ./desk sheet WHERE"),
        (&["sheet", "@", "@"], "too many names; usage: ./desk sheet"),
        (&["sheet", "@", "--tabel"], "unknown option --tabel; usage: ./desk sheet"),
        (&["sheet", "@", "--html"], "--html needs the name of the file to write"),
        (&["sheet", "@", "--rules"], "--rules needs the name of a rule text"),
        (&["explain", "@", "--row", "three"], "--row needs the number of a row, from 0"),
        (&["diff", "@policy.txt", "@"], "a name is missing; usage: ./desk diff BEFORE AFTER WHERE"),
        (&["check", "@", "--table"], "unknown option --table; usage: ./desk check RULES"),
        (&["tally"], "a name is missing; usage: ./desk tally WHERE"),
        (&["tally", "@", "--table"], "unknown option --table; usage: ./desk tally WHERE"),
        (&["sheet", "@", "--request", "one"], "--request needs the number of a request, from 1"),
        (
            &["sheet", "@", "--version", "two"],
            "--version needs the number of a version, 1 or 2; usage: ./desk sheet WHERE",
        ),
        (&["check", "@", "--version"], "--version needs the number of a version, 1 or 2; usage: ./desk check RULES"),
        (&["sheet", "@", "--versions", "1", "2"], "unknown option --versions; usage: ./desk sheet"),
        (
            &["diff", "@policy.txt", "@policy.txt", "@", "--versions", "1"],
            "--versions needs two numbers, the versions before",
        ),
        (&["lock", "@", "--version", "2"], "unknown option --version; usage: ./desk lock"),
    ] {
        let said = folder.says(words);
        assert_eq!(said.status, 2, "{:?}", words);
        assert!(all(&said).contains(what), "{}", all(&said));
    }
}

#[test]
fn files_that_are_not_as_they_must_be() {
    let question = [REQUEST, COLUMNS].concat();
    let folder = Folder::new(&[("question.txt", &question)]);
    let said = folder.says(&["sheet", "@"]);
    assert_eq!(said.status, 2);
    assert!(
        all(&said).ends_with("policy.txt: the rules are read from it, or from the file after --rules"),
        "{}",
        all(&said)
    );
    // A folder in a file's place.
    fs::create_dir(folder.path("policy.txt")).unwrap();
    assert!(all(&folder.says(&["sheet", "@"])).ends_with("policy.txt is a folder; a file is needed here"));
    for (files, words, what) in [
        (&[("policy.txt", RULES)][..], &["sheet", "@"][..], "write the question as text into"),
        (&[("policy.txt", RULES)], &["sheet", "@no.txt"], "there is no"),
        (
            &[("policy.txt", RULES), ("question.txt", COLUMNS)],
            &["sheet", "@"],
            "request.txt: say subject = \"..\", action",
        ),
        (
            &[("policy.txt", RULES), ("question.txt", "subject = \"tool:1\"")],
            &["sheet", "@"],
            "says no action: a line action = \"..\" is missing",
        ),
        (
            &[("policy.txt", RULES), ("question.txt", "env.a: 3")],
            &["sheet", "@"],
            "question.txt:1:6: expected = and a value after the attribute\n    env.a: 3\n         ^",
        ),
        (
            &[("policy.txt", RULES), ("question.bin", "x")],
            &["sheet", "@"],
            "question.bin: byte 0: the count of the section principal is 120",
        ),
        (&[], &["sheet", "@nowhere"], "there is no folder or file"),
        (
            &[("policy.txt", RULES)],
            &["sheet", "@policy.txt"],
            "policy.txt:1:1: this is a rule text: expected a question",
        ),
        (&[], &["check", "@"], "there is no file"),
        (&[], &["read", "@"], "is a folder; a file is needed here"),
        (&[], &["test", "@tests.txt"], "there is no file"),
        (&[("tests.txt", "test \"a\"\nexpect system\nsubject = \"system\"")], &["test", "@tests.txt"], "policy.txt"),
        (
            &[("policy.txt", RULES), ("b.txt", "bag\nsubject = \"tool:1\"\naction = \"a\"\nresource = \"shaft:1\"")],
            &["sheet", "@b.txt"],
            "is a bag and has no rows: ./desk decide",
        ),
    ] {
        let said = Folder::new(files).says(words);
        assert_eq!(said.status, 2, "{}", what);
        assert!(said.out.is_empty() && all(&said).contains(what), "{}\n{}", what, all(&said));
    }
    let said = worked().says(&["sheet", "@", "--html", "/no such folder/page.html"]);
    assert!(said.status == 2 && all(&said).contains("cannot be written"), "{}", all(&said));
}

/// A link to itself stands for it: not even root can read that.
#[test]
fn a_file_that_cannot_be_read_is_an_error() {
    let folder = Folder::new(&[("question.txt", &format!("question\n{}{}", REQUEST, COLUMNS))]);
    std::os::unix::fs::symlink("policy.txt", folder.path("policy.txt")).unwrap();
    for words in [&["sheet", "@"][..], &["check", "@policy.txt"]] {
        let said = folder.says(words);
        assert_eq!((said.out.as_str(), said.status), ("", 2));
        assert!(all(&said).contains("policy.txt cannot be read: "), "{}", all(&said));
    }
}

#[test]
fn what_was_made_of_the_text_must_be_what_it_says() {
    let folder = worked();
    assert_eq!(folder.says(&["write", "@"]).status, 0);
    assert_eq!(fs::read_to_string(folder.path("request.txt")).unwrap(), "person:K7\nteach\nshaft:A\n");
    assert_eq!(folder.says(&["sheet", "@"]).status, 0);
    assert!(folder.says(&["read", "@question.bin"]).out.contains("column principal.grade = absent | 3 | 2.5"));
    fs::write(folder.path("request.txt"), "person:K8\nteach\nshaft:A\n").unwrap();
    for command in ["sheet", "decide", "explain"] {
        let said = folder.says(&[command, "@"]);
        assert_eq!(said.status, 2);
        assert!(all(&said).contains("request.txt has the subject \"person:K8\", and"), "{}", all(&said));
    }
    fs::remove_file(folder.path("request.txt")).unwrap();
    fs::write(folder.path("question.bin"), [0, 0, 0, 0]).unwrap();
    let said = folder.says(&["sheet", "@", "--missing-is-empty"]);
    assert_eq!(said.status, 2);
    assert!(all(&said).contains("question.bin is not what"), "{}", all(&said));
    // Without the text the bytes are what is asked.
    fs::remove_file(folder.path("question.txt")).unwrap();
    fs::write(folder.path("request.txt"), "system").unwrap();
    assert_eq!(folder.says(&["sheet", "@"]).out, "rows 1\n0 4 0 0\nallowed 1\n");
}

#[test]
fn a_missing_file_is_empty_for_the_sheet_program_alone() {
    let folder = Folder::new(&[]);
    let said = folder.says(&["sheet", "@", "--missing-is-empty"]);
    assert_eq!((said.out.as_str(), said.status), ("refused 24 0 0 0\n", 1));
    for name in ["policy.txt", "question.bin", "request.txt"] {
        assert!(all(&said).contains(&format!("{}: it is taken as empty", name)), "{}", all(&said));
    }
    assert!(
        all(&said).contains("refused: The question's bytes are no question. Byte 0: the file ends here"),
        "{}",
        all(&said)
    );
}

/// What was hardly meant: rules, question, and the warning.
const DOUBTFUL: [(&str, &str, &str); 21] = [
    (RULES, "subject = \"person:K7 \"\naction = \"teach\"\nresource = \"shaft:A\"\nprincipal.grade = 3\nprincipal.hired = \"own\"", "the subject begins or ends with a blank, \"person:K7 \": it is compared with it"),
    (RULES, "subject = \"person:K7\"\naction = \"teach\\r\"\nresource = \"shaft:A\"\nprincipal.grade = 3\nprincipal.hired = \"own\"", "the action ends with a carriage return, \"teach\\r\": take it out of question.txt"),
    (RULES, "subject = \"person:K7\"\naction = \" teach\"\nresource = \"shaft:A\"\nprincipal.grade = 3\nprincipal.hired = \"own\"", "the action begins or ends with a blank"),
    (RULES, "subject = \"person:K7\"\naction = \"teech\"\nresource = \"shaft:A\"\nprincipal.grade = 3\nprincipal.hired = \"own\"", "no policy names the action \"teech\": did you mean teach?"),
    (RULES, "subject = \"person:K7\"\naction = \"move\"\nresource = \"shaft:A\"\nprincipal.grade = 3\nprincipal.hired = \"own\"", "no policy names the action \"move\""),
    ("permit(principal is person,action,resource);", "subject = \"tool:1\"\naction = \"a\"\nresource = \"shaft:A\"", "no policy is about such a subject as \"tool:1\": all are about another type"),
    ("permit(principal,action,resource is shaft);permit(principal,action,resource==\"record:2\");", "subject = \"tool:1\"\naction = \"a\"\nresource = \"record:1\"", "no policy is about such a resource as \"record:1\""),
    ("permit(principal is tool,action,resource is shaft);permit(principal is person,action,resource is record);", "subject = \"tool:1\"\naction = \"a\"\nresource = \"record:1\"", "no permit's target matches this request, so nothing can be allowed"),
    (RULES, "subject = \"person:K7\"\naction = \"teach\"\nresource = \"shaft:A\"\nprincipal.grad = 3\nprincipal.hired = \"own\"", "no policy asks for principal.grad: did you mean principal.grade?"),
    (RULES, "subject = \"person:K7\"\naction = \"teach\"\nresource = \"shaft:A\"\nprincipal.grade = 3\ncolumn principal.hird = \"own\" | \"loan\"", "no policy asks for the column principal.hird, so it changes nothing: did you mean principal.hired?"),
    (RULES, "subject = \"person:K7\"\naction = \"teach\"\nresource = \"shaft:A\"\nprincipal.grade = 3\nenv.grade = 3\nprincipal.hired = \"own\"", "no policy asks for env.grade"),
    (RULES, "subject = \"person:K7\"\naction = \"teach\"\nresource = \"shaft:A\"\nprincipal.grade = 3", "policy 2 asks for principal.hired, which is given nowhere: it is absent in every row"),
    (RULES, "subject = \"person:K7\"\naction = \"teach\"\nresource = \"shaft:A\"\nprincipal.grade = \"3\"\nprincipal.hired = \"own\"", "policy 1 has principal.grade >= 3, but principal.grade is never a number in this question: the comparison is always false"),
    (RULES, "subject = \"person:K7\"\naction = \"teach\"\nresource = \"shaft:A\"\nprincipal.grade = 3\ncolumn principal.hired = absent | true | false", "policy 2 has principal.hired != \"own\", but principal.hired is never a string in this question"),
    ("permit(principal,action,resource)when{env.a like \"x*\"};", "subject = \"tool:1\"\naction = \"a\"\nresource = \"shaft:A\"\nenv.a = [\"x\"]", "env.a is never a string in this question"),
    ("permit(principal,action,resource)when{\"x\" in env.a};", "subject = \"tool:1\"\naction = \"a\"\nresource = \"shaft:A\"\nenv.a = \"x\"", "env.a is never a list in this question"),
    ("permit(principal,action,resource)when{env.a.containsAny([\"x\"])};", "subject = \"tool:1\"\naction = \"a\"\nresource = \"shaft:A\"\nenv.a = \"x\"", "env.a is never a list in this question"),
    ("permit(principal,action,resource)when{env.a in [1, 2]};", "subject = \"tool:1\"\naction = \"a\"\nresource = \"shaft:A\"\nenv.a = \"1\"", "env.a is never a number in this question"),
    ("permit(principal,action,resource)when{true == env.a};", "subject = \"tool:1\"\naction = \"a\"\nresource = \"shaft:A\"\nenv.a = \"true\"", "env.a is never true or false in this question"),
    ("", "subject = \"tool:1\"\naction = \"a\"\nresource = \"shaft:A\"", "policy.txt has no policy: nothing is allowed"),
    (RULES, "subject = \"system\"", "the subject is system: the answer is yes without a look at the rules"),
];

#[test]
fn what_was_hardly_meant_is_warned_of() {
    for (rules, question, what) in DOUBTFUL {
        let folder = with_question(rules, question);
        let said = folder.says(&["sheet", "@"]);
        assert_eq!(said.status, 0, "{}", all(&said));
        assert!(said.warnings.iter().any(|warning| warning.contains(what)), "{}\n{:?}", what, said.warnings);
        assert!(said.out.starts_with("rows "), "the answer stays");
        // The table and the page have it too.
        let table = folder.says(&["sheet", "@", "--table"]).out.replace('\n', " ");
        assert!(table.contains("Warning: ") && !table.contains("?."), "{}", table);
        assert_eq!(folder.says(&["sheet", "@", "--html", "@page.html"]).status, 0);
        assert!(fs::read_to_string(folder.path("page.html")).unwrap().contains("<b>Warning:</b>"));
        assert_eq!(folder.says(&["explain", "@", "--row", "0"]).warnings, said.warnings);
    }
}

// Warnings of which docs/QUESTIONS.md has an example.
#[test]
fn warnings_are_documented() {
    for (_, _, what) in [
        DOUBTFUL[0], DOUBTFUL[1], DOUBTFUL[3], DOUBTFUL[5], DOUBTFUL[6], DOUBTFUL[7], DOUBTFUL[8], DOUBTFUL[9],
        DOUBTFUL[11], DOUBTFUL[12], DOUBTFUL[19], DOUBTFUL[20],
    ] {
        assert!(documented(what), "{}", what);
    }
}

#[test]
fn a_request_of_more_lines_is_warned_of() {
    let files = [
        ("policy.txt", RULES),
        ("question.txt", COLUMNS),
        ("request.txt", "person:K7\r\nteach\r\nshaft:A\r\nmore\r\n"),
    ];
    let said = Folder::new(&files).says(&["sheet", "@"]);
    assert_eq!(said.out, "rows 9\n3 1 1 1\n4 1 1 1\n5 1 1 1\nallowed 3\n");
    let text = all(&said);
    assert!(
        text.contains("request.txt has more than three lines: only subject, action and resource are read"),
        "{}",
        text
    );
    for part in ["subject", "action", "resource"] {
        assert!(text.contains(&format!("the {} ends with a carriage return", part)), "{}", text);
        assert!(text.contains("save request.txt with plain line feeds"), "{}", text);
    }
}

/// Rule texts that are refused, and what is said of them.
const REFUSED: [(&str, &str); 24] = [
    (
        "permit(principal,action,resource)\npermit(principal,action,resource);",
        "This may not stand here: expected `when` or `;` after the policy that begins in line 1.",
    ),
    (
        "permit(principal,action,resource)when{true}",
        "The rules end inside a policy: expected `;` after the policy that begins in line 1.",
    ),
    (
        "# people\npermit(principal,action,resource);",
        "A byte stands here that may not: `#`: rule texts have no comments.",
    ),
    ("// people", "`/`: rule texts have no comments."),
    ("permit(principal,action,resource)when{env.a=='x'};", "a string stands in straight double quotes"),
    ("permit(principal,action,resource)when{env.a==\u{201C}x\u{201D}};", "a curved quote"),
    ("\u{FEFF}permit(principal,action,resource);", "a byte order mark: save the file without one"),
    ("permit(principal,action,resource)when{env.a => 3};", "at least is written >="),
    ("permit(principal,action,resource)when{env.a = 3};", "equality is written =="),
    ("permit(principal,action,resource)when{true & true};", "and is written &&"),
    ("permit(principal,action,resource)when{true | true};", "or is written ||"),
    (
        "permit(principal,action,resource)when{env.if == 3};",
        "This is a reserved word, and a name of a path must stand here. Reserved are: permit, forbid, when,",
    ),
    ("permit(principal,action,resource)when{env.a};", "The attribute before this place stands alone"),
    ("permit(principal is shaft,action,resource);", "This is no type. Principals are person or tool"),
    (
        "permit(person:K7,action,resource);",
        "This may not stand here: expected `principal` in the policy that begins in line 1.",
    ),
    ("permit(principal is person:K7,action,resource);", "A colon stands outside a string"),
    ("permit(principal,action,resource)when{env.a == \"x};", "A string begins here and has no closing quote."),
    (
        "permit(principal,action==\"teach\",resource);",
        "This may not stand here: expected `in` or `,` in the policy that begins in line 1.",
    ),
    ("permit(principal,action,resource)when{action.kind == 1};", "After action only name may stand"),
    (
        "permit(principal,action,resource)when{env.a like \"**\"};",
        "A pattern has at most 100 characters and 5 wildcards",
    ),
    ("permit(principal,action,resource)when{env.a == 1234567890123456};", "Too long: a word has at most 64 bytes"),
    ("permit(principal,action,resource)when{};", "expected a condition (an attribute, a literal, `!`, `(` or `if`)"),
    (
        "allow(principal,action,resource);",
        "This may not stand here: expected `permit` or `forbid` at the beginning of a policy.",
    ),
    ("permit(principal,action,resource);;", "This may not stand here: expected `permit` or `forbid`."),
];

#[test]
fn refusals_of_rules_say_what_is_expected() {
    for (rules, what) in REFUSED {
        let folder = with_question(rules, &[REQUEST, COLUMNS].concat());
        for words in [
            &["check", "@"][..],
            &["sheet", "@", "--table"],
            &["explain", "@", "--row", "0"],
            &["diff", "@policy.txt", "@policy.txt", "@"],
        ] {
            let said = folder.says(words);
            assert_eq!(said.status, 1, "{:?}", words);
            let unwrapped = said.out.replace('\n', " ");
            assert!(unwrapped.starts_with("Refused, number ") && unwrapped.contains(what), "{}\n{}", what, said.out);
            assert!(said.out.ends_with("^\n"), "{}", said.out);
        }
        let plain = folder.says(&["sheet", "@"]);
        assert!(plain.status == 1 && plain.out.starts_with("refused "), "{}", plain.out);
        let hint =
            format!("refused: ./desk check {} shows the place and what is expected there", folder.path("policy.txt"));
        assert_eq!(plain.warnings.last(), Some(&hint));
    }
}

#[test]
fn refusals_of_requests_are_said() {
    for (request, number, what) in [
        ("subject = \"dog:1\"\naction = \"a\"\nresource = \"shaft:A\"", 21, "The subject is not as it must be: system, or person: or tool: and an id, at most 100 bytes. Found: \"dog:1\", 5 bytes."),
        ("subject = \"person:\"\naction = \"a\"\nresource = \"shaft:A\"", 21, "Found: \"person:\", 7 bytes."),
        ("subject = \"tool:1\"\naction = \"\"\nresource = \"shaft:A\"", 22, "The action must have 1 to 100 bytes. Found: \"\", 0 bytes."),
        ("subject = \"tool:1\"\naction = \"a\"\nresource = \"shaft\"", 23, "The resource is not as it must be: controller:, shaft:, parameter: or record: and an id"),
        ("subject = \"System\"\naction = \"a\"\nresource = \"shaft:1\"", 21, "Found: \"System\", 6 bytes."),
    ] {
        let folder = with_question(RULES, request);
        for words in [&["decide", "@"][..], &["sheet", "@", "--table"], &["explain", "@"]] {
            let said = folder.says(words);
            assert_eq!(said.status, 1);
            let unwrapped = said.out.replace('\n', " ");
            assert!(unwrapped.contains(&format!("Refused, number {}.", number)) && unwrapped.contains(what), "{}", said.out);
        }
    }
    let said =
        with_question(RULES, "subject = \"tool:1\\n\"\naction = \"a\"\nresource = \"shaft:1\"").says(&["sheet", "@"]);
    assert!(
        said.status == 2
            && all(&said).contains("the subject has a line feed in it: \"tool:1\\n\"; it must be one line"),
        "{}",
        all(&said)
    );
}

/// A folder whose question has these requests after its own.
fn with_requests(requests: &str) -> Folder {
    with_question(RULES, &[REQUEST, COLUMNS, requests].concat())
}

const TWO: &str = "request\nrequest\nsubject = \"tool:HT12\"\n";

#[test]
fn one_request_is_tallied() {
    let folder = worked();
    let lines = "rows 9\nrequest 1\noutcome 1 2\noutcome 2 3\noutcome 3 4\noutcome 4 0\npolicy 1 2\npolicy 2 3\n\
        sums\noutcome 1 2\noutcome 2 3\noutcome 3 4\noutcome 4 0\npolicy 1 2\npolicy 2 3\n";
    let said = folder.says(&["tally", "@", "--lines"]);
    assert_eq!((said.out.as_str(), said.status), (lines, 0));
    let said = folder.says(&["tally", "@question.txt", "--rules", "@policy.txt"]);
    assert!(said.out.starts_with("Tally for person:K7, teach, shaft:A\n\nThe tally of 9 rows:\n"), "{}", said.out);
    assert!(said.out.contains("\n      2          3              4       0\n"), "{}", said.out);
    assert!(
        said.out
            .contains("\n     2     3     3  forbid(principal, action in [\"teach\"], resource)\n\nIn how many rows"),
        "{}",
        said.out
    );
    // Row 5 is forbidden by policy 2, though policy 1 is satisfied in it.
    assert!(
        said.out.ends_with("\n     1     1     1  permit(principal is person, action, resource is shaft)\n"),
        "{}",
        said.out
    );
    // The sheet's table and page have the same counts.
    let table = folder.says(&["sheet", "@", "--table"]).out;
    assert!(table.contains(said.out.split_once("\n\n").unwrap().1), "{}", table);
    assert_eq!(
        folder.says(&["tally", "@", "--html", "@page.html"]).out,
        format!("wrote {}\n", folder.path("page.html"))
    );
    assert_eq!(folder.says(&["sheet", "@", "--html", "@sheet.html"]).status, 0);
    for name in ["page.html", "sheet.html"] {
        let page = fs::read_to_string(folder.path(name)).unwrap();
        let row = "<tr><td class=\"number\">2</td><td class=\"number\">3</td><td class=\"number\">4</td><td class=\"number none\">0</td></tr>";
        assert!(page.contains("<h2>Tally</h2>") && page.contains(row), "{}", page);
    }
}

#[test]
fn several_requests_are_tallied() {
    let folder = with_requests(TWO);
    let said = folder.says(&["tally", "@"]);
    assert!(said.status == 0 && said.out.starts_with("Tally of 2 requests\n\nWarning: request 2: "), "{}", said.out);
    for line in [
        "The tally of 2 requests, each over 9 rows:",
        "      1  person:K7  teach   shaft:A         2          3              4       0",
        "      2  tool:HT12  teach   shaft:A         0          3              6       0",
        "   sums                                     2          6             10       0",
        "     1     1  2  0     2  permit(principal is person, action, resource is shaft)",
        "     2     3  3  3     6  forbid(principal, action in [\"teach\"], resource)",
        "In how many rows a policy is satisfied though another decides, for each request and in sum (counted",
        "     1     1  1  0     1  permit(principal is person, action, resource is shaft)",
    ] {
        assert!(said.out.lines().any(|said| said == line), "{}\n{}", line, said.out);
    }
    assert!(folder.says(&["tally", "@", "--lines"]).out.contains("request 2\noutcome 1 0\n"));
    // A sheet is of one of them, and has the tally of all beside it.
    let several = "question.txt has 2 requests: --request 1 to 2 takes one of them, ./desk tally";
    for words in
        [&["sheet", "@"][..], &["decide", "@"], &["explain", "@"], &["diff", "@policy.txt", "@policy.txt", "@"]]
    {
        let said = folder.says(words);
        assert!(said.status == 2 && all(&said).contains(several), "{}", all(&said));
        let said = folder.says(&[words, &["--request", "3"]].concat());
        assert!(
            said.status == 2 && all(&said).contains("there is no request 3: ") && all(&said).contains("has 2 requests")
        );
    }
    assert_eq!(folder.says(&["sheet", "@", "--request", "1"]).out, "rows 9\n3 1 1 1\n4 1 1 1\nallowed 2\n");
    assert_eq!(folder.says(&["sheet", "@", "--request", "2"]).out, "rows 9\nallowed 0\n");
    let table = folder.says(&["sheet", "@", "--request", "2", "--table"]).out;
    assert!(
        table.contains("\n    * 2  tool:HT12  teach") && table.contains("\n* the request of this sheet\n"),
        "{}",
        table
    );
    assert!(folder.says(&["explain", "@", "--request", "2", "--row", "2"]).out.contains("Forbidden by policy 2"));
    assert_eq!(folder.says(&["sheet", "@", "--request", "1", "--html", "@page.html"]).status, 0);
    let page = fs::read_to_string(folder.path("page.html")).unwrap();
    assert!(page.contains("<tr class=\"chosen\"><td class=\"number\">1</td><td>person:K7</td>"), "{}", page);
    assert!(page.contains("The rows of this sheet are those of request 1."));
}

// The refused request is named, with what is wrong and what to do.
#[test]
fn refusals_of_tallies_say_which_request() {
    let mend = "Mend it in ";
    for (requests, number, what) in [
        (
            "request\nrequest\nsubject = \"dog:1\"",
            21,
            "Request 2 of 2 is refused, and with it the whole tally. The subject is not as it must be",
        ),
        ("request\nrequest\nsubject = \"dog:1\"", 21, "Found: \"dog:1\", 5 bytes."),
        (
            "request\nsubject = \"system\"\nrequest\naction = \"\"\nrequest\nsubject = \"dog:1\"",
            22,
            "Request 2 of 3 is refused",
        ),
        ("request\nresource = \"shaft\"\nrequest", 23, "Request 1 of 2 is refused"),
    ] {
        let folder = with_requests(requests);
        let said = folder.says(&["tally", "@"]);
        let unwrapped = said.out.replace('\n', " ");
        assert!(said.status == 1 && unwrapped.starts_with(&format!("Refused, number {}. ", number)), "{}", said.out);
        assert!(unwrapped.contains(what) && unwrapped.contains(mend), "{}", said.out);
        let said = folder.says(&["tally", "@", "--lines"]);
        assert_eq!((said.out, said.status), (format!("refused {} 0 0 0\n", number), 1));
        assert!(said.warnings.last().unwrap().contains(what), "{:?}", said.warnings);
        assert_eq!(folder.says(&["tally", "@", "--html", "@page.html"]).status, 1);
        assert!(fs::read_to_string(folder.path("page.html"))
            .unwrap()
            .contains("is refused, and with it the whole tally."));
    }
    let nine = with_requests(&"request\n".repeat(9)).says(&["tally", "@"]);
    let words =
        "Refused, number 27. A tally takes one to eight requests, and here are 9: put 1 of them into another question.";
    assert!(nine.status == 1 && nine.out.replace('\n', " ").starts_with(words), "{}", nine.out);
    assert!(with_requests(&"request\n".repeat(8)).says(&["tally", "@"]).status == 0);
    let said = with_requests(&"request\n".repeat(300)).says(&["tally", "@", "--lines"]);
    assert_eq!((said.out.as_str(), said.status), ("refused 27 0 0 0\n", 1));
    // One request is refused as its sheet is, and rules with their place.
    let said =
        with_question(RULES, "subject = \"dog:1\"\naction = \"a\"\nresource = \"shaft:A\"").says(&["tally", "@"]);
    assert!(said.status == 1 && said.out.starts_with("Refused, number 21.\nThe subject is not as"), "{}", said.out);
    let said = with_question("permit", &[REQUEST, TWO].concat()).says(&["tally", "@"]);
    assert!(
        said.status == 1 && said.out.starts_with("Refused, number 10.\n") && said.out.ends_with("^\n"),
        "{}",
        said.out
    );
    let said = Folder::new(&[("policy.txt", RULES), ("b.txt", "bag\nsubject = \"system\"")]).says(&["tally", "@b.txt"]);
    assert!(said.status == 2 && all(&said).contains("is a bag and has no rows: ./desk decide"), "{}", all(&said));
    let said = Folder::new(&[("policy.txt", RULES), ("question.txt", COLUMNS)]).says(&["tally", "@"]);
    assert!(said.status == 2 && all(&said).contains("request.txt: say subject = \"..\""), "{}", all(&said));
}

// A doubt is said once, with the numbers of the requests that it is about; without, where it is about all but the system's.
#[test]
fn doubts_of_several_requests_name_them() {
    let said = with_requests("request\nrequest\nrequest\naction = \"teech\"").says(&["tally", "@", "--lines"]);
    let doubts = [
        "request 3: no policy names the action \"teech\": did you mean teach?",
        "request 2 is the same as request 1: the sums count its rows twice",
    ];
    assert_eq!(said.warnings, doubts);
    let question = "subject = \"system\"\nrequest\nrequest\naction = \"a\"";
    let said = with_question(RULES, question).says(&["tally", "@", "--lines"]);
    assert_eq!(said.warnings, ["the subject is system: the answer is yes without a look at the rules"]);
    assert!(doubts.iter().all(|doubt| documented(doubt)));
    let base = "principal.grade = 3\nprincipal.hired = \"own\"\nenv.extra = 1\n";
    let requests = "request\nrequest\naction = \"teech\"\nrequest\naction = \"teech\"\nresource = \"shaft:B\"\nrequest\nsubject = \"system\"";
    let said = with_question(RULES, &[REQUEST, base, requests].concat()).says(&["tally", "@", "--lines"]);
    let doubts = [
        "no policy asks for env.extra",
        "requests 2, 3: no policy names the action \"teech\": did you mean teach?",
        "request 4: the subject is system: the answer is yes without a look at the rules",
    ];
    assert_eq!(said.warnings, doubts);
}

#[test]
fn files_made_of_several_requests_must_be_what_the_text_says() {
    let folder = with_requests(TWO);
    let said = folder.says(&["write", "@"]);
    assert!(said.out.ends_with(&format!("wrote {}\n", folder.path("requests.bin"))), "{}", said.out);
    assert!(!Path::new(&folder.path("request.txt")).exists());
    let bytes = fs::read(folder.path("requests.bin")).unwrap();
    assert_eq!(bytes, b"\x02\x09person:K7\x05teach\x07shaft:A\x09tool:HT12\x05teach\x07shaft:A");
    assert_eq!(folder.says(&["tally", "@"]).status, 0);
    fs::write(folder.path("requests.bin"), &bytes[..1]).unwrap();
    let said = folder.says(&["tally", "@"]);
    assert!(said.status == 2 && all(&said).contains("requests.bin is not what"), "{}", all(&said));
    fs::write(folder.path("request.txt"), "person:K7\nteach\nshaft:A\n").unwrap();
    let said = folder.says(&["tally", "@"]);
    assert!(said.status == 2 && all(&said).contains("request.txt has one request, and"), "{}", all(&said));
    // With one request both files are made anew.
    fs::write(folder.path("question.txt"), [REQUEST, COLUMNS].concat()).unwrap();
    assert!(all(&folder.says(&["tally", "@"])).contains("requests.bin is not what"));
    assert_eq!(folder.says(&["write", "@"]).status, 0);
    assert_eq!(folder.says(&["tally", "@"]).status, 0);
}

#[test]
fn one_request_is_decided() {
    let bag = "bag\nsubject = \"person:K7\"\naction = \"teach\"\nresource = \"shaft:A\"\nprincipal.grade = 4\nprincipal.hired = ";
    for (hired, what) in [
        ("\"own\"", "Allowed by policy 1 in line 1: no forbid is satisfied, and it is the first permit that is.\n    permit(principal is person"),
        ("\"loan\"", "Forbidden by policy 2 in line 3: it is the first forbid that is satisfied.\n    forbid(principal, action"),
    ] {
        let text = [bag, hired].concat();
        let folder = Folder::new(&[("policy.txt", RULES), ("k7.txt", &text)]);
        let said = folder.says(&["decide", "@k7.txt"]);
        assert!(said.status == 0 && said.out.starts_with(what), "{}", said.out);
        assert_eq!(folder.says(&["decide", "@k7.txt", "--rules", "@policy.txt"]).out, said.out);
        assert!(folder.says(&["explain", "@k7.txt"]).out.contains(what.lines().next().unwrap()));
    }
    let said = worked().says(&["decide", "@"]);
    assert!(said.status == 2 && all(&said).contains("has 9 rows: ./desk sheet shows them all"), "{}", all(&said));
    let said = worked().says(&["explain", "@", "--row", "9"]);
    assert!(said.status == 2 && all(&said).contains("there is no row 9"), "{}", all(&said));
}

#[test]
fn a_bag_is_not_spoken_of_as_rows_and_a_disarmed_forbid_is_shown() {
    let bag = "bag\nsubject = \"person:K7\"\naction = \"teach\"\nresource = \"shaft:A\"\nprincipal.grade = ";
    let of = |grade: &str, words: &[&str]| {
        Folder::new(&[("policy.txt", RULES), ("k7.txt", &[bag, grade].concat())]).says(words)
    };
    let said = of("4", &["decide", "@k7.txt"]);
    assert!(
        said.out.ends_with("!! policy 2 in line 3 is disarmed: it could forbid if principal.hired were there\n"),
        "{}",
        said.out
    );
    assert!(of("4", &["explain", "@k7.txt"])
        .out
        .contains("!! disarmed: it could forbid if principal.hired were there"));
    assert_eq!(said.warnings, ["policy 2 asks for principal.hired, which is given nowhere: it is absent"]);
    let said = of("\"4\"\nprincipal.hired = \"own\"", &["decide", "@k7.txt"]);
    assert_eq!(said.out, "Not permitted: no policy is satisfied.\n");
    assert_eq!(
        said.warnings,
        ["policy 1 has principal.grade >= 3, but principal.grade is not a number: the comparison is false"]
    );
}

#[test]
fn tests_pass_or_fail() {
    let tests = |expect: &str| {
        format!("{}principal.grade = 3\ntest \"own\"\nprincipal.hired = \"own\"\nexpect {}\ntest \"system\"\nsubject = \"system\"\nexpect system\n", REQUEST, expect)
    };
    let folder =
        Folder::new(&[("policy.txt", RULES), ("good.txt", &tests("allowed by 1")), ("bad.txt", &tests("forbidden"))]);
    let said = folder.says(&["test", "@good.txt"]);
    assert_eq!(
        (said.out.as_str(), said.status),
        ("ok    own: allowed by policy 1\nok    system: system\n2 tests, 0 failed\n", 0)
    );
    let said = folder.says(&["test", "@good.txt", "@bad.txt"]);
    assert_eq!(said.status, 1);
    assert!(said.out.contains("line 5): expected forbidden, but it is allowed by policy 1\n"), "{}", said.out);
    assert!(said.out.ends_with("4 tests, 1 failed\n"));
    let broken = Folder::new(&[("policy.txt", "permit"), ("good.txt", &tests("allowed"))]);
    let said = broken.says(&["test", "@good.txt"]);
    assert!(said.status == 1 && said.out.starts_with("Refused, number 10."), "{}", said.out);
}

#[test]
fn two_rule_texts_are_compared() {
    let closed = RULES.replace("principal.hired != \"own\"", "!(principal.hired == \"own\")");
    let folder =
        Folder::new(&[("policy.txt", RULES), ("after.txt", &closed), ("question.txt", &[REQUEST, COLUMNS].concat())]);
    let said = folder.says(&["diff", "@policy.txt", "@after.txt", "@"]);
    assert_eq!(said.status, 0);
    assert!(said.out.contains("9 rows: 0 opened, 1 closed, 0 decided by another policy, 8 as before."), "{}", said.out);
    assert!(said.out.contains("  row 3  principal.grade = 3, principal.hired = absent\n      before: allowed by policy 1\n      after:  forbidden by policy 2\n"), "{}", said.out);
    let said = folder.says(&["diff", "@after.txt", "@policy.txt", "@question.txt"]);
    assert!(said.out.contains("1 opened, 0 closed"), "{}", said.out);
    // The same policies in another order are the same policies.
    let moved = ["forbid(principal is tool,action,resource);\n", RULES].concat();
    let folder =
        Folder::new(&[("policy.txt", RULES), ("after.txt", &moved), ("question.txt", &[REQUEST, COLUMNS].concat())]);
    let said = folder.says(&["diff", "@policy.txt", "@after.txt", "@"]);
    assert!(said.out.contains("0 opened, 0 closed, 0 decided by another policy, 9 as before."), "{}", said.out);
    let other = ["permit(principal,action,resource) when { principal.grade > 2 };\n", RULES].concat();
    let folder =
        Folder::new(&[("policy.txt", RULES), ("after.txt", &other), ("question.txt", &[REQUEST, COLUMNS].concat())]);
    let said = folder.says(&["diff", "@policy.txt", "@after.txt", "@"]);
    assert!(said.out.contains("0 closed, 2 decided by another policy"), "{}", said.out);
}

/// The worked example with the forbid that version 2 disarms, and a permit with a hole that it closes.
const TURNED: &str = "permit(principal is person, action, resource is shaft)\n  when { !(principal.grade < 3) };\n\
    forbid(principal, action in [\"teach\"], resource)\n  when { !(principal.hired == \"own\") };\n";

/// The folder of these rules and the worked example's question.
fn turned() -> Folder {
    with_question(TURNED, &[REQUEST, COLUMNS].concat())
}

// 02, request 7: every command that compiles does so under the version that is named, and says so where it is not version 1.
#[test]
fn answers_are_given_under_the_version() {
    let folder = turned();
    let said = folder.says(&["sheet", "@"]);
    assert_eq!((said.out.as_str(), said.warnings.len()), ("rows 9\n1 1 1 1\n4 1 1 1\nallowed 2\n", 0));
    assert_eq!(folder.says(&["sheet", "@", "--version", "1"]).out, said.out);
    let said = folder.says(&["sheet", "@", "--version", "2"]);
    assert_eq!(said.out, "rows 9\n3 1 1 1\n4 1 1 1\nallowed 2\n");
    assert_eq!(said.warnings, ["these lines are under version 2"]);
    let said = folder.says(&["tally", "@", "--lines", "--version", "2"]);
    assert!(
        said.out.ends_with("sums\noutcome 1 2\noutcome 2 3\noutcome 3 4\noutcome 4 0\npolicy 1 2\npolicy 2 3\n"),
        "{}",
        said.out
    );
    assert_eq!(said.warnings, ["these lines are under version 2"]);
    for words in [&["sheet", "@", "--table"][..], &["tally", "@"], &["explain", "@", "--row", "0"]] {
        let line = "\nUnder version 2 of the rules.\n";
        let (one, two) = (folder.says(words), folder.says(&[words, &["--version", "2"]].concat()));
        assert!(!one.out.contains("Under version 2"), "{}", one.out);
        assert!(format!("\n{}", two.out).contains(line), "{}", two.out);
    }
}

// So does every page, and a text without policies has no version.
#[test]
fn pages_say_their_version() {
    let folder = turned();
    for command in ["sheet", "tally"] {
        let page = |words: &[&str]| {
            assert_eq!(folder.says(&[&[command, "@", "--html", "@page.html"], words].concat()).status, 0);
            fs::read_to_string(folder.path("page.html")).unwrap()
        };
        assert!(!page(&[]).contains("<b>Under version"));
        let page = page(&["--version", "2"]);
        assert!(
            page.contains(" <b>Under version 2 of the rules.</b></p>")
                && page.contains(" under version 2 from these files")
        );
    }
    assert!(folder
        .says(&["check", "@", "--version", "2"])
        .out
        .ends_with("policy.txt under version 2: 2 policies, 1 permit and 1 forbid.\n"));
    fs::write(folder.path("policy.txt"), " \n").unwrap();
    assert!(folder
        .says(&["check", "@", "--version", "2"])
        .out
        .ends_with("policy.txt: 0 policies, 0 permits and 0 forbids.\n"));
    assert_eq!(folder.says(&["sheet", "@", "--version", "2"]).out, "rows 9\nallowed 0\n");
}

#[test]
fn one_request_is_decided_under_the_version() {
    let bag = ["bag\n", REQUEST, "principal.grade = 3\n"].concat();
    let folder = Folder::new(&[("policy.txt", TURNED), ("k7.txt", &bag)]);
    assert!(folder.says(&["decide", "@k7.txt"]).out.starts_with("Forbidden by policy 2 in line 3"));
    let said = folder.says(&["decide", "@k7.txt", "--version", "2"]);
    assert!(
        said.out.starts_with("Under version 2 of the rules.\nAllowed by policy 1 in line 1: no forbid is satisfied"),
        "{}",
        said.out
    );
    assert!(
        said.out.ends_with("!! policy 2 in line 3 is disarmed: it could forbid if principal.hired were there\n"),
        "{}",
        said.out
    );
    let said = folder.says(&["explain", "@k7.txt", "--version", "2"]).out;
    let line =
        "    principal.hired is absent, and it is met: under version 2 that makes the whole policy unsatisfied\n";
    assert!(said.starts_with("Under version 2 of the rules.\n\npolicy 1") && said.contains(line), "{}", said);
    let tests = [REQUEST, "principal.grade = 3\ntest \"nobody noted it\"\nexpect forbidden by 2\n"].concat();
    fs::write(folder.path("tests.txt"), tests).unwrap();
    assert!(folder.says(&["test", "@tests.txt"]).out.ends_with("\n1 test, 0 failed\n"));
    let said = folder.says(&["test", "@tests.txt", "--version", "2"]);
    assert_eq!(said.status, 1);
    assert!(said.out.ends_with("but it is allowed by policy 1\n1 test under version 2, 1 failed\n"), "{}", said.out);
    let said = with_question(RULES, &[REQUEST, "principal.grade = \"3\"\nprincipal.hired = \"own\""].concat());
    let never = "principal.grade is never a number in this question: the comparison is never true";
    assert!(all(&said.says(&["sheet", "@", "--version", "2"])).contains(never));
}

// 02, request 7: 30 before everything that is wrong with the text.
#[test]
fn a_version_that_is_none_is_refused() {
    let tests = [REQUEST, "test \"a\"\nexpect forbidden\n"].concat();
    let bag = ["bag\n", REQUEST].concat();
    for rules in [TURNED, "permit", ""] {
        let files = [
            ("policy.txt", rules),
            ("question.txt", &[REQUEST, COLUMNS].concat()),
            ("k7.txt", &bag),
            ("tests.txt", &tests),
        ];
        let folder = Folder::new(&files);
        for version in ["0", "3", "10", "257", "18446744073709551615"] {
            for words in [
                &["check", "@"][..],
                &["sheet", "@", "--table"],
                &["tally", "@"],
                &["decide", "@k7.txt"],
                &["explain", "@", "--row", "3"],
                &["test", "@tests.txt"],
                &["diff", "@policy.txt", "@policy.txt", "@"],
            ] {
                let said = folder.says(&[words, &["--version", version]].concat());
                let sentence = format!("Refused, number 30. There is no version {} of the rules: there are versions 1 and 2. Say --version 1,", version);
                assert_eq!(said.status, 1, "{:?}", words);
                assert!(said.out.replace('\n', " ").starts_with(&sentence), "{:?}\n{}", words, said.out);
            }
            let said = folder.says(&["sheet", "@", "--version", version]);
            assert_eq!((said.out.as_str(), said.status), ("refused 30 0 0 0\n", 1));
            assert!(said.warnings.last().unwrap().starts_with("refused: There is no version"), "{:?}", said.warnings);
            let said = folder.says(&["sheet", "@", "--version", version, "--html", "@page.html"]);
            assert_eq!(said.status, 1);
            assert!(fs::read_to_string(folder.path("page.html")).unwrap().contains("<h1>Refused, number 30</h1>"));
        }
    }
}

#[test]
fn refusals_of_a_version_are_held_to_the_version() {
    let words = ["diff", "@policy.txt", "@policy.txt", "@", "--versions", "1", "3"];
    assert!(turned().says(&words).out.starts_with("Refused, number 30.\nThere is no version 3"));
    // A program that refuses a version that there is, or another thing than a version that there is not, is wrong.
    for (wrong, version) in [("refused 30 0 0 0\n", "2"), ("refused 24 0 0 0\n", "3")] {
        let path = turned();
        let where_it_is = path.path("question.txt");
        let failed = run(&Wrong(wrong), &["sheet", &where_it_is, "--version", version]).unwrap_err();
        assert!(format!("{:?}", failed).contains("it is wrong, so nothing is shown"), "{:?}", failed);
    }
}

// What version 2 closes, takes away and opens stands in the table and on the page of version 1, and of version 2.
#[test]
fn the_sheet_tells_what_version_2_changes() {
    let folder = turned();
    let table = folder.says(&["sheet", "@", "--table", "--forbidden"]).out;
    for line in [
        "The same rules under version 2:",
        "    Version 2 closes this hole: row 1.",
        "!!! VERSION 2 OPENS 1 ROW that version 1 forbids: what is absent disarms a forbid.",
        "    row 3: policy 2 in line 3 forbids under version 1; under version 2 it meets principal.hired,",
        "    row  principal.grade  principal.hired  outcome  version 2  policy",
        "!!    1  ABSENT !!        \"own\"            allowed  no         1 permit(principal is person, actio..",
        "      4  3                \"own\"            allowed  yes        1 permit(principal is person, actio..",
        "version 2: whether the row is allowed under it.",
        "    in row 1 with principal.grade = 2.5; version 2 closes it",
        "      3  3               absent         forbidden      YES        2 forbid(principal, action..  1",
    ] {
        assert!(table.lines().any(|said| said == line), "{}\n{}", line, table);
    }
    assert_eq!(folder.says(&["sheet", "@", "--html", "@page.html", "--forbidden"]).status, 0);
    let page = fs::read_to_string(folder.path("page.html")).unwrap();
    for part in [
        "<h2>The same rules under version 2</h2>\n<p>Version 2 closes this hole: row 1.</p>\n<div class=\"opened\"><p><b>!!! VERSION 2 OPENS 1 ROW",
        "<th class=\"short\">version 2</th>",
        "<td class=\"short\">no</td>",
        "<td class=\"short opened\">YES</td>",
        "<p>version 2: whether the row is allowed under it.</p>",
    ] {
        assert!(page.contains(part), "{}\n{}", part, page);
    }
    let table = folder.says(&["sheet", "@", "--table", "--version", "2"]).out;
    for line in [
        "Version 2 beside version 1:",
        "    Version 2 closes the hole of version 1: row 1.",
        "version 1: whether the row is allowed under it.",
    ] {
        assert!(table.lines().any(|said| said == line), "{}\n{}", line, table);
    }
    assert!(table.contains("ABSENT !!        allowed  NO   "), "{}", table);
}

// The rows that the version alone changes, and in each what is met; the policies of the one text are shown once.
#[test]
fn one_text_is_compared_under_two_versions() {
    let folder = turned();
    let diff = |versions: &[&str]| folder.says(&[&["diff", "@policy.txt", "@policy.txt", "@"], versions].concat()).out;
    let name = folder.path("policy.txt");
    let said = diff(&["--versions", "1", "2"]);
    assert!(
        said.starts_with(&format!(
            "{} under version 1 before, {} under version 2 after.\n9 rows: 1 opened, 1 closed,",
            name, name
        )),
        "{}",
        said
    );
    for rows in [
        "  row 3  principal.grade = 3, principal.hired = absent\n      before: forbidden by policy 2\n      after:  allowed by policy 1\n      \
         under version 2 policy 2 meets principal.hired, which is absent, and is unsatisfied\n",
        "  row 1  principal.grade = absent, principal.hired = \"own\"\n      before: allowed by policy 1\n      after:  not permitted\n      \
         under version 2 policy 1 meets principal.grade, which is absent, and is unsatisfied\n",
    ] {
        assert!(said.contains(rows), "{}", said);
    }
    assert_eq!(said.matches("policy.txt, policy 1 in line 1:").count(), 1, "{}", said);
    let back = diff(&["--versions", "2", "1"]);
    assert!(
        back.contains("1 opened, 1 closed")
            && back.contains("      after:  forbidden by policy 2\n      under version 2 policy 2 meets"),
        "{}",
        back
    );
    assert!(diff(&["--version", "2"]).contains(&format!(
        "{} under version 2 before, {} under version 2 after.\n9 rows: 0 opened, 0 closed",
        name, name
    )));
    assert!(diff(&[]).starts_with(&format!("{} before, {} after.\n9 rows: 0 opened, 0 closed", name, name)));
}

// A permit that version 2 takes away may leave the row to another. Of two texts nothing is said of what is met.
#[test]
fn the_version_may_leave_a_row_to_another_policy() {
    let folder = turned();
    let diff = |versions: &[&str]| folder.says(&[&["diff", "@policy.txt", "@policy.txt", "@"], versions].concat()).out;
    let second = [
        TURNED,
        "permit(principal, action, resource) when { !(principal has grade) && principal.hired == \"own\" };\n",
    ]
    .concat();
    fs::write(folder.path("policy.txt"), second).unwrap();
    let said = diff(&["--versions", "1", "2"]);
    assert!(said.contains("1 opened, 0 closed, 1 decided by another policy, 7 as before."), "{}", said);
    assert!(
        said.contains("      after:  allowed by policy 3\n      under version 2 policy 1 meets principal.grade"),
        "{}",
        said
    );
    fs::write(folder.path("after.txt"), TURNED).unwrap();
    assert!(!folder.says(&["diff", "@policy.txt", "@after.txt", "@", "--versions", "1", "2"]).out.contains("meets"));
}

// docs/QUESTIONS.md shows what is said of examples/versions.
#[test]
fn the_examples_of_versions_are_documented() {
    let path = Path::new(env!("CARGO_MANIFEST_DIR")).join("../../examples/versions");
    let (folder, rules) = (path.to_string_lossy().into_owned(), path.join("policy.txt").to_string_lossy().into_owned());
    let says = |words: &[&str]| run(&StandIn, words).unwrap().out;
    let part = |said: String, first: &str, lines: usize| -> String {
        let shown = said.lines().skip_while(|line| !line.starts_with(first)).take(lines);
        shown.map(|line| format!("    {}\n", line)).collect()
    };
    for shown in [
        part(says(&["sheet", &folder, "--table"]), "The same rules", 7),
        part(says(&["explain", &folder, "--row", "9", "--version", "2"]), "policy 2", 7),
        part(says(&["check", &rules, "--version", "3"]), "Refused", 4),
        part(says(&["diff", &rules, &rules, &folder, "--versions", "1", "2"]), "  row 9", 4),
    ] {
        assert!(shown.lines().count() > 3 && documented(&shown), "{}", shown);
    }
    for (tests, version) in [("7 tests, 0 failed\n", "1"), ("7 tests under version 2, 0 failed\n", "2")] {
        let words = ["tests.txt", "both.txt"].map(|name| path.join(name).to_string_lossy().into_owned());
        assert!(says(&["test", &words[0], "--rules", &words[1], "--version", version]).ends_with(tests));
    }
}

// The examples say what their pages say.
#[test]
fn the_examples_have_no_stale_files() {
    let examples = Path::new(env!("CARGO_MANIFEST_DIR")).join("../../examples");
    for name in ["worked", "crew", "crew/night", "crew/records", "south", "versions"] {
        let path = examples.join(name).to_string_lossy().into_owned();
        let said = run(&StandIn, &["sheet", &path]).unwrap_or_else(|failure| failed(&[], failure));
        assert_eq!(said.status, 0, "{}", all(&said));
    }
}

const WORDS: &str = "word firm = principal.firm, equality\nword grade = principal.grade, number\n\
    actions = \"teach\"\nresource = \"shaft:A\"\n";

// Locks: permits that compile, or the reasons, and no permit where one is refused.
#[test]
fn locks_are_permits() {
    let folder = Folder::new(&[
        ("lock.txt", &format!("{}lock = firm:own\nlock = grade>=3\n", WORDS)),
        ("bad.txt", &format!("{}lock = firm:own\nlock = grade:3\nlock = level>3\n", WORDS)),
        ("none.txt", WORDS),
    ]);
    let said = folder.says(&["lock", "@"]);
    assert_eq!(said.status, 0);
    let head = "permit(principal, action in [\"teach\"], resource == \"shaft:A\") when { principal.";
    assert_eq!(said.out, format!("{}firm == \"own\" }};\n{}grade >= 3 }};\n", head, head));
    fs::write(folder.path("policy.txt"), said.out).unwrap();
    assert!(folder.says(&["check", "@"]).out.contains("2 policies, 2 permits and 0 forbids"));
    let said = folder.says(&["lock", "@bad.txt"]);
    assert_eq!(said.status, 1);
    assert!(!said.out.contains("permit("));
    for words in
        ["Refused, number 28.", "bad.txt, line 6, column 13:", "    lock = grade:3\n                ^", "no word level"]
    {
        assert!(said.out.contains(words), "{}: {}", words, said.out);
    }
    let said = folder.says(&["lock", "@lock.txt", "--room", "10"]);
    assert_eq!(said.status, 1);
    assert!(said.out.starts_with("Refused, number 29.\nThe permit has 95 bytes, and its room 10."), "{}", said.out);
    assert_eq!(folder.says(&["lock", "@lock.txt", "--room", "95"]).status, 0);
    assert_eq!(folder.says(&["lock", "@none.txt"]).status, 2);
    assert!(folder.says(&["lock", "@", "--room", "x"]).warnings[0].contains("--room needs a number of bytes"));
}

#[test]
fn the_example_of_locks_is_as_stored() {
    let folder = Path::new(env!("CARGO_MANIFEST_DIR")).join("../../examples/lock");
    let said = run(&StandIn, &["lock", &folder.to_string_lossy()]).unwrap();
    assert_eq!(said.out, fs::read_to_string(folder.join("permits.txt")).unwrap());
    for permit in said.out.lines() {
        assert!(include_str!("../../../docs/LOCKS.md").contains(permit), "{}", permit);
    }
    let tests = folder.join("tests.txt");
    let rules = folder.join("permits.txt");
    let words = ["test", &tests.to_string_lossy(), "--rules", &rules.to_string_lossy()];
    let said = run(&StandIn, &words).unwrap();
    assert!(said.status == 0 && said.out.contains(", 0 failed"), "{}", said.out);
}
