//! Folders for the sheet program: `policy.txt`, `question.bin` and `request.txt`, some of them missing, and what it has to
//! print (01, "Checked examples").

use std::fs;
use std::io;
use std::path::Path;

use definitions::plans::{number_value, string_value, Column, Entry, Plan};
use definitions::sheets::printed;
use generators::examples::{example_question, question_of_rows, EXAMPLE, REFUSED_TEXTS};
use generators::marks::{rules_satisfied, rules_with_marks_of_their_own, PLACES};
use generators::random::Random;
use generators::requests;
use generators::rich_bags::{bag_of_length, rich_bag};

/// The request of 01's example.
const REQUEST: &str = "person:K7\nteach\nshaft:A\n";
const ALL: &str = "permit(principal,action,resource);";

/// The bytes of the sheets that are lent here; the program under test may choose its own.
const PAGE_BYTES: usize = 6_000;

/// A folder: its name and its files, of which each may be missing.
struct Folder {
    name: String,
    policy: Option<Vec<u8>>,
    question: Option<Vec<u8>>,
    request: Option<Vec<u8>>,
}

impl Folder {
    /// A folder that has all files.
    fn new(name: &str, policy: &[u8], question: &[u8], request: &[u8]) -> Folder {
        Folder {
            name: name.to_string(),
            policy: Some(policy.to_vec()),
            question: Some(question.to_vec()),
            request: Some(request.to_vec()),
        }
    }

    /// What the sheet program has to print there.
    fn expected(&self) -> String {
        let bytes = |file: &Option<Vec<u8>>| file.clone().unwrap_or_default();
        printed(&bytes(&self.policy), &bytes(&self.question), &bytes(&self.request), PAGE_BYTES, 1)
    }

    fn write(&self, directory: &Path) -> io::Result<()> {
        let own = directory.join(&self.name);
        fs::create_dir_all(&own)?;
        for (name, file) in
            [("policy.txt", &self.policy), ("question.bin", &self.question), ("request.txt", &self.request)]
        {
            if let Some(bytes) = file {
                fs::write(own.join(name), bytes)?;
            }
        }
        fs::write(own.join("expect"), self.expected())
    }
}

/// Write all folders below the directory.
pub fn write_all(directory: &Path) -> io::Result<()> {
    for folder in all() {
        folder.write(directory)?;
    }
    Ok(())
}

fn all() -> Vec<Folder> {
    let mut folders = Vec::new();
    add_missing(&mut folders);
    add_texts(&mut folders);
    add_questions(&mut folders);
    add_requests(&mut folders);
    add_rows(&mut folders);
    add_marks(&mut folders);
    folders
}

/// 01's example, and files that are missing or empty.
fn add_missing(folders: &mut Vec<Folder>) {
    let example = || Folder::new("example", EXAMPLE.as_bytes(), &example_question(), REQUEST.as_bytes());
    let named = |name: &str| Folder { name: name.to_string(), ..example() };
    folders.push(example());
    folders.push(Folder { policy: None, question: None, request: None, ..named("nothing") });
    folders.push(Folder { policy: None, ..named("policy-missing") });
    folders.push(Folder { question: None, ..named("question-missing") });
    folders.push(Folder { request: None, ..named("request-missing") });
    folders.push(Folder { policy: Some(Vec::new()), ..named("policy-empty") });
    folders.push(Folder { question: Some(Vec::new()), ..named("question-empty") });
    folders.push(Folder { request: Some(Vec::new()), ..named("request-empty") });
    folders.push(Folder { policy: Some(b":".to_vec()), question: None, request: None, ..named("all-wrong") });
    let system = Some(b"system".to_vec());
    folders.push(Folder { request: system.clone(), ..named("system") });
    folders.push(Folder { policy: Some(b"\n :".to_vec()), request: system.clone(), ..named("system-policy-wrong") });
    folders.push(Folder { question: None, request: system, ..named("system-question-missing") });
}

/// Texts that get each refusal of compiling, and texts at the limit.
fn add_texts(folders: &mut Vec<Folder>) {
    let mut add = |name: &str, policy: &[u8]| {
        folders.push(Folder::new(name, policy, &example_question(), REQUEST.as_bytes()));
    };
    for (index, text) in REFUSED_TEXTS.iter().enumerate() {
        add(&format!("text-refused-{:02}", index), text.as_bytes());
    }
    add("text-refused-later", [EXAMPLE, "\n\n  permit(principal,,"].concat().as_bytes());
    add("policies-64", ALL.repeat(64).as_bytes());
    add("policies-65", ALL.repeat(65).as_bytes());
    for length in [8_191, 8_192, 8_193, 8_194, 70_000] {
        add(&format!("text-{}", length), &[ALL.as_bytes(), &vec![b' '; length - ALL.len()]].concat());
    }
    add("text-8193-wrong", &[b':'; 8_193]);
    let members = vec!["1<2"; 1_629].join("&&");
    add("text-chain", format!("permit(principal,action,resource)when{{{}}};", members).as_bytes());
    add("text-crlf", EXAMPLE.replace('\n', "\r\n").as_bytes());
    add("text-not-utf8", b"permit(principal,action in[\"S\xC3\xBCd\",\"S\xFCd\"],resource);");
    add("text-columns", "permit(principal,action in[\"Süd\",\"€\"],resource)when{\"ü\":".as_bytes());
    add("text-columns-not-utf8", b"permit(principal,action,resource==\"\xC3\xBC\x01\xFF\");");
    add("text-like", [EXAMPLE, "forbid(principal,action,resource)when{\"Süd\"like\"S?d\"};"].concat().as_bytes());
}

/// Questions at the limit and others that are none.
fn add_questions(folders: &mut Vec<Folder>) {
    let mut add = |name: &str, question: &[u8]| {
        folders.push(Folder::new(name, EXAMPLE.as_bytes(), question, REQUEST.as_bytes()));
    };
    add("question-4", &[0, 0, 0, 0]);
    add("question-bag", &rich_bag().bytes());
    add("question-cut", &example_question()[..20]);
    add("question-more", &[&example_question()[..], &[0]].concat());
    for length in [4_096, 4_097] {
        let column = [1, 1, 5, b'g', b'r', b'a', b'd', b'e', 2, 0, 3, 1];
        add(&format!("question-{}", length), &[&bag_of_length(length - column.len())[..], &column].concat());
    }
    add("question-70000", &vec![0; 70_000]);
}

/// Requests at their sizes, with missing lines and with more than three.
fn add_requests(folders: &mut Vec<Folder>) {
    let question = example_question();
    let mut add = |name: &str, request: &[u8]| {
        folders.push(Folder::new(name, [EXAMPLE, ALL].concat().as_bytes(), &question, request));
    };
    let long = |start: &str, length: usize| [start, &"x".repeat(length - start.len())].concat();
    for length in [100, 101, 400] {
        add(&format!("subject-{}", length), [&long("person:", length), "\nteach\nshaft:A\n"].concat().as_bytes());
        add(&format!("action-{}", length), ["person:K7\n", &long("", length), "\nshaft:A"].concat().as_bytes());
        add(&format!("resource-{}", length), ["tool:1\nread\n", &long("shaft:", length), "\n"].concat().as_bytes());
    }
    add("lines-one", b"person:K7");
    add("lines-two", b"person:K7\nteach\n");
    add("lines-without-end", b"person:K7\nteach\nshaft:A");
    add("lines-more", b"person:K7\nteach\nshaft:A\nmore\n\n");
    add("lines-much-more", [REQUEST, &"x".repeat(70_000)].concat().as_bytes());
    add("lines-empty", b"\n\n\n");
    add("lines-crlf", b"person:K7\r\nteach\r\nshaft:A\r\n");
    add("lines-system-crlf", b"system\r\n");
    add("lines-system-and-long-ones", ["system\n", &"x".repeat(70_000), "\n", &"y".repeat(70_000)].concat().as_bytes());
    add("lines-long-subject", ["person:", &"x".repeat(70_000), "\n\n\n"].concat().as_bytes());
    add("lines-long-action", ["person:1\n", &"x".repeat(70_000), "\n"].concat().as_bytes());
    add("lines-bytes", b"person:\0\xff:\ntea\0ch\nshaft:\xfe ");
}

/// Sheets of many rows and of many listed rows; more than 32 entries in a section; 0 and -0; random ones.
fn add_rows(folders: &mut Vec<Folder>) {
    let some = "permit(principal,action,resource)when{env.c0==3&&env.c1==4&&env.c2==true&&env.c3==false};forbid(principal,action,\
        resource)when{env has c5};";
    let request = REQUEST.as_bytes();
    folders.push(Folder::new("rows-262144", some.as_bytes(), &question_of_rows(&[8; 6]), request));
    folders.push(Folder::new("rows-32768-system", b"", &question_of_rows(&[8; 5]), b"system\n"));
    folders.push(Folder::new("rows-4096", ALL.as_bytes(), &question_of_rows(&[8; 4]), request));
    folders.push(Folder::new("rows-none-listed", b"", &question_of_rows(&[3, 3]), request));
    folders.push(Folder::new("rows-one", ALL.as_bytes(), &[0, 0, 0, 0], request));
    let entries = (0..32).map(|index| Entry { path: format!("p{:02}", index).into_bytes(), value: vec![3, 1] });
    let column = |path: &str, candidates: Vec<Vec<u8>>| Column { root: 1, path: path.as_bytes().to_vec(), candidates };
    let columns = vec![
        column("q", vec![vec![0], vec![3, 1]]),
        column("z", vec![number_value(0), number_value(0x8000_0000_0000_0000), string_value(b"0")]),
    ];
    let plan = Plan { sections: [entries.collect(), Vec::new(), Vec::new()], columns: Some(columns) };
    let text = "permit(principal,action,resource)when{principal.p31==true&&principal.q==true&&principal.z==-0.0};";
    folders.push(Folder::new("entries-34", text.as_bytes(), &plan.bytes(), request));
    let mut random = Random::new(121);
    for index in 0..8 {
        let wish = requests::wish(&mut random);
        let text = requests::text(&mut random, &wish);
        let question = requests::question(&mut random, 500).bytes();
        let request = [wish.subject, wish.action, wish.resource].join("\n");
        folders.push(Folder::new(&format!("random-{}", index), &text, &question, request.as_bytes()));
    }
}

/// 02, request 6: rows with marks of their own, with the first bit and the last, with all; a forbid before and after the permits.
fn add_marks(folders: &mut Vec<Folder>) {
    let mut add = |name: &str, policy: String, counts: &[u8]| {
        folders.push(Folder::new(name, policy.as_bytes(), &question_of_rows(counts), REQUEST.as_bytes()));
    };
    let ends = |number: usize| number == 1 || number == PLACES;
    add("marks-of-rows", rules_with_marks_of_their_own(0), &[2; 6]);
    add("marks-forbid-33", rules_with_marks_of_their_own(33), &[2; 6]);
    add("marks-ends", rules_satisfied(|_| "permit", ends), &[2]);
    add("marks-all", rules_satisfied(|_| "permit", |_| true), &[3]);
    add("marks-forbid-1", rules_satisfied(|number| if number == 1 { "forbid" } else { "permit" }, ends), &[2]);
    add("marks-forbid-64", rules_satisfied(|number| if number == PLACES { "forbid" } else { "permit" }, ends), &[2]);
}

#[cfg(test)]
mod tests {
    use super::*;

    fn expected(name: &str) -> String {
        all().iter().find(|folder| folder.name == name).unwrap().expected()
    }

    #[test]
    fn names_are_different() {
        let mut names: Vec<String> = all().into_iter().map(|folder| folder.name).collect();
        let count = names.len();
        names.sort();
        names.dedup();
        assert_eq!(names.len(), count);
        assert!(count >= 60);
    }

    // Worked by hand out of 01.
    #[test]
    fn the_output_is_as_said() {
        for (name, output) in [
            ("example", "rows 9\n3 1 1 1\n4 1 1 1\nallowed 2\n"),
            ("nothing", "refused 24 0 0 0\n"),
            ("policy-missing", "rows 9\nallowed 0\n"),
            ("question-missing", "refused 24 0 0 0\n"),
            ("request-missing", "refused 21 0 0 0\n"),
            ("all-wrong", "refused 4 1 1 1\n"),
            ("system-policy-wrong", "refused 4 2 2 1\n"),
            ("text-refused-later", "refused 10 7 20 1\n"),
            (
                "text-8192",
                "rows 9\n0 1 1 1\n1 1 1 1\n2 1 1 1\n3 1 1 1\n4 1 1 1\n5 1 1 1\n6 1 1 1\n7 1 1 1\n8 1 1 1\nallowed 9\n",
            ),
            ("text-8193", "refused 1 0 0 0\n"),
            ("policies-65", "refused 15 1 2177 6\n"),
            ("question-4096", "rows 2\nallowed 0\n"),
            ("question-4097", "refused 24 0 0 0\n"),
            ("subject-101", "refused 21 0 0 0\n"),
            ("action-101", "refused 22 0 0 0\n"),
            ("resource-101", "refused 23 0 0 0\n"),
            ("lines-one", "refused 22 0 0 0\n"),
            ("lines-two", "refused 23 0 0 0\n"),
            ("lines-empty", "refused 21 0 0 0\n"),
            ("entries-34", "rows 6\n3 1 1 1\n4 1 1 1\nallowed 2\n"),
            ("rows-one", "rows 1\n0 1 1 1\nallowed 1\n"),
            ("marks-ends", "rows 2\n0 1 1 9223372036854775809\n1 1 1 9223372036854775809\nallowed 2\n"),
            (
                "marks-all",
                "rows 3\n0 1 1 18446744073709551615\n1 1 1 18446744073709551615\n2 1 1 18446744073709551615\nallowed 3\n",
            ),
            ("marks-forbid-1", "rows 2\nallowed 0\n"),
            ("marks-forbid-64", "rows 2\nallowed 0\n"),
        ] {
            assert_eq!(expected(name), output, "{}", name);
        }
        let rows: Vec<usize> =
            (0..64).filter(|rest| rest % 8 == 0).map(|rest| (((3 * 8 + 4) * 8 + 2) * 8 + 1) * 64 + rest).collect();
        let listed: Vec<String> = rows.iter().map(|row| format!("{} 1 1 1\n", row)).collect();
        assert_eq!(expected("rows-262144"), format!("rows 262144\n{}allowed 8\n", listed.concat()));
        let system = expected("rows-32768-system");
        assert_eq!(system.lines().count(), 32_770);
        assert!(system.contains("\n32767 4 0 0\nallowed 32768\n"));
        // Rows 32 to 63 are forbidden by policy 33; in row 3 policies 1 to 4 are satisfied.
        assert!(expected("marks-forbid-33").starts_with("rows 64\n0 1 1 1\n1 1 1 3\n2 1 1 5\n3 1 1 15\n4 1 1 17\n"));
        assert!(expected("marks-forbid-33").ends_with("\n31 1 1 4294967295\nallowed 32\n"));
        assert!(expected("marks-of-rows").ends_with("\n63 1 1 18446744073709551615\nallowed 64\n"));
    }

    // Every refusal that the program can print.
    #[test]
    fn every_refusal_is_there() {
        let outputs: Vec<String> = all().iter().map(Folder::expected).collect();
        for number in [1, 3, 4, 5, 6, 7, 8, 9, 10, 11, 12, 13, 14, 15, 16, 21, 22, 23, 24] {
            let start = format!("refused {} ", number);
            assert!(outputs.iter().any(|output| output.starts_with(&start)), "{}", number);
        }
    }
}
