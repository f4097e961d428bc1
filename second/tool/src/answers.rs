//! The proved programs' answers: every yes, no and refusal that is shown comes from here.

use std::env;
use std::fs;
use std::path::PathBuf;
use std::process::{self, Command, Stdio};
use std::sync::atomic::{AtomicUsize, Ordering};

use definitions::asking::{self, Case};
use definitions::locks::{self, Lent};

use crate::command::{not_asked, Done};

/// Who answers: the proved programs, or in tests a stand-in. The first number is the version of the rules, whether there is one of it or not.
pub trait Answers {
    /// What the sheet program prints for these three files; under another version than 1 what `ask sheet` prints.
    fn sheet(&self, version: u64, text: &[u8], question: &[u8], request: &[u8]) -> Done<String>;
    /// What `ask check` prints.
    fn check(&self, version: u64, text: &[u8]) -> Done<String>;
    /// What `ask decide` prints for these cases.
    fn decide(&self, version: u64, text: &[u8], cases: &[Case]) -> Done<String>;
    /// What `ask tally` prints for these three files.
    fn tally(&self, version: u64, text: &[u8], question: &[u8], requests: &[u8]) -> Done<String>;
    /// What `caretaker` prints for what is lent, with a room of so many bytes.
    fn lock(&self, lent: Lent, room: usize) -> Done<Vec<u8>>;
}

/// The variable that names the program which runs the proved programs: `./desk` sets it.
const RUNNER: &str = "DESK_PROVED";

/// The variable that names a folder for one command: `./desk` makes and removes it.
const WORK: &str = "DESK_WORK";

/// The proved programs, each run in a folder of its own that has only its files.
pub struct Programs;

impl Programs {
    fn run(&self, words: &[&str], files: &[(&str, &[u8])]) -> Done<String> {
        Ok(String::from_utf8_lossy(&self.run_for_bytes(words, files)?).into_owned())
    }

    /// What `ask` prints for this word under a version: without a second word it is version 1.
    fn ask(&self, word: &str, version: u64, files: &[(&str, &[u8])]) -> Done<String> {
        match version {
            1 => self.run(&["ask", word], files),
            _ => self.run(&["ask", word, &version.to_string()], files),
        }
    }

    fn run_for_bytes(&self, words: &[&str], files: &[(&str, &[u8])]) -> Done<Vec<u8>> {
        let runner = match env::var_os(RUNNER) {
            Some(runner) => runner,
            None => {
                return not_asked(
                    "no answer could be had: this program is started by ./desk, which knows the proved programs",
                )
            }
        };
        let folder = Folder::new()?;
        for (name, bytes) in files {
            let path = folder.0.join(name);
            if let Err(error) = fs::write(&path, bytes) {
                return not_asked(format!("{} cannot be written: {}", path.display(), error));
            }
        }
        let run = Command::new(&runner)
            .args(words)
            .current_dir(&folder.0)
            .stdin(Stdio::null())
            .stderr(Stdio::inherit())
            .output();
        match run {
            Err(error) => not_asked(format!("{} cannot be run: {}", runner.to_string_lossy(), error)),
            Ok(output) if output.stdout.is_empty() && !output.status.success() => {
                not_asked(format!("the proved program {} gave no answer", words[0]))
            }
            Ok(output) => Ok(output.stdout),
        }
    }
}

impl Answers for Programs {
    fn sheet(&self, version: u64, text: &[u8], question: &[u8], request: &[u8]) -> Done<String> {
        let files = [("policy.txt", text), ("question.bin", question), ("request.txt", request)];
        match version {
            1 => self.run(&["sheet"], &files),
            _ => self.ask("sheet", version, &files),
        }
    }

    fn check(&self, version: u64, text: &[u8]) -> Done<String> {
        self.ask("check", version, &[("policy.txt", text)])
    }

    fn decide(&self, version: u64, text: &[u8], cases: &[Case]) -> Done<String> {
        let bytes: Vec<u8> = cases.iter().flat_map(Case::bytes).collect();
        self.ask("decide", version, &[("policy.txt", text), ("cases.bin", &bytes)])
    }

    fn tally(&self, version: u64, text: &[u8], question: &[u8], requests: &[u8]) -> Done<String> {
        let files = [("policy.txt", text), ("question.bin", question), ("requests.bin", requests)];
        self.ask("tally", version, &files)
    }

    fn lock(&self, lent: Lent, room: usize) -> Done<Vec<u8>> {
        let files = [
            ("vocabulary.bin", lent.vocabulary),
            ("lock.txt", lent.lock),
            ("actions.bin", lent.actions),
            ("resource.txt", lent.resource),
            ("room.bin", &vec![0; room]),
        ];
        self.run_for_bytes(&["caretaker"], &files)
    }
}

/// A folder for one run, which is removed with its files.
struct Folder(PathBuf);

impl Folder {
    fn new() -> Done<Folder> {
        static NEXT: AtomicUsize = AtomicUsize::new(0);
        let name = format!("desk-{}-{}", process::id(), NEXT.fetch_add(1, Ordering::Relaxed));
        let path = env::var_os(WORK).map_or_else(env::temp_dir, PathBuf::from).join(name);
        match fs::create_dir(&path) {
            Ok(()) => Ok(Folder(path)),
            Err(error) => not_asked(format!("{} cannot be made: {}", path.display(), error)),
        }
    }
}

impl Drop for Folder {
    fn drop(&mut self) {
        let _ = fs::remove_dir_all(&self.0);
    }
}

/// A refusal: its number, its line and column, which are 0 where it has no place, and how many bytes the refused token has.
#[derive(Clone, Copy, PartialEq, Eq, Debug)]
pub struct Refused {
    pub number: usize,
    pub line: usize,
    pub column: usize,
    pub length: usize,
}

/// What is decided of a case.
#[derive(Clone, Copy, PartialEq, Eq, Debug)]
pub enum Answer {
    Decided { outcome: usize, policy: usize, mark: u64 },
    Refused(Refused),
}

/// A line of numbers after a word.
pub fn numbers<const N: usize>(line: &str, word: &str) -> Option<[usize; N]> {
    let rest = line.strip_prefix(word)?.strip_prefix(' ')?;
    let numbers: Option<Vec<usize>> = rest.split(' ').map(|number| number.parse().ok()).collect();
    numbers?.try_into().ok()
}

/// A line that ends in a mark: what stands before it, and the mark.
pub fn before_mark(line: &str) -> Option<(&str, u64)> {
    let (before, mark) = line.rsplit_once(' ')?;
    Some((before, mark.parse().ok()?))
}

/// The refusal that a line says.
pub fn read_refused(line: &str) -> Option<Refused> {
    numbers(line, "refused").map(|[number, line, column, length]| Refused { number, line, column, length })
}

fn read_answer(line: &str) -> Option<Answer> {
    let (before, mark) = before_mark(line)?;
    let decided = numbers(before, "decided").map(|[outcome, policy]| Answer::Decided { outcome, policy, mark });
    decided.or_else(|| read_refused(line).map(Answer::Refused))
}

/// The answers must be those that the explaining program expects: what is shown beside them is its own.
fn hold(printed: &str, own: &str) -> Done<()> {
    if printed == own {
        return Ok(());
    }
    let first = printed.lines().zip(own.lines()).find(|(proved, own)| proved != own);
    let (proved, own) = first.unwrap_or((printed.trim_end(), own.trim_end()));
    not_asked(format!(
        "the proved program answers '{}', and what explains it '{}': one of them is wrong, so nothing is shown",
        proved, own
    ))
}

/// How many policies a text has, or its refusal.
pub fn check(desk: &dyn Answers, version: u64, text: &[u8]) -> Done<Result<usize, Refused>> {
    let printed = desk.check(version, text)?;
    hold(&printed, &asking::printed_check(text, version))?;
    let line = printed.trim_end();
    match (numbers(line, "compiled").map(|[policies, _]| policies), read_refused(line)) {
        (Some(policies), _) => Ok(Ok(policies)),
        (None, Some(refused)) => Ok(Err(refused)),
        _ => not_asked(format!("ask check printed '{}', which is no answer", line)),
    }
}

/// The most cases that are asked at once, and their most bytes: as many as `ask` reads.
const MOST_CASES: usize = 2_000;
const MOST_BYTES: usize = 131_072;

/// The numbers of the refusals that are of a case, and not of the text or its version.
const OF_CASES: std::ops::RangeInclusive<usize> = 20..=24;

/// What is decided of each case, or the text's refusal.
pub fn decide(desk: &dyn Answers, version: u64, text: &[u8], cases: &[Case]) -> Done<Result<Vec<Answer>, Refused>> {
    let mut answers = Vec::new();
    let mut rest = cases;
    while !rest.is_empty() {
        let mut bytes = 0;
        let fits = rest.iter().take(MOST_CASES).take_while(|case| {
            bytes += case.bytes().len();
            bytes <= MOST_BYTES
        });
        let (now, later) = rest.split_at(fits.count().max(1));
        let printed = desk.decide(version, text, now)?;
        hold(&printed, &asking::printed_decide(text, now, version))?;
        if let Some(refused) = read_refused(printed.trim_end()).filter(|refused| !OF_CASES.contains(&refused.number)) {
            return Ok(Err(refused));
        }
        let read: Option<Vec<Answer>> = printed.lines().map(read_answer).collect();
        match read {
            Some(read) if read.len() == now.len() => answers.extend(read),
            _ => return not_asked(format!("ask decide printed '{}', which is no answer", printed.trim_end())),
        }
        rest = later;
    }
    Ok(Ok(answers))
}

/// A lock's permit, or its refusal.
pub fn lock(desk: &dyn Answers, lent: Lent, room: usize) -> Done<Result<String, Refused>> {
    let printed = desk.lock(lent, room)?;
    let [proved, own] = [&printed, &locks::printed(lent, room)].map(|said| String::from_utf8_lossy(said).into_owned());
    hold(&proved, &own)?;
    let line = match String::from_utf8(printed) {
        Ok(line) => line.trim_end_matches('\n').to_string(),
        Err(_) => return not_asked("the permit has bytes that are no UTF-8: it cannot be printed as text"),
    };
    Ok(match read_refused(&line) {
        Some(refused) => Err(refused),
        None => Ok(line),
    })
}

#[cfg(test)]
pub mod tests {
    use super::*;
    use definitions::sheets::printed;

    /// Answers as the proved programs do, by the shared definitions.
    pub struct StandIn;

    impl Answers for StandIn {
        fn sheet(&self, version: u64, text: &[u8], question: &[u8], request: &[u8]) -> Done<String> {
            Ok(printed(text, question, request, 6_000, version))
        }

        fn check(&self, version: u64, text: &[u8]) -> Done<String> {
            Ok(asking::printed_check(text, version))
        }

        fn decide(&self, version: u64, text: &[u8], cases: &[Case]) -> Done<String> {
            Ok(asking::printed_decide(text, cases, version))
        }

        fn tally(&self, version: u64, text: &[u8], question: &[u8], requests: &[u8]) -> Done<String> {
            Ok(asking::printed_tally(text, question, requests, version))
        }

        fn lock(&self, lent: Lent, room: usize) -> Done<Vec<u8>> {
            Ok(locks::printed(lent, room))
        }
    }

    /// Answers always the same.
    pub struct Wrong(pub &'static str);

    impl Answers for Wrong {
        fn sheet(&self, _: u64, _: &[u8], _: &[u8], _: &[u8]) -> Done<String> {
            Ok(self.0.to_string())
        }

        fn check(&self, _: u64, _: &[u8]) -> Done<String> {
            Ok(self.0.to_string())
        }

        fn decide(&self, _: u64, _: &[u8], _: &[Case]) -> Done<String> {
            Ok(self.0.to_string())
        }

        fn tally(&self, _: u64, _: &[u8], _: &[u8], _: &[u8]) -> Done<String> {
            Ok(self.0.to_string())
        }

        fn lock(&self, _: Lent, _: usize) -> Done<Vec<u8>> {
            Ok(self.0.into())
        }
    }

    #[test]
    fn a_difference_is_an_error() {
        let text = b"permit(principal,action,resource);";
        let case = Case { request: [b"tool:1".to_vec(), b"a".to_vec(), b"shaft:1".to_vec()], bag: vec![0, 0, 0] };
        assert_eq!(check(&StandIn, 1, text), Ok(Ok(1)));
        let decided = Answer::Decided { outcome: 1, policy: 1, mark: 1 };
        assert_eq!(decide(&StandIn, 1, text, &[case.clone()]), Ok(Ok(vec![decided])));
        let refused = Refused { number: 4, line: 1, column: 1, length: 1 };
        assert_eq!(decide(&StandIn, 1, b":", &[case.clone()]), Ok(Err(refused)));
        for wrong in [
            "",
            "compiled 2 20\n",
            "refused 10 1 1 6\n",
            "decided 1 1\n",
            "decided 1 1 2\n",
            "decided 1 1 3\n",
            "decided 1 2 1\n",
            "decided 1 1 1\ndecided 1 1 1\n",
        ] {
            assert!(check(&Wrong(wrong), 1, text).is_err(), "{}", wrong);
            assert!(decide(&Wrong(wrong), 1, text, &[case.clone()]).is_err(), "{}", wrong);
        }
        let lent = Lent { vocabulary: b"\x01a\x01b\x01", lock: b"a:c", actions: b"\x01d", resource: b"e" };
        let permit = "permit(principal, action in [\"d\"], resource == \"e\") when { principal.b == \"c\" };";
        assert_eq!(lock(&StandIn, lent, 100), Ok(Ok(permit.to_string())));
        assert_eq!(lock(&StandIn, lent, 9), Ok(Err(Refused { number: 29, line: 0, column: 0, length: 0 })));
        for wrong in ["", "refused 28 0 0 0\n", "permit(principal, action, resource);\n", permit] {
            assert!(lock(&Wrong(wrong), lent, 100).is_err(), "{}", wrong);
        }
    }
    // 02, request 7: an answer is held to what is explained under the same version.
    #[test]
    fn a_difference_between_versions_is_an_error() {
        let text = b"permit(principal,action,resource);";
        let case = Case { request: [b"tool:1".to_vec(), b"a".to_vec(), b"shaft:1".to_vec()], bag: vec![0, 0, 0] };
        let decided = Answer::Decided { outcome: 1, policy: 1, mark: 1 };
        let absent = b"permit(principal,action,resource)when{!(env.a==1)};";
        let unsatisfied = Answer::Decided { outcome: 3, policy: 0, mark: 0 };
        assert_eq!(decide(&StandIn, 1, absent, &[case.clone()]), Ok(Ok(vec![decided])));
        assert_eq!(decide(&StandIn, 2, absent, &[case.clone()]), Ok(Ok(vec![unsatisfied])));
        assert!(decide(&Wrong("decided 1 1 1\n"), 2, absent, &[case.clone()]).is_err());
        let none = Refused { number: 30, line: 0, column: 0, length: 0 };
        for version in [0, 3, 257] {
            assert_eq!(check(&StandIn, version, text), Ok(Err(none)));
            assert_eq!(decide(&StandIn, version, b":", &[case.clone()]), Ok(Err(none)));
            assert!(check(&Wrong("compiled 1 20\n"), version, text).is_err());
        }
        assert!(check(&Wrong("refused 30 0 0 0\n"), 2, text).is_err());
    }
}
