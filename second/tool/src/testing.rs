//! Tests of rules, as text: requests with the outcome that is expected of them (docs/QUESTIONS.md).

use definitions::asking::Case;
use definitions::bags::read_bag;

use crate::answers::Answer;
use crate::form::{whole_request, Form};
use crate::reading::{is_word_byte, wrong, Read, Reader};
use crate::report::outcome_text;
use crate::writing::shown;

/// A test: its name, the line it begins in, what is asked, and what is expected.
#[derive(PartialEq, Debug)]
pub struct Test {
    pub name: String,
    pub line: usize,
    pub case: Case,
    pub expected: Expected,
}

/// An outcome, maybe by a certain policy, or a refusal.
#[derive(Clone, Copy, PartialEq, Eq, Debug)]
pub enum Expected {
    Outcome(usize, Option<usize>),
    Refused(usize),
}

impl Expected {
    /// Whether the answer is as expected.
    pub fn is_met_by(self, answer: Answer) -> bool {
        match (self, answer) {
            (Expected::Outcome(wanted, by), Answer::Decided { outcome, policy, .. }) => {
                wanted == outcome && by.map_or(true, |by| by == policy)
            }
            (Expected::Refused(wanted), Answer::Refused(refused)) => wanted == refused.number,
            _ => false,
        }
    }

    pub fn text(self) -> String {
        match self {
            Expected::Outcome(outcome, Some(policy)) => format!("{} by policy {}", outcome_text(outcome), policy),
            Expected::Outcome(outcome, None) => outcome_text(outcome).to_string(),
            Expected::Refused(number) => format!("refused {}", number),
        }
    }
}

/// What was answered, in the words of `expect`.
pub fn answer_text(answer: Answer) -> String {
    match answer {
        Answer::Decided { outcome, policy: 0, .. } => Expected::Outcome(outcome, None).text(),
        Answer::Decided { outcome, policy, .. } => Expected::Outcome(outcome, Some(policy)).text(),
        Answer::Refused(refused) => Expected::Refused(refused.number).text(),
    }
}

const AN_OUTCOME: &str = "expected allowed, forbidden, not permitted, system, or refused and a number; after the first two maybe by and a policy's number";

/// The tests of a text.
pub fn read_tests(text: &[u8]) -> Read<Vec<Test>> {
    if text.starts_with(b"\xEF\xBB\xBF") {
        return wrong(0, "the file begins with a byte order mark; save it without one");
    }
    let mut reader = Reader::new(text);
    reader.begin_bag();
    let mut file = TestFile { common: Form::default(), begun: None, tests: Vec::new() };
    reader.pass_lines();
    while reader.at < text.len() {
        file.statement(&mut reader)?;
        reader.pass_lines();
    }
    file.finish(&mut reader)?;
    match file.tests.is_empty() {
        true => wrong(text.len(), "there is no test: a line test \"..\" begins one"),
        false => Ok(file.tests),
    }
}

/// A file of tests as far as it is read: what holds for all tests, the test that is begun, and those before it.
struct TestFile {
    common: Form,
    begun: Option<Begun>,
    tests: Vec<Test>,
}

/// A test that is begun: where, its name, and what is expected.
struct Begun {
    start: usize,
    name: String,
    expected: Option<Expected>,
}

impl TestFile {
    /// One line of the file.
    fn statement(&mut self, reader: &mut Reader) -> Read<()> {
        let start = reader.at;
        match reader.word_here() {
            word @ b"test" => {
                self.finish(reader)?;
                self.begun = Some(Begun { start, name: name_of_test(reader, word)?, expected: None });
                reader.removed = Some(Vec::new());
                Ok(())
            }
            word @ b"expect" => match &mut self.begun {
                Some(Begun { expected: expected @ None, .. }) => {
                    *expected = Some(read_expected(reader, word)?);
                    Ok(())
                }
                Some(_) => wrong(start, "this test has an expect already"),
                None => wrong(start, "expect stands in a test: a line test \"..\" must come first"),
            },
            b"column" | b"question" | b"bag" | b"request" => {
                wrong(start, "tests have attributes, subject, action, resource, test and expect, and no columns")
            }
            _ => reader.statement(),
        }
    }

    /// The test that is begun ends here; before the first test, what holds for all.
    fn finish(&mut self, reader: &mut Reader) -> Read<()> {
        match self.begun.take() {
            Some(begun) => self.tests.push(finished(reader, begun, &self.common)?),
            None => self.common = reader.begin_bag(),
        }
        Ok(())
    }
}

/// The name after `test`.
fn name_of_test(reader: &mut Reader, word: &[u8]) -> Read<String> {
    reader.run(is_word_byte);
    reader.pass_blanks();
    if reader.peek() != Some(b'"') {
        return wrong(reader.at, "expected the test's name in quotes: test \"..\"");
    }
    let name = shown(&reader.string()?);
    reader.end_of_line(word)?;
    Ok(name)
}

/// What stands after `expect`.
fn read_expected(reader: &mut Reader, word: &[u8]) -> Read<Expected> {
    reader.run(is_word_byte);
    let start = reader.at;
    let mut words: Vec<String> = Vec::new();
    loop {
        reader.pass_blanks();
        let word = reader.run(is_word_byte);
        if word.is_empty() {
            break;
        }
        words.push(shown(word));
    }
    reader.end_of_line(word)?;
    let words: Vec<&str> = words.iter().map(String::as_str).collect();
    let number = |word: &str| word.parse::<usize>().map_or_else(|_| wrong(start, AN_OUTCOME), Ok);
    match words[..] {
        ["allowed"] => Ok(Expected::Outcome(1, None)),
        ["forbidden"] => Ok(Expected::Outcome(2, None)),
        ["not", "permitted"] => Ok(Expected::Outcome(3, None)),
        ["system"] => Ok(Expected::Outcome(4, None)),
        ["allowed", "by", policy] | ["allowed", "by", "policy", policy] => {
            Ok(Expected::Outcome(1, Some(number(policy)?)))
        }
        ["forbidden", "by", policy] | ["forbidden", "by", "policy", policy] => {
            Ok(Expected::Outcome(2, Some(number(policy)?)))
        }
        ["refused", refusal] => Ok(Expected::Refused(number(refusal)?)),
        _ => wrong(start, AN_OUTCOME),
    }
}

/// The test that ends here: what holds for all tests, changed by its own lines.
fn finished(reader: &mut Reader, begun: Begun, common: &Form) -> Read<Test> {
    let Begun { start, name, expected } = begun;
    let expected = match expected {
        Some(expected) => expected,
        None => return wrong(start, "this test has no expect"),
    };
    let own = reader.begin_bag();
    let mut form = common.clone();
    for (root, path) in reader.removed.take().unwrap_or_default() {
        form.sections[root].remove(&path);
    }
    for (section, own) in form.sections.iter_mut().zip(own.sections) {
        section.extend(own);
    }
    let request = match whole_request(&form.request, own.request) {
        Ok(request) => request,
        Err(part) => {
            let what = format!("this test has no {}: say {} = \"..\" in it, or before the first test", part, part);
            return wrong(start, what);
        }
    };
    let bag = form.bytes();
    if read_bag(&bag).is_none() {
        return wrong(start, "with what holds for all tests this one has more attributes or bytes than a bag can hold");
    }
    let case = Case { request, bag };
    Ok(Test { name, line: reader.line_of(start), case, expected })
}

#[cfg(test)]
mod tests {
    use super::*;
    use crate::answers::Refused;
    use crate::documented;
    use crate::places::place_in_text;

    #[test]
    fn tests_are_read() {
        let text =
            b"subject = \"person:K7\"\naction = \"teach\"\nresource = \"shaft:A\"\nprincipal.grade = 3\nenv.hour = 7
            test \"own\"\nprincipal.hired = \"own\"\nexpect allowed by 1 # ours
            test \"stranger\"\nsubject = \"dog:1\"\nenv.hour = absent\nprincipal.grade = 4\nexpect refused 21\n";
        let tests = read_tests(text).unwrap();
        assert_eq!(tests.len(), 2);
        assert_eq!(
            (tests[0].name.as_str(), tests[0].line, tests[0].expected),
            ("own", 6, Expected::Outcome(1, Some(1)))
        );
        assert_eq!(tests[1].case.request[0], b"dog:1");
        let bag = read_bag(&tests[1].case.bag).unwrap();
        assert!(bag.look_up(3, b"hour").is_none() && bag.look_up(1, b"hired").is_none());
        assert_eq!(bag.look_up(1, b"grade").unwrap().number(), 4.0);
        assert!(read_bag(&tests[0].case.bag).unwrap().look_up(3, b"hour").is_some());
    }

    #[test]
    fn what_is_wrong_is_said() {
        let all = "subject = \"tool:1\"\naction = \"a\"\nresource = \"shaft:1\"\n";
        for (text, what) in [
            ("", "1:1: there is no test: a line test \"..\" begins one"),
            ("expect allowed", "1:1: expect stands in a test: a line test \"..\" must come first"),
            ("test own", "1:6: expected the test's name in quotes: test \"..\""),
            ("test \"a\"\n", "1:1: this test has no expect"),
            ("test \"a\"\nexpect allowed\nexpect allowed", "3:1: this test has an expect already"),
            (
                "test \"a\"\nexpect yes",
                "2:7: expected allowed, forbidden, not permitted, system, or refused and a number",
            ),
            ("test \"a\"\nexpect allowed by x", "2:7: expected allowed, forbidden, not permitted, system, or refused"),
            (
                "test \"a\"\nexpect system",
                "1:1: this test has no subject: say subject = \"..\" in it, or before the first test",
            ),
            (
                "column env.a = 1",
                "1:1: tests have attributes, subject, action, resource, test and expect, and no columns",
            ),
            ("test \"a\"\nexpect allowed ;", "2:16: expected the end of the line"),
        ] {
            let wrong = read_tests(text.as_bytes()).unwrap_err();
            let place = place_in_text(text.as_bytes(), wrong.at);
            assert!(documented(&wrong.what), "not in docs/QUESTIONS.md: {}", wrong.what);
            assert!(format!("{}:{}: {}", place.line, place.column, wrong.what).starts_with(what), "{}", wrong.what);
        }
        let many: String = (0..33).map(|index| format!("env.a{} = 1\n", index)).collect();
        assert!(read_tests([all, &many, "test \"a\"\nexpect allowed"].concat().as_bytes()).is_err());
        let half: String = (0..20).map(|index| format!("env.a{} = 1\n", index)).collect();
        let other: String = (0..20).map(|index| format!("env.b{} = 1\n", index)).collect();
        let wrong = read_tests([all, &half, "test \"a\"\n", &other, "expect allowed"].concat().as_bytes()).unwrap_err();
        assert_eq!(
            wrong.what,
            "with what holds for all tests this one has more attributes or bytes than a bag can hold"
        );
    }

    #[test]
    fn answers_are_held_to_what_is_expected() {
        let allowed = Answer::Decided { outcome: 1, policy: 2, mark: 6 };
        assert!(Expected::Outcome(1, None).is_met_by(allowed) && Expected::Outcome(1, Some(2)).is_met_by(allowed));
        assert!(!Expected::Outcome(1, Some(1)).is_met_by(allowed) && !Expected::Outcome(2, None).is_met_by(allowed));
        let refused = Answer::Refused(Refused { number: 21, line: 0, column: 0, length: 0 });
        assert!(Expected::Refused(21).is_met_by(refused) && !Expected::Refused(22).is_met_by(refused));
        assert_eq!(answer_text(allowed), "allowed by policy 2");
        assert_eq!(answer_text(refused), "refused 21");
        assert_eq!(answer_text(Answer::Decided { outcome: 3, policy: 0, mark: 0 }), "not permitted");
    }
}
