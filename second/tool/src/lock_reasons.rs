//! The reasons of refusal 28, each as a sentence that says what is wrong and what to write (docs/LOCKS.md), and refusal 29.

use definitions::locks::{Flaw, LentBytes, Part, Reason, Sort};

use crate::doubts::nearest;
use crate::expected::reserved_words;
use crate::locking::{LockFile, LockLine};
use crate::words::{count_of, grouped};
use crate::writing::shown;

/// What a flaw is, in words.
pub fn sentence_of(file: &LockFile, line: &LockLine, flaw: &Flaw) -> String {
    match flaw.part {
        Part::Vocabulary => of_vocabulary(file, line, flaw),
        Part::Lock => of_lock(file, line, flaw),
        Part::Actions | Part::Resource => of_string(file, line, flaw),
    }
}

/// 29: the permit does not fit.
pub fn no_room(permit: usize, room: usize) -> String {
    format!("The permit has {}, and its room {}.", count_of(permit, "byte", "bytes"), grouped(room))
}

fn of_vocabulary(file: &LockFile, line: &LockLine, flaw: &Flaw) -> String {
    let at = file.place(line, flaw);
    match flaw.reason {
        Reason::TooManyWords => "This is the 17th word; a vocabulary has at most 16.".to_string(),
        Reason::NotAWord => {
            "This is no word: a word is a letter, then letters, digits, _ and -, at most 64 bytes.".to_string()
        }
        Reason::RepeatedWord => {
            let word = file.words.iter().find(|known| known.word.at == at);
            format!("The vocabulary has the word {} already.", word.map_or(String::new(), |known| shown(&known.word.bytes)))
        }
        Reason::NotAPath => format!(
            "This is no path: a path is names joined by dots, at most 64 bytes; a name is a letter, then letters, digits, _ and -, \
            and not reserved. Reserved are: {}.",
            reserved_words()
        ),
        Reason::UnknownSort => "A sort must be 1, 2 or 3.".to_string(),
        _ => "The vocabulary's bytes end inside an entry.".to_string(),
    }
}

fn of_lock(file: &LockFile, line: &LockLine, flaw: &Flaw) -> String {
    let rest = &line.lock.bytes[flaw.at.min(line.lock.bytes.len())..];
    let run = |belongs: fn(&u8) -> bool| rest.iter().position(|byte| !belongs(byte)).unwrap_or(rest.len());
    let word_length = run(|byte| byte.is_ascii_alphanumeric() || b"_-".contains(byte));
    match flaw.reason {
        Reason::WordExpected => {
            let what = match rest.first() {
                None => "The lock ends where a test must stand",
                Some(b'!' | b'(' | b')' | b'|') => "A lock has no !, | or brackets, and a test must begin here",
                Some(b'&') => "A test must begin here (tests are joined by a single &)",
                Some(_) => "A test must begin here",
            };
            format!("{}: a word of the vocabulary, which has {}.", what, words_of(file))
        }
        Reason::TooManyTests => "This is the 17th test; a lock has at most 16.".to_string(),
        Reason::UnknownWord => {
            let names: Vec<String> = file.words.iter().map(|known| shown(&known.word.bytes)).collect();
            let word = shown(&rest[..word_length]);
            let near = nearest(&word, &names);
            let end = if near.is_empty() { ".".to_string() } else { near };
            format!("The vocabulary has no word {}; it has {}{}", word, words_of(file), end)
        }
        Reason::MarkExpected => {
            format!("Behind the word must stand {}.", mark_for(sort_before(file, line, flaw.at)))
        }
        Reason::AgainstSort(sort) => {
            let name = match sort {
                Sort::Equality => "This word is compared by equality",
                Sort::Membership => "This word asks for membership in a list",
                Sort::Number => "This word is a number",
            };
            format!("{}: behind it must stand {}.", name, mark_for(Some(sort)))
        }
        Reason::ValueExpected => {
            "A value must stand here: letters, digits, _ and -, at least one, without quotes.".to_string()
        }
        Reason::NumberExpected => "A number must stand here, as in rule texts: 3, -2 or 2.5.".to_string(),
        Reason::AndExpected => {
            let what = "Behind a test must stand & and another test, or the end of the lock";
            match rest.first() {
                Some(b'|') => format!("{}. For one or the other write two locks: each is a permit.", what),
                Some(b'.') => format!("{}. A value has no dot, and a number one with digits on both sides.", what),
                _ => format!("{}.", what),
            }
        }
        Reason::ValueTooLong => format!(
            "This value has {}; a string of a permit has at most 127, so the permit would not compile.",
            count_of(word_length, "byte", "bytes")
        ),
        Reason::NumberTooLong => {
            let digits = rest[..run(|byte| byte.is_ascii_digit() || b"-.".contains(byte))].iter();
            format!(
                "This number has {}; a number of a permit has at most 15, so the permit would not compile.",
                count_of(digits.filter(|byte| byte.is_ascii_digit()).count(), "digit", "digits")
            )
        }
        _ => "The permit would not compile.".to_string(),
    }
}

/// The words of the vocabulary, in its order.
fn words_of(file: &LockFile) -> String {
    let names: Vec<String> = file.words.iter().map(|known| shown(&known.word.bytes)).collect();
    if names.is_empty() {
        "none".to_string()
    } else {
        names.join(", ")
    }
}

/// The sort of the word that stands before a place of the lock, behind blanks.
fn sort_before(file: &LockFile, line: &LockLine, at: usize) -> Option<Sort> {
    let before = String::from_utf8_lossy(&line.lock.bytes[..at]).into_owned();
    let word =
        before.trim_end().rsplit(|character: char| !(character.is_ascii_alphanumeric() || "_-".contains(character)));
    let word = word.into_iter().next()?.to_string();
    file.words.iter().find(|known| known.word.bytes == word.as_bytes()).map(|known| known.sort)
}

/// What a test of this sort goes on with.
fn mark_for(sort: Option<Sort>) -> &'static str {
    match sort {
        Some(Sort::Number) => ">, >=, < or <= and a number",
        _ => ": and a value",
    }
}

/// A flaw of the actions or of the resource.
fn of_string(file: &LockFile, line: &LockLine, flaw: &Flaw) -> String {
    let at = file.place(line, flaw);
    let string = line.actions.iter().chain([&line.resource]).find(|string| string.at == at);
    match flaw.reason {
        Reason::TooManyActions => "This is the 17th action; a list has at most 16.".to_string(),
        Reason::NotAString => {
            "This is no string of rule texts: it holds a quote, a control byte or 0x7F, and rule texts have no escapes."
                .to_string()
        }
        Reason::StringTooLong => format!(
            "This string has {}; a string of rule texts has at most 127.",
            count_of(string.map_or(0, |string| string.bytes.len()), "byte", "bytes")
        ),
        Reason::NotUtf8 => {
            "This string is not UTF-8, as strings of rule texts are: write it again in a file that is saved as UTF-8."
                .to_string()
        }
        Reason::NoAction => "The action list is empty; a permit needs at least one action.".to_string(),
        _ => "The action list's bytes end inside an action.".to_string(),
    }
}

/// What a permit that was written can never do, and was hardly meant.
pub fn doubts_of(lent: &LentBytes, line: &LockLine) -> Vec<String> {
    use definitions::deciding::Request;
    let refused = |action: &[u8], resource: &[u8]| Request { subject: b"person:x", action, resource }.refusal();
    let mut doubts = Vec::new();
    if refused(b"x", &lent.resource) == Some(23) {
        doubts.push(format!(
            "no request can be for the resource \"{}\": a resource is controller:, shaft:, parameter: or record: and an id",
            shown(&lent.resource)
        ));
    }
    for action in &line.actions {
        if refused(&action.bytes, b"shaft:x") == Some(22) {
            doubts.push(format!(
                "no request can be for the action \"{}\": an action has 1 to 100 bytes",
                shown(&action.bytes)
            ));
        }
    }
    doubts
}

#[cfg(test)]
mod tests {
    use super::*;
    use crate::locking::read_locks;
    use definitions::locks::permit_of;

    fn documented(sentence: &str) -> bool {
        include_str!("../../../docs/LOCKS.md").replace("\\|", "|").contains(sentence)
    }

    /// The sentence for a lock over the usual words, or for other words, actions and resource.
    fn sentence(lines: &str, lock: &str) -> String {
        let text = format!(
            "word firm = principal.firm, equality\nword flag = principal.flags, membership\n\
            word grade = principal.grade, number\nactions = \"teach\"\nresource = \"shaft:A\"\n{}\nlock = {}\n",
            lines, lock
        );
        let file = read_locks(text.as_bytes()).unwrap();
        let line = &file.locks[0];
        let flaw = permit_of(file.lent(line).lent()).unwrap_err();
        sentence_of(&file, line, &flaw)
    }

    #[test]
    fn each_reason_has_its_sentence() {
        let many = |line: &str| (0..16).map(|index| line.replace('N', &index.to_string())).collect::<Vec<_>>();
        for (lines, lock, expected) in [
            (many("word wN = principal.a, number").join("\n"), "firm:own", "This is the 17th word; a vocabulary has at most 16."),
            ("word 1st = principal.a, number".to_string(), "firm:own", "This is no word: a word is a letter, then letters, digits, _ and -, at most 64 bytes."),
            ("word firm = principal.a, number".to_string(), "firm:own", "The vocabulary has the word firm already."),
            ("word a = principal.if, number".to_string(), "firm:own", "This is no path: a path is names joined by dots, at most 64 bytes; a name is a letter, then letters, digits, _ and -, and not reserved."),
            (String::new(), "", "The lock ends where a test must stand: a word of the vocabulary, which has firm, flag, grade."),
            (String::new(), "firm:own &", "The lock ends where a test must stand"),
            (String::new(), "!flag:taught", "A lock has no !, | or brackets, and a test must begin here"),
            (String::new(), "firm:own && grade>3", "A test must begin here (tests are joined by a single &)"),
            (String::new(), "3 > grade", "A test must begin here: a word of the vocabulary"),
            (String::new(), &vec!["firm:own"; 17].join("&"), "This is the 17th test; a lock has at most 16."),
            (String::new(), "level>3", "The vocabulary has no word level; it has firm, flag, grade."),
            (String::new(), "grad>3", "The vocabulary has no word grad; it has firm, flag, grade: did you mean grade?"),
            (String::new(), "grade = 3", "Behind the word must stand >, >=, < or <= and a number."),
            (String::new(), "firm = own", "Behind the word must stand : and a value."),
            (String::new(), "grade:3", "This word is a number: behind it must stand >, >=, < or <= and a number."),
            (String::new(), "firm>3", "This word is compared by equality: behind it must stand : and a value."),
            (String::new(), "flag>3", "This word asks for membership in a list: behind it must stand : and a value."),
            (String::new(), "firm:\"own\"", "A value must stand here: letters, digits, _ and -, at least one, without quotes."),
            (String::new(), "grade>=x", "A number must stand here, as in rule texts: 3, -2 or 2.5."),
            (String::new(), "firm:own grade>3", "Behind a test must stand & and another test, or the end of the lock."),
            (String::new(), "firm:own | grade>3", "For one or the other write two locks: each is a permit."),
            (String::new(), "firm:3.5", "A value has no dot, and a number one with digits on both sides."),
            (String::new(), &format!("firm:{}", "v".repeat(128)), "This value has 128 bytes; a string of a permit has at most 127, so the permit would not compile."),
            (String::new(), "grade>-12345678.12345678 & firm:own", "This number has 16 digits; a number of a permit has at most 15, so the permit would not compile."),
            (format!("actions = {}", vec!["\"a\""; 17].join(",")), "firm:own", "This is the 17th action; a list has at most 16."),
            ("actions = \"a\\\"b\"".to_string(), "firm:own", "This is no string of rule texts: it holds a quote, a control byte or 0x7F, and rule texts have no escapes."),
            ("resource = \"S\\xFCd\"".to_string(), "firm:own", "This string is not UTF-8, as strings of rule texts are: write it again in a file that is saved as UTF-8."),
            (format!("resource = \"{}\"", "r".repeat(128)), "firm:own", "This string has 128 bytes; a string of rule texts has at most 127."),
        ] {
            let said = sentence(&lines, lock);
            assert!(said.contains(expected), "{}: {}", lock, said);
            assert!(documented(expected), "{}", expected);
        }
    }

    #[test]
    fn what_was_hardly_meant() {
        let text = "word a = principal.a, number\nactions = \"\"\nresource = \"shaft\"\nlock = a>3\n";
        let file = read_locks(text.as_bytes()).unwrap();
        let doubts = doubts_of(&file.lent(&file.locks[0]), &file.locks[0]);
        assert_eq!(doubts.len(), 2);
        for doubt in doubts {
            assert!(documented(doubt.split('"').next().unwrap().trim()), "{}", doubt);
        }
    }
}
