//! Locks in the caretaker's short form: what is lent read into the permit's parts, the permit's one spelling (docs/LOCKS.md), and what a lock
//! means, test by test (02, request 2).

use crate::bags::{is_path, read_bag, Bag, Content};
use crate::characters::is_utf8;
use crate::compile::policies_of;
use crate::deciding::{Decision, Request, ALLOWED, NOTHING_SATISFIED, SYSTEM_DECISION};
use crate::numbers::{value_of, Comparator};
use crate::tokens::{class_of, token_at, Class, NAME};

/// 02, request 2: the refusals.
pub const NO_LOCK: u8 = 28;
pub const NO_ROOM: u8 = 29;

/// 02, request 2: a vocabulary of up to 16 words, a lock of 1 to 16 tests; 01, "Sizes": a list of 16 literals.
pub const MOST_WORDS: usize = 16;
pub const MOST_TESTS: usize = 16;
pub const MOST_ACTIONS: usize = 16;

/// 01, "Sizes": string 127 inside its quotes, number 15 digits in all.
pub const LONGEST_STRING: usize = 127;
pub const MOST_DIGITS: usize = 15;

/// What a vocabulary's word asks of its attribute; the sort byte is 1, 2 or 3.
#[derive(Clone, Copy, PartialEq, Eq, Debug)]
pub enum Sort {
    Equality,
    Membership,
    Number,
}

/// The sorts in the order of their bytes.
pub const SORTS: [Sort; 3] = [Sort::Equality, Sort::Membership, Sort::Number];

impl Sort {
    pub fn byte(self) -> u8 {
        1 + SORTS.iter().position(|sort| *sort == self).unwrap_or(0) as u8
    }
}

/// One word of a vocabulary.
#[derive(Clone, PartialEq, Eq, Debug)]
pub struct Word {
    pub word: Vec<u8>,
    pub path: Vec<u8>,
    pub sort: Sort,
}

/// One test of a lock: a principal path, and what is asked of the attribute there.
#[derive(Clone, PartialEq, Eq, Debug)]
pub struct Test {
    pub path: Vec<u8>,
    pub asks: Asks,
}

/// The attribute is this string; it is a list that has this string; it is a number that compares so with this one.
#[derive(Clone, PartialEq, Eq, Debug)]
pub enum Asks {
    Is(Vec<u8>),
    Has(Vec<u8>),
    Compares(Comparator, Vec<u8>),
}

/// What a permit is made of.
#[derive(Clone, PartialEq, Eq, Debug)]
pub struct Permit {
    pub actions: Vec<Vec<u8>>,
    pub resource: Vec<u8>,
    pub tests: Vec<Test>,
}

/// Which of the lent bytes.
#[derive(Clone, Copy, PartialEq, Eq, Debug)]
pub enum Part {
    Vocabulary,
    Lock,
    Actions,
    Resource,
}

/// The reasons of 28.
#[derive(Clone, Copy, PartialEq, Eq, Debug)]
pub enum Reason {
    /// The bytes end inside an entry, or inside an action.
    CutOff,
    /// A 17th word.
    TooManyWords,
    /// The word of an entry is no word of 01.
    NotAWord,
    /// The word of an entry stands in an earlier one.
    RepeatedWord,
    /// The path of an entry is no path of 01.
    NotAPath,
    /// A sort byte that is not 1, 2 or 3.
    UnknownSort,
    /// Something else where a test's word must stand.
    WordExpected,
    /// A 17th test.
    TooManyTests,
    /// A word that is not in the vocabulary.
    UnknownWord,
    /// After a test's word neither `:` nor `>`, `>=`, `<` or `<=`.
    MarkExpected,
    /// A word of this sort with the other kind of mark.
    AgainstSort(Sort),
    /// After `:` no letter, digit, `_` or `-`.
    ValueExpected,
    /// After a comparator no number.
    NumberExpected,
    /// After a test neither `&` nor the end.
    AndExpected,
    /// A value that no string of 01 can be: the permit would not compile.
    ValueTooLong,
    /// A number of more digits than 01 admits: the permit would not compile.
    NumberTooLong,
    /// No action at all.
    NoAction,
    /// A 17th action.
    TooManyActions,
    /// A byte that no string of 01 holds.
    NotAString,
    /// A string over 127 bytes.
    StringTooLong,
    /// A string that is not UTF-8.
    NotUtf8,
    /// The permit would not compile for another reason; there is none.
    WouldNotCompile,
}

/// What is wrong, and at which byte of which part.
#[derive(Clone, Copy, PartialEq, Eq, Debug)]
pub struct Flaw {
    pub part: Part,
    pub at: usize,
    pub reason: Reason,
}

fn flaw<T>(part: Part, at: usize, reason: Reason) -> Result<T, Flaw> {
    Err(Flaw { part, at, reason })
}

/// The permit for a lock is written over the start of the room, and its length answered; or a refusal: 28, then 29.
pub fn write_permit(lent: Lent, room: &mut [u8]) -> Result<usize, u8> {
    let text = permit_of(lent).map_err(|_| NO_LOCK)?.text();
    if text.len() > room.len() {
        return Err(NO_ROOM);
    }
    room[..text.len()].copy_from_slice(&text);
    Ok(text.len())
}

/// What the program `caretaker` prints for a room of so many bytes: the permit, or the refusal, and a line feed.
pub fn printed(lent: Lent, room: usize) -> Vec<u8> {
    let mut room = vec![0; room];
    match write_permit(lent, &mut room) {
        Ok(length) => [&room[..length], b"\n"].concat(),
        Err(number) => format!("refused {} 0 0 0\n", number).into_bytes(),
    }
}

/// The bytes that are lent.
#[derive(Clone, Copy)]
pub struct Lent<'a> {
    pub vocabulary: &'a [u8],
    pub lock: &'a [u8],
    pub actions: &'a [u8],
    pub resource: &'a [u8],
}

/// The same bytes, kept.
#[derive(Clone, Debug)]
pub struct LentBytes {
    pub vocabulary: Vec<u8>,
    pub lock: Vec<u8>,
    pub actions: Vec<u8>,
    pub resource: Vec<u8>,
}

impl LentBytes {
    pub fn lent(&self) -> Lent<'_> {
        let LentBytes { vocabulary, lock, actions, resource } = self;
        Lent { vocabulary, lock, actions, resource }
    }
}

/// What the permit is made of, or a reason of 28: the first in vocabulary, lock, actions, resource.
pub fn permit_of(lent: Lent) -> Result<Permit, Flaw> {
    let words = words_of(lent.vocabulary)?;
    let tests = tests_of(&words, lent.lock)?;
    let actions = actions_of(lent.actions)?;
    check_string(Part::Resource, 0, lent.resource)?;
    let permit = Permit { actions, resource: lent.resource.to_vec(), tests };
    if policies_of(&permit.text()).is_err() {
        return flaw(Part::Lock, 0, Reason::WouldNotCompile);
    }
    Ok(permit)
}

/// The next bytes of a part that stand behind their length byte, and where they start.
fn counted<'a>(part: Part, bytes: &'a [u8], at: &mut usize) -> Result<(usize, &'a [u8]), Flaw> {
    let start = *at + 1;
    let taken = bytes.get(*at).and_then(|length| bytes.get(start..start + usize::from(*length)));
    match taken {
        Some(taken) => {
            *at = start + taken.len();
            Ok((start, taken))
        }
        None => flaw(part, *at, Reason::CutOff),
    }
}

/// A vocabulary: entries up to the end of the bytes, each a word and a path, both behind their length bytes, and a sort byte.
pub fn words_of(bytes: &[u8]) -> Result<Vec<Word>, Flaw> {
    let part = Part::Vocabulary;
    let mut words: Vec<Word> = Vec::new();
    let mut at = 0;
    while at < bytes.len() {
        if words.len() == MOST_WORDS {
            return flaw(part, at, Reason::TooManyWords);
        }
        let (word_at, word) = counted(part, bytes, &mut at)?;
        if !is_word(word) {
            return flaw(part, word_at, Reason::NotAWord);
        }
        if words.iter().any(|earlier| earlier.word == word) {
            return flaw(part, word_at, Reason::RepeatedWord);
        }
        let (path_at, path) = counted(part, bytes, &mut at)?;
        if !is_path(path) {
            return flaw(part, path_at, Reason::NotAPath);
        }
        let sort = match bytes.get(at) {
            None => return flaw(part, at, Reason::CutOff),
            Some(byte) => match SORTS.iter().find(|sort| sort.byte() == *byte) {
                None => return flaw(part, at, Reason::UnknownSort),
                Some(sort) => *sort,
            },
        };
        at += 1;
        words.push(Word { word: word.to_vec(), path: path.to_vec(), sort });
    }
    Ok(words)
}

/// 01, "The rule text", Word, and "Sizes": at most 64 bytes. A reserved word is a word.
pub fn is_word(bytes: &[u8]) -> bool {
    let token = token_at(bytes, 0);
    (token.kind == NAME || token.is_reserved()) && token.start == 0 && token.end == bytes.len()
}

/// The bytes from a place on that belong.
fn run(bytes: &[u8], from: usize, belongs: fn(u8) -> bool) -> &[u8] {
    let rest = &bytes[from..];
    let end = rest.iter().position(|byte| !belongs(*byte)).unwrap_or(rest.len());
    &rest[..end]
}

fn is_blank(byte: u8) -> bool {
    class_of(byte) == Class::Blank
}

fn is_digit(byte: u8) -> bool {
    byte.is_ascii_digit()
}

/// 02, request 2: values are letters, digits, `_` and `-`.
fn is_value_byte(byte: u8) -> bool {
    byte.is_ascii_alphanumeric() || byte == b'_' || byte == b'-'
}

/// Reads a lock: its words by the vocabulary.
struct Reader<'a> {
    words: &'a [Word],
    lock: &'a [u8],
    at: usize,
}

/// 1 to 16 tests joined by `&`, with blanks between the pieces.
pub fn tests_of(words: &[Word], lock: &[u8]) -> Result<Vec<Test>, Flaw> {
    let mut reader = Reader { words, lock, at: 0 };
    let mut tests = Vec::new();
    loop {
        reader.pass_blanks();
        if tests.len() == MOST_TESTS {
            return reader.flaw(Reason::TooManyTests);
        }
        tests.push(reader.test()?);
        reader.pass_blanks();
        if reader.at == lock.len() {
            return Ok(tests);
        }
        if !reader.takes(b"&") {
            return reader.flaw(Reason::AndExpected);
        }
    }
}

impl Reader<'_> {
    fn flaw<T>(&self, reason: Reason) -> Result<T, Flaw> {
        flaw(Part::Lock, self.at, reason)
    }

    fn pass_blanks(&mut self) {
        self.at += run(self.lock, self.at, is_blank).len();
    }

    /// Pass these bytes if they are next.
    fn takes(&mut self, bytes: &[u8]) -> bool {
        let are_next = self.lock[self.at..].starts_with(bytes);
        self.at += if are_next { bytes.len() } else { 0 };
        are_next
    }

    /// A word, `:` and a value; or a word, a comparator and a number, as the word's sort asks.
    fn test(&mut self) -> Result<Test, Flaw> {
        let word = run(self.lock, self.at, is_value_byte);
        if !word.first().map_or(false, u8::is_ascii_alphabetic) {
            return self.flaw(Reason::WordExpected);
        }
        let Word { path, sort, .. } = match self.words.iter().find(|known| known.word == word) {
            Some(known) => known.clone(),
            None => return self.flaw(Reason::UnknownWord),
        };
        self.at += word.len();
        self.pass_blanks();
        let mark_at = self.at;
        let asks = match (sort, self.mark()?) {
            (Sort::Number, Some(comparator)) => Asks::Compares(comparator, self.number()?),
            (Sort::Equality, None) => Asks::Is(self.value()?),
            (Sort::Membership, None) => Asks::Has(self.value()?),
            _ => return flaw(Part::Lock, mark_at, Reason::AgainstSort(sort)),
        };
        Ok(Test { path, asks })
    }

    /// A comparator, or nothing for `:`; the longest possible mark is read.
    fn mark(&mut self) -> Result<Option<Comparator>, Flaw> {
        for (mark, comparator) in [
            (&b":"[..], None),
            (b">=", Some(Comparator::GreaterOrEqual)),
            (b">", Some(Comparator::Greater)),
            (b"<=", Some(Comparator::LessOrEqual)),
            (b"<", Some(Comparator::Less)),
        ] {
            if self.takes(mark) {
                return Ok(comparator);
            }
        }
        self.flaw(Reason::MarkExpected)
    }

    /// The longest run of letters, digits, `_` and `-`, at least one.
    fn value(&mut self) -> Result<Vec<u8>, Flaw> {
        self.pass_blanks();
        let value = run(self.lock, self.at, is_value_byte);
        if value.is_empty() {
            return self.flaw(Reason::ValueExpected);
        }
        if value.len() > LONGEST_STRING {
            return self.flaw(Reason::ValueTooLong);
        }
        self.at += value.len();
        Ok(value.to_vec())
    }

    /// 01, "The rule text", Number: optional `-` directly before digits, optionally `.` and digits.
    fn number(&mut self) -> Result<Vec<u8>, Flaw> {
        self.pass_blanks();
        let minus = usize::from(self.lock.get(self.at) == Some(&b'-'));
        let whole = run(self.lock, self.at + minus, is_digit).len();
        if whole == 0 {
            return self.flaw(Reason::NumberExpected);
        }
        let mut end = self.at + minus + whole;
        let mut digits = whole;
        if self.lock.get(end) == Some(&b'.') {
            let fraction = run(self.lock, end + 1, is_digit).len();
            if fraction > 0 {
                end += 1 + fraction;
                digits += fraction;
            }
        }
        if digits > MOST_DIGITS {
            return self.flaw(Reason::NumberTooLong);
        }
        let number = self.lock[self.at..end].to_vec();
        self.at = end;
        Ok(number)
    }
}

/// 1 to 16 strings of 01 up to the end of the bytes, each behind its length byte.
pub fn actions_of(bytes: &[u8]) -> Result<Vec<Vec<u8>>, Flaw> {
    let part = Part::Actions;
    let mut actions = Vec::new();
    let mut at = 0;
    while at < bytes.len() {
        if actions.len() == MOST_ACTIONS {
            return flaw(part, at, Reason::TooManyActions);
        }
        let (start, action) = counted(part, bytes, &mut at)?;
        check_string(part, start, action)?;
        actions.push(action.to_vec());
    }
    if actions.is_empty() {
        return flaw(part, 0, Reason::NoAction);
    }
    Ok(actions)
}

/// 01, "The rule text", String, and "Sizes": bytes 0x20 to 0x7E and 0x80 up, without `"`, at most 127. 02, request 5: UTF-8.
fn check_string(part: Part, start: usize, string: &[u8]) -> Result<(), Flaw> {
    if let Some(index) = string.iter().position(|byte| *byte < 0x20 || *byte == 0x7F || *byte == b'"') {
        return flaw(part, start + index, Reason::NotAString);
    }
    if string.len() > LONGEST_STRING {
        return flaw(part, start, Reason::StringTooLong);
    }
    if !is_utf8(string) {
        return flaw(part, start, Reason::NotUtf8);
    }
    Ok(())
}

impl Permit {
    /// The permit's one spelling.
    pub fn text(&self) -> Vec<u8> {
        let actions: Vec<Vec<u8>> = self.actions.iter().map(|action| quoted(action)).collect();
        let tests: Vec<Vec<u8>> = self.tests.iter().map(Test::text).collect();
        [
            b"permit(principal, action in [",
            &actions.join(&b", "[..])[..],
            b"], resource == ",
            &quoted(&self.resource),
            b") when { ",
            &tests.join(&b" && "[..]),
            b" };",
        ]
        .concat()
    }

    /// Whether target and every test hold.
    pub fn holds(&self, bag: &Bag, request: Request) -> bool {
        self.actions.iter().any(|action| *action == request.action)
            && self.resource == request.resource
            && self.tests.iter().all(|test| test.holds(bag))
    }

    /// What is decided where this permit is the whole text: 01, "Deciding", by what the lock means. Under either version: a permit's
    /// tests are joined by `&&` alone, so that it is unsatisfied where one meets an absent attribute, false or missing.
    pub fn decide(&self, bag: &[u8], request: Request) -> Result<Decision, u8> {
        if request.is_of_system() {
            return Ok(SYSTEM_DECISION);
        }
        if let Some(number) = request.refusal() {
            return Err(number);
        }
        let bag = read_bag(bag).ok_or(24)?;
        if self.holds(&bag, request) {
            Ok(Decision { outcome: ALLOWED, policy: 1, mark: 1 })
        } else {
            Ok(Decision { outcome: NOTHING_SATISFIED, policy: 0, mark: 0 })
        }
    }
}

impl Test {
    /// As a condition.
    pub fn text(&self) -> Vec<u8> {
        let attribute = [b"principal.", &self.path[..]].concat();
        match &self.asks {
            Asks::Is(value) => [attribute, b" == ".to_vec(), quoted(value)].concat(),
            Asks::Has(value) => [quoted(value), b" in ".to_vec(), attribute].concat(),
            Asks::Compares(comparator, number) => [&attribute, &b" "[..], mark_of(*comparator), b" ", number].concat(),
        }
    }

    /// 02, request 2: over a bag's principal section; an attribute that is absent or of another kind fails the test.
    fn holds(&self, bag: &Bag) -> bool {
        let content = bag.look_up(1, &self.path).map(|value| &value.content);
        match (&self.asks, content) {
            (Asks::Is(value), Some(Content::String(string))) => string == value,
            (Asks::Has(value), Some(Content::List(strings))) => strings.contains(value),
            (Asks::Compares(comparator, literal), Some(Content::Number(number))) => {
                comparator.holds(*number, value_of(literal))
            }
            _ => false,
        }
    }
}

fn quoted(string: &[u8]) -> Vec<u8> {
    [b"\"", string, b"\""].concat()
}

/// 01, "The rule text", Marks.
pub fn mark_of(comparator: Comparator) -> &'static [u8] {
    match comparator {
        Comparator::Less => b"<",
        Comparator::LessOrEqual => b"<=",
        Comparator::Greater => b">",
        Comparator::GreaterOrEqual => b">=",
        Comparator::Equal => b"==",
        Comparator::NotEqual => b"!=",
    }
}

/// A vocabulary's bytes; a length that is too great for its byte is written as far as the byte holds it.
pub fn vocabulary_bytes(entries: &[(Vec<u8>, Vec<u8>, u8)]) -> Vec<u8> {
    let mut bytes = Vec::new();
    for (word, path, sort) in entries {
        bytes.extend(counted_bytes(word));
        bytes.extend(counted_bytes(path));
        bytes.push(*sort);
    }
    bytes
}

/// An action list's bytes, likewise.
pub fn action_bytes(actions: &[Vec<u8>]) -> Vec<u8> {
    actions.iter().flat_map(|action| counted_bytes(action)).collect()
}

fn counted_bytes(bytes: &[u8]) -> Vec<u8> {
    [&[bytes.len() as u8], bytes].concat()
}

#[cfg(test)]
mod tests {
    use super::*;
    use crate::compile::compile;
    use crate::deciding::decide;
    use crate::plans::{list_value, number_value, string_value, Entry, Plan};
    use crate::tokens::RESERVED_WORDS;

    const ACTIONS: &[u8] = b"\x05teach\x04read";
    const RESOURCE: &[u8] = b"shaft:A";

    fn vocabulary(entries: &[(&str, &str, u8)]) -> Vec<u8> {
        let entries: Vec<(Vec<u8>, Vec<u8>, u8)> = entries
            .iter()
            .map(|(word, path, sort)| (word.as_bytes().to_vec(), path.as_bytes().to_vec(), *sort))
            .collect();
        vocabulary_bytes(&entries)
    }

    /// The caretaker's words: a firm, flags, a grade.
    fn usual() -> Vec<u8> {
        vocabulary(&[("firm", "firm", 1), ("flag", "flags", 2), ("grade", "grade", 3)])
    }

    fn of_lock(lock: &[u8]) -> Result<Permit, Flaw> {
        permit_of(Lent { vocabulary: &usual(), lock, actions: ACTIONS, resource: RESOURCE })
    }

    fn permit(lock: &str) -> String {
        String::from_utf8(of_lock(lock.as_bytes()).unwrap().text()).unwrap()
    }

    fn why(lock: &str) -> (usize, Reason) {
        let flaw = of_lock(lock.as_bytes()).unwrap_err();
        assert_eq!(flaw.part, Part::Lock);
        (flaw.at, flaw.reason)
    }

    // The request's own example, worked by hand.
    #[test]
    fn the_spelling_is_as_said() {
        assert_eq!(
            permit("firm:own & flag:taught & grade>=3"),
            "permit(principal, action in [\"teach\", \"read\"], resource == \"shaft:A\") when { principal.firm == \"own\" && \
            \"taught\" in principal.flags && principal.grade >= 3 };"
        );
        let one = Lent { vocabulary: &vocabulary(&[("g", "a.b", 3)]), lock: b"g<-0.50", actions: b"\0", resource: b"" };
        assert_eq!(
            permit_of(one).unwrap().text(),
            b"permit(principal, action in [\"\"], resource == \"\") when { principal.a.b < -0.50 };"
        );
    }

    #[test]
    fn blanks_stand_between_the_pieces() {
        let plain = permit("firm:own&flag:taught&grade>=3");
        assert_eq!(permit("\r\n firm\t:\nown &\n\nflag :taught& grade\r>=\t3 \n"), plain);
        assert_eq!(permit("grade> -3"), permit("grade>-3"));
    }

    #[test]
    fn each_comparator_is_written_as_it_is() {
        for mark in [">", ">=", "<", "<="] {
            assert!(permit(&format!("grade{}2.50", mark)).ends_with(&format!("principal.grade {} 2.50 }};", mark)));
        }
        assert!(permit("grade>=00.10 & grade<-0").ends_with("principal.grade >= 00.10 && principal.grade < -0 };"));
    }

    #[test]
    fn values_are_runs_of_their_bytes() {
        for value in ["a", "7", "_", "-", "--", "-3", "3-5", "own", "if", "azAZ09_-"] {
            assert!(permit(&format!("firm:{}", value)).ends_with(&format!("principal.firm == \"{}\" }};", value)));
        }
    }

    #[test]
    fn what_is_no_lock_is_28() {
        use Reason::*;
        for (lock, at, reason) in [
            ("", 0, WordExpected),
            (" \n", 2, WordExpected),
            ("&", 0, WordExpected),
            ("firm:own &", 10, WordExpected),
            ("firm:own && firm:own", 10, WordExpected),
            ("& firm:own", 0, WordExpected),
            ("3>grade", 0, WordExpected),
            ("_a:b", 0, WordExpected),
            ("-a:b", 0, WordExpected),
            ("!firm:own", 0, WordExpected),
            ("(firm:own)", 0, WordExpected),
            ("Firm:own", 0, UnknownWord),
            ("firms:own", 0, UnknownWord),
            ("fir:own", 0, UnknownWord),
            ("firm-:own", 0, UnknownWord),
            ("firm", 4, MarkExpected),
            ("firm own", 5, MarkExpected),
            ("firm=own", 4, MarkExpected),
            ("grade==3", 5, MarkExpected),
            ("grade!=3", 5, MarkExpected),
            ("grade 3", 6, MarkExpected),
            ("firm.a:own", 4, MarkExpected),
            ("grade:3", 5, AgainstSort(Sort::Number)),
            ("grade:>=3", 5, AgainstSort(Sort::Number)),
            ("firm>3", 4, AgainstSort(Sort::Equality)),
            ("flag <= 3", 5, AgainstSort(Sort::Membership)),
            ("firm:", 5, ValueExpected),
            ("firm: & firm:own", 6, ValueExpected),
            ("firm::own", 5, ValueExpected),
            ("firm:\"own\"", 5, ValueExpected),
            ("firm:.5", 5, ValueExpected),
            ("grade>", 6, NumberExpected),
            ("grade>=x", 7, NumberExpected),
            ("grade> =3", 7, NumberExpected),
            ("grade>==3", 7, NumberExpected),
            ("grade><3", 6, NumberExpected),
            ("grade>.5", 6, NumberExpected),
            ("grade>-", 6, NumberExpected),
            ("grade>- 3", 6, NumberExpected),
            ("grade>--3", 6, NumberExpected),
            ("grade>+3", 6, NumberExpected),
            ("firm:own firm:own", 9, AndExpected),
            ("firm:own | firm:own", 9, AndExpected),
            ("firm:own.de", 8, AndExpected),
            ("firm:3.5", 6, AndExpected),
            ("firm:own:de", 8, AndExpected),
            ("grade>=3x", 8, AndExpected),
            ("grade>=3.", 8, AndExpected),
            ("grade>=3.x", 8, AndExpected),
            ("grade>=3 .5", 9, AndExpected),
            ("grade>=3. 5", 8, AndExpected),
            ("grade>=1.2.3", 10, AndExpected),
            ("grade>=1-5", 8, AndExpected),
            ("grade>=1e5", 8, AndExpected),
            ("firm:own\x0B", 8, AndExpected),
            ("firm:own;", 8, AndExpected),
            ("f\u{fc}rm:own", 0, UnknownWord),
            ("firm:\u{fc}", 5, ValueExpected),
        ] {
            assert_eq!(why(lock), (at, reason), "{}", lock);
        }
    }

    #[test]
    fn sizes_pass_at_their_number_and_not_one_above() {
        let joined = |count: usize| vec!["firm:a"; count].join("&");
        assert_eq!(of_lock(joined(16).as_bytes()).unwrap().tests.len(), 16);
        assert_eq!(why(&joined(17)), (112, Reason::TooManyTests));
        assert!(of_lock(format!("firm:{}", "v".repeat(127)).as_bytes()).is_ok());
        assert_eq!(why(&format!("firm:{}", "v".repeat(128))), (5, Reason::ValueTooLong));
        for (number, good) in [
            ("123456789012345", true),
            ("-123456789012345", true),
            ("12345678.1234567", true),
            ("000000000000000", true),
            ("1234567890123456", false),
            ("12345678.12345678", false),
            ("0000000000000001", false),
        ] {
            assert_eq!(of_lock(format!("grade<{}", number).as_bytes()).is_ok(), good, "{}", number);
        }
        assert_eq!(why("grade<1234567890123456"), (6, Reason::NumberTooLong));
        // What is too long would not compile.
        for (asks, good) in [
            (Asks::Is(vec![b'v'; 127]), true),
            (Asks::Is(vec![b'v'; 128]), false),
            (Asks::Has(vec![b'v'; 128]), false),
            (Asks::Compares(Comparator::Less, vec![b'1'; 15]), true),
            (Asks::Compares(Comparator::Less, vec![b'1'; 16]), false),
        ] {
            let tests = vec![Test { path: b"a".to_vec(), asks }];
            let permit = Permit { actions: vec![b"a".to_vec()], resource: b"b".to_vec(), tests };
            assert_eq!(policies_of(&permit.text()).is_ok(), good);
        }
    }

    fn flaw_of_words(bytes: &[u8]) -> (usize, Reason) {
        let flaw = words_of(bytes).unwrap_err();
        assert_eq!(flaw.part, Part::Vocabulary);
        (flaw.at, flaw.reason)
    }

    #[test]
    fn vocabularies_have_their_form() {
        assert_eq!(words_of(&[]), Ok(Vec::new()));
        assert_eq!(words_of(&usual()).unwrap()[1].path, b"flags");
        let bytes = usual();
        let ends = [0, 11, 23, 36];
        assert_eq!(bytes.len(), 36);
        for end in 0..=bytes.len() {
            assert_eq!(words_of(&bytes[..end]).is_ok(), ends.contains(&end), "{}", end);
        }
        for sort in [0, 4, 255] {
            assert_eq!(flaw_of_words(&vocabulary(&[("a", "b", sort)])), (4, Reason::UnknownSort));
        }
        let many: Vec<String> = (0..17).map(|index| format!("w{}", index)).collect();
        let entries: Vec<(&str, &str, u8)> = many.iter().map(|word| (word.as_str(), "a", 1)).collect();
        assert_eq!(words_of(&vocabulary(&entries[..16])).unwrap().len(), 16);
        assert_eq!(flaw_of_words(&vocabulary(&entries)).1, Reason::TooManyWords);
        assert_eq!(
            flaw_of_words(&vocabulary(&[("a", "b", 1), ("b", "b", 1), ("a", "c", 2)])),
            (11, Reason::RepeatedWord)
        );
        for word in ["", "1", "_a", "-a", "a b", " a", "a ", "a.b", "a:b", "\u{fc}", "\"a\""] {
            assert_eq!(flaw_of_words(&vocabulary(&[(word, "b", 1)])), (1, Reason::NotAWord), "{}", word);
        }
        for path in ["", "if", "a.in", "a.", "a b", "1", "principal.a"] {
            assert_eq!(flaw_of_words(&vocabulary(&[("a", path, 1)])), (3, Reason::NotAPath), "{}", path);
        }
        for (length, good) in [(64, true), (65, false)] {
            let long = "w".repeat(length);
            assert_eq!(words_of(&vocabulary(&[(&long, "a", 1)])).is_ok(), good);
            assert_eq!(words_of(&vocabulary(&[("a", &long, 1)])).is_ok(), good);
        }
    }

    // Reserved words are words; the path alone is looked up.
    #[test]
    fn reserved_words_are_words() {
        for word in RESERVED_WORDS {
            let lent = vocabulary(&[(word, "a", 1)]);
            let lock = format!("{}:{}", word, word);
            let lent = Lent { vocabulary: &lent, lock: lock.as_bytes(), actions: ACTIONS, resource: RESOURCE };
            assert!(permit_of(lent).unwrap().text().ends_with(format!("principal.a == \"{}\" }};", word).as_bytes()));
        }
    }

    fn of_actions(actions: &[u8], resource: &[u8]) -> Result<Permit, (Part, usize, Reason)> {
        let vocabulary = usual();
        permit_of(Lent { vocabulary: &vocabulary, lock: b"firm:a", actions, resource })
            .map_err(|flaw| (flaw.part, flaw.at, flaw.reason))
    }

    #[test]
    fn actions_and_resource_are_strings() {
        let actions = |bytes: &[u8]| of_actions(bytes, RESOURCE).map(|permit| permit.actions.len());
        assert_eq!(actions(&[0]), Ok(1));
        assert_eq!(actions(&[0; 16]), Ok(16));
        assert_eq!(actions(&[0; 17]), Err((Part::Actions, 16, Reason::TooManyActions)));
        assert_eq!(actions(&[]), Err((Part::Actions, 0, Reason::NoAction)));
        assert_eq!(actions(b"\x02a"), Err((Part::Actions, 0, Reason::CutOff)));
        assert_eq!(actions(b"\x01a\x01"), Err((Part::Actions, 2, Reason::CutOff)));
        assert_eq!(actions(b"\x01a\x02a\""), Err((Part::Actions, 4, Reason::NotAString)));
        let long = |length: u8| [vec![length], vec![b'x'; usize::from(length)]].concat();
        assert_eq!(actions(&long(127)), Ok(1));
        assert_eq!(actions(&long(128)), Err((Part::Actions, 1, Reason::StringTooLong)));
        for byte in 0..=255u8 {
            let good = byte != b'"' && (0x20..=0x7E).contains(&byte);
            assert_eq!(actions(&[1, byte]).is_ok(), good, "{}", byte);
            assert_eq!(of_actions(ACTIONS, &[b'a', byte]).is_ok(), good, "{}", byte);
        }
        // 02, request 5: strings are UTF-8.
        assert_eq!(actions("\x04Süd".as_bytes()), Ok(1));
        assert_eq!(actions(b"\x01a\x03S\xFCd"), Err((Part::Actions, 3, Reason::NotUtf8)));
        assert!(of_actions(ACTIONS, "shaft:Süd".as_bytes()).is_ok());
        assert_eq!(of_actions(ACTIONS, b"shaft:S\xFCd"), Err((Part::Resource, 0, Reason::NotUtf8)));
        assert_eq!(of_actions(ACTIONS, b"\xFF\x01"), Err((Part::Resource, 1, Reason::NotAString)));
        assert!(of_actions(ACTIONS, &[b'x'; 127]).is_ok());
        assert_eq!(of_actions(ACTIONS, &[b'x'; 128]), Err((Part::Resource, 0, Reason::StringTooLong)));
        assert_eq!(of_actions(ACTIONS, b"a\n"), Err((Part::Resource, 1, Reason::NotAString)));
        // Order and repeats stay.
        let text = of_actions(b"\x01b\x01a\x01b", b"").unwrap().text();
        assert!(text.starts_with(b"permit(principal, action in [\"b\", \"a\", \"b\"], resource == \"\")"));
    }

    #[test]
    fn the_longest_permit_is_far_below_a_text() {
        let word = |index: usize| (vec![b'a' + index as u8], vec![b'p'; 64], 1);
        let vocabulary = vocabulary_bytes(&(0..16).map(word).collect::<Vec<_>>());
        let test = |index: u8| [vec![b'a' + index, b':'], vec![b'v'; 127]].concat();
        let lock = (0..16).map(test).collect::<Vec<_>>().join(&b'&');
        let actions = action_bytes(&vec![vec![b'x'; 127]; 16]);
        let lent = Lent { vocabulary: &vocabulary, lock: &lock, actions: &actions, resource: &[b'y'; 127] };
        // The words around, 16 actions, the resource, 16 tests with a path, an operator and a value.
        let around = 29 + 15 + 9 + 3;
        let expected = around + (16 * 129 + 15 * 2) + 129 + (16 * (10 + 64 + 4 + 129) + 15 * 4);
        assert_eq!(expected, 5_651);
        assert_eq!(permit_of(lent).unwrap().text().len(), expected);
    }

    #[test]
    fn rooms_are_enough_or_not() {
        let vocabulary = usual();
        let lent = Lent { vocabulary: &vocabulary, lock: b"firm:own", actions: ACTIONS, resource: RESOURCE };
        let text = permit_of(lent).unwrap().text();
        for room in [0, text.len() - 1, text.len(), text.len() + 5] {
            let mut lent_room = vec![7; room];
            let answer = write_permit(lent, &mut lent_room);
            if room < text.len() {
                assert_eq!(answer, Err(NO_ROOM));
                assert!(lent_room.iter().all(|byte| *byte == 7));
            } else {
                assert_eq!(answer, Ok(text.len()));
                assert_eq!(lent_room, [&text[..], &vec![7; room - text.len()]].concat());
            }
        }
        let bad = Lent { lock: b"firm", ..lent };
        assert_eq!(write_permit(bad, &mut []), Err(NO_LOCK));
        assert_eq!(printed(lent, 300), [&text[..], b"\n"].concat());
        assert_eq!(printed(lent, 10), b"refused 29 0 0 0\n");
        assert_eq!(printed(bad, 300), b"refused 28 0 0 0\n");
    }

    // Each test's truth, worked by hand, and as its permit is decided.
    #[test]
    fn a_lock_means_its_tests() {
        let entry = |path: &str, value: Vec<u8>| Entry { path: path.as_bytes().to_vec(), value };
        let principal = vec![
            entry("firm", string_value(b"own")),
            entry("flags", list_value(&[b"taught".to_vec(), b"own".to_vec()])),
            entry("grade", number_value(3.0_f64.to_bits())),
        ];
        let other = vec![entry("firm", list_value(&[b"own".to_vec()])), entry("flags", string_value(b"taught"))];
        let bag = |principal: Vec<Entry>| Plan { sections: [principal, Vec::new(), Vec::new()], columns: None }.bytes();
        let (full, mixed, empty) = (bag(principal), bag(other), vec![0, 0, 0]);
        for (lock, in_full) in [
            ("firm:own", true),
            ("firm:loan", false),
            ("firm:Own", false),
            ("flag:taught", true),
            ("flag:own", true),
            ("flag:tau", false),
            ("grade>=3", true),
            ("grade>=3.0", true),
            ("grade<=3", true),
            ("grade>3", false),
            ("grade<3", false),
            ("grade>2.5", true),
            ("grade<-3", false),
            ("firm:own & flag:taught & grade>=3", true),
            ("firm:own & flag:taught & grade>=4", false),
            ("firm:loan & flag:taught & grade>=3", false),
        ] {
            let permit = of_lock(lock.as_bytes()).unwrap();
            let text = permit.text();
            let tables = [1, 2].map(|version| compile(&text, 8 * text.len(), version).unwrap().table);
            for (bag, expected) in [(&full, in_full), (&mixed, false), (&empty, false)] {
                for (action, resource, fits) in [
                    ("teach", "shaft:A", true),
                    ("read", "shaft:A", true),
                    ("write", "shaft:A", false),
                    ("teach", "shaft:B", false),
                ] {
                    let request =
                        Request { subject: b"tool:1", action: action.as_bytes(), resource: resource.as_bytes() };
                    let decision = permit.decide(bag, request);
                    assert_eq!(
                        decision.clone().map(|it| it.outcome),
                        Ok(if expected && fits { 1 } else { 3 }),
                        "{}",
                        lock
                    );
                    for table in &tables {
                        assert_eq!(decide(&text, table, bag, request), decision);
                    }
                }
            }
        }
    }
}
