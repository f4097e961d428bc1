//! The text form of questions and bags, read: what it says, or what is wrong and where (docs/QUESTIONS.md).

use definitions::bags::{Content, LONGEST_BAG, LONGEST_STRING, MOST_ENTRIES, MOST_STRINGS};
use definitions::compile::LONGEST_PATH;
use definitions::questions::{MOST_CANDIDATES, MOST_COLUMNS};
use definitions::tokens::{place_of, RESERVED_WORDS};

use crate::form::{
    attribute, bytes_of_candidate, bytes_of_entry, name_of, whole_request, Column, Form, SaidParts, PARTS, ROOTS,
};
use crate::words::{grouped, ordinal};
use crate::writing::shown;

/// What is wrong, and its offset in the text.
#[derive(PartialEq, Debug)]
pub struct Wrong {
    pub at: usize,
    pub what: String,
}

pub type Read<T> = Result<T, Wrong>;

pub fn wrong<T>(at: usize, what: impl Into<String>) -> Read<T> {
    Err(Wrong { at, what: what.into() })
}

const A_LINE: &str =
    "expected an attribute (principal, resource or env, a dot and a path), subject, action, resource, column or request";
const A_PART: &str =
    "expected subject, action, resource or request: attributes and columns stand before the first request";
const AN_ATTRIBUTE: &str = "expected an attribute after column: principal, resource or env, a dot and a path";
const A_VALUE: &str = "expected a value: a string in quotes, a number, true, false, or a list of strings in [ ]";
const A_CANDIDATE: &str =
    "expected a candidate: absent, a string in quotes, a number, true, false, or a list of strings in [ ]";
const A_NUMBER: &str = "this is no number; expected one such as 3, -2.5, 6e-7 or bits 0x3FB999999999999A";
const AN_ESCAPE: &str = "expected \\\", \\\\, \\n, \\r, \\t, or \\x and two hexadecimal digits";

/// How each part of a request is written.
const AS_IN: [&str; 3] = ["\"person:K7\"", "\"teach\"", "\"shaft:A\""];

/// The first comment of a text, without its mark: the title of a question.
pub fn first_comment(text: &[u8]) -> Option<String> {
    let line = text.split(|byte| *byte == b'\n').map(|line| shown(line)).find(|line| !line.trim().is_empty())?;
    let title = line.trim().strip_prefix('#')?.trim().trim_end_matches("\\r").trim().to_string();
    Some(title).filter(|title| !title.is_empty())
}

/// The question or bag that a text says.
pub fn read_text(text: &[u8]) -> Read<Form> {
    if text.starts_with(b"\xEF\xBB\xBF") {
        return wrong(0, "the file begins with a byte order mark; save it without one");
    }
    let mut reader = Reader::new(text);
    reader.pass_lines();
    while reader.at < text.len() {
        reader.statement()?;
        reader.pass_lines();
    }
    reader.finish_request()?;
    let mut form = reader.form;
    if reader.is_question {
        form.columns = Some(reader.columns);
    }
    Ok(form)
}

/// Reads a text statement by statement.
pub struct Reader<'a> {
    pub text: &'a [u8],
    pub at: usize,
    is_question: bool,
    /// The base; the columns are kept apart until the end.
    pub form: Form,
    columns: Vec<Column>,
    /// In a test `absent` removes what holds for all tests: these attributes.
    pub removed: Option<Vec<(usize, Vec<u8>)>>,
    /// The bytes so far.
    size: usize,
    /// Where each attribute of the base and each column was written.
    entry_places: Vec<(usize, Vec<u8>, usize)>,
    column_places: Vec<usize>,
    part_places: [Option<usize>; 3],
    /// The request that is begun: where its line `request` stands, and its own parts.
    begun_request: Option<(usize, SaidParts)>,
    /// Whether a statement was read.
    begun: bool,
}

pub fn is_word_byte(byte: u8) -> bool {
    byte.is_ascii_alphanumeric() || byte == b'_' || byte == b'-'
}

impl<'a> Reader<'a> {
    pub fn new(text: &'a [u8]) -> Reader<'a> {
        Reader {
            text,
            at: 0,
            is_question: true,
            form: Form::default(),
            columns: Vec::new(),
            removed: None,
            size: 4,
            entry_places: Vec::new(),
            column_places: Vec::new(),
            part_places: [None; 3],
            begun_request: None,
            begun: false,
        }
    }

    pub fn peek(&self) -> Option<u8> {
        self.text.get(self.at).copied()
    }

    /// Take the byte if it is next.
    fn takes(&mut self, byte: u8) -> bool {
        let is_next = self.peek() == Some(byte);
        self.at += usize::from(is_next);
        is_next
    }

    /// The bytes from here on that belong.
    pub fn run(&mut self, belongs: fn(u8) -> bool) -> &'a [u8] {
        let start = self.at;
        while self.peek().map_or(false, belongs) {
            self.at += 1;
        }
        &self.text[start..self.at]
    }

    pub fn pass_blanks(&mut self) {
        self.run(|byte| byte == b' ' || byte == b'\t' || byte == b'\r');
    }

    /// Pass blanks, comments and line ends.
    pub fn pass_lines(&mut self) {
        loop {
            self.pass_blanks();
            if self.peek() == Some(b'#') {
                self.run(|byte| byte != b'\n');
            } else if !self.takes(b'\n') {
                return;
            }
        }
    }

    pub fn line_of(&self, at: usize) -> usize {
        place_of(self.text, at).line
    }

    /// One statement with the end of its line.
    pub fn statement(&mut self) -> Read<()> {
        let start = self.at;
        let word = self.run(is_word_byte);
        match word {
            b"permit" | b"forbid" => {
                return wrong(start, "this is a rule text: expected a question, a bag or tests");
            }
            b"question" | b"bag" => self.kind(word == b"question", start)?,
            b"column" if self.begun_request.is_none() => {
                self.pass_blanks();
                self.column(start)?;
            }
            b"subject" | b"action" | b"resource" if self.peek() != Some(b'.') => self.part(word, start)?,
            b"request" => self.request(start)?,
            _ => {
                self.at = start;
                self.entry()?;
            }
        }
        self.begun = true;
        self.end_of_line(word)
    }

    /// Nothing follows a statement in its line; the word is the one it began with.
    pub fn end_of_line(&mut self, word: &[u8]) -> Read<()> {
        self.pass_blanks();
        match self.peek() {
            None | Some(b'\n') | Some(b'#') => Ok(()),
            Some(b'|') => wrong(self.at, "| stands between the candidates of a column; expected the end of the line"),
            Some(_) if word == b"column" => wrong(self.at, "expected | and another candidate, or the end of the line"),
            Some(_) => wrong(self.at, "expected the end of the line"),
        }
    }

    /// `question` or `bag`, before all else.
    fn kind(&mut self, is_question: bool, start: usize) -> Read<()> {
        if self.begun {
            return wrong(start, format!("{} must stand before all other lines, and once", name_of(is_question)));
        }
        self.is_question = is_question;
        self.size = if is_question { 4 } else { 3 };
        Ok(())
    }

    /// What stands after `subject`, `action` or `resource`: `=` and a string.
    fn part(&mut self, word: &[u8], start: usize) -> Read<()> {
        let index = PARTS.iter().position(|part| part.as_bytes() == word).unwrap_or(0);
        if let Some(at) = self.part_places[index] {
            return wrong(start, format!("{} has a value already, in line {}", PARTS[index], self.line_of(at)));
        }
        self.pass_blanks();
        if !self.takes(b'=') {
            return wrong(self.at, format!("expected = and a string in quotes after {}", PARTS[index]));
        }
        self.pass_blanks();
        if self.peek() != Some(b'"') {
            return wrong(self.at, format!("expected a string in quotes: {} = {}", PARTS[index], AS_IN[index]));
        }
        let string = Some(self.string()?);
        match &mut self.begun_request {
            Some((_, own)) => own[index] = string,
            None => self.form.request[index] = string,
        }
        self.part_places[index] = Some(start);
        Ok(())
    }

    /// What stands after `request`: its own parts.
    fn request(&mut self, start: usize) -> Read<()> {
        if !self.is_question {
            return wrong(start, "a bag has one request: expected subject, action and resource without a line request");
        }
        self.finish_request()?;
        self.begun_request = Some((start, Default::default()));
        self.part_places = [None; 3];
        Ok(())
    }

    /// The request that is begun ends here: the parts that it has not are those before the first request.
    fn finish_request(&mut self) -> Read<()> {
        let (start, own) = match self.begun_request.take() {
            Some(begun) => begun,
            None => return Ok(()),
        };
        match whole_request(&self.form.request, own) {
            Ok(request) => self.form.requests.push(request),
            Err(part) => {
                let what =
                    format!("this request has no {}: say {} = \"..\" in it, or before the first request", part, part);
                return wrong(start, what);
            }
        }
        Ok(())
    }

    /// An attribute of the base and its value.
    fn entry(&mut self) -> Read<()> {
        let start = self.at;
        if self.begun_request.is_some() {
            return wrong(start, A_PART);
        }
        let (root, path) = self.attribute(A_LINE)?;
        let name = attribute(root, &path);
        if let Some((_, _, at)) = self.entry_places.iter().find(|(r, p, _)| (*r, p) == (root, &path)) {
            return wrong(start, format!("{} has a value already, in line {}", name, self.line_of(*at)));
        }
        if self.form.sections[root].len() == usize::from(MOST_ENTRIES) {
            let number = ordinal(usize::from(MOST_ENTRIES) + 1);
            let what = format!("{} would be the {} attribute of {}; expected at most 32", name, number, ROOTS[root]);
            return wrong(start, what);
        }
        self.equals()?;
        if let (Some(removed), b"absent") = (&mut self.removed, word_at(self.text, self.at)) {
            removed.push((root, path.clone()));
            self.entry_places.push((root, path, start));
            self.run(is_word_byte);
            return Ok(());
        }
        let value = self.base_value()?;
        self.size += bytes_of_entry(&path, &value).len();
        self.check_size(start)?;
        self.entry_places.push((root, path.clone(), start));
        self.form.sections[root].insert(path, value);
        Ok(())
    }

    fn base_value(&mut self) -> Read<Content> {
        if self.word_here() == b"absent" {
            let what =
                "absent is for the candidates of a column; an attribute that is left out is absent from the base";
            return wrong(self.at, what);
        }
        self.value(A_VALUE)
    }

    /// What stands after `column`: an attribute and its candidates.
    fn column(&mut self, start: usize) -> Read<()> {
        if !self.is_question {
            return wrong(start, "a bag has no columns; expected an attribute of the base");
        }
        let (root, path) = self.attribute(AN_ATTRIBUTE)?;
        let mut column = Column { root, path, candidates: Vec::new() };
        let same = self.columns.iter().position(|other| other.root == root && other.path == column.path);
        if let Some(same) = same {
            let line = self.line_of(self.column_places[same]);
            return wrong(start, format!("{} is a column already, in line {}", column.name(), line));
        }
        if self.columns.len() == usize::from(MOST_COLUMNS) {
            return wrong(start, "this would be the 7th column; expected at most 6");
        }
        self.equals()?;
        self.candidates(&mut column)?;
        self.size += column.bytes().len();
        self.check_size(start)?;
        self.columns.push(column);
        self.column_places.push(start);
        Ok(())
    }

    /// Candidates with `|` between them, over one or more lines.
    fn candidates(&mut self, column: &mut Column) -> Read<()> {
        loop {
            self.pass_lines();
            let start = self.at;
            if column.candidates.len() == usize::from(MOST_CANDIDATES) {
                return wrong(start, "this would be the 9th candidate of the column; expected at most 8");
            }
            let candidate = if self.word_here() == b"absent" {
                self.run(is_word_byte);
                None
            } else {
                Some(self.value(A_CANDIDATE)?)
            };
            let bytes = bytes_of_candidate(&candidate);
            if let Some(same) = column.candidates.iter().position(|other| bytes_of_candidate(other) == bytes) {
                return wrong(start, format!("this candidate is the same as the {} of its column", ordinal(same + 1)));
            }
            column.candidates.push(candidate);
            let end = self.at;
            self.pass_lines();
            if !self.takes(b'|') {
                self.at = end;
                return Ok(());
            }
        }
    }

    fn check_size(&self, start: usize) -> Read<()> {
        if self.size <= LONGEST_BAG {
            return Ok(());
        }
        let (name, most) = (name_of(self.is_question), grouped(LONGEST_BAG));
        wrong(start, format!("with this the {} has {} bytes; expected at most {}", name, grouped(self.size), most))
    }

    /// `=`; the value may begin in a later line.
    fn equals(&mut self) -> Read<()> {
        self.pass_blanks();
        if !self.takes(b'=') {
            return wrong(self.at, "expected = and a value after the attribute");
        }
        self.pass_lines();
        Ok(())
    }

    /// The word that stands here, which is not taken.
    pub fn word_here(&self) -> &'a [u8] {
        word_at(self.text, self.at)
    }

    /// Begin a bag anew: what was read so far is given.
    pub fn begin_bag(&mut self) -> Form {
        self.is_question = false;
        self.size = 3;
        self.entry_places.clear();
        self.part_places = [None; 3];
        self.begun = true;
        std::mem::take(&mut self.form)
    }

    /// A root, a dot and a path, without blanks; `expected` is said where no root stands.
    fn attribute(&mut self, expected: &str) -> Read<(usize, Vec<u8>)> {
        let start = self.at;
        let word = self.run(is_word_byte);
        if word == b"action" {
            return wrong(start, "action has no section: its one attribute, name, is what action = \"..\" says");
        }
        let root = match ROOTS.iter().position(|root| root.as_bytes() == word) {
            Some(root) => root,
            None => return wrong(start, expected),
        };
        if !self.takes(b'.') {
            return wrong(self.at, format!("expected a dot and a path directly after {}", ROOTS[root]));
        }
        let path_start = self.at;
        self.name()?;
        while self.takes(b'.') {
            self.name()?;
        }
        let path = self.text[path_start..self.at].to_vec();
        if path.len() > LONGEST_PATH {
            return wrong(path_start, format!("this path has {} bytes; expected at most {}", path.len(), LONGEST_PATH));
        }
        Ok((root, path))
    }

    /// One name of a path.
    fn name(&mut self) -> Read<()> {
        let start = self.at;
        let word = self.run(is_word_byte);
        if !word.first().map_or(false, |byte| byte.is_ascii_alphabetic()) {
            return wrong(start, "expected a name, which begins with a letter; a path is names joined by single dots");
        }
        match RESERVED_WORDS.iter().find(|reserved| reserved.as_bytes() == word) {
            Some(reserved) => {
                wrong(start, format!("{} is a reserved word of rule texts; expected another name in a path", reserved))
            }
            None => Ok(()),
        }
    }

    /// A string, number, flag or list; `expected` is said where none begins.
    fn value(&mut self, expected: &str) -> Read<Content> {
        let start = self.at;
        match self.peek() {
            Some(b'"') => Ok(Content::String(self.string()?)),
            Some(b'[') => self.list(),
            Some(b'-') | Some(b'+') | Some(b'.') | Some(b'0'..=b'9') => self.number(),
            _ => match self.word_here() {
                b"true" | b"false" => Ok(Content::Flag(self.run(is_word_byte) == b"true")),
                b"bits" => self.bits(),
                _ if self.text[start..].starts_with(b"\xE2\x80") => {
                    wrong(start, "a string stands in straight quotes: \"..\"")
                }
                _ => wrong(start, expected),
            },
        }
    }

    /// Strings in `[ ]` with commas between them, over one or more lines.
    fn list(&mut self) -> Read<Content> {
        self.at += 1;
        let mut strings = Vec::new();
        self.pass_lines();
        if self.takes(b']') {
            return Ok(Content::List(strings));
        }
        loop {
            self.pass_lines();
            if self.peek() != Some(b'"') {
                return wrong(self.at, "expected a string in quotes: a list holds strings only");
            }
            if strings.len() == usize::from(MOST_STRINGS) {
                return wrong(self.at, "this would be the 17th string of the list; expected at most 16");
            }
            strings.push(self.string()?);
            self.pass_lines();
            if self.takes(b']') {
                return Ok(Content::List(strings));
            }
            if !self.takes(b',') {
                return wrong(self.at, "expected , and another string, or ] at the list's end");
            }
        }
    }

    /// A string in one line, with its escapes.
    pub fn string(&mut self) -> Read<Vec<u8>> {
        let start = self.at;
        let string = self.long_string()?;
        if string.len() > usize::from(LONGEST_STRING) {
            let what = format!("this string has {} bytes; expected at most {}", string.len(), LONGEST_STRING);
            return wrong(start, what);
        }
        Ok(string)
    }

    /// A string of any length.
    pub fn long_string(&mut self) -> Read<Vec<u8>> {
        let start = self.at;
        self.at += 1;
        let mut string = Vec::new();
        loop {
            let at = self.at;
            self.at += 1;
            match self.text.get(at) {
                None | Some(b'\n') => return wrong(start, "this string has no closing quote in its line"),
                Some(b'"') => break,
                Some(b'\\') => string.push(self.escape()?),
                Some(b'\r') if self.peek() == Some(b'\n') => {
                    return wrong(start, "this string has no closing quote in its line");
                }
                Some(byte) if *byte < 0x20 || *byte == 0x7F => {
                    return wrong(at, format!("a control byte cannot stand in a string; expected \\x{:02X}", byte));
                }
                Some(byte) => string.push(*byte),
            }
        }
        Ok(string)
    }

    /// What stands after a backslash.
    fn escape(&mut self) -> Read<u8> {
        let start = self.at - 1;
        let byte = self.peek();
        self.at += 1;
        match byte {
            Some(mark @ (b'"' | b'\\')) => Ok(mark),
            Some(b'n') => Ok(b'\n'),
            Some(b'r') => Ok(b'\r'),
            Some(b't') => Ok(b'\t'),
            Some(b'x') => match self.text.get(self.at..self.at + 2).and_then(hexadecimal) {
                Some(value) => {
                    self.at += 2;
                    Ok(value as u8)
                }
                None => wrong(start, AN_ESCAPE),
            },
            _ => wrong(start, AN_ESCAPE),
        }
    }

    /// A decimal, rounded once to binary64.
    fn number(&mut self) -> Read<Content> {
        let start = self.at;
        let written = self.run(|byte| is_word_byte(byte) || byte == b'.' || byte == b'+');
        if !is_decimal(written) {
            return wrong(start, A_NUMBER);
        }
        let number: f64 =
            String::from_utf8_lossy(written).parse().map_err(|_| Wrong { at: start, what: A_NUMBER.into() })?;
        let digits = written.split(|byte| matches!(byte, b'e' | b'E')).next().unwrap_or(written);
        let is_written_zero = !digits.iter().any(|byte| matches!(byte, b'1'..=b'9'));
        if number.is_infinite() {
            wrong(start, "this number is too great; the greatest is 1.7976931348623157e308")
        } else if number == 0.0 && !is_written_zero {
            wrong(start, "this number is not 0 and would become 0; the least above 0 is 5e-324")
        } else {
            Ok(Content::Number(number))
        }
    }

    /// `bits 0x` and 16 hexadecimal digits.
    fn bits(&mut self) -> Read<Content> {
        self.at += b"bits".len();
        self.pass_blanks();
        let start = self.at;
        let digits = self.run(is_word_byte);
        let bits = digits.strip_prefix(b"0x").filter(|digits| digits.len() == 16).and_then(hexadecimal);
        match bits.map(f64::from_bits) {
            None => wrong(start, "expected 0x and 16 hexadecimal digits after bits"),
            Some(number) if !number.is_finite() => wrong(start, "these bits are no finite number"),
            Some(number) => Ok(Content::Number(number)),
        }
    }
}

/// The word at an offset.
fn word_at(text: &[u8], at: usize) -> &[u8] {
    let rest = &text[at..];
    let length = rest.iter().position(|byte| !is_word_byte(*byte)).unwrap_or(rest.len());
    &rest[..length]
}

/// The value of hexadecimal digits.
fn hexadecimal(digits: &[u8]) -> Option<u64> {
    let mut value = 0;
    for digit in digits {
        value = value * 16 + u64::from((*digit as char).to_digit(16)?);
    }
    Some(value)
}

/// An optional minus, digits, optionally a point and digits, optionally e, a sign and digits.
fn is_decimal(written: &[u8]) -> bool {
    let unsigned = written.strip_prefix(b"-").unwrap_or(written);
    let mut parts = unsigned.splitn(2, |byte| matches!(byte, b'e' | b'E'));
    let are_digits = |digits: &[u8]| !digits.is_empty() && digits.iter().all(u8::is_ascii_digit);
    let mantissa_is_good =
        parts.next().map_or(false, |mantissa| mantissa.splitn(2, |byte| *byte == b'.').all(are_digits));
    let exponent_is_good = parts.next().map_or(true, |exponent| {
        let unsigned = exponent.strip_prefix(b"-").or_else(|| exponent.strip_prefix(b"+")).unwrap_or(exponent);
        are_digits(unsigned)
    });
    mantissa_is_good && exponent_is_good
}

#[cfg(test)]
mod tests {
    use super::*;
    use crate::places::place_in_text;
    use crate::documented;
    use crate::writing::text_of;
    use definitions::bags::read_bag;
    use definitions::questions::read_question;
    use generators::bag_bytes::question;
    use generators::random::Random;

    /// The first thing that is wrong with a text, as line, column and words.
    fn wrong_with(text: &str) -> String {
        let wrong = read_text(text.as_bytes()).unwrap_err();
        assert!(documented(&wrong.what), "not in docs/QUESTIONS.md: {}", wrong.what);
        let place = place_in_text(text.as_bytes(), wrong.at);
        format!("{}:{}: {}", place.line, place.column, wrong.what)
    }

    fn written(text: &str) -> String {
        text_of(&read_text(text.as_bytes()).unwrap())
    }

    #[test]
    fn lines_come_in_any_order() {
        let text = "# the base
            env.hour = 7.50   # half past seven
            principal.skills = [ \"brake\",
                \"door\" ]  # two
            column principal.hired = absent
                | \"own\"     # ours
                | \"loan\"
            principal.grade = 3.0
            column resource.taught = true | absent

            resource.note = \"a \\\"b\\\" \\x00\\\\ Süd\" ";
        let expected = "question

principal.grade = 3
principal.skills = [\"brake\", \"door\"]

resource.note = \"a \\\"b\\\" \\x00\\\\ Süd\"

env.hour = 7.5

column principal.hired = absent | \"own\" | \"loan\"
column resource.taught = true | absent
";
        assert_eq!(written(text), expected);
        assert_eq!(written(expected), expected);
        assert_eq!(written(&expected.replace('\n', "\r\n")), expected);
    }

    #[test]
    fn an_empty_text_is_the_least_question() {
        assert_eq!(read_text(b"").unwrap().bytes(), [0, 0, 0, 0]);
        assert_eq!(read_text(b" # nothing").unwrap().bytes(), [0, 0, 0, 0]);
        assert_eq!(read_text(b"question").unwrap().bytes(), [0, 0, 0, 0]);
        assert_eq!(read_text(b"bag\n").unwrap().bytes(), [0, 0, 0]);
        assert_eq!(written("bag\nenv.a = []"), "bag\n\nenv.a = []\n");
    }

    #[test]
    fn numbers_are_rounded_once() {
        let bits = |text: &str| match read_text(format!("env.a = {}", text).as_bytes()).unwrap().sections[2][&b"a"[..]]
        {
            Content::Number(number) => number.to_bits(),
            _ => panic!("{} is no number", text),
        };
        assert_eq!(bits("0.1"), 0x3FB9_9999_9999_999A);
        assert_eq!(bits("0.1"), bits("bits 0x3FB999999999999a"));
        assert_eq!(bits("-0"), 0x8000_0000_0000_0000);
        assert_eq!(bits("-0.0e9"), 0x8000_0000_0000_0000);
        assert_eq!(bits("0e999"), 0);
        assert_eq!(bits("5e-324"), 1);
        assert_eq!(bits("007.50"), 7.5_f64.to_bits());
        assert_eq!(bits("1E+2"), 100.0_f64.to_bits());
        assert_eq!(bits("9007199254740993"), 9_007_199_254_740_992.0_f64.to_bits());
        assert_eq!(bits("1.7976931348623157e308"), f64::MAX.to_bits());
    }

    #[test]
    fn what_is_wrong_with_a_line_is_said() {
        for (text, message) in [
            ("\u{FEFF}question", "1:1: the file begins with a byte order mark; save it without one"),
            ("grade = 3", &format!("1:1: {}", A_LINE)),
            ("column grade = 3", &format!("1:8: {}", AN_ATTRIBUTE)),
            (
                "action.name = \"x\"",
                "1:1: action has no section: its one attribute, name, is what action = \"..\" says",
            ),
            ("principal = 3", "1:10: expected a dot and a path directly after principal"),
            ("env .a = 3", "1:4: expected a dot and a path directly after env"),
            ("env.a..b = 3", "1:7: expected a name, which begins with a letter; a path is names joined by single dots"),
            ("env.a.1 = 3", "1:7: expected a name, which begins with a letter; a path is names joined by single dots"),
            ("env.a.if = 3", "1:7: if is a reserved word of rule texts; expected another name in a path"),
            ("env.a b = 3", "1:7: expected = and a value after the attribute"),
            ("env.a: 3", "1:6: expected = and a value after the attribute"),
            ("\n\nenv.a =", &format!("3:8: {}", A_VALUE)),
            ("env.a = yes", &format!("1:9: {}", A_VALUE)),
            ("column env.a = 1 | yes", &format!("1:20: {}", A_CANDIDATE)),
            (
                "env.a = absent",
                "1:9: absent is for the candidates of a column; an attribute that is left out is absent from the base",
            ),
            ("env.a = \"x", "1:9: this string has no closing quote in its line"),
            ("env.a = \"x\r\n\"", "1:9: this string has no closing quote in its line"),
            ("env.a = \"x\t\"", "1:11: a control byte cannot stand in a string; expected \\x09"),
            ("env.a = \"x\\q\"", &format!("1:11: {}", AN_ESCAPE)),
            ("env.a = \"x\\x4\"", &format!("1:11: {}", AN_ESCAPE)),
            ("env.a = “x”", "1:9: a string stands in straight quotes: \"..\""),
            ("env.a = 3,5", "1:10: expected the end of the line"),
            ("env.a = 3.", &format!("1:9: {}", A_NUMBER)),
            ("env.a = .5", &format!("1:9: {}", A_NUMBER)),
            ("env.a = 1e", &format!("1:9: {}", A_NUMBER)),
            ("env.a = 1e1.5", &format!("1:9: {}", A_NUMBER)),
            ("env.a = 1.2.3", &format!("1:9: {}", A_NUMBER)),
            ("env.a = - 1", &format!("1:9: {}", A_NUMBER)),
            ("env.a = +1", &format!("1:9: {}", A_NUMBER)),
            ("env.a = 1e309", "1:9: this number is too great; the greatest is 1.7976931348623157e308"),
            ("env.a = 1e-400", "1:9: this number is not 0 and would become 0; the least above 0 is 5e-324"),
            ("env.a = bits 7FF", "1:14: expected 0x and 16 hexadecimal digits after bits"),
            ("env.a = bits 0x7FF0000000000000", "1:14: these bits are no finite number"),
            ("env.a = [1]", "1:10: expected a string in quotes: a list holds strings only"),
            ("env.a = [\"x\",]", "1:14: expected a string in quotes: a list holds strings only"),
            ("env.a = [\"x\"\n", "2:1: expected , and another string, or ] at the list's end"),
            ("env.a = 1 | 2", "1:11: | stands between the candidates of a column; expected the end of the line"),
            ("column env.a = 1, 2", "1:17: expected | and another candidate, or the end of the line"),
            ("env.a = 1\n\nenv.a = 1", "3:1: env.a has a value already, in line 1"),
            ("permit(principal, action, resource);", "1:1: this is a rule text: expected a question, a bag or tests"),
            ("subject: \"tool:1\"", "1:8: expected = and a string in quotes after subject"),
            ("subject = tool:1", "1:11: expected a string in quotes: subject = \"person:K7\""),
            ("subject = \"a\"\nsubject = \"b\"", "2:1: subject has a value already, in line 1"),
            ("subject = \"a\" x", "1:15: expected the end of the line"),
            ("\ncolumn env.a = 1\ncolumn env.a = 2", "3:1: env.a is a column already, in line 2"),
            ("column env.a = 1 | absent | 1.0", "1:29: this candidate is the same as the 1st of its column"),
            ("bag\ncolumn env.a = 1", "2:1: a bag has no columns; expected an attribute of the base"),
            ("env.a = 1\nbag", "2:1: bag must stand before all other lines, and once"),
            ("question\nquestion", "2:1: question must stand before all other lines, and once"),
            ("subject = \"system\"\nrequest\nquestion", "3:1: question must stand before all other lines, and once"),
            ("subject = \"system\"\nrequest\nenv.a = 1", &format!("3:1: {}", A_PART)),
            ("subject = \"system\"\nrequest\nresource.a = 1", &format!("3:1: {}", A_PART)),
            ("subject = \"system\"\nrequest\ncolumn env.a = 1", &format!("3:1: {}", A_PART)),
            ("request \"one\"", "1:9: expected the end of the line"),
            (
                "action = \"a\"\nrequest\nsubject = \"tool:1\"",
                "2:1: this request has no resource: say resource = \"..\" in it, or before the first request",
            ),
            (
                "request\nrequest\nsubject = \"system\"",
                "1:1: this request has no subject: say subject = \"..\" in it, or before the first request",
            ),
            (
                "bag\nrequest",
                "2:1: a bag has one request: expected subject, action and resource without a line request",
            ),
        ] {
            assert_eq!(wrong_with(text), message, "{}", text);
        }
    }

    // What stands before the first request holds for all, and their own lines change it.
    #[test]
    fn requests_come_one_after_the_other() {
        let text = "subject = \"person:K7\"\nresource = \"shaft:A\"\ncolumn env.a = 1 | 2
            request # the first\n  action = \"teach\"\n\n request\nresource = \"shaft:B\"\naction = \"move\"
            request\nsubject = \"system\"";
        let form = read_text(text.as_bytes()).unwrap();
        let of = |parts: [&str; 3]| parts.map(|part| part.as_bytes().to_vec());
        let requests = [
            of(["person:K7", "teach", "shaft:A"]),
            of(["person:K7", "move", "shaft:B"]),
            of(["system", "", "shaft:A"]),
        ];
        assert_eq!(form.requests, requests);
        assert_eq!(read_text(text_of(&form).as_bytes()).unwrap(), form);
        assert_eq!(form.bytes(), read_text(b"column env.a = 1 | 2").unwrap().bytes());
        let twice = read_text(b"subject = \"a\"\nrequest\nsubject = \"b\"\nsubject = \"c\"").unwrap_err();
        assert_eq!(twice.what, "subject has a value already, in line 3");
        let nine = "subject = \"system\"\n".to_string() + &"request\n".repeat(9);
        assert_eq!(read_text(nine.as_bytes()).unwrap().requests.len(), 9);
    }

    // Every limit passes at its number, not one above.
    #[test]
    fn limits_are_kept() {
        let entries = |count: usize| (0..count).map(|n| format!("env.p{} = true\n", n)).collect::<String>();
        assert!(read_text(entries(32).as_bytes()).is_ok());
        assert_eq!(wrong_with(&entries(33)), "33:1: env.p32 would be the 33rd attribute of env; expected at most 32");
        let path = |length: usize| format!("env.{} = true", "w".repeat(length));
        assert!(read_text(path(64).as_bytes()).is_ok());
        assert_eq!(wrong_with(&path(65)), "1:5: this path has 65 bytes; expected at most 64");
        let string = |length: usize| format!("env.a = \"{}\"", "ü".repeat(length / 2) + &"s".repeat(length % 2));
        assert!(read_text(string(127).as_bytes()).is_ok());
        assert_eq!(wrong_with(&string(128)), "1:9: this string has 128 bytes; expected at most 127");
        let list = |count: usize| format!("env.a = [{}]", vec!["\"\""; count].join(","));
        assert!(read_text(list(16).as_bytes()).is_ok());
        assert_eq!(wrong_with(&list(17)), "1:58: this would be the 17th string of the list; expected at most 16");
        let columns = |count: usize| (0..count).map(|n| format!("column env.a{} = absent\n", n)).collect::<String>();
        assert!(read_text(columns(6).as_bytes()).is_ok());
        assert_eq!(wrong_with(&columns(7)), "7:1: this would be the 7th column; expected at most 6");
        let candidates = |count: usize| {
            let numbers: Vec<String> = (0..count).map(|n| n.to_string()).collect();
            format!("column env.a = {}", numbers.join("|"))
        };
        assert!(read_text(candidates(8).as_bytes()).is_ok());
        let ninth = "1:32: this would be the 9th candidate of the column; expected at most 8";
        assert_eq!(wrong_with(&candidates(9)), ninth);
    }

    #[test]
    fn a_question_has_4096_bytes() {
        let lines = (10..40).map(|n| format!("env.p{} = \"{}\"\n", n, "s".repeat(127))).collect::<String>();
        let sized = |kind: &str, last: usize| format!("{}\n{}env.z = \"{}\"\n", kind, lines, "z".repeat(last));
        let left = 4_096 - read_text(sized("question", 0).as_bytes()).unwrap().bytes().len();
        assert_eq!(read_text(sized("question", left).as_bytes()).unwrap().bytes().len(), 4_096);
        let message = "32:1: with this the question has 4,097 bytes; expected at most 4,096";
        assert_eq!(wrong_with(&sized("question", left + 1)), message);
        assert_eq!(read_text(sized("bag", left + 1).as_bytes()).unwrap().bytes().len(), 4_096);
        let message = "32:1: with this the bag has 4,097 bytes; expected at most 4,096";
        assert_eq!(wrong_with(&sized("bag", left + 2)), message);
    }

    // What is read from bytes and written again gives the same bytes.
    #[test]
    fn there_and_back() {
        let mut random = Random::new(92);
        let mut read = 0;
        for _ in 0..6_000 {
            let mut plan = question(&mut random);
            if random.one_in(4) {
                plan.columns = None;
            }
            let bytes = plan.bytes();
            if bytes.len() <= LONGEST_BAG {
                let text = text_of(&crate::bytes::read_bytes(&bytes).unwrap());
                assert_eq!(read_text(text.as_bytes()).unwrap().bytes(), bytes, "{}", text);
                read += 1;
            }
        }
        assert!(read > 5_000, "{}", read);
    }

    // Whatever is written is a bag or a question to the second program, and a wrong text only gives a message.
    #[test]
    fn what_is_written_is_a_question() {
        let mut random = Random::new(95);
        let mut written = 0;
        for _ in 0..6_000 {
            let text = match crate::bytes::read_bytes(&question(&mut random).bytes()) {
                Ok(form) => text_of(&form).into_bytes(),
                Err(_) => continue,
            };
            match read_text(&damaged_text(text, &mut random)) {
                Ok(form) => {
                    let bytes = form.bytes();
                    assert_eq!(read_question(&bytes).is_some(), form.columns.is_some());
                    assert_eq!(read_bag(&bytes).is_some(), form.columns.is_none());
                    written += 1;
                }
                Err(wrong) => assert!(!wrong.what.is_empty()),
            }
        }
        assert!(written > 500 && written < 4_000, "{}", written);
    }

    /// A few bytes changed, removed or inserted, a line doubled or moved, or the end cut off.
    fn damaged_text(mut text: Vec<u8>, random: &mut Random) -> Vec<u8> {
        for _ in 0..random.between(1, 3) {
            let at = random.below(text.len() + 1);
            let byte = random.pick(b"\"\\[]|,=.# \n\rxbe-+019aA\x00\x7F\xC3\xFF");
            match random.below(8) {
                0 => text.truncate(at),
                1 | 2 => text.insert(at, byte),
                3 if at < text.len() => {
                    text.remove(at);
                }
                4 => {
                    let mut lines: Vec<Vec<u8>> = text.split(|byte| *byte == b'\n').map(|line| line.to_vec()).collect();
                    let line = lines[random.below(lines.len())].clone();
                    lines.insert(random.below(lines.len() + 1), line);
                    text = lines.join(&b'\n');
                }
                _ if at < text.len() => text[at] = byte,
                _ => text.push(byte),
            }
        }
        text
    }

    // Lines in another order give the same bytes, for the base's order is the form's.
    #[test]
    fn the_order_of_the_bases_lines_does_not_matter() {
        let mut random = Random::new(93);
        for _ in 0..500 {
            let plan = question(&mut random);
            let form = match crate::bytes::read_bytes(&plan.bytes()) {
                Ok(form) => form,
                Err(_) => continue,
            };
            let mut lines: Vec<String> = Vec::new();
            for (root, section) in form.sections.iter().enumerate() {
                for (path, value) in section {
                    let value = crate::writing::value_text(value);
                    lines.insert(random.below(lines.len() + 1), format!("{} = {}", attribute(root, path), value));
                }
            }
            let base = Form { sections: form.sections.clone(), columns: Some(Vec::new()), ..Form::default() };
            assert_eq!(read_text(lines.join("\n").as_bytes()).unwrap().bytes(), base.bytes());
        }
    }
}
