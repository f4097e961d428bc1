//! Locks as text: the words of a vocabulary, actions, resources and locks of a file (docs/LOCKS.md), and the bytes that the proved program is lent.

use definitions::locks::{action_bytes, vocabulary_bytes, Flaw, LentBytes, Part, Sort};

use crate::reading::{is_word_byte, wrong, Read, Reader};

/// The names of the sorts, in the order of their bytes.
pub const SORT_NAMES: [(&str, Sort); 3] =
    [("equality", Sort::Equality), ("membership", Sort::Membership), ("number", Sort::Number)];

const A_LINE: &str = "expected word, actions, resource or lock";
const A_WORD: &str = "expected a word and = after it: word firm = principal.firm, equality";
const A_PATH: &str = "expected principal, a dot and a path: word firm = principal.firm, equality";
const A_SORT: &str = "expected , and equality, membership or number";
const AN_ACTION: &str = "expected a string in quotes: actions = \"teach\", \"read\"";
const A_RESOURCE: &str = "expected a string in quotes: resource = \"shaft:A\"";

/// The most bytes that a length byte can tell.
const MOST_COUNTED: usize = 255;

/// Some bytes and where they stand in the file.
#[derive(Clone, PartialEq, Debug)]
pub struct Placed {
    pub bytes: Vec<u8>,
    pub at: usize,
}

/// A word of the vocabulary.
#[derive(PartialEq, Debug)]
pub struct WordLine {
    pub word: Placed,
    pub path: Placed,
    pub sort: Sort,
}

/// A lock, with the actions and the resource that stand before it.
#[derive(PartialEq, Debug)]
pub struct LockLine {
    pub lock: Placed,
    pub actions: Vec<Placed>,
    pub resource: Placed,
}

/// What a file of locks says.
#[derive(PartialEq, Debug, Default)]
pub struct LockFile {
    pub words: Vec<WordLine>,
    pub locks: Vec<LockLine>,
}

impl LockFile {
    /// The bytes for a lock: every word of the file is in its vocabulary.
    pub fn lent(&self, line: &LockLine) -> LentBytes {
        let entries: Vec<(Vec<u8>, Vec<u8>, u8)> = self
            .words
            .iter()
            .map(|line| (line.word.bytes.clone(), line.path.bytes.clone(), line.sort.byte()))
            .collect();
        let actions: Vec<Vec<u8>> = line.actions.iter().map(|action| action.bytes.clone()).collect();
        LentBytes {
            vocabulary: vocabulary_bytes(&entries),
            lock: line.lock.bytes.clone(),
            actions: action_bytes(&actions),
            resource: line.resource.bytes.clone(),
        }
    }

    /// Where in the file a flaw of these bytes stands: the word or path of the vocabulary, the byte of the lock, the string.
    pub fn place(&self, line: &LockLine, flaw: &Flaw) -> usize {
        let mut end = 0;
        match flaw.part {
            Part::Vocabulary => {
                for word in &self.words {
                    for part in [&word.word, &word.path] {
                        end += 1 + part.bytes.len();
                        if flaw.at < end {
                            return part.at;
                        }
                    }
                    end += 1;
                }
                line.lock.at
            }
            Part::Lock => line.lock.at + flaw.at,
            Part::Actions => {
                for action in &line.actions {
                    end += 1 + action.bytes.len();
                    if flaw.at < end {
                        return action.at;
                    }
                }
                line.lock.at
            }
            Part::Resource => line.resource.at,
        }
    }
}

/// The words and locks that a text says.
pub fn read_locks(text: &[u8]) -> Read<LockFile> {
    if text.starts_with(b"\xEF\xBB\xBF") {
        return wrong(0, "the file begins with a byte order mark; save it without one");
    }
    let mut reader = LockReader { reader: Reader::new(text), actions: Vec::new(), resource: None };
    let mut file = LockFile::default();
    reader.reader.pass_lines();
    while reader.reader.at < text.len() {
        reader.statement(&mut file)?;
        reader.reader.pass_lines();
    }
    if file.locks.is_empty() {
        return wrong(text.len(), "expected a lock: lock = firm:own & grade>=3");
    }
    Ok(file)
}

/// Reads a text line by line; actions and resource hold for the locks behind them.
struct LockReader<'a> {
    reader: Reader<'a>,
    actions: Vec<Placed>,
    resource: Option<Placed>,
}

impl LockReader<'_> {
    fn statement(&mut self, file: &mut LockFile) -> Read<()> {
        let start = self.reader.at;
        match self.reader.run(is_word_byte) {
            b"word" => {
                let line = self.word()?;
                file.words.push(line);
                self.reader.end_of_line(b"word")
            }
            b"actions" => {
                self.equals("actions")?;
                self.actions()?;
                self.reader.end_of_line(b"actions")
            }
            b"resource" => {
                self.equals("resource")?;
                self.resource = Some(self.string(A_RESOURCE)?);
                self.reader.end_of_line(b"resource")
            }
            b"lock" => {
                self.equals("lock")?;
                let line = self.lock(start)?;
                file.locks.push(line);
                Ok(())
            }
            b"permit" | b"forbid" => wrong(start, "this is a rule text: expected words, actions, a resource and locks"),
            _ => wrong(start, A_LINE),
        }
    }

    fn equals(&mut self, name: &str) -> Read<()> {
        self.reader.pass_blanks();
        if self.reader.peek() != Some(b'=') {
            return wrong(self.reader.at, format!("expected = after {}", name));
        }
        self.reader.at += 1;
        self.reader.pass_blanks();
        Ok(())
    }

    /// `word NAME = principal.PATH, SORT`; whether name and path are as in rule texts is the desk's to say.
    fn word(&mut self) -> Read<WordLine> {
        self.reader.pass_blanks();
        let word = self.piece(A_WORD)?;
        self.reader.pass_blanks();
        if self.reader.peek() != Some(b'=') {
            return wrong(self.reader.at, A_WORD);
        }
        self.equals("word")?;
        if !self.reader.text[self.reader.at..].starts_with(b"principal.") {
            return wrong(self.reader.at, A_PATH);
        }
        self.reader.at += b"principal.".len();
        let path = self.piece(A_PATH)?;
        self.reader.pass_blanks();
        if self.reader.peek() != Some(b',') {
            return wrong(self.reader.at, A_SORT);
        }
        self.reader.at += 1;
        self.reader.pass_blanks();
        let at = self.reader.at;
        let name = self.reader.run(is_word_byte);
        match SORT_NAMES.iter().find(|(known, _)| known.as_bytes() == name) {
            Some((_, sort)) => Ok(WordLine { word, path, sort: *sort }),
            None => wrong(at, A_SORT),
        }
    }

    /// Bytes up to a blank, `=`, `,`, `#` or the end of the line, at least one.
    fn piece(&mut self, expected: &str) -> Read<Placed> {
        let at = self.reader.at;
        let bytes = self.reader.run(|byte| !b" \t\r\n=,#".contains(&byte));
        match bytes.len() {
            0 => wrong(at, expected),
            1..=MOST_COUNTED => Ok(Placed { bytes: bytes.to_vec(), at }),
            many => wrong(at, format!("this has {} bytes; expected at most 64", many)),
        }
    }

    /// Strings with commas between them; behind a comma they may go on in the next line.
    fn actions(&mut self) -> Read<()> {
        self.actions.clear();
        loop {
            self.reader.pass_lines();
            let action = self.string(AN_ACTION)?;
            self.actions.push(action);
            self.reader.pass_blanks();
            if self.reader.peek() != Some(b',') {
                return Ok(());
            }
            self.reader.at += 1;
        }
    }

    fn string(&mut self, expected: &str) -> Read<Placed> {
        let at = self.reader.at;
        if self.reader.peek() != Some(b'"') {
            return wrong(at, expected);
        }
        let bytes = self.reader.long_string()?;
        if bytes.len() > MOST_COUNTED {
            return wrong(at, format!("this string has {} bytes; expected at most 127", bytes.len()));
        }
        Ok(Placed { bytes, at })
    }

    /// The rest of the line, and the lines behind it that begin with a blank; a comment counts as blanks.
    fn lock(&mut self, start: usize) -> Read<LockLine> {
        let at = self.reader.at;
        let mut bytes = Vec::new();
        loop {
            bytes.extend_from_slice(self.reader.run(|byte| byte != b'\n' && byte != b'#'));
            let comment = self.reader.run(|byte| byte != b'\n');
            bytes.extend(comment.iter().map(|_| b' '));
            match self.reader.text.get(self.reader.at + 1) {
                Some(b' ') | Some(b'\t') => {
                    bytes.push(b'\n');
                    self.reader.at += 1;
                }
                _ => break,
            }
        }
        let end = bytes.iter().rposition(|byte| !b" \t\r\n".contains(byte)).map_or(0, |last| last + 1);
        bytes.truncate(end);
        if self.actions.is_empty() {
            return wrong(start, "no actions stand before this lock: a line actions = \"..\" is missing");
        }
        match &self.resource {
            None => wrong(start, "no resource stands before this lock: a line resource = \"..\" is missing"),
            Some(resource) => {
                Ok(LockLine { lock: Placed { bytes, at }, actions: self.actions.clone(), resource: resource.clone() })
            }
        }
    }
}

#[cfg(test)]
mod tests {
    use super::*;
    use definitions::locks::permit_of;

    const TEXT: &str = "# for shaft A\nword firm = principal.firm, equality\nword g = principal.a.b,number # comment\n\
        actions = \"teach\",\n  \"read\"\nresource = \"shaft:A\"\nlock = firm:own # a comment\n  & g>=3\n\nlock=g<-2\n";

    fn what(text: &str) -> (usize, String) {
        let wrong = read_locks(text.as_bytes()).unwrap_err();
        (wrong.at, wrong.what)
    }

    #[test]
    fn a_file_has_words_and_locks() {
        let file = read_locks(TEXT.as_bytes()).unwrap();
        assert_eq!(file.locks.len(), 2);
        let permits: Vec<Vec<u8>> =
            file.locks.iter().map(|line| permit_of(file.lent(line).lent()).unwrap().text()).collect();
        let head = "permit(principal, action in [\"teach\", \"read\"], resource == \"shaft:A\") when { ";
        assert_eq!(permits[0], format!("{}principal.firm == \"own\" && principal.a.b >= 3 }};", head).into_bytes());
        assert_eq!(permits[1], format!("{}principal.a.b < -2 }};", head).into_bytes());
    }

    // A place in what is lent is that place in the file.
    #[test]
    fn flaws_have_their_place() {
        let place = |old: &str, new: &str| {
            let text = TEXT.replacen(old, new, 1);
            let file = read_locks(text.as_bytes()).unwrap();
            let flaw =
                file.locks.iter().find_map(|line| permit_of(file.lent(line).lent()).err().map(|flaw| (line, flaw)));
            let (line, flaw) = flaw.unwrap();
            text[file.place(line, &flaw)..].to_string()
        };
        assert!(place("word firm", "word 1firm").starts_with("1firm = "));
        assert!(place("word g", "word firm").starts_with("firm = principal.a.b"));
        assert!(place("a.b", "a.if").starts_with("a.if"));
        assert!(place("g>=3", "g>=x").starts_with("x\n"));
        assert!(place("g>=3", "flag:x").starts_with("flag:x"));
        assert!(place("g<-2", "g<- 2").starts_with("- 2"));
        assert!(place("\"read\"", "\"re\\nad\"").starts_with("\"re\\nad\""));
        assert!(place("shaft:A", "\\\"").starts_with("\"\\\"\""));
        assert!(place("firm:own # a comment\n  & g>=3", "firm:own\n &").starts_with("\n\nlock"));
    }

    #[test]
    fn what_is_wrong_is_said() {
        for (text, at, expected) in [
            ("", 0, "expected a lock: lock = firm:own & grade>=3"),
            ("words a", 0, A_LINE),
            (
                "permit(principal, action, resource);",
                0,
                "this is a rule text: expected words, actions, a resource and locks",
            ),
            ("word = principal.a, number", 5, A_WORD),
            ("word a principal.a", 7, A_WORD),
            ("word a = firm, number", 9, A_PATH),
            ("word a = principal., number", 19, A_PATH),
            ("word a = principal.a number", 21, A_SORT),
            ("word a = principal.a, numbers", 22, A_SORT),
            ("word a = principal.a, number x", 29, "expected the end of the line"),
            ("actions \"a\"", 8, "expected = after actions"),
            ("actions = teach", 10, AN_ACTION),
            ("actions = \"teach\",", 18, AN_ACTION),
            ("resource = shaft:A", 11, A_RESOURCE),
            ("resource = \"a\nlock = a:b", 11, "this string has no closing quote in its line"),
            ("lock = a:b", 0, "no actions stand before this lock: a line actions = \"..\" is missing"),
            (
                "actions = \"a\"\nlock = a:b",
                14,
                "no resource stands before this lock: a line resource = \"..\" is missing",
            ),
            ("\u{feff}lock = a:b", 0, "the file begins with a byte order mark; save it without one"),
        ] {
            assert_eq!(what(text), (at, expected.to_string()), "{}", text);
        }
        let long = format!("word {} = principal.a, number", "w".repeat(256));
        assert_eq!(what(&long), (5, "this has 256 bytes; expected at most 64".to_string()));
        let long = format!("actions = \"{}\"", "w".repeat(256));
        assert_eq!(what(&long), (10, "this string has 256 bytes; expected at most 127".to_string()));
    }
}
