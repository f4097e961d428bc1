//! A command: its words, what it says, and how it fails. Exit status 0: answered; 1: refused, or a test failed; 2: nothing was asked,
//! because the words, a file or a text is wrong.

use std::fs;
use std::io;

/// What a command says: to standard output, and warnings to standard error.
#[derive(Debug, Default)]
pub struct Said {
    pub out: String,
    pub warnings: Vec<String>,
    pub status: i32,
}

impl Said {
    pub fn answered(out: String) -> Said {
        Said { out, warnings: Vec::new(), status: 0 }
    }

    pub fn refused(out: String) -> Said {
        Said { out, warnings: Vec::new(), status: 1 }
    }
}

/// Why nothing was asked.
#[derive(PartialEq, Debug)]
pub enum Failure {
    /// The words are not understood; what is wrong with them.
    Usage(String),
    /// A file or a text is wrong, or an answer could not be had.
    NotAsked(String),
}

pub type Done<T> = Result<T, Failure>;

pub fn not_asked<T>(what: impl Into<String>) -> Done<T> {
    Err(Failure::NotAsked(what.into()))
}

/// The words after a command: names, and options.
#[derive(Debug, Default, PartialEq)]
pub struct Words {
    pub names: Vec<String>,
    pub rules: Option<String>,
    /// The versions of the rules, before and after; but for `diff` they are one.
    pub versions: Option<[u64; 2]>,
    pub html: Option<String>,
    pub row: Option<usize>,
    pub request: Option<usize>,
    pub lines: bool,
    pub room: Option<usize>,
    pub table: bool,
    pub forbidden: bool,
    pub missing_is_empty: bool,
}

/// The version where none is named.
const FIRST_VERSION: u64 = 1;

impl Words {
    /// The words, if there are as many names as expected and no other options than those allowed.
    pub fn read(words: &[&str], options: &[&str], names: std::ops::RangeInclusive<usize>) -> Done<Words> {
        let usage = |what: String| Err(Failure::Usage(what));
        let mut read = Words::default();
        let mut rest = words.iter().copied();
        while let Some(word) = rest.next() {
            if !word.starts_with('-') {
                read.names.push(word.to_string());
            } else if !options.contains(&word) {
                return usage(format!("unknown option {}", word));
            } else if let Err(what) = read.take(word, &mut rest) {
                return usage(what.to_string());
            }
        }
        if !names.contains(&read.names.len()) {
            let many = read.names.len() > *names.end();
            return usage(if many { "too many names".to_string() } else { "a name is missing".to_string() });
        }
        Ok(read)
    }

    /// Takes an option, with what it needs of the words behind it; or says what that is.
    fn take<'a>(&mut self, option: &str, rest: &mut impl Iterator<Item = &'a str>) -> Result<(), &'static str> {
        let mut value = || rest.next();
        match option {
            "--table" => self.table = true,
            "--lines" => self.lines = true,
            "--forbidden" => self.forbidden = true,
            "--missing-is-empty" => self.missing_is_empty = true,
            "--rules" => self.rules = Some(value().ok_or("--rules needs the name of a rule text")?.to_string()),
            "--html" => self.html = Some(value().ok_or("--html needs the name of the file to write")?.to_string()),
            "--request" => {
                self.request = Some(number(value()).ok_or("--request needs the number of a request, from 1")?)
            }
            "--room" => {
                let room: u16 = number(value()).ok_or("--room needs a number of bytes, at most 65,535")?;
                self.room = Some(usize::from(room));
            }
            "--version" | "--versions" if self.versions.is_some() => return Err("the version is said twice"),
            "--version" => {
                let version = number(value()).ok_or("--version needs the number of a version, 1 or 2")?;
                self.versions = Some([version, version]);
            }
            "--versions" => {
                let both = "--versions needs two numbers, the versions before and after, as in --versions 1 2";
                self.versions = Some([number(value()).ok_or(both)?, number(value()).ok_or(both)?]);
            }
            _ => self.row = Some(number(value()).ok_or("--row needs the number of a row, from 0")?),
        }
        Ok(())
    }

    /// The versions of the rules before and after.
    pub fn versions(&self) -> [u64; 2] {
        self.versions.unwrap_or([FIRST_VERSION; 2])
    }

    /// The version of the rules.
    pub fn version(&self) -> u64 {
        self.versions()[0]
    }
}

/// The number that a word says.
fn number<T: std::str::FromStr>(word: Option<&str>) -> Option<T> {
    word?.parse().ok()
}

/// A file's bytes, or why there are none, and what to do.
pub fn read_file(name: &str) -> Done<Vec<u8>> {
    match fs::metadata(name) {
        Ok(data) if data.is_dir() => return not_asked(format!("{} is a folder; a file is needed here", name)),
        Err(error) if error.kind() == io::ErrorKind::NotFound => {
            return not_asked(format!("there is no file {}", name))
        }
        _ => {}
    }
    fs::read(name).or_else(|error| not_asked(format!("{} cannot be read: {}", name, error)))
}

/// The file's bytes, or nothing if it is not there.
pub fn read_if_there(name: &str) -> Done<Option<Vec<u8>>> {
    match fs::symlink_metadata(name) {
        Err(error) if error.kind() == io::ErrorKind::NotFound => Ok(None),
        _ => read_file(name).map(Some),
    }
}

#[cfg(test)]
mod tests {
    use super::*;

    #[test]
    fn words_are_names_and_options() {
        let read = Words::read(&["a", "--rules", "r", "--table"], &["--rules", "--table"], 1..=1).unwrap();
        assert_eq!((read.names, read.rules, read.table), (vec!["a".to_string()], Some("r".to_string()), true));
        for (words, what) in [
            (&["--tabel", "a"][..], "unknown option --tabel"),
            (&[], "a name is missing"),
            (&["a", "b"], "too many names"),
            (&["a", "--rules"], "--rules needs the name of a rule text"),
            (&["a", "--html"], "--html needs the name of the file to write"),
            (&["a", "--row", "x"], "--row needs the number of a row, from 0"),
            (&["a", "--row"], "--row needs the number of a row, from 0"),
            (&["a", "--request", "first"], "--request needs the number of a request, from 1"),
            (&["a", "--version"], "--version needs the number of a version, 1 or 2"),
            (&["a", "--version", "two"], "--version needs the number of a version, 1 or 2"),
            (&["a", "--version", "18446744073709551616"], "--version needs the number of a version, 1 or 2"),
            (&["a", "--version", "2", "--version", "2"], "the version is said twice"),
            (&["a", "--version", "2", "--versions", "1", "2"], "the version is said twice"),
            (
                &["a", "--versions", "1"],
                "--versions needs two numbers, the versions before and after, as in --versions 1 2",
            ),
        ] {
            let options = ["--rules", "--html", "--row", "--request", "--version", "--versions"];
            assert_eq!(Words::read(words, &options, 1..=1).unwrap_err(), Failure::Usage(what.to_string()));
        }
    }

    // Any number may be named: whether there is such a version is not for the words to say.
    #[test]
    fn versions_are_named() {
        let of = |words: &[&str]| Words::read(words, &["--version", "--versions"], 0..=0).unwrap().versions();
        assert_eq!(of(&[]), [1, 1]);
        assert_eq!(of(&["--version", "2"]), [2, 2]);
        assert_eq!(of(&["--version", "257"]), [257, 257]);
        assert_eq!(of(&["--versions", "1", "2"]), [1, 2]);
    }

    #[test]
    fn what_cannot_be_read_is_said() {
        assert_eq!(read_file("no such file"), not_asked("there is no file no such file"));
        assert_eq!(read_file("/"), not_asked("/ is a folder; a file is needed here"));
        assert_eq!(read_if_there("no such file"), Ok(None));
        assert!(read_if_there("/").is_err());
    }
}
