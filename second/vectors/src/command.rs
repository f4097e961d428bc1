//! The words of a command line, what is read and printed, and failures.

use std::io::{self, Read, Write};
use std::process::exit;

/// Why a program stops early.
pub enum Failure {
    /// The words are not understood: exit status 2.
    Usage,
    /// Anything else: exit status 1.
    Other(String),
}

/// Runs a program with the words of its command line. If it fails, it ends here with the status of its failure.
pub fn start(usage: &str, run: fn(&[&str]) -> Result<(), Failure>) {
    let words: Vec<String> = std::env::args_os().skip(1).map(|word| word.to_string_lossy().into_owned()).collect();
    let words: Vec<&str> = words.iter().map(String::as_str).collect();
    match run(&words) {
        Ok(()) => {}
        Err(Failure::Usage) => {
            eprintln!("{}", usage);
            exit(2);
        }
        Err(Failure::Other(reason)) => {
            eprintln!("{}", reason);
            exit(1);
        }
    }
}

pub fn standard_input() -> Result<Vec<u8>, Failure> {
    let mut bytes = Vec::new();
    io::stdin().read_to_end(&mut bytes).map_err(|error| failed("standard input", error))?;
    Ok(bytes)
}

pub fn print(text: impl AsRef<[u8]>) -> Result<(), Failure> {
    io::stdout().write_all(text.as_ref()).map_err(|error| failed("standard output", error))
}

/// What could not be read or written, and why.
pub fn failed(name: &str, error: io::Error) -> Failure {
    Failure::Other(format!("{}: {}", name, error))
}
