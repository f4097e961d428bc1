//! The desk for people: `./desk COMMAND ..`. It reads text and shows answers; every yes, no and refusal comes from the proved programs.

mod answers;
mod asked;
mod bytes;
mod command;
#[cfg(test)]
mod command_tests;
mod commands;
mod diffing;
mod doubts;
mod expected;
mod explaining;
mod form;
mod help;
mod holes;
mod lock_reasons;
mod locking;
mod noes;
mod page;
mod places;
mod plain;
mod printed;
#[cfg(test)]
mod printing_tests;
mod reading;
mod record;
mod refusals;
mod report;
mod rules;
mod tallies;
mod tally_page;
mod tally_text;
mod testing;
mod versions;
mod words;
mod writing;

use std::io::Write;
use std::process::exit;

use answers::{Answers, Programs};
use command::{Done, Failure, Said};

fn main() {
    let words: Vec<String> = std::env::args_os().skip(1).map(|word| word.to_string_lossy().into_owned()).collect();
    let words: Vec<&str> = words.iter().map(String::as_str).collect();
    let said = run(&Programs, &words).unwrap_or_else(|failure| failed(&words, failure));
    for warning in &said.warnings {
        eprintln!("desk: {}", warning);
    }
    if std::io::stdout().write_all(said.out.as_bytes()).is_err() {
        exit(2);
    }
    exit(said.status);
}

/// What a command line says.
fn run(desk: &dyn Answers, words: &[&str]) -> Done<Said> {
    let (name, rest) = match words {
        [] => return Err(Failure::Usage("which command?".to_string())),
        ["--help" | "-h" | "help"] => return Ok(Said::answered(help::overview())),
        ["help", name] => return run(desk, &[*name, "--help"]),
        [name, rest @ ..] => (*name, rest),
    };
    let command = match help::command_named(name) {
        Some(command) => command,
        None => return Err(Failure::Usage(format!("there is no command {}", name))),
    };
    if rest.contains(&"--help") || rest.contains(&"-h") {
        return Ok(Said::answered(help::help_of(command)));
    }
    match name {
        "sheet" => commands::sheet(desk, rest),
        "tally" => commands::tally(desk, rest),
        "check" => commands::check(desk, rest),
        "decide" => commands::decide(desk, rest),
        "explain" => commands::explain(desk, rest),
        "test" => commands::test(desk, rest),
        "diff" => commands::difference(desk, rest),
        "write" => commands::write(rest),
        "lock" => commands::lock(desk, rest),
        _ => commands::read(rest),
    }
}

/// What is said if nothing was asked: exit status 2.
fn failed(words: &[&str], failure: Failure) -> Said {
    let what = match failure {
        Failure::NotAsked(what) => what,
        Failure::Usage(what) => match words.first().and_then(|name| help::command_named(name)) {
            Some(command) => format!("{}; usage: ./desk {} {}", what, command.name, command.usage),
            None => format!("{}\n{}", what, help::overview().trim_end()),
        },
    };
    Said { out: String::new(), warnings: vec![what], status: 2 }
}

/// Whether docs/QUESTIONS.md has the message.
#[cfg(test)]
fn documented(message: &str) -> bool {
    include_str!("../../../docs/QUESTIONS.md").contains(message)
}
