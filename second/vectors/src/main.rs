//! The command line of Pennivaster's second program, an independent reading of document 01.

mod bags_vectors;
mod begins_vectors;
mod begins_versions;
mod command;
mod compile_vectors;
mod compile_versions;
mod decide_vectors;
mod decide_versions;
mod explain;
mod folders;
mod lock_vectors;
mod number_vectors;
mod packing;
mod pattern_vectors;
mod questions_vectors;
mod sheet_vectors;
mod sheet_versions;
mod tally_vectors;
mod tally_versions;
mod token_vectors;
mod vector;
mod vectors;
mod views_vectors;

use std::fs;
use std::io;
use std::path::Path;

use definitions::{asking, compile, deciding, locks, sheets};

use command::{failed, print, standard_input, Failure};
use vector::Vector;
use vectors::{Sort, SORTS, STANDARD_SEED};

const USAGE: &str = "usage:
  second vectors DIR [--seed N] [--scale K]  write the test vectors and their answers (K from 1 to 1000)
  second explain SORT                        explain the input on standard input
  second explain SORT --vector N             explain vector N (from 1) of the vectors on standard input
  second folders DIR                         write folders for the sheet program, with what it has to print
  second sheet DIR                           print what the sheet program prints for the files in DIR
  second decide DIR [VERSION]                decide policy.txt, bag.bin and request.txt in DIR
  second ask check DIR [VERSION]             print what `ask check` prints for policy.txt in DIR
  second ask decide DIR [VERSION]            print what `ask decide` prints for policy.txt and cases.bin in DIR
  second ask tally DIR [VERSION]             print what `ask tally` prints for policy.txt, question.bin and requests.bin in DIR
  second ask sheet DIR [VERSION]             print what `ask sheet` prints for policy.txt, question.bin and request.txt in DIR
  second caretaker DIR                       print what `caretaker` prints for the files in DIR
VERSION is the version of the rules, 1 where it is left out
SORT is tokens, number, like, compile, begins, bag, question, view, decide, sheet, tally or lock; README.md says what
the input of each is";

/// The bytes of the sheets that `second sheet` lends.
const PAGE_BYTES: usize = 6_000;

fn main() {
    command::start(USAGE, run);
}

fn run(words: &[&str]) -> Result<(), Failure> {
    match words {
        ["vectors", directory, options @ ..] => {
            let (seed, scale) = seed_and_scale(options).ok_or(Failure::Usage)?;
            vectors::write_all(Path::new(directory), seed, scale).map_err(|error| failed(directory, error))
        }
        ["explain", word] => {
            let sort = sort_named(word)?;
            let typed = standard_input()?;
            let vector = (sort.read_typed)(&typed).ok_or_else(|| Failure::Other("not such an input".to_string()))?;
            print_explained(sort, &vector)
        }
        ["explain", word, "--vector", number] => {
            let sort = sort_named(word)?;
            let number: usize = number.parse().map_err(|_| Failure::Usage)?;
            let vectors = vectors::decode(sort, &standard_input()?)
                .ok_or_else(|| Failure::Other("not a file of such vectors".to_string()))?;
            let vector = number
                .checked_sub(1)
                .and_then(|index| vectors.get(index))
                .ok_or_else(|| Failure::Other(format!("vectors are numbered 1 to {}", vectors.len())))?;
            print_explained(sort, vector)
        }
        ["folders", directory] => folders::write_all(Path::new(directory)).map_err(|error| failed(directory, error)),
        ["sheet", directory] => {
            let [text, question, request] = files(directory, ["policy.txt", "question.bin", "request.txt"])?;
            print(&sheets::printed(&text, &question, &request, PAGE_BYTES, 1))
        }
        ["decide", directory, version @ ..] if version.len() < 2 => {
            let [text, bag, request] = files(directory, ["policy.txt", "bag.bin", "request.txt"])?;
            print(&decided(&text, &bag, &request, version_in(version)))
        }
        ["ask", word @ ("check" | "decide" | "tally" | "sheet"), directory, version @ ..] if version.len() < 2 => {
            ask(word, directory, version_in(version))
        }
        ["caretaker", directory] => caretaker(directory),
        _ => Err(Failure::Usage),
    }
}

/// The version that the last word names, if there is one.
fn version_in(words: &[&str]) -> u64 {
    asking::version_of_word(words.first().copied())
}

/// What the program `ask` prints for the files of a folder.
fn ask(word: &str, directory: &str, version: u64) -> Result<(), Failure> {
    let names = ["policy.txt", "cases.bin", "question.bin", "requests.bin", "request.txt"];
    let [text, cases, question, requests, request] = files(directory, names)?;
    match word {
        "check" => print(&asking::printed_check(&text, version)),
        "tally" => print(&asking::printed_tally(&text, &question, &requests, version)),
        "sheet" => print(&sheets::printed(&text, &question, &request, PAGE_BYTES, version)),
        _ => {
            let no_form = || Failure::Other("cases.bin has no such form".to_string());
            print(&asking::printed_decide(&text, &asking::read_cases(&cases).ok_or_else(no_form)?, version))
        }
    }
}

/// What the program `caretaker` prints for the files of a folder.
fn caretaker(directory: &str) -> Result<(), Failure> {
    let names = ["vocabulary.bin", "lock.txt", "actions.bin", "resource.txt", "room.bin"];
    let [vocabulary, lock, actions, resource, room] = files(directory, names)?;
    let lent = locks::Lent { vocabulary: &vocabulary, lock: &lock, actions: &actions, resource: &resource };
    print(&locks::printed(lent, room.len()))
}

/// The files' bytes; a missing file is empty.
fn files<const N: usize>(directory: &str, names: [&str; N]) -> Result<[Vec<u8>; N], Failure> {
    let mut all = names.map(|_| Vec::new());
    for (bytes, name) in all.iter_mut().zip(names) {
        let path = Path::new(directory).join(name);
        match fs::read(&path) {
            Ok(read) => *bytes = read,
            Err(error) if error.kind() == io::ErrorKind::NotFound => {}
            Err(error) => return Err(failed(&path.to_string_lossy(), error)),
        }
    }
    Ok(all)
}

/// The decision as a line: outcome, policy and mark; or `refused`, number, line, column, length.
fn decided(text: &[u8], bag: &[u8], request: &[u8], version: u64) -> String {
    match compile::compile(text, compile::ROOM_FOR_EACH_BYTE * text.len(), version) {
        Err(refusal) => refusal.printed(),
        Ok(compiled) => match deciding::decide(text, &compiled.table, bag, sheets::read_request(request)) {
            Err(number) => compile::Refusal::without_place(number).printed(),
            Ok(deciding::Decision { outcome, policy, mark }) => format!("{} {} {}\n", outcome, policy, mark),
        },
    }
}

/// The seed and the scale that the options give.
fn seed_and_scale(options: &[&str]) -> Option<(u64, usize)> {
    let mut seed = STANDARD_SEED;
    let mut scale = 1;
    for option in options.chunks(2) {
        match option {
            ["--seed", number] => seed = number.parse().ok()?,
            ["--scale", number] => scale = number.parse::<usize>().ok().filter(|scale| (1..=1_000).contains(scale))?,
            _ => return None,
        }
    }
    Some((seed, scale))
}

fn sort_named(word: &str) -> Result<&'static Sort, Failure> {
    SORTS.iter().find(|sort| sort.explain_word == word).ok_or(Failure::Usage)
}

fn print_explained(sort: &Sort, vector: &Vector) -> Result<(), Failure> {
    print(&(sort.explain)(vector))
}

#[cfg(test)]
mod tests {
    use super::*;

    #[test]
    fn options_come_in_any_order() {
        assert_eq!(seed_and_scale(&[]), Some((STANDARD_SEED, 1)));
        assert_eq!(seed_and_scale(&["--scale", "3", "--seed", "9"]), Some((9, 3)));
        assert_eq!(seed_and_scale(&["--seed"]), None);
        assert_eq!(seed_and_scale(&["--seed", "x"]), None);
        assert_eq!(seed_and_scale(&["--scale", "0"]), None);
        assert_eq!(seed_and_scale(&["--sede", "1"]), None);
    }

    #[test]
    fn unknown_words_are_a_usage_failure() {
        for words in
            [&[][..], &["vector", "d"], &["vectors"], &["explain"], &["explain", "numbers"], &["explain", "like", "x"]]
        {
            assert!(matches!(run(words), Err(Failure::Usage)));
        }
    }
}
