//! Random rule texts that keep every rule of 01, "The rule text", as lists of tokens and as texts.

use definitions::policies::{PRINCIPAL_TYPES, RESOURCE_TYPES};
use definitions::tokens::{class_of, Class};

use crate::random::Random;

/// The tokens of a text under construction.
pub type Tokens = Vec<Vec<u8>>;

const ROOTS: [&str; 4] = ["principal", "resource", "action", "env"];
const NAMES: [&str; 14] = [
    "a", "b", "x1", "grade", "hired", "flags", "own-er", "x_1", "If", "truer", "permits", "containsall", "person",
    "Z--_9",
];
const STRINGS: [&str; 16] = [
    "", "x", "own", "teach", "shaft:A1", "permit", "a b", "1", "true", "Süd", "//", "a;}", "controller:7:b", "\\",
    "€ü", "😀",
];
const PATTERNS: [&str; 10] = ["", "*", "shaft:*", "*A1", "?x?", "a*b*:?", "Süd*", "*:*", "S?d", "?€*😀"];
const NUMBERS: [&str; 12] =
    ["0", "-0", "1", "3", "-1", "2.5", "0.1", "75.50", "007", "-12.25", "123456789012345", "0.00000000000001"];
const COMPARATORS: [&str; 6] = ["==", "!=", ">", ">=", "<", "<="];

/// One more token.
pub fn put(tokens: &mut Tokens, token: &str) {
    tokens.push(token.as_bytes().to_vec());
}

/// One more string, between its quotes.
pub fn put_string(tokens: &mut Tokens, inside: &str) {
    put(tokens, &format!("\"{}\"", inside));
}

/// The tokens of one policy.
pub fn policy(random: &mut Random) -> Tokens {
    let mut tokens = Tokens::new();
    put(&mut tokens, random.pick(&["permit", "forbid"]));
    put(&mut tokens, "(");
    put_principal_part(&mut tokens, random);
    put(&mut tokens, ",");
    put_action_part(&mut tokens, random);
    put(&mut tokens, ",");
    put_resource_part(&mut tokens, random);
    put(&mut tokens, ")");
    if !random.one_in(4) {
        put(&mut tokens, "when");
        put(&mut tokens, "{");
        put_disjunction(&mut tokens, random, 2);
        put(&mut tokens, "}");
    }
    put(&mut tokens, ";");
    tokens
}

/// The tokens of a policy whose target is bare, with a condition.
pub fn policy_with_condition(random: &mut Random) -> Tokens {
    policy_around(random, |tokens, random| put_disjunction(tokens, random, 2))
}

/// The same with so many levels of conditions inside conditions.
pub fn deep_policy(random: &mut Random, levels: usize) -> Tokens {
    policy_around(random, |tokens, random| put_deep_condition(tokens, random, levels))
}

/// The same with so many conditions joined.
pub fn wide_policy(random: &mut Random, members: usize) -> Tokens {
    policy_around(random, |tokens, random| {
        put_condition(tokens, random, 0);
        for _ in 1..members {
            put(tokens, random.pick(&["&&", "&&", "||"]));
            put_condition(tokens, random, 0);
        }
    })
}

/// A policy with a bare target and this condition.
fn policy_around(random: &mut Random, put_inside: impl FnOnce(&mut Tokens, &mut Random)) -> Tokens {
    let mut tokens = Tokens::new();
    put(&mut tokens, random.pick(&["permit", "forbid"]));
    for token in ["(", "principal", ",", "action", ",", "resource", ")", "when", "{"] {
        put(&mut tokens, token);
    }
    put_inside(&mut tokens, random);
    put(&mut tokens, "}");
    put(&mut tokens, ";");
    tokens
}

/// `!`, brackets and `if` around one another, in any order, so many in all.
fn put_deep_condition(tokens: &mut Tokens, random: &mut Random, levels: usize) {
    if levels == 0 {
        put_condition(tokens, random, 0);
        return;
    }
    match random.below(6) {
        0 | 1 => {
            put(tokens, "!");
            put_deep_condition(tokens, random, levels - 1);
        }
        2..=4 => {
            put(tokens, "(");
            if random.one_in(6) {
                put_condition(tokens, random, 0);
                put(tokens, random.pick(&["&&", "||"]));
            }
            put_deep_condition(tokens, random, levels - 1);
            put(tokens, ")");
        }
        _ => {
            let deep = random.below(3);
            for (index, word) in ["if", "then", "else"].iter().enumerate() {
                put(tokens, word);
                put_deep_condition(tokens, random, if index == deep { levels - 1 } else { 0 });
            }
        }
    }
}

/// The principal part: bare, or `is` a type.
fn put_principal_part(tokens: &mut Tokens, random: &mut Random) {
    put(tokens, "principal");
    if random.one_in(3) {
        put(tokens, "is");
        put(tokens, random.pick(&PRINCIPAL_TYPES));
    }
}

/// The action part: bare, or `in` a list of strings.
fn put_action_part(tokens: &mut Tokens, random: &mut Random) {
    put(tokens, "action");
    if random.one_in(3) {
        put(tokens, "in");
        put_list_of(tokens, random, |tokens, random| put_string(tokens, random.pick(&STRINGS)));
    }
}

/// The resource part: bare, `is` a type, or `==` a string.
fn put_resource_part(tokens: &mut Tokens, random: &mut Random) {
    put(tokens, "resource");
    match random.below(4) {
        0 => {
            put(tokens, "is");
            put(tokens, random.pick(&RESOURCE_TYPES));
        }
        1 => {
            put(tokens, "==");
            put_string(tokens, random.pick(&STRINGS));
        }
        _ => {}
    }
}

/// A disjunction is conjunctions joined by `||`.
fn put_disjunction(tokens: &mut Tokens, random: &mut Random, depth: usize) {
    put_joined(tokens, random, "||", 5, |tokens, random| put_conjunction(tokens, random, depth));
}

/// A conjunction is conditions joined by `&&`.
fn put_conjunction(tokens: &mut Tokens, random: &mut Random, depth: usize) {
    put_joined(tokens, random, "&&", 5, |tokens, random| put_condition(tokens, random, depth));
}

/// One thing or more, joined by a mark; after each comes another one time in `cases`.
pub fn put_joined(
    tokens: &mut Tokens,
    random: &mut Random,
    mark: &str,
    cases: usize,
    put_one: impl Fn(&mut Tokens, &mut Random),
) {
    put_one(tokens, random);
    while random.one_in(cases) {
        put(tokens, mark);
        put_one(tokens, random);
    }
}

/// A condition; `depth` limits those that hold further conditions.
fn put_condition(tokens: &mut Tokens, random: &mut Random, depth: usize) {
    if depth > 0 && random.one_in(5) {
        put_nested_condition(tokens, random, depth - 1);
        return;
    }
    match random.below(8) {
        0 => {
            put_operand(tokens, random);
            put(tokens, "like");
            put_string(tokens, random.pick(&PATTERNS));
        }
        1 => {
            put_operand(tokens, random);
            put(tokens, "in");
            put_list_of(tokens, random, put_literal);
        }
        2 => {
            put_operand(tokens, random);
            put(tokens, "in");
            put_attribute(tokens, random);
        }
        3 => {
            put_attribute(tokens, random);
            put(tokens, ".");
            put(tokens, random.pick(&["containsAll", "containsAny"]));
            put(tokens, "(");
            put_list_of(tokens, random, put_literal);
            put(tokens, ")");
        }
        4 => {
            let root = random.pick(&ROOTS);
            put(tokens, root);
            put(tokens, "has");
            put_path(tokens, random, root);
        }
        5 => put(tokens, random.pick(&["true", "false"])),
        _ => {
            put_operand(tokens, random);
            put(tokens, random.pick(&COMPARATORS));
            put_operand(tokens, random);
        }
    }
}

/// `!` and a condition; a disjunction in brackets; `if`, `then`, `else`.
fn put_nested_condition(tokens: &mut Tokens, random: &mut Random, depth: usize) {
    match random.below(3) {
        0 => {
            put(tokens, "!");
            put_condition(tokens, random, depth);
        }
        1 => {
            put(tokens, "(");
            put_disjunction(tokens, random, depth);
            put(tokens, ")");
        }
        _ => {
            for word in ["if", "then", "else"] {
                put(tokens, word);
                put_condition(tokens, random, depth);
            }
        }
    }
}

/// An operand is an attribute or a literal.
fn put_operand(tokens: &mut Tokens, random: &mut Random) {
    if random.one_in(3) {
        put_literal(tokens, random);
    } else {
        put_attribute(tokens, random);
    }
}

/// An attribute: root, `.`, path.
fn put_attribute(tokens: &mut Tokens, random: &mut Random) {
    let root = random.pick(&ROOTS);
    put(tokens, root);
    put(tokens, ".");
    put_path(tokens, random, root);
}

/// A path is names joined by dots; after action it is `name`.
fn put_path(tokens: &mut Tokens, random: &mut Random, root: &str) {
    if root == "action" {
        put(tokens, "name");
        return;
    }
    put(tokens, random.pick(&NAMES));
    for _ in 0..random.pick(&[0, 0, 0, 0, 1, 1, 2, 3]) {
        put(tokens, ".");
        put(tokens, random.pick(&NAMES));
    }
}

fn put_literal(tokens: &mut Tokens, random: &mut Random) {
    match random.below(5) {
        0 => put(tokens, random.pick(&["true", "false"])),
        1 | 2 => put(tokens, random.pick(&NUMBERS)),
        _ => put_string(tokens, random.pick(&STRINGS)),
    }
}

/// A list has at least one literal.
pub fn put_list_of(tokens: &mut Tokens, random: &mut Random, put_one: impl Fn(&mut Tokens, &mut Random)) {
    put(tokens, "[");
    put_one(tokens, random);
    for _ in 0..random.pick(&[0, 0, 0, 0, 1, 1, 2, 3]) {
        put(tokens, ",");
        put_one(tokens, random);
    }
    put(tokens, "]");
}

/// A text with these tokens: without blanks but where two tokens would grow together, with one space, or with any.
pub fn text_of(tokens: &[Vec<u8>], random: &mut Random) -> Vec<u8> {
    let style = random.below(4);
    let mut text = Vec::new();
    if style == 3 {
        put_blanks(&mut text, random);
    }
    for (index, token) in tokens.iter().enumerate() {
        if index > 0 {
            match style {
                0 if !grow_together(&tokens[index - 1], token) => {}
                0 | 1 => text.push(b' '),
                2 if random.one_in(3) => put_blanks(&mut text, random),
                2 if !grow_together(&tokens[index - 1], token) => {}
                _ => put_blanks(&mut text, random),
            }
        }
        text.extend_from_slice(token);
    }
    if style >= 2 && random.one_in(2) {
        put_blanks(&mut text, random);
    }
    text
}

/// One or more blanks.
pub fn put_blanks(text: &mut Vec<u8>, random: &mut Random) {
    text.push(random.pick(b"     \n\n\r\t"));
    while random.one_in(4) {
        text.push(random.pick(b"  \n\r\t"));
    }
}

/// Whether the second token, put directly after the first, would not begin a new token: after a word comes a word or a
/// number (no other two tokens of a valid text do so).
fn grow_together(first: &[u8], second: &[u8]) -> bool {
    let first_is_word = class_of(first[0]) == Class::Letter;
    first_is_word && (matches!(class_of(second[0]), Class::Letter | Class::Digit) || second[0] == b'-')
}

#[cfg(test)]
mod tests {
    use super::*;
    use definitions::tokens::{all_tokens, END_OF_TEXT};

    #[test]
    fn the_text_is_read_back_as_its_tokens() {
        let mut random = Random::new(36);
        for _ in 0..3_000 {
            let written = policy(&mut random);
            let text = text_of(&written, &mut random);
            let tokens = all_tokens(&text);
            assert!(tokens.iter().all(|token| !token.is_refused()));
            let read: Tokens = tokens
                .iter()
                .filter(|token| token.kind != END_OF_TEXT)
                .map(|token| text[token.start..token.end].to_vec())
                .collect();
            assert_eq!(read, written);
        }
    }
}
