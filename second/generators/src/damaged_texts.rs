//! Random rule texts with errors: tokens or bytes damaged, tokens in any order, sizes at their limits.

use definitions::tokens::RESERVED_WORDS;

use crate::policy_texts::{deep_policy, policy, policy_with_condition, put_blanks, text_of, wide_policy, Tokens};
use crate::random::Random;
use crate::wide_strings;

/// A bare policy without its `;`.
const P: &str = "permit(principal,action,resource)";

/// Tokens that may be admitted somewhere, without the reserved words.
const OTHER_TOKENS: [&str; 34] = [
    "(", ")", "{", "}", "[", "]", ",", ";", ".", "!", "&&", "||", "==", "!=", ">", ">=", "<", "<=", "a", "b", "name",
    "person", "tool", "shaft", "record", "\"\"", "\"x\"", "\"shaft:*\"", "\"**\"", "\"?????\"", "1", "-0.5", "2.50",
    "x_1",
];

/// Tokens that are refused by themselves, and such that only look so.
const BAD_TOKENS: [&str; 14] =
    [":", "&", "|", "=", "-", "_", "/", "\u{1}", "ü", "\"a\tb\"", "\"x", "\"\n\"", "1234567890123456", "\"\u{7f}"];

/// The tokens of conditions, so that soups of them are often good for a while.
const CONDITION_TOKENS: [&str; 26] = [
    "principal", "resource", "env", "action", ".", ".", ".", "a", "b", "name", "has", "==", "<", "in", "like", "[",
    "]", ",", "\"x\"", "1", "true", "&&", "||", "!", "(", ")",
];

/// The tokens of targets, likewise.
const TARGET_TOKENS: [&str; 18] = [
    "permit", "forbid", "(", ")", ",", ",", ";", "principal", "action", "resource", "is", "in", "==", "person",
    "shaft", "[\"a\"]", "\"x\"", "when",
];

/// Bytes that tell much about a reader of rule texts.
const TELLING: &[u8] = b"\"\":..-019aZn_&|=!<>()[]{},;*?/\\  \n\r\t\x00\x7f\x80\xff";

/// A text with or without errors.
pub fn any_text(random: &mut Random) -> Vec<u8> {
    match random.below(100) {
        0..=25 => good_text(random),
        26..=49 => {
            let mut tokens = some_policy(random);
            damage_tokens(&mut tokens, random);
            text_of(&tokens, random)
        }
        50..=61 => {
            let tokens = some_policy(random);
            let text = text_of(&tokens, random);
            damaged_bytes(text, random)
        }
        62..=70 => soup(random),
        71..=73 => wide_strings::text(random),
        74..=77 => text_with_types(random),
        78..=81 => text_with_bare_attribute(random),
        82..=96 => text_at_the_sizes(random),
        _ => (0..random.between(0, 40)).map(|_| random.byte()).collect(),
    }
}

/// A text that compiles.
pub fn good_text(random: &mut Random) -> Vec<u8> {
    let tokens = match random.below(16) {
        0 => {
            let levels = random.between(1, 31);
            deep_policy(random, levels)
        }
        1 => {
            let members = random.between(2, 20);
            wide_policy(random, members)
        }
        2 => (0..random.between(0, 4)).flat_map(|_| policy(random)).collect(),
        _ => some_policy(random),
    };
    text_of(&tokens, random)
}

fn some_policy(random: &mut Random) -> Tokens {
    if random.one_in(3) {
        policy(random)
    } else {
        policy_with_condition(random)
    }
}

fn any_token(random: &mut Random) -> Vec<u8> {
    let token = match random.below(20) {
        0 => random.pick(&BAD_TOKENS),
        1..=8 => random.pick(&RESERVED_WORDS),
        _ => random.pick(&OTHER_TOKENS),
    };
    token.as_bytes().to_vec()
}

/// One to three tokens changed, removed, inserted, doubled or swapped, mostly past the target; or the end cut off.
fn damage_tokens(tokens: &mut Tokens, random: &mut Random) {
    for _ in 0..random.pick(&[1, 1, 1, 2, 3]) {
        let low = if tokens.len() > 12 && !random.one_in(4) { 10 } else { 0 };
        let at = random.between(low, tokens.len() - 1);
        match random.below(8) {
            0 | 1 => tokens[at] = any_token(random),
            2 => tokens.insert(at, any_token(random)),
            3 => tokens.insert(at, tokens[at].clone()),
            4 => tokens.truncate(at + 1),
            5 if tokens.len() > 1 => {
                tokens.remove(at);
            }
            _ => {
                let other = random.between(low, tokens.len() - 1);
                tokens.swap(at, other);
            }
        }
    }
}

/// One to three bytes changed, removed or inserted, or the end cut off.
fn damaged_bytes(mut text: Vec<u8>, random: &mut Random) -> Vec<u8> {
    for _ in 0..random.pick(&[1, 1, 1, 2, 3]) {
        let byte = if random.one_in(4) { random.byte() } else { random.pick(TELLING) };
        let at = random.below(text.len() + 1);
        match random.below(6) {
            0 | 1 => text.insert(at, byte),
            2 => text.truncate(at),
            3 if at < text.len() => {
                text.remove(at);
            }
            _ if at < text.len() => text[at] = byte,
            _ => text.push(byte),
        }
    }
    text
}

/// Tokens in any order, from the start or from inside the braces.
fn soup(random: &mut Random) -> Vec<u8> {
    let mut tokens = Tokens::new();
    let sort = random.below(4);
    if sort != 0 {
        tokens.push(P.as_bytes().to_vec());
        tokens.push(b"when{".to_vec());
    }
    for _ in 0..random.between(1, 9) {
        let token = match sort {
            0 => random.pick(&TARGET_TOKENS).as_bytes().to_vec(),
            1 => any_token(random),
            _ => random.pick(&CONDITION_TOKENS).as_bytes().to_vec(),
        };
        tokens.push(token);
    }
    if random.one_in(2) {
        tokens.push(b"};".to_vec());
    }
    text_of(&tokens, random)
}

/// A text with two types, right or wrong.
fn text_with_types(random: &mut Random) -> Vec<u8> {
    const WORDS: [&str; 14] = [
        "person", "tool", "controller", "shaft", "parameter", "record", "person", "shaft", "Tool", "records", "name",
        "if", "principal", "\"shaft\"",
    ];
    let (principal, resource) = (random.pick(&WORDS), random.pick(&WORDS));
    format!("permit(principal is {},action,resource is {});", principal, resource).into_bytes()
}

/// A text with an attribute or a literal and then any token, inside of some other conditions.
fn text_with_bare_attribute(random: &mut Random) -> Vec<u8> {
    let before = random.pick(&[
        "",
        "(",
        "!",
        "if ",
        "if true then ",
        "if true then true else ",
        "true&&",
        "true||(",
        "!(1<2||",
        "1==",
        "1 in ",
        "principal has a&&",
    ]);
    let operand =
        random.pick(&["principal.a", "env.a.b", "action.name", "resource . a\n", "true", "1", "\"x\"", "env has a"]);
    let after = random.pick(&["&&", "||", ")", "}", " then ", " else ", "", ";", "==1", ".", ".containsAll"]);
    let rest = random.pick(&["", "true};", "};", "true)};"]);
    [P, "when{", before, operand, after, rest].concat().into_bytes()
}

/// A text with one part near its greatest size.
fn text_at_the_sizes(random: &mut Random) -> Vec<u8> {
    let condition = match random.below(12) {
        0 | 1 => condition_with_long_path(random),
        2 | 3 => condition_with_long_list(random),
        4..=7 => condition_with_pattern(random),
        8 => condition_with_long_token(random),
        9 => return action_list_text(random),
        _ => {
            let levels = random.between(29, 33);
            let tokens = if random.one_in(2) { one_form_nested(random, levels) } else { deep_policy(random, levels) };
            return text_of(&tokens, random);
        }
    };
    [P.as_bytes(), b"when{", &condition, b"};"].concat()
}

/// `!`, or brackets, or one form of `if`, nested.
fn one_form_nested(random: &mut Random, levels: usize) -> Tokens {
    let (before, after) =
        random.pick(&[("(", ")"), ("!", ""), ("if ", " then 1<2 else true"), ("if true then true else ", "")]);
    let nested = [&before.repeat(levels), "true", &after.repeat(levels)].concat();
    vec![P.as_bytes().to_vec(), b"when{".to_vec(), nested.into_bytes(), b"};".to_vec()]
}

/// A path of 61 to 67 bytes at any of its places, maybe with blanks, and sometimes a reserved word as its last name.
fn condition_with_long_path(random: &mut Random) -> Vec<u8> {
    let total = random.between(61, 67);
    let mut path = Vec::new();
    let mut length = 0;
    while length < total {
        let left = total - length;
        let most = if left > 64 || random.one_in(2) { 20 } else { left };
        let name = random.between(1, most.min(left));
        path.extend((0..name).map(|index| if index == 0 { b'w' } else { random.pick(b"abXY09_-") }));
        length += name;
        if length + 2 <= total {
            put_dot(&mut path, random);
            length += 1;
        } else {
            break;
        }
    }
    if random.one_in(5) {
        put_dot(&mut path, random);
        path.extend_from_slice(random.pick(&["if", "containsAll", "containsAny([1])", "name", "1"]).as_bytes());
    }
    let root = random.pick(&["principal", "resource", "env", "action"]);
    let (before, between, after) = random.pick(&[
        ("", ".", "==1"),
        ("", ".", ".containsAny([1])"),
        ("", " has ", ""),
        ("1==", ".", ""),
        ("true in ", ".", "&&true"),
    ]);
    [before.as_bytes(), root.as_bytes(), between.as_bytes(), &path, after.as_bytes()].concat()
}

fn put_dot(path: &mut Vec<u8>, random: &mut Random) {
    if random.one_in(4) {
        put_blanks(path, random);
    }
    path.push(b'.');
    if random.one_in(4) {
        put_blanks(path, random);
    }
}

/// A list of 15 to 18 literals, sometimes with another token at the end.
fn condition_with_long_list(random: &mut Random) -> Vec<u8> {
    let mut list = Vec::new();
    for index in 0..random.between(15, 18) {
        if index > 0 {
            list.push(b',');
        }
        list.extend_from_slice(random.pick(&["1", "\"x\"", "true", "-2.5", "\"\""]).as_bytes());
    }
    if random.one_in(4) {
        list.extend_from_slice(random.pick(&[",", ",a", ",if", ",:", ",\"x", ";", ",["]).as_bytes());
    }
    let (before, after) =
        random.pick(&[("1 in[", "]"), ("principal.a.containsAll([", "])"), ("action.name.containsAny([", "])")]);
    [before.as_bytes(), &list, after.as_bytes()].concat()
}

/// The same in the action part, with strings, or with another token last.
fn action_list_text(random: &mut Random) -> Vec<u8> {
    let strings = vec!["\"a\""; random.between(15, 17)].join(",");
    let last = random.pick(&["", "", ",1", ",true", ",\"b\"", ",", ",:", ",b"]);
    format!("forbid(principal,action in[{}{}],resource);", strings, last).into_bytes()
}

/// A pattern around its rule.
fn condition_with_pattern(random: &mut Random) -> Vec<u8> {
    let choices = random.pick(&[&b"ab*?"[..], b"a:?*", b"aaaaab*?", b"ab*?[", b"abc]}?", b"aaab?*{"]);
    let length = if random.one_in(3) { random.between(98, 103) } else { random.between(0, 14) };
    let mut pattern: Vec<u8> = (0..length).map(|_| random.pick(choices)).collect();
    if length > 90 {
        let wildcards = random.between(3, 6);
        for byte in pattern.iter_mut() {
            *byte = b'a';
        }
        for index in 0..wildcards {
            pattern[10 * index] = random.pick(b"*?");
        }
    }
    [b"env.a like\"".as_slice(), &pattern, b"\""].concat()
}

/// A word, string or number at its greatest size or one more.
fn condition_with_long_token(random: &mut Random) -> Vec<u8> {
    let more = random.between(0, 1);
    match random.below(4) {
        0 => format!("env.{}==1", "w".repeat(64 + more)).into_bytes(),
        1 => format!("env.a==\"{}\"", "s".repeat(127 + more)).into_bytes(),
        2 => format!("env.a like\"{}\"", "s".repeat(127 + more)).into_bytes(),
        _ => format!("env.a==-{}.5", "7".repeat(14 + more)).into_bytes(),
    }
}

#[cfg(test)]
mod tests {
    use super::*;
    use definitions::compile::policies_of;

    #[test]
    fn good_texts_compile() {
        let mut random = Random::new(61);
        for _ in 0..5_000 {
            let text = good_text(&mut random);
            assert!(text.len() > 8_192 || policies_of(&text).is_ok(), "{}", text.escape_ascii());
        }
    }

    #[test]
    fn all_refusals_but_those_of_size_arise() {
        let mut random = Random::new(62);
        let mut seen = [0; 18];
        for _ in 0..20_000 {
            match policies_of(&any_text(&mut random)) {
                Ok(_) => seen[0] += 1,
                Err(refusal) => seen[usize::from(refusal.number)] += 1,
            }
        }
        for number in [0, 3, 4, 5, 6, 7, 8, 9, 10, 11, 12, 13, 14, 16, 17] {
            assert!(seen[number] >= 30, "{}: {:?}", number, seen);
        }
    }
}
