//! Random requests, and policies, bags and questions that speak of the same few attributes, so that conditions meet values
//! of their own kind, of other kinds, and none.

use definitions::plans::{list_value, number_value, string_value, Column, Entry, Plan};

use crate::policy_texts::{put, put_joined, put_list_of, put_string, text_of, Tokens};
use crate::random::Random;

/// The roots in the order of their bytes, which count from 1.
const ROOTS: [&str; 3] = ["principal", "resource", "env"];

/// An attribute: root byte, path, and the kind that its values mostly have.
pub type Attribute = (u8, &'static str, u8);

/// The attributes.
pub const ATTRIBUTES: [Attribute; 12] = [
    (1, "grade", 2),
    (1, "groups", 4),
    (1, "hired", STRING_KIND),
    (1, "own.flag", 3),
    (2, "l", 4),
    (2, "level", 2),
    (2, "level.max", 2),
    (2, "owner", STRING_KIND),
    (3, "f", 3),
    (3, "grade", 2),
    (3, "hired", STRING_KIND),
    (3, "on-duty", 4),
];

const STRING_KIND: u8 = 1;

/// Strings of bags and literals alike.
const STRINGS: [&str; 10] =
    ["own", "loan", "", "teach", "shaft:A1", "shaft:b:A1", "A1A1", "Süd", "shaft:Süd", "S€d:😀"];

/// Strings that only bags have: they are not UTF-8.
const BROKEN_STRINGS: [&[u8]; 6] = [b"S\xFCd", b"S\xC3", b"own\x80", b"shaft:\xC0\xBC", b"\xED\xA0\x80", b"S\xC3d"];

const PATTERNS: [&str; 15] = [
    "*", "own", "o*", "*n", "shaft:*", "*:A1", "*A1", "?????", "*a*", "shaft:?:*", "S?d", "S??d", "*ü*", "shaft:S?d",
    "???:?",
];

/// Numbers as literals and as bits.
const NUMBERS: [(&str, u64); 9] = [
    ("0", 0),
    ("-0", 0x8000_0000_0000_0000),
    ("1", 0x3FF0_0000_0000_0000),
    ("-1.0", 0xBFF0_0000_0000_0000),
    ("2.5", 0x4004_0000_0000_0000),
    ("3", 0x4008_0000_0000_0000),
    ("0.1", 0x3FB9_9999_9999_999A),
    ("0.10", 0x3FB9_9999_9999_9999),
    ("3.00", 0x4008_0000_0000_0001),
];

const SUBJECTS: [&str; 4] = ["person:K7", "tool:t9", "person:tool:1", "tool::"];
const ACTIONS: [&str; 4] = ["teach", "own", "shaft:A1", "Süd"];
const RESOURCES: [&str; 7] =
    ["shaft:A1", "record:7", "shaft:b:A1", "controller:c", "parameter:p", "record:shaft:A1", "shaft:Süd"];

/// Who wants to do what with what.
pub struct Wish {
    pub subject: &'static str,
    pub action: &'static str,
    pub resource: &'static str,
}

/// A random request that keeps the rules.
pub fn wish(random: &mut Random) -> Wish {
    Wish { subject: random.pick(&SUBJECTS), action: random.pick(&ACTIONS), resource: random.pick(&RESOURCES) }
}

/// A random bag with about half of the attributes.
pub fn bag(random: &mut Random) -> Plan {
    let mut plan = Plan { sections: [Vec::new(), Vec::new(), Vec::new()], columns: None };
    for (root, path, kind) in ATTRIBUTES {
        if random.one_in(2) {
            let entry = Entry { path: path.as_bytes().to_vec(), value: value(random, kind) };
            plan.sections[usize::from(root) - 1].push(entry);
        }
    }
    plan
}

/// A random question with at most so many rows: columns that set, add and remove attributes of the base.
pub fn question(random: &mut Random, most_rows: usize) -> Plan {
    let mut plan = bag(random);
    let mut columns: Vec<Column> = Vec::new();
    let mut rows = 1;
    for _ in 0..random.pick(&[0, 1, 2, 2, 3, 3, 4, 5, 6]) {
        let (root, path, kind) = random.pick(&ATTRIBUTES);
        let new = Column { root, path: path.as_bytes().to_vec(), candidates: candidates(random, kind) };
        let is_new = columns.iter().all(|column| column.root != new.root || column.path != new.path);
        if is_new && rows * new.candidates.len() <= most_rows {
            rows *= new.candidates.len();
            columns.push(new);
        }
    }
    plan.columns = Some(columns);
    plan
}

/// 1 to 8 different candidates, absent ones among them.
fn candidates(random: &mut Random, kind: u8) -> Vec<Vec<u8>> {
    let mut all: Vec<Vec<u8>> = Vec::new();
    for _ in 0..random.pick(&[1, 2, 2, 3, 3, 4, 6, 8]) {
        let new = if random.one_in(4) { vec![0] } else { value(random, kind) };
        if !all.contains(&new) {
            all.push(new);
        }
    }
    all
}

/// A value, mostly of this kind.
fn value(random: &mut Random, kind: u8) -> Vec<u8> {
    let kind = if random.one_in(8) { random.between(1, 4) as u8 } else { kind };
    match kind {
        STRING_KIND => string_value(&string(random)),
        2 => number_value(random.pick(&NUMBERS).1),
        3 => vec![3, random.below(2) as u8],
        _ => {
            let count = random.pick(&[0, 1, 2, 2, 3, 4]);
            let strings: Vec<Vec<u8>> = (0..count).map(|_| string(random)).collect();
            list_value(&strings)
        }
    }
}

/// A string of a bag, sometimes one that is not UTF-8.
fn string(random: &mut Random) -> Vec<u8> {
    if random.one_in(12) {
        random.pick(&BROKEN_STRINGS).to_vec()
    } else {
        random.pick(&STRINGS).as_bytes().to_vec()
    }
}

/// An action that is not UTF-8.
pub fn broken_action(random: &mut Random) -> &'static [u8] {
    random.pick(&BROKEN_STRINGS)
}

/// A random text of one or a few policies, of which about every other one matches this request.
pub fn text(random: &mut Random, wish: &Wish) -> Vec<u8> {
    let mut tokens = Tokens::new();
    for _ in 0..random.pick(&[1, 1, 1, 1, 2, 2, 3, 4]) {
        put_policy(&mut tokens, random, wish, |tokens, random| put_disjunction(tokens, random, 3));
    }
    text_of(&tokens, random)
}

/// A policy, mostly with a condition; `put_inside` puts that.
pub fn put_policy(
    tokens: &mut Tokens,
    random: &mut Random,
    wish: &Wish,
    put_inside: impl Fn(&mut Tokens, &mut Random),
) {
    put(tokens, random.pick(&["permit", "permit", "forbid"]));
    put(tokens, "(");
    put(tokens, "principal");
    if random.one_in(4) {
        put(tokens, "is");
        put(tokens, if random.one_in(3) { random.pick(&["person", "tool"]) } else { before_colon(wish.subject) });
    }
    put(tokens, ",");
    put(tokens, "action");
    if random.one_in(4) {
        put(tokens, "in");
        let own = wish.action;
        put_list_of(tokens, random, |tokens, random| {
            put_string(tokens, if random.one_in(2) { random.pick(&ACTIONS) } else { own });
        });
    }
    put(tokens, ",");
    put_resource_part(tokens, random, wish);
    put(tokens, ")");
    if !random.one_in(6) {
        put(tokens, "when");
        put(tokens, "{");
        put_inside(tokens, random);
        put(tokens, "}");
    }
    put(tokens, ";");
}

fn put_resource_part(tokens: &mut Tokens, random: &mut Random, wish: &Wish) {
    put(tokens, "resource");
    let resource = if random.one_in(3) { random.pick(&RESOURCES) } else { wish.resource };
    match random.below(8) {
        0 => {
            put(tokens, "is");
            put(tokens, before_colon(resource));
        }
        1 => {
            put(tokens, "==");
            put_string(tokens, resource);
        }
        _ => {}
    }
}

fn before_colon(name: &'static str) -> &'static str {
    name.split(':').next().unwrap_or(name)
}

fn put_disjunction(tokens: &mut Tokens, random: &mut Random, depth: usize) {
    put_joined(tokens, random, "||", 5, |tokens, random| put_conjunction(tokens, random, depth));
}

fn put_conjunction(tokens: &mut Tokens, random: &mut Random, depth: usize) {
    put_joined(tokens, random, "&&", 6, |tokens, random| put_condition(tokens, random, depth));
}

/// A condition; `depth` limits those that hold further conditions.
fn put_condition(tokens: &mut Tokens, random: &mut Random, depth: usize) {
    if depth == 0 || !random.one_in(4) {
        put_plain_condition(tokens, random);
        return;
    }
    match random.below(4) {
        0 | 1 => {
            put(tokens, "!");
            put_condition(tokens, random, depth - 1);
        }
        2 => {
            put(tokens, "(");
            put_disjunction(tokens, random, depth - 1);
            put(tokens, ")");
        }
        _ => {
            for word in ["if", "then", "else"] {
                put(tokens, word);
                put_condition(tokens, random, depth - 1);
            }
        }
    }
}

/// A condition that holds no other.
pub fn put_plain_condition(tokens: &mut Tokens, random: &mut Random) {
    match random.below(16) {
        0..=6 => put_comparison(tokens, random),
        7 | 8 => {
            put_operand(tokens, random, STRING_KIND);
            put(tokens, "like");
            put_string(tokens, random.pick(&PATTERNS));
        }
        9 | 10 => {
            let kind = random.between(1, 3) as u8;
            put_operand(tokens, random, kind);
            put(tokens, "in");
            put_list_of(tokens, random, |tokens, random| put_literal(tokens, random, kind));
        }
        11 => {
            put_operand(tokens, random, STRING_KIND);
            put(tokens, "in");
            put_attribute(tokens, random, 4);
        }
        12 | 13 => {
            put_attribute(tokens, random, 4);
            put(tokens, ".");
            put(tokens, random.pick(&["containsAll", "containsAny"]));
            put(tokens, "(");
            put_list_of(tokens, random, |tokens, random| put_literal(tokens, random, STRING_KIND));
            put(tokens, ")");
        }
        14 => {
            let attribute = random.pick(&ATTRIBUTES);
            put_has(tokens, attribute);
        }
        _ => put(tokens, random.pick(&["true", "false"])),
    }
}

/// A condition that has this attribute as an operand, and fits the kind of it.
pub fn put_condition_on(tokens: &mut Tokens, random: &mut Random, attribute: Attribute) {
    let kind = attribute.2;
    match (kind, random.below(4)) {
        (STRING_KIND, 0) => {
            put_named(tokens, attribute);
            put(tokens, "like");
            put_string(tokens, random.pick(&PATTERNS));
        }
        (4, 0 | 1) => {
            put_operand(tokens, random, STRING_KIND);
            put(tokens, "in");
            put_named(tokens, attribute);
        }
        (4, _) => {
            put_named(tokens, attribute);
            put(tokens, ".");
            put(tokens, random.pick(&["containsAll", "containsAny"]));
            put(tokens, "(");
            put_list_of(tokens, random, |tokens, random| put_literal(tokens, random, STRING_KIND));
            put(tokens, ")");
        }
        (_, 1) => {
            put_named(tokens, attribute);
            put(tokens, "in");
            put_list_of(tokens, random, |tokens, random| put_literal(tokens, random, kind));
        }
        (_, 2) => {
            put_operand(tokens, random, kind);
            put(tokens, random.pick(&["==", "!="]));
            put_named(tokens, attribute);
        }
        _ => {
            put_named(tokens, attribute);
            put(tokens, random.pick(&["==", "!=", "!="]));
            put_operand(tokens, random, kind);
        }
    }
}

/// Two operands, mostly of one kind, with a comparator that may hold for it.
fn put_comparison(tokens: &mut Tokens, random: &mut Random) {
    let kind = random.pick(&[1, 1, 2, 2, 2, 3]);
    put_operand(tokens, random, kind);
    let for_all = random.pick(&["==", "==", "!="]);
    let comparator = if kind == 2 { random.pick(&["==", "!=", "<", "<=", ">", ">="]) } else { for_all };
    put(tokens, comparator);
    put_operand(tokens, random, kind);
}

/// An attribute or a literal, mostly of this kind.
fn put_operand(tokens: &mut Tokens, random: &mut Random, kind: u8) {
    if kind == STRING_KIND && random.one_in(8) {
        put(tokens, "action");
        put(tokens, ".");
        put(tokens, "name");
    } else if random.one_in(3) {
        put_literal(tokens, random, kind);
    } else {
        put_attribute(tokens, random, kind);
    }
}

fn put_attribute(tokens: &mut Tokens, random: &mut Random, kind: u8) {
    let mut found = random.pick(&ATTRIBUTES);
    while found.2 != kind && !random.one_in(12) {
        found = random.pick(&ATTRIBUTES);
    }
    put_named(tokens, found);
}

/// This attribute: root, `.`, path.
fn put_named(tokens: &mut Tokens, (root, path, _): Attribute) {
    put(tokens, ROOTS[usize::from(root) - 1]);
    put(tokens, ".");
    put_path(tokens, path);
}

/// This attribute's root, `has` and its path.
pub fn put_has(tokens: &mut Tokens, (root, path, _): Attribute) {
    put(tokens, ROOTS[usize::from(root) - 1]);
    put(tokens, "has");
    put_path(tokens, path);
}

fn put_path(tokens: &mut Tokens, path: &str) {
    for (index, name) in path.split('.').enumerate() {
        if index > 0 {
            put(tokens, ".");
        }
        put(tokens, name);
    }
}

/// A literal, mostly of this kind; a list has none, so that a string stands for it.
fn put_literal(tokens: &mut Tokens, random: &mut Random, kind: u8) {
    let kind = if random.one_in(10) { random.between(1, 3) as u8 } else { kind };
    match kind {
        2 => put(tokens, random.pick(&NUMBERS).0),
        3 => put(tokens, random.pick(&["true", "false"])),
        _ => put_string(tokens, random.pick(&STRINGS)),
    }
}

#[cfg(test)]
mod tests {
    use super::*;
    use definitions::bags::read_bag;
    use definitions::compile::policies_of;
    use definitions::deciding::Request;
    use definitions::questions::read_question;

    #[test]
    fn everything_keeps_the_rules() {
        let mut random = Random::new(101);
        for _ in 0..3_000 {
            let wish = wish(&mut random);
            let (subject, action, resource) = (wish.subject, wish.action, wish.resource);
            let request =
                Request { subject: subject.as_bytes(), action: action.as_bytes(), resource: resource.as_bytes() };
            assert_eq!(request.refusal(), None);
            let text = text(&mut random, &wish);
            assert!(policies_of(&text).is_ok(), "{}", text.escape_ascii());
            assert!(read_bag(&bag(&mut random).bytes()).is_some());
            let question = read_question(&question(&mut random, 300).bytes()).unwrap();
            assert!(question.rows() <= 300);
        }
    }

    #[test]
    fn attributes_ascend_within_a_root() {
        for pair in ATTRIBUTES.windows(2) {
            assert!((pair[0].0, pair[0].1) < (pair[1].0, pair[1].1));
        }
    }
}
