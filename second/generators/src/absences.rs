//! Conditions with absent attributes, for 02's request 7: at every place where one is met and where none is, those that every seed has
//! and random ones.

use definitions::plans::{list_value, number_value, string_value};

use crate::condition_texts::{bag_of, values_bag, Case, JOINED, P};
use crate::policy_texts::{put, put_joined, text_of, Tokens};
use crate::random::Random;
use crate::requests::{put_condition_on, put_has, put_plain_condition, put_policy, Wish, ATTRIBUTES};

/// Conditions that meet an attribute that is absent over the values' bag: as left operand, as right one, as both, beside an operand
/// whose kind would not do anyway, with a path that is near one that is there.
const MISSING: [&str; 24] = [
    "principal.a==1",
    "1==principal.a",
    "principal.a!=\"x\"",
    "principal.a==principal.a",
    "principal.a!=env.a",
    "principal.n<principal.a",
    "principal.a>=principal.n",
    "principal.l==principal.a",
    "resource.a>true",
    "true!=env.t",
    "principal.a like\"*\"",
    "env.s like\"own\"",
    "principal.a in[1,\"x\",true]",
    "resource.n in[3]",
    "principal.a in principal.l",
    "\"own\"in principal.a",
    "principal.a in env.a",
    "1 in principal.a",
    "principal.a in principal.s",
    "action.name in env.l",
    "principal.a.containsAll([\"x\"])",
    "env.l.containsAny([1,\"own\"])",
    "principal.l.x==1",
    "principal . n\n. a<=3",
];

/// Conditions that are true over the values' bag, and such that are false; none meets an absent attribute.
const TRUE: [&str; 6] = [
    "true",
    "principal.n==3",
    "principal has s",
    "\"own\"in principal.l",
    "action.name!=\"x\"",
    "principal.s like\"o*\"",
];
const FALSE: [&str; 6] =
    ["false", "principal.n<3", "principal has a", "principal.s==1", "principal.l==principal.l", "1 in principal.l"];

/// Places for a condition X that meets an absent attribute, T being true and F false: under `!`, in brackets, in chains.
const PLACES: [&str; 53] = [
    "X", "!X", "!!X", "!!!X", "(X)", "!(X)", "(!X)", "!(!X)", "!((X))", "!!(!X)", "X&&T", "X&&F", "T&&X", "F&&X",
    "!(X&&T)", "!(X&&F)", "!(T&&X)", "!(F&&X)", "X||T", "X||F", "T||X", "F||X", "!(X||T)", "!(X||F)", "!(T||X)",
    "!(F||X)", "!X&&T", "T&&!X", "!X||T", "F||!X", "T&&X&&F", "T&&!X&&T", "T&&T&&!X", "!X&&T&&T", "!(T&&X&&F)",
    "F||X||T", "F||F||!X", "X||T||T", "F||!X||F", "!(F||X||T)", "T&&X||T", "F&&X||T", "X&&F||T", "F||T&&!X", "T||F&&X",
    "F||F&&X||T", "T&&F||X&&T||T", "!X&&!X", "X||X", "(X||T)&&T", "(T||X)&&T", "(F&&X)||T", "!((F||X)&&T)",
];

/// Such places in the parts of `if`, and behind `has`.
const OTHER_PLACES: [&str; 27] = [
    "if X then T else T",
    "if X then T else F",
    "if X then F else T",
    "if !X then T else T",
    "!if X then T else F",
    "if T then X else T",
    "if T then !X else F",
    "if F then X else T",
    "if T then T else X",
    "if F then T else X",
    "if F then F else !X",
    "!if T then X else T",
    "!if F then T else X",
    "!if T then F else X",
    "!if F then X else F",
    "if (X||T) then T else T",
    "if (T||X) then T else X",
    "if if X then T else T then T else T",
    "if T then if F then X else T else X",
    "if T then(T||X)else X",
    "if F then X else if X then F else T",
    "principal has a&&X",
    "!(principal has a&&X)",
    "!principal has a||X",
    "if principal has a then X else T",
    "principal has s&&!X",
    "if principal has s then !X else T",
];

/// All the conditions, each with its bag.
pub fn fixed() -> Vec<Case> {
    let mut cases = Vec::new();
    add_places(&mut cases);
    add_joined(&mut cases);
    add_bags(&mut cases);
    add_guards(&mut cases);
    add_depths(&mut cases);
    add_chains(&mut cases);
    cases
}

/// A form with conditions in place of its capital letters.
fn filled(form: &str, of_letter: impl Fn(char) -> String) -> String {
    form.chars()
        .map(|letter| if letter.is_ascii_uppercase() { of_letter(letter) } else { letter.to_string() })
        .collect()
}

/// Each condition that meets an absent attribute at each place.
fn add_places(cases: &mut Vec<Case>) {
    let bag = values_bag();
    for (number, missing) in MISSING.iter().enumerate() {
        for (index, form) in PLACES.iter().chain(&OTHER_PLACES).enumerate() {
            let turn = number + index;
            let condition = filled(form, |letter| match letter {
                'T' => TRUE[turn % TRUE.len()].to_string(),
                'F' => FALSE[turn % FALSE.len()].to_string(),
                _ => missing.to_string(),
            });
            cases.push((condition, bag.clone()));
        }
    }
}

/// Three conditions joined, each true, false, one that meets an absent attribute, or one that does so under `!`.
fn add_joined(cases: &mut Vec<Case>) {
    let bag = values_bag();
    for (index, form) in JOINED.iter().enumerate() {
        for truths in 0..64 {
            let condition = filled(form, |letter| {
                let number = letter as usize - 'A' as usize;
                let turn = index + truths + number;
                match truths >> (2 * number) & 3 {
                    0 => FALSE[turn % FALSE.len()].to_string(),
                    1 => TRUE[turn % TRUE.len()].to_string(),
                    2 => MISSING[turn % MISSING.len()].to_string(),
                    _ => format!("!{}", MISSING[turn % MISSING.len()]),
                }
            });
            cases.push((condition, bag.clone()));
        }
    }
}

/// Three conditions joined, each over an attribute of its own that is absent, false or true: all 27 bags.
fn add_bags(cases: &mut Vec<Case>) {
    for form in JOINED {
        let condition = filled(form, |letter| match letter {
            'A' => "principal.a==true".to_string(),
            'B' => "env.b==true".to_string(),
            _ => "resource.c==true".to_string(),
        });
        for values in 0..27 {
            let attributes: Vec<(u8, &str, Vec<u8>)> =
                [(1, "a", values % 3), (2, "c", values / 9), (3, "b", values / 3 % 3)]
                    .iter()
                    .filter(|(_, _, value)| *value < 2)
                    .map(|(root, path, value)| (*root, *path, vec![3, *value as u8]))
                    .collect();
            cases.push((condition.clone(), bag_of(&attributes)));
        }
    }
}

/// Attributes behind `has`, with and without what they name; the guard may ask for another one, or stand on the wrong side.
fn add_guards(cases: &mut Vec<Case>) {
    let values = [
        ("a", number_value(0x4008_0000_0000_0000)),
        ("a", string_value(b"own")),
        ("a.b", number_value(0x4008_0000_0000_0000)),
        ("b", list_value(&[b"own".to_vec()])),
    ];
    let mut bags = vec![vec![0, 0, 0]];
    for root in 1..=3 {
        bags.extend(values.iter().map(|(path, value)| bag_of(&[(root, path, value.clone())])));
    }
    for form in [
        "R has a&&R.a==3",
        "R.a==3&&R has a",
        "!R has a||R.a==3",
        "R.a==3||!R has a",
        "!(R has a&&R.a!=3)",
        "!(R has b&&R.a!=3)",
        "R has a.b&&!R.a.b<3||R has b",
        "R has a&&R has b&&!R.a in R.b||!R has a",
        "if R has a then R.a!=3 else true",
        "if R has a then !R.a.b==3 else R has a.b",
        "if R has b then \"own\"in R.b else !R has a",
        "if R has b then R.b.containsAll([\"own\"])else !R.b.containsAny([\"own\"])",
        "R has b||!R.a like\"x*\"",
        "R has a||R has b||R has a.b||!R.a==1",
    ] {
        for root in ["principal", "resource", "env"] {
            let condition = form.replace('R', root);
            cases.extend(bags.iter().map(|bag| (condition.clone(), bag.clone())));
        }
    }
}

/// Nested up to 31 times.
fn add_depths(cases: &mut Vec<Case>) {
    let bag = values_bag();
    for levels in [2, 3, 17, 30, 31] {
        for inside in ["principal.a!=1", "\"own\"in env.l"] {
            for (before, after) in [
                ("(", ")"),
                ("!", ""),
                ("if ", " then true else true"),
                ("if true then ", " else true"),
                ("if false then true else ", ""),
                ("if true then true else ", ""),
                ("true&&(", ")"),
                ("false||(", ")||true"),
                ("(true||", ")&&true"),
                ("(false&&", "||true)"),
            ] {
                cases.push(([&before.repeat(levels), inside, &after.repeat(levels)].concat(), bag.clone()));
            }
        }
    }
}

/// Chains, up to texts of 8,192 bytes, with a condition that meets an absent attribute first, in the middle or last.
fn add_chains(cases: &mut Vec<Case>) {
    let bag = values_bag();
    let room = 8_192 - P.len() - "when{};".len();
    for (count, joint, member, last) in [
        (3, "&&", "true", ""),
        (3, "||", "false", "||true"),
        (90, "&&", "1<2", ""),
        (90, "||", "2<1", "||true"),
        (90, "||", "true&&false", "||1<2"),
        (room, "||", "false", "||true"),
        (room, "&&", "principal.n==3", ""),
    ] {
        let missing = "!principal.a==1";
        let count = count.min((room - missing.len() - last.len()) / (joint.len() + member.len()));
        for place in [0, count / 2, count] {
            let mut members = vec![member; count];
            members.insert(place, missing);
            cases.push(([&members.join(joint), last].concat(), bag.clone()));
        }
    }
}

/// 64 policies, of which these are satisfied whatever the version is, and those only under version 1: they meet an absent attribute.
pub fn rules_by_version(
    effect_of: impl Fn(usize) -> &'static str,
    is_satisfied: impl Fn(usize) -> bool,
    is_missing: impl Fn(usize) -> bool,
) -> String {
    let condition_of = |number: usize| match (is_missing(number), is_satisfied(number)) {
        (true, _) => ["!env.a==1", "env.a!=1||true"][number % 2],
        (false, true) => "!env has a",
        (false, false) => "env has a",
    };
    (1..=crate::marks::PLACES)
        .map(|number| format!("{}(principal,action,resource)when{{{}}};", effect_of(number), condition_of(number)))
        .collect()
}

/// 64 permits over the columns env.c0 to env.c5, of which the bits of n - 1 say those that policy n names, the first column's being the
/// highest. Where all these are there and false, policy n is satisfied; where one is absent, under version 1 alone.
pub fn rules_with_missing_columns() -> String {
    (1..=crate::marks::PLACES)
        .map(|number| {
            let is_named = |column: &usize| (number - 1) >> (5 - column) & 1 == 1;
            let parts: Vec<String> = (0..6).filter(is_named).map(|column| format!("!env.c{}==true", column)).collect();
            let condition = if parts.is_empty() { "true".to_string() } else { parts.join("&&") };
            format!("permit(principal,action,resource)when{{{}}};", condition)
        })
        .collect()
}

/// Conditions over the columns of `question_of_rows`, which meet absent candidates and go around them.
pub const ROW_CONDITIONS: [&str; 16] = [
    "!env.c0==true",
    "!(env.c0==true&&env.c1==false)",
    "env.c0==false||true",
    "true||env.c0==false",
    "if env.c0==true then false else true",
    "if env has c0 then !env.c0==true else true",
    "env has c1&&!env.c1==true",
    "!env has c1||env.c1!=env.c0",
    "!env.c0 in[3,\"x\",true]",
    "!env.c0 in env.c1",
    "!env.c0 like\"*\"&&!env.c1<=4",
    "env.c2==true||!env.c0==env.c1",
    "!(env has c0&&env.c0==true)||env.c5==true",
    "!env.c1.containsAny([\"x\"])",
    "!!env.c0==false",
    "if env.c1==env.c0 then true else !env.c2==true",
];

/// A random text of one to several policies, of which about every other one matches this request. Its conditions meet attributes under
/// `!`, in the parts of `if`, in chains, in brackets and behind `has`.
pub fn text(random: &mut Random, wish: &Wish) -> Vec<u8> {
    let mut tokens = Tokens::new();
    for _ in 0..random.pick(&[1, 1, 1, 2, 2, 3, 4]) {
        put_policy(&mut tokens, random, wish, |tokens, random| put_chain(tokens, random, 2));
    }
    text_of(&tokens, random)
}

/// Conditions joined by `&&` and `||`.
fn put_chain(tokens: &mut Tokens, random: &mut Random, depth: usize) {
    put_joined(tokens, random, "||", 4, |tokens, random| {
        put_joined(tokens, random, "&&", 5, |tokens, random| put_part(tokens, random, depth));
    });
}

/// A condition; `depth` limits those that hold further conditions.
fn put_part(tokens: &mut Tokens, random: &mut Random, depth: usize) {
    if depth == 0 {
        put_plain_condition(tokens, random);
        return;
    }
    match random.below(12) {
        0..=3 => {
            put(tokens, "!");
            put_part(tokens, random, depth - 1);
        }
        4 => {
            put(tokens, "!");
            put(tokens, "(");
            put_chain(tokens, random, depth - 1);
            put(tokens, ")");
        }
        5 => {
            put(tokens, "(");
            put_chain(tokens, random, depth - 1);
            put(tokens, ")");
        }
        6 | 7 => {
            for word in ["if", "then", "else"] {
                put(tokens, word);
                put_part(tokens, random, depth - 1);
            }
        }
        8 | 9 => put_guarded(tokens, random),
        _ => put_plain_condition(tokens, random),
    }
}

/// A condition on an attribute behind `has`, which mostly asks for the same.
fn put_guarded(tokens: &mut Tokens, random: &mut Random) {
    let attribute = random.pick(&ATTRIBUTES);
    let asked = if random.one_in(5) { random.pick(&ATTRIBUTES) } else { attribute };
    match random.below(3) {
        0 => {
            put(tokens, "(");
            put_has(tokens, asked);
            put(tokens, "&&");
            put_condition_on(tokens, random, attribute);
            put(tokens, ")");
        }
        1 => {
            for token in ["(", "!"] {
                put(tokens, token);
            }
            put_has(tokens, asked);
            put(tokens, "||");
            put_condition_on(tokens, random, attribute);
            put(tokens, ")");
        }
        _ => {
            put(tokens, "if");
            put_has(tokens, asked);
            put(tokens, "then");
            put_condition_on(tokens, random, attribute);
            put(tokens, "else");
            put_plain_condition(tokens, random);
        }
    }
}

#[cfg(test)]
mod tests {
    use super::*;
    use crate::examples::{question_of_rows, REQUEST};
    use crate::requests::wish;
    use definitions::bags::read_bag;
    use definitions::compile::{policies_of, table_of};
    use definitions::deciding::{decide, Facts, Truth};
    use definitions::policies::Version;
    use definitions::tallies::decisions;

    /// What a condition comes to over the values' bag, under version 2.
    fn truth_of(condition: &str) -> Truth {
        let text = format!("{}when{{{}}};", P, condition);
        let policies = policies_of(text.as_bytes()).unwrap();
        let bytes = values_bag();
        let bag = read_bag(&bytes).unwrap();
        let look_up = |root: u8, path: &[u8]| bag.look_up(root, path);
        let facts = Facts { text: text.as_bytes(), version: Version::Two, request: REQUEST, look_up: &look_up };
        facts.disjunction(policies[0].condition.as_ref().unwrap())
    }

    #[test]
    fn the_members_are_what_they_are_called() {
        assert!(MISSING.iter().all(|condition| truth_of(condition).is_err()));
        assert!(TRUE.iter().all(|condition| truth_of(condition) == Ok(true)));
        assert!(FALSE.iter().all(|condition| truth_of(condition) == Ok(false)));
    }

    #[test]
    fn the_conditions_compile_and_the_bags_are_bags() {
        for (condition, bag) in fixed() {
            let text = format!("{}when{{{}}};", P, condition);
            assert!(text.len() <= 8_192 && policies_of(text.as_bytes()).is_ok(), "{}", condition);
            assert!(read_bag(&bag).is_some(), "{}", condition);
        }
        let mut random = Random::new(131);
        for _ in 0..2_000 {
            let wish = wish(&mut random);
            let text = text(&mut random, &wish);
            assert!(policies_of(&text).is_ok(), "{}", text.escape_ascii());
        }
    }

    // In row r policy n is satisfied under version 2 if the bits of n - 1 are among those of r; under version 1 all are.
    #[test]
    fn each_row_has_a_mark_of_its_own() {
        let text = rules_with_missing_columns();
        let decided = |version| {
            let table = table_of(text.as_bytes(), version);
            decisions(text.as_bytes(), &table, &question_of_rows(&[2; 6]), REQUEST)
        };
        assert!(decided(Version::One).iter().all(|decision| decision.mark == u64::MAX));
        for (row, decision) in decided(Version::Two).iter().enumerate() {
            let expected: u64 = (0..64).filter(|bits| bits & row == *bits).map(|bits| 1 << bits).sum();
            assert_eq!((decision.outcome, decision.policy, decision.mark), (1, 1, expected));
        }
    }

    // Policies 1 and 64 are satisfied, 2 and 63 under version 1 alone.
    #[test]
    fn the_marks_go_by_the_version() {
        let text = rules_by_version(|_| "permit", |number| number % 63 == 1, |number| [2, 63].contains(&number));
        assert_eq!(policies_of(text.as_bytes()).unwrap().len(), 64);
        let mark =
            |version| decide(text.as_bytes(), &table_of(text.as_bytes(), version), &[0, 0, 0], REQUEST).unwrap().mark;
        assert_eq!(mark(Version::One), 0xC000_0000_0000_0003);
        assert_eq!(mark(Version::Two), 0x8000_0000_0000_0001);
    }
}
