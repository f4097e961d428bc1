//! Conditions that are the same for every seed, each with the bag over which it is decided: every operator with every pair
//! of kinds, borders of numbers, patterns, paths, joined conditions, long chains and deep nesting.

use definitions::plans::{list_value, number_value, string_value, Entry, Plan};

use crate::bag_bytes::PATHS;
use crate::literals::literal as random_literal;
use crate::wide_strings;

/// A bare permit without its `;`, as in 01, "Checked examples".
pub const P: &str = "permit(principal,action,resource)";

/// A condition, and a bag.
pub type Case = (String, Vec<u8>);

const COMPARATORS: [&str; 6] = ["==", "!=", ">", ">=", "<", "<="];

/// Operands of every kind over the values' bag: strings, numbers, flags, lists, absent; attributes and literals.
const OPERANDS: [&str; 18] = [
    "principal.s", "principal.e", "action.name", "\"own\"", "\"\"", "\"teach\"", "principal.n", "resource.z", "3",
    "-0", "principal.t", "principal.f", "true", "false", "principal.l", "principal.m", "principal.a", "env.s",
];

/// One operand of each sort.
const FEW_OPERANDS: [&str; 8] =
    ["principal.s", "\"own\"", "principal.n", "3", "principal.t", "true", "principal.l", "principal.a"];

const ATTRIBUTES: [&str; 12] = [
    "principal.s", "principal.e", "action.name", "principal.n", "resource.z", "principal.t", "principal.f",
    "principal.l", "principal.m", "resource.l", "principal.a", "env.l",
];

const LISTS: [&str; 13] = [
    "[\"own\"]",
    "[\"\"]",
    "[\"ow\",\"owns\",\"Own\"]",
    "[\"own\",\"teach\"]",
    "[\"teach\",\"own\",\"own\"]",
    "[\"own\",\"x\"]",
    "[3]",
    "[-0,3.0]",
    "[2.9999,3.0001,\"3\"]",
    "[true]",
    "[false,1,\"own\"]",
    "[\"own\",3,true,\"teach\",0]",
    "[\"0\",\"1\",\"2\",\"3\",\"4\",\"5\",\"6\",\"7\",\"8\",\"9\",\"a\",\"b\",\"c\",\"d\",\"teach\",\"own\"]",
];

const PATTERNS: [&str; 18] = [
    "", "*", "?", "shaft:*", "*A1", "*:*", "*:A1", "shaft:?1", "shaft:?:*", "*:*:*", "????:*", "own", "o?n", "*n*",
    "*?*?*", ":*", "*:", "s*t:A*",
];

const STRINGS: [&str; 16] = [
    "", "A1", "A1A1", "shaft:A1", "shaft:", "shaft:b:A1", "shaft", ":", "::", "a:b:c", ":A1", "own", "oown", "n",
    "shaft:A", "sht:A:",
];

/// Numbers on the borders of binary64 and of the literals.
const BITS: [u64; 20] = [
    0,
    0x8000_0000_0000_0000, // -0
    1,                     // the least above 0
    0x8000_0000_0000_0001,
    0x000F_FFFF_FFFF_FFFF, // the greatest subnormal
    0x0010_0000_0000_0000,
    0x7FEF_FFFF_FFFF_FFFF, // the greatest finite number
    0xFFEF_FFFF_FFFF_FFFF,
    0x3FB9_9999_9999_999A, // 0.1
    0x3FB9_9999_9999_9999,
    0x3FB9_9999_9999_999B,
    0x3FF0_0000_0000_0000, // 1
    0xBFF0_0000_0000_0000,
    0x4008_0000_0000_0000, // 3
    0x4004_0000_0000_0000, // 2.5
    0x4030_0000_0000_0000, // 16
    0x430C_6BF5_2633_FFF8, // 999999999999999
    0x42DC_1221_8377_DE40, // 123456789012345
    0x3D06_849B_86A1_2B9B, // 0.00000000000001
    0x3FD5_5555_5555_5555, // a third
];

const LITERALS: [&str; 20] = [
    "0", "-0", "0.1", "-0.1", "0.10", "0.10000000000000", "1", "01", "1.0", "-1", "3", "2.5", "16", "999999999999999",
    "-999999999999999", "123456789012345", "0.00000000000001", "0.33333333333333", "0.00000000000000",
    "-0.00000000000000",
];

/// Three conditions joined in many ways.
pub const JOINED: [&str; 23] = [
    "A&&B&&C",
    "A||B||C",
    "A&&B||C",
    "A||B&&C",
    "(A||B)&&C",
    "A&&(B||C)",
    "!A&&B||C",
    "!(A&&B)||C",
    "!(A||B)&&C",
    "!!A&&!B",
    "if A then B else C",
    "!if A then B else C",
    "if A then B else C&&A",
    "if !A then B else C||B",
    "if (A&&B) then C else !C",
    "if A then if B then C else A else B",
    "if if A then B else C then C else A",
    "if A then B else if C then A else B",
    "A&&B&&C||A&&C||B",
    "A||B&&C&&A||C&&B",
    "((A))&&((B)||(C))",
    "A&&if B then C else A",
    "C||if A then !B else (B&&C)",
];

/// A bag with these attributes: root byte, path, kind byte and value.
pub fn bag_of(attributes: &[(u8, &str, Vec<u8>)]) -> Vec<u8> {
    let mut plan = Plan { sections: [Vec::new(), Vec::new(), Vec::new()], columns: None };
    for (root, path, value) in attributes {
        let entry = Entry { path: path.as_bytes().to_vec(), value: value.clone() };
        plan.sections[usize::from(*root) - 1].push(entry);
    }
    plan.bytes()
}

fn strings(all: &[&str]) -> Vec<u8> {
    let all: Vec<Vec<u8>> = all.iter().map(|string| string.as_bytes().to_vec()).collect();
    list_value(&all)
}

/// A bag with values of every kind.
pub fn values_bag() -> Vec<u8> {
    bag_of(&[
        (1, "e", string_value(b"")),
        (1, "f", vec![3, 0]),
        (1, "l", strings(&["own", "teach"])),
        (1, "m", strings(&[])),
        (1, "n", number_value(0x4008_0000_0000_0000)),
        (1, "s", string_value(b"own")),
        (1, "t", vec![3, 1]),
        (2, "l", strings(&["", "x"])),
        (2, "z", number_value(0x8000_0000_0000_0000)),
    ])
}

/// All the conditions.
pub fn fixed() -> Vec<Case> {
    let mut cases = Vec::new();
    add_kinds(&mut cases);
    add_parts_of_if(&mut cases);
    add_numbers(&mut cases);
    add_strings(&mut cases);
    add_wide_strings(&mut cases);
    add_lists(&mut cases);
    add_paths(&mut cases);
    add_has(&mut cases);
    add_joined(&mut cases);
    add_depths(&mut cases);
    add_chains(&mut cases);
    cases
}

/// Every operator with every pair of kinds, and under `!`.
fn add_kinds(cases: &mut Vec<Case>) {
    let mut conditions = Vec::new();
    for left in OPERANDS {
        for comparator in COMPARATORS {
            conditions.extend(OPERANDS.iter().map(|right| [left, comparator, right].concat()));
        }
        conditions.extend(PATTERNS.iter().map(|pattern| format!("{} like\"{}\"", left, pattern)));
        conditions.extend(LISTS.iter().map(|list| format!("{} in{}", left, list)));
        conditions.extend(ATTRIBUTES.iter().map(|right| format!("{} in {}", left, right)));
    }
    for left in ATTRIBUTES {
        for list in LISTS {
            conditions.push(format!("{}.containsAll({})", left, list));
            conditions.push(format!("{}.containsAny({})", left, list));
        }
    }
    let bag = values_bag();
    for condition in conditions {
        cases.push((format!("!{}", condition), bag.clone()));
        cases.push((condition, bag.clone()));
    }
}

/// Conditions as each part of an `if`, alone and negated.
fn add_parts_of_if(cases: &mut Vec<Case>) {
    let mut conditions = Vec::new();
    for left in FEW_OPERANDS {
        for right in FEW_OPERANDS {
            for comparator in ["==", "!=", "<="] {
                conditions.push([left, comparator, right].concat());
            }
        }
        conditions.push(format!("{} like\"*\"", left));
        conditions.push(format!("{} in[3,\"own\",true]", left));
        conditions.push(format!("{} in principal.l", left));
    }
    for condition in ["principal.l.containsAll([\"own\"])", "principal.a.containsAny([\"own\"])", "principal has s"] {
        conditions.push(condition.to_string());
    }
    let bag = values_bag();
    for condition in &conditions {
        for text in [
            format!("if {} then true else false", condition),
            format!("if {} then false else true", condition),
            format!("if true then {} else false", condition),
            format!("if false then true else {}", condition),
            format!("!if !{} then {} else true", condition, condition),
        ] {
            cases.push((text, bag.clone()));
        }
    }
}

/// Literals against numbers of the bag, and numbers against each other.
fn add_numbers(cases: &mut Vec<Case>) {
    for (index, bits) in BITS.iter().enumerate() {
        let bag = bag_of(&[(1, "n", number_value(*bits))]);
        for literal in LITERALS {
            for comparator in COMPARATORS {
                cases.push((["principal.n", comparator, literal].concat(), bag.clone()));
            }
            cases.push((format!("{}<principal.n", literal), bag.clone()));
            cases.push((format!("principal.n in[7,{}]", literal), bag.clone()));
        }
        for other in BITS.iter().skip(index % 2).step_by(2) {
            let bag = bag_of(&[(1, "n", number_value(*bits)), (3, "n", number_value(*other))]);
            for comparator in COMPARATORS {
                cases.push((["principal.n", comparator, "env.n"].concat(), bag.clone()));
            }
        }
    }
    for left in LITERALS {
        for right in LITERALS {
            for comparator in ["==", "<", ">="] {
                cases.push(([left, comparator, right].concat(), vec![0, 0, 0]));
            }
        }
    }
    let mut random = crate::random::Random::new(0x0123_4567_89AB_CDEF);
    for _ in 0..300 {
        let literal = String::from_utf8_lossy(&random_literal(&mut random)).into_owned();
        let own = definitions::numbers::value_of(literal.as_bytes()).to_bits();
        for bits in [own, own.wrapping_add(1), own.wrapping_sub(1)] {
            if f64::from_bits(bits).is_finite() {
                let bag = bag_of(&[(3, "n", number_value(bits))]);
                cases.push((format!("env.n=={}", literal), bag.clone()));
                cases.push((format!("env.n<{}", literal), bag));
            }
        }
    }
}

/// Strings of the bag against literals, patterns and each other: equal, longer, shorter, with any bytes.
fn add_strings(cases: &mut Vec<Case>) {
    for string in STRINGS {
        let bag = bag_of(&[(2, "s", string_value(string.as_bytes()))]);
        for pattern in PATTERNS {
            cases.push((format!("resource.s like\"{}\"", pattern), bag.clone()));
            cases.push((format!("\"{}\"like\"{}\"", string, pattern), vec![0, 0, 0]));
        }
        for other in STRINGS {
            cases.push((format!("resource.s==\"{}\"", other), bag.clone()));
            cases.push((format!("\"{}\"!=resource.s", other), bag.clone()));
        }
    }
    let long = "s".repeat(127);
    let changed = [&"s".repeat(126), "t"].concat();
    let texts = [&long[..126], &long, &changed, "\u{fc}", "own", ""];
    let bytes = [
        &long.as_bytes()[..126],
        long.as_bytes(),
        changed.as_bytes(),
        "\u{fc}".as_bytes(),
        b"own\0",
        b"\0",
        b"\"",
        b"own\"",
        b"\n",
        b"\xff",
    ];
    for string in bytes {
        let bag = bag_of(&[(3, "s", string_value(string)), (3, "t", list_value(&[b"x".to_vec(), string.to_vec()]))]);
        for text in texts {
            cases.push((format!("env.s==\"{}\"", text), bag.clone()));
            cases.push((format!("\"{}\"!=env.s", text), bag.clone()));
            cases.push((format!("env.s in[\"x\",\"{}\"]", text), bag.clone()));
            cases.push((format!("\"{}\"in env.t", text), bag.clone()));
            cases.push((format!("env.t.containsAny([\"{}\"])", text), bag.clone()));
        }
        for pattern in ["*", "?", "??", "own?", "*s", "s*t", "*?*?*", "?*\u{fc}"] {
            cases.push((format!("env.s like\"{}\"", pattern), bag.clone()));
        }
        cases.push(("env.s in env.t".to_string(), bag.clone()));
        cases.push(("env.s==env.s".to_string(), bag));
    }
}

/// Strings of the bag with characters of every length, and such that are not UTF-8: they compare by bytes and match no pattern.
fn add_wide_strings(cases: &mut Vec<Case>) {
    let wide = ["Süd", "S€d", "S😀d", "ü", "ü:ü", "S\u{7FF}\u{800}\u{FFFF}\u{10000}d"]
        .map(|string| string.as_bytes().to_vec());
    let broken = wide_strings::BROKEN.iter().map(|bytes| [b"S", *bytes, b"d"].concat());
    for string in wide.into_iter().chain(broken).chain(wide_strings::BROKEN.iter().map(|bytes| bytes.to_vec())) {
        let all = [b"own".to_vec(), string.clone()];
        let bag = bag_of(&[
            (1, "s", string_value(&string)),
            (3, "l", list_value(&all)),
            (3, "s", string_value(&string)),
            (3, "t", string_value(&string[..string.len() - 1])),
        ]);
        for pattern in ["*", "?", "??", "S?d", "S??d", "S???d", "S*d", "*d", "ü", "?:?", "Süd", "S*\u{10000}*"] {
            cases.push((format!("env.s like\"{}\"", pattern), bag.clone()));
        }
        for condition in [
            "!env.s like\"*\"",
            "if env.s like\"*\"then false else true",
            "env.s==principal.s",
            "env.s!=principal.s",
            "env.t==env.s",
            "env.t!=env.s",
            "env.s in env.l",
            "principal.s in env.l",
            "env.t in env.l",
            "env.s==\"Süd\"",
            "env.s in[\"S\",\"Süd\",\"ü\"]",
            "\"Süd\"in env.l",
            "env.l.containsAny([\"Süd\",\"ü\"])",
            "env.l.containsAll([\"own\",\"Süd\"])",
            "env has s&&env.s==env.s",
        ] {
            cases.push((condition.to_string(), bag.clone()));
        }
    }
}

/// Lists of the bag: none, empty strings, the last of 16, the longest.
fn add_lists(cases: &mut Vec<Case>) {
    let sixteen: Vec<String> = (0..16).map(|index| format!("e{}", index)).collect();
    let sixteen: Vec<&str> = sixteen.iter().map(String::as_str).collect();
    let long = "s".repeat(127);
    for list in [
        &[][..],
        &[""],
        &["", ""],
        &["e0"],
        &["e0", "e1"],
        &["e1", "e0", "e1"],
        &["", "e15"],
        &["e", "e00", "E0"],
        &sixteen,
        &[""; 16],
        &[&long, "e0"],
        &[&long[1..], &long],
    ] {
        let bag = bag_of(&[(1, "s", string_value(b"e1")), (2, "l", strings(list)), (2, "m", strings(&["e1"]))]);
        for string in ["", "e0", "e1", "e15", "e", &long] {
            cases.push((format!("\"{}\"in resource.l", string), bag.clone()));
            cases.push((format!("resource.l.containsAll([\"{}\"])", string), bag.clone()));
            cases.push((format!("resource.l.containsAny([\"{}\",1])", string), bag.clone()));
            cases.push((format!("resource.l.containsAll([\"{}\",\"e1\"])", string), bag.clone()));
            cases.push((format!("resource.l.containsAny([\"x\",\"{}\"])", string), bag.clone()));
        }
        let quoted: Vec<String> = sixteen.iter().map(|string| format!("\"{}\"", string)).collect();
        cases.push((format!("resource.l.containsAll([{}])", quoted.join(",")), bag.clone()));
        cases.push((format!("resource.l.containsAny([{}])", quoted.join(",")), bag.clone()));
        for condition in ["principal.s in resource.l", "resource.l in resource.m", "resource.l==resource.l"] {
            cases.push((condition.to_string(), bag.clone()));
        }
    }
}

/// Paths that are near one another, with blanks around their dots, in full sections.
fn add_paths(cases: &mut Vec<Case>) {
    let mut paths: Vec<&str> = PATHS.to_vec();
    paths.sort_unstable();
    let value = |index: usize| string_value(format!("v{}", index).as_bytes());
    let all: Vec<(u8, &str, Vec<u8>)> = (1..=3)
        .flat_map(|root| {
            paths.iter().enumerate().map(move |(index, path)| (root, *path, value(10 * root as usize + index)))
        })
        .collect();
    let bag = |but: &str| {
        let kept: Vec<_> = all.iter().filter(|entry| entry.1 != but && entry.0 != 3).cloned().collect();
        bag_of(&kept)
    };
    let full = bag("");
    for (index, path) in paths.iter().enumerate() {
        for (root, name) in [(1, "principal"), (2, "resource"), (3, "env")] {
            let number = 10 * root + index;
            for written in
                [path.to_string(), path.replace('.', " \n.\t\r "), path.replace('.', " ."), path.replace('.', ". ")]
            {
                cases.push((format!("{}.{}==\"v{}\"", name, written, number), full.clone()));
                cases.push((format!("{} has {}", name, written), full.clone()));
            }
            cases.push((format!("\"v{}\"in[\"x\"]||{}\n.\t{} like\"v*\"", number, name, path), full.clone()));
        }
        let without = bag(path);
        cases.push((format!("principal.{}!=\"\"", path), without.clone()));
        cases.push((format!("resource has {}", path), without));
    }
    let names: Vec<String> = (0..32).map(|index| format!("p{:02}", index)).collect();
    let many: Vec<(u8, &str, Vec<u8>)> = names.iter().map(|name| (2, name.as_str(), vec![3, 1])).collect();
    let many = bag_of(&many);
    for index in [0, 1, 15, 30, 31, 32] {
        cases.push((format!("resource.p{:02}==true", index), many.clone()));
    }
    let word = "w".repeat(64);
    let dotted = "ab.".repeat(21) + "c";
    let long = bag_of(&[(3, &dotted, vec![3, 1]), (3, &word, vec![3, 1])]);
    for path in [&word, &word[..63], &dotted, &dotted[..62], &dotted.replace('.', "  .  ")] {
        cases.push((format!("env.{}==true", path), long.clone()));
        cases.push((format!("env has {}", path), long.clone()));
    }
}

fn add_has(cases: &mut Vec<Case>) {
    let bag = bag_of(&[
        (1, "a", vec![3, 0]),
        (1, "a.b", strings(&[])),
        (2, "a.b.c", string_value(b"")),
        (3, "a-b", number_value(0)),
    ]);
    for root in ["principal", "resource", "env"] {
        for path in ["a", "a.b", "a . b", "a.b.c", "a\n.b\t.c", "a-b", "a.b.c.d", "b", "A", "aa"] {
            for before in ["", "!", "true&&", "false||"] {
                cases.push((format!("{}{} has {}", before, root, path), bag.clone()));
            }
        }
    }
    for condition in ["action has name", "!action has name", "action has\nname&&action.name==\"teach\""] {
        cases.push((condition.to_string(), bag.clone()));
    }
}

/// Small joined conditions over all truths of their members.
fn add_joined(cases: &mut Vec<Case>) {
    const TRUTHS: [[&str; 3]; 2] =
        [["false", "principal.a==1", "principal.n<3"], ["true", "!principal.a!=1", "principal.n>=3"]];
    let bag = values_bag();
    for form in JOINED {
        for truths in 0..8 {
            for shift in 0..3 {
                let mut condition = form.to_string();
                for (index, name) in ["A", "B", "C"].iter().enumerate() {
                    condition = condition.replace(name, TRUTHS[truths >> index & 1][(index + shift) % 3]);
                }
                cases.push((condition, bag.clone()));
            }
        }
    }
}

/// Conditions nested 31 times and less often, in each form.
fn add_depths(cases: &mut Vec<Case>) {
    let bag = values_bag();
    for levels in [1, 2, 3, 16, 30, 31] {
        for inside in ["true", "false", "principal.s==\"own\"", "principal.a!=1"] {
            for (before, after) in [
                ("(", ")"),
                ("!", ""),
                ("if ", " then true else false"),
                ("if ", " then false else true"),
                ("if true then ", " else false"),
                ("if false then true else ", ""),
                ("true&&(", ")"),
                ("false||(", ")"),
                ("(false||", ")&&true"),
                ("(true&&", "||false)"),
            ] {
                cases.push(([&before.repeat(levels), inside, &after.repeat(levels)].concat(), bag.clone()));
            }
        }
    }
    for inside in ["true", "false", "principal.n==3", "env.a==1"] {
        cases.push((["(!if ".repeat(10), inside.to_string(), " then 1<2 else true)".repeat(10)].concat(), bag.clone()));
        let full = ["!(".repeat(15), inside.to_string(), ")".repeat(15)].concat();
        cases.push(([&full, "&&", &full, "||!", inside].concat(), bag.clone()));
    }
}

/// Chains over texts of 8,192 bytes whose truth hangs on the first, a middle or the last member.
fn add_chains(cases: &mut Vec<Case>) {
    let bag = values_bag();
    let room = 8_192 - P.len() - "when{};".len();
    for (join, member, other) in [
        ("&&", "true", "false"),
        ("||", "false", "true"),
        ("&&", "1<2", "2<1"),
        ("||", "2<1", "principal.n==3"),
        ("&&", "principal.s==\"own\"", "principal.a!=1"),
        ("||", "principal.a!=1", "\"teach\"in principal.l"),
    ] {
        let count = (room - other.len()) / (join.len() + member.len());
        for place in [0, count / 2, count, count + 1] {
            let mut members = vec![member; count];
            if place <= count {
                members.insert(place, other);
            }
            cases.push((members.join(join), bag.clone()));
        }
    }
    for (member, count) in [("true&&false", 600), ("!(1<2)", 900), ("false&&true&&true", 400)] {
        for last in ["", "||true", "||false", "||true&&true"] {
            cases.push(([&vec![member; count].join("||"), last].concat(), bag.clone()));
        }
    }
}

#[cfg(test)]
mod tests {
    use super::*;
    use definitions::bags::read_bag;
    use definitions::compile::policies_of;

    #[test]
    fn the_conditions_compile_and_the_bags_are_bags() {
        for (condition, bag) in fixed() {
            let text = format!("{}when{{{}}};", P, condition);
            assert!(policies_of(text.as_bytes()).is_ok(), "{}", condition);
            assert!(read_bag(&bag).is_some(), "{}", condition);
        }
    }

    #[test]
    fn chains_fill_the_text() {
        let longest = fixed().iter().map(|case| case.0.len()).max();
        assert!(longest > Some(8_130) && longest <= Some(8_192 - 40), "{:?}", longest);
    }
}
