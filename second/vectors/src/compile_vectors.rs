//! The compile vectors: a text, the room lent and the version, and the table's size and sum or the refusal.

use definitions::compile::{compile, ROOM_FOR_EACH_BYTE};
use definitions::tokens::RESERVED_WORDS;
use generators::damaged_texts::any_text;
use generators::policy_texts::{policy, text_of};
use generators::random::Random;
use generators::wide_strings;

use crate::vector::{sum_of, Vector};

/// A bare policy without its `;`, as in 01, "Checked examples".
pub const P: &str = "permit(principal,action,resource)";

/// Conditions whose tokens, one by one, are replaced by every other token.
const CONDITIONS: [&str; 16] = [
    "principal . a . b == resource . c . d",
    "action . name != action . name",
    "env . a <= 1",
    "\"x\" like \"y*\"",
    "principal . a like \"?\"",
    "principal . a in [ 1 , \"x\" ]",
    "true in resource . a . b",
    "1 in action . name",
    "principal . a . containsAll ( [ \"x\" , true ] )",
    "action . name . containsAny ( [ -1 ] )",
    "principal has a . b",
    "action has name",
    "! true && ( false || true )",
    "if true then 1 < 2 else false",
    "if principal has a then ! ( env . a > -1.5 ) else ( true )",
    "( ! principal . a == true ) || \"x\" >= 1 && false",
];

/// Texts whose tokens are treated likewise.
const TEXTS: [&str; 4] = [
    "permit ( principal is person , action in [ \"a\" , \"b\" ] , resource is shaft ) ;",
    "forbid ( principal is tool , action , resource == \"shaft:1\" ) when { true } ;",
    "permit ( principal , action , resource ) ; forbid ( principal , action , resource ) ;",
    "permit ( principal , action in [ \"\" ] , resource is parameter ) when { false && true } ;",
];

/// The marks.
const MARKS: [&str; 18] =
    ["(", ")", "{", "}", "[", "]", ",", ";", ".", "!", "&&", "||", "==", "!=", ">", ">=", "<", "<="];

/// Names, strings and numbers, and tokens that are refused by themselves.
const OTHER_TOKENS: [&str; 28] = [
    "a", "name", "person", "shaft", "If", "\"\"", "\"x\"", "\"[\"", "\"a**\"", "\"??????\"", "0", "-2.5", ":", "&",
    "|", "=", "-", "_", "/", "@", "\u{0}", "\u{7f}", "ü", "\"a\tb\"", "\"a\n", "\"x", "1234567890123456",
    "-1234567890.123456",
];

/// The room lent: 8 bytes for each byte of text and the vector's shift, if that is not below nothing.
pub fn room_of(vector: &Vector) -> usize {
    let shift = i16::from_le_bytes([vector[1][0], vector[1][1]]);
    let room = (ROOM_FOR_EACH_BYTE * vector[0].len()) as i64 + i64::from(shift);
    room.max(0) as usize
}

/// The number by which a vector names the version.
pub fn version_of(vector: &Vector) -> u64 {
    vector[2].iter().rev().fold(0, |number, byte| number << 8 | u64::from(*byte))
}

/// A vector; the version has 8 bytes, little-endian.
pub fn vector_under(text: &[u8], shift: i16, version: u64) -> Vector {
    vec![text.to_vec(), shift.to_le_bytes().to_vec(), version.to_le_bytes().to_vec()]
}

/// A vector of version 1.
fn vector(text: &[u8], shift: i16) -> Vector {
    vector_under(text, shift, 1)
}

/// The answer: policies, bytes used and the table's sum; or the refusal's number, line, column and length.
pub fn answer(vector: &Vector) -> String {
    match compile(&vector[0], room_of(vector), version_of(vector)) {
        Ok(compiled) => {
            format!("P {} {} {}", compiled.set.policies.len(), compiled.table.len(), sum_of(&compiled.table))
        }
        Err(refusal) => format!("R {} {} {} {}", refusal.number, refusal.line, refusal.column, refusal.length),
    }
}

/// The vectors that are the same for every seed.
pub fn fixed() -> Vec<Vector> {
    let mut texts: Vec<Vec<u8>> = Vec::new();
    add_checked_examples(&mut texts);
    add_other_tokens(&mut texts);
    add_words_at_path_places(&mut texts);
    add_full_paths(&mut texts);
    add_full_lists(&mut texts);
    add_full_depths(&mut texts);
    add_patterns(&mut texts);
    add_long_tokens(&mut texts);
    add_many_policies(&mut texts);
    add_longest_texts(&mut texts);
    texts.extend(wide_strings::fixed_texts());
    let mut vectors: Vec<Vector> = texts.iter().map(|text| vector(text, 0)).collect();
    add_rooms(&mut vectors);
    vectors
}

/// A text with this condition after P.
pub fn with_condition(condition: &str) -> Vec<u8> {
    format!("{}when{{{}}};", P, condition).into_bytes()
}

/// All tokens of these lists and some as long as they may be, or longer.
fn every_token() -> Vec<String> {
    let mut tokens: Vec<String> =
        RESERVED_WORDS.iter().chain(&MARKS).chain(&OTHER_TOKENS).map(|token| token.to_string()).collect();
    tokens.push("w".repeat(64));
    tokens.push("w".repeat(65));
    tokens.push(format!("\"{}\"", "s".repeat(101)));
    tokens.push(format!("\"{}\"", "s".repeat(128)));
    tokens
}

/// 01, "Checked examples", and single texts that go wrong easily.
fn add_checked_examples(texts: &mut Vec<Vec<u8>>) {
    for text in ["", " ", "\n", " \t\r\n", ";", "permit", P] {
        texts.push(text.as_bytes().to_vec());
    }
    for after in [";", "; ", ";\n", ";\n\n", ";\r", ";;", ";permit", "\n", "when", "when{", "when{}", "when{}; "] {
        texts.push([P, after].concat().into_bytes());
    }
    for condition in [
        "principal.a",
        "principal.if==1",
        "action.kind==\"x\"",
        "true || false && false",
        "if true then true else true && false",
        "principal.a != \"x\"",
        "!(principal.a != \"x\")",
        "1in[1]",
        "\"a\"like\"b\"",
        "1==1then",
        "if 1==1then true else true",
        "5.",
        ".5",
        "1-5",
        "a-5",
        "1e5",
        "--1",
        "1===1",
        "principal.a==-x",
        "principal.a.",
        "principal.a.5",
        "principal.5",
        "1.a",
        "principal . a \n . b == 1",
        "principal has a . b . containsAll",
        "principal.a.containsAll}",
        "principal.a.containsAll(",
        "principal }",
        "principal.a )",
        "principal.a then",
        "principal.a;",
        "principal.a,",
        "principal.a has b",
        "principal in [1]",
        "principal.a in 1",
        "principal.a in (1)",
        "\"x\".containsAll([1])",
        "action.name.x==1",
        "action has name.x",
        "action has kind",
        "action.if",
        "action.containsAny([1])",
        "if a && b then",
        "if true && true then true",
        "! principal.a == 1 && true",
        "!!!true",
        "// comment\ntrue",
        "principal == \"x\"",
        "Group::\"admins\"",
        "true==true==true",
        "true like\"x\"&&true",
        "[1]==1",
        "principal.a.containsAll([1]).b",
        "((true)",
        "(true))",
    ] {
        texts.push(with_condition(condition));
        texts.push([P, "when{", condition].concat().into_bytes());
    }
    texts.push(
        b"permit(principal is person, action, resource is shaft)\n  when { principal.grade >= 3 };\n\
        forbid(principal, action in [\"teach\"], resource)\n  when { principal.hired != \"own\" };\n"
            .to_vec(),
    );
}

/// Every token of the conditions and texts above replaced by every token, and the text cut after and before it.
fn add_other_tokens(texts: &mut Vec<Vec<u8>>) {
    let others = every_token();
    for condition in CONDITIONS {
        let tokens: Vec<&str> = condition.split(' ').chain(["}", ";"]).collect();
        add_replaced(texts, &[P, "when{\n"].concat(), &tokens, &others);
    }
    for text in TEXTS {
        let tokens: Vec<&str> = text.split(' ').collect();
        add_replaced(texts, "", &tokens, &others);
    }
}

fn add_replaced(texts: &mut Vec<Vec<u8>>, before: &str, tokens: &[&str], others: &[String]) {
    for at in 0..tokens.len() {
        let left = [before, &tokens[..at].join(" ")].concat();
        let right = tokens[at + 1..].join(" ");
        texts.push(left.clone().into_bytes());
        texts.push([&left, " "].concat().into_bytes());
        for other in others {
            texts.push([&left, " ", other, " ", &right].concat().into_bytes());
        }
    }
    texts.push([before, &tokens.join(" ")].concat().into_bytes());
    texts.push([before, &tokens.join("\n")].concat().into_bytes());
}

/// Every reserved word and some names at every place of a path, for each root.
fn add_words_at_path_places(texts: &mut Vec<Vec<u8>>) {
    let words = RESERVED_WORDS.iter().chain(&["name", "a", "Name", "containsAll(", "containsAny([1])", "nam", "name_"]);
    for word in words {
        for root in ["principal", "resource", "action", "env"] {
            for path in [word.to_string(), format!("name.{}", word), format!("name.name.{}", word)] {
                texts.push(with_condition(&format!("{}.{}==1", root, path)));
                texts.push(with_condition(&format!("{}.{}", root, path)));
                texts.push(with_condition(&format!("1=={}.{}", root, path)));
                texts.push(with_condition(&format!("1 in {}.{}", root, path)));
                texts.push(with_condition(&format!("{} has {}", root, path)));
            }
        }
    }
}

/// Paths of 64 bytes and a further name at every place of a path; one name too long; blanks that do not count.
fn add_full_paths(texts: &mut Vec<Vec<u8>>) {
    let long = "w".repeat(64);
    let names = ["wwww.".repeat(12), "x.".repeat(31)];
    for root in ["env", "action"] {
        for (before, between, after) in [("", ".", "==1"), ("1==", ".", ""), ("1 in ", ".", ""), ("", " has ", "")] {
            let put = |path: &str| with_condition(&[before, root, between, path, after].concat());
            for other in every_token() {
                texts.push(put(&[&long, ".", &other].concat()));
            }
            for last in 1..=5 {
                let last = "z".repeat(last);
                texts.push(put(&[&names[0], last.as_str()].concat()));
                texts.push(put(&[&names[1], last.as_str()].concat()));
                texts.push(put(&[&names[0].replace('.', " \n. "), last.as_str()].concat()));
                texts.push(put(&[&names[1].replace('.', " . "), last.as_str(), ".containsAny([1])"].concat()));
            }
            texts.push(put(&[&names[0], "zzz.if"].concat()));
            texts.push(put(&[&names[0], "zzzzz.if"].concat()));
        }
    }
}

/// Lists of 16 literals and then every token.
fn add_full_lists(texts: &mut Vec<Vec<u8>>) {
    for (before, literal, after) in [
        ("permit(principal,action in[", "\"a\"", "],resource);"),
        ("permit(principal,action,resource)when{1 in[", "1", "]};"),
        ("permit(principal,action,resource)when{env.a.containsAll([", "true", "])};"),
        ("permit(principal,action,resource)when{env.a.containsAny([", "\"\"", "])};"),
    ] {
        for count in [1, 2, 15, 16, 17, 18] {
            let list = vec![literal; count].join(",");
            texts.push([before, &list, after].concat().into_bytes());
        }
        let list = vec![literal; 16].join(",");
        for other in every_token() {
            texts.push([before, &list, ",", &other, after].concat().into_bytes());
            texts.push([before, &list, " ", &other, after].concat().into_bytes());
        }
    }
}

/// Conditions nested 30 to 33 times in each form, and every token at the greatest depth.
fn add_full_depths(texts: &mut Vec<Vec<u8>>) {
    for (before, after) in [
        ("(", ")"),
        ("!", ""),
        ("if ", " then 1<2 else true"),
        ("if true then ", " else true"),
        ("if true then true else ", ""),
        ("true&&(", ")"),
        ("(true||", ")||true"),
    ] {
        for levels in [1, 2, 30, 31, 32, 33] {
            for inside in ["true", "principal.a.containsAll([1])", "env.a"] {
                texts.push(with_condition(&[&before.repeat(levels), inside, &after.repeat(levels)].concat()));
            }
        }
        let full = [before.repeat(31), "true".to_string(), after.repeat(31)].concat();
        texts.push(with_condition(&[&full, "&&", &full, "||!true"].concat()));
        texts.push(with_condition(&[before, &full].concat()));
    }
    for before in ["(".repeat(31), "!".repeat(31), "if ".repeat(31), "(!if ".repeat(10) + "("] {
        for other in every_token() {
            texts.push([P, "when{", &before, &other].concat().into_bytes());
            texts.push([P, "when{", &before, "true ", &other, " true"].concat().into_bytes());
        }
    }
}

/// 01, "Sizes": patterns at their limits.
fn add_patterns(texts: &mut Vec<Vec<u8>>) {
    let mut patterns: Vec<String> = [
        "", "*", "?", "**", "***", "*?*", "?*?*?", "*?*?*", "?????", "??????", "*a*b*c*d*", "*a*b*c*d*e*",
        "*a*b*c*d*e?", "[", "]", "{", "}", "a[", "[a]", "{a,b}", "a{", "a**", "**a", "a*a*", "\\*", "?:*", "*:**",
        "*[*", "?{?",
    ]
    .iter()
    .map(|pattern| pattern.to_string())
    .collect();
    for length in [99, 100, 101, 102, 126, 127, 128, 129] {
        patterns.push("a".repeat(length));
        patterns.push("a".repeat(length - 5) + "*?*?*");
        patterns.push("a".repeat(length - 6) + "*?*?*?");
        patterns.push("a".repeat(length - 1) + "[");
        patterns.push("ü".repeat(length / 2));
    }
    for pattern in patterns {
        texts.push(with_condition(&format!("env.a like\"{}\"", pattern)));
        texts.push(with_condition(&format!("\"x\"==\"{}\"", pattern)));
        texts.push(with_condition(&format!("true like\"{}\u{1}\"", pattern)));
        texts.push(format!("{}when{{1 like\"{}", P, pattern).into_bytes());
    }
}

/// Words, strings and numbers at their sizes where they are admitted and where they are not.
fn add_long_tokens(texts: &mut Vec<Vec<u8>>) {
    for more in 0..2 {
        let word = "w".repeat(64 + more);
        let string = format!("\"{}\"", "s".repeat(127 + more));
        let number = "7".repeat(15 + more);
        for token in [&word, &string, &number] {
            for (before, after) in [
                ("", ""),
                ("permit(principal is ", ",action,resource);"),
                ("permit(principal,action in[", "],resource);"),
                ("permit(principal,action,resource==", ");"),
                ("permit(principal,action,resource)when{env.", "==1};"),
                ("permit(principal,action,resource)when{action.", "==1};"),
                ("permit(principal,action,resource)when{env.a==", "};"),
                ("permit(principal,action,resource)when{env.a in[", "]};"),
                ("permit(principal,action,resource)when{env.a like", "};"),
                ("permit(principal,action,resource)when{env.a ", "};"),
            ] {
                texts.push([before, token, after].concat().into_bytes());
            }
        }
    }
}

/// 63 to 66 policies, and every reserved word and some other tokens after the 64th.
fn add_many_policies(texts: &mut Vec<Vec<u8>>) {
    let policy = [P, ";"].concat();
    for count in [2, 63, 64, 65, 66] {
        texts.push(policy.repeat(count).into_bytes());
        texts.push(policy.replace("permit", "forbid").repeat(count).into_bytes());
    }
    let full = policy.repeat(64);
    for other in RESERVED_WORDS.iter().chain(&[";", "a", "\n", ":", "\"x\"", "1", "(", "/", "permit(", "\n forbid"]) {
        texts.push([&full, *other].concat().into_bytes());
    }
}

/// Texts of 8,192 bytes and a few of one more: chains over the whole text, many entries, blanks, an error at the end.
fn add_longest_texts(texts: &mut Vec<Vec<u8>>) {
    let chain = |member: &str, join: &str, length: usize| {
        let mut text = [P, "when{", member].concat();
        while text.len() + join.len() + member.len() + 2 <= length {
            text = [&text, join, member].concat();
        }
        text.push_str("};");
        text.push_str(&" ".repeat(length - text.len()));
        text.into_bytes()
    };
    texts.push(chain("true", "&&", 8_192));
    texts.push(chain("1<1", "&&", 8_192));
    texts.push(chain("1<1", "||", 8_192));
    texts.push(chain("!1<1", "&&!1<1||", 8_192));
    texts.push(chain("(1<1)", "||", 8_192));
    texts.push(chain("env has a", "&&", 8_192));
    texts.push(chain("1<1", "&&", 8_193));
    texts.push([P, "when{", &"(".repeat(8_100)].concat().into_bytes());
    let mut unended = chain("1<1", "||", 8_192);
    unended[8_190] = b'"';
    texts.push(unended);
    let policy = "permit(principal is person,action in[\"teach\",\"read\"],resource is shaft)when{\n1<1||env has a.b.c&&\"x\"in resource.l};\n";
    let mut many = policy.repeat(64);
    many.push_str(&"\n".repeat(8_192 - many.len()));
    texts.push(many.clone().into_bytes());
    many.push(' ');
    texts.push(many.into_bytes());
    texts.push(vec![b' '; 8_192]);
    texts.push(vec![b' '; 8_193]);
    texts.push(vec![b'\n'; 8_192]);
    texts.push(vec![b'!'; 8_193]);
}

/// Rooms around 8 bytes for each byte of text, for texts that compile and texts that do not.
fn add_rooms(vectors: &mut Vec<Vector>) {
    let good = [P, ";"].concat().into_bytes();
    let full = with_condition("1<1&&1<1&&!1<1");
    let bad = with_condition("principal.a");
    for text in [b"".to_vec(), b" ".to_vec(), b":".to_vec(), b"permit".to_vec(), good, full, bad] {
        for shift in [-1, 1, -2, -3, -4, -5, -7, -8, -9, -100, -300, 5, 7, 8, 100, 1_000, i16::MIN, i16::MAX] {
            vectors.push(vector(&text, shift));
        }
    }
    vectors.push(vector(&[b' '; 8_192], -1));
    vectors.push(vector(&[b' '; 8_192], 5));
    vectors.push(vector(&[b' '; 8_193], -1));
    vectors.push(vector(&[b':'; 8_193], i16::MIN));
}

/// A random vector.
pub fn random(random: &mut Random) -> Vector {
    let text = match random.below(2_000) {
        0 => many_policies(random),
        1..=899 => any_text(random),
        _ => wide_strings::text(random),
    };
    let shift = match random.below(60) {
        0 => -1,
        1 => random.pick(&[1, 5, 7, 8, 100, i16::MAX]),
        2 => random.pick(&[-2, -5, -8, -40, -500, i16::MIN]),
        _ => 0,
    };
    vector(&text, shift)
}

/// Up to 66 random policies in about 8,192 bytes, sometimes with an error.
fn many_policies(random: &mut Random) -> Vec<u8> {
    let mut text = Vec::new();
    let longest = random.pick(&[8_192, 8_192, 8_192, 8_300]);
    for _ in 0..random.between(60, 66) {
        let tokens = policy(random);
        let more = text_of(&tokens, random);
        if text.len() + more.len() <= longest {
            text.extend(more);
        }
    }
    if random.one_in(2) {
        let at = random.below(text.len());
        text[at] = random.pick(b":;.\"a");
    }
    text
}

#[cfg(test)]
mod tests {
    use super::*;

    // Worked by hand: the entries 29 0 0, 32 0 0, 29 0 0, 34 0 3.
    #[test]
    fn the_answer_is_a_line() {
        let text = [P, ";"].concat();
        let table = [29, 0, 0, 0, 0, 32, 0, 0, 0, 0, 29, 0, 0, 0, 0, 34, 0, 0, 3, 0];
        assert_eq!(answer(&vector(text.as_bytes(), 0)), format!("P 1 20 {}", sum_of(&table)));
        assert_eq!(answer(&vector(b"", 0)), "P 0 0 0");
        assert_eq!(answer(&vector(b"", -9)), "P 0 0 0");
        assert_eq!(answer(&vector(P.as_bytes(), 0)), "R 10 1 34 0");
        assert_eq!(answer(&vector(P.as_bytes(), -1)), "R 2 0 0 0");
        assert_eq!(answer(&vector(&[b' '; 8_193], -1)), "R 1 0 0 0");
        assert_eq!(sum_of(&[1, 2]), 33);
    }

    // Every refusal, and texts that compile, among the vectors that every seed has.
    #[test]
    fn every_answer_is_there() {
        let answers: Vec<String> = fixed().iter().map(answer).collect();
        assert!(answers.iter().filter(|line| line.starts_with("P ")).count() > 1_000);
        for number in 1..=17 {
            let start = format!("R {} ", number);
            assert!(answers.iter().filter(|line| line.starts_with(&start)).count() >= 3, "{}", number);
        }
    }
}
