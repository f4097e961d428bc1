//! What a rule text admits at the place where it is refused: each token is tried there.

use definitions::compile::policies_of;
use definitions::tokens::{all_tokens, place_of, RESERVED_WORDS};

/// The tokens that are tried, as they are named in a message, and as they are tried.
const TRIED: [(&str, &str); 41] = [
    ("`permit`", "permit"),
    ("`forbid`", "forbid"),
    ("`(`", "("),
    ("`principal`", "principal"),
    ("`action`", "action"),
    ("`resource`", "resource"),
    ("`env`", "env"),
    ("`is`", "is"),
    ("`person`", "person"),
    ("`tool`", "tool"),
    ("`controller`", "controller"),
    ("`shaft`", "shaft"),
    ("`parameter`", "parameter"),
    ("`record`", "record"),
    ("a name", "zz"),
    ("`==`", "=="),
    ("`!=`", "!="),
    ("`<`", "<"),
    ("`<=`", "<="),
    ("`>`", ">"),
    ("`>=`", ">="),
    ("`in`", "in"),
    ("`like`", "like"),
    ("`has`", "has"),
    ("`[`", "["),
    ("a string in quotes", "\"z\""),
    ("a number", "0"),
    ("`true`", "true"),
    ("`false`", "false"),
    ("`!`", "!"),
    ("`if`", "if"),
    ("`then`", "then"),
    ("`else`", "else"),
    ("`.`", "."),
    ("`,`", ","),
    ("`]`", "]"),
    ("`&&`", "&&"),
    ("`||`", "||"),
    ("`)`", ")"),
    ("`when`", "when"),
    ("`{`", "{"),
];

/// Tokens that end something, tried too.
const ENDS: [(&str, &str); 2] = [("`}`", "}"), ("`;`", ";")];

/// What may stand at an offset, the text before it being good.
pub fn admitted(text: &[u8], offset: usize) -> Vec<&'static str> {
    let before = &text[..offset];
    let is_admitted = |token: &str| {
        let tried = [before, b" ", token.as_bytes()].concat();
        match policies_of(&tried) {
            Ok(_) => true,
            Err(refusal) => {
                let place = place_of(&tried, offset + 1);
                refusal.number != 1 && (refusal.line, refusal.column) != (place.line, place.column)
            }
        }
    };
    TRIED.iter().chain(&ENDS).filter(|(_, token)| is_admitted(token)).map(|(name, _)| *name).collect()
}

/// `expected ..`, with where in the text it is. Nothing if nothing is known.
pub fn expected(text: &[u8], offset: usize) -> Option<String> {
    let all = shortened(admitted(text, offset));
    let (last, others) = all.split_last()?;
    let list = if others.is_empty() { last.to_string() } else { format!("{} or {}", others.join(", "), last) };
    let begun = begun_before(text, offset);
    let in_policy = |line: usize| format!(" in the policy that begins in line {}", line);
    let place = match begun {
        Some(line) if all == ["`;`"] || all == ["`when`", "`;`"] => {
            format!(" after the policy that begins in line {}", line)
        }
        Some(line) => in_policy(line),
        None if offset == 0 => " at the beginning of a policy".to_string(),
        None => String::new(),
    };
    Some(format!("expected {}{}", list, place))
}

/// The operators together have one name, and so have the beginnings of a condition.
fn shortened(all: Vec<&'static str>) -> Vec<&'static str> {
    let groups: [(&str, &[&str]); 3] = [
        ("a comparison (`==`, `!=`, `<`, `<=`, `>`, `>=`)", &["`==`", "`!=`", "`<`", "`<=`", "`>`", "`>=`"]),
        (
            "a condition (an attribute, a literal, `!`, `(` or `if`)",
            &[
                "`(`", "`principal`", "`action`", "`resource`", "`env`", "a string in quotes", "a number", "`true`",
                "`false`", "`!`", "`if`",
            ],
        ),
        (
            "an attribute or a literal",
            &["`principal`", "`action`", "`resource`", "`env`", "a string in quotes", "a number", "`true`", "`false`"],
        ),
    ];
    let mut all = all;
    for (name, members) in groups {
        if members.iter().all(|member| all.contains(member)) {
            let first = all.iter().position(|one| members.contains(one)).unwrap_or(0);
            all[first] = name;
            all.retain(|one| !members.contains(one));
        }
    }
    all
}

/// The line in which the policy before the offset begins that has not ended; nothing between policies.
fn begun_before(text: &[u8], offset: usize) -> Option<usize> {
    let mut begun = None;
    for token in all_tokens(&text[..offset]) {
        if token.kind == b';' {
            begun = None;
        } else if begun.is_none() && token.start < offset && token.start < token.end {
            begun = Some(place_of(text, token.start).line);
        }
    }
    begun
}

/// The reserved words, as they are listed in a message.
pub fn reserved_words() -> String {
    RESERVED_WORDS.join(", ")
}

/// The usual cause of a byte that may not stand where it stands.
pub fn cause_of_byte(text: &[u8], offset: usize) -> String {
    let rest = &text[offset..];
    let byte = match rest.first() {
        Some(byte) => *byte,
        None => return String::new(),
    };
    let named = match byte {
        0x21..=0x7E => format!("`{}`", byte as char),
        _ => format!("byte 0x{:02X}", byte),
    };
    let cause = match rest {
        [0xEF, 0xBB, 0xBF, ..] => ", a byte order mark: save the file without one",
        [b'#', ..] | [b'/', b'/', ..] | [b'/', b'*', ..] => ": rule texts have no comments",
        [b'/', ..] => ": rule texts have no comments and no division",
        [b'\'', ..] => ": a string stands in straight double quotes, \"..\"",
        [0xE2, 0x80, 0x98..=0x9F, ..] => ", a curved quote: a string stands in straight double quotes, \"..\"",
        [0xC2, 0xA0, ..] => ", a blank that is none (no-break space): type a plain blank",
        [b'=', b'>', ..] => ": at least is written >=",
        [b'=', ..] => ": equality is written ==",
        [b'&', ..] => ": and is written &&",
        [b'|', ..] => ": or is written ||",
        [b'-', ..] => ": a minus stands directly before a number's digits; there is no subtraction",
        [b'_', ..] => ": a name begins with a letter",
        [b'\n' | b'\r' | b'\t', ..] => ", a line end or tab inside a string: a string ends in its line",
        [0x00..=0x1F | 0x7F, ..] => ", a control byte: no string may hold it",
        [0x80..=0xFF, ..] => ": outside strings there are only ASCII letters, digits and marks",
        _ => ": nothing in a rule text begins with it",
    };
    format!("{}{}", named, cause)
}

#[cfg(test)]
mod tests {
    use super::*;

    fn said(marked: &str) -> String {
        let offset = marked.find('^').unwrap();
        expected(marked.replacen('^', "", 1).as_bytes(), offset).unwrap()
    }

    #[test]
    fn what_is_admitted_is_said() {
        for (marked, what) in [
            ("^when", "expected `permit` or `forbid` at the beginning of a policy"),
            ("permit^principal", "expected `(` in the policy that begins in line 1"),
            ("permit(principal,action,resource)\n^permit", "expected `when` or `;` after the policy that begins in line 1"),
            ("permit(principal,action,resource)when{true}\n^", "expected `;` after the policy that begins in line 1"),
            ("permit(principal,action,resource);\n^;", "expected `permit` or `forbid`"),
            ("\npermit(principal is ^\"x\"", "expected `person` or `tool` in the policy that begins in line 2"),
            ("permit(principal,action ^==", "expected `in` or `,` in the policy that begins in line 1"),
            (
                "permit(principal,action,resource)when{^}",
                "expected a condition (an attribute, a literal, `!`, `(` or `if`) in the policy that begins in line 1",
            ),
            (
                "permit(principal,action,resource)when{env.a==^;",
                "expected an attribute or a literal in the policy that begins in line 1",
            ),
            (
                "permit(principal,action,resource)when{env.a ^\"x\"",
                "expected a comparison (`==`, `!=`, `<`, `<=`, `>`, `>=`), `in`, `like` or `.` in the policy that begins in line 1",
            ),
            ("permit(principal,action,resource)when{true^ true", "expected a comparison (`==`, `!=`, `<`, `<=`, `>`, `>=`), `in`, `like`, `&&`, `||` or `}` in the policy that begins in line 1"),
        ] {
            assert_eq!(said(marked), what, "{}", marked);
        }
    }

    #[test]
    fn bytes_have_their_usual_cause() {
        for (text, what) in [
            ("# who", "`#`: rule texts have no comments"),
            ("// who", "`/`: rule texts have no comments"),
            ("'own'", "`'`: a string stands in straight double quotes, \"..\""),
            ("\u{201C}own\u{201D}", "byte 0xE2, a curved quote: a string stands in straight double quotes, \"..\""),
            ("\u{FEFF}permit", "byte 0xEF, a byte order mark: save the file without one"),
            ("=> 3", "`=`: at least is written >="),
            ("= 3", "`=`: equality is written =="),
            ("& x", "`&`: and is written &&"),
            ("| x", "`|`: or is written ||"),
            ("\u{A0}", "byte 0xC2, a blank that is none (no-break space): type a plain blank"),
            ("$", "`$`: nothing in a rule text begins with it"),
            ("\u{1}", "byte 0x01, a control byte: no string may hold it"),
            ("\u{FC}", "byte 0xC3: outside strings there are only ASCII letters, digits and marks"),
        ] {
            assert_eq!(cause_of_byte(text.as_bytes(), 0), what);
        }
        assert_eq!(cause_of_byte(b"", 0), "");
    }
}
