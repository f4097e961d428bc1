//! Answers in full, for a person who looks for the reason of a difference.

use definitions::bags::{path_without_blanks, read_bag, Bag, Content, Value};
use definitions::characters::characters_of;
use definitions::compile::{compile as compile_text, policies_of, set_said_by};
use definitions::deciding::{Facts, LookUp, Missing, Request};
use definitions::locks::permit_of;
use definitions::numbers::value_of;
use definitions::patterns::reached;
use definitions::policies::{Attribute, Set, Version};
use definitions::questions::{read_question, Question};
use definitions::sheets::ROW_BYTES;
use definitions::table::{bytes_of, entries_of, recorded_version, Entry, ENTRY_BYTES, KINDS};
use definitions::tallies::{read_requests, GROUP, MOST_REQUESTS, OUTCOMES};
use definitions::tokens::{self, all_tokens, place_of, token_at, RESERVED_WORDS};

use crate::bags_vectors;
use crate::begins_vectors;
use crate::compile_vectors::{self, room_of, vector_under, version_of};
use crate::decide_vectors;
use crate::lock_vectors::{self, lent_of};
use crate::number_vectors;
use crate::pattern_vectors;
use crate::questions_vectors;
use crate::sheet_vectors::{self, lent, page_of, wanted_of};
use crate::tally_vectors::{self, many_of, tally_of};
use crate::token_vectors;
use crate::vector::{read_parts, request_of, Vector};
use crate::views_vectors;

/// A typed text: all of it.
pub fn read_text(typed: &[u8]) -> Option<Vector> {
    Some(vec![typed.to_vec()])
}

/// A typed number: a literal, and maybe a line feed and 8 bytes.
pub fn read_number(typed: &[u8]) -> Option<Vector> {
    let mut vector = read_two_lines(typed).unwrap_or_else(|| vec![typed.to_vec(), Vec::new()]);
    if vector[1].is_empty() {
        vector.pop();
    } else if vector[1].len() != 8 {
        return None;
    }
    let token = token_at(&vector[0], 0);
    if token.kind == tokens::NUMBER && token.start == 0 && token.end == vector[0].len() {
        Some(vector)
    } else {
        None
    }
}

/// Two typed parts: what stands before the first line feed, and all that follows it.
pub fn read_two_lines(typed: &[u8]) -> Option<Vector> {
    let line_feed = typed.iter().position(|byte| *byte == b'\n')?;
    Some(vec![typed[..line_feed].to_vec(), typed[line_feed + 1..].to_vec()])
}

/// Every token with its kind, start, end, line, column, what it is, and its bytes.
pub fn tokens(vector: &Vector) -> String {
    let text = &vector[0];
    let mut lines = String::from("kind start end line column\n");
    for token in all_tokens(text) {
        let place = place_of(text, token.start);
        let numbers = format!("{:4} {:5} {:3} {:4} {:6}", token.kind, token.start, token.end, place.line, place.column);
        let bytes = text[token.start..token.end].escape_ascii();
        lines.push_str(&format!("{}  {}: {}\n", numbers, name_of_kind(token.kind), bytes));
    }
    lines.push_str(&format!("answer: {}\n", token_vectors::answer(vector)));
    lines
}

fn name_of_kind(kind: u8) -> String {
    match kind {
        tokens::END_OF_TEXT => "the end of text".to_string(),
        tokens::BAD_BYTE => "refused 3, no token starts here or no string holds this".to_string(),
        tokens::COLON => "refused 4, a colon".to_string(),
        tokens::UNENDED_STRING => "refused 5, a string without its end".to_string(),
        tokens::TOO_LONG => "refused 6, too long".to_string(),
        tokens::NAME => "name".to_string(),
        tokens::STRING => "string".to_string(),
        tokens::NUMBER => "number".to_string(),
        _ => match kind.checked_sub(tokens::FIRST_RESERVED).and_then(|index| RESERVED_WORDS.get(usize::from(index))) {
            Some(_) => "reserved word".to_string(),
            None => "mark".to_string(),
        },
    }
}

/// A literal's value and bits, and the 8 bytes as a number with the six comparators.
pub fn number(vector: &Vector) -> String {
    let value = value_of(&vector[0]);
    let mut lines = format!("literal: {}\n", vector[0].escape_ascii());
    lines.push_str(&format!("value: {:?}, bits {:016x}\n", value, value.to_bits()));
    if vector.len() == 2 {
        let mut bytes = [0; 8];
        bytes.copy_from_slice(&vector[1]);
        let bits = u64::from_le_bytes(bytes);
        lines.push_str(&format!("8 bytes: {:?}, bits {:016x}\n", f64::from_bits(bits), bits));
        lines.push_str("then: literal < number, <=, >, >=, ==, !=\n");
        lines.push_str(&format!("answer: {}\n", number_vectors::answer(vector)));
    }
    lines
}

/// For each character of the pattern how many of the string's first characters the pattern matches so far.
pub fn like(vector: &Vector) -> String {
    let (pattern, string) = (&vector[0], &vector[1]);
    let mut lines = format!("pattern: {}\nstring: {}\n", pattern.escape_ascii(), string.escape_ascii());
    match (characters_of(pattern), characters_of(string)) {
        (Some(pattern), Some(string)) => {
            for (index, row) in reached(&pattern, &string).iter().enumerate() {
                let lengths: Vec<String> =
                    (0..row.len()).filter(|length| row[*length]).map(|length| length.to_string()).collect();
                let begun: String = pattern[..index].iter().filter_map(|number| char::from_u32(*number)).collect();
                lines.push_str(&format!(
                    "{} matches the first: {}\n",
                    begun.as_bytes().escape_ascii(),
                    lengths.join(" ")
                ));
            }
        }
        (None, _) => lines.push_str("the pattern is not UTF-8\n"),
        (_, None) => lines.push_str("the string is not UTF-8, and matches no pattern\n"),
    }
    lines.push_str(&format!("answer: {}\n", pattern_vectors::answer(vector)));
    lines
}

/// A typed rule text: all of it, with just the room it needs, under version 1.
pub fn read_rule_text(typed: &[u8]) -> Option<Vector> {
    Some(vector_under(typed, 0, 1))
}

/// Every entry of the table, or the refusal with its token.
pub fn compile(vector: &Vector) -> String {
    let text = &vector[0];
    let (room, version) = (room_of(vector), version_of(vector));
    let about = format!("{} bytes, room for {}, version {}", text.len(), room, version);
    let mut lines = format!("text ({}):\n{}\n", about, text.escape_ascii());
    match compile_text(text, room, version) {
        Ok(compiled) => lines.push_str(&table(text, &compiled.table)),
        Err(refusal) => {
            let found = all_tokens(text).into_iter().find(|token| {
                let place = place_of(text, token.start);
                place.line == refusal.line && place.column == refusal.column
            });
            if let Some(token) = found {
                let bytes = text[token.start..token.end].escape_ascii();
                lines.push_str(&format!(
                    "refused at offset {}, {}: {}\n",
                    token.start,
                    name_of_kind(token.kind),
                    bytes
                ));
            }
        }
    }
    lines.push_str(&format!("answer: {}\n", compile_vectors::answer(vector)));
    lines
}

/// A typed text and table: the parts of a begins vector.
pub fn read_text_and_table(typed: &[u8]) -> Option<Vector> {
    read_parts(typed, 2)
}

/// The entries of the text's own table under the version that the given one records, and the first byte at which this differs from it.
pub fn begins(vector: &Vector) -> String {
    let (text, given) = (&vector[0], &vector[1]);
    let mut lines = format!("text ({} bytes):\n{}\n", text.len(), text.escape_ascii());
    match policies_of(text) {
        Ok(policies) => {
            let recorded = recorded_version(given);
            lines.push_str(&match recorded {
                Some(version) => format!("the given table records version {}\n", version.number()),
                None => "the given table records no version; the text's own under version 1:\n".to_string(),
            });
            let own = bytes_of(&entries_of(&policies, recorded.unwrap_or(Version::One)));
            lines.push_str(&table(text, &own));
            lines.push_str(&format!("its table has {} bytes, the given one {}\n", own.len(), given.len()));
            match (0..own.len()).find(|at| given.get(*at) != Some(&own[*at])) {
                None => lines.push_str("the given one begins with it\n"),
                Some(at) => lines.push_str(&format!("first difference at byte {} (entry {})\n", at, at / ENTRY_BYTES)),
            }
        }
        Err(refusal) => {
            let place = format!("line {}, column {}", refusal.line, refusal.column);
            lines.push_str(&format!("the text is refused: {} at {}\n", refusal.number, place));
        }
    }
    lines.push_str(&format!("answer: {}\n", begins_vectors::answer(vector)));
    lines
}

/// The entries of a table: number, kind, fields, what they are, and the bytes of the text that they name.
fn table(text: &[u8], table: &[u8]) -> String {
    let mut lines = String::from("entry kind first second\n");
    for (number, bytes) in table.chunks(ENTRY_BYTES).enumerate() {
        let field = |at: usize| usize::from(u16::from_le_bytes([bytes[at], bytes[at + 1]]));
        let entry = Entry { kind: bytes[0], first: field(1), second: field(3) };
        let numbers = format!("{:5} {:4} {:5} {:6}", number, entry.kind, entry.first, entry.second);
        let named = if matches!(entry.kind, 1..=10 | 19 | 31) { &text[entry.first..entry.second] } else { &[] };
        lines.push_str(&format!("{}  {}: {}\n", numbers, KINDS[usize::from(entry.kind)], named.escape_ascii()));
    }
    lines
}

/// A typed look-up: the parts of a bag vector.
pub fn read_look_up(typed: &[u8]) -> Option<Vector> {
    read_parts(typed, 3).filter(|vector| vector[1].len() == 1)
}

/// A typed view: the parts of a view vector, with choices that the columns have.
pub fn read_view(typed: &[u8]) -> Option<Vector> {
    let vector = read_parts(typed, 4).filter(|vector| vector[1].len() == 6 && vector[2].len() == 1)?;
    let question = read_question(&vector[0]);
    let columns = question.iter().flat_map(|question| &question.columns);
    let fit = columns.zip(&vector[1]).all(|(column, choice)| usize::from(*choice) < column.candidates.len());
    if fit {
        Some(vector)
    } else {
        None
    }
}

/// Every entry of the bag, and the attribute that is looked up.
pub fn bag(vector: &Vector) -> String {
    let mut lines = match read_bag(&vector[0]) {
        Some(bag) => sections(&bag),
        None => format!("not a bag: {}\n", vector[0].escape_ascii()),
    };
    lines.push_str(&format!("looked up: root {}, path {}\n", vector[1][0], vector[2].escape_ascii()));
    lines.push_str("then: kind, number's bits, place, string's start and length\n");
    lines.push_str(&format!("answer: {}\n", bags_vectors::answer(vector)));
    lines
}

/// Every entry of the base and every column with its candidates.
pub fn question(vector: &Vector) -> String {
    let mut lines = question_in_full(&vector[0]);
    lines.push_str(&format!("answer: {}\n", questions_vectors::answer(vector)));
    lines
}

/// The base and the columns, or that the bytes are no question.
fn question_in_full(bytes: &[u8]) -> String {
    match read_question(bytes) {
        Some(question) => base_and_columns(&question),
        None => format!("not a question: {}\n", bytes.escape_ascii()),
    }
}

/// The question, and the attribute that is looked up in a row.
pub fn view(vector: &Vector) -> String {
    let mut lines = question_in_full(&vector[0]);
    let path = path_without_blanks(&vector[3]);
    lines.push_str(&format!("choices: {:?}\n", vector[1]));
    lines.push_str(&format!("looked up: root {}, path {}\n", vector[2][0], path.escape_ascii()));
    lines.push_str(&format!("answer: {}\n", views_vectors::answer(vector)));
    lines
}

/// A typed request: the parts of a decide vector.
pub fn read_decide(typed: &[u8]) -> Option<Vector> {
    read_parts(typed, 6)
}

/// The text, the request, the bag, and which policies are satisfied.
pub fn decide(vector: &Vector) -> String {
    let mut lines = text_and_request(vector);
    match read_bag(&vector[2]) {
        Some(bag) => {
            lines.push_str(&sections(&bag));
            let look_up = |root: u8, path: &[u8]| bag.look_up(root, path);
            lines.push_str(&satisfied(&vector[0], &set_of(vector), request_of(vector), &look_up));
        }
        None => lines.push_str(&format!("not a bag: {}\n", vector[2].escape_ascii())),
    }
    lines.push_str(&format!("answer: {}\n", decide_vectors::answer(vector)));
    lines
}

/// A typed sheet: the parts of a sheet vector.
pub fn read_sheet(typed: &[u8]) -> Option<Vector> {
    read_parts(typed, 9).filter(|vector| vector[6].len() == 8 && vector[7].len() == 2 && vector[8].len() == 8)
}

/// The text, the request, the question, the rows that are written, and which policies are satisfied in the first rows.
pub fn sheet(vector: &Vector) -> String {
    const MOST_ROWS: usize = 20;
    let mut lines = text_and_request(vector);
    let wanted = wanted_of(vector);
    lines.push_str(&format!("start {}, sheet of {} bytes, from byte {}\n", wanted.start, wanted.length, wanted.named));
    match read_question(&vector[2]) {
        Some(question) => {
            lines.push_str(&base_and_columns(&question));
            let start = wanted.start.min(1 << 20) as usize;
            lines.push_str(&first_rows(vector, request_of(vector), &question, start, MOST_ROWS));
        }
        None => lines.push_str(&format!("not a question: {}\n", vector[2].escape_ascii())),
    }
    let (answer, after) = page_of(vector);
    let before = lent(wanted.length);
    if let Ok(page) = answer {
        for written in after[wanted.named as usize..].chunks(ROW_BYTES).take(page.written.min(MOST_ROWS)) {
            lines.push_str(&format!("written: {:?}\n", written));
        }
    }
    let changed = (0..before.len()).filter(|at| before[*at] != after[*at]).count();
    lines.push_str(&format!("{} bytes of the sheet are changed\n", changed));
    lines.push_str(&format!("answer: {}\n", sheet_vectors::answer(vector)));
    lines
}

/// A typed tally: the parts of a tally vector.
pub fn read_tally(typed: &[u8]) -> Option<Vector> {
    read_parts(typed, 5).filter(|vector| vector[3].len() == 8)
}

/// The text, the question, the requests with the policies that are satisfied in the first rows, and the counts of each.
pub fn tally(vector: &Vector) -> String {
    const MOST_ROWS: usize = 9;
    let mut lines = text_and_table(vector);
    let many = many_of(vector);
    lines.push_str(&question_in_full(&vector[2]));
    lines.push_str(&format!("{} requests in {} bytes: {}\n", many, vector[4].len(), vector[4].escape_ascii()));
    let (answer, counts) = tally_of(vector);
    for (number, request) in read_requests(many.min(MOST_REQUESTS as u64) as usize, &vector[4]).iter().enumerate() {
        lines.push_str(&format!("request {}\n{}", number + 1, request_in_full(*request)));
        if let (Some(question), Ok(())) = (read_question(&vector[2]), answer) {
            lines.push_str(&first_rows(vector, *request, &question, 0, MOST_ROWS));
            lines.push_str(&group(&counts, number));
        }
    }
    match answer {
        Ok(()) => lines.push_str(&format!("sums\n{}", group(&counts, MOST_REQUESTS))),
        Err(number) => lines.push_str(&format!("refused {}\n", number)),
    }
    lines.push_str(&format!("answer: {}\n", tally_vectors::answer(vector)));
    lines
}

/// The counts of a group: the four outcomes, and the policies whose count is not 0.
fn group(counts: &[u32], number: usize) -> String {
    let (outcomes, policies) = counts[number * GROUP..][..GROUP].split_at(OUTCOMES);
    let deciding: Vec<String> = (0..policies.len())
        .filter(|index| policies[*index] != 0)
        .map(|index| format!("policy {} decides {}", index + 1, policies[index]))
        .collect();
    format!("rows of outcomes 1 to 4: {:?}; [{}]\n", outcomes, deciding.join(", "))
}

/// A typed lock: the parts of a lock vector.
pub fn read_lock(typed: &[u8]) -> Option<Vector> {
    read_parts(typed, 9).filter(|vector| vector[4].len() == 2)
}

/// What is lent; the permit, or the reason of 28 and its place; and the bag and the request.
pub fn lock(vector: &Vector) -> String {
    let mut lines = String::new();
    for (name, part) in ["vocabulary", "lock", "actions", "resource", "room"].iter().zip(vector) {
        lines.push_str(&format!("{} ({} bytes): {}\n", name, part.len(), part.escape_ascii()));
    }
    match permit_of(lent_of(vector)) {
        Ok(permit) => {
            let text = permit.text();
            lines.push_str(&format!("permit ({} bytes):\n{}\n", text.len(), text.escape_ascii()));
        }
        Err(flaw) => lines.push_str(&format!("28: {:?} at byte {} of {:?}\n", flaw.reason, flaw.at, flaw.part)),
    }
    for (name, part) in ["subject", "action", "resource"].iter().zip(&vector[6..9]) {
        lines.push_str(&format!("{} ({} bytes): {}\n", name, part.len(), part.escape_ascii()));
    }
    match read_bag(&vector[5]) {
        Some(bag) => lines.push_str(&sections(&bag)),
        None => lines.push_str(&format!("not a bag: {}\n", vector[5].escape_ascii())),
    }
    lines.push_str(&format!("answer: {}\n", lock_vectors::answer(vector)));
    lines
}

/// The text and the request of a decide or sheet vector, and whether the table is the text's.
fn text_and_request(vector: &Vector) -> String {
    text_and_table(vector) + &request_in_full(request_of(vector))
}

/// The text, and whether the table is its, and under which version.
fn text_and_table(vector: &Vector) -> String {
    let (text, given) = (&vector[0], &vector[1]);
    let table = match set_said_by(text, given).map(|set| set.version) {
        None => "does not begin with the text's compiled bytes".to_string(),
        Some(None) => "will do: the text has no policies, and no version".to_string(),
        Some(Some(version)) => {
            format!("begins with the text's compiled bytes under version {}", version.number())
        }
    };
    let text = format!("text ({} bytes):\n{}", text.len(), text.escape_ascii());
    format!("{}\nthe table ({} bytes) {}\n", text, given.len(), table)
}

/// A vector's policies under the version that its table records, or where that is not the text's under version 1.
fn set_of(vector: &Vector) -> Set {
    let (text, given) = (&vector[0], &vector[1]);
    set_said_by(text, given).unwrap_or_else(|| Set::of(policies_of(text).unwrap_or_default(), Version::One))
}

fn request_in_full(request: Request) -> String {
    let Request { subject, action, resource } = request;
    [("subject", subject), ("action", action), ("resource", resource)]
        .iter()
        .map(|(name, part)| format!("{} ({} bytes): {}\n", name, part.len(), part.escape_ascii()))
        .collect()
}

/// Which policies are satisfied in some rows from one on, a line for each.
fn first_rows(vector: &Vector, request: Request, question: &Question, start: usize, most: usize) -> String {
    let set = set_of(vector);
    let mut lines = String::new();
    for row in (0..question.rows()).skip(start).take(most) {
        let choices = question.choices_of(row);
        let look_up = |root: u8, path: &[u8]| question.look_up(&choices, root, path);
        lines.push_str(&format!("row {} ({:?}): {}", row, choices, satisfied(&vector[0], &set, request, &look_up)));
    }
    lines
}

/// Which policies are satisfied, as a line; and under version 2 which are missing, each with the absent attribute that its condition met.
fn satisfied<'a>(text: &'a [u8], set: &Set, request: Request<'a>, look_up: &'a LookUp<'a>) -> String {
    let (mut satisfied, mut missing) = (Vec::new(), Vec::new());
    let version = set.version.unwrap_or(Version::One);
    let facts = Facts { text, version, request, look_up };
    for (index, policy) in set.policies.iter().enumerate() {
        let named = format!("{} {:?}", index + 1, policy.effect);
        match facts.policy(policy) {
            Ok(true) => satisfied.push(named),
            Ok(false) => {}
            Err(Missing(Attribute { root, path })) => {
                let root = format!("{:?}", root).to_lowercase();
                missing.push(format!("{} by {}.{}", named, root, text[path.start..path.end].escape_ascii()));
            }
        }
    }
    match version {
        Version::One => format!("satisfied policies: [{}]\n", satisfied.join(", ")),
        Version::Two => format!("satisfied policies: [{}], missing: [{}]\n", satisfied.join(", "), missing.join(", ")),
    }
}

fn base_and_columns(question: &Question) -> String {
    let mut lines = sections(&question.base);
    for (index, column) in question.columns.iter().enumerate() {
        lines.push_str(&format!("column {}: root {}, path {}\n", index, column.root, column.path.escape_ascii()));
        for (choice, candidate) in column.candidates.iter().enumerate() {
            let value = candidate.value.as_ref().map_or("absent".to_string(), value_in_full);
            lines.push_str(&format!("  choice {} at {}: {}\n", choice, candidate.at, value));
        }
    }
    lines
}

fn sections(bag: &Bag) -> String {
    let mut lines = String::new();
    for (name, section) in ["principal", "resource", "env"].iter().zip(&bag.sections) {
        for (path, value) in section {
            lines.push_str(&format!("{}.{} = {}\n", name, path.escape_ascii(), value_in_full(value)));
        }
    }
    lines
}

/// A value with its kind and place.
fn value_in_full(value: &Value) -> String {
    let content = match &value.content {
        Content::String(string) => format!("\"{}\"", string.escape_ascii()),
        Content::Number(number) => format!("{:?} (bits {:016x})", number, number.to_bits()),
        Content::Flag(flag) => flag.to_string(),
        Content::List(strings) => {
            let strings: Vec<String> = strings.iter().map(|string| format!("\"{}\"", string.escape_ascii())).collect();
            format!("[{}]", strings.join(", "))
        }
    };
    format!("{}, kind {}, place {}", content, value.kind(), value.place)
}

#[cfg(test)]
mod tests {
    use super::*;
    use crate::vector::under_both;

    #[test]
    fn tokens_are_listed_with_their_places() {
        let explained = tokens(&vec![b"a\n permit <=:".to_vec()]);
        let lines: Vec<&str> = explained.lines().collect();
        assert_eq!(lines[1], " 110     0   1    1      1  name: a");
        assert_eq!(lines[2], " 201     3   9    2      2  reserved word: permit");
        assert_eq!(lines[3], " 188    10  12    2      9  mark: <=");
        assert_eq!(lines[4], "   4    12  13    2     11  refused 4, a colon: :");
        assert_eq!(lines[5], "   0    13  13    2     12  the end of text: ");
        assert!(lines[6].starts_with("answer: 5 "));
    }

    #[test]
    fn a_typed_number_is_a_literal_and_maybe_8_bytes() {
        assert_eq!(read_number(b"0.1"), Some(vec![b"0.1".to_vec()]));
        assert_eq!(read_number(b"0.1\n"), Some(vec![b"0.1".to_vec()]));
        assert_eq!(read_number(b"0.1\n12345678"), Some(vec![b"0.1".to_vec(), b"12345678".to_vec()]));
        assert_eq!(read_number(b"0.1\n1234567"), None);
        assert_eq!(read_number(b"5."), None);
        assert_eq!(read_number(b"1234567890123456"), None);
        assert!(number(&vec![b"0.1".to_vec()]).contains("value: 0.1, bits 3fb999999999999a"));
    }

    #[test]
    fn a_typed_pattern_and_string_are_two_lines() {
        assert_eq!(read_two_lines(b"a*\nab\n"), Some(vec![b"a*".to_vec(), b"ab\n".to_vec()]));
        assert_eq!(read_two_lines(b"a*"), None);
        let explained = like(&vec![b"*b".to_vec(), b"abb".to_vec()]);
        assert_eq!(
            explained,
            "pattern: *b\nstring: abb\n matches the first: 0\n* matches the first: 0 1 2 3\n*b matches the first: 2 3\nanswer: 1\n"
        );
    }

    #[test]
    fn entries_and_refusals_are_shown() {
        let explained = compile(&read_rule_text(b"permit(principal,action,resource)when{env.a<1};").unwrap());
        assert!(explained.contains("\n    3    3    42     43  attribute of env: a\n"), "{}", explained);
        assert!(explained.contains("\n    5   17     0      0  <: \n"), "{}", explained);
        let explained = compile(&read_rule_text(b"permit\n :").unwrap());
        assert!(
            explained.contains("\nrefused at offset 8, refused 4, a colon: :\nanswer: R 4 2 2 1\n"),
            "{}",
            explained
        );
    }

    // Case I under `!`, and a policy behind it that meets nothing absent.
    #[test]
    fn the_version_is_shown_and_what_is_missing() {
        let text =
            b"permit(principal,action,resource)when{!(principal . a!=\"x\")};forbid(principal is tool,action,resource);\
            forbid(principal is tool,action,resource)when{env.b==1};permit(principal,action,resource);";
        let explained = compile(&vector_under(text, 0, 2));
        assert!(explained.contains(", version 2):\npermit("), "{}", explained);
        assert!(explained.contains("  bare principal, version 2: \n"), "{}", explained);
        assert!(compile(&vector_under(b"", 0, 257)).ends_with("version 257):\n\nanswer: R 30 0 0 0\n"));
        let request = Request { subject: b"person:K7", action: b"teach", resource: b"shaft:A" };
        let [one, two] = under_both(&decide_vectors::vector(text, b"", &[0, 0, 0], request)).map(|one| decide(&one));
        assert!(one.contains("compiled bytes under version 1\n"), "{}", one);
        assert!(one.ends_with("satisfied policies: [1 Permit, 4 Permit]\nanswer: 1 1 9\n"), "{}", one);
        assert!(two.contains("compiled bytes under version 2\n"), "{}", two);
        let satisfied = "satisfied policies: [4 Permit], missing: [1 Permit by principal.a]\nanswer: 1 4 8\n";
        assert!(two.ends_with(satisfied), "{}", two);
        let empty = decide(&decide_vectors::vector(b"", b"x", &[0, 0, 0], request));
        assert!(empty.contains("the table (1 bytes) will do: the text has no policies, and no version\n"), "{}", empty);
    }

    #[test]
    fn the_first_difference_of_a_table_is_shown() {
        let text = b"permit(principal,action,resource);".to_vec();
        let explained = begins(&vec![text.clone(), vec![36, 0, 0, 0, 0, 32, 0]]);
        assert!(explained.contains("\nthe given table records version 2\n"), "{}", explained);
        assert!(explained.contains("first difference at byte 7 (entry 1)\nanswer: 0\n"), "{}", explained);
        assert!(begins(&vec![text.clone(), vec![38]]).contains("\nthe given table records no version; the text's own "));
        let explained = begins(&vec![text.clone(), vec![29, 0, 0, 0, 0, 32, 1]]);
        assert!(explained.contains("has 20 bytes, the given one 7\nfirst difference at byte 6 (entry 1)\nanswer: 0\n"));
        assert!(begins(&vec![b"x".to_vec(), vec![]]).contains("refused: 10 at line 1, column 1\nanswer: 0\n"));
    }

    #[test]
    fn bags_and_questions_are_shown() {
        let bytes = generators::rich_bags::rich_question().bytes();
        let explained = question(&vec![bytes.clone()]);
        assert!(explained.contains("principal.a = \"xyz\", kind 1, place 4\n"), "{}", explained);
        assert!(explained.contains("principal.aa = [\"own\", \"\"], kind 4, place "), "{}", explained);
        assert!(explained.contains("column 0: root 2, path a.b\n  choice 0 at "), "{}", explained);
        assert!(explained.contains(": absent\n"), "{}", explained);
        let explained = view(&vec![bytes.clone(), vec![0; 6], vec![2], b"a .b".to_vec()]);
        assert!(explained.ends_with("looked up: root 2, path a.b\nanswer: 0 0000000000000000\n"), "{}", explained);
        assert!(bag(&vec![bytes, vec![1], b"a".to_vec()]).ends_with("answer: 24\n"));
    }

    #[test]
    fn decisions_and_pages_are_shown() {
        let vectors = decide_vectors::fixed();
        let explained = decide(vectors.iter().find(|vector| decide_vectors::answer(vector) == "2 3 7").unwrap());
        assert!(explained.contains("the text's compiled bytes under version 1\nsubject (9 bytes): person:K7\n"));
        assert!(explained.contains("satisfied policies: ["), "{}", explained);
        assert!(explained.contains("3 Forbid"), "{}", explained);
        assert!(explained.ends_with("\nanswer: 2 3 7\n"));
        let vectors = sheet_vectors::fixed();
        let explained = sheet(&vectors[0]);
        assert!(explained.contains("\nrow 3 ([1, 0]): satisfied policies: [1 Permit]\n"), "{}", explained);
        assert!(explained.contains("\nrow 5 ([1, 2]): satisfied policies: [1 Permit, 2 Forbid]\n"), "{}", explained);
        assert!(explained.contains("\nwritten: [3, 0, 0, 0, 1, 1, 1, 0, 0, 0, 0, 0, 0, 0]\n"), "{}", explained);
        for vector in vectors.iter().step_by(50) {
            assert!(sheet(vector).contains("\nanswer: "));
        }
    }

    #[test]
    fn tallies_are_shown() {
        let vectors = tally_vectors::fixed();
        let explained = tally(&vectors[1]);
        assert!(explained.contains("\nrow 5 ([1, 2]): satisfied policies: [1 Permit, 2 Forbid]\n"), "{}", explained);
        let counts = "rows of outcomes 1 to 4: [2, 3, 4, 0]; [policy 1 decides 2, policy 2 decides 3]\n";
        assert!(explained.contains(&format!("\n{}sums\n{}answer: T 0 2 1 3 2 4 ", counts, counts)), "{}", explained);
        for vector in vectors.iter().step_by(50) {
            assert!(tally(vector).contains("\nanswer: "));
        }
        let typed = b"\0\0\0\0\x04\0\0\0\0\0\x08\0\x01\0\0\0\0\0\0\0\x07\0\x06system";
        assert!(tally(&read_tally(typed).unwrap())
            .ends_with("sums\nrows of outcomes 1 to 4: [0, 0, 0, 1]; []\nanswer: T 3 1 547 1\n"));
        assert!(read_tally(&typed[..typed.len() - 1]).is_none());
    }

    #[test]
    fn typed_look_ups_and_views_are_checked() {
        assert!(read_look_up(b"\x03\0\0\0\0\x01\0\x01\x01\0a").is_some());
        assert!(read_look_up(b"\x03\0\0\0\0\0\0\x01\0a").is_none());
        let question = b"\x09\0\0\0\0\x01\x01\x01a\x01\0".to_vec();
        let typed = |choice: u8| [&question[..], b"\x06\0", &[choice, 0, 0, 0, 0, 0], b"\x01\0\x01\x01\0a"].concat();
        assert!(read_view(&typed(0)).is_some());
        assert!(read_view(&typed(1)).is_none());
    }
}
