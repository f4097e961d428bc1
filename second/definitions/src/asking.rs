//! What the program `ask` prints: whether a rule text compiles, what is decided of cases, one after the other, the tally of requests and
//! the sheet, each under a version.

use crate::compile::{compile, Refusal, ROOM_FOR_EACH_BYTE};
use crate::deciding::{decide, Decision, Request};
use crate::questions::read_question;
use crate::tallies::{read_requests, requests_lent, tally, Counts};

/// A case: who wants to do what with what, over which bag.
#[derive(Clone, PartialEq, Debug)]
pub struct Case {
    pub request: [Vec<u8>; 3],
    pub bag: Vec<u8>,
}

impl Case {
    /// Subject, action, resource and bag, each after its length in 2 bytes, little-endian.
    pub fn bytes(&self) -> Vec<u8> {
        let mut bytes = Vec::new();
        for part in self.request.iter().chain([&self.bag]) {
            bytes.extend_from_slice(&(part.len() as u16).to_le_bytes());
            bytes.extend_from_slice(part);
        }
        bytes
    }
}

/// The cases in the bytes of `cases.bin`, or nothing if these have another form.
pub fn read_cases(bytes: &[u8]) -> Option<Vec<Case>> {
    let mut rest = bytes;
    let mut part = || {
        let length = usize::from(u16::from_le_bytes([*rest.first()?, *rest.get(1)?]));
        let part = rest.get(2..2 + length)?.to_vec();
        rest = &rest[2 + length..];
        Some((part, rest.is_empty()))
    };
    let mut cases = Vec::new();
    let mut is_last = bytes.is_empty();
    while !is_last {
        let request = [part()?.0, part()?.0, part()?.0];
        let (bag, is_end) = part()?;
        cases.push(Case { request, bag });
        is_last = is_end;
    }
    Some(cases)
}

/// The version that the program's second word names: one decimal digit. Any other word counts as 0, which is no version; without
/// such a word it is 1.
pub fn version_of_word(word: Option<&str>) -> u64 {
    match word.map(str::as_bytes) {
        None => 1,
        Some([digit @ b'0'..=b'9']) => u64::from(digit - b'0'),
        Some(_) => 0,
    }
}

/// What `ask check` prints: the number of policies and the bytes of the table, or the refusal.
pub fn printed_check(text: &[u8], version: u64) -> String {
    match compile(text, ROOM_FOR_EACH_BYTE * text.len(), version) {
        Ok(compiled) => format!("compiled {} {}\n", compiled.set.policies.len(), compiled.table.len()),
        Err(refusal) => refusal.printed(),
    }
}

/// What `ask decide` prints: a line for each case. A text that is refused has one line and nothing else.
pub fn printed_decide(text: &[u8], cases: &[Case], version: u64) -> String {
    let compiled = match compile(text, ROOM_FOR_EACH_BYTE * text.len(), version) {
        Ok(compiled) => compiled,
        Err(refusal) => return refusal.printed(),
    };
    let mut lines = String::new();
    for case in cases {
        let [subject, action, resource] = &case.request;
        let line = match decide(text, &compiled.table, &case.bag, Request { subject, action, resource }) {
            Ok(Decision { outcome, policy, mark }) => format!("decided {} {} {}\n", outcome, policy, mark),
            Err(number) => Refusal::without_place(number).printed(),
        };
        lines.push_str(&line);
    }
    lines
}

/// The bytes of `requests.bin`: how many requests there are, and each as it is lent. More than 255 are said to be 255, for both are refused.
pub fn requests_file(requests: &[Request]) -> Vec<u8> {
    let many = u8::try_from(requests.len()).unwrap_or(u8::MAX);
    [&[many], &requests_lent(requests)[..]].concat()
}

/// What `ask tally` prints for `policy.txt`, `question.bin` and `requests.bin`: how many rows there are, then for each request and
/// for the sums how many rows have each outcome, and how many each policy decides. A refusal is one line and nothing else.
pub fn printed_tally(text: &[u8], question: &[u8], requests: &[u8], version: u64) -> String {
    let compiled = match compile(text, ROOM_FOR_EACH_BYTE * text.len(), version) {
        Ok(compiled) => compiled,
        Err(refusal) => return refusal.printed(),
    };
    let (many, lent) = requests.split_first().map_or((0, requests), |(many, lent)| (usize::from(*many), lent));
    match tally(text, &compiled.table, question, &read_requests(many, lent)) {
        Err(number) => Refusal::without_place(number).printed(),
        Ok(tally) => {
            let policies = compiled.set.policies.len();
            let rows = read_question(question).map_or(0, |question| question.rows());
            let mut lines = format!("rows {}\n", rows);
            for (index, counts) in tally.requests.iter().enumerate() {
                lines += &format!("request {}\n{}", index + 1, count_lines(counts, policies));
            }
            lines + "sums\n" + &count_lines(&tally.sums, policies)
        }
    }
}

/// A line for each outcome, and one for each of so many policies.
fn count_lines(counts: &Counts, policies: usize) -> String {
    let line = |word: &str, index: usize, rows: &u32| format!("{} {} {}\n", word, index + 1, rows);
    let outcomes = counts.outcomes.iter().enumerate().map(|(index, rows)| line("outcome", index, rows));
    let decided = counts.policies.iter().take(policies).enumerate().map(|(index, rows)| line("policy", index, rows));
    outcomes.chain(decided).collect()
}

#[cfg(test)]
mod tests {
    use super::*;

    fn case(subject: &str, bag: &[u8]) -> Case {
        Case { request: [subject.into(), b"teach".to_vec(), b"shaft:A".to_vec()], bag: bag.to_vec() }
    }

    #[test]
    fn cases_are_read_back() {
        let cases = [case("person:K7", &[0, 0, 0]), case("", &[])];
        let bytes: Vec<u8> = cases.iter().flat_map(Case::bytes).collect();
        assert_eq!(read_cases(&bytes), Some(cases.to_vec()));
        assert_eq!(read_cases(&[]), Some(Vec::new()));
        assert_eq!(read_cases(&bytes[..bytes.len() - 1]), None);
    }

    #[test]
    fn each_case_has_a_line() {
        let text = b"permit(principal,action,resource);";
        assert_eq!(printed_check(text, 1), "compiled 1 20\n");
        assert_eq!(printed_check(b"permit", 1), "refused 10 1 7 0\n");
        let cases =
            [case("person:K7", &[0, 0, 0]), case("dog:1", &[0, 0, 0]), case("system", &[]), case("tool:1", &[])];
        for version in [1, 2] {
            let decided = "decided 1 1 1\nrefused 21 0 0 0\ndecided 4 0 0\nrefused 24 0 0 0\n";
            assert_eq!(printed_decide(text, &cases, version), decided);
        }
        assert_eq!(printed_decide(b"permit", &cases, 1), "refused 10 1 7 0\n");
    }

    #[test]
    fn the_second_word_names_the_version() {
        for (word, version) in
            [("1", 1), ("2", 2), ("0", 0), ("9", 9), ("", 0), ("02", 0), ("22", 0), ("x", 0), ("²", 0), ("-", 0)]
        {
            assert_eq!(version_of_word(Some(word)), version, "{}", word);
        }
        assert_eq!(version_of_word(None), 1);
    }

    // Case I under `!`: satisfied under version 1, unsatisfied under version 2. Row 1 has env.a.
    #[test]
    fn answers_are_given_under_the_version() {
        let text = b"permit(principal,action,resource)when{!(env.a!=true)};";
        let question = [0, 0, 0, 1, 3, 1, b'a', 2, 0, 3, 1];
        let request = b"tool:1\nteach\nshaft:A\n";
        let requests = requests_file(&[crate::sheets::read_request(request)]);
        let cases = [case("tool:1", &[0, 0, 0])];
        let sheet = |version| crate::sheets::printed(text, &question, request, 60, version);
        assert_eq!(printed_decide(text, &cases, 1), "decided 1 1 1\n");
        assert_eq!(printed_decide(text, &cases, 2), "decided 3 0 0\n");
        assert!(printed_tally(text, &question, &requests, 1)
            .ends_with("sums\noutcome 1 2\noutcome 2 0\noutcome 3 0\noutcome 4 0\npolicy 1 2\n"));
        assert!(printed_tally(text, &question, &requests, 2)
            .ends_with("sums\noutcome 1 1\noutcome 2 0\noutcome 3 1\noutcome 4 0\npolicy 1 1\n"));
        assert_eq!(sheet(1), "rows 2\n0 1 1 1\n1 1 1 1\nallowed 2\n");
        assert_eq!(sheet(2), "rows 2\n1 1 1 1\nallowed 1\n");
        for version in [0, 3, 257] {
            let refused = "refused 30 0 0 0\n";
            assert_eq!(printed_check(b"", version), refused);
            assert_eq!(printed_decide(b":", &cases, version), refused);
            assert_eq!(printed_tally(text, b"", b"", version), refused);
            assert_eq!(sheet(version), refused);
        }
        assert_eq!(printed_check(text, 1), printed_check(text, 2));
    }

    // A question with one column of two candidates: env.a is absent, and true.
    #[test]
    fn a_tally_has_a_line_for_each_count() {
        let text = b"permit(principal,action,resource);forbid(principal is tool,action,resource)when{env.a==true};";
        let question = [0, 0, 0, 1, 3, 1, b'a', 2, 0, 3, 1];
        let of = |subject| Request { subject, action: b"teach", resource: b"shaft:A" };
        let file = requests_file(&[of(b"tool:1"), of(b"system")]);
        assert_eq!(&file[..9], b"\x02\x06tool:1\x05");
        assert_eq!(
            printed_tally(text, &question, &file, 1),
            "rows 2\nrequest 1\noutcome 1 1\noutcome 2 1\noutcome 3 0\noutcome 4 0\npolicy 1 1\npolicy 2 1\n\
             request 2\noutcome 1 0\noutcome 2 0\noutcome 3 0\noutcome 4 2\npolicy 1 0\npolicy 2 0\n\
             sums\noutcome 1 1\noutcome 2 1\noutcome 3 0\noutcome 4 2\npolicy 1 1\npolicy 2 1\n"
        );
        assert_eq!(printed_tally(b"", &question, &file[..1], 1), "refused 21 0 0 0\n");
        assert_eq!(printed_tally(b"permit", &question, &file, 1), "refused 10 1 7 0\n");
        assert_eq!(printed_tally(text, &[0, 0, 0], &file, 1), "refused 24 0 0 0\n");
        assert_eq!(printed_tally(text, &question, b"", 1), "refused 27 0 0 0\n");
        for many in [9, 300] {
            let file = requests_file(&vec![of(b"tool:1"); many]);
            assert_eq!(printed_tally(text, &question, &file, 1), "refused 27 0 0 0\n");
        }
    }
}
