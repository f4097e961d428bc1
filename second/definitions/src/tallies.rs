//! Tallies: for one to eight requests over one question, how many rows have each outcome and how many each policy decides
//! (02, request 1); and in how many rows a policy is satisfied though another decides (02, request 6).

use std::array::from_fn;

use crate::compile::{set_said_by, MOST_POLICIES};
use crate::deciding::{is_marked, Decision, Request};
use crate::questions::read_question;
use crate::sheets::decision_of_row;

/// A tally takes one to eight requests.
pub const MOST_REQUESTS: usize = 8;
/// Outcomes are 1 to 4.
pub const OUTCOMES: usize = 4;
/// The counts of a group: of a request, or the sums.
pub const GROUP: usize = OUTCOMES + MOST_POLICIES;
/// The counts that are lent: a group for each of eight requests, and the sums behind them.
pub const LENT_COUNTS: usize = (MOST_REQUESTS + 1) * GROUP;

/// What is counted of a request, or the sums of all.
#[derive(Clone, PartialEq, Eq, Debug)]
pub struct Counts {
    /// How many rows have outcome 1, 2, 3 and 4.
    pub outcomes: [u32; OUTCOMES],
    /// How many rows policy 1, 2 and so on decides; 0 for those past the last.
    pub policies: [u32; MOST_POLICIES],
}

/// The counts of each request, and their sums.
#[derive(Clone, PartialEq, Eq, Debug)]
pub struct Tally {
    pub requests: Vec<Counts>,
    pub sums: Counts,
}

/// The tally, or the refusal's number: before all 27, no request or more than eight; then the first refused request refuses it.
pub fn tally(text: &[u8], table: &[u8], question: &[u8], requests: &[Request]) -> Result<Tally, u8> {
    if requests.is_empty() || requests.len() > MOST_REQUESTS {
        return Err(27);
    }
    if let Some(number) = requests.iter().find_map(|request| refusal(text, table, question, *request)) {
        return Err(number);
    }
    let requests: Vec<Counts> =
        requests.iter().map(|request| counts_of(&decisions(text, table, question, *request))).collect();
    let sums = Counts {
        outcomes: from_fn(|index| requests.iter().map(|counts| counts.outcomes[index]).sum()),
        policies: from_fn(|index| requests.iter().map(|counts| counts.policies[index]).sum()),
    };
    Ok(Tally { requests, sums })
}

/// A request's refusal: those of the sheet without 25 and 26. That is 24, and but for the system 21, 22, 23, 20.
fn refusal(text: &[u8], table: &[u8], question: &[u8], request: Request) -> Option<u8> {
    if read_question(question).is_none() {
        Some(24)
    } else if request.is_of_system() {
        None
    } else if let Some(number) = request.refusal() {
        Some(number)
    } else if set_said_by(text, table).is_none() {
        Some(20)
    } else {
        None
    }
}

/// The decision of each row, for a request that is not refused.
pub fn decisions(text: &[u8], table: &[u8], question: &[u8], request: Request) -> Vec<Decision> {
    // The system's rows are decided without a look at the policies.
    let set = set_said_by(text, table).unwrap_or_default();
    match read_question(question) {
        Some(question) => {
            (0..question.rows()).map(|row| decision_of_row(text, &set, &question, request, row)).collect()
        }
        None => Vec::new(),
    }
}

/// Each is a count of its own over the rows.
pub fn counts_of(decisions: &[Decision]) -> Counts {
    let rows = |is_such: &dyn Fn(&Decision) -> bool| decisions.iter().filter(|d| is_such(d)).count() as u32;
    Counts {
        outcomes: from_fn(|index| rows(&|decision| usize::from(decision.outcome) == index + 1)),
        policies: from_fn(|index| rows(&|decision| decision.policy == index + 1)),
    }
}

/// How many rows policy 1, 2 and so on is satisfied in though another decides. No call counts this: it is made of the rows' marks.
pub fn satisfied_beside(decisions: &[Decision]) -> [u32; MOST_POLICIES] {
    let beside = |decision: &Decision, policy: usize| is_marked(decision.mark, policy) && decision.policy != policy;
    from_fn(|index| decisions.iter().filter(|decision| beside(decision, index + 1)).count() as u32)
}

/// Requests as they are lent: for each its subject, action and resource, each behind a length byte. Bytes behind the last are not
/// looked at.
pub fn read_requests(many: usize, lent: &[u8]) -> Vec<Request<'_>> {
    let mut rest = lent;
    (0..many)
        .map(|_| Request {
            subject: take_part(&mut rest),
            action: take_part(&mut rest),
            resource: take_part(&mut rest),
        })
        .collect()
}

/// The next part. One that is not wholly there is empty, and so is everything behind it.
fn take_part<'a>(rest: &mut &'a [u8]) -> &'a [u8] {
    let lent: &[u8] = *rest;
    *rest = &[];
    match lent.split_first() {
        Some((length, behind)) if behind.len() >= usize::from(*length) => {
            let (part, behind) = behind.split_at(usize::from(*length));
            *rest = behind;
            part
        }
        _ => &[],
    }
}

/// The bytes by which requests are lent; a part has at most 255.
pub fn requests_lent(requests: &[Request]) -> Vec<u8> {
    let mut bytes = Vec::new();
    for part in requests.iter().flat_map(|request| [request.subject, request.action, request.resource]) {
        bytes.push(u8::try_from(part.len()).expect("a part has at most 255 bytes"));
        bytes.extend_from_slice(part);
    }
    bytes
}

/// The call: so many requests, as they are lent, are tallied into the lent counts. A refusal changes none of these.
pub fn tally_into(
    text: &[u8],
    table: &[u8],
    question: &[u8],
    many: usize,
    requests: &[u8],
    counts: &mut [u32; LENT_COUNTS],
) -> Result<(), u8> {
    // Nine requests are refused as any greater number of them is.
    let requests = read_requests(many.min(MOST_REQUESTS + 1), requests);
    let tally = tally(text, table, question, &requests)?;
    counts.fill(0);
    for (number, group) in counts.chunks_mut(GROUP).enumerate() {
        let told = if number == MOST_REQUESTS { Some(&tally.sums) } else { tally.requests.get(number) };
        if let Some(told) = told {
            group[..OUTCOMES].copy_from_slice(&told.outcomes);
            group[OUTCOMES..].copy_from_slice(&told.policies);
        }
    }
    Ok(())
}

#[cfg(test)]
mod tests {
    use super::*;
    use crate::compile;
    use crate::example::{example_question, EXAMPLE};
    use crate::policies::Version;

    const TEACH: Request = Request { subject: b"person:K7", action: b"teach", resource: b"shaft:A" };
    const BY_TOOL: Request = Request { subject: b"tool:T1", ..TEACH };
    const READ: Request = Request { action: b"read", ..TEACH };
    const OF_RECORD: Request = Request { action: b"read", resource: b"record:1", ..TEACH };
    const BY_SYSTEM: Request = Request { subject: b"system", action: b"", resource: b"" };

    fn table_of(text: &[u8]) -> Vec<u8> {
        compile::table_of(text, Version::One)
    }

    fn counts(outcomes: [u32; 4], first_policies: &[u32]) -> Counts {
        let mut policies = [0; MOST_POLICIES];
        policies[..first_policies.len()].copy_from_slice(first_policies);
        Counts { outcomes, policies }
    }

    fn of_example(requests: &[Request]) -> Tally {
        tally(EXAMPLE.as_bytes(), &table_of(EXAMPLE.as_bytes()), &example_question(), requests).unwrap()
    }

    // By hand, grade slowest. Policy 1 is satisfied where the grade is 3, in rows 3, 4 and 5; policy 2 where hired is "loan", in
    // rows 2, 5 and 8. So rows 3 and 4 are allowed by policy 1, rows 2, 5 and 8 forbidden by policy 2, and 0, 1, 6 and 7 neither.
    #[test]
    fn the_worked_example_is_tallied() {
        let told = counts([2, 3, 4, 0], &[2, 3]);
        assert_eq!(of_example(&[TEACH]), Tally { requests: vec![told.clone()], sums: told });
    }

    // A tool is no person: policy 1's rows go, those of policy 2 stay. To read is not to teach: policy 2's rows go, and with them
    // row 5 is policy 1's. A record is no shaft. The system has outcome 4 in each row, and no policy.
    #[test]
    fn each_request_has_its_counts_and_the_sums_are_theirs() {
        let requests = vec![
            counts([2, 3, 4, 0], &[2, 3]),
            counts([0, 3, 6, 0], &[0, 3]),
            counts([3, 0, 6, 0], &[3, 0]),
            counts([0, 0, 9, 0], &[]),
            counts([0, 0, 0, 9], &[]),
        ];
        let sums = counts([5, 6, 25, 9], &[5, 6]);
        assert_eq!(of_example(&[TEACH, BY_TOOL, READ, OF_RECORD, BY_SYSTEM]), Tally { requests, sums });
        let twice = of_example(&[TEACH; 8]);
        assert_eq!(twice.requests, vec![counts([2, 3, 4, 0], &[2, 3]); 8]);
        assert_eq!(twice.sums, counts([16, 24, 32, 0], &[16, 24]));
    }

    // The four add up to the rows, the policies to outcomes 1 and 2.
    #[test]
    fn the_counts_add_up() {
        for request in [TEACH, BY_TOOL, READ, OF_RECORD, BY_SYSTEM] {
            let told = &of_example(&[request]).requests[0];
            assert_eq!(told.outcomes.iter().sum::<u32>(), 9);
            assert_eq!(told.policies.iter().sum::<u32>(), told.outcomes[0] + told.outcomes[1]);
        }
    }

    // By hand, as above: row 5 alone has both, and policy 2 decides it. To read, policy 1 decides what it is satisfied in.
    #[test]
    fn a_policy_may_be_satisfied_though_another_decides() {
        let beside = |text: &str, question: &[u8], request: Request| {
            satisfied_beside(&decisions(text.as_bytes(), &table_of(text.as_bytes()), question, request))
        };
        let first = |counts: [u32; MOST_POLICIES]| (counts[0], counts[1], counts[2..].iter().sum::<u32>());
        assert_eq!(first(beside(EXAMPLE, &example_question(), TEACH)), (1, 0, 0));
        assert_eq!(first(beside(EXAMPLE, &example_question(), READ)), (0, 0, 0));
        assert_eq!(first(beside(EXAMPLE, &example_question(), BY_SYSTEM)), (0, 0, 0));
        let all = "permit(principal,action,resource);".repeat(64);
        assert_eq!(first(beside(&all, &example_question(), TEACH)), (0, 9, 62 * 9));
        let forbid = [&all[..34 * 63], "forbid(principal,action,resource);"].concat();
        assert_eq!(first(beside(&forbid, &[0, 0, 0, 0], TEACH)), (1, 1, 61));
    }

    #[test]
    fn no_columns_give_one_row() {
        let text = b"forbid(principal,action,resource)when{env has a};permit(principal,action,resource);";
        let of = |question: &[u8]| tally(text, &table_of(text), question, &[TEACH]).unwrap().sums;
        assert_eq!(of(&[0, 0, 0, 0]), counts([1, 0, 0, 0], &[0, 1]));
        assert_eq!(of(&[0, 0, 1, 1, b'a', 3, 0, 0]), counts([0, 1, 0, 0], &[1, 0]));
    }

    // By hand, grade slowest: under version 2 neither policy is satisfied where what it names is absent, so that `!` there changes
    // nothing. Rows 0 to 2 have no grade, rows 0, 3 and 6 no hired.
    #[test]
    fn the_recorded_version_is_counted_under() {
        let text = EXAMPLE
            .replace("principal.grade >= 3", "!(principal.grade >= 3)")
            .replace("principal.hired != \"own\"", "!(principal.hired == \"own\")");
        let sums_under = |version| {
            let table = compile::table_of(text.as_bytes(), version);
            tally(text.as_bytes(), &table, &example_question(), &[TEACH]).unwrap().sums
        };
        // Policy 2 in rows 0, 2, 3, 5, 6, 8; of rows 1, 4 and 7 policy 1 in 1 and 7.
        assert_eq!(sums_under(Version::One), counts([2, 6, 1, 0], &[2, 6]));
        // Policy 2 in rows 2, 5 and 8; policy 1 in 6 and 7.
        assert_eq!(sums_under(Version::Two), counts([2, 3, 4, 0], &[2, 3]));
    }

    fn refused(question: &[u8], table: &[u8], requests: &[Request]) -> u8 {
        tally(EXAMPLE.as_bytes(), table, question, requests).unwrap_err()
    }

    #[test]
    fn refusals_come_in_their_order() {
        let question = example_question();
        let table = table_of(EXAMPLE.as_bytes());
        let bad = &table[1..];
        let subject = Request { subject: b"system:", action: b"", resource: b"" };
        let action = Request { action: b"", resource: b"", ..TEACH };
        let resource = Request { resource: b"person:K7", ..TEACH };
        // Before all 27; then 24, for the system too.
        assert_eq!(refused(b"", bad, &[]), 27);
        assert_eq!(refused(b"", bad, &[subject; 9]), 27);
        assert_eq!(refused(b"", bad, &[subject; 8]), 24);
        assert_eq!(refused(b"", &table, &[BY_SYSTEM]), 24);
        // In turn; the first refused request refuses the tally.
        assert_eq!(refused(&question, &table, &[subject, action, resource]), 21);
        assert_eq!(refused(&question, &table, &[action, subject, resource]), 22);
        assert_eq!(refused(&question, &table, &[resource, action, subject]), 23);
        assert_eq!(refused(&question, &table, &[TEACH, BY_SYSTEM, resource, subject]), 23);
        // A bad table refuses the first request that is not the system's.
        assert_eq!(refused(&question, bad, &[TEACH, subject]), 20);
        assert_eq!(refused(&question, bad, &[BY_SYSTEM, subject]), 21);
        assert_eq!(refused(&question, bad, &[BY_SYSTEM, BY_SYSTEM, TEACH, subject]), 20);
        assert_eq!(refused(&question, bad, &[action, TEACH]), 22);
        assert!(tally(b":", b"", &question, &[BY_SYSTEM; 8]).is_ok());
    }

    fn parts(many: usize, lent: &[u8]) -> Vec<[&[u8]; 3]> {
        read_requests(many, lent).iter().map(|request| [request.subject, request.action, request.resource]).collect()
    }

    #[test]
    fn what_is_not_wholly_there_is_empty_and_so_is_all_behind_it() {
        assert_eq!(parts(1, b"\x01a\x02bc\x00behind"), [[&b"a"[..], b"bc", b""]]);
        assert_eq!(parts(2, b"\x01a\x02bc\x03def\x00\x00\x01g"), [[&b"a"[..], b"bc", b"def"], [b"", b"", b"g"]]);
        assert_eq!(parts(1, b""), [[&b""[..]; 3]]);
        assert_eq!(parts(1, b"\x03ab"), [[&b""[..]; 3]]);
        assert_eq!(parts(1, b"\x01a\x02b"), [[&b"a"[..], b"", b""]]);
        // The byte of a part that is cut off is not the length of the next.
        assert_eq!(parts(2, b"\x01a\xff\x01b\x01c\x01d"), [[&b"a"[..], b"", b""], [b"", b"", b""]]);
        assert_eq!(parts(0, b"\x01a"), [] as [[&[u8]; 3]; 0]);
    }

    #[test]
    fn lent_requests_are_read_back() {
        let requests = [TEACH, BY_SYSTEM, OF_RECORD];
        let lent = requests_lent(&requests);
        assert_eq!(&lent[..26], b"\x09person:K7\x05teach\x07shaft:A\x06s");
        assert_eq!(parts(3, &lent), requests.map(|request| [request.subject, request.action, request.resource]));
    }

    /// What the call answers, and the counts after it; before it count n is n + 1.
    fn called(many: usize, lent: &[u8], question: &[u8]) -> (Result<(), u8>, [u32; LENT_COUNTS]) {
        let mut counts = from_fn(|index| index as u32 + 1);
        let table = table_of(EXAMPLE.as_bytes());
        let answer = tally_into(EXAMPLE.as_bytes(), &table, question, many, lent, &mut counts);
        (answer, counts)
    }

    #[test]
    fn the_counts_lie_in_nine_groups() {
        assert_eq!((GROUP, LENT_COUNTS), (68, 612));
        let (answer, counts) = called(2, &requests_lent(&[READ, BY_TOOL, TEACH]), &example_question());
        assert_eq!(answer, Ok(()));
        let mut expected = [0; 612];
        expected[..6].copy_from_slice(&[3, 0, 6, 0, 3, 0]);
        expected[68..74].copy_from_slice(&[0, 3, 6, 0, 0, 3]);
        expected[544..550].copy_from_slice(&[3, 3, 12, 0, 3, 3]);
        assert_eq!(counts, expected);
    }

    #[test]
    fn a_refusal_changes_no_count() {
        let question = example_question();
        let lent = requests_lent(&[TEACH; 8]);
        for (many, lent, question, number) in [
            (0, &lent[..], &question[..], 27),
            (9, &lent, &question, 27),
            (usize::MAX, &lent, &question, 27),
            (8, &lent, &question[1..], 24),
            (8, &lent[..lent.len() - 1], &question, 23),
            (2, &lent[..26], &question, 21),
        ] {
            let (answer, counts) = called(many, lent, question);
            assert_eq!(answer, Err(number));
            assert!((0..612).all(|index| counts[index] == index as u32 + 1));
        }
    }
}
