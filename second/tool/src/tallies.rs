//! The tally: what `ask tally` printed, read and held to what the counts must add up to. No count of it is the tool's own; beside it
//! the tool counts in how many rows a policy is satisfied though another decides.

use std::iter::Peekable;
use std::str::Lines;

use definitions::compile::{policies_of, table_of};
use definitions::deciding::Request;
use definitions::policies::Set;
use definitions::sheets::decision_of_row;
use definitions::tallies::{counts_of, decisions, satisfied_beside};

use crate::answers::{numbers, read_refused, Answers, Refused};
use crate::asked::{bytes_of_requests, Asked};
use crate::command::{not_asked, Done};
use crate::printed::Listed;
use crate::rules::{policy_texts, PolicyText};
use crate::words::ranges;
use crate::writing::shown;

/// How many rows there are, the counts of each request, and their sums.
#[derive(Clone, PartialEq, Debug)]
pub struct Tally {
    pub rows: usize,
    pub requests: Vec<Counts>,
    pub sums: Counts,
}

/// How many rows have each outcome from 1 to 4, and how many each policy decides.
#[derive(Clone, PartialEq, Debug, Default)]
pub struct Counts {
    pub outcomes: [usize; 4],
    pub policies: Vec<usize>,
}

impl Counts {
    /// All counts, outcomes first.
    fn all(&self) -> impl Iterator<Item = usize> + '_ {
        self.outcomes.iter().chain(&self.policies).copied()
    }
}

/// A refused tally: the refusal, and the number of the request that is refused, from 1, where it is one of them.
#[derive(PartialEq, Debug)]
pub struct RefusedTally {
    pub refused: Refused,
    pub request: Option<usize>,
}

/// The lowest and the highest number of a refusal that is a request's.
const OF_REQUESTS: std::ops::RangeInclusive<usize> = 20..=23;

/// The tally of all requests, with what was printed; or its refusal.
pub fn tally(desk: &dyn Answers, asked: &Asked) -> Done<(String, Result<Tally, RefusedTally>)> {
    let printed = desk.tally(asked.version, &asked.rules, &asked.sent, &asked.requests_bytes())?;
    if let Some(refused) = read_refused(printed.trim_end()) {
        let request =
            if OF_REQUESTS.contains(&refused.number) { Some(refused_one(desk, asked, refused)?) } else { None };
        return Ok((printed, Err(RefusedTally { refused, request })));
    }
    let policies = policy_texts(&asked.rules).len();
    let tally = match read_tally(&printed) {
        Some(tally) => tally,
        None => return not_asked(format!("ask tally printed '{}', which is no tally", printed.trim_end())),
    };
    check_adds_up(&tally, asked.requests.len(), asked.question()?.rows(), policies).or_else(not_asked)?;
    Ok((printed, Ok(tally)))
}

/// Which request is refused so: the first that is refused alone, for the first refused request refuses the tally.
fn refused_one(desk: &dyn Answers, asked: &Asked, refused: Refused) -> Done<usize> {
    for (index, request) in asked.requests.iter().enumerate() {
        let alone = desk.tally(asked.version, &asked.rules, &asked.sent, &bytes_of_requests(&[request.clone()]))?;
        match read_refused(alone.trim_end()) {
            Some(other) if other == refused => return Ok(index + 1),
            Some(_) => break,
            None => {}
        }
    }
    not_asked(format!(
        "the tally is refused with {}, but none of its requests alone: the proved program is wrong",
        refused.number
    ))
}

/// The tally that the lines say.
fn read_tally(printed: &str) -> Option<Tally> {
    let mut lines = printed.lines().peekable();
    let [rows] = numbers(lines.next()?, "rows")?;
    let mut requests = Vec::new();
    while lines.next_if(|line| *line == format!("request {}", requests.len() + 1)).is_some() {
        requests.push(read_counts(&mut lines)?);
    }
    lines.next_if_eq(&"sums")?;
    let sums = read_counts(&mut lines)?;
    lines.next().is_none().then(|| Tally { rows, requests, sums })
}

/// The lines of four outcomes and of policies.
fn read_counts(lines: &mut Peekable<Lines>) -> Option<Counts> {
    let mut counts = Counts::default();
    for (index, count) in counts.outcomes.iter_mut().enumerate() {
        *count = count_after(lines.next()?, "outcome", index + 1)?;
    }
    while let Some(count) = lines.peek().and_then(|line| count_after(line, "policy", counts.policies.len() + 1)) {
        counts.policies.push(count);
        lines.next();
    }
    Some(counts)
}

/// The count in a line of this word and this number.
fn count_after(line: &str, word: &str, number: usize) -> Option<usize> {
    numbers(line, word).filter(|[said, _]| *said == number).map(|[_, count]| count)
}

/// The tally belongs to so many requests, rows and policies; the four outcomes add up to the rows, the policies' counts to outcomes 1
/// and 2, and the sums are sums.
fn check_adds_up(tally: &Tally, requests: usize, rows: usize, policies: usize) -> Result<(), String> {
    let wrong = |what: &str| Err(format!("the tally {}: the proved program is wrong, so nothing is shown", what));
    if tally.requests.len() != requests || tally.rows != rows {
        return wrong("is of other requests or rows");
    }
    for counts in tally.requests.iter().chain([&tally.sums]) {
        if counts.policies.len() != policies {
            return wrong("is of other policies");
        }
        if counts.policies.iter().sum::<usize>() != counts.outcomes[0] + counts.outcomes[1] {
            return wrong("has policies' counts that are not outcomes 1 and 2 together");
        }
    }
    if tally.requests.iter().any(|counts| counts.outcomes.iter().sum::<usize>() != rows) {
        return wrong("has outcomes that do not add up to the rows");
    }
    let is_sum = |(index, sum): (usize, usize)| {
        tally.requests.iter().filter_map(|counts| counts.all().nth(index)).sum::<usize>() == sum
    };
    if !tally.sums.all().enumerate().all(is_sum) {
        return wrong("has sums that are none");
    }
    Ok(())
}

/// A tally as it is shown: each request with its parts, the policies as they stand in the rules, and what is counted.
pub struct TallyShown {
    pub requests: Vec<[String; 3]>,
    /// The request whose sheet is shown, from 1, where that is one of several.
    pub chosen: Option<usize>,
    pub policies: Vec<PolicyText>,
    pub tally: Tally,
    /// How many rows each policy is satisfied in though another decides, for each request.
    pub also: Vec<Vec<usize>>,
}

impl TallyShown {
    /// The tally of what is asked, beside the sheet of a request if one is chosen.
    pub fn new(asked: &Asked, tally: Tally, chosen: Option<usize>) -> Done<TallyShown> {
        Ok(TallyShown {
            requests: asked.requests.iter().map(|[a, b, c]| [shown(a), shown(b), shown(c)]).collect(),
            chosen: chosen.filter(|_| asked.requests.len() > 1),
            policies: policy_texts(&asked.rules),
            also: also_satisfied(asked, &tally)?,
            tally,
        })
    }

    pub fn has_several(&self) -> bool {
        self.requests.len() > 1
    }

    /// The policies that decide some row, each with how many rows it decides: for each request, and then the sum if there are several.
    pub fn deciding(&self) -> Vec<(&PolicyText, Vec<usize>)> {
        let counts: Vec<&[usize]> = self.tally.requests.iter().map(|counts| &counts.policies[..]).collect();
        self.counted(&counts)
    }

    /// The policies that are satisfied in some row though another decides, each with how many rows, likewise.
    pub fn beside(&self) -> Vec<(&PolicyText, Vec<usize>)> {
        let counts: Vec<&[usize]> = self.also.iter().map(|counts| &counts[..]).collect();
        self.counted(&counts)
    }

    /// The policies that have a count but 0, each with its counts: for each request, and then the sum if there are several.
    fn counted(&self, counts: &[&[usize]]) -> Vec<(&PolicyText, Vec<usize>)> {
        let of = |policy: &PolicyText| -> Vec<usize> {
            let own: Vec<usize> = counts.iter().map(|counts| counts[policy.number - 1]).collect();
            let sum = Some(own.iter().sum()).filter(|_| self.has_several());
            own.into_iter().chain(sum).collect()
        };
        let all = self.policies.iter().map(|policy| (policy, of(policy)));
        all.filter(|(_, counts)| counts.iter().any(|count| *count > 0)).collect()
    }

    /// What stands over the counts of the policies that are satisfied though another decides, or in place of them; nothing where no policy
    /// decides.
    pub fn said_of_others(&self) -> Option<String> {
        let by_request = if self.has_several() { ", for each request and in sum" } else { "" };
        if self.deciding().is_empty() {
            return None;
        }
        Some(match self.beside().is_empty() {
            true => "No policy is satisfied in a row that another decides.".to_string(),
            false => format!(
                "In how many rows a policy is satisfied though another decides{} (counted by the tool):",
                by_request
            ),
        })
    }

    /// Which policies decide no row, in a sentence; nothing if each decides one.
    pub fn idle(&self) -> Option<String> {
        let is_idle = |number: &usize| self.tally.sums.policies[*number - 1] == 0;
        let idle: Vec<usize> = (1..=self.policies.len()).filter(is_idle).collect();
        let policies = if idle.len() == 1 { "policy" } else { "policies" };
        if idle.is_empty() {
            return None;
        }
        Some(format!("No row is decided by {} {}.", policies, ranges(&idle)))
    }
}

/// How many rows each policy is satisfied in though another decides, for each request: counted over all rows by the definitions, whose
/// decisions must be what the proved program counted.
fn also_satisfied(asked: &Asked, tally: &Tally) -> Done<Vec<Vec<usize>>> {
    let table = table_of(&asked.rules, asked.known_version());
    let mut also = Vec::new();
    for ([subject, action, resource], proved) in asked.requests.iter().zip(&tally.requests) {
        let decided = decisions(&asked.rules, &table, &asked.sent, Request { subject, action, resource });
        let own = counts_of(&decided);
        let own = own.outcomes.iter().chain(own.policies.iter().take(proved.policies.len()));
        if !own.map(|count| *count as usize).eq(proved.all()) {
            return not_asked(
                "the proved program tallies otherwise than what explains it: one of them is wrong, so nothing is shown",
            );
        }
        let beside = satisfied_beside(&decided);
        also.push(beside.iter().take(proved.policies.len()).map(|count| *count as usize).collect());
    }
    Ok(also)
}

/// The marks of the listed rows are what the definitions find there.
pub fn check_marks(asked: &Asked, listed: &[Listed]) -> Done<()> {
    let question = asked.question()?;
    let set = Set::of(policies_of(&asked.rules).unwrap_or_default(), asked.known_version());
    for row in listed {
        let own = decision_of_row(&asked.rules, &set, &question, asked.request(), row.row).mark;
        if own != row.mark {
            return not_asked(format!(
                "the proved program gives row {} the mark {}, and what explains it {}: one of them is wrong, so nothing is shown",
                row.row, row.mark, own
            ));
        }
    }
    Ok(())
}

/// A request's counts are those of the rows that its sheet lists: outcomes 1 and 4, and what each policy decides of them.
pub fn check_lists(counts: &Counts, listed: &[Listed]) -> Done<()> {
    let mut decided = vec![0; counts.policies.len()];
    for policy in listed.iter().filter_map(|row| row.policy.checked_sub(1)) {
        decided[policy] += 1;
    }
    let are_counted = decided.iter().zip(&counts.policies).all(|(decided, count)| *decided == 0 || decided == count);
    if counts.outcomes[0] + counts.outcomes[3] == listed.len() && are_counted {
        return Ok(());
    }
    not_asked(
        "the tally counts other rows than the sheet lists: one of the proved programs is wrong, so nothing is shown",
    )
}

#[cfg(test)]
mod tests {
    use super::*;
    use crate::answers::tests::{StandIn, Wrong};
    use crate::report::tests::{asked, EXAMPLE, QUESTION, REQUEST};

    const LINES: &str =
        "rows 9\nrequest 1\noutcome 1 2\noutcome 2 3\noutcome 3 4\noutcome 4 0\npolicy 1 2\npolicy 2 3\n\
        sums\noutcome 1 2\noutcome 2 3\noutcome 3 4\noutcome 4 0\npolicy 1 2\npolicy 2 3\n";

    fn with_requests(subjects: &[&str]) -> Asked {
        let mut asked = asked(EXAMPLE, QUESTION, REQUEST);
        let [_, action, resource] = asked.request.clone();
        asked.requests =
            subjects.iter().map(|subject| [subject.as_bytes().to_vec(), action.clone(), resource.clone()]).collect();
        asked
    }

    fn refused(subjects: &[&str]) -> (usize, Option<usize>) {
        let refused = tally(&StandIn, &with_requests(subjects)).unwrap().1.unwrap_err();
        (refused.refused.number, refused.request)
    }

    #[test]
    fn a_tally_is_read() {
        let counts = Counts { outcomes: [2, 3, 4, 0], policies: vec![2, 3] };
        let read = Tally { rows: 9, requests: vec![counts.clone()], sums: counts };
        assert_eq!(read_tally(LINES), Some(read.clone()));
        assert_eq!(tally(&StandIn, &with_requests(&["person:K7"])), Ok((LINES.to_string(), Ok(read))));
        let (_, several) = tally(&StandIn, &with_requests(&["person:K7", "tool:1", "system"])).unwrap();
        let several = several.unwrap();
        assert_eq!(several.sums, Counts { outcomes: [2, 6, 10, 9], policies: vec![2, 6] });
        assert_eq!(several.requests[1], Counts { outcomes: [0, 3, 6, 0], policies: vec![0, 3] });
    }

    // Which request is refused is found by asking for each alone.
    #[test]
    fn the_first_refused_request_is_named() {
        assert_eq!(refused(&["person:K7", "system", "dog:1", "dog:2"]), (21, Some(3)));
        assert_eq!(refused(&["tool:"]), (21, Some(1)));
        assert_eq!(refused(&["tool:1"; 9]), (27, None));
        let mut asked = with_requests(&["person:K7", "dog:1"]);
        asked.requests[0][2] = b"shaft".to_vec();
        let refused = tally(&StandIn, &asked).unwrap().1.unwrap_err();
        assert_eq!((refused.refused.number, refused.request), (23, Some(1)));
        asked.rules = b"permit".to_vec();
        let refused = tally(&StandIn, &asked).unwrap().1.unwrap_err();
        assert_eq!(
            refused,
            RefusedTally { refused: Refused { number: 10, line: 1, column: 7, length: 0 }, request: None }
        );
    }

    #[test]
    fn counts_that_do_not_add_up_are_an_error() {
        for wrong in [
            "",
            "rows 9\n",
            "rows 9\nsums\noutcome 1 2\noutcome 2 3\noutcome 3 4\noutcome 4 0\npolicy 1 2\npolicy 2 3\n",
            "rows 8\nrequest 1\noutcome 1 2\noutcome 2 3\noutcome 3 4\noutcome 4 0\npolicy 1 2\npolicy 2 3\nsums\noutcome 1 2\noutcome 2 3\noutcome 3 4\noutcome 4 0\npolicy 1 2\npolicy 2 3\n",
            "rows 9\nrequest 1\noutcome 1 2\noutcome 2 3\noutcome 3 5\noutcome 4 0\npolicy 1 2\npolicy 2 3\nsums\noutcome 1 2\noutcome 2 3\noutcome 3 5\noutcome 4 0\npolicy 1 2\npolicy 2 3\n",
            "rows 9\nrequest 1\noutcome 1 2\noutcome 2 3\noutcome 3 4\noutcome 4 0\npolicy 1 2\npolicy 2 2\nsums\noutcome 1 2\noutcome 2 3\noutcome 3 4\noutcome 4 0\npolicy 1 2\npolicy 2 2\n",
            "rows 9\nrequest 1\noutcome 1 2\noutcome 2 3\noutcome 3 4\noutcome 4 0\npolicy 1 2\npolicy 2 3\nsums\noutcome 1 2\noutcome 2 3\noutcome 3 3\noutcome 4 0\npolicy 1 2\npolicy 2 3\n",
            "rows 9\nrequest 1\noutcome 1 2\noutcome 2 3\noutcome 3 4\noutcome 4 0\npolicy 1 5\nsums\noutcome 1 2\noutcome 2 3\noutcome 3 4\noutcome 4 0\npolicy 1 5\n",
            "rows 9\nrequest 1\noutcome 1 2\noutcome 2 3\noutcome 3 4\noutcome 4 0\npolicy 1 2\npolicy 2 3\nsums\noutcome 1 2\noutcome 2 3\noutcome 3 4\noutcome 4 0\npolicy 1 2\npolicy 2 3\nmore\n",
        ] {
            assert!(tally(&Wrong(wrong), &with_requests(&["person:K7"])).is_err(), "{}", wrong);
        }
        assert!(tally(&Wrong(LINES), &with_requests(&["person:K7"])).is_ok());
    }

    #[test]
    fn the_sheet_lists_what_is_counted() {
        let counts = Counts { outcomes: [2, 3, 4, 0], policies: vec![2, 3] };
        let row = |row: usize, policy: usize| Listed { row, outcome: 1, policy, mark: 1 << (policy - 1) };
        assert!(check_lists(&counts, &[row(3, 1), row(4, 1)]).is_ok());
        for listed in [vec![row(3, 1)], vec![row(3, 1), row(4, 2)], vec![]] {
            assert!(check_lists(&counts, &listed).is_err());
        }
    }

    // By hand: policy 1 is satisfied in rows 3, 4 and 5, and row 5 is decided by policy 2. The system's rows have no mark.
    #[test]
    fn policies_that_do_not_decide_are_counted_beside() {
        let of = |subjects: &[&str]| {
            let asked = with_requests(subjects);
            let tally = tally(&StandIn, &asked).unwrap().1.unwrap();
            TallyShown::new(&asked, tally, None).unwrap()
        };
        let one = of(&["person:K7"]);
        assert_eq!(one.also, [vec![1, 0]]);
        assert_eq!(
            one.beside().iter().map(|(policy, rows)| (policy.number, rows.clone())).collect::<Vec<_>>(),
            [(1, vec![1])]
        );
        assert_eq!(
            one.said_of_others().unwrap(),
            "In how many rows a policy is satisfied though another decides (counted by the tool):"
        );
        let several = of(&["person:K7", "tool:1", "system", "person:K8"]);
        assert_eq!(several.also, [vec![1, 0], vec![0, 0], vec![0, 0], vec![1, 0]]);
        assert_eq!(several.beside()[0].1, [1, 0, 0, 1, 2]);
        assert_eq!(of(&["tool:1"]).said_of_others().unwrap(), "No policy is satisfied in a row that another decides.");
        assert_eq!(of(&["system"]).said_of_others(), None);
    }

    // 02, request 7: under version 2 the forbid with `!` does not forbid rows 0, 3 and 6, in which hired is absent.
    #[test]
    fn a_tally_is_counted_under_its_version() {
        let rules = EXAMPLE.replace("principal.hired != \"own\"", "!(principal.hired == \"own\")");
        let of = |version: u64| {
            let asked = Asked { version, ..asked(&rules, QUESTION, REQUEST) };
            let counted = tally(&StandIn, &asked).unwrap().1.unwrap();
            TallyShown::new(&asked, counted, None).unwrap()
        };
        assert_eq!(of(1).tally.sums, Counts { outcomes: [1, 6, 2, 0], policies: vec![1, 6] });
        assert_eq!(of(2).tally.sums, Counts { outcomes: [2, 3, 4, 0], policies: vec![2, 3] });
        assert_eq!((&of(1).also[0], &of(2).also[0]), (&vec![2, 0], &vec![1, 0]));
        let none = tally(&StandIn, &Asked { version: 3, ..asked(&rules, QUESTION, REQUEST) }).unwrap().1.unwrap_err();
        assert_eq!((none.refused.number, none.request), (30, None));
    }

    #[test]
    fn what_is_counted_beside_is_held_to_the_proved_tally() {
        let asked = with_requests(&["person:K7"]);
        let counts = Counts { outcomes: [3, 2, 4, 0], policies: vec![3, 2] };
        let wrong = Tally { rows: 9, requests: vec![counts.clone()], sums: counts };
        assert!(TallyShown::new(&asked, wrong, None).is_err());
    }

    #[test]
    fn marks_are_held_to_the_definitions() {
        let asked = with_requests(&["person:K7"]);
        let row = |row: usize, mark: u64| Listed { row, outcome: 1, policy: 1, mark };
        assert!(check_marks(&asked, &[row(3, 1), row(4, 1)]).is_ok());
        assert!(check_marks(&asked, &[row(3, 1), row(4, 3)]).is_err());
        assert!(check_marks(&asked, &[row(5, 1)]).is_err());
    }
}
