//! The two versions of the rules over one question (02, request 7): the holes of version 1 that version 2 closes, other rows that it takes
//! away, and rows that it opens, because a forbid meets what is absent. Which rows each version allows the proved programs say.

use std::collections::BTreeMap;

use definitions::compile::policies_of;
use definitions::deciding::{Facts, Missing};
use definitions::policies::{Policy, Version};
use definitions::questions::Question;

use crate::answers::Answers;
use crate::asked::Asked;
use crate::command::{not_asked, Done};
use crate::holes::Grid;
use crate::noes::noes;
use crate::rules::attribute_text;
use crate::words::{count_of, grouped, ranges};

/// Behind what was answered: under which version, where it is not version 1.
pub fn under(version: u64) -> String {
    match version {
        1 => String::new(),
        _ => format!(" under version {}", version),
    }
}

/// A sentence that says so; nothing for version 1.
pub fn said_of_version(version: u64) -> Option<String> {
    match version {
        1 => None,
        _ => Some(format!("Under version {} of the rules.", version)),
    }
}

/// What version 2 changes beside version 1, by the numbers of the rows.
#[derive(PartialEq, Debug)]
pub struct Versions {
    /// The version whose rows are shown.
    pub shown: Version,
    /// How many rows are holes under version 1.
    pub holes: usize,
    /// Those of them that version 2 does not allow.
    pub closed: Vec<usize>,
    /// Other rows that version 1 allows, and version 2 does not.
    pub taken: Vec<usize>,
    /// Rows that version 2 allows, and version 1 forbids.
    pub opened: Vec<Opened>,
}

/// Rows that version 2 opens: the policy that forbids them under version 1, and the absent attribute that it meets.
#[derive(PartialEq, Debug)]
pub struct Opened {
    /// Nothing where such a row cannot be asked alone.
    pub policy: Option<usize>,
    pub attribute: Option<String>,
    pub rows: Vec<usize>,
}

impl Versions {
    /// What the versions differ in, where these rows are allowed under the version that is asked for, and those under the other one.
    pub fn of(desk: &dyn Answers, asked: &Asked, question: &Question, listed: [&[bool]; 2]) -> Done<Versions> {
        let shown = asked.known_version();
        let [one, two] = match (shown, listed) {
            (Version::One, [own, other]) | (Version::Two, [other, own]) => [own, other],
        };
        let grid = Grid::new(question);
        let is_hole = |row: &usize| !grid.holes(*row, &question.choices_of(*row), one).is_empty();
        let rows =
            |is_such: &dyn Fn(usize) -> bool| (0..question.rows()).filter(|row| is_such(*row)).collect::<Vec<_>>();
        let (closed, taken) = rows(&|row| one[row] && !two[row]).into_iter().partition(is_hole);
        let opened = rows(&|row| two[row] && !one[row]);
        Ok(Versions {
            shown,
            holes: rows(&|row| one[row]).iter().filter(|row| is_hole(row)).count(),
            closed,
            taken,
            opened: opened_by_sorts(desk, asked, question, &opened)?,
        })
    }

    /// How many rows version 2 opens.
    pub fn many_opened(&self) -> usize {
        self.opened.iter().map(|opened| opened.rows.len()).sum()
    }

    /// What stands over it.
    pub fn heading(&self) -> &'static str {
        match self.shown {
            Version::One => "The same rules under version 2",
            Version::Two => "Version 2 beside version 1",
        }
    }

    /// Which holes version 2 closes, which other rows it takes away, and whether it changes nothing.
    pub fn sentences(&self) -> Vec<String> {
        let mut said = Vec::new();
        said.extend(self.said_of_holes());
        if !self.taken.is_empty() {
            let many = count_of(self.taken.len(), "row that is no hole", "rows that are no holes");
            said.push(format!("Version 2 takes away {}: {}.", many, numbered(&self.taken)));
        }
        if self.closed.is_empty() && self.taken.is_empty() && self.opened.is_empty() {
            said.push("Version 2 allows the same rows.".to_string());
        }
        said
    }

    /// Which holes of version 1 version 2 closes; nothing where there is none.
    fn said_of_holes(&self) -> Option<String> {
        let which = match (self.shown, self.holes) {
            (_, 0) => return None,
            (Version::One, 1) => "this hole".to_string(),
            (Version::Two, 1) => "the hole of version 1".to_string(),
            (Version::One, many) => format!("these {} holes", grouped(many)),
            (Version::Two, many) => format!("the {} holes of version 1", grouped(many)),
        };
        Some(match self.closed.len() {
            0 if self.holes == 1 => format!("Version 2 does not close {}.", which),
            0 => format!("Version 2 closes none of {}.", which),
            1 if self.holes == 1 => format!("Version 2 closes {}: {}.", which, numbered(&self.closed)),
            closed => format!("Version 2 closes {} of {}: {}.", grouped(closed), which, numbered(&self.closed)),
        })
    }

    /// That version 2 opens rows, loudly; nothing where it opens none.
    pub fn alarm(&self) -> Option<String> {
        let rows = match self.many_opened() {
            0 => return None,
            many => count_of(many, "ROW that version 1 forbids", "ROWS that version 1 forbids"),
        };
        Some(format!("VERSION 2 OPENS {}: what is absent disarms a forbid.", rows))
    }
}

impl Opened {
    /// Which rows, what forbids them under version 1, and why version 2 does not.
    pub fn sentence(&self, line_of: impl Fn(usize) -> usize) -> String {
        let rows = numbered(&self.rows);
        match (self.policy, &self.attribute) {
            (Some(policy), Some(attribute)) => format!(
                "{}: policy {} in line {} forbids under version 1; under version 2 it meets {}, which is absent, and is \
                 unsatisfied",
                rows,
                policy,
                line_of(policy),
                attribute
            ),
            _ => format!("{}: allowed under version 2, and not under version 1", rows),
        }
    }
}

/// The most rows that a sentence numbers.
const MOST_NUMBERED: usize = 60;

/// `row 3`, `rows 3, 5 to 7`; of very many the first.
fn numbered(rows: &[usize]) -> String {
    let first = &rows[..rows.len().min(MOST_NUMBERED)];
    let more = match rows.len() - first.len() {
        0 => String::new(),
        more => format!(" and {} more", grouped(more)),
    };
    format!("{} {}{}", if rows.len() == 1 { "row" } else { "rows" }, ranges(first), more)
}

/// The rows that version 2 opens, by what forbids them under version 1 and what is absent.
fn opened_by_sorts(desk: &dyn Answers, asked: &Asked, question: &Question, rows: &[usize]) -> Done<Vec<Opened>> {
    let forbidden = noes(desk, &asked.under(Version::One), question, rows)?;
    let policies = policies_of(&asked.rules).unwrap_or_default();
    let mut sorts: BTreeMap<(Option<usize>, Option<String>), Vec<usize>> = BTreeMap::new();
    for row in rows {
        let policy = forbidden.get(row).map(|no| no.policy);
        if policy == Some(0) {
            return not_asked(format!(
                "row {} is allowed under version 2, and under version 1 no policy is satisfied: one of the proved programs is wrong",
                row
            ));
        }
        let attribute = policy.and_then(|policy| met_absent(asked, question, *row, policies.get(policy - 1)?));
        sorts.entry((policy, attribute)).or_default().push(*row);
    }
    Ok(sorts.into_iter().map(|((policy, attribute), rows)| Opened { policy, attribute, rows }).collect())
}

/// The absent attribute that makes a policy unsatisfied in a row under version 2, if one does.
pub fn met_absent(asked: &Asked, question: &Question, row: usize, policy: &Policy) -> Option<String> {
    let choices = question.choices_of(row);
    let look_up = |root: u8, path: &[u8]| question.look_up(&choices, root, path);
    let facts = Facts { text: &asked.rules, version: Version::Two, request: asked.request(), look_up: &look_up };
    match facts.disjunction(policy.condition.as_ref()?) {
        Err(Missing(attribute)) => Some(attribute_text(&asked.rules, &attribute)),
        Ok(_) => None,
    }
}

#[cfg(test)]
mod tests {
    use super::*;
    use crate::answers::tests::StandIn;
    use crate::report::tests::{asked, report_on, EXAMPLE, QUESTION, REQUEST};
    use definitions::sheets::printed;
    use generators::random::Random;

    fn of(version: u64, rules: &str, question: &str) -> Versions {
        let asked = Asked { version, ..asked(rules, question, REQUEST) };
        report_on(&asked, false).versions.unwrap()
    }

    const P: &str = "permit(principal,action,resource)";
    const F: &str = "forbid(principal,action,resource)";
    const A: &str = "column env.a = absent | 1 | 2";

    #[test]
    fn a_permits_hole_is_closed() {
        let rules = format!("{}when{{!(env.a==2)}};", P);
        let versions = of(1, &rules, A);
        assert_eq!(
            (versions.holes, &versions.closed[..], versions.taken.len(), versions.many_opened()),
            (1, &[0][..], 0, 0)
        );
        assert_eq!(versions.sentences(), ["Version 2 closes this hole: row 0."]);
        assert_eq!((versions.heading(), versions.alarm()), ("The same rules under version 2", None));
        let versions = of(2, &rules, A);
        assert_eq!(versions.sentences(), ["Version 2 closes the hole of version 1: row 0."]);
        assert_eq!(versions.heading(), "Version 2 beside version 1");
    }

    #[test]
    fn a_forbids_hole_is_not_closed() {
        let versions = of(1, EXAMPLE, QUESTION);
        assert_eq!(versions.sentences(), ["Version 2 does not close this hole.", "Version 2 allows the same rows."]);
        let versions = of(1, EXAMPLE, &[QUESTION, "\ncolumn env.x = 1 | 2"].concat());
        assert_eq!(versions.sentences()[0], "Version 2 closes none of these 2 holes.");
        let versions = of(2, EXAMPLE, &[QUESTION, "\ncolumn env.x = 1 | 2"].concat());
        assert_eq!(versions.sentences()[0], "Version 2 closes none of the 2 holes of version 1.");
    }

    // Whatever env.a is, the row is allowed under version 1: its absence is no hole, and yet version 2 takes the row away.
    #[test]
    fn rows_are_taken_that_are_no_holes() {
        let versions = of(1, &format!("{}when{{env.a==1||true}};", P), A);
        assert_eq!((versions.holes, &versions.closed[..], &versions.taken[..]), (0, &[][..], &[0][..]));
        assert_eq!(versions.sentences(), ["Version 2 takes away 1 row that is no hole: row 0."]);
        let both = format!("{}when{{env.a==1||true}};{}when{{env.b==1}};", P, F);
        let versions = of(1, &both, &[A, "\ncolumn env.b = absent | 1"].concat());
        assert_eq!((versions.holes, &versions.closed[..], &versions.taken[..]), (3, &[0][..], &[][..]));
        assert_eq!(versions.sentences(), ["Version 2 closes 1 of these 3 holes: row 0."]);
    }

    #[test]
    fn a_disarmed_forbid_is_told_loudly() {
        let rules = format!("{};\n{}when{{!(env.a==1)}};\n{}when{{!(env.b==1)}};", P, F, F);
        for version in [1, 2] {
            let versions = of(version, &rules, &[A, "\ncolumn env.b = absent | 1"].concat());
            let opened = |policy: usize, attribute: &str, rows: &[usize]| Opened {
                policy: Some(policy),
                attribute: Some(attribute.to_string()),
                rows: rows.to_vec(),
            };
            assert_eq!(versions.opened, [opened(2, "env.a", &[0, 1]), opened(3, "env.b", &[2])]);
            let alarm = "VERSION 2 OPENS 3 ROWS that version 1 forbids: what is absent disarms a forbid.";
            assert_eq!((versions.alarm().as_deref(), versions.sentences().len()), (Some(alarm), 0));
            assert_eq!(
                versions.opened[0].sentence(|number| number),
                "rows 0, 1: policy 2 in line 2 forbids under version 1; under version 2 it meets env.a, which is absent, and is unsatisfied"
            );
        }
        // With `has` before it the forbid stands under both versions.
        let rules = format!("{};{}when{{!(env has a)||!(env.a==1)}};", P, F);
        let versions = of(1, &rules, A);
        assert_eq!(
            (versions.many_opened(), versions.sentences()),
            (0, vec!["Version 2 allows the same rows.".to_string()])
        );
    }

    #[test]
    fn there_is_nothing_to_compare_without_rules() {
        let none = |rules: &str, request: &str| report_on(&asked(rules, A, request), false).versions;
        assert_eq!(none("", REQUEST), None);
        assert_eq!(none(EXAMPLE, "system"), None);
        assert!(none(EXAMPLE, REQUEST).is_some());
    }

    #[test]
    fn very_many_rows_are_not_all_numbered() {
        assert_eq!(numbered(&[4]), "row 4");
        assert_eq!(numbered(&[4, 6, 7, 8]), "rows 4, 6 to 8");
        let odd: Vec<usize> = (0..2_000).map(|row| 2 * row + 1).collect();
        assert!(numbered(&odd).ends_with(", 117, 119 and 1,940 more"), "{}", numbered(&odd));
        assert_eq!((under(1), under(2), said_of_version(1)), (String::new(), " under version 2".to_string(), None));
    }

    // A row that the proved programs cannot have opened: without a forbid version 2 only takes away.
    #[test]
    fn rows_that_nothing_forbids_cannot_be_opened() {
        let asked = asked(&format!("{}when{{env.a==1}};", P), A, REQUEST);
        let question = asked.question().unwrap();
        let compared = |two: &[bool]| Versions::of(&StandIn, &asked, &question, [&[false, true, false], two]);
        assert!(compared(&[false, true, false]).is_ok());
        assert!(compared(&[true, true, false]).is_err());
    }

    // Random conditions over three attributes: what version 2 satisfies version 1 satisfies too, and what is told adds up to the sheets.
    #[test]
    fn what_is_told_is_what_the_sheets_differ_in() {
        let mut random = Random::new(71);
        let parts =
            ["env.a==1", "!(env.b==1)", "env has a", "!env.c<2", "env.b!=env.c", "(env.c==1||env.a==1)", "true"];
        let question = "column env.a = absent | 1 | 2\ncolumn env.b = absent | 1\ncolumn env.c = 1 | absent | 2";
        let (mut closed, mut taken, mut opened) = (0, 0, 0);
        for _ in 0..300 {
            let condition = |random: &mut Random| {
                let join = random.pick(&["&&", "||"]);
                let negation = if random.one_in(2) { "!" } else { "" };
                format!("when{{{}({}{}{})}}", negation, random.pick(&parts), join, random.pick(&parts))
            };
            let rules = format!("{}{};{}{};", P, condition(&mut random), F, condition(&mut random));
            let versions = of(1, &rules, question);
            assert_eq!(versions, Versions { shown: Version::One, ..of(2, &rules, question) });
            let asked = asked(&rules, question, REQUEST);
            let rows = |version: u64| -> Vec<usize> {
                let lines = printed(&asked.rules, &asked.sent, &asked.request_bytes(), 600, version);
                lines.lines().filter_map(|line| line.split_once(' ')?.0.parse().ok()).collect()
            };
            let (one, two) = (rows(1), rows(2));
            let mut gone = [&versions.closed[..], &versions.taken].concat();
            gone.sort_unstable();
            assert_eq!(gone, one.iter().copied().filter(|row| !two.contains(row)).collect::<Vec<_>>(), "{}", rules);
            let mut come: Vec<usize> = versions.opened.iter().flat_map(|opened| opened.rows.clone()).collect();
            come.sort_unstable();
            assert_eq!(come, two.iter().copied().filter(|row| !one.contains(row)).collect::<Vec<_>>(), "{}", rules);
            assert!(versions.opened.iter().all(|opened| opened.policy == Some(2) && opened.attribute.is_some()));
            closed += versions.closed.len();
            taken += versions.taken.len();
            opened += come.len();
        }
        assert!(closed > 100 && taken > 100 && opened > 100, "{} {} {}", closed, taken, opened);
    }
}
