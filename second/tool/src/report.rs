//! What the printed sheet says, apart from how it looks: the rows with their values and marks, what is absent, the holes and the sums.

use std::collections::BTreeMap;

use definitions::bags::Value;
use definitions::compile::MOST_POLICIES;
use definitions::deciding::is_marked;
use definitions::policies::Version;
use definitions::questions::Question;

use crate::answers::Answers;
use crate::asked::{file_name, Asked};
use crate::command::Done;
use crate::form::attribute;
use crate::holes::{Grid, Hole};
use crate::noes::{noes, No};
use crate::printed::Listed;
use crate::rules::{policy_texts, PolicyText};
use crate::tallies::{Tally, TallyShown};
use crate::versions::Versions;
use crate::words::{count_of, grouped};
use crate::writing::{shown, value_text};

/// What is to be shown of a sheet.
pub struct Report {
    /// The question's first comment, or whose sheet it is.
    pub title: String,
    pub request: [String; 3],
    pub rules_name: String,
    /// The version of the rules.
    pub version: u64,
    /// What version 2 changes beside version 1, where that is asked for.
    pub versions: Option<Versions>,
    /// The base's attributes and values, which are the same for all rows.
    pub base: Vec<(String, String)>,
    pub columns: Vec<ColumnShown>,
    pub rows: usize,
    /// What is counted over all rows, those that are not allowed too.
    pub tally: TallyShown,
    pub listed: Vec<RowShown>,
    /// The rows that are not allowed, if they are wanted.
    pub others: Option<Vec<RowShown>>,
    /// All policies, in their order.
    pub policies: Vec<PolicyShown>,
    pub holes: Vec<HoleShown>,
    /// The lines of the rules.
    pub rules: Vec<String>,
    pub warnings: Vec<String>,
}

/// A column: its attribute, the candidates' texts (nothing is absent), and its sums over the listed rows.
pub struct ColumnShown {
    pub name: String,
    pub candidates: Vec<Option<String>>,
    pub sums: Sums,
}

/// Listed rows, those of them with an absent attribute, and those with a hole.
#[derive(Clone, Copy, PartialEq, Debug, Default)]
pub struct Sums {
    pub listed: usize,
    pub absent: usize,
    pub holes: usize,
}

/// A row: its number, its choices, what is decided, which other policies applied, and whether each column's attribute is absent.
#[derive(PartialEq, Debug)]
pub struct RowShown {
    pub number: usize,
    pub choices: Vec<usize>,
    pub outcome: &'static str,
    /// 0 if no policy decides.
    pub policy: usize,
    /// The other policies that are satisfied, by the row's mark.
    pub also: Vec<usize>,
    pub absences: Vec<Absence>,
    /// Whether the other version allows the row, where that is asked for.
    pub other: Option<bool>,
}

impl RowShown {
    /// What is absent in the row: the greatest of its attributes' absences.
    pub fn absence(&self) -> Absence {
        self.absences.iter().copied().max().unwrap_or(Absence::None)
    }

    /// Whether the answer is yes.
    fn is_allowed(&self) -> bool {
        [outcome_text(1), outcome_text(4)].contains(&self.outcome)
    }

    /// Whether the other version says otherwise than this one.
    fn differs(&self) -> bool {
        self.other.map_or(false, |allows| allows != self.is_allowed())
    }

    /// Whether version 2 opens the row, this one being the version that is shown.
    pub fn is_opened(&self, version: u64) -> bool {
        self.differs() && self.is_allowed() == (version == Version::Two.number())
    }

    /// Whether the other version allows the row, in a word; a row that version 2 opens is loud.
    pub fn other_text(&self, version: u64) -> String {
        let word = match self.other {
            None => "",
            Some(true) => "yes",
            Some(false) => "no",
        };
        if self.is_opened(version) {
            word.to_uppercase()
        } else {
            word.to_string()
        }
    }
}

/// Whether an attribute of a listed row is absent.
#[derive(Clone, Copy, PartialEq, Eq, PartialOrd, Ord, Debug)]
pub enum Absence {
    /// It is there.
    None,
    /// It is absent, and no hole.
    Absent,
    /// It is absent, and with some candidates in place of it, and maybe of others, the row would not be allowed.
    Hole,
}

impl Absence {
    pub fn text(self) -> &'static str {
        match self {
            Absence::None => "",
            Absence::Absent => "!",
            Absence::Hole => "!!",
        }
    }
}

/// A policy, and the rows that it decides.
pub struct PolicyShown {
    pub text: PolicyText,
    pub sums: Sums,
    /// Whether it would close a hole.
    pub is_disarmed: bool,
}

/// Holes of one sort: which attributes are absent, what would take the yes away, and the rows.
#[derive(PartialEq, Debug)]
pub struct HoleShown {
    pub attributes: Vec<String>,
    /// The policy that would forbid; 0 if no permit would be satisfied; nothing if it is not known.
    pub policy: Option<usize>,
    pub rows: Vec<usize>,
    /// The values that would take the yes away from the first of them.
    pub values: Vec<String>,
    /// How many of the rows version 2 does not allow; nothing where they are not version 1's.
    pub closed: Option<usize>,
}

/// The other policies that a mark says are satisfied, beside the one that decides.
pub fn others_marked(mark: u64, policy: usize) -> Vec<usize> {
    (1..=MOST_POLICIES).filter(|other| *other != policy && is_marked(mark, *other)).collect()
}

/// The words for an outcome.
pub fn outcome_text(outcome: usize) -> &'static str {
    match outcome {
        1 => "allowed",
        2 => "forbidden",
        3 => "not permitted",
        _ => "system",
    }
}

/// The rows that a sheet lists, and those that it lists under the other version, where that is asked for.
pub struct Sheets<'a> {
    pub listed: &'a [Listed],
    pub other: Option<&'a [Listed]>,
}

/// The report on a sheet, with the tally beside it. The other rows' decisions are asked for too, if they are wanted.
pub fn report(desk: &dyn Answers, asked: &Asked, sheets: Sheets, tally: TallyShown, with_others: bool) -> Done<Report> {
    let question = asked.question()?;
    let mut report = empty(asked, &question, tally);
    let is_listed = marked_rows(report.rows, sheets.listed);
    let other = sheets.other.map(|listed| marked_rows(report.rows, listed));
    let grid = Grid::new(&question);
    let mut holes: Vec<(usize, Hole)> = Vec::new();
    for listed in sheets.listed {
        let choices = question.choices_of(listed.row);
        let found = grid.holes(listed.row, &choices, &is_listed);
        report.add(listed, choices, &found);
        holes.extend(found.into_iter().map(|hole| (listed.row, hole)));
    }
    let mut closed: Vec<usize> = holes.iter().flat_map(|(_, hole)| hole.closed.clone()).collect();
    if with_others {
        closed = (0..report.rows).filter(|row| !is_listed[*row]).collect();
    }
    closed.sort_unstable();
    closed.dedup();
    let decided = noes(desk, asked, &question, &closed)?;
    report.add_holes(&question, &holes, &decided);
    if with_others {
        report.others = Some(others(&question, &closed, &decided));
    }
    if let Some(other) = other {
        report.versions = Some(Versions::of(desk, asked, &question, [&is_listed, &other])?);
        report.add_other(&other);
    }
    Ok(report)
}

/// For each row whether it is listed.
fn marked_rows(rows: usize, listed: &[Listed]) -> Vec<bool> {
    let mut is_listed = vec![false; rows];
    listed.iter().for_each(|listed| is_listed[listed.row] = true);
    is_listed
}

/// The report on a tally alone, without rows.
pub fn tally_report(asked: &Asked, tally: Tally) -> Done<Report> {
    let mut report = empty(asked, &asked.question()?, TallyShown::new(asked, tally, None)?);
    if asked.title.is_none() {
        report.title = match asked.requests.len() {
            1 => format!("Tally for {}", parts_of(&report.request)),
            many => format!("Tally of {} requests", many),
        };
    }
    Ok(report)
}

/// A report without rows.
fn empty(asked: &Asked, question: &Question, tally: TallyShown) -> Report {
    let request = [0, 1, 2].map(|part| shown(&asked.request[part]));
    Report {
        title: asked.title.clone().unwrap_or_else(|| title_of(&request)),
        request,
        rules_name: file_name(&asked.rules_name),
        version: asked.version,
        versions: None,
        base: base_of(question),
        columns: columns_of(question),
        rows: question.rows(),
        tally,
        listed: Vec::new(),
        others: None,
        policies: policy_texts(&asked.rules)
            .into_iter()
            .map(|text| PolicyShown { text, sums: Sums::default(), is_disarmed: false })
            .collect(),
        holes: Vec::new(),
        rules: lines_of(&asked.rules),
        warnings: asked.warnings.clone(),
    }
}

/// What is said of the other policies under rows: what the column of them is, or that there is none; nothing where no policy decides.
pub fn said_of_others(rows: &[RowShown]) -> Option<&'static str> {
    if has_others(rows) {
        return Some("also: other policies that are satisfied in the row, though they do not decide it.");
    }
    let is_decided = rows.iter().any(|row| row.policy > 0);
    is_decided.then(|| "In none of these rows is another policy satisfied.")
}

/// Whether some row has another policy that is satisfied.
pub fn has_others(rows: &[RowShown]) -> bool {
    rows.iter().any(|row| !row.also.is_empty())
}

fn others(question: &Question, rows: &[usize], decided: &BTreeMap<usize, No>) -> Vec<RowShown> {
    let row = |number: &usize| {
        let choices = question.choices_of(*number);
        let decided = decided.get(number).copied();
        RowShown {
            number: *number,
            outcome: decided.map_or("not allowed", |no| outcome_text(no.outcome)),
            policy: decided.map_or(0, |no| no.policy),
            also: decided.map_or(Vec::new(), |no| others_marked(no.mark, no.policy)),
            absences: vec![Absence::None; choices.len()],
            other: None,
            choices,
        }
    };
    rows.iter().map(row).collect()
}

impl Report {
    /// Add a listed row, and count it.
    fn add(&mut self, listed: &Listed, choices: Vec<usize>, holes: &[Hole]) {
        let mut absences = Vec::new();
        for (index, (column, choice)) in self.columns.iter_mut().zip(&choices).enumerate() {
            let absence = if column.candidates[*choice].is_some() {
                Absence::None
            } else if holes.iter().any(|hole| hole.columns.contains(&index)) {
                Absence::Hole
            } else {
                Absence::Absent
            };
            column.sums.count(absence);
            absences.push(absence);
        }
        let row = RowShown {
            number: listed.row,
            choices,
            outcome: outcome_text(listed.outcome),
            policy: listed.policy,
            also: others_marked(listed.mark, listed.policy),
            absences,
            other: None,
        };
        if let Some(index) = listed.policy.checked_sub(1) {
            self.policies[index].sums.count(row.absence());
        }
        self.listed.push(row);
    }

    /// Add the holes by their sorts: the same attributes, and the same policy that would forbid.
    fn add_holes(&mut self, question: &Question, holes: &[(usize, Hole)], decided: &BTreeMap<usize, No>) {
        let mut sorts: BTreeMap<(Option<usize>, &[usize]), (Vec<usize>, usize)> = BTreeMap::new();
        for (row, hole) in holes {
            let mut seen = Vec::new();
            for closed in &hole.closed {
                let policy = decided.get(closed).map(|no| no.policy);
                if !seen.contains(&policy) {
                    seen.push(policy);
                    sorts.entry((policy, &hole.columns)).or_insert((Vec::new(), *closed)).0.push(*row);
                }
            }
        }
        for ((policy, columns), (rows, closed)) in sorts {
            let choices = question.choices_of(closed);
            let value = |column: &usize| self.columns[*column].candidates[choices[*column]].clone().unwrap_or_default();
            let values = columns.iter().map(value).collect();
            let attributes = columns.iter().map(|column| self.columns[*column].name.clone()).collect();
            if let Some(shown) = policy.and_then(|policy| policy.checked_sub(1)) {
                self.policies[shown].is_disarmed = true;
            }
            self.holes.push(HoleShown { attributes, policy, rows, values, closed: None });
        }
    }

    /// Add what the other version allows, the rows being these: to the rows, and to the holes of version 1 how many version 2 closes.
    fn add_other(&mut self, is_allowed: &[bool]) {
        for row in self.listed.iter_mut().chain(self.others.iter_mut().flatten()) {
            row.other = Some(is_allowed[row.number]);
        }
        if self.version == Version::One.number() {
            for hole in &mut self.holes {
                hole.closed = Some(hole.rows.iter().filter(|row| !is_allowed[**row]).count());
            }
        }
    }

    /// The sums over all listed rows.
    pub fn sums(&self) -> Sums {
        let mut sums = Sums::default();
        self.listed.iter().for_each(|row| sums.count(row.absence()));
        sums
    }

    /// Whether a policy decides some row of some request, allowed or not.
    pub fn decides(&self, policy: &PolicyShown) -> bool {
        self.tally.tally.sums.policies[policy.text.number - 1] > 0
    }

    /// The policies that decide some listed row.
    pub fn deciding(&self) -> impl Iterator<Item = &PolicyShown> {
        self.policies.iter().filter(|policy| policy.sums.listed > 0)
    }

    /// What stands over the column that says whether the other version allows the row; nothing where it allows these rows as this one does.
    pub fn other_version(&self, rows: &[RowShown]) -> Option<&'static str> {
        match self.version {
            _ if !rows.iter().any(RowShown::differs) => None,
            1 => Some("version 2"),
            _ => Some("version 1"),
        }
    }

    /// What the column of the other version is, below the rows; nothing where there is none.
    pub fn said_of_other_version(&self, rows: &[RowShown]) -> Option<String> {
        self.other_version(rows).map(|version| format!("{}: whether the row is allowed under it.", version))
    }

    /// The line in which the policy of this number begins.
    pub fn line_of(&self, number: usize) -> usize {
        self.policy(number).map_or(0, |policy| policy.text.line)
    }

    /// The policy of this number.
    pub fn policy(&self, number: usize) -> Option<&PolicyShown> {
        self.policies.get(number.checked_sub(1)?)
    }

    /// Rows in groups with the same choice of the first column; without columns one group.
    pub fn groups<'a>(&self, rows: &'a [RowShown]) -> Vec<&'a [RowShown]> {
        let mut groups = Vec::new();
        let mut rest = rows;
        while let Some(first) = rest.first() {
            let same = |row: &RowShown| row.choices.first() == first.choices.first();
            let length = rest.iter().position(|row| !same(row)).unwrap_or(rest.len());
            let (group, after) = rest.split_at(length);
            groups.push(group);
            rest = after;
        }
        groups
    }
}

impl HoleShown {
    /// How many rows, what is absent in them, and what would take the yes away.
    pub fn sentence(&self, line_of: impl Fn(usize) -> usize) -> String {
        let rows = count_of(self.rows.len(), "row is", "rows are");
        let what = match self.policy {
            Some(0) => "no permit would be satisfied".to_string(),
            Some(policy) => format!("policy {} in line {} would forbid", policy, line_of(policy)),
            None => "it would not be allowed".to_string(),
        };
        let given: Vec<String> =
            self.attributes.iter().zip(&self.values).map(|(name, value)| format!("{} = {}", name, value)).collect();
        format!(
            "{} allowed because of what is absent, {}: {}, as in row {} with {}{}",
            rows,
            self.attributes.join(" and "),
            what,
            self.rows[0],
            given.join(" and "),
            self.said_of_version_2()
        )
    }

    /// Whether version 2 closes the hole, behind its sentence; nothing where it is not version 1's.
    fn said_of_version_2(&self) -> String {
        let it = if self.rows.len() == 1 { "it" } else { "them" };
        match self.closed {
            None => String::new(),
            Some(0) => format!("; version 2 does not close {}", it),
            Some(closed) if closed == self.rows.len() => format!("; version 2 closes {}", it),
            Some(closed) => format!("; version 2 closes {} of {}", grouped(closed), it),
        }
    }
}

impl Sums {
    fn count(&mut self, absence: Absence) {
        self.listed += 1;
        self.absent += usize::from(absence >= Absence::Absent);
        self.holes += usize::from(absence >= Absence::Hole);
    }
}

/// Whose sheet it is.
pub fn title_of(request: &[String; 3]) -> String {
    format!("Sheet for {}", parts_of(request))
}

/// The parts of a request; those that a request of the system leaves out are left out.
fn parts_of(request: &[String; 3]) -> String {
    let parts: Vec<&str> = request.iter().map(String::as_str).filter(|part| !part.is_empty()).collect();
    parts.join(", ")
}

/// A text's lines as they are shown, without an empty last one.
fn lines_of(text: &[u8]) -> Vec<String> {
    let mut lines: Vec<String> =
        text.split(|byte| *byte == b'\n').map(|line| shown(line.strip_suffix(b"\r").unwrap_or(line))).collect();
    if lines.last().map_or(false, String::is_empty) {
        lines.pop();
    }
    lines
}

fn base_of(question: &Question) -> Vec<(String, String)> {
    let mut base = Vec::new();
    for (root, section) in question.base.sections.iter().enumerate() {
        for (path, value) in section {
            base.push((attribute(root, path), value_text(&value.content)));
        }
    }
    base
}

fn columns_of(question: &Question) -> Vec<ColumnShown> {
    let text = |value: &Option<Value>| value.as_ref().map(|value| value_text(&value.content));
    let shown = question.columns.iter().map(|column| ColumnShown {
        name: attribute(usize::from(column.root) - 1, &column.path),
        candidates: column.candidates.iter().map(|candidate| text(&candidate.value)).collect(),
        sums: Sums::default(),
    });
    shown.collect()
}

#[cfg(test)]
pub mod tests {
    use super::*;
    use crate::answers::tests::StandIn;
    use crate::printed::{read_printed, Printed};
    use crate::reading::{first_comment, read_text};
    use crate::tallies::tally;
    use definitions::sheets::{printed, read_request};

    pub const EXAMPLE: &str =
        "permit(principal is person, action, resource is shaft)\n  when { principal.grade >= 3 };\n\
        forbid(principal, action in [\"teach\"], resource)\n  when { principal.hired != \"own\" };\n";
    pub const QUESTION: &str =
        "column principal.grade = absent | 3 | 2.5\ncolumn principal.hired = absent | \"own\" | \"loan\"";
    pub const REQUEST: &str = "person:K7\nteach\nshaft:A\n";

    /// What is asked by a text, a question as text, and a request.
    pub fn asked(text: &str, question: &str, request: &str) -> Asked {
        let request = read_request(request.as_bytes());
        let request = [request.subject, request.action, request.resource].map(<[u8]>::to_vec);
        Asked {
            rules_name: "policy.txt".to_string(),
            rules: text.as_bytes().to_vec(),
            version: 1,
            name: "question.txt".to_string(),
            file: question.as_bytes().to_vec(),
            form: read_text(question.as_bytes()).unwrap(),
            sent: read_text(question.as_bytes()).unwrap().bytes(),
            requests: vec![request.clone()],
            request,
            request_file: None,
            title: first_comment(question.as_bytes()),
            warnings: Vec::new(),
        }
    }

    /// The report on what is asked, by the stand-in.
    pub fn report_on(asked: &Asked, with_others: bool) -> Report {
        let listed = |version: u64| {
            let lines = printed(&asked.rules, &asked.question_bytes(), &asked.request_bytes(), 600, version);
            match read_printed(lines.as_bytes()).unwrap() {
                Printed::Sheet { listed, .. } => listed,
                Printed::Refused { .. } => panic!("{}", lines),
            }
        };
        let tally = tally(&StandIn, asked).unwrap().1.unwrap();
        let other = asked.other_version().map(|version| listed(version.number()));
        let sheets = Sheets { listed: &listed(asked.version), other: other.as_deref() };
        report(&StandIn, asked, sheets, TallyShown::new(asked, tally, None).unwrap(), with_others).unwrap()
    }

    fn of(text: &str, question: &str, request: &str) -> Report {
        report_on(&asked(text, question, request), false)
    }

    #[test]
    fn the_worked_example_has_one_hole() {
        let report = of(EXAMPLE, QUESTION, REQUEST);
        assert_eq!(report.request, ["person:K7", "teach", "shaft:A"]);
        assert_eq!(report.rows, 9);
        assert_eq!(report.sums(), Sums { listed: 2, absent: 1, holes: 1 });
        let absences: Vec<(usize, Absence)> = report.listed.iter().map(|row| (row.number, row.absence())).collect();
        assert_eq!(absences, [(3, Absence::Hole), (4, Absence::None)]);
        assert_eq!(report.columns[0].sums, Sums { listed: 2, absent: 0, holes: 0 });
        assert_eq!(report.columns[1].sums, Sums { listed: 2, absent: 1, holes: 1 });
        let deciding: Vec<usize> = report.deciding().map(|policy| policy.text.number).collect();
        assert_eq!(deciding, [1]);
        assert_eq!(report.policies[0].sums, Sums { listed: 2, absent: 1, holes: 1 });
        assert!(!report.policies[0].is_disarmed && report.policies[1].is_disarmed);
        assert_eq!(
            report.holes[0].sentence(|_| 3),
            "1 row is allowed because of what is absent, principal.hired: policy 2 in line 3 would forbid, as in row 3 with \
             principal.hired = \"loan\"; version 2 does not close it"
        );
    }

    // 02, request 7: a permit's hole is closed, a forbid's is not, and a forbid with `!` is disarmed. Rows: a absent or 1, b absent or 1.
    #[test]
    fn version_2_is_held_beside_version_1() {
        let text =
            "permit(principal,action,resource)when{!(env.a==2)};forbid(principal,action,resource)when{!(env.b==1)};";
        let question = "column env.a = absent | 1 | 2\ncolumn env.b = absent | 1 | 2";
        let one = of(text, question, REQUEST);
        let of_row = |row: &RowShown| (row.number, row.outcome, row.other_text(1));
        assert_eq!(
            one.listed.iter().map(of_row).collect::<Vec<_>>(),
            [(1, "allowed", "no".into()), (4, "allowed", "yes".into())]
        );
        assert_eq!(one.other_version(&one.listed), Some("version 2"));
        assert_eq!(one.holes[0].closed, Some(1));
        assert!(one.holes[0].sentence(|_| 1).ends_with("as in row 1 with env.a = 2; version 2 closes it"));
        let two = report_on(&Asked { version: 2, ..asked(text, question, REQUEST) }, true);
        let of_row = |row: &RowShown| (row.number, row.other_text(2), row.is_opened(2));
        assert_eq!(
            two.listed.iter().map(of_row).collect::<Vec<_>>(),
            [(3, "NO".into(), true), (4, "yes".into(), false)]
        );
        assert_eq!(two.other_version(&two.listed), Some("version 1"));
        assert_eq!(two.said_of_other_version(&two.listed).unwrap(), "version 1: whether the row is allowed under it.");
        assert_eq!(two.holes[0].closed, None);
        let others = two.others.as_ref().unwrap();
        assert_eq!(others.iter().filter(|row| row.other == Some(true)).map(|row| row.number).collect::<Vec<_>>(), [1]);
        // Where the versions allow the same rows there is no column for the other one.
        let same = of("permit(principal,action,resource)when{env.a==1};", "column env.a = absent | 1", REQUEST);
        assert_eq!(same.other_version(&same.listed), None);
        let several = HoleShown { rows: vec![1, 2, 3], closed: Some(2), ..of(text, question, REQUEST).holes.remove(0) };
        assert!(several.sentence(|_| 1).ends_with("; version 2 closes 2 of them"));
    }

    // An attribute that no candidate of which makes a difference is absent, and no hole.
    #[test]
    fn absence_that_makes_no_difference_is_no_hole() {
        let text = "permit(principal,action,resource)when{!(env.a==1)};";
        let report = of(text, "column env.b = absent | 1\ncolumn env.a = absent | 1 | 2", REQUEST);
        let absences: Vec<(usize, Absence)> = report.listed.iter().map(|row| (row.number, row.absence())).collect();
        assert_eq!(absences, [(0, Absence::Hole), (2, Absence::Absent), (3, Absence::Hole), (5, Absence::None)]);
        assert_eq!(report.groups(&report.listed).iter().map(|group| group.len()).collect::<Vec<_>>(), [2, 2]);
        assert_eq!(report.holes.len(), 1);
        assert!(report.holes[0].sentence(|_| 1).contains("no permit would be satisfied"));
    }

    // A forbid that asks for two attributes is disarmed by either absence; with both absent, by both at once.
    #[test]
    fn a_hole_of_two_absences() {
        let text = "permit(principal,action,resource);forbid(principal,action,resource)when{env.a==1&&env.b==1};";
        let report = of(text, "column env.a = absent | 1\ncolumn env.b = absent | 1", REQUEST);
        let absences: Vec<(usize, Vec<Absence>)> =
            report.listed.iter().map(|row| (row.number, row.absences.clone())).collect();
        let hole = Absence::Hole;
        assert_eq!(absences, [(0, vec![hole, hole]), (1, vec![hole, Absence::None]), (2, vec![Absence::None, hole])]);
        let sentences: Vec<String> = report.holes.iter().map(|hole| hole.sentence(|_| 1)).collect();
        assert!(
            sentences[1].starts_with("1 row is allowed because of what is absent, env.a and env.b: policy 2 in line 1")
        );
    }

    #[test]
    fn rows_of_the_system_name_no_policy() {
        let report = of(EXAMPLE, "column env.a = absent | 1", "system");
        assert!(report.listed.iter().all(|row| row.outcome == "system" && row.policy == 0));
        assert_eq!(report.title, "Sheet for system");
        assert_eq!(report.sums(), Sums { listed: 2, absent: 1, holes: 0 });
        assert_eq!(report.deciding().count(), 0);
    }

    #[test]
    fn the_title_is_the_first_comment() {
        let report = of(EXAMPLE, "# May K7 teach?\ncolumn env.a = absent | 1", REQUEST);
        assert_eq!(report.title, "May K7 teach?");
    }

    #[test]
    fn other_rows_have_their_decisions() {
        let report = report_on(&asked(EXAMPLE, QUESTION, REQUEST), true);
        let others: Vec<(usize, &str, usize)> =
            report.others.unwrap().iter().map(|row| (row.number, row.outcome, row.policy)).collect();
        assert_eq!(others[0], (0, "not permitted", 0));
        assert_eq!(others[2], (2, "forbidden", 2));
        assert_eq!(others.len(), 7);
    }
}
