//! Deciding: requests, the truth of conditions under each version, and the four outcomes (01, "Deciding"; 02, request 7).

use crate::bags::{path_without_blanks, read_bag, Content, Value};
use crate::compile::set_said_by;
use crate::numbers::{value_of, Comparator};
use crate::patterns::like;
use crate::policies::{
    ActionPart, Attribute, Call, Condition, Conjunction, Disjunction, Effect, Literal, Operand, Policy, PrincipalPart,
    ResourcePart, Root, Set, Span, Version, PRINCIPAL_TYPES, RESOURCE_TYPES,
};

/// 01, "Deciding": the outcomes.
pub const ALLOWED: u8 = 1;
pub const FORBIDDEN: u8 = 2;
pub const NOTHING_SATISFIED: u8 = 3;
pub const SYSTEM: u8 = 4;

/// Subject, action and resource have at most 100 bytes.
const LONGEST_REQUEST_PART: usize = 100;

/// Who wants to do what with what.
#[derive(Clone, Copy)]
pub struct Request<'a> {
    pub subject: &'a [u8],
    pub action: &'a [u8],
    pub resource: &'a [u8],
}

impl Request<'_> {
    /// 01, "Deciding": the subject `system`, exactly so.
    pub fn is_of_system(&self) -> bool {
        self.subject == b"system"
    }

    /// The first of refusals 21, 22 and 23, if there is one. For `system` they are not asked for.
    pub fn refusal(&self) -> Option<u8> {
        if !is_type_and_id(self.subject, &PRINCIPAL_TYPES) {
            Some(21)
        } else if self.action.is_empty() || self.action.len() > LONGEST_REQUEST_PART {
            Some(22)
        } else if !is_type_and_id(self.resource, &RESOURCE_TYPES) {
            Some(23)
        } else {
            None
        }
    }
}

/// A type, a colon, and an id of at least 1 byte; at most 100 bytes in all.
fn is_type_and_id(name: &[u8], types: &[&str]) -> bool {
    let before_colon = text_before_colon(name);
    let known = types.iter().any(|known| known.as_bytes() == before_colon);
    known && name.len() >= before_colon.len() + 2 && name.len() <= LONGEST_REQUEST_PART
}

/// The text before the first colon; all of it if there is none.
fn text_before_colon(name: &[u8]) -> &[u8] {
    let length = name.iter().position(|byte| *byte == b':').unwrap_or(name.len());
    &name[..length]
}

/// The outcome, the policy's number, which is 0 for outcomes 3 and 4, and the mark of the satisfied policies.
#[derive(Clone, Copy, PartialEq, Eq, Debug)]
pub struct Decision {
    pub outcome: u8,
    pub policy: usize,
    /// 02, request 6: bit n-1 is set exactly when policy n is satisfied; 0 for the system.
    pub mark: u64,
}

/// The decision about a request of the system.
pub const SYSTEM_DECISION: Decision = Decision { outcome: SYSTEM, policy: 0, mark: 0 };

/// The value of an attribute by root byte and path.
pub type LookUp<'a> = dyn Fn(u8, &[u8]) -> Option<&'a Value> + 'a;

/// 02, request 7: what makes a policy unsatisfied under version 2, the absent attribute that an operator met.
#[derive(Clone, Copy, PartialEq, Eq, Debug)]
pub struct Missing(pub Attribute);

/// What a condition comes to: yes, no, or missing. Under version 1 none is missing.
pub type Truth = Result<bool, Missing>;

/// Whether a mark says that the policy of this number, from 1, is satisfied.
pub fn is_marked(mark: u64, policy: usize) -> bool {
    mark >> (policy - 1) & 1 == 1
}

/// Decide, or the refusal's number. 01, "Refusal numbers": system first, with nothing else looked at; then 21, 22, 23,
/// 24, 20.
pub fn decide(text: &[u8], table: &[u8], bag: &[u8], request: Request) -> Result<Decision, u8> {
    if request.is_of_system() {
        return Ok(SYSTEM_DECISION);
    }
    if let Some(number) = request.refusal() {
        return Err(number);
    }
    let bag = read_bag(bag).ok_or(24)?;
    let set = set_said_by(text, table).ok_or(20)?;
    Ok(decision_of_set(text, &set, request, &|root, path| bag.look_up(root, path)))
}

/// The decision of a text's set. A text without policies has no version, and nothing is satisfied.
pub fn decision_of_set<'a>(text: &'a [u8], set: &Set, request: Request<'a>, look_up: &'a LookUp<'a>) -> Decision {
    match set.version {
        Some(version) => Facts { text, version, request, look_up }.decision(&set.policies),
        None => Decision { outcome: NOTHING_SATISFIED, policy: 0, mark: 0 },
    }
}

/// What a decision depends on beside the policies. The text holds their paths, strings and numbers.
pub struct Facts<'a> {
    pub text: &'a [u8],
    pub version: Version,
    pub request: Request<'a>,
    pub look_up: &'a LookUp<'a>,
}

impl Facts<'_> {
    /// The lowest-numbered satisfied forbid, else the lowest-numbered satisfied permit, else none; and the mark of all that are
    /// satisfied.
    pub fn decision(&self, policies: &[Policy]) -> Decision {
        let satisfied: Vec<bool> = policies.iter().map(|policy| self.is_satisfied(policy)).collect();
        let mark = satisfied.iter().enumerate().filter(|(_, is_so)| **is_so).map(|(index, _)| 1_u64 << index).sum();
        for (outcome, effect) in [(FORBIDDEN, Effect::Forbid), (ALLOWED, Effect::Permit)] {
            let found = (0..policies.len()).find(|index| policies[*index].effect == effect && satisfied[*index]);
            if let Some(index) = found {
                return Decision { outcome, policy: index + 1, mark };
            }
        }
        Decision { outcome: NOTHING_SATISFIED, policy: 0, mark }
    }

    /// A policy is satisfied if its target parts match and its condition, if any, is true.
    pub fn is_satisfied(&self, policy: &Policy) -> bool {
        self.policy(policy) == Ok(true)
    }

    /// What a policy comes to: no where its target does not match, else what its condition does.
    pub fn policy(&self, policy: &Policy) -> Truth {
        let matches = self.principal_matches(&policy.principal)
            && self.action_matches(&policy.action)
            && self.resource_matches(&policy.resource);
        match &policy.condition {
            Some(condition) if matches => self.disjunction(condition),
            _ => Ok(matches),
        }
    }

    /// `is` compares the text before the first colon.
    pub fn principal_matches(&self, part: &PrincipalPart) -> bool {
        match part {
            PrincipalPart::Bare => true,
            PrincipalPart::Is(name) => text_before_colon(self.request.subject) == name.as_bytes(),
        }
    }

    pub fn action_matches(&self, part: &ActionPart) -> bool {
        match part {
            ActionPart::Bare => true,
            ActionPart::In(strings) => strings.iter().any(|string| self.inside(*string) == self.request.action),
        }
    }

    /// `==` compares the whole string.
    pub fn resource_matches(&self, part: &ResourcePart) -> bool {
        match part {
            ResourcePart::Bare => true,
            ResourcePart::Is(name) => text_before_colon(self.request.resource) == name.as_bytes(),
            ResourcePart::Equals(string) => self.inside(*string) == self.request.resource,
        }
    }

    /// One of its conjunctions is true. 02, request 7: they are met from left to right, up to the first that is.
    pub fn disjunction(&self, disjunction: &Disjunction) -> Truth {
        for conjunction in &disjunction.conjunctions {
            if self.conjunction(conjunction)? {
                return Ok(true);
            }
        }
        Ok(false)
    }

    /// All its conditions are true. They are met from left to right, up to the first that is false.
    pub fn conjunction(&self, conjunction: &Conjunction) -> Truth {
        for condition in &conjunction.conditions {
            if !self.condition(condition)? {
                return Ok(false);
            }
        }
        Ok(true)
    }

    /// A condition's truth. 01, "Deciding": an absent attribute makes its comparison, `like`, `in` or contains false, and `!` then
    /// gives true; 02, request 7: under version 2 the whole condition is missing.
    pub fn condition(&self, condition: &Condition) -> Truth {
        match condition {
            Condition::Not(condition) => Ok(!self.condition(condition)?),
            Condition::Brackets(disjunction) => self.disjunction(disjunction),
            // Only the chosen branch is met.
            Condition::If { condition, then_part, else_part } => {
                self.condition(if self.condition(condition)? { then_part } else { else_part })
            }
            Condition::Flag(flag) => Ok(*flag),
            _ => match (self.version, self.operator(condition)) {
                (Version::One, Err(Missing(_))) => Ok(false),
                (_, truth) => truth,
            },
        }
    }

    /// What an operator says of its operands. It meets them first, the left one and then the right one, whatever their kinds are;
    /// a kind mismatch is false. `has` is the only one that no absent attribute stops.
    fn operator(&self, condition: &Condition) -> Truth {
        let holds = match condition {
            Condition::Compare { left, comparator, right } => {
                compares(&self.operand(left)?, *comparator, &self.operand(right)?)
            }
            Condition::Like { operand, pattern } => match self.operand(operand)? {
                Content::String(string) => like(self.inside(*pattern), &string),
                _ => false,
            },
            // Equal to some literal of the same kind.
            Condition::InList { operand, list } => {
                let value = self.operand(operand)?;
                list.iter().any(|literal| compares(&value, Comparator::Equal, &self.literal(literal)))
            }
            // A string among a list of strings.
            Condition::InAttribute { operand, attribute } => match (self.operand(operand)?, self.met(attribute)?) {
                (Content::String(string), Content::List(strings)) => strings.contains(&string),
                _ => false,
            },
            Condition::Contains { attribute, call, list } => match self.met(attribute)? {
                Content::List(strings) => self.contains(&strings, *call, list),
                _ => false,
            },
            Condition::Has(attribute) => self.attribute(attribute).is_some(),
            Condition::Not(_) | Condition::Brackets(_) | Condition::If { .. } | Condition::Flag(_) => {
                unreachable!("no operator")
            }
        };
        Ok(holds)
    }

    /// containsAll: each literal is a string of the list; containsAny: one is.
    fn contains(&self, strings: &[Vec<u8>], call: Call, list: &[Literal]) -> bool {
        let is_in = |literal: &Literal| match self.literal(literal) {
            Content::String(string) => strings.contains(&string),
            _ => false,
        };
        match call {
            Call::ContainsAll => list.iter().all(is_in),
            Call::ContainsAny => list.iter().any(is_in),
        }
    }

    /// The operand's value, unless it is an absent attribute.
    fn operand(&self, operand: &Operand) -> Result<Content, Missing> {
        match operand {
            Operand::Attribute(attribute) => self.met(attribute),
            Operand::Literal(literal) => Ok(self.literal(literal)),
        }
    }

    /// The value of an attribute that an operator meets.
    fn met(&self, attribute: &Attribute) -> Result<Content, Missing> {
        self.attribute(attribute).ok_or(Missing(*attribute))
    }

    pub fn literal(&self, literal: &Literal) -> Content {
        match literal {
            Literal::String(span) => Content::String(self.inside(*span).to_vec()),
            Literal::Number(span) => Content::Number(value_of(&self.text[span.start..span.end])),
            Literal::Flag(flag) => Content::Flag(*flag),
        }
    }

    /// The attribute's value. 01, "Bags and questions": the action root holds only `name`, the request's action.
    pub fn attribute(&self, attribute: &Attribute) -> Option<Content> {
        let root = match attribute.root {
            Root::Principal => 1,
            Root::Resource => 2,
            Root::Env => 3,
            Root::Action => return Some(Content::String(self.request.action.to_vec())),
        };
        let path = path_without_blanks(&self.text[attribute.path.start..attribute.path.end]);
        (self.look_up)(root, &path).map(|value| value.content.clone())
    }

    /// The bytes of a string between its quotes.
    fn inside(&self, string: Span) -> &[u8] {
        &self.text[string.start + 1..string.end - 1]
    }
}

/// `>`, `>=`, `<`, `<=` only for numbers, `==` and `!=` for two strings, numbers or flags. All else is false.
fn compares(left: &Content, comparator: Comparator, right: &Content) -> bool {
    let by_equality = |equal: bool| match comparator {
        Comparator::Equal => equal,
        Comparator::NotEqual => !equal,
        _ => false,
    };
    match (left, right) {
        (Content::Number(left), Content::Number(right)) => comparator.holds(*left, *right),
        (Content::String(left), Content::String(right)) => by_equality(left == right),
        (Content::Flag(left), Content::Flag(right)) => by_equality(left == right),
        _ => false,
    }
}

#[cfg(test)]
mod tests {
    use super::*;
    use crate::compile::compile;
    use crate::plans::{list_value, number_value, string_value, Entry, Plan};

    const P: &str = "permit(principal,action,resource)";
    const REQUEST: Request = Request { subject: b"person:K7", action: b"teach", resource: b"shaft:A:1" };

    fn table_under(text: &str, version: Version) -> Vec<u8> {
        compile(text.as_bytes(), 8 * text.len(), version.number()).unwrap().table
    }

    fn table_of(text: &str) -> Vec<u8> {
        table_under(text, Version::One)
    }

    /// A bag with these values of principal.
    fn bag_of(entries: &[(&str, Vec<u8>)]) -> Vec<u8> {
        let principal = entries
            .iter()
            .map(|(path, value)| Entry { path: path.as_bytes().to_vec(), value: value.clone() })
            .collect();
        Plan { sections: [principal, Vec::new(), Vec::new()], columns: None }.bytes()
    }

    /// Values of every kind: f false, l a list, m an empty list, n 3, s "own", t true, z.a -0.
    fn rich_bag() -> Vec<u8> {
        bag_of(&[
            ("f", vec![3, 0]),
            ("l", list_value(&[b"own".to_vec(), b"teach".to_vec()])),
            ("m", list_value(&[])),
            ("n", number_value(3.0_f64.to_bits())),
            ("s", string_value(b"own")),
            ("t", vec![3, 1]),
            ("z.a", number_value((-0.0_f64).to_bits())),
        ])
    }

    fn decided(text: &str, bag: &[u8], request: Request) -> (u8, usize) {
        let decision = decide(text.as_bytes(), &table_of(text), bag, request).unwrap();
        (decision.outcome, decision.policy)
    }

    /// Whether a permit with this condition is satisfied under a version.
    fn is_satisfied_under(version: Version, condition: &str, bag: &[u8]) -> bool {
        let text = format!("{}when{{{}}};", P, condition);
        let decision = decide(text.as_bytes(), &table_under(&text, version), bag, REQUEST).unwrap();
        let Decision { outcome, policy, mark } = decision;
        assert!((outcome, policy, mark) == (1, 1, 1) || (outcome, policy, mark) == (3, 0, 0));
        outcome == ALLOWED
    }

    fn is_true_in(condition: &str, bag: &[u8]) -> bool {
        is_satisfied_under(Version::One, condition, bag)
    }

    fn is_true(condition: &str) -> bool {
        is_true_in(condition, &rich_bag())
    }

    /// Whether it is satisfied under version 1, and under version 2.
    fn under_both(condition: &str) -> (bool, bool) {
        let under = |version| is_satisfied_under(version, condition, &rich_bag());
        (under(Version::One), under(Version::Two))
    }

    #[test]
    fn cases_g_and_h() {
        for version in Version::ALL {
            assert!(is_satisfied_under(version, "true || false && false", &rich_bag()));
            assert!(!is_satisfied_under(version, "if true then true else true && false", &rich_bag()));
        }
    }

    /// Conditions that meet an absent attribute.
    const MISSING: [&str; 24] = [
        "principal.a != \"x\"",
        "principal.a == principal.a",
        "principal.a == 1",
        "1 < principal.a",
        "principal.n == principal.a",
        "principal.a >= principal.n",
        "principal.a like \"*\"",
        "principal.a in [1]",
        "\"own\" in principal.a",
        "principal.a in principal.l",
        "principal.a in principal.b",
        "principal.s in principal.a",
        "principal.a.containsAll([\"x\"])",
        "principal.a.containsAny([\"x\"])",
        "resource.s==\"own\"",
        "env.s==\"own\"",
        "principal.z == 0",
        "principal.z.a.b == 0",
        "principal.S == \"own\"",
        // Every operator meets both operands, though the other one mismatches anyway.
        "1 in principal.a",
        "principal.n in principal.a",
        "principal.a in principal.s",
        "principal.l == principal.a",
        "principal.a > principal.t",
    ];

    // 02, request 7: under version 2 case I is unsatisfied both ways, and so is every other operator but `has`.
    #[test]
    fn case_i_under_version_2() {
        for missing in MISSING {
            assert_eq!(under_both(missing), (false, false), "{}", missing);
            for (before, after) in [
                ("!", ""),
                ("!(", ")"),
                ("!!!", ""),
                ("!(true&&", ")"),
                ("!(false||", ")"),
                ("!if true then ", " else true"),
            ] {
                let condition = [before, missing, after].concat();
                assert_eq!(under_both(&condition), (true, false), "{}", condition);
            }
            let twice = format!("!!({})", missing);
            assert_eq!(under_both(&twice), (false, false), "{}", twice);
        }
    }

    // 02, request 7: parts are met from left to right; `&&` stops at false, `||` at true, `if` meets only the chosen branch.
    #[test]
    fn parts_that_are_not_met_do_no_harm() {
        for (condition, expected) in [
            ("true || principal.a == 1", true),
            ("!(false && principal.a == 1)", true),
            ("false && principal.a == 1 || true", true),
            ("if true then true else principal.a == 1", true),
            ("if false then principal.a == 1 else true", true),
            ("!(if true then false else principal.a == 1)", true),
            ("principal.n == 3 || principal.a == 1 || principal.b == 1", true),
            ("!(principal.n == 4 && principal.a == 1 && principal.b == 1)", true),
            ("principal has a && principal.a == 1 || true", true),
            ("!(principal has a && principal.a == 1)", true),
            ("!(principal has a) || principal.a == 1", true),
            ("if principal has a then principal.a == 1 else true", true),
            ("(false && principal.a == 1) || (true || principal.a == 1)", true),
            ("false && principal.a == 1", false),
            ("if true then false else principal.a == 1", false),
        ] {
            assert_eq!(under_both(condition), (expected, expected), "{}", condition);
        }
    }

    // A left part that is absent beats a later false or true: the whole condition fails.
    #[test]
    fn a_part_that_is_met_fails_the_whole() {
        for condition in [
            "principal.a == 1 || true",
            "false || principal.a == 1 || true",
            "!(principal.a == 1 && false)",
            "!(true && principal.a == 1 && false)",
            "!(principal.a == 1) || true",
            "true && !(principal.a == 1) && true",
            "(principal.a == 1 || true) && true",
            "true && principal.a == 1 || true",
            "if principal.a == 1 then false else true",
            "if principal.a == 1 then true else true",
            "if !(principal.a == 1) then true else true",
            "if true then !(principal.a == 1) else false",
            "if false then false else !(principal.a == 1)",
            "!(if true then principal.a == 1 else true)",
            "principal has a || !(principal.a == 1)",
            "if principal.n == principal.a then false else true",
        ] {
            assert_eq!(under_both(condition), (true, false), "{}", condition);
        }
    }

    // A kind mismatch stays false, `has` never misses, action.name is never absent, and a string that is not UTF-8 is there.
    #[test]
    fn what_is_not_absent_is_decided_alike() {
        for (condition, expected) in [
            ("principal.s == 1", false),
            ("principal.n < \"a\"", false),
            ("principal.l == principal.l", false),
            ("principal.n like \"*\"", false),
            ("1 in principal.l", false),
            ("principal.s in principal.n", false),
            ("principal.s.containsAny([\"own\"])", false),
            ("principal.t in [1]", false),
            ("principal has a", false),
            ("resource has s", false),
            ("action has name", true),
            ("action.name == \"teach\"", true),
            ("action.name like \"read\"", false),
            ("action.name > 1", false),
            ("action.name.containsAll([\"teach\"])", false),
            ("\"own\" in action.name", false),
        ] {
            assert_eq!(under_both(condition), (expected, expected), "{}", condition);
            let negated = format!("!{}", condition);
            assert_eq!(under_both(&negated), (!expected, !expected), "{}", negated);
        }
        let bag = bag_of(&[("s", string_value(b"own\xFF"))]);
        for version in Version::ALL {
            assert!(!is_satisfied_under(version, "principal.s like \"*\"", &bag));
            assert!(is_satisfied_under(version, "!(principal.s like \"*\")", &bag));
        }
    }

    // By hand: policies 1 and 4 are satisfied whatever is absent; 2 and 3 only under version 1, and 3 forbids.
    #[test]
    fn a_decision_reads_the_recorded_version() {
        let text = "permit(principal,action,resource)when{!(principal has a)};\
            permit(principal,action,resource)when{!(principal.a==1)};\
            forbid(principal,action,resource)when{principal.a==1||true};\
            permit(principal,action,resource);";
        let under = |version| decide(text.as_bytes(), &table_under(text, version), &rich_bag(), REQUEST);
        assert_eq!(under(Version::One), Ok(Decision { outcome: 2, policy: 3, mark: 0b1111 }));
        assert_eq!(under(Version::Two), Ok(Decision { outcome: 1, policy: 1, mark: 0b1001 }));
        let mut mixed = table_under(text, Version::Two);
        mixed[0] = 29;
        assert_eq!(decide(text.as_bytes(), &mixed, &rich_bag(), REQUEST), Err(20));
        assert_eq!(decide(text.as_bytes(), &mixed, &[], REQUEST), Err(24));
        for table in [&[][..], &[29], &[36], &[0; 9]] {
            assert_eq!(decide(b" ", table, &rich_bag(), REQUEST), Ok(Decision { outcome: 3, policy: 0, mark: 0 }));
        }
    }

    // The absent attribute that is met first is the one that is told.
    #[test]
    fn what_is_missing_is_told() {
        let text = format!("{}when{{true && !(principal.b in principal.a) || principal.c == 1}};", P);
        let policies = crate::compile::policies_of(text.as_bytes()).unwrap();
        let condition = policies[0].condition.as_ref().unwrap();
        let truth = |version| {
            let facts = Facts { text: text.as_bytes(), version, request: REQUEST, look_up: &|_, _| None };
            facts.disjunction(condition).map_err(|Missing(attribute)| &text[attribute.path.start..attribute.path.end])
        };
        assert_eq!(truth(Version::One), Ok(true));
        assert_eq!(truth(Version::Two), Err("b"));
    }

    #[test]
    fn case_i_an_absent_attribute() {
        assert!(!is_true("principal.a != \"x\""));
        assert!(is_true("!(principal.a != \"x\")"));
        for condition in [
            "principal.a == principal.a",
            "1 < principal.a",
            "principal.a >= 1",
            "principal.a like \"*\"",
            "principal.a in [1]",
            "\"own\" in principal.a",
            "principal.a in principal.l",
            "principal.a.containsAll([\"x\"])",
            "principal.a.containsAny([\"x\"])",
            "principal has a",
            "resource.s==\"own\"",
            "env.s==\"own\"",
            "principal.z == 0",
            "principal.z.a.b == 0",
            "principal.S == \"own\"",
        ] {
            assert!(!is_true(condition), "{}", condition);
            assert!(is_true(&format!("!{}", condition)), "{}", condition);
        }
    }

    #[test]
    fn cases_j_and_k() {
        for (pattern, string, expected) in [
            ("shaft:*", "shaft:A1", true),
            ("shaft:*", "shaft:", true),
            ("shaft:*", "shaft:b:A1", false),
            ("*A1", "A1A1", true),
        ] {
            let bag = bag_of(&[("a", string_value(string.as_bytes()))]);
            assert_eq!(is_true_in(&format!("principal.a like\"{}\"", pattern), &bag), expected);
            assert_eq!(is_true(&format!("\"{}\" like\"{}\"", string, pattern)), expected);
        }
        for condition in ["1 like\"*\"", "true like\"*\"", "principal.l like\"*\"", "principal.s like\"ow\""] {
            assert!(!is_true(condition));
        }
    }

    #[test]
    fn case_l_a_forbid_wins() {
        let text = format!("{};{}", P, "forbid(principal,action,resource);");
        assert_eq!(decided(&text, &[0, 0, 0], REQUEST), (2, 2));
        let policy =
            |effect: &str, condition: &str| format!("{}(principal,action,resource)when{{{}}};", effect, condition);
        let text = [policy("permit", "false"), policy("permit", "true"), policy("permit", "true")].concat();
        assert_eq!(decided(&text, &[0, 0, 0], REQUEST), (1, 2));
        let text = [text, policy("forbid", "false"), policy("forbid", "true"), policy("forbid", "true")].concat();
        assert_eq!(decided(&text, &[0, 0, 0], REQUEST), (2, 5));
        assert_eq!(decided("", &[0, 0, 0], REQUEST), (3, 0));
        assert_eq!(decided(&policy("forbid", "false"), &[0, 0, 0], REQUEST), (3, 0));
    }

    // Worked by hand out of 02, request 6: bit n-1 for policy n, forbids and permits alike, before and after the one that decides.
    #[test]
    fn the_mark_has_every_satisfied_policy() {
        let marked = |effects: &str| {
            let policy = |effect: char| match effect {
                'p' => format!("{};", P),
                'f' => "forbid(principal,action,resource);".to_string(),
                'P' => "permit(principal is tool,action,resource);".to_string(),
                _ => "forbid(principal,action,resource)when{false};".to_string(),
            };
            let text: String = effects.chars().map(policy).collect();
            let Decision { outcome, policy, mark } =
                decide(text.as_bytes(), &table_of(&text), &[0, 0, 0], REQUEST).unwrap();
            (outcome, policy, mark)
        };
        assert_eq!(marked(""), (3, 0, 0));
        assert_eq!(marked("PF"), (3, 0, 0));
        assert_eq!(marked("p"), (1, 1, 1));
        assert_eq!(marked("Pp"), (1, 2, 2));
        assert_eq!(marked("pFpP"), (1, 1, 0b101));
        assert_eq!(marked("pfpf"), (2, 2, 0b1111));
        assert_eq!(marked("fPp"), (2, 1, 0b101));
        assert_eq!(marked(&["p", &"P".repeat(62), "p"].concat()), (1, 1, 0x8000_0000_0000_0001));
        assert_eq!(marked(&["f", &"P".repeat(62), "p"].concat()), (2, 1, 0x8000_0000_0000_0001));
        assert_eq!(marked(&["p", &"F".repeat(62), "f"].concat()), (2, 64, 0x8000_0000_0000_0001));
        assert_eq!(marked(&["F".repeat(63), "p".to_string()].concat()), (1, 64, 1 << 63));
        assert_eq!(marked(&"p".repeat(64)), (1, 1, u64::MAX));
        assert_eq!(marked(&"f".repeat(64)), (2, 1, u64::MAX));
        assert!(is_marked(1 << 63, 64) && !is_marked(1 << 63, 63) && is_marked(1, 1) && !is_marked(2, 1));
        // The system has no mark, whatever the rules say.
        let text = format!("{};", P);
        let by_system = Request { subject: b"system", ..REQUEST };
        assert_eq!(decide(text.as_bytes(), &table_of(&text), &[0, 0, 0], by_system).unwrap().mark, 0);
    }

    #[test]
    fn comparisons_need_one_kind() {
        for condition in [
            "principal.s==\"own\"",
            "principal.s!=\"loan\"",
            "principal.n==3",
            "principal.n!=2.5",
            "principal.n>=3",
            "principal.n<=3.0",
            "2<principal.n",
            "principal.t==true",
            "principal.f!=true",
            "principal.z.a==0",
            "principal . z\n. a >= -0",
            "0.1==0.10",
            "\"\"==\"\"",
            "true==true",
            "true!=false",
            "0<=principal.z.a",
        ] {
            assert!(is_true(condition), "{}", condition);
        }
        for condition in [
            "principal.s==3",
            "principal.s!=3",
            "principal.n==\"3\"",
            "principal.n!=\"3\"",
            "principal.t==1",
            "principal.t!=1",
            "principal.f==0",
            "principal.l==principal.l",
            "principal.l!=principal.l",
            "principal.l!=principal.m",
            "principal.l!=\"own\"",
            "\"own\"!=principal.l",
            "\"a\"<\"b\"",
            "\"a\"<=\"a\"",
            "false<true",
            "true>=true",
            "principal.s>=principal.s",
            "principal.z.a<0",
            "principal.n>3",
            "1==true",
        ] {
            assert!(!is_true(condition), "{}", condition);
        }
    }

    #[test]
    fn in_contains_and_has() {
        for condition in [
            "principal.s in [1,\"own\"]",
            "principal.n in [\"3\",3.0]",
            "principal.t in [true]",
            "principal.z.a in [0]",
            "1 in [true,1]",
            "\"own\" in principal.l",
            "principal.s in principal.l",
            "action.name in principal.l",
            "principal.l.containsAll([\"own\",\"teach\",\"own\"])",
            "principal.l.containsAny([1,\"own\"])",
            "principal has s",
            "principal has z . a",
            "action has name",
            "action.name==\"teach\"",
            "action.name like\"t*\"",
            "action.name in[\"teach\"]",
        ] {
            assert!(is_true(condition), "{}", condition);
        }
        for condition in [
            "principal.s in [1,true,\"ow\"]",
            "principal.n in [\"3\",true]",
            "principal.t in [1,\"true\"]",
            "principal.l in [\"own\"]",
            "principal.l in principal.l",
            "1 in principal.l",
            "\"own\" in principal.s",
            "\"own\" in principal.m",
            "\"teach\" in action.name",
            "principal.l.containsAll([\"own\",\"x\"])",
            "principal.l.containsAll([\"own\",1])",
            "principal.l.containsAny([\"x\",true])",
            "principal.m.containsAny([\"own\"])",
            "principal.m.containsAll([\"own\"])",
            "principal.s.containsAll([\"own\"])",
            "action.name.containsAll([\"teach\"])",
            "principal has z",
            "principal has z.a.b",
            "resource has s",
        ] {
            assert!(!is_true(condition), "{}", condition);
        }
    }

    #[test]
    fn conditions_are_joined_as_said() {
        for (condition, expected) in [
            ("!true", false),
            ("!!true", true),
            ("!false&&false", false),
            ("!(false&&false)", true),
            ("true&&true&&false||true", true),
            ("(true||false)&&false", false),
            ("if false then false else true", true),
            ("if principal.a==1 then true else false", false),
            ("if true then false else true||true", true),
            ("!principal.s==\"own\"", false),
        ] {
            assert_eq!(is_true(condition), expected, "{}", condition);
        }
    }

    // `is` compares the text before the first colon, `==` the whole string.
    #[test]
    fn targets_match_as_said() {
        for (target, expected) in [
            ("principal,action,resource", true),
            ("principal is person,action,resource", true),
            ("principal is tool,action,resource", false),
            ("principal,action in[\"read\",\"teach\"],resource", true),
            ("principal,action in[\"teac\",\"teachs\",\"\"],resource", false),
            ("principal,action,resource is shaft", true),
            ("principal,action,resource is record", false),
            ("principal,action,resource==\"shaft:A:1\"", true),
            ("principal,action,resource==\"shaft:A\"", false),
        ] {
            let decision = decided(&format!("permit({});", target), &[0, 0, 0], REQUEST);
            assert_eq!(decision == (1, 1), expected, "{}", target);
        }
    }

    #[test]
    fn requests_have_their_form() {
        let refusal = |subject: &[u8], action: &[u8], resource: &[u8]| Request { subject, action, resource }.refusal();
        let long = |start: &str, length: usize| [start.as_bytes(), &vec![b'x'; length - start.len()]].concat();
        for subject in [&b"person:K"[..], b"tool:1", b"person::", b"tool:a:b", b"person:\x00", &long("person:", 100)] {
            assert_eq!(refusal(subject, b"a", b"record:1"), None);
        }
        for subject in [
            &b""[..],
            b"person",
            b"person:",
            b"tool",
            b"tool:",
            b"Person:a",
            b"persons:a",
            b"system:x",
            b"shaft:a",
            b":a",
            b" person:a",
            &long("person:", 101),
        ] {
            assert_eq!(refusal(subject, b"", b""), Some(21));
        }
        assert_eq!(refusal(b"tool:1", b"", b""), Some(22));
        assert_eq!(refusal(b"tool:1", &long("", 101), b""), Some(22));
        assert_eq!(refusal(b"tool:1", &long("", 100), b"parameter:1"), None);
        for resource in
            [&b""[..], b"shaft", b"shaft:", b"person:K7", b"dog:1", b"Shaft:1", b"shaft :1", &long("controller:", 101)]
        {
            assert_eq!(refusal(b"tool:1", b"a", resource), Some(23));
        }
        assert_eq!(refusal(b"tool:1", b"a", &long("controller:", 100)), None);
    }

    // System first, with nothing else looked at; then 21, 22, 23, 24, 20.
    #[test]
    fn refusals_come_in_their_order() {
        let request = |subject, action, resource| Request { subject, action, resource };
        let bad: &[u8] = b"";
        let refused = |text: &[u8], table: &[u8], bag: &[u8], request: Request| decide(text, table, bag, request);
        assert_eq!(refused(b":", bad, bad, request(b"system", bad, bad)), Ok(SYSTEM_DECISION));
        assert_eq!(refused(b":", bad, bad, request(bad, bad, bad)), Err(21));
        assert_eq!(refused(b":", bad, bad, request(b"tool:1", bad, bad)), Err(22));
        assert_eq!(refused(b":", bad, bad, request(b"tool:1", b"a", bad)), Err(23));
        assert_eq!(refused(b":", bad, bad, REQUEST), Err(24));
        assert_eq!(refused(b":", bad, &[0, 0, 0, 0], REQUEST), Err(24));
        assert_eq!(refused(b":", bad, &[0, 0, 0], REQUEST), Err(20));
        assert_eq!(refused(b" ", bad, &[0, 0, 0], REQUEST), Ok(Decision { outcome: 3, policy: 0, mark: 0 }));
        let text = format!("{};", P);
        let table = table_of(&text);
        assert_eq!(
            refused(text.as_bytes(), &table, &[0, 0, 0], REQUEST),
            Ok(Decision { outcome: 1, policy: 1, mark: 1 })
        );
        assert_eq!(refused(text.as_bytes(), &table[..19], &[0, 0, 0], REQUEST), Err(20));
        assert_eq!(
            refused(text.as_bytes(), &[&table[..], &[7]].concat(), &[0, 0, 0], REQUEST).map(|it| it.outcome),
            Ok(1)
        );
    }
}
