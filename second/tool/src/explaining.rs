//! Why a request is decided as it is: each policy with its target and the parts of its condition, the values met, and what is absent.
//! Under version 2 also which absent attribute is met and makes a policy unsatisfied, and which parts are not met.

use definitions::asking::Case;
use definitions::bags::read_bag;
use definitions::deciding::{Facts, Missing, Request, Truth};
use definitions::policies::{Condition, Conjunction, Disjunction, Effect, Policy, Version};

use crate::answers::Answer;
use crate::report::{others_marked, outcome_text};
use crate::rules::{
    attribute_text, attributes, condition_text, conjunction_text, disjunction_text, effect_text, leaves, path_of,
    section_of, target_texts, PolicyText,
};
use crate::words::ordinal;
use crate::writing::value_text;

/// Rules as they are explained: their text and version, the policies, and these as they stand in the text.
pub struct Rules<'a> {
    pub text: &'a [u8],
    pub version: Version,
    pub policies: &'a [Policy],
    pub texts: &'a [PolicyText],
}

/// The explanation of an answer, line by line. The answer must be that of these rules.
pub fn explained(rules: &Rules, case: &Case, answer: Answer) -> Vec<String> {
    let Rules { policies, texts, .. } = rules;
    over(rules, case, |explaining| {
        let mut lines = explaining.policies(policies, texts);
        lines.extend(conclusion(answer, texts));
        lines.extend(also_satisfied(answer, texts));
        lines
    })
}

/// The forbids that an absence disarms, a line each: they are not satisfied, and could be.
pub fn disarmed(rules: &Rules, case: &Case) -> Vec<String> {
    over(rules, case, |explaining| {
        let forbids = rules.policies.iter().zip(rules.texts).filter(|(policy, _)| policy.effect == Effect::Forbid);
        let about = forbids.filter(|(policy, _)| explaining.is_about(policy));
        let open = about.filter(|(policy, _)| !explaining.facts.is_satisfied(policy));
        open.filter_map(|(policy, shown)| {
            let names = explaining.turned_by(policy, false)?.join(" and ");
            let policy = format!("policy {} in line {}", shown.number, shown.line);
            Some(format!("!! {} is disarmed: it could forbid if {} were there", policy, names))
        })
        .collect()
    })
}

/// What is said of a case's facts; nothing where its bag is none.
fn over(rules: &Rules, case: &Case, said: impl FnOnce(&Explaining) -> Vec<String>) -> Vec<String> {
    let [subject, action, resource] = &case.request;
    let request = Request { subject, action, resource };
    let bag = match read_bag(&case.bag) {
        Some(bag) => bag,
        None => return Vec::new(),
    };
    let look_up = |root: u8, path: &[u8]| bag.look_up(root, path);
    let facts = Facts { text: rules.text, version: rules.version, request, look_up: &look_up };
    said(&Explaining { text: rules.text, facts: &facts })
}

/// What is decided, and why by this policy.
pub fn conclusion(answer: Answer, texts: &[PolicyText]) -> Vec<String> {
    let line = |policy: usize| texts.get(policy - 1).map_or(0, |text| text.line);
    let said = match answer {
        Answer::Refused(refused) => format!("Refused, number {}.", refused.number),
        Answer::Decided { outcome: 1, policy, .. } => format!(
            "Allowed by policy {} in line {}: no forbid is satisfied, and it is the first permit that is.",
            policy,
            line(policy)
        ),
        Answer::Decided { outcome: 2, policy, .. } => {
            format!(
                "Forbidden by policy {} in line {}: it is the first forbid that is satisfied.",
                policy,
                line(policy)
            )
        }
        Answer::Decided { outcome: 3, .. } => "Not permitted: no policy is satisfied.".to_string(),
        Answer::Decided { outcome, .. } => {
            format!("Yes, for the {}: the rules are not looked at.", outcome_text(outcome))
        }
    };
    vec![said]
}

/// Which policies are satisfied beside the one that decides, in a sentence; nothing where none decides.
pub fn also_satisfied(answer: Answer, texts: &[PolicyText]) -> Option<String> {
    let others = match answer {
        Answer::Decided { outcome: 1 | 2, policy, mark } => others_marked(mark, policy),
        _ => return None,
    };
    let named: Vec<String> = texts
        .iter()
        .filter(|text| others.contains(&text.number))
        .map(|text| format!("policy {} in line {} ({})", text.number, text.line, text.effect()))
        .collect();
    Some(match named.is_empty() {
        true => "No other policy is satisfied.".to_string(),
        false => format!("Satisfied too, but not deciding: {}.", named.join(", ")),
    })
}

struct Explaining<'a> {
    text: &'a [u8],
    facts: &'a Facts<'a>,
}

impl Explaining<'_> {
    /// The policies that are about the request, each with its parts, and then those that are not.
    fn policies(&self, policies: &[Policy], texts: &[PolicyText]) -> Vec<String> {
        let mut lines = Vec::new();
        let mut away: Vec<String> = Vec::new();
        for (policy, shown) in policies.iter().zip(texts) {
            if self.is_about(policy) {
                lines.extend(self.policy(policy, shown));
                lines.push(String::new());
            } else {
                away.push(self.away(policy, shown));
            }
        }
        if !away.is_empty() {
            lines.push("Policies that are not about this request:".to_string());
            lines.extend(away);
            lines.push(String::new());
        }
        lines
    }

    fn is_about(&self, policy: &Policy) -> bool {
        self.facts.principal_matches(&policy.principal)
            && self.facts.action_matches(&policy.action)
            && self.facts.resource_matches(&policy.resource)
    }

    /// A policy whose target does not match: the parts that do not.
    fn away(&self, policy: &Policy, shown: &PolicyText) -> String {
        let matches = [
            self.facts.principal_matches(&policy.principal),
            self.facts.action_matches(&policy.action),
            self.facts.resource_matches(&policy.resource),
        ];
        let parts: Vec<String> = target_texts(self.text, policy)
            .into_iter()
            .zip(matches)
            .filter(|(_, matches)| !matches)
            .map(|(part, _)| part)
            .collect();
        format!(
            "    policy {} in line {}, {}: not {}",
            shown.number,
            shown.line,
            effect_text(policy),
            parts.join(", not ")
        )
    }

    /// A policy whose target matches: its heading, and its condition's parts.
    fn policy(&self, policy: &Policy, shown: &PolicyText) -> Vec<String> {
        let is_satisfied = self.facts.is_satisfied(policy);
        let word = if is_satisfied { "satisfied" } else { "not satisfied" };
        let mut lines = vec![
            format!("policy {} in line {}, {}: {}", shown.number, shown.line, effect_text(policy), word),
            format!("    target: {}: matches", target_texts(self.text, policy).join(", ")),
        ];
        match &policy.condition {
            None => lines.push("    no condition".to_string()),
            Some(condition) => {
                self.disjunction(condition, 1, &mut lines);
                lines.extend(self.unsatisfied_by(condition));
            }
        }
        lines.extend(self.absences(policy, is_satisfied));
        lines
    }

    /// The absent attribute that is met and makes the policy of this condition unsatisfied, in a sentence: under version 2 alone.
    fn unsatisfied_by(&self, condition: &Disjunction) -> Option<String> {
        let Missing(attribute) = self.facts.disjunction(condition).err()?;
        let name = attribute_text(self.text, &attribute);
        Some(format!("    {} is absent, and it is met: under version 2 that makes the whole policy unsatisfied", name))
    }

    /// Whether what follows a part is met too, where it is met behind a part of this truth. Under version 1 all parts are.
    fn goes_on(&self, behind: bool, truth: Truth) -> bool {
        self.facts.version == Version::One || truth == Ok(behind)
    }

    /// Conditions joined by `||`, each conjunction under a line of its own where there are several.
    fn disjunction(&self, disjunction: &Disjunction, depth: usize, lines: &mut Vec<String>) {
        let many = disjunction.conjunctions.len() > 1;
        if many {
            let truth = truth_text(self.facts.disjunction(disjunction));
            lines.push(format!("{}one of these must be true: {}", indent(depth), truth));
        }
        let depth = depth + usize::from(many);
        let mut is_met = true;
        for (index, conjunction) in disjunction.conjunctions.iter().enumerate() {
            let which = if many { format!("{}: ", ordinal(index + 1)) } else { String::new() };
            if is_met {
                self.conjunction(conjunction, &which, depth, lines);
                is_met = self.goes_on(false, self.facts.conjunction(conjunction));
            } else {
                lines.push(format!("{}{}: not met", indent(depth), conjunction_text(self.text, conjunction)));
            }
        }
    }

    /// Conditions joined by `&&`, under a line of their own where there are several.
    fn conjunction(&self, conjunction: &Conjunction, which: &str, depth: usize, lines: &mut Vec<String>) {
        let many = conjunction.conditions.len() > 1;
        if many {
            let truth = truth_text(self.facts.conjunction(conjunction));
            lines.push(format!("{}{}all of these must be true: {}", indent(depth), which, truth));
        }
        let depth = depth + usize::from(many);
        let mut is_met = true;
        for condition in &conjunction.conditions {
            if is_met {
                self.condition(condition, depth, lines);
                is_met = self.goes_on(true, self.facts.condition(condition));
            } else {
                lines.push(format!("{}{}: not met", indent(depth), condition_text(self.text, condition)));
            }
        }
    }

    /// A condition with its truth, and the values that it met; its parts under it.
    fn condition(&self, condition: &Condition, depth: usize, lines: &mut Vec<String>) {
        let truth = truth_text(self.facts.condition(condition));
        match condition {
            Condition::Not(inner) => {
                lines.push(format!("{}not: {}", indent(depth), truth));
                self.condition(inner, depth + 1, lines);
            }
            Condition::Brackets(disjunction) => {
                lines.push(format!("{}( {} ): {}", indent(depth), disjunction_text(self.text, disjunction), truth));
                self.disjunction(disjunction, depth + 1, lines);
            }
            Condition::If { condition, then_part, else_part } => {
                lines.push(format!("{}if: {}", indent(depth), truth));
                self.condition(condition, depth + 1, lines);
                let (word, part) = match self.facts.condition(condition) {
                    Ok(true) => ("then", then_part),
                    Ok(false) => ("else", else_part),
                    Err(Missing(_)) => return,
                };
                lines.push(format!("{}{}", indent(depth), word));
                self.condition(part, depth + 1, lines);
            }
            _ => {
                let met = self.met(condition);
                let met = if met.is_empty() { String::new() } else { format!("   ({})", met.join(", ")) };
                lines.push(format!("{}{}: {}{}", indent(depth), condition_text(self.text, condition), truth, met));
            }
        }
    }

    /// The values of a condition's attributes.
    fn met(&self, condition: &Condition) -> Vec<String> {
        let value = |attribute| match self.facts.attribute(&attribute) {
            Some(value) => format!("{} is {}", attribute_text(self.text, &attribute), value_text(&value)),
            None => format!("{} is absent", attribute_text(self.text, &attribute)),
        };
        attributes(condition).into_iter().map(value).collect()
    }

    /// What is absent, if that could turn the policy.
    fn turned_by(&self, policy: &Policy, is_satisfied: bool) -> Option<Vec<String>> {
        let mut absent: Vec<String> = Vec::new();
        for attribute in leaves(policy).into_iter().flat_map(attributes) {
            let name = attribute_text(self.text, &attribute);
            if self.facts.attribute(&attribute).is_none() && !absent.contains(&name) {
                absent.push(name);
            }
        }
        let could_turn = policy.condition.as_ref().map_or(false, |condition| {
            let (can_be_false, can_be_true) = self.could_be(condition);
            if is_satisfied {
                can_be_false
            } else {
                can_be_true
            }
        });
        Some(absent).filter(|absent| !absent.is_empty() && could_turn)
    }

    /// What is absent and could turn the policy: a forbid that an absence disarms is said so.
    fn absences(&self, policy: &Policy, is_satisfied: bool) -> Vec<String> {
        let absent = match self.turned_by(policy, is_satisfied) {
            Some(absent) => absent,
            None => return Vec::new(),
        };
        let names = absent.join(" and ");
        let are = if absent.len() == 1 { "is" } else { "are" };
        let line = match (policy.effect, is_satisfied) {
            (Effect::Forbid, false) => format!("    !! disarmed: it could forbid if {} were there", names),
            (Effect::Permit, false) => format!("    it could permit if {} were there", names),
            (Effect::Permit, true) => format!("    ! it permits though {} {} absent", names, are),
            (Effect::Forbid, true) => format!("    it forbids though {} {} absent", names, are),
        };
        vec![line]
    }

    /// Whether a condition could be false, and could be true, if what is absent were there with some value.
    fn could_be(&self, disjunction: &Disjunction) -> (bool, bool) {
        let conjunctions: Vec<(bool, bool)> = disjunction
            .conjunctions
            .iter()
            .map(|conjunction| {
                let parts: Vec<(bool, bool)> =
                    conjunction.conditions.iter().map(|one| self.one_could_be(one)).collect();
                (parts.iter().any(|part| part.0), parts.iter().all(|part| part.1))
            })
            .collect();
        (conjunctions.iter().all(|part| part.0), conjunctions.iter().any(|part| part.1))
    }

    fn one_could_be(&self, condition: &Condition) -> (bool, bool) {
        match condition {
            Condition::Not(inner) => {
                let (can_be_false, can_be_true) = self.one_could_be(inner);
                (can_be_true, can_be_false)
            }
            Condition::Brackets(disjunction) => self.could_be(disjunction),
            Condition::If { condition, then_part, else_part } => {
                let (can_be_false, can_be_true) = self.one_could_be(condition);
                let (then_part, else_part) = (self.one_could_be(then_part), self.one_could_be(else_part));
                let can = |part: fn(&(bool, bool)) -> bool| {
                    can_be_true && part(&then_part) || can_be_false && part(&else_part)
                };
                (can(|part| part.0), can(|part| part.1))
            }
            _ => {
                let is_open = attributes(condition).iter().any(|one| {
                    section_of(one).is_some()
                        && !path_of(self.text, one).is_empty()
                        && self.facts.attribute(one).is_none()
                });
                let truth = self.facts.condition(condition) == Ok(true);
                (is_open || !truth, is_open || truth)
            }
        }
    }
}

fn indent(depth: usize) -> String {
    "    ".repeat(depth)
}

/// A truth in words.
fn truth_text(truth: Truth) -> &'static str {
    match truth {
        Ok(true) => "true",
        Ok(false) => "false",
        Err(Missing(_)) => "missing",
    }
}

#[cfg(test)]
mod tests {
    use super::*;
    use crate::report::tests::{asked, EXAMPLE, QUESTION, REQUEST};
    use crate::rules::policy_texts;
    use definitions::compile::policies_of;

    fn of(rules: &str, choices: &[usize], answer: Answer) -> String {
        under(Version::One, rules, choices, answer)
    }

    fn under(version: Version, rules: &str, choices: &[usize], answer: Answer) -> String {
        let asked = asked(rules, QUESTION, REQUEST);
        let policies = policies_of(&asked.rules).unwrap();
        let texts = policy_texts(&asked.rules);
        let case = asked.case_of(choices).unwrap();
        let rules = Rules { text: &asked.rules, version, policies: &policies, texts: &texts };
        explained(&rules, &case, answer).join("\n")
    }

    #[test]
    fn the_hole_of_the_worked_example_is_explained() {
        let expected = "policy 1 in line 1, permit: satisfied
    target: principal is person, action, resource is shaft: matches
    principal.grade >= 3: true   (principal.grade is 3)

policy 2 in line 3, forbid: not satisfied
    target: principal, action in [\"teach\"], resource: matches
    principal.hired != \"own\": false   (principal.hired is absent)
    !! disarmed: it could forbid if principal.hired were there

Allowed by policy 1 in line 1: no forbid is satisfied, and it is the first permit that is.
No other policy is satisfied.";
        assert_eq!(of(EXAMPLE, &[1, 0], Answer::Decided { outcome: 1, policy: 1, mark: 1 }), expected);
    }

    #[test]
    fn the_other_satisfied_policies_are_named() {
        let said = of(EXAMPLE, &[1, 2], Answer::Decided { outcome: 2, policy: 2, mark: 3 });
        assert!(
            said.ends_with(
                "\nForbidden by policy 2 in line 3: it is the first forbid that is satisfied.\n\
                 Satisfied too, but not deciding: policy 1 in line 1 (permit)."
            ),
            "{}",
            said
        );
        let rules = "permit(principal,action,resource);\nforbid(principal,action,resource);\nforbid(principal,action,resource);";
        let said = of(rules, &[0, 0], Answer::Decided { outcome: 2, policy: 2, mark: 7 });
        let others = "policy 1 in line 1 (permit), policy 3 in line 3 (forbid).";
        assert!(said.ends_with(&format!("\nSatisfied too, but not deciding: {}", others)), "{}", said);
        let said = of(EXAMPLE, &[0, 0], Answer::Decided { outcome: 3, policy: 0, mark: 0 });
        assert!(said.ends_with("\nNot permitted: no policy is satisfied."), "{}", said);
        let said = of(EXAMPLE, &[0, 0], Answer::Decided { outcome: 4, policy: 0, mark: 0 });
        assert!(said.ends_with("\nYes, for the system: the rules are not looked at."), "{}", said);
    }

    #[test]
    fn conditions_show_their_parts() {
        let rules = "forbid(principal is tool,action,resource);permit(principal,action,resource)when{(principal.grade>3||!(principal has x))\
            &&if true then principal.hired==\"own\" else false};";
        let said = of(rules, &[1, 1], Answer::Decided { outcome: 1, policy: 2, mark: 2 });
        for line in [
            "    all of these must be true: true",
            "        ( principal.grade > 3 || !(principal has x) ): true",
            "            one of these must be true: true",
            "                principal.grade > 3: false   (principal.grade is 3)",
            "                not: true",
            "        then\n            principal.hired == \"own\": true",
            "Policies that are not about this request:\n    policy 1 in line 1, forbid: not principal is tool",
        ] {
            assert!(said.contains(line), "{}\n{}", line, said);
        }
    }

    /// What is said under version 2 of a permit with this condition, where the grade is 3 and hired is absent.
    fn under_2(condition: &str) -> String {
        let rules = format!("permit(principal,action,resource)when{{{}}};", condition);
        under(Version::Two, &rules, &[1, 0], Answer::Decided { outcome: 3, policy: 0, mark: 0 })
    }

    /// What is said where hired is met.
    const UNSATISFIED: &str =
        "    principal.hired is absent, and it is met: under version 2 that makes the whole policy unsatisfied\n";

    // 02, request 7: what is met and absent is said, and what is behind it is not met.
    #[test]
    fn under_version_2_the_absent_attribute_is_named() {
        let met = "principal.hired == \"own\": missing   (principal.hired is absent)\n";
        for (condition, lines) in [
            (
                "!(principal.hired==\"own\")",
                format!("    not: missing\n        ( principal.hired == \"own\" ): missing\n            {}", met),
            ),
            (
                "principal.hired==\"own\"||true",
                format!("    one of these must be true: missing\n        {}        true: not met\n", met),
            ),
            (
                "principal.grade==3&&principal.hired==\"own\"&&false",
                format!(
                    "    all of these must be true: missing\n        principal.grade == 3: true   (principal.grade is 3)\n        {}        false: not met\n",
                    met
                ),
            ),
            ("if principal.hired==\"own\" then true else true", format!("    if: missing\n        {}", met)),
        ] {
            let said = under_2(condition);
            assert!(said.contains(&format!("{}{}", lines, UNSATISFIED)), "{}\n{}", condition, said);
            assert!(said.starts_with("policy 1 in line 1, permit: not satisfied\n"), "{}", said);
        }
        // Of two attributes the one that is met first is named.
        assert!(under_2("principal.hired==principal.until").contains(UNSATISFIED));
    }

    // What is not met makes nothing missing, and `has` may meet it.
    #[test]
    fn under_version_2_what_is_not_met_does_nothing() {
        for (condition, lines) in [
            (
                "false&&principal.hired==\"own\"||principal has hired",
                "        1st: all of these must be true: false\n            false: false\n            principal.hired == \"own\": not met\n        \
                 principal has hired: false   (principal.hired is absent)\n",
            ),
            (
                "if true then false else principal.hired==\"own\"",
                "    if: false\n        true: true\n    then\n        false: false\n",
            ),
            ("principal.grade>3||principal.hired==3&&true", "        2nd: all of these must be true: missing\n"),
        ] {
            let said = under_2(condition);
            assert!(said.contains(lines), "{}\n{}", condition, said);
            assert_eq!(said.contains(UNSATISFIED), lines.contains("missing"), "{}", said);
        }
    }
}
