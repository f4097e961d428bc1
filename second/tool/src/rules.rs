//! The policies of a rule text as they stand there, and conditions written out.

use definitions::bags::path_without_blanks;
use definitions::numbers::Comparator;
use definitions::policies::{
    ActionPart, Attribute, Call, Condition, Conjunction, Disjunction, Effect, Literal, Operand, Policy, PrincipalPart,
    ResourcePart, Root, Span,
};
use definitions::tokens::{all_tokens, place_of};

use crate::writing::shown;

/// A policy as it stands in its text.
#[derive(Clone, PartialEq, Debug)]
pub struct PolicyText {
    pub number: usize,
    /// Its first and last line, from 1.
    pub line: usize,
    pub last_line: usize,
    /// Its lines, from its first byte to its semicolon.
    pub lines: Vec<String>,
    /// Its tokens with single blanks between: alike for the same policy, however it is laid out.
    pub tokens: Vec<u8>,
}

impl PolicyText {
    /// `permit` or `forbid`, as its first token says.
    pub fn effect(&self) -> &'static str {
        if self.tokens.starts_with(b"forbid") {
            "forbid"
        } else {
            "permit"
        }
    }
}

/// The policies of a text that compiles. Each ends with a semicolon, which stands nowhere else.
pub fn policy_texts(text: &[u8]) -> Vec<PolicyText> {
    let mut policies: Vec<PolicyText> = Vec::new();
    let mut start = None;
    let mut tokens = Vec::new();
    for token in all_tokens(text) {
        let begun = *start.get_or_insert(token.start);
        tokens.push(&text[token.start..token.end]);
        if token.kind == b';' {
            let policy = &text[begun..token.end];
            let lines = policy.split(|byte| *byte == b'\n').map(|line| shown(line.strip_suffix(b"\r").unwrap_or(line)));
            policies.push(PolicyText {
                number: policies.len() + 1,
                line: place_of(text, begun).line,
                last_line: place_of(text, token.start).line,
                lines: lines.map(|line| line.trim_end().to_string()).collect(),
                tokens: tokens.join(&b' '),
            });
            start = None;
            tokens.clear();
        }
    }
    policies
}

/// A policy's lines, indented.
pub fn condition_lines(policy: &PolicyText) -> Vec<String> {
    policy.lines.iter().map(|line| format!("    {}", line)).collect()
}

/// An attribute's root as the index of its section; nothing for `action`.
pub fn section_of(attribute: &Attribute) -> Option<usize> {
    match attribute.root {
        Root::Principal => Some(0),
        Root::Resource => Some(1),
        Root::Env => Some(2),
        Root::Action => None,
    }
}

/// An attribute's path without blanks.
pub fn path_of(text: &[u8], attribute: &Attribute) -> Vec<u8> {
    path_without_blanks(&text[attribute.path.start..attribute.path.end])
}

/// An attribute as it is written, without blanks.
pub fn attribute_text(text: &[u8], attribute: &Attribute) -> String {
    let root = match attribute.root {
        Root::Principal => "principal",
        Root::Resource => "resource",
        Root::Env => "env",
        Root::Action => "action",
    };
    format!("{}.{}", root, shown(&path_of(text, attribute)))
}

fn span_text(text: &[u8], span: Span) -> String {
    shown(&text[span.start..span.end])
}

/// A string's bytes between its quotes.
pub fn inside(text: &[u8], string: Span) -> &[u8] {
    &text[string.start + 1..string.end - 1]
}

fn literal_text(text: &[u8], literal: &Literal) -> String {
    match literal {
        Literal::String(span) | Literal::Number(span) => span_text(text, *span),
        Literal::Flag(flag) => flag.to_string(),
    }
}

fn operand_text(text: &[u8], operand: &Operand) -> String {
    match operand {
        Operand::Attribute(attribute) => attribute_text(text, attribute),
        Operand::Literal(literal) => literal_text(text, literal),
    }
}

fn list_text(text: &[u8], list: &[Literal]) -> String {
    let literals: Vec<String> = list.iter().map(|literal| literal_text(text, literal)).collect();
    format!("[{}]", literals.join(", "))
}

fn comparator_text(comparator: Comparator) -> &'static str {
    match comparator {
        Comparator::Less => "<",
        Comparator::LessOrEqual => "<=",
        Comparator::Greater => ">",
        Comparator::GreaterOrEqual => ">=",
        Comparator::Equal => "==",
        Comparator::NotEqual => "!=",
    }
}

/// A condition written out in one line.
pub fn condition_text(text: &[u8], condition: &Condition) -> String {
    match condition {
        Condition::Compare { left, comparator, right } => {
            format!("{} {} {}", operand_text(text, left), comparator_text(*comparator), operand_text(text, right))
        }
        Condition::Like { operand, pattern } => {
            format!("{} like {}", operand_text(text, operand), span_text(text, *pattern))
        }
        Condition::InList { operand, list } => format!("{} in {}", operand_text(text, operand), list_text(text, list)),
        Condition::InAttribute { operand, attribute } => {
            format!("{} in {}", operand_text(text, operand), attribute_text(text, attribute))
        }
        Condition::Contains { attribute, call, list } => {
            let call = if *call == Call::ContainsAll { "containsAll" } else { "containsAny" };
            format!("{}.{}({})", attribute_text(text, attribute), call, list_text(text, list))
        }
        Condition::Has(attribute) => attribute_text(text, attribute).replacen('.', " has ", 1),
        Condition::Not(condition) => format!("!{}", condition_text(text, condition)),
        Condition::Brackets(disjunction) => format!("({})", disjunction_text(text, disjunction)),
        Condition::If { condition, then_part, else_part } => format!(
            "if {} then {} else {}",
            condition_text(text, condition),
            condition_text(text, then_part),
            condition_text(text, else_part)
        ),
        Condition::Flag(flag) => flag.to_string(),
    }
}

/// Conditions joined by `&&`, written out in one line.
pub fn conjunction_text(text: &[u8], conjunction: &Conjunction) -> String {
    let conditions: Vec<String> = conjunction.conditions.iter().map(|one| condition_text(text, one)).collect();
    conditions.join(" && ")
}

/// Conditions joined by `&&` and `||`, written out in one line.
pub fn disjunction_text(text: &[u8], disjunction: &Disjunction) -> String {
    let conjunctions: Vec<String> = disjunction.conjunctions.iter().map(|one| conjunction_text(text, one)).collect();
    conjunctions.join(" || ")
}

/// `permit` or `forbid`.
pub fn effect_text(policy: &Policy) -> &'static str {
    match policy.effect {
        Effect::Permit => "permit",
        Effect::Forbid => "forbid",
    }
}

/// The three parts of a policy's target, written out.
pub fn target_texts(text: &[u8], policy: &Policy) -> [String; 3] {
    let principal = match policy.principal {
        PrincipalPart::Bare => "principal".to_string(),
        PrincipalPart::Is(name) => format!("principal is {}", name),
    };
    let action = match &policy.action {
        ActionPart::Bare => "action".to_string(),
        ActionPart::In(strings) => {
            let strings: Vec<String> = strings.iter().map(|string| span_text(text, *string)).collect();
            format!("action in [{}]", strings.join(", "))
        }
    };
    let resource = match &policy.resource {
        ResourcePart::Bare => "resource".to_string(),
        ResourcePart::Is(name) => format!("resource is {}", name),
        ResourcePart::Equals(string) => format!("resource == {}", span_text(text, *string)),
    };
    [principal, action, resource]
}

/// The conditions of a policy that hold no other.
pub fn leaves(policy: &Policy) -> Vec<&Condition> {
    let mut leaves = Vec::new();
    if let Some(disjunction) = &policy.condition {
        add_leaves(disjunction, &mut leaves);
    }
    leaves
}

fn add_leaves<'a>(disjunction: &'a Disjunction, leaves: &mut Vec<&'a Condition>) {
    for condition in disjunction.conjunctions.iter().flat_map(|conjunction| &conjunction.conditions) {
        add_leaves_of(condition, leaves);
    }
}

fn add_leaves_of<'a>(condition: &'a Condition, leaves: &mut Vec<&'a Condition>) {
    match condition {
        Condition::Not(inner) => add_leaves_of(inner, leaves),
        Condition::Brackets(disjunction) => add_leaves(disjunction, leaves),
        Condition::If { condition, then_part, else_part } => {
            for part in [condition, then_part, else_part] {
                add_leaves_of(part, leaves);
            }
        }
        _ => leaves.push(condition),
    }
}

/// The attributes that a condition without parts asks for.
pub fn attributes(condition: &Condition) -> Vec<Attribute> {
    let of = |operand: &Operand| match operand {
        Operand::Attribute(attribute) => Some(*attribute),
        Operand::Literal(_) => None,
    };
    match condition {
        Condition::Compare { left, right, .. } => [of(left), of(right)].into_iter().flatten().collect(),
        Condition::Like { operand, .. } | Condition::InList { operand, .. } => of(operand).into_iter().collect(),
        Condition::InAttribute { operand, attribute } => of(operand).into_iter().chain([*attribute]).collect(),
        Condition::Contains { attribute, .. } | Condition::Has(attribute) => vec![*attribute],
        _ => Vec::new(),
    }
}

#[cfg(test)]
mod tests {
    use super::*;
    use definitions::compile::policies_of;

    #[test]
    fn policies_have_lines_and_tokens() {
        let text = b"permit(principal,action,resource);forbid\r\n(principal,action,resource)\nwhen{env.a==\";\"};  ";
        let lines: Vec<(usize, usize, usize, String)> = policy_texts(text)
            .into_iter()
            .map(|policy| (policy.number, policy.line, policy.last_line, policy.lines[0].clone()))
            .collect();
        let first = "permit(principal,action,resource);".to_string();
        assert_eq!(lines, [(1, 1, 1, first), (2, 1, 3, "forbid".to_string())]);
        assert!(policy_texts(b" \n").is_empty());
        assert_eq!(policy_texts(b"permit (principal,action ,resource);")[0].tokens, policy_texts(text)[0].tokens);
    }

    #[test]
    fn conditions_are_written_out() {
        for condition in [
            "principal.grade >= 3 && \"teach\" in principal.trained || !(env.a == true)",
            "if principal has site then principal.site like \"a*\" else action.name != \"x\"",
            "resource.l.containsAll([\"a\", 1]) && env.n in [1, -2.5, false] && true",
        ] {
            let text =
                format!("permit(principal is tool,action in[\"a\"],resource==\"shaft:1\")when{{{}}};", condition);
            let policies = policies_of(text.as_bytes()).unwrap();
            let written = disjunction_text(text.as_bytes(), policies[0].condition.as_ref().unwrap());
            assert_eq!(written, condition);
            let targets = ["principal is tool", "action in [\"a\"]", "resource == \"shaft:1\""];
            assert_eq!(target_texts(text.as_bytes(), &policies[0]), targets);
        }
    }
}
