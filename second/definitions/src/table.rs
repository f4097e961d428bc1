//! The table: the entries that say the policies and their version (01, "The table", and 02, request 7; the layout is that of
//! docs/TABLE.md).

use crate::numbers::Comparator;
use crate::policies::{
    ActionPart, Attribute, Call, Condition, Conjunction, Disjunction, Effect, Literal, Operand, Policy, PrincipalPart,
    ResourcePart, Root, Span, Version, PRINCIPAL_TYPES, RESOURCE_TYPES,
};

/// What an entry of each kind is; kind 0 is not used.
pub const KINDS: [&str; 38] = [
    "",
    "attribute of principal",
    "attribute of resource",
    "attribute of env",
    "attribute of action",
    "principal has",
    "resource has",
    "env has",
    "action has",
    "string",
    "number",
    "true",
    "false",
    "==",
    "!=",
    ">",
    ">=",
    "<",
    "<=",
    "like",
    "in a list",
    "in an attribute",
    "containsAll",
    "containsAny",
    "!",
    "brackets",
    "&&",
    "||",
    "if",
    "bare principal or resource",
    "is a type",
    "resource ==",
    "bare action",
    "action in",
    "permit",
    "forbid",
    "bare principal, version 2",
    "principal is a type, version 2",
];

const ATTRIBUTE_OF_PRINCIPAL: u8 = 1;
const PRINCIPAL_HAS: u8 = 5;
const STRING: u8 = 9;
const NUMBER: u8 = 10;
const TRUE: u8 = 11;
const FALSE: u8 = 12;
const LIKE: u8 = 19;
const IN_LIST: u8 = 20;
const IN_ATTRIBUTE: u8 = 21;
const CONTAINS_ALL: u8 = 22;
const CONTAINS_ANY: u8 = 23;
const NOT: u8 = 24;
const BRACKETS: u8 = 25;
const AND: u8 = 26;
const OR: u8 = 27;
const IF: u8 = 28;
const BARE: u8 = 29;
const IS: u8 = 30;
const RESOURCE_EQUALS: u8 = 31;
const BARE_ACTION: u8 = 32;
const ACTION_IN: u8 = 33;
pub const PERMIT: u8 = 34;
pub const FORBID: u8 = 35;
const BARE_PRINCIPAL_TWO: u8 = 36;
const PRINCIPAL_IS_TWO: u8 = 37;

/// One entry: a kind and two fields.
#[derive(Clone, Copy, PartialEq, Eq, Debug)]
pub struct Entry {
    pub kind: u8,
    pub first: usize,
    pub second: usize,
}

/// The bytes of an entry: the kind, then each field in 2 bytes, little-endian.
pub const ENTRY_BYTES: usize = 5;

/// The entries of the policies under a version, one policy after the other.
pub fn entries_of(policies: &[Policy], version: Version) -> Vec<Entry> {
    let mut entries = Entries { version, written: Vec::new() };
    for policy in policies {
        entries.put_policy(policy);
    }
    entries.written
}

/// The table's bytes.
pub fn bytes_of(entries: &[Entry]) -> Vec<u8> {
    let mut bytes = Vec::new();
    for entry in entries {
        bytes.push(entry.kind);
        for field in [entry.first, entry.second] {
            let field = u16::try_from(field).expect("a text has at most 8,192 bytes, and fewer entries");
            bytes.extend_from_slice(&field.to_le_bytes());
        }
    }
    bytes
}

/// The version that a table records: its first entry is that of a principal part, and the kind of that tells it.
pub fn recorded_version(table: &[u8]) -> Option<Version> {
    match *table.first()? {
        BARE | IS => Some(Version::One),
        BARE_PRINCIPAL_TWO | PRINCIPAL_IS_TWO => Some(Version::Two),
        _ => None,
    }
}

struct Entries {
    version: Version,
    written: Vec<Entry>,
}

impl Entries {
    /// The number that the next entry will have.
    fn next(&self) -> usize {
        self.written.len()
    }

    fn put(&mut self, kind: u8, first: usize, second: usize) {
        self.written.push(Entry { kind, first, second });
    }

    fn put_span(&mut self, kind: u8, span: Span) {
        self.put(kind, span.start, span.end);
    }

    /// The target's parts, the condition's entries, and last the policy's own entry.
    fn put_policy(&mut self, policy: &Policy) {
        let policy_start = self.next();
        self.put_principal(&policy.principal);
        match &policy.action {
            ActionPart::Bare => self.put(BARE_ACTION, 0, 0),
            ActionPart::In(strings) => {
                for string in strings {
                    self.put_span(STRING, *string);
                }
                self.put(ACTION_IN, strings.len(), 0);
            }
        }
        match &policy.resource {
            ResourcePart::Bare => self.put(BARE, 0, 0),
            ResourcePart::Is(name) => self.put(IS, number_of_type(&RESOURCE_TYPES, name), 0),
            ResourcePart::Equals(string) => self.put_span(RESOURCE_EQUALS, *string),
        }
        let after_target = self.next();
        if let Some(condition) = &policy.condition {
            self.put_disjunction(condition);
        }
        let kind = match policy.effect {
            Effect::Permit => PERMIT,
            Effect::Forbid => FORBID,
        };
        self.put(kind, policy_start, after_target);
    }

    /// The principal part, whose kind records the version.
    fn put_principal(&mut self, part: &PrincipalPart) {
        let (bare, is) = match self.version {
            Version::One => (BARE, IS),
            Version::Two => (BARE_PRINCIPAL_TWO, PRINCIPAL_IS_TWO),
        };
        match part {
            PrincipalPart::Bare => self.put(bare, 0, 0),
            PrincipalPart::Is(name) => self.put(is, number_of_type(&PRINCIPAL_TYPES, name), 0),
        }
    }

    /// Conjunctions joined from the left: the left part, the right part, and the number of the right part's first entry.
    fn put_disjunction(&mut self, disjunction: &Disjunction) {
        for (index, conjunction) in disjunction.conjunctions.iter().enumerate() {
            let after_left = self.next();
            self.put_conjunction(conjunction);
            if index > 0 {
                self.put(OR, after_left, 0);
            }
        }
    }

    /// Conditions joined from the left, likewise.
    fn put_conjunction(&mut self, conjunction: &Conjunction) {
        for (index, condition) in conjunction.conditions.iter().enumerate() {
            let after_left = self.next();
            self.put_condition(condition);
            if index > 0 {
                self.put(AND, after_left, 0);
            }
        }
    }

    fn put_condition(&mut self, condition: &Condition) {
        match condition {
            Condition::Compare { left, comparator, right } => {
                self.put_operand(left);
                self.put_operand(right);
                self.put(kind_of_comparator(*comparator), 0, 0);
            }
            Condition::Like { operand, pattern } => {
                self.put_operand(operand);
                self.put_span(LIKE, *pattern);
            }
            Condition::InList { operand, list } => {
                self.put_operand(operand);
                self.put_list(IN_LIST, list);
            }
            Condition::InAttribute { operand, attribute } => {
                self.put_operand(operand);
                self.put_attribute(ATTRIBUTE_OF_PRINCIPAL, attribute);
                self.put(IN_ATTRIBUTE, 0, 0);
            }
            Condition::Contains { attribute, call, list } => {
                self.put_attribute(ATTRIBUTE_OF_PRINCIPAL, attribute);
                match call {
                    Call::ContainsAll => self.put_list(CONTAINS_ALL, list),
                    Call::ContainsAny => self.put_list(CONTAINS_ANY, list),
                }
            }
            Condition::Has(attribute) => self.put_attribute(PRINCIPAL_HAS, attribute),
            Condition::Not(condition) => {
                self.put_condition(condition);
                self.put(NOT, 0, 0);
            }
            Condition::Brackets(disjunction) => {
                self.put_disjunction(disjunction);
                self.put(BRACKETS, 0, 0);
            }
            Condition::If { condition, then_part, else_part } => {
                self.put_condition(condition);
                let after_condition = self.next();
                self.put_condition(then_part);
                let after_then = self.next();
                self.put_condition(else_part);
                self.put(IF, after_condition, after_then);
            }
            Condition::Flag(flag) => self.put_literal(&Literal::Flag(*flag)),
        }
    }

    /// The literals in order, then an entry with their number.
    fn put_list(&mut self, kind: u8, list: &[Literal]) {
        for literal in list {
            self.put_literal(literal);
        }
        self.put(kind, list.len(), 0);
    }

    fn put_operand(&mut self, operand: &Operand) {
        match operand {
            Operand::Attribute(attribute) => self.put_attribute(ATTRIBUTE_OF_PRINCIPAL, attribute),
            Operand::Literal(literal) => self.put_literal(literal),
        }
    }

    fn put_literal(&mut self, literal: &Literal) {
        match literal {
            Literal::String(span) => self.put_span(STRING, *span),
            Literal::Number(span) => self.put_span(NUMBER, *span),
            Literal::Flag(true) => self.put(TRUE, 0, 0),
            Literal::Flag(false) => self.put(FALSE, 0, 0),
        }
    }

    /// The kinds for principal, resource, env and action follow one another.
    fn put_attribute(&mut self, kind_for_principal: u8, attribute: &Attribute) {
        let kind = match attribute.root {
            Root::Principal => kind_for_principal,
            Root::Resource => kind_for_principal + 1,
            Root::Env => kind_for_principal + 2,
            Root::Action => kind_for_principal + 3,
        };
        self.put_span(kind, attribute.path);
    }
}

fn number_of_type(types: &[&str], name: &str) -> usize {
    types.iter().position(|known| *known == name).expect("the tree holds known types only") + 1
}

fn kind_of_comparator(comparator: Comparator) -> u8 {
    match comparator {
        Comparator::Equal => 13,
        Comparator::NotEqual => 14,
        Comparator::Greater => 15,
        Comparator::GreaterOrEqual => 16,
        Comparator::Less => 17,
        Comparator::LessOrEqual => 18,
    }
}

#[cfg(test)]
mod tests {
    use super::*;
    use crate::compile::policies_of;

    fn entries_under(text: &str, version: Version) -> Vec<(u8, usize, usize)> {
        let policies = policies_of(text.as_bytes()).unwrap();
        entries_of(&policies, version).iter().map(|entry| (entry.kind, entry.first, entry.second)).collect()
    }

    fn entries(text: &str) -> Vec<(u8, usize, usize)> {
        entries_under(text, Version::One)
    }

    /// The entries of a condition; the condition's text begins at 0, its entries at 3.
    fn entries_of_condition(condition: &str) -> Vec<(u8, usize, usize)> {
        let before = "permit(principal,action,resource)when{";
        let all = entries(&format!("{}{}}};", before, condition));
        let of_condition = &all[3..all.len() - 1];
        let from_text = |entry: &(u8, usize, usize)| match entry.0 {
            1..=10 | 19 => (entry.0, entry.1 - before.len(), entry.2 - before.len()),
            _ => *entry,
        };
        of_condition.iter().map(from_text).collect()
    }

    #[test]
    fn no_policies_use_no_bytes() {
        assert_eq!(entries(""), vec![]);
        assert_eq!(entries(" \n"), vec![]);
        assert_eq!(bytes_of(&[]), vec![]);
    }

    #[test]
    fn an_entry_has_five_bytes() {
        let entries = [Entry { kind: 34, first: 0x0102, second: 0x0304 }, Entry { kind: 29, first: 7, second: 0 }];
        assert_eq!(bytes_of(&entries), vec![34, 2, 1, 4, 3, 29, 7, 0, 0, 0]);
    }

    #[test]
    fn targets_are_written_as_said() {
        assert_eq!(entries("permit(principal,action,resource);"), vec![(29, 0, 0), (32, 0, 0), (29, 0, 0), (34, 0, 3)]);
        assert_eq!(
            entries("forbid(principal is tool,action in[\"a\",\"bc\"],resource is record);"),
            vec![(30, 2, 0), (9, 35, 38), (9, 39, 43), (33, 2, 0), (30, 4, 0), (35, 0, 5)]
        );
        assert_eq!(
            entries(
                "permit(principal is person,action,resource==\"x\")when{true};\nforbid(principal,action,resource);"
            ),
            vec![
                (30, 1, 0),
                (32, 0, 0),
                (31, 44, 47),
                (11, 0, 0),
                (34, 0, 3),
                (29, 0, 0),
                (32, 0, 0),
                (29, 0, 0),
                (35, 5, 8),
            ]
        );
        for (number, name) in ["controller", "shaft", "parameter", "record"].iter().enumerate() {
            let text = format!("permit(principal,action,resource is {});", name);
            assert_eq!(entries(&text)[2], (30, number + 1, 0));
        }
    }

    // 02, request 7: the principal part of every policy records the version, and no other entry differs.
    #[test]
    fn principal_parts_record_the_version() {
        let text = "permit(principal,action,resource)when{env.a==1};forbid(principal is tool,action in[\"a\"],resource is record);\
            permit(principal is person,action,resource==\"x\");";
        let one = entries_under(text, Version::One);
        let mut two = entries_under(text, Version::Two);
        for (place, kinds) in [(0, (29, 36)), (7, (30, 37)), (12, (30, 37))] {
            assert_eq!((one[place].0, two[place].0), kinds);
            two[place].0 -= 7;
        }
        assert_eq!(one, two);
        assert_eq!(entries_under(" ", Version::Two), vec![]);
    }

    #[test]
    fn the_first_entry_tells_the_version() {
        for kind in 0..=u8::MAX {
            let recorded = recorded_version(&[kind, 0, 0, 0, 0]).map(Version::number);
            let expected = match kind {
                29 | 30 => Some(1),
                36 | 37 => Some(2),
                _ => None,
            };
            assert_eq!(recorded, expected, "{}", kind);
        }
        assert_eq!(recorded_version(&[]), None);
    }

    #[test]
    fn operands_and_comparisons_are_written_as_said() {
        assert_eq!(entries_of_condition("principal.a==1"), vec![(1, 10, 11), (10, 13, 14), (13, 0, 0)]);
        assert_eq!(entries_of_condition("resource . a\n. bc!=env.x"), vec![(2, 11, 17), (3, 23, 24), (14, 0, 0)]);
        assert_eq!(entries_of_condition("\"x\">action.name"), vec![(9, 0, 3), (4, 11, 15), (15, 0, 0)]);
        assert_eq!(entries_of_condition("true>=false"), vec![(11, 0, 0), (12, 0, 0), (16, 0, 0)]);
        assert_eq!(entries_of_condition("-1.5<0"), vec![(10, 0, 4), (10, 5, 6), (17, 0, 0)]);
        assert_eq!(entries_of_condition("1<=0"), vec![(10, 0, 1), (10, 3, 4), (18, 0, 0)]);
        assert_eq!(entries_of_condition("1 like\"*\""), vec![(10, 0, 1), (19, 6, 9)]);
        assert_eq!(
            entries_of_condition("1 in[true,2,\"\"]"),
            vec![(10, 0, 1), (11, 0, 0), (10, 10, 11), (9, 12, 14), (20, 3, 0)]
        );
        assert_eq!(entries_of_condition("1 in env.a"), vec![(10, 0, 1), (3, 9, 10), (21, 0, 0)]);
        assert_eq!(entries_of_condition("env.a.containsAll([1])"), vec![(3, 4, 5), (10, 19, 20), (22, 1, 0)]);
        assert_eq!(entries_of_condition("env.a . containsAny([1])"), vec![(3, 4, 5), (10, 21, 22), (23, 1, 0)]);
        for (kind, root) in ["principal", "resource", "env"].iter().enumerate() {
            let start = root.len() + 5;
            let text = format!("{} has a . b", root);
            assert_eq!(entries_of_condition(&text), vec![(5 + kind as u8, start, start + 5)]);
        }
        assert_eq!(entries_of_condition("action has name"), vec![(8, 11, 15)]);
        assert_eq!(entries_of_condition("false"), vec![(12, 0, 0)]);
    }

    // Numbers of entries count from the text's first entry; the condition begins with entry 3.
    #[test]
    fn joined_conditions_are_written_as_said() {
        assert_eq!(entries_of_condition("!true"), vec![(11, 0, 0), (24, 0, 0)]);
        assert_eq!(entries_of_condition("(true)"), vec![(11, 0, 0), (25, 0, 0)]);
        assert_eq!(
            entries_of_condition("true&&false&&true"),
            vec![(11, 0, 0), (12, 0, 0), (26, 4, 0), (11, 0, 0), (26, 6, 0)]
        );
        assert_eq!(
            entries_of_condition("true||false&&true||true"),
            vec![(11, 0, 0), (12, 0, 0), (11, 0, 0), (26, 5, 0), (27, 4, 0), (11, 0, 0), (27, 8, 0)]
        );
        assert_eq!(
            entries_of_condition("if !true then false else (true)"),
            vec![(11, 0, 0), (24, 0, 0), (12, 0, 0), (11, 0, 0), (25, 0, 0), (28, 5, 6)]
        );
    }

    #[test]
    fn every_kind_has_its_name() {
        let text = "permit(principal is tool,action in[\"a\"],resource==\"b\")when{!(1 in[1])||if env has a then 1<2 else true};";
        let kinds: Vec<&str> = entries(text).iter().map(|entry| KINDS[usize::from(entry.0)]).collect();
        let expected = [
            "is a type", "string", "action in", "resource ==", "number", "number", "in a list", "brackets", "!",
            "env has", "number", "number", "<", "true", "if", "||", "permit",
        ];
        assert_eq!(kinds, expected);
        let first = |text: &str| KINDS[usize::from(entries_under(text, Version::Two)[0].0)];
        assert_eq!(first("permit(principal,action,resource);"), "bare principal, version 2");
        assert_eq!(first("permit(principal is tool,action,resource);"), "principal is a type, version 2");
    }
}
