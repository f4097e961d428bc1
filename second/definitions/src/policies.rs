//! Policies as trees: what a rule text says, and where its paths, strings and numbers stand (01, "The rule text").

use crate::numbers::Comparator;

/// 01, "The rule text": the principal types, in this order numbered from 1.
pub const PRINCIPAL_TYPES: [&str; 2] = ["person", "tool"];
/// 01, "The rule text": the resource types, in this order numbered from 1.
pub const RESOURCE_TYPES: [&str; 4] = ["controller", "shaft", "parameter", "record"];

/// The bytes `start..end` of the text. A string's bytes have both quotes; a path's may have blanks around its dots.
#[derive(Clone, Copy, PartialEq, Eq, Debug)]
pub struct Span {
    pub start: usize,
    pub end: usize,
}

/// 02, request 7: the versions of the rules, which differ in what an absent attribute does.
#[derive(Clone, Copy, PartialEq, Eq, Debug)]
pub enum Version {
    One,
    Two,
}

impl Version {
    /// Both versions, in their order.
    pub const ALL: [Version; 2] = [Version::One, Version::Two];

    /// The version that a number names: only 1 and 2 name one.
    pub fn named(number: u64) -> Option<Version> {
        Version::ALL.into_iter().find(|version| version.number() == number)
    }

    /// The version's number.
    pub fn number(self) -> u64 {
        match self {
            Version::One => 1,
            Version::Two => 2,
        }
    }
}

/// The policies of a text, and the version that its table records. A text without policies has no version.
#[derive(Default, PartialEq, Debug)]
pub struct Set {
    pub policies: Vec<Policy>,
    pub version: Option<Version>,
}

impl Set {
    /// The set of these policies under this version.
    pub fn of(policies: Vec<Policy>, version: Version) -> Set {
        let version = if policies.is_empty() { None } else { Some(version) };
        Set { policies, version }
    }
}

/// A policy: effect, target parts, and the disjunction after `when`, if there is one.
#[derive(PartialEq, Debug)]
pub struct Policy {
    pub effect: Effect,
    pub principal: PrincipalPart,
    pub action: ActionPart,
    pub resource: ResourcePart,
    pub condition: Option<Disjunction>,
}

#[derive(Clone, Copy, PartialEq, Eq, Debug)]
pub enum Effect {
    Permit,
    Forbid,
}

/// The principal part: bare, or `is` a type.
#[derive(PartialEq, Debug)]
pub enum PrincipalPart {
    Bare,
    Is(&'static str),
}

/// The action part: bare, or `in` a list of strings.
#[derive(PartialEq, Debug)]
pub enum ActionPart {
    Bare,
    In(Vec<Span>),
}

/// The resource part: bare, `is` a type, or `==` a string.
#[derive(PartialEq, Debug)]
pub enum ResourcePart {
    Bare,
    Is(&'static str),
    Equals(Span),
}

/// A disjunction is conjunctions joined by `||`: at least one.
#[derive(PartialEq, Debug)]
pub struct Disjunction {
    pub conjunctions: Vec<Conjunction>,
}

/// A conjunction is conditions joined by `&&`: at least one.
#[derive(PartialEq, Debug)]
pub struct Conjunction {
    pub conditions: Vec<Condition>,
}

/// 01, "The rule text": a condition is one of these.
#[derive(PartialEq, Debug)]
pub enum Condition {
    Compare { left: Operand, comparator: Comparator, right: Operand },
    Like { operand: Operand, pattern: Span },
    InList { operand: Operand, list: Vec<Literal> },
    InAttribute { operand: Operand, attribute: Attribute },
    Contains { attribute: Attribute, call: Call, list: Vec<Literal> },
    Has(Attribute),
    Not(Box<Condition>),
    Brackets(Box<Disjunction>),
    If { condition: Box<Condition>, then_part: Box<Condition>, else_part: Box<Condition> },
    Flag(bool),
}

#[derive(Clone, Copy, PartialEq, Eq, Debug)]
pub enum Call {
    ContainsAll,
    ContainsAny,
}

/// An operand is an attribute or a literal.
#[derive(Clone, Copy, PartialEq, Eq, Debug)]
pub enum Operand {
    Attribute(Attribute),
    Literal(Literal),
}

/// A root and a path.
#[derive(Clone, Copy, PartialEq, Eq, Debug)]
pub struct Attribute {
    pub root: Root,
    pub path: Span,
}

#[derive(Clone, Copy, PartialEq, Eq, Debug)]
pub enum Root {
    Principal,
    Resource,
    Env,
    Action,
}

#[derive(Clone, Copy, PartialEq, Eq, Debug)]
pub enum Literal {
    String(Span),
    Number(Span),
    Flag(bool),
}
