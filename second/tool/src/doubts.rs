//! Doubts: what the desk answers rightly and yet was hardly meant. They are warnings; the desk's answer stays.

use definitions::bags::Content;
use definitions::characters::is_utf8;
use definitions::deciding::Facts;
use definitions::numbers::Comparator;
use definitions::patterns::like;
use definitions::policies::{ActionPart, Attribute, Condition, Effect, Literal, Operand, Policy, Root, Version};

use crate::asked::{file_name, Asked};
use crate::form::{attribute, PARTS};
use crate::rules::{attributes, condition_text, inside, leaves, path_of, section_of};
use crate::words::ranges;
use crate::writing::{quoted, shown};

/// All doubts about requests that are asked together: each once, with the numbers of those that it is about. What is doubtful of all, but
/// maybe the system's, which need no rules, is said without.
pub fn doubts_of_all(asked: &Asked, policies: &[Policy]) -> Vec<String> {
    let mut all: Vec<(String, Vec<usize>)> = Vec::new();
    let mut by_rules = Vec::new();
    let mut twice = Vec::new();
    for (index, request) in asked.requests.iter().enumerate() {
        let one = Asked { request: request.clone(), ..asked.clone() };
        for doubt in doubts(&one, policies) {
            match all.iter_mut().find(|(other, _)| *other == doubt) {
                Some((_, numbers)) => numbers.push(index + 1),
                None => all.push((doubt, vec![index + 1])),
            }
        }
        if !one.request().is_of_system() {
            by_rules.push(index + 1);
        }
        if let Some(same) = asked.requests[..index].iter().position(|other| other == request) {
            twice.push(format!(
                "request {} is the same as request {}: the sums count its rows twice",
                index + 1,
                same + 1
            ));
        }
    }
    let said = all.into_iter().map(|(doubt, numbers)| match numbers.len() {
        many if many == asked.requests.len() || numbers == by_rules => doubt,
        1 => format!("request {}: {}", ranges(&numbers), doubt),
        _ => format!("requests {}: {}", ranges(&numbers), doubt),
    });
    said.chain(twice).collect()
}

/// All doubts about what is asked, the policies being those of its rules.
pub fn doubts(asked: &Asked, policies: &[Policy]) -> Vec<String> {
    let mut doubts = doubts_of_parts(asked);
    if asked.request().is_of_system() {
        doubts.push("the subject is system: the answer is yes without a look at the rules".to_string());
        return doubts;
    }
    if policies.is_empty() {
        doubts.push(format!("{} has no policy: nothing is allowed", asked.rules_name));
        return doubts;
    }
    doubts.extend(doubt_of_action(asked, policies));
    doubts.extend(doubts_of_target(asked, policies));
    doubts.extend(doubts_of_attributes(asked, policies));
    doubts.extend(doubts_of_kinds(asked, policies));
    doubts.extend(doubts_of_characters(asked, policies));
    doubts
}

/// Blanks and carriage returns at the ends of the request's parts.
fn doubts_of_parts(asked: &Asked) -> Vec<String> {
    let mut doubts = Vec::new();
    for (part, value) in PARTS.iter().zip(&asked.request) {
        let is_blank = |byte: Option<&u8>| byte.map_or(false, |byte| matches!(byte, b' ' | b'\t'));
        if value.ends_with(b"\r") {
            let mend = match &asked.request_file {
                Some((name, _)) => format!("save {} with plain line feeds", file_name(name)),
                None => format!("take it out of {}", file_name(&asked.name)),
            };
            doubts.push(format!("the {} ends with a carriage return, {}: {}", part, quoted(value), mend));
        } else if is_blank(value.first()) || is_blank(value.last()) {
            doubts.push(format!("the {} begins or ends with a blank, {}: it is compared with it", part, quoted(value)));
        }
    }
    doubts
}

/// An action that no policy names, where policies name actions.
fn doubt_of_action(asked: &Asked, policies: &[Policy]) -> Option<String> {
    let text = &asked.rules;
    let mut named: Vec<String> = Vec::new();
    let action = &asked.request[1];
    let mut is_named = false;
    let mut add = |name: &[u8]| {
        is_named |= name == &action[..];
        if !named.contains(&shown(name)) {
            named.push(shown(name));
        }
    };
    let mut by_pattern = false;
    for policy in policies {
        if let ActionPart::In(strings) = &policy.action {
            strings.iter().for_each(|string| add(inside(text, *string)));
        }
        for leaf in leaves(policy) {
            if !attributes(leaf).iter().any(|attribute| attribute.root == Root::Action) {
                continue;
            }
            if let Condition::Like { pattern, .. } = leaf {
                by_pattern |= like(inside(text, *pattern), action);
            }
            for literal in literals(leaf) {
                if let Literal::String(span) = literal {
                    add(inside(text, span));
                }
            }
        }
    }
    if is_named || by_pattern || named.is_empty() {
        return None;
    }
    let near = nearest(&shown(action), &named);
    Some(format!("no policy names the action {}{}", quoted(action), near))
}

/// A request that no permit's target matches, and which part is at fault if one alone is.
fn doubts_of_target(asked: &Asked, policies: &[Policy]) -> Vec<String> {
    let none = |_: u8, _: &[u8]| None;
    let facts = Facts { text: &asked.rules, version: asked.known_version(), request: asked.request(), look_up: &none };
    let matches = |policy: &Policy| {
        policy.effect == Effect::Permit
            && facts.principal_matches(&policy.principal)
            && facts.action_matches(&policy.action)
            && facts.resource_matches(&policy.resource)
    };
    let mut doubts = Vec::new();
    let [subject, _, resource] = &asked.request;
    if !policies.iter().any(|policy| facts.principal_matches(&policy.principal)) {
        doubts.push(format!("no policy is about such a subject as {}: all are about another type", quoted(subject)));
    }
    if !policies.iter().any(|policy| facts.resource_matches(&policy.resource)) {
        doubts.push(format!("no policy is about such a resource as {}", quoted(resource)));
    }
    if doubts.is_empty() && !policies.iter().any(matches) {
        doubts.push("no permit's target matches this request, so nothing can be allowed".to_string());
    }
    doubts
}

/// Attributes that the question gives and no policy asks for, and those that policies ask for and the question gives nowhere.
fn doubts_of_attributes(asked: &Asked, policies: &[Policy]) -> Vec<String> {
    let mut named: Vec<(usize, Vec<u8>, usize)> = Vec::new();
    for (index, policy) in policies.iter().enumerate() {
        for asked_for in leaves(policy).into_iter().flat_map(attributes) {
            if let Some(root) = section_of(&asked_for) {
                named.push((root, path_of(&asked.rules, &asked_for), index + 1));
            }
        }
    }
    let names: Vec<String> = named.iter().map(|(root, path, _)| attribute(*root, path)).collect();
    let is_named = |root: usize, path: &[u8]| named.iter().any(|(r, p, _)| *r == root && p == path);
    let mut doubts = Vec::new();
    for (root, section) in asked.form.sections.iter().enumerate() {
        for path in section.keys().filter(|path| !is_named(root, path)) {
            let name = attribute(root, path);
            doubts.push(format!("no policy asks for {}{}", name, nearest(&name, &names)));
        }
    }
    for column in asked.form.columns.iter().flatten().filter(|column| !is_named(column.root, &column.path)) {
        let name = column.name();
        doubts.push(format!("no policy asks for the column {}, so it changes nothing{}", name, nearest(&name, &names)));
    }
    doubts.extend(doubts_of_missing(asked, policies));
    doubts
}

/// What a policy that is about this request asks for, and the question gives nowhere.
fn doubts_of_missing(asked: &Asked, policies: &[Policy]) -> Vec<String> {
    let none = |_: u8, _: &[u8]| None;
    let facts = Facts { text: &asked.rules, version: asked.known_version(), request: asked.request(), look_up: &none };
    let mut missing: Vec<(String, Vec<usize>)> = Vec::new();
    for (index, policy) in policies.iter().enumerate() {
        let is_about = facts.principal_matches(&policy.principal)
            && facts.action_matches(&policy.action)
            && facts.resource_matches(&policy.resource);
        for asked_for in leaves(policy).into_iter().flat_map(attributes).filter(|_| is_about) {
            let root = match section_of(&asked_for) {
                Some(root) => root,
                None => continue,
            };
            let path = path_of(&asked.rules, &asked_for);
            if !asked.values(root, &path).0.is_empty() {
                continue;
            }
            let name = attribute(root, &path);
            match missing.iter_mut().find(|(other, _)| *other == name) {
                Some((_, numbers)) if !numbers.contains(&(index + 1)) => numbers.push(index + 1),
                Some(_) => {}
                None => missing.push((name, vec![index + 1])),
            }
        }
    }
    let said = missing.into_iter().map(|(name, numbers)| {
        let numbers: Vec<String> = numbers.iter().map(usize::to_string).collect();
        let (policy, asks) = if numbers.len() == 1 { ("policy", "asks") } else { ("policies", "ask") };
        let absent = if asked.is_bag() { "it is absent" } else { "it is absent in every row" };
        format!("{} {} {} for {}, which is given nowhere: {}", policy, numbers.join(", "), asks, name, absent)
    });
    said.collect()
}

/// Comparisons that no value of the question can meet, because all are of another kind.
fn doubts_of_kinds(asked: &Asked, policies: &[Policy]) -> Vec<String> {
    let mut doubts = Vec::new();
    for (index, policy) in policies.iter().enumerate() {
        for leaf in leaves(policy) {
            for (asked_for, kinds) in wanted_kinds(leaf) {
                let values = match section_of(&asked_for) {
                    Some(root) => asked.values(root, &path_of(&asked.rules, &asked_for)).0,
                    None => continue,
                };
                if !values.is_empty() && !values.iter().any(|value| kinds.contains(&kind_of(value))) {
                    let name = crate::rules::attribute_text(&asked.rules, &asked_for);
                    let kinds = kinds.join(" or ");
                    // Under version 2 it may be missing, where something is absent.
                    let truth = match (asked.known_version(), asked.is_bag()) {
                        (Version::One, true) => "false",
                        (Version::One, false) => "always false",
                        (Version::Two, true) => "not true",
                        (Version::Two, false) => "never true",
                    };
                    let never = if asked.is_bag() {
                        format!("{} is not {}: the comparison is {}", name, kinds, truth)
                    } else {
                        format!("{} is never {} in this question: the comparison is {}", name, kinds, truth)
                    };
                    doubts.push(format!(
                        "policy {} has {}, but {}",
                        index + 1,
                        condition_text(&asked.rules, leaf),
                        never
                    ));
                }
            }
        }
    }
    doubts
}

/// Strings and actions that a policy holds against a pattern, and that are not UTF-8 (02, request 5).
fn doubts_of_characters(asked: &Asked, policies: &[Policy]) -> Vec<String> {
    let action = Content::String(asked.request[1].clone());
    let mut doubts = Vec::new();
    for (index, policy) in policies.iter().enumerate() {
        for leaf in leaves(policy) {
            let asked_for = match leaf {
                Condition::Like { operand: Operand::Attribute(asked_for), .. } => asked_for,
                _ => continue,
            };
            let strings = match section_of(asked_for) {
                Some(root) => asked.values(root, &path_of(&asked.rules, asked_for)).0,
                None => vec![&action],
            };
            for string in strings {
                match string {
                    Content::String(string) if !is_utf8(string) => doubts.push(format!(
                        "policy {} has {}, but {} is not UTF-8: no pattern matches it",
                        index + 1,
                        condition_text(&asked.rules, leaf),
                        quoted(string)
                    )),
                    _ => {}
                }
            }
        }
    }
    doubts
}

fn kind_of(value: &Content) -> &'static str {
    match value {
        Content::String(_) => "a string",
        Content::Number(_) => "a number",
        Content::Flag(_) => "true or false",
        Content::List(_) => "a list",
    }
}

/// Attributes of a condition without parts, and the kinds of values with which it can be true.
fn wanted_kinds(leaf: &Condition) -> Vec<(Attribute, Vec<&'static str>)> {
    let of_literal = |literal: &Literal| match literal {
        Literal::String(_) => "a string",
        Literal::Number(_) => "a number",
        Literal::Flag(_) => "true or false",
    };
    let attribute_of = |operand: &Operand| match operand {
        Operand::Attribute(attribute) => Some(*attribute),
        Operand::Literal(_) => None,
    };
    let mut wanted = Vec::new();
    match leaf {
        Condition::Compare { left, comparator, right } => {
            let by_order = !matches!(comparator, Comparator::Equal | Comparator::NotEqual);
            for (one, other) in [(left, right), (right, left)] {
                match (attribute_of(one), other) {
                    (Some(attribute), _) if by_order => wanted.push((attribute, vec!["a number"])),
                    (Some(attribute), Operand::Literal(literal)) => wanted.push((attribute, vec![of_literal(literal)])),
                    _ => {}
                }
            }
        }
        Condition::Like { operand, .. } => {
            wanted.extend(attribute_of(operand).map(|attribute| (attribute, vec!["a string"])))
        }
        Condition::InList { operand, list } => {
            let mut kinds: Vec<&str> = list.iter().map(of_literal).collect();
            kinds.sort_unstable();
            kinds.dedup();
            wanted.extend(attribute_of(operand).map(|attribute| (attribute, kinds)));
        }
        Condition::InAttribute { operand, attribute } => {
            wanted.extend(attribute_of(operand).map(|attribute| (attribute, vec!["a string"])));
            wanted.push((*attribute, vec!["a list"]));
        }
        Condition::Contains { attribute, .. } => wanted.push((*attribute, vec!["a list"])),
        _ => {}
    }
    wanted
}

/// The literals of a condition without parts.
fn literals(leaf: &Condition) -> Vec<Literal> {
    let of = |operand: &Operand| match operand {
        Operand::Literal(literal) => Some(*literal),
        Operand::Attribute(_) => None,
    };
    match leaf {
        Condition::Compare { left, right, .. } => [of(left), of(right)].into_iter().flatten().collect(),
        Condition::InList { list, .. } | Condition::Contains { list, .. } => list.clone(),
        _ => Vec::new(),
    }
}

/// `: did you mean ..?`, if some name is near: of three letters at most one differs.
pub fn nearest(name: &str, names: &[String]) -> String {
    let own = |name: &str| name.split('.').last().map_or(0, str::len);
    let is_near = |far: usize, other: &str| far <= 2 && far * 3 <= own(name).min(own(other));
    let near = names.iter().map(|other| (distance(name, other), other)).filter(|(far, other)| is_near(*far, other));
    match near.min() {
        Some((_, other)) => format!(": did you mean {}?", other),
        None => String::new(),
    }
}

/// How many letters must be changed, put in or left out to make one name the other.
fn distance(one: &str, other: &str) -> usize {
    let other: Vec<char> = other.chars().collect();
    let mut row: Vec<usize> = (0..=other.len()).collect();
    for (index, letter) in one.chars().enumerate() {
        let mut next = vec![index + 1];
        for (at, own) in other.iter().enumerate() {
            let changed = row[at] + usize::from(letter != *own);
            next.push(changed.min(row[at + 1] + 1).min(next[at] + 1));
        }
        row = next;
    }
    row[other.len()]
}
