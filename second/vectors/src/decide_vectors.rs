//! The decide vectors: text, table, bag, subject, action and resource, and the decision with its mark, or the refusal.

use definitions::compile::table_of;

use definitions::deciding::{decide, Decision, Request};
use definitions::plans::{list_value, string_value, Plan};
use definitions::policies::Version;
use definitions::policies::{PRINCIPAL_TYPES, RESOURCE_TYPES};
use generators::bag_bytes::{break_a_rule, damaged};
use generators::condition_texts::{self, values_bag, P};
use generators::damaged_texts::any_text;
use generators::examples::{REFUSED_TEXTS, REQUEST};
use generators::marks::{rules_satisfied, PLACES};
use generators::random::Random;
use generators::requests;
use generators::rich_bags::rich_question;
use generators::rich_bags::{bag_of, bag_of_length, rich_bag};
use generators::wide_strings::BROKEN;

use crate::vector::{request_of, Vector};

pub const EMPTY_BAG: &[u8] = &[0, 0, 0];

/// A text of several policies for cut and damaged tables.
pub const RICH_TEXT: &str =
    "permit(principal is person,action in[\"a\",\"teach\"],resource is shaft)when{if principal . s==\"own\"\
    then(!(principal.n in[1,3])||true)else false};forbid(principal,action,resource==\"shaft:A\")when{env has x.y&&\
    principal.l.containsAny([\"own\"])&&\"a\"like\"*\"&&\"a\"in principal.l};";

/// Subjects that are none, but for `system` exactly.
const WRONG_SUBJECTS: [&str; 26] = [
    "", "person", "person:", "tool", "tool:", "Person:a", "persons:a", "perso:a", "tools:1", "shaft:a", "record:1",
    ":a", ":", "::", " person:a", "person :a", "a", "system:x", "System", "system ", " system", "syste", "systemm",
    "system\u{0}", "system\n", "system:",
];

/// Resources that are none.
const WRONG_RESOURCES: [&str; 24] = [
    "", "shaft", "shaft:", "controller:", "parameter:", "record:", "controller", "parameter", "record", "person:K7",
    "tool:1", "dog:1", "Shaft:1", "SHAFT:1", "shaft :1", " shaft:1", "shafts:1", "shaf:1", "recor:1", "records:1",
    ":shaft", ":", "system", "*:1",
];

/// A vector.
pub fn vector(text: &[u8], table: &[u8], bag: &[u8], request: Request) -> Vector {
    let Request { subject, action, resource } = request;
    [text, table, bag, subject, action, resource].iter().map(|part| part.to_vec()).collect()
}

/// A vector with the text's own table.
pub fn with_own_table(text: &str, bag: &[u8], request: Request) -> Vector {
    vector(text.as_bytes(), &table_of(text.as_bytes(), Version::One), bag, request)
}

/// The answer: outcome, policy and mark, or `R` and the refusal's number.
pub fn answer(vector: &Vector) -> String {
    match decide(&vector[0], &vector[1], &vector[2], request_of(vector)) {
        Ok(Decision { outcome, policy, mark }) => format!("{} {} {}", outcome, policy, mark),
        Err(number) => format!("R {}", number),
    }
}

/// The vectors that are the same for every seed.
pub fn fixed() -> Vec<Vector> {
    let mut vectors = Vec::new();
    for (condition, bag) in condition_texts::fixed() {
        vectors.push(with_own_table(&format!("{}when{{{}}};", P, condition), &bag, REQUEST));
    }
    add_targets(&mut vectors);
    add_orders(&mut vectors);
    add_many_policies(&mut vectors);
    add_marks(&mut vectors);
    add_sizes_of_requests(&mut vectors);
    add_wide_actions(&mut vectors);
    add_wrong_requests(&mut vectors);
    add_wrong_bags(&mut vectors);
    add_wrong_tables(&mut vectors);
    add_wrong_things(&mut vectors);
    vectors
}

/// Every form of a target's parts against requests that match it, nearly match it, and do not.
fn add_targets(vectors: &mut Vec<Vector>) {
    let many = (0..15).map(|index| format!("\"a{}\"", index)).collect::<Vec<_>>().join(",");
    let principals = ["principal", "principal is person", "principal is tool"];
    let actions = ["action", "action in[\"teach\"]", "action in[\"read\",\"teach\"]"];
    let resources = ["resource", "resource is shaft", "resource is record", "resource==\"shaft:A:1\""];
    let all_actions: Vec<String> = ["teac", "teachs", "", "Teach", "a14", "\u{fc}", "\", \""]
        .iter()
        .map(|action| format!("action in[\"{}\"]", action.replace('"', "")))
        .chain([format!("action in[{}]", many), format!("action in[{},\"teach\"]", many)])
        .chain(actions.iter().map(|part| part.to_string()))
        .collect();
    let all_resources: Vec<String> =
        ["shaft:A", "shaft:A:1", "shaft:A:12", "shaft:A:", "shaft:", "shaft", "", "Shaft:A:1", "record:1", ":"]
            .iter()
            .map(|name| format!("resource==\"{}\"", name))
            .chain(RESOURCE_TYPES.iter().map(|name| format!("resource is {}", name)))
            .collect();
    let subjects = ["person:K7", "tool:1", "person:tool:1", "tool:person"];
    let wished = ["teach", "read", "a14", "teac", "teach ", "\u{fc}"];
    let things =
        ["shaft:A:1", "shaft:A", "shaft:A:12", "record:1", "record:shaft:A:1", "controller:shaft", "parameter::"];
    let mut add = |effect: &str, target: [&str; 3], subject: &str, action: &str, resource: &str| {
        let request = Request { subject: subject.as_bytes(), action: action.as_bytes(), resource: resource.as_bytes() };
        let text = format!("{}({});", effect, target.join(","));
        vectors.push(with_own_table(&text, EMPTY_BAG, request));
    };
    for principal in principals {
        for action in actions {
            for resource in resources {
                for subject in &subjects[..2] {
                    for (wish, thing) in [("teach", "shaft:A:1"), ("read", "record:1"), ("run", "shaft:A:1")] {
                        add("permit", [principal, action, resource], subject, wish, thing);
                        add("forbid", [principal, action, resource], subject, wish, thing);
                    }
                }
            }
        }
        for subject in subjects {
            add("permit", [principal, "action", "resource"], subject, "teach", "shaft:A");
        }
    }
    for part in &all_actions {
        for action in wished {
            add("permit", ["principal", part, "resource"], "tool:1", action, "shaft:A");
        }
    }
    for part in &all_resources {
        for resource in things {
            add("forbid", ["principal", "action", part], "tool:1", "teach", resource);
        }
    }
}

/// Every order of up to four permits and forbids, satisfied or not.
fn add_orders(vectors: &mut Vec<Vector>) {
    let policies = [
        "permit(principal,action,resource);",
        "forbid(principal,action,resource);",
        "permit(principal,action,resource)when{false};",
        "forbid(principal is tool,action,resource);",
    ];
    let mut texts = vec![String::new()];
    for _ in 0..4 {
        let mut longer = Vec::new();
        for text in &texts {
            vectors.push(with_own_table(text, EMPTY_BAG, REQUEST));
            longer.extend(policies.iter().map(|policy| [text, *policy].concat()));
        }
        texts = longer;
    }
    for text in &texts {
        vectors.push(with_own_table(text, EMPTY_BAG, REQUEST));
    }
    for text in [" ", "\n\r\t ", &" ".repeat(8_192)] {
        vectors.push(with_own_table(text, EMPTY_BAG, REQUEST));
    }
}

/// 64 policies, of which some are satisfied.
fn add_many_policies(vectors: &mut Vec<Vector>) {
    let satisfied = |effect: &str| format!("{}(principal,action,resource);", effect);
    let other = |effect: &str| format!("{}(principal is tool,action,resource);", effect);
    for places in [
        &[][..],
        &[(1, "permit")],
        &[(64, "permit")],
        &[(64, "forbid")],
        &[(63, "permit"), (64, "permit")],
        &[(1, "permit"), (64, "forbid")],
        &[(1, "forbid"), (64, "permit")],
        &[(32, "permit"), (33, "forbid"), (34, "forbid")],
        &[(2, "forbid"), (9, "forbid"), (17, "permit")],
    ] {
        let mut text = String::new();
        for number in 1..=64 {
            let own = places.iter().find(|place| place.0 == number);
            text.push_str(&own.map_or_else(|| other(["permit", "forbid"][number % 2]), |place| satisfied(place.1)));
        }
        vectors.push(with_own_table(&text, EMPTY_BAG, REQUEST));
    }
}

/// Marks: each bit alone and all but it, the first bits and the last, by permits, by forbids, and by permits with a forbid before or
/// after them; no mark for the system and where all 64 would be satisfied but the request is refused.
fn add_marks(vectors: &mut Vec<Vector>) {
    let mut add = |effect_of: &dyn Fn(usize) -> &'static str, is_satisfied: &dyn Fn(usize) -> bool| {
        vectors.push(with_own_table(&rules_satisfied(effect_of, is_satisfied), EMPTY_BAG, REQUEST));
    };
    let permits = |_: usize| "permit";
    for place in 1..=PLACES {
        add(&permits, &|number| number == place);
        add(&|_| "forbid", &|number| number == place);
        add(&permits, &|number| number != place);
        add(&permits, &|number| number <= place);
        add(&permits, &|number| number >= place);
        // One forbid, with all others, and with the first and the last.
        let one_forbid = |number: usize| if number == place { "forbid" } else { "permit" };
        add(&one_forbid, &|_| true);
        add(&one_forbid, &|number| number == 1 || number == PLACES);
        add(&one_forbid, &|number| [1, place, PLACES].contains(&number));
        // Forbids up to this place and permits behind it, and the other way round; every third is satisfied.
        add(&|number| if number <= place { "forbid" } else { "permit" }, &|number| number % 3 == 1);
        add(&|number| if number <= place { "permit" } else { "forbid" }, &|number| number % 3 == 1);
    }
    let all = rules_satisfied(permits, |_| true);
    let table = table_of(all.as_bytes(), Version::One);
    for request in [
        REQUEST,
        Request { subject: b"system", ..REQUEST },
        Request { subject: b"system:", ..REQUEST },
        Request { action: b"", ..REQUEST },
        Request { resource: b"shaft:", ..REQUEST },
    ] {
        vectors.push(vector(all.as_bytes(), &table, EMPTY_BAG, request));
        vectors.push(vector(all.as_bytes(), &table, b"", request));
        vectors.push(vector(all.as_bytes(), &table[1..], EMPTY_BAG, request));
    }
}

/// Subjects, actions and resources around 100 bytes, ids of 0 and 1 byte, ids of any bytes.
fn add_sizes_of_requests(vectors: &mut Vec<Vector>) {
    let text =
        "permit(principal is person,action,resource is shaft)when{action.name like\"*\"};forbid(principal is tool,\
        action,resource is record);";
    let mut add = |subject: &[u8], action: &[u8], resource: &[u8]| {
        let request = Request { subject, action, resource };
        vectors.push(with_own_table(text, EMPTY_BAG, request));
    };
    let name = |kind: &str, id: &[u8]| [kind.as_bytes(), b":", id].concat();
    for subject_type in PRINCIPAL_TYPES {
        for resource_type in RESOURCE_TYPES {
            for id in [&b""[..], b"x", b":", b"::", b"\0", b"\n", b" ", b"\xff\xfe", b"a:b:c", b"system"] {
                add(&name(subject_type, id), b"a", &name(resource_type, b"1"));
                add(&name(subject_type, b"1"), b"a", &name(resource_type, id));
            }
        }
    }
    for length in [1, 2, 99, 100, 101, 102, 127, 128, 200, 255, 256, 257, 300] {
        for byte in [b'x', b':', 0] {
            add(b"person:1", &vec![byte; length], b"shaft:1");
            for subject_type in PRINCIPAL_TYPES {
                let id = vec![byte; length.max(subject_type.len() + 2) - subject_type.len() - 1];
                add(&name(subject_type, &id), b"a", b"shaft:1");
            }
            for resource_type in RESOURCE_TYPES {
                let id = vec![byte; length.max(resource_type.len() + 2) - resource_type.len() - 1];
                add(b"person:1", b"a", &name(resource_type, &id));
            }
        }
    }
    for length in [0, 100, 101] {
        add(&vec![b's'; length], b"a", b"shaft:1");
        add(b"person:1", b"a", &vec![b's'; length]);
        add(b"person:1", &vec![b':'; length], b"shaft:1");
    }
    for action in ["system", "person:1", " ", "\0", "\n", "\u{fc}", "action", "\""] {
        add(b"person:1", action.as_bytes(), b"shaft:1");
    }
}

/// Actions and resources of characters of every length, and such that are not UTF-8: an action that is not matches no pattern.
fn add_wide_actions(vectors: &mut Vec<Vector>) {
    let conditions = [
        "action.name like\"*\"",
        "!action.name like\"*\"",
        "action.name like\"S?d\"",
        "action.name like\"S??d\"",
        "action.name==\"Süd\"",
        "action.name==principal.s",
        "action.name!=principal.s",
        "action.name in principal.l",
    ];
    let wide = ["Süd", "S€d", "S😀d", "Sd", "ü"].map(|action| action.as_bytes().to_vec());
    let broken = BROKEN.iter().map(|bytes| [b"S", *bytes, b"d"].concat());
    for action in wide.into_iter().chain(broken) {
        let bag = bag_of(&[(b"l", list_value(&[action.clone()])), (b"s", string_value(&action))]);
        let resource = [b"shaft:", &action[..]].concat();
        let request = Request { action: &action, resource: &resource, ..REQUEST };
        for condition in conditions {
            vectors.push(with_own_table(&format!("{}when{{{}}};", P, condition), &bag, request));
        }
        let target = "forbid(principal,action in[\"Süd\",\"ü\"],resource==\"shaft:Süd\");";
        vectors.push(with_own_table(target, EMPTY_BAG, request));
    }
}

fn add_wrong_requests(vectors: &mut Vec<Vector>) {
    for text in ["permit(principal,action,resource);", "forbid(principal,action,resource);", ""] {
        for subject in WRONG_SUBJECTS.map(str::as_bytes) {
            vectors.push(with_own_table(text, EMPTY_BAG, Request { subject, ..REQUEST }));
            vectors.push(vector(b":", b"", b"", Request { subject, action: b"", resource: b"" }));
        }
        for resource in WRONG_RESOURCES.map(str::as_bytes) {
            vectors.push(with_own_table(text, EMPTY_BAG, Request { resource, ..REQUEST }));
            vectors.push(vector(b":", b"", b"", Request { resource, ..REQUEST }));
        }
    }
}

/// The rich bag cut at every length and with every byte changed; bags at their sizes; a question.
fn add_wrong_bags(vectors: &mut Vec<Vector>) {
    let text = "permit(principal,action,resource)when{principal has a};";
    let bytes = rich_bag().bytes();
    let mut bags: Vec<Vec<u8>> = vec![bytes.clone(), [&bytes[..], &[0]].concat(), rich_question().bytes()];
    for at in 0..bytes.len() {
        bags.push(bytes[..at].to_vec());
        let mut changed = bytes.clone();
        changed[at] = changed[at].wrapping_add(1);
        bags.push(changed);
    }
    for bag in [&[][..], &[0], &[0, 0], &[0, 0, 0], &[0, 0, 0, 0], &[1, 0, 0], &[33, 0, 0], &[255, 255, 255]] {
        bags.push(bag.to_vec());
    }
    for length in [4_095, 4_096, 4_097] {
        bags.push(bag_of_length(length));
    }
    bags.push(vec![0; 5_000]);
    for bag in &bags {
        vectors.push(with_own_table(text, bag, REQUEST));
    }
}

/// Tables cut, damaged, longer, of another text; texts that get a refusal.
fn add_wrong_tables(vectors: &mut Vec<Vector>) {
    let bag = values_bag();
    let text = RICH_TEXT.as_bytes();
    let table = table_of(text, Version::One);
    let mut add = |text: &[u8], table: &[u8]| vectors.push(vector(text, table, &bag, REQUEST));
    add(text, &table);
    for at in 0..table.len() {
        add(text, &table[..at]);
        for change in [1, 255, 128] {
            let mut changed = table.clone();
            changed[at] = changed[at].wrapping_add(change);
            add(text, &changed);
        }
    }
    let bare = [P, ";"].concat().into_bytes();
    for more in [&[0][..], &[255], &[34, 0, 0, 3, 0], &[0; 300]] {
        add(text, &[&table, more].concat());
        add(&bare, &[&table_of(&bare, Version::One), more].concat());
        add(b"", more);
        add(b" \n", more);
    }
    add(&[text, text].concat(), &table);
    add(&bare, &table);
    add(text, &table_of(&bare, Version::One));
    add(&[&bare[..], &bare].concat(), &table_of(&bare, Version::One));
    add(&bare, &table_of(&[&bare[..], &bare].concat(), Version::One));
    add(&[text, b" "].concat(), &table);
    add(&[b" ", text].concat(), &table);
    add(&[b" ", &bare[..]].concat(), &table_of(&bare, Version::One));
    add(&[&bare[..], b"\n"].concat(), &table_of(&bare, Version::One));
    add(&bare, &[&[0], &table_of(&bare, Version::One)[..]].concat());
    for refused in REFUSED_TEXTS.map(str::as_bytes) {
        for own in [&[][..], &table_of(&bare, Version::One), &table, &[0; 40]] {
            add(refused, own);
        }
    }
    let longest = [&bare[..], &[b' '; 8_192 - 34]].concat();
    let too_long = [&bare[..], &[b' '; 8_193 - 34]].concat();
    for own in [&[][..], &table_of(&bare, Version::One), &[0; 40]] {
        add(&longest, own);
        add(&too_long, own);
        add(&vec![b' '; 8_192], own);
        add(&vec![b' '; 8_193], own);
    }
    let policies_65 = bare.repeat(65);
    add(&policies_65, &table_of(&bare.repeat(64), Version::One));
    add(&policies_65, &[]);
}

/// Good and wrong subjects, actions, resources, bags, texts and tables, each way with each other way; and the system.
fn add_wrong_things(vectors: &mut Vec<Vector>) {
    let long = [b'x'; 101];
    let bare = [P, ";"].concat().into_bytes();
    let table = table_of(&bare, Version::One);
    let subjects = [&b"person:1"[..], b"", b"system:1", b"shaft:1", b"system"];
    let actions = [&b"a"[..], b"", &long];
    let resources = [&b"shaft:1"[..], b"", b"person:1"];
    let bags = [EMPTY_BAG, &[], &[0, 0, 0, 0]];
    let texts = [(&bare[..], &table[..]), (&bare, &table[..19]), (b":", &table), (b"", b"")];
    for subject in subjects {
        for action in actions {
            for resource in resources {
                for bag in bags {
                    for (text, table) in texts {
                        vectors.push(vector(text, table, bag, Request { subject, action, resource }));
                    }
                }
            }
        }
    }
}

/// A random vector.
pub fn random(random: &mut Random) -> Vector {
    let wish = requests::wish(random);
    let text = requests::text(random, &wish);
    let table = table_of(&text, Version::One);
    let plan = requests::bag(random);
    let request = Request {
        subject: wish.subject.as_bytes(),
        action: wish.action.as_bytes(),
        resource: wish.resource.as_bytes(),
    };
    let mut good = vector(&text, &table, &plan.bytes(), request);
    if random.one_in(30) {
        good[4] = requests::broken_action(random).to_vec();
    }
    if random.one_in(10) {
        for _ in 0..random.pick(&[1, 1, 2, 3]) {
            spoil(&mut good, &plan, random);
        }
    }
    good
}

/// Something of the vector goes wrong, or nearly.
pub fn spoil(vector: &mut Vector, plan: &Plan, random: &mut Random) {
    match random.below(10) {
        0 => vector[3] = random.pick(&WRONG_SUBJECTS).as_bytes().to_vec(),
        1 => vector[4] = vec![b'a'; random.pick(&[0, 0, 100, 101, 150])],
        2 => vector[5] = random.pick(&WRONG_RESOURCES).as_bytes().to_vec(),
        3 => vector[3] = b"system".to_vec(),
        4 => vector[2] = damaged(plan.bytes(), random),
        5 => {
            let mut plan = plan.clone();
            break_a_rule(&mut plan, random);
            vector[2] = plan.bytes();
        }
        6 => vector[1] = damaged(vector[1].clone(), random),
        7 => vector[1].extend((0..random.between(1, 9)).map(|_| random.byte())),
        8 => vector[0] = damaged(vector[0].clone(), random),
        _ => {
            let text = any_text(random);
            if text.len() <= 400 {
                vector[0] = text;
            }
        }
    }
}

#[cfg(test)]
mod tests {
    use super::*;

    #[test]
    fn the_answer_is_a_line() {
        let bare = [P, ";"].concat();
        let line = |subject: &[u8], bag: &[u8]| answer(&with_own_table(&bare, bag, Request { subject, ..REQUEST }));
        assert_eq!(line(b"tool:1", EMPTY_BAG), "1 1 1");
        assert_eq!(line(b"system", b""), "4 0 0");
        assert_eq!(line(b"", EMPTY_BAG), "R 21");
        assert_eq!(line(b"tool:1", b""), "R 24");
        assert_eq!(answer(&vector(bare.as_bytes(), b"", EMPTY_BAG, REQUEST)), "R 20");
        assert_eq!(answer(&vector(b"", b"", EMPTY_BAG, REQUEST)), "3 0 0");
    }

    #[test]
    fn the_wrong_things_are_wrong() {
        for text in REFUSED_TEXTS {
            assert!(definitions::compile::policies_of(text.as_bytes()).is_err(), "{}", text);
        }
        for subject in WRONG_SUBJECTS.map(str::as_bytes) {
            assert_eq!(Request { subject, ..REQUEST }.refusal(), Some(21));
            assert!(subject != b"system");
        }
        for resource in WRONG_RESOURCES.map(str::as_bytes) {
            assert_eq!(Request { resource, ..REQUEST }.refusal(), Some(23));
        }
        assert_eq!(answer(&with_own_table(RICH_TEXT, &values_bag(), REQUEST)), "1 1 1");
    }

    // Every refusal, every outcome and several policies among the vectors that every seed has.
    #[test]
    fn every_answer_is_there() {
        let answers: Vec<String> = fixed().iter().map(answer).collect();
        for line in ["R 20", "R 21", "R 22", "R 23", "R 24", "1 1 1", "2 1 1", "3 0 0", "4 0 0"] {
            assert!(answers.iter().filter(|answer| *answer == line).count() >= 10, "{}", line);
        }
        let count = |start: &str| answers.iter().filter(|answer| answer.starts_with(start)).count();
        assert!(["2 1 ", "2 2 ", "2 3 ", "1 3 "].iter().all(|start| count(start) >= 10));
        for line in ["1 64 9223372036854775808", "2 64 9223372036854775808", "1 63 13835058055282163712"] {
            assert!(answers.iter().any(|answer| answer == line), "{}", line);
        }
        // Bits 0 and 63 together, by permits and by a forbid before and after the permit; all bits.
        let both = 1_u64 << 63 | 1;
        for line in ["1 1 ", "2 1 ", "2 64 "].map(|start| format!("{}{}", start, both)) {
            assert!(answers.iter().any(|answer| *answer == line), "{}", line);
        }
        assert!(answers.iter().any(|answer| *answer == format!("1 1 {}", u64::MAX)));
        for forbid in 1..=64 {
            assert!(answers.iter().any(|answer| *answer == format!("2 {} {}", forbid, u64::MAX)), "{}", forbid);
            assert!(answers.iter().any(|answer| *answer == format!("1 {} {}", forbid, 1_u64 << (forbid - 1))));
        }
    }

    // Outcome and policy follow from mark and effects: the lowest bit of a forbid, else the lowest of a permit.
    #[test]
    fn outcome_and_policy_follow_from_the_mark() {
        use definitions::policies::Effect;
        let mut source = Random::new(106);
        let some: Vec<Vector> = (0..2_000).map(|_| random(&mut source)).collect();
        let (mut several, mut overruled) = (0, 0);
        for vector in fixed().iter().chain(&some) {
            let request = request_of(vector);
            let policies = definitions::compile::set_said_by(&vector[0], &vector[1]).unwrap_or_default().policies;
            if let Ok(Decision { outcome, policy, mark }) = decide(&vector[0], &vector[1], &vector[2], request) {
                let lowest = |effect: Effect| {
                    (0..policies.len()).find(|index| mark >> index & 1 == 1 && policies[*index].effect == effect)
                };
                let (forbid, permit) = (lowest(Effect::Forbid), lowest(Effect::Permit));
                let expected = match (request.is_of_system(), forbid, permit) {
                    (true, _, _) => (4, 0),
                    (_, Some(index), _) => (2, index + 1),
                    (_, None, Some(index)) => (1, index + 1),
                    (_, None, None) => (3, 0),
                };
                assert_eq!((outcome, policy), expected);
                assert!(policies.len() == 64 || mark >> policies.len() == 0);
                several += usize::from(mark.count_ones() > 1);
                overruled += usize::from(outcome == 2 && permit.is_some());
            }
        }
        assert!(several > 800 && overruled > 400, "{} {}", several, overruled);
    }

    // About half of the random requests are allowed or forbidden.
    #[test]
    fn random_answers_are_spread() {
        let mut source = Random::new(102);
        let answers: Vec<String> = (0..4_000).map(|_| answer(&random(&mut source))).collect();
        let count = |start: &str| answers.iter().filter(|line| line.starts_with(start)).count();
        assert!(
            count("1 ") > 800 && count("2 ") > 400 && count("3 ") > 1_200,
            "{} {} {}",
            count("1 "),
            count("2 "),
            count("3 ")
        );
        assert!(count("1 ") + count("2 ") > 1_600);
        for number in 20..=24 {
            assert!(count(&format!("R {}", number)) >= 5, "{}", number);
        }
        assert!(count("4 0 0") >= 20);
    }
}
