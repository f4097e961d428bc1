//! The decide vectors of 02's request 7: questions under both versions, with absent attributes that are met and such that are not; the
//! other vectors under version 2; tables that record no version, or two.

use definitions::compile::table_of;
use definitions::deciding::Request;
use definitions::policies::Version;
use generators::absences::{self, rules_by_version};
use generators::condition_texts::{self, values_bag, P};
use generators::examples::{REFUSED_TEXTS, REQUEST};
use generators::marks::PLACES;
use generators::random::Random;
use generators::requests;

use crate::decide_vectors::{self, answer, spoil, vector, with_own_table, EMPTY_BAG, RICH_TEXT};
use crate::vector::{policy_starts, under, under_both, Vector};

/// How many bags a random text is decided over.
const BAGS: usize = 3;

/// The vectors that are the same for every seed.
pub fn fixed() -> Vec<Vector> {
    let mut vectors = Vec::new();
    add_other_vectors(&mut vectors);
    add_wrong_tables(&mut vectors);
    add_wrong_things(&mut vectors);
    vectors.extend(questions().iter().flat_map(under_both));
    vectors
}

/// The other fixed vectors under version 2, but for most conditions whose answer stays.
fn add_other_vectors(vectors: &mut Vec<Vector>) {
    let conditions = condition_texts::fixed().len();
    for (index, other) in decide_vectors::fixed().iter().enumerate() {
        if other[1] == table_of(&other[0], Version::One) && !other[1].is_empty() {
            let of_two = under(other, Version::Two);
            if index >= conditions || index % 10 == 0 || answer(&of_two) != answer(other) {
                vectors.push(of_two);
            }
        }
    }
}

/// Tables of version 2 that are cut, damaged, longer, of another text; tables that record two versions, or none.
fn add_wrong_tables(vectors: &mut Vec<Vector>) {
    let bag = values_bag();
    let text = RICH_TEXT.as_bytes();
    let table = table_of(text, Version::Two);
    let mut add = |text: &[u8], table: &[u8]| vectors.push(vector(text, table, &bag, REQUEST));
    for at in 0..table.len() {
        add(text, &table[..at]);
        for change in [1, 7, 249] {
            let mut changed = table.clone();
            changed[at] = changed[at].wrapping_add(change);
            add(text, &changed);
        }
    }
    for start in policy_starts(&table) {
        for kind in 0..=60 {
            let mut changed = table.clone();
            changed[start] = kind;
            add(text, &changed);
        }
    }
    for more in [&[0][..], &[255], &[36, 0, 0, 0, 0], &table] {
        add(text, &[&table, more].concat());
        add(text, &[more, &table].concat());
        for empty in [&b""[..], b" \n"] {
            add(empty, more);
        }
    }
    for refused in REFUSED_TEXTS.map(str::as_bytes) {
        add(refused, &table);
        add(refused, &[36, 0, 0, 0, 0]);
    }
}

/// Good and wrong subjects, actions, resources, bags and tables of version 2, each way with each other way; and the system.
fn add_wrong_things(vectors: &mut Vec<Vector>) {
    let text = format!("{}when{{!env.a==1}};", P).into_bytes();
    let table = table_of(&text, Version::Two);
    let neither = [&[38], &table[1..]].concat();
    for subject in [&b"person:1"[..], b"", b"system:1", b"system"] {
        for action in [&b"a"[..], b""] {
            for resource in [&b"shaft:1"[..], b"person:1"] {
                for bag in [EMPTY_BAG, &[0, 0, 0, 0]] {
                    for table in [&table[..], &neither, &table[..table.len() - 1], &[]] {
                        vectors.push(vector(&text, table, bag, Request { subject, action, resource }));
                    }
                }
            }
        }
    }
}

/// The questions that every seed has, under version 1.
fn questions() -> Vec<Vector> {
    let mut vectors = Vec::new();
    for (index, (condition, bag)) in absences::fixed().iter().enumerate() {
        let effect = if index % 7 == 0 { P.replace("permit", "forbid") } else { P.to_string() };
        vectors.push(with_own_table(&format!("{}when{{{}}};", effect, condition), bag, REQUEST));
    }
    add_several(&mut vectors);
    add_marks(&mut vectors);
    vectors
}

/// Two and three policies, permits and forbids, each satisfied, unsatisfied, or satisfied under version 1 alone.
fn add_several(vectors: &mut Vec<Vector>) {
    let conditions = ["!env has a", "env has a", "!env.a==1", "env.a!=1||true", "principal is no target"];
    let policy = |kind: usize| {
        let effect = ["permit", "forbid"][kind % 2];
        match conditions[kind / 2] {
            "principal is no target" => format!("{}(principal is tool,action,resource)when{{!env.a==1}};", effect),
            condition => format!("{}(principal is person,action,resource)when{{{}}};", effect, condition),
        }
    };
    for first in 0..10 {
        for second in 0..10 {
            let two = [policy(first), policy(second)].concat();
            vectors.push(with_own_table(&two, EMPTY_BAG, REQUEST));
            vectors.push(with_own_table(&[two, policy((first + 3 * second) % 10)].concat(), EMPTY_BAG, REQUEST));
        }
    }
}

/// Marks of 64 policies: each bit alone under version 1, all but it, and such that a forbid before or behind it takes.
fn add_marks(vectors: &mut Vec<Vector>) {
    for place in (1..=PLACES).step_by(3).chain([64]) {
        let one_forbid = |number: usize| if number == place { "forbid" } else { "permit" };
        let others = |number: usize| number != place && number % 5 == 0;
        let is_place = |number: usize| number == place;
        for text in [
            rules_by_version(|_| "permit", |_| false, is_place),
            rules_by_version(one_forbid, others, is_place),
            rules_by_version(one_forbid, |_| true, |number| number != place && number % 3 > 0),
        ] {
            vectors.push(with_own_table(&text, EMPTY_BAG, REQUEST));
        }
    }
}

/// A random text over some bags, each under both versions.
pub fn random(random: &mut Random) -> Vec<Vector> {
    let wish = requests::wish(random);
    let text = absences::text(random, &wish);
    let request = Request {
        subject: wish.subject.as_bytes(),
        action: wish.action.as_bytes(),
        resource: wish.resource.as_bytes(),
    };
    let mut vectors = Vec::new();
    for _ in 0..BAGS {
        let plan = requests::bag(random);
        let mut both = under_both(&vector(&text, b"", &plan.bytes(), request));
        match random.below(30) {
            0 => both.iter_mut().for_each(|one| spoil(one, &plan, random)),
            1 => mix(&mut both[1][1], random),
            _ => {}
        }
        vectors.extend(both);
    }
    vectors
}

/// A policy of a table of version 2 records version 1, or nothing that is a version.
fn mix(table: &mut [u8], random: &mut Random) {
    let start = random.pick(&policy_starts(table));
    table[start] = random.pick(&[table[start] - 7, table[start] - 7, 28, 31, 35, 38, 43, 44]);
}

#[cfg(test)]
mod tests {
    use super::*;
    use crate::vector::request_of;
    use definitions::deciding::decide;

    #[test]
    fn every_answer_is_there() {
        let answers: Vec<String> = fixed().iter().map(answer).collect();
        for line in ["R 20", "R 21", "R 22", "R 23", "R 24", "1 1 1", "2 1 1", "3 0 0", "4 0 0"] {
            assert!(answers.iter().filter(|answer| *answer == line).count() >= 10, "{}", line);
        }
    }

    // What is satisfied under version 2 met no absent attribute, and so is satisfied under version 1, too.
    #[test]
    fn version_2_only_takes_away() {
        let mut source = Random::new(104);
        let some: Vec<Vector> = (0..300).flat_map(|_| random(&mut source)).step_by(2).collect();
        let (mut all, mut differ) = (0, 0);
        for question in questions().iter().chain(&some) {
            let [one, two] =
                under_both(question).map(|one| decide(&one[0], &one[1], &one[2], request_of(&one)).map(|it| it.mark));
            if let (Ok(one), Ok(two)) = (one, two) {
                assert_eq!(one & two, two);
                all += 1;
                differ += usize::from(one != two);
            }
        }
        assert!(all > 5_000 && 4 * differ >= all, "{} of {}", differ, all);
    }

    #[test]
    fn random_ones_are_mixed() {
        let mut source = Random::new(103);
        let answers: Vec<String> = (0..700).flat_map(|_| random(&mut source)).map(|vector| answer(&vector)).collect();
        let count = |start: &str| answers.iter().filter(|line| line.starts_with(start)).count();
        assert!(count("1 ") > 900 && count("2 ") > 400 && count("3 ") > 900 && count("R 20") > 30);
    }
}
