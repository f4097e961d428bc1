//! Random locks with their vocabularies, actions and resources: valid ones, ones that break one rule, and damaged ones; and requests and bags in
//! which their tests hold, or nearly do.

use definitions::locks::{action_bytes, vocabulary_bytes, Asks, LentBytes, Permit};
use definitions::numbers::value_of;
use definitions::plans::{list_value, number_value, string_value, Entry, Plan};
use definitions::tokens::RESERVED_WORDS;

use crate::bag_bytes::{damaged, IMPOSSIBLE_PATHS};
use crate::literals::literal;
use crate::random::Random;
use crate::wide_strings;

/// What is lent, before it is bytes: the lock as its pieces, whether they keep the rules or not.
#[derive(Clone)]
pub struct LockPlan {
    /// Word, path and sort byte.
    pub words: Vec<(Vec<u8>, Vec<u8>, u8)>,
    pub pieces: Vec<Vec<u8>>,
    pub actions: Vec<Vec<u8>>,
    pub resource: Vec<u8>,
}

const WORDS: [&str; 14] = [
    "firm", "flag", "grade", "g", "level", "if", "in", "permit", "own-er", "x_1", "Firm", "firms", "containsAll",
    "true",
];
const PATHS: [&str; 10] = ["firm", "flags", "grade", "a", "a.b", "level.max", "x_1.y-2", "If", "name", "hired"];
const VALUES: [&str; 12] = ["own", "loan", "taught", "A1", "7", "_", "-", "-3", "if", "3-5", "a_b-c", "Own"];
const NUMBERS: [&str; 8] = ["3", "2.5", "0", "-0", "-1", "003", "3.00", "0.1"];
const MARKS: [&str; 4] = [">", ">=", "<", "<="];
const ACTIONS: [&str; 8] = ["teach", "read", "own", "a b", "S\u{fc}d", "permit", "&&", "\\"];
const RESOURCES: [&str; 8] =
    ["shaft:A", "shaft:A1", "record:7", "controller:c", "parameter:p", "shaft:b:A1", "shaft:A ", "shaft:S\u{fc}d"];

/// Blanks of every kind.
pub const BLANKS: [u8; 4] = [b' ', b'\t', b'\n', b'\r'];

/// What no lock may have between its pieces.
const STRANGE: [&str; 22] = [
    "|", "||", "!", "(", ")", "&&", "=", "==", "!=", ".", ",", ";", "\"", "+", "*", "/", "\u{b}", "\u{0}", "\u{fc}",
    "\u{a0}", "&", ":",
];

/// A random plan that keeps the rules.
pub fn plan(random: &mut Random) -> LockPlan {
    let words = vocabulary(random);
    let tests = random.pick(&[1, 1, 1, 2, 2, 2, 3, 3, 4, 6, 16]);
    let mut pieces = Vec::new();
    for index in 0..tests {
        if index > 0 {
            pieces.push(b"&".to_vec());
        }
        let next = if random.one_in(8) { random.below(words.len()) } else { index % words.len() };
        let known = words[next].clone();
        pieces.extend(test(random, &known));
    }
    let actions = (0..random.pick(&[1, 1, 2, 2, 3, 4, 16])).map(|_| action(random)).collect();
    LockPlan { words, pieces, actions, resource: random.pick(&RESOURCES).as_bytes().to_vec() }
}

/// 1 to 16 different words.
fn vocabulary(random: &mut Random) -> Vec<(Vec<u8>, Vec<u8>, u8)> {
    let mut words: Vec<(Vec<u8>, Vec<u8>, u8)> = Vec::new();
    let wanted = random.pick(&[1, 2, 3, 3, 4, 5, 8, 16]);
    while words.len() < wanted {
        let new = match random.below(12) {
            0 => random.pick(&RESERVED_WORDS).as_bytes().to_vec(),
            1 => [b"w", &run(random, 15)[..]].concat(),
            _ => random.pick(&WORDS).as_bytes().to_vec(),
        };
        if words.iter().all(|(word, _, _)| *word != new) {
            let path = path(random, &words);
            words.push((new, path, random.between(1, 3) as u8));
        }
    }
    words
}

/// A path, mostly one that no other word has.
fn path(random: &mut Random, words: &[(Vec<u8>, Vec<u8>, u8)]) -> Vec<u8> {
    loop {
        let path: Vec<u8> = random.pick(&PATHS).into();
        if words.iter().all(|(_, other, _)| *other != path) || random.one_in(12) {
            return path;
        }
    }
}

/// Some letters, digits, `_` and `-`.
fn run(random: &mut Random, most: usize) -> Vec<u8> {
    (0..random.between(1, most)).map(|_| random.pick(b"abcxyzABCXYZ0189_-")).collect()
}

/// A test of a word by its sort.
fn test(random: &mut Random, known: &(Vec<u8>, Vec<u8>, u8)) -> [Vec<u8>; 3] {
    let (word, _, sort) = known;
    if *sort == 3 {
        return [word.clone(), random.pick(&MARKS).as_bytes().to_vec(), number(random)];
    }
    [word.clone(), b":".to_vec(), value(random)]
}

fn number(random: &mut Random) -> Vec<u8> {
    if random.one_in(3) {
        literal(random)
    } else {
        random.pick(&NUMBERS).as_bytes().to_vec()
    }
}

fn value(random: &mut Random) -> Vec<u8> {
    match random.below(12) {
        0 => run(random, 12),
        1 if random.one_in(6) => vec![b'v'; random.between(120, 127)],
        _ => random.pick(&VALUES).as_bytes().to_vec(),
    }
}

fn action(random: &mut Random) -> Vec<u8> {
    match random.below(30) {
        0 => Vec::new(),
        1 => vec![b'x'; random.between(120, 127)],
        2 => wide_strings::characters(random, 5),
        _ => random.pick(&ACTIONS).as_bytes().to_vec(),
    }
}

/// The plan's bytes, with blanks between the lock's pieces, or few or none.
pub fn bytes_of(plan: &LockPlan, random: &mut Random) -> LentBytes {
    let often = random.pick(&[0, 1, 2, 2, 6]);
    let mut lock = Vec::new();
    for piece in &plan.pieces {
        put_blanks(&mut lock, random, often);
        lock.extend_from_slice(piece);
    }
    put_blanks(&mut lock, random, often);
    LentBytes {
        vocabulary: vocabulary_bytes(&plan.words),
        lock,
        actions: action_bytes(&plan.actions),
        resource: plan.resource.clone(),
    }
}

/// Blanks in one of so many places; 0 for none.
fn put_blanks(lock: &mut Vec<u8>, random: &mut Random, often: usize) {
    if often > 0 && random.one_in(often) {
        for _ in 0..random.pick(&[1, 1, 1, 2, 3]) {
            lock.push(if random.one_in(2) { b' ' } else { random.pick(&BLANKS) });
        }
    }
}

/// Break one rule in the plan, or come near to it.
pub fn break_a_rule(plan: &mut LockPlan, random: &mut Random) {
    match random.below(4) {
        0 => break_vocabulary(plan, random),
        1 => break_actions(plan, random),
        _ => break_lock(plan, random),
    }
}

fn break_vocabulary(plan: &mut LockPlan, random: &mut Random) {
    let at = random.below(plan.words.len());
    match random.below(8) {
        0 => {
            let count = random.pick(&[15, 16, 17, 18]);
            plan.words.extend((0..16).map(|index| (vec![b'z', b'a' + index], b"a".to_vec(), 1)));
            plan.words.truncate(count);
        }
        1 => {
            let same = (plan.words[at].0.clone(), b"a".to_vec(), random.between(1, 3) as u8);
            plan.words.push(same);
        }
        2 => plan.words[at].2 = random.pick(&[0, 4, 5, 255]),
        3 => plan.words[at].1 = vec![b'w'; random.pick(&[63, 64, 64, 65, 66])],
        4 => plan.words[at].1 = random.pick(&RESERVED_WORDS).as_bytes().to_vec(),
        5 => plan.words[at].1 = random.pick(&IMPOSSIBLE_PATHS).as_bytes().to_vec(),
        6 => plan.words.push((vec![b'w'; random.pick(&[63, 64, 64, 65, 66])], b"a".to_vec(), 2)),
        _ => plan.words.push((random.pick(&IMPOSSIBLE_PATHS).as_bytes().to_vec(), b"a".to_vec(), 3)),
    }
}

fn break_actions(plan: &mut LockPlan, random: &mut Random) {
    let bad = |random: &mut Random| match random.below(4) {
        0 => vec![b'x'; random.pick(&[126, 127, 128, 129, 255])],
        1 => vec![b'a', random.pick(&[b'"', 0x1F, 0x7F, b'\n', b'\t', 0])],
        2 => wide_strings::any(random, 5),
        _ => vec![random.byte()],
    };
    match random.below(4) {
        0 => plan.actions = vec![b"a".to_vec(); random.pick(&[0, 15, 16, 17, 18])],
        1 | 2 => {
            let at = random.below(plan.actions.len());
            plan.actions[at] = bad(random);
        }
        _ => plan.resource = bad(random),
    }
}

fn break_lock(plan: &mut LockPlan, random: &mut Random) {
    let at = random.below(plan.pieces.len());
    match random.below(12) {
        0 => {
            plan.pieces.remove(at);
        }
        1 => plan.pieces.insert(at, random.pick(&STRANGE).as_bytes().to_vec()),
        2 => plan.pieces[at] = random.pick(&STRANGE).as_bytes().to_vec(),
        3 => {
            let other = random.below(plan.pieces.len());
            plan.pieces.swap(at, other);
        }
        4 => plan.pieces.push(random.pick(&["&", "x", "3", ".", "&&"]).as_bytes().to_vec()),
        5 => plan.pieces.clear(),
        6 => {
            let count = random.pick(&[15, 16, 17, 18]);
            let known = plan.words[0].clone();
            plan.pieces.clear();
            for _ in 0..count {
                plan.pieces.extend(test(random, &known));
                plan.pieces.push(b"&".to_vec());
            }
            plan.pieces.pop();
        }
        _ => break_piece(&mut plan.pieces[4 * (at / 4)..], random),
    }
}

/// Break the test that these pieces begin with.
fn break_piece(pieces: &mut [Vec<u8>], random: &mut Random) {
    match random.below(8) {
        0 => pieces[0] = random.pick(&WORDS).as_bytes().to_vec(),
        1 => pieces[0].push(random.pick(b"s-_0.")),
        2 => pieces[1] = random.pick(&[":", ">", ">=", "<", "<=", "=", "==", "!=", "=>", "> ="]).as_bytes().to_vec(),
        3 => pieces[2] = vec![random.pick(b"v7"); random.pick(&[15, 16, 17, 126, 127, 128, 129])],
        4 => pieces[2] = random.pick(&["", "-", "3.", ".5", "3.5", "- 3", "--3", "3x", "1e5", "+3", "3.5.5"]).into(),
        5 => pieces[2] = random.pick(&["00000000.0000000", "00000000.00000000", "-12345678.1234567"]).into(),
        6 => pieces[2].push(random.byte()),
        _ => pieces[2].insert(0, random.byte()),
    }
}

/// One of the parts damaged.
pub fn damage(bytes: &mut LentBytes, random: &mut Random) {
    let part = match random.below(8) {
        0 | 1 | 2 => &mut bytes.vocabulary,
        3 | 4 | 5 => &mut bytes.lock,
        6 => &mut bytes.actions,
        _ => &mut bytes.resource,
    };
    *part = damaged(std::mem::take(part), random);
}

/// A request and a bag for a permit: what is asked for is there, nearly there, or not.
pub fn case(permit: &Permit, random: &mut Random) -> ([Vec<u8>; 3], Vec<u8>) {
    let subject =
        if random.one_in(12) { random.pick(&["system", "dog:1"]) } else { random.pick(&["person:K7", "tool:t9"]) };
    let own_action = permit.actions[random.below(permit.actions.len())].clone();
    let action = if random.one_in(8) { random.pick(&ACTIONS).into() } else { own_action };
    let resource = if random.one_in(8) { random.pick(&RESOURCES).into() } else { permit.resource.clone() };
    ([subject.into(), action, resource], bag(permit, random))
}

/// A bag with an entry for most of the paths that the permit asks for.
fn bag(permit: &Permit, random: &mut Random) -> Vec<u8> {
    let careless = random.one_in(3);
    let mut entries: Vec<Entry> = Vec::new();
    for test in &permit.tests {
        if !(careless && random.one_in(5)) {
            let value = if careless && random.one_in(4) { any_value(random) } else { near(&test.asks, random) };
            entries.push(Entry { path: test.path.clone(), value });
        }
    }
    if random.one_in(4) {
        entries.push(Entry { path: random.pick(&PATHS).into(), value: any_value(random) });
    }
    entries.sort_by(|first, second| first.path.cmp(&second.path));
    entries.dedup_by(|second, first| first.path == second.path);
    let mut plan = Plan { sections: [entries, Vec::new(), Vec::new()], columns: None };
    if random.one_in(16) {
        plan.sections.swap(0, 1);
    }
    let bytes = plan.bytes();
    if random.one_in(100) {
        damaged(bytes, random)
    } else {
        bytes
    }
}

/// A value with which the test holds, mostly.
fn near(asks: &Asks, random: &mut Random) -> Vec<u8> {
    match asks {
        Asks::Is(value) => string_value(value),
        Asks::Has(value) => {
            let mut strings: Vec<Vec<u8>> =
                (0..random.pick(&[0, 0, 1, 2])).map(|_| random.pick(&VALUES).into()).collect();
            strings.insert(random.below(strings.len() + 1), value.clone());
            list_value(&strings)
        }
        Asks::Compares(comparator, literal) => {
            let bits = value_of(literal).to_bits();
            let all =
                [bits, bits + 1, bits.saturating_sub(1), bits ^ (1 << 63), f64::MAX.to_bits(), f64::MIN.to_bits()];
            loop {
                let number = f64::from_bits(random.pick(&all));
                let holds = comparator.holds(number, value_of(literal));
                if number.is_finite() && (holds || random.one_in(6)) {
                    return number_value(number.to_bits());
                }
            }
        }
    }
}

fn any_value(random: &mut Random) -> Vec<u8> {
    match random.below(4) {
        0 => string_value(random.pick(&VALUES).as_bytes()),
        1 => number_value(value_of(random.pick(&NUMBERS).as_bytes()).to_bits()),
        2 => vec![3, random.below(2) as u8],
        _ => list_value(&[random.pick(&VALUES).into()]),
    }
}

#[cfg(test)]
mod tests {
    use super::*;
    use definitions::locks::{permit_of, Reason};

    #[test]
    fn plans_keep_the_rules() {
        let mut random = Random::new(91);
        let mut allowed = 0;
        for _ in 0..3_000 {
            let bytes = bytes_of(&plan(&mut random), &mut random);
            let permit = permit_of(bytes.lent()).unwrap();
            let (request, bag) = case(&permit, &mut random);
            let [subject, action, resource] = &request;
            let request = definitions::deciding::Request { subject, action, resource };
            allowed += usize::from(permit.decide(&bag, request).map_or(false, |decision| decision.outcome == 1));
        }
        assert!((900..2_400).contains(&allowed), "{}", allowed);
    }

    #[test]
    fn many_broken_plans_are_refused_and_each_reason_is_met() {
        let mut random = Random::new(92);
        let mut refused = 0;
        let mut reasons: Vec<String> = Vec::new();
        for _ in 0..6_000 {
            let mut plan = plan(&mut random);
            break_a_rule(&mut plan, &mut random);
            let mut bytes = bytes_of(&plan, &mut random);
            if random.one_in(2) {
                damage(&mut bytes, &mut random);
            }
            if let Err(flaw) = permit_of(bytes.lent()) {
                refused += 1;
                assert!(flaw.reason != Reason::WouldNotCompile);
                let reason = format!("{:?} {:?}", flaw.part, flaw.reason);
                if !reasons.contains(&reason) {
                    reasons.push(reason);
                }
            }
        }
        assert!((3_000..5_700).contains(&refused), "{}", refused);
        // Six of the vocabulary; ten of the lock, one of them for each of three sorts; six of actions and three of the resource.
        assert_eq!(reasons.len(), 27, "{:?}", reasons);
    }
}
