//! The lock vectors: vocabulary, lock, actions, resource and the room's length; a bag and a request. The answer: the permit's length, or the
//! refusal's number; a sum of the whole room; and of a permit what it decides, by what the lock means.

use definitions::locks::{action_bytes, permit_of, vocabulary_bytes, write_permit, Lent, LentBytes};
use definitions::tokens::RESERVED_WORDS;
use generators::lock_bytes::{break_a_rule, bytes_of, case, damage, plan, BLANKS};
use generators::random::Random;
use generators::rich_bags::bag_of;

use crate::vector::{request_in, sum_of, Vector};

/// The room where its length does not matter.
const USUAL_ROOM: usize = 300;

/// A vector's parts up to the resource.
pub fn lent_of(vector: &Vector) -> Lent<'_> {
    Lent { vocabulary: &vector[0], lock: &vector[1], actions: &vector[2], resource: &vector[3] }
}

/// The room before the call: byte n is n mod 251.
pub fn room_of(vector: &Vector) -> Vec<u8> {
    let length = u16::from_le_bytes([vector[4][0], vector[4][1]]);
    (0..usize::from(length)).map(|at| (at % 251) as u8).collect()
}

/// The answer: `R`, number and sum; or length, sum, and outcome and policy, or `R` and the number of deciding, under version 1 and then
/// under version 2.
pub fn answer(vector: &Vector) -> String {
    let mut room = room_of(vector);
    match write_permit(lent_of(vector), &mut room) {
        Err(number) => format!("R {} {}", number, sum_of(&room)),
        Ok(length) => {
            let decided = decided(vector);
            format!("{} {} {} {}", length, sum_of(&room), decided, decided)
        }
    }
}

/// What the lock means for the vector's request and bag. It means the same under each version.
fn decided(vector: &Vector) -> String {
    let permit = permit_of(lent_of(vector)).expect("a permit was written");
    match permit.decide(&vector[5], request_in(&vector[6..9])) {
        Ok(decision) => format!("{} {}", decision.outcome, decision.policy),
        Err(number) => format!("R {}", number),
    }
}

fn vector(bytes: &LentBytes, room: usize, bag: &[u8], request: [&[u8]; 3]) -> Vector {
    let room = (room as u16).to_le_bytes();
    let LentBytes { vocabulary, lock, actions, resource } = bytes;
    let lent = [vocabulary, lock, actions, resource, &room[..], bag];
    lent.iter().chain(&request).map(|part| part.to_vec()).collect()
}

/// The fixed vectors' request, and a bag in which the caretaker's usual tests hold.
const REQUEST: [&[u8]; 3] = [b"person:K7", b"teach", b"shaft:A"];

fn usual_bag() -> Vec<u8> {
    bag_of(&[
        (b"firm", b"\x01\x03own".to_vec()),
        (b"flags", b"\x04\x01\x06taught".to_vec()),
        (b"grade", [&[2], &3.0_f64.to_le_bytes()[..]].concat()),
    ])
}

/// The caretaker's words, actions and resource with this lock.
fn usual(lock: &[u8]) -> LentBytes {
    let entry = |word: &[u8], path: &[u8], sort: u8| (word.to_vec(), path.to_vec(), sort);
    LentBytes {
        vocabulary: vocabulary_bytes(&[
            entry(b"firm", b"firm", 1),
            entry(b"flag", b"flags", 2),
            entry(b"grade", b"grade", 3),
        ]),
        lock: lock.to_vec(),
        actions: b"\x05teach\x04read".to_vec(),
        resource: b"shaft:A".to_vec(),
    }
}

/// The vectors that every seed has, under construction.
struct Fixed(Vec<Vector>);

impl Fixed {
    fn put(&mut self, bytes: &LentBytes) {
        self.0.push(vector(bytes, USUAL_ROOM, &usual_bag(), REQUEST));
    }

    /// With the room that is needed, one byte less and more; or where it is refused with none.
    fn put_with_rooms(&mut self, bytes: &LentBytes) {
        let needed = permit_of(bytes.lent()).map(|permit| permit.text().len());
        let rooms = match needed {
            Ok(needed) => vec![needed, needed - 1, needed + 1, 0, 2 * needed],
            Err(_) => vec![0, 1, USUAL_ROOM],
        };
        for room in rooms {
            self.0.push(vector(bytes, room, &usual_bag(), REQUEST));
        }
    }

    fn put_lock(&mut self, lock: &[u8]) {
        self.put(&usual(lock));
    }
}

/// The vectors that are the same for every seed.
pub fn fixed() -> Vec<Vector> {
    let mut fixed = Fixed(Vec::new());
    add_locks(&mut fixed);
    add_every_byte(&mut fixed);
    add_blanks(&mut fixed);
    add_vocabularies(&mut fixed);
    add_actions(&mut fixed);
    add_sizes(&mut fixed);
    fixed.0
}

/// Locks with the usual words: the request's example, each form, and near them what is none.
fn add_locks(fixed: &mut Fixed) {
    fixed.put_with_rooms(&usual(b"firm:own & flag:taught & grade>=3"));
    fixed.put_with_rooms(&usual(b"firm:own & flag:taught & grade>=3 &"));
    let tests = ["firm:own", "flag:taught", "grade>=3", "grade>3", "grade<=3", "grade<3", "firm:loan", "flag:own"];
    for first in tests {
        fixed.put_with_rooms(&usual(first.as_bytes()));
        for second in tests {
            fixed.put_lock(format!("{}&{}", first, second).as_bytes());
            for joint in ["", " ", "&&", "& &", "|", "||", ",", ";", " and ", "&!", "&("] {
                fixed.put_lock(format!("{}{}{}", first, joint, second).as_bytes());
            }
        }
    }
    for word in ["firm", "flag", "grade", "Firm", "firms", "fir", "firm-", "f", "3", "_", "-", "", "\"firm\"", "firm.a"]
    {
        for mark in [":", ">", ">=", "<", "<=", "=", "==", "!=", "=>", "=<", "::", ":>=", ">>", "> =", "<>", ""] {
            for value in
                ["own", "3", "-3", "2.5", "03.0", "-", "", "\"own\"", "3.", ".5", "3x", "1e5", "- 3", "--3", "1.2.3"]
            {
                fixed.put_lock(format!("{}{}{}", word, mark, value).as_bytes());
            }
        }
    }
}

/// Every byte before, in and behind each piece.
fn add_every_byte(fixed: &mut Fixed) {
    for byte in 0..=255u8 {
        for (before, behind) in [
            ("", "firm:own"),
            ("firm", ":own"),
            ("firm:", ""),
            ("firm:o", "n"),
            ("firm:own", ""),
            ("grade", "=3"),
            ("grade>", "3"),
            ("grade>=3", ""),
            ("grade>=3", "5&firm:own"),
            ("firm:own", "flag:taught"),
        ] {
            fixed.put_lock(&[before.as_bytes(), &[byte], behind.as_bytes()].concat());
        }
        for (part, bytes) in [(0, vec![byte]), (0, vec![b'a', byte]), (1, vec![byte]), (1, vec![b'a', byte, b'b'])] {
            let mut entry = (b"a".to_vec(), b"a".to_vec(), 1);
            *(if part == 0 { &mut entry.0 } else { &mut entry.1 }) = bytes;
            let lock = [&entry.0[..], b":b"].concat();
            fixed.put(&LentBytes { vocabulary: vocabulary_bytes(&[entry]), ..usual(&lock) });
        }
        let entry = (b"firm".to_vec(), b"firm".to_vec(), byte);
        fixed.put(&LentBytes { vocabulary: vocabulary_bytes(&[entry]), ..usual(b"firm:own") });
        for action in [vec![byte], vec![b'a', byte, b'b']] {
            fixed.put(&LentBytes { actions: action_bytes(&[b"teach".to_vec(), action.clone()]), ..usual(b"firm:own") });
            fixed.put(&LentBytes { resource: action, ..usual(b"firm:own") });
        }
    }
}

/// Each kind of blank in each gap, and inside each piece, where none may stand.
fn add_blanks(fixed: &mut Fixed) {
    let lock = b"firm:own&flag:taught&grade>=-2.5&grade<30";
    for blank in BLANKS.iter().chain(&[0x0B, 0x0C, 0xA0]) {
        for at in 0..=lock.len() {
            fixed.put_lock(&[&lock[..at], &[*blank], &lock[at..]].concat());
            fixed.put_lock(&[&lock[..at], &[*blank, b' ', *blank], &lock[at..]].concat());
        }
    }
    for lock in [" ", "\n", "\t\r\n ", ""] {
        fixed.put_with_rooms(&usual(lock.as_bytes()));
    }
    for at in 0..lock.len() {
        fixed.put_lock(&lock[..at]);
        fixed.put_lock(&[&lock[..at], &lock[at + 1..]].concat());
    }
}

/// Vocabularies cut at each byte, with each reserved word as word and as path, with repeated words.
fn add_vocabularies(fixed: &mut Fixed) {
    let whole = usual(b"firm:own").vocabulary;
    for end in 0..=whole.len() {
        fixed.put_with_rooms(&LentBytes { vocabulary: whole[..end].to_vec(), ..usual(b"firm:own") });
    }
    for at in 0..whole.len() {
        let mut longer = whole.clone();
        longer[at] = longer[at].wrapping_add(1);
        fixed.put(&LentBytes { vocabulary: longer, ..usual(b"firm:own") });
    }
    for word in RESERVED_WORDS {
        for sort in 1..=3 {
            let lock = if sort == 3 { format!("{}>=3", word) } else { format!("{}:{}", word, word) };
            let entry = (word.as_bytes().to_vec(), b"grade".to_vec(), sort);
            fixed.put(&LentBytes { vocabulary: vocabulary_bytes(&[entry]), ..usual(lock.as_bytes()) });
        }
        for path in [word.to_string(), format!("a.{}", word), format!("{}.a", word), format!("{}s", word)] {
            let entry = (b"firm".to_vec(), path.into_bytes(), 1);
            fixed.put(&LentBytes { vocabulary: vocabulary_bytes(&[entry]), ..usual(b"firm:own") });
        }
    }
    for (first, second) in [("a", "a"), ("a", "A"), ("a", "ab"), ("ab", "a"), ("firm", "firm"), ("if", "if")] {
        for between in 0..3 {
            let entry = |word: &str, path: &str, sort: u8| (word.as_bytes().to_vec(), path.as_bytes().to_vec(), sort);
            let mut entries = vec![entry(first, "firm", 1)];
            entries.extend((0..between).map(|index| entry(["x", "y"][index], "a", 2)));
            entries.push(entry(second, "other", 2));
            let lock = format!("{}:own&{}:own", first, second);
            fixed.put(&LentBytes { vocabulary: vocabulary_bytes(&entries), ..usual(lock.as_bytes()) });
        }
    }
}

/// Action lists cut at each byte, empty strings, order and repeats.
fn add_actions(fixed: &mut Fixed) {
    let whole = b"\x05teach\x00\x04read\x05teach\x07a,\xC3\xBC] )";
    for end in 0..=whole.len() {
        fixed.put_with_rooms(&LentBytes { actions: whole[..end].to_vec(), ..usual(b"firm:own") });
    }
    for resource in ["", " ", "shaft:A", "shaft:A ", "shaft:A\n", "\"", "permit", "\\", "x\u{7f}", "S\u{fc}d"] {
        fixed.put_with_rooms(&LentBytes { resource: resource.as_bytes().to_vec(), ..usual(b"firm:own") });
    }
}

/// Every size at its limit, one below and one above.
fn add_sizes(fixed: &mut Fixed) {
    for count in [0, 1, 2, 15, 16, 17, 18] {
        let words: Vec<(Vec<u8>, Vec<u8>, u8)> =
            (0..count).map(|index| (vec![b'a' + index], vec![b'p', b'a' + index], 1 + index % 3)).collect();
        fixed.put_with_rooms(&LentBytes { vocabulary: vocabulary_bytes(&words), ..usual(b"a:own") });
        let tests = vec!["firm:own"; usize::from(count)].join("&");
        fixed.put_with_rooms(&usual(tests.as_bytes()));
        fixed.put_with_rooms(&usual(format!("{}&", tests).as_bytes()));
        let actions = action_bytes(&vec![b"teach".to_vec(); usize::from(count)]);
        fixed.put_with_rooms(&LentBytes { actions, ..usual(b"firm:own") });
    }
    for length in [0, 1, 63, 64, 65, 127, 128, 129, 255] {
        let long = |byte: u8| vec![byte; length];
        let in_vocabulary = |word: Vec<u8>, path: Vec<u8>, lock: &[u8]| LentBytes {
            vocabulary: vocabulary_bytes(&[(word, path, 1)]),
            ..usual(lock)
        };
        fixed.put_with_rooms(&in_vocabulary(long(b'w'), b"a".to_vec(), &[&long(b'w')[..], b":b"].concat()));
        fixed.put_with_rooms(&in_vocabulary(b"a".to_vec(), long(b'p'), b"a:b"));
        let mut dotted = long(b'p');
        dotted.iter_mut().skip(1).step_by(4).for_each(|byte| *byte = b'.');
        fixed.put_with_rooms(&in_vocabulary(b"a".to_vec(), dotted, b"a:b"));
        fixed.put_with_rooms(&usual(&[b"firm:", &long(b'v')[..]].concat()));
        fixed.put_with_rooms(&usual(&[b"flag:", &long(b'-')[..], b"&firm:own"].concat()));
        fixed.put_with_rooms(&usual(&[&long(b'u')[..], b":own"].concat()));
        fixed.put_with_rooms(&LentBytes { actions: action_bytes(&[long(b'a')]), ..usual(b"firm:own") });
        fixed.put_with_rooms(&LentBytes { actions: action_bytes(&[b"a".to_vec(), long(0xC3)]), ..usual(b"firm:own") });
        fixed.put_with_rooms(&LentBytes { resource: long(b'r'), ..usual(b"firm:own") });
    }
    for digits in [1, 2, 14, 15, 16, 17, 40] {
        for point in 0..digits.min(17) {
            for minus in ["", "-"] {
                let number = format!("{}{}.{}", minus, "7".repeat(digits - point), "0".repeat(point));
                fixed.put_lock(format!("grade<{}", number.trim_end_matches('.')).as_bytes());
            }
        }
    }
    let long: Vec<(Vec<u8>, Vec<u8>, u8)> =
        (0..16).map(|index| (vec![b'a' + index], vec![b'p'; 64], 1 + index % 2)).collect();
    let test = |index: u8| [vec![b'a' + index, b':'], vec![b'v'; 127]].concat();
    fixed.put_with_rooms(&LentBytes {
        vocabulary: vocabulary_bytes(&long),
        lock: (0..16).map(test).collect::<Vec<_>>().join(&b'&'),
        actions: action_bytes(&vec![vec![b'x'; 127]; 16]),
        resource: vec![b'y'; 127],
    });
}

/// A random vector: half of them locks that keep every rule.
pub fn random(random: &mut Random) -> Vector {
    let mut plan = plan(random);
    let broken = random.below(8);
    if broken < 2 {
        break_a_rule(&mut plan, random);
    }
    let mut bytes = bytes_of(&plan, random);
    if broken == 2 || broken == 3 {
        damage(&mut bytes, random);
    }
    match permit_of(bytes.lent()) {
        Err(_) => vector(&bytes, random.pick(&[0, 1, 80, 200]), &[0, 0, 0], REQUEST),
        Ok(permit) => {
            let needed = permit.text().len();
            let less = random.below(needed);
            let room = random.pick(&[needed, needed, needed, needed + 1, needed + 9, needed - 1, less]);
            let (request, bag) = case(&permit, random);
            vector(&bytes, room, &bag, [&request[0], &request[1], &request[2]])
        }
    }
}

#[cfg(test)]
mod tests {
    use super::*;
    use definitions::compile::table_of;
    use definitions::deciding::decide;
    use definitions::locks::Reason;
    use definitions::policies::Version;

    /// How many answers begin so.
    fn begin(answers: &[String], with: &str) -> usize {
        answers.iter().filter(|answer| answer.starts_with(with)).count()
    }

    #[test]
    fn the_line_is_as_said() {
        let all = fixed();
        let example = &all[0];
        let text =
            "permit(principal, action in [\"teach\", \"read\"], resource == \"shaft:A\") when { principal.firm == \
            \"own\" && \"taught\" in principal.flags && principal.grade >= 3 };";
        assert_eq!(example[1], b"firm:own & flag:taught & grade>=3");
        assert_eq!(usize::from(u16::from_le_bytes([example[4][0], example[4][1]])), text.len());
        assert_eq!(answer(example), format!("{} {} 1 1 1 1", text.len(), sum_of(text.as_bytes())));
        // One byte less of room.
        assert_eq!(answer(&all[1]), format!("R 29 {}", sum_of(&room_of(&all[1]))));
    }

    // 02, requests 2 and 7: the permit's text, compiled under either version, decides what the lock means.
    #[test]
    fn both_versions_decide_what_the_lock_means() {
        let mut source = Random::new(5);
        let some: Vec<Vector> = (0..2_000).map(|_| random(&mut source)).collect();
        let mut permits = 0;
        for vector in fixed().iter().chain(&some) {
            if let Ok(permit) = permit_of(lent_of(vector)) {
                let (text, request) = (permit.text(), request_in(&vector[6..9]));
                for version in Version::ALL {
                    let decided = decide(&text, &table_of(&text, version), &vector[5], request);
                    assert_eq!(decided, permit.decide(&vector[5], request));
                }
                permits += 1;
            }
        }
        assert!(permits > 2_500, "{}", permits);
    }

    #[test]
    fn every_answer_and_every_reason_is_there() {
        let all = fixed();
        let answers: Vec<String> = all.iter().map(answer).collect();
        assert!(begin(&answers, "R 28 ") > 3_000 && begin(&answers, "R 29 ") > 100);
        assert!(answers.iter().filter(|answer| answer.ends_with(" 1 1")).count() > 500);
        let mut reasons: Vec<String> = Vec::new();
        for vector in &all {
            if let Err(flaw) = permit_of(lent_of(vector)) {
                assert!(flaw.reason != Reason::WouldNotCompile);
                let reason = format!("{:?} {:?}", flaw.part, flaw.reason);
                if !reasons.contains(&reason) {
                    reasons.push(reason);
                }
            }
        }
        assert_eq!(reasons.len(), 27, "{:?}", reasons);
    }

    #[test]
    fn random_ones_are_mixed() {
        let mut source = Random::new(4);
        let answers: Vec<String> = (0..4_000).map(|_| answer(&random(&mut source))).collect();
        assert!(begin(&answers, "R 28 ") > 900 && begin(&answers, "R 29 ") > 300);
        for end in [" 1 1", " 3 0", " 4 0", " R 21", " R 23", " R 24"] {
            assert!(answers.iter().any(|answer| answer.ends_with(end)), "{}", end);
        }
        assert!(answers.iter().filter(|answer| answer.ends_with(" 1 1")).count() > 500);
    }
}
