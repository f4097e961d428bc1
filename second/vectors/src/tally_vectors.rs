//! The tally vectors: text, table, question, the number of requests, and these as they are lent; and the counts that the call leaves.

use std::array::from_fn;

use definitions::compile::table_of;

use definitions::deciding::Request;
use definitions::plans::string_value;
use definitions::policies::Version;
use definitions::tallies::{requests_lent, tally_into, LENT_COUNTS, MOST_REQUESTS};
use generators::bag_bytes::{break_a_rule, damaged};
use generators::examples::{column, example_question, number, question_of, question_of_rows, EXAMPLE, REFUSED_TEXTS};
use generators::random::Random;
use generators::requests;
use generators::rich_bags::cut_and_changed_questions;
use generators::tallies::{self, question_of_numbers, rules_with_rows_of_their_own, REFUSED, REQUESTS};

use crate::vector::Vector;

/// The system's request, and the worked example's.
pub const SYSTEM: Request = REQUESTS[0];
pub const TEACH: Request = REQUESTS[1];

/// Rules in which it matters who wants to do what with what, over the columns of `question_of_rows`.
pub const BY_REQUEST: &str = "permit(principal is person,action,resource)when{env.c0==false||env has c1};\
    forbid(principal is tool,action in[\"teach\"],resource)when{env.c1==env.c0};\
    permit(principal,action in[\"read\",\"teach\"],resource is shaft)when{!env has c2};\
    forbid(principal,action,resource==\"record:1\")when{env.c0 in[3,4]||action.name==\"own\"};\
    permit(principal,action,resource is controller);";

/// A vector; the number of requests has 8 bytes, little-endian.
pub fn vector(text: &[u8], table: &[u8], question: &[u8], many: u64, requests: &[u8]) -> Vector {
    vec![text.to_vec(), table.to_vec(), question.to_vec(), many.to_le_bytes().to_vec(), requests.to_vec()]
}

/// A vector with the text's own table and rightly lent requests.
pub fn with_own_table(text: &str, question: &[u8], requests: &[Request]) -> Vector {
    let text = text.as_bytes();
    vector(text, &table_of(text, Version::One), question, requests.len() as u64, &requests_lent(requests))
}

/// The worked example with these requests.
fn example(many: u64, requests: &[u8]) -> Vector {
    vector(EXAMPLE.as_bytes(), &table_of(EXAMPLE.as_bytes(), Version::One), &example_question(), many, requests)
}

/// The number of requests that a vector says.
pub fn many_of(vector: &Vector) -> u64 {
    vector[3].iter().rev().fold(0, |number, byte| number << 8 | u64::from(*byte))
}

/// The counts as they are lent: count n is n + 1.
pub fn lent() -> [u32; LENT_COUNTS] {
    from_fn(|index| index as u32 + 1)
}

/// The call's answer and the counts after it.
pub fn tally_of(vector: &Vector) -> (Result<(), u8>, [u32; LENT_COUNTS]) {
    let mut counts = lent();
    // A number that this machine's `usize` cannot hold is more than eight.
    let many = usize::try_from(many_of(vector)).unwrap_or(usize::MAX);
    (tally_into(&vector[0], &vector[1], &vector[2], many, &vector[4], &mut counts), counts)
}

/// The answer: `T` and place and number of each count that is not 0; or `R`, the refusal's number, and the sum of all counts.
pub fn answer(vector: &Vector) -> String {
    let (answer, counts) = tally_of(vector);
    if let Err(number) = answer {
        return format!("R {} {}", number, sum_of(&counts));
    }
    let pairs: Vec<String> = (0..LENT_COUNTS)
        .filter(|place| counts[*place] != 0)
        .map(|place| format!("{} {}", place, counts[place]))
        .collect();
    format!("T {}", pairs.join(" "))
}

/// A short sum of counts.
fn sum_of(counts: &[u32]) -> u64 {
    counts.iter().fold(0, |sum, count| (sum * 31 + u64::from(*count)) % 1_000_003)
}

/// The vectors that are the same for every seed.
pub fn fixed() -> Vec<Vector> {
    let mut vectors = Vec::new();
    add_example(&mut vectors);
    add_turns(&mut vectors);
    add_wrong_things(&mut vectors);
    add_numbers_of_requests(&mut vectors);
    add_cuts(&mut vectors);
    add_lengths(&mut vectors);
    add_columns(&mut vectors);
    add_bases(&mut vectors);
    add_policies(&mut vectors);
    add_many_rows(&mut vectors);
    add_wrong_questions(&mut vectors);
    add_wrong_tables(&mut vectors);
    vectors
}

/// The worked example: each request alone, all beginnings and ends of the eight, and one request up to eight times.
fn add_example(vectors: &mut Vec<Vector>) {
    let question = example_question();
    for request in REQUESTS {
        vectors.push(with_own_table(EXAMPLE, &question, &[request]));
    }
    for count in 2..=MOST_REQUESTS {
        vectors.push(with_own_table(EXAMPLE, &question, &REQUESTS[..count]));
        vectors.push(with_own_table(EXAMPLE, &question, &REQUESTS[MOST_REQUESTS - count..]));
        vectors.push(with_own_table(EXAMPLE, &question, &vec![TEACH; count]));
        vectors.push(with_own_table(EXAMPLE, &question, &vec![SYSTEM; count]));
    }
}

/// Each refusal at each request's turn: of one to eight requests one is refused, the ones before it are not, and those behind it may be.
fn add_turns(vectors: &mut Vec<Vector>) {
    let table = table_of(EXAMPLE.as_bytes(), Version::One);
    for count in 1..=MOST_REQUESTS {
        for turn in 0..count {
            let mut add = |table: &[u8], question: &[u8], requests: &[Request]| {
                let lent = requests_lent(requests);
                vectors.push(vector(EXAMPLE.as_bytes(), table, question, count as u64, &lent));
            };
            for (index, (_, refused)) in REFUSED.iter().enumerate() {
                let mut requests = REQUESTS[..count].to_vec();
                requests[turn] = *refused;
                add(&table, &example_question(), &requests);
                // Behind it all are refused, with other numbers too; before it all are the system's, over a table that is wrong.
                for behind in turn + 1..count {
                    requests[behind] = REFUSED[(index + 5 * behind) % REFUSED.len()].1;
                }
                add(&table, &example_question(), &requests);
                requests[..turn].fill(SYSTEM);
                add(&table[1..], &example_question(), &requests);
            }
            // 20, where the request is the first that is not the system's; and 24, where it is refused by itself, too.
            let mut requests = vec![SYSTEM; count];
            requests[turn] = TEACH;
            add(&table[1..], &example_question(), &requests);
            requests[turn + 1..].fill(REFUSED[0].1);
            add(&table[1..], &example_question(), &requests);
            add(&table, &[0, 0, 0], &requests);
            requests[turn] = REFUSED[turn].1;
            add(&table, &[0, 0, 0], &requests);
        }
    }
}

/// Three requests, each good, the system's, or refused by one of three numbers, over good and wrong tables and questions.
fn add_wrong_things(vectors: &mut Vec<Vector>) {
    let kinds = [TEACH, SYSTEM, REFUSED[1].1, REFUSED[5].1, REFUSED[10].1];
    let table = table_of(EXAMPLE.as_bytes(), Version::One);
    let good = example_question();
    for wrong in 0..4 * 125 {
        let table = if wrong % 2 == 1 { &table[..table.len() - 1] } else { &table };
        let question: &[u8] = if wrong / 2 % 2 == 1 { &good[..good.len() - 1] } else { &good };
        let requests = [kinds[wrong / 4 % 5], kinds[wrong / 20 % 5], kinds[wrong / 100]];
        vectors.push(vector(EXAMPLE.as_bytes(), table, question, 3, &requests_lent(&requests)));
    }
}

/// 27: no request or more than eight, with all else right, and with all else wrong.
fn add_numbers_of_requests(vectors: &mut Vec<Vector>) {
    let nine = requests_lent(&[&REQUESTS[..], &[TEACH]].concat());
    for many in (0..=20).chain([
        255,
        256,
        257,
        264,
        1 << 16,
        (1 << 16) + 1,
        (1 << 32) - 1,
        1 << 32,
        (1 << 32) + 1,
        (1 << 32) + 8,
        1 << 63,
        (1 << 63) + 1,
        u64::MAX - 7,
        u64::MAX,
    ]) {
        vectors.push(example(many, &nine));
        vectors.push(example(many, &requests_lent(&[SYSTEM; 20])));
        vectors.push(vector(b":", b"", &[0, 0, 0], many, b""));
        vectors.push(vector(b":", b"", &example_question(), many, b"\x06system"));
    }
}

/// Requests cut off at every byte, and with bytes behind the last.
fn add_cuts(vectors: &mut Vec<Vector>) {
    let three = requests_lent(&[TEACH, SYSTEM, REQUESTS[3]]);
    for length in 0..=three.len() {
        for many in 1..=4 {
            vectors.push(example(many, &three[..length]));
        }
    }
    for many in 1..=8 {
        for behind in [&b"\0"[..], b"\x01", b"\xff", b"\x09person:K7", b"\x09person:K7\x05teach\x07shaft:A", &[0; 300]]
        {
            vectors.push(example(many, &[&requests_lent(&REQUESTS[..many as usize]), behind].concat()));
        }
    }
    // A system that has nothing but its subject; what is behind a part that is cut off is not read as others.
    for (many, lent) in [
        (1, &b"\x06system"[..]),
        (1, b"\x06system\x05teac"),
        (1, b"\x06system\xff"),
        (2, b"\x06system\xff\x01b\x09person:K7\x05teach\x07shaft:A"),
        (2, b"\x06system\x00\x00\x06system"),
        (2, b"\x06system\x00\x06system"),
        (3, b"\x06system\x00\x00\x06system\x00\x00\x06system"),
        (3, b"\x06system\x00\x00\x06system\x00\x00\x07system"),
        (1, b"\x07system"),
        (1, b"\x05system"),
        (1, b"\x09person:K"),
        (1, b"\x08person:K7\x05teach\x07shaft:A"),
        (1, b"\x09person:K7\x05teach\x08shaft:A"),
        (1, b"\x09person:K7\x06teach\x07shaft:A"),
        (1, b"person:K7teachshaft:A"),
        (1, b"person:K7\nteach\nshaft:A\n"),
    ] {
        vectors.push(example(many, lent));
    }
}

/// Parts of the greatest lengths, in each of two requests.
fn add_lengths(vectors: &mut Vec<Vector>) {
    for length in [1, 7, 8, 99, 100, 101, 127, 128, 200, 254, 255] {
        let long = |start: &str| -> Vec<u8> { start.bytes().chain([b'x'; 255]).take(length).collect() };
        let (subject, action, resource) = (long("person:"), long(""), long("shaft:"));
        for request in [
            Request { subject: &subject, ..TEACH },
            Request { action: &action, ..TEACH },
            Request { resource: &resource, ..TEACH },
            Request { action: &action, resource: &resource, ..SYSTEM },
        ] {
            for requests in [[request, TEACH], [TEACH, request], [SYSTEM, request]] {
                vectors.push(example(2, &requests_lent(&requests)));
            }
        }
    }
}

/// 0 to 6 columns, and one to eight requests.
fn add_columns(vectors: &mut Vec<Vector>) {
    for (index, counts) in [
        &[][..],
        &[1],
        &[8],
        &[2, 3],
        &[8, 8],
        &[3, 1, 2],
        &[5, 4, 3],
        &[1, 1, 1, 1],
        &[2, 3, 4, 2],
        &[2, 2, 2, 2, 2],
        &[1, 2, 1, 3, 1, 2],
        &[2, 2, 2, 2, 2, 2],
        &[8, 1, 1, 1, 1, 8],
        &[3, 3, 3, 2, 2, 2],
    ]
    .iter()
    .enumerate()
    {
        let question = question_of_rows(counts);
        for count in 1..=MOST_REQUESTS {
            vectors.push(with_own_table(BY_REQUEST, &question, &REQUESTS[..count]));
            vectors.push(with_own_table(BY_REQUEST, &question, &REQUESTS[MOST_REQUESTS - count..]));
        }
        for (number, condition) in CONDITIONS.iter().enumerate() {
            let first = (index + number) % MOST_REQUESTS;
            let requests = [REQUESTS[first], TEACH, REQUESTS[(first + 3) % MOST_REQUESTS]];
            for text in [
                format!("permit(principal,action,resource)when{{{}}};", condition),
                format!("forbid(principal is person,action,resource)when{{{}}};", condition),
                format!(
                    "permit(principal,action,resource);forbid(principal,action,resource is shaft)when{{!{}}};",
                    condition
                ),
            ] {
                vectors.push(with_own_table(&text, &question, &requests[..1 + number % 3]));
            }
        }
    }
}

const CONDITIONS: [&str; 9] = [
    "true",
    "env.c0==false",
    "env has c1",
    "env.c1==env.c0",
    "(env.c5!=false||env.c2==true)",
    "env.c0 in[3,\"x\",true]",
    "env.c0<=4",
    "env.c0 in env.c1",
    "if env has c0 then env.c1==false else env.c2==false",
];

/// Columns that set, add and remove attributes of the base, under the same root and under another.
fn add_bases(vectors: &mut Vec<Vector>) {
    let own = || string_value(b"own");
    let base: [&[(&str, Vec<u8>)]; 3] = [&[("a", own()), ("a.b", number(1.0))], &[("a", vec![3, 1])], &[]];
    let columns = [
        column(1, "a", &[vec![0], own(), string_value(b"loan"), vec![3, 1]]),
        column(2, "a", &[vec![3, 0], vec![0]]),
        column(1, "a.b", &[number(0.0), number(-0.0), number(1.0), vec![0]]),
        column(3, "a", &[own(), vec![0]]),
    ];
    for text in [
        "permit(principal,action,resource)when{principal.a==\"own\"};forbid(principal is tool,action,resource)when{env has a};",
        "forbid(principal,action in[\"teach\"],resource)when{resource.a==true};permit(principal,action,resource)when{principal has a};",
        "permit(principal,action,resource)when{principal.a.b==0};permit(principal,action,resource)when{principal.a.b<1||env.a==principal.a};",
    ] {
        for first in 0..columns.len() {
            for count in 0..=columns.len() - first {
                let question = question_of(base, columns[first..first + count].to_vec());
                vectors.push(with_own_table(text, &question, &REQUESTS[first..first + 1 + count % 3]));
            }
        }
    }
}

/// 64 policies, each with rows of its own; the last of 64, and none.
fn add_policies(vectors: &mut Vec<Vector>) {
    let all = rules_with_rows_of_their_own();
    for (a, b, c) in [(8, 8, 5), (8, 8, 4), (8, 8, 1), (8, 1, 8), (1, 8, 8), (3, 5, 2), (1, 1, 1)] {
        vectors.push(with_own_table(&all, &question_of_numbers(a, b, c), &[TEACH]));
        vectors.push(with_own_table(&all, &question_of_numbers(a, b, c), &REQUESTS[..3]));
    }
    let mut last = "permit(principal is tool,action,resource);".repeat(62);
    last.push_str(
        "forbid(principal,action,resource)when{env.c0==true};permit(principal,action,resource)when{env.c1==false};",
    );
    for text in [&last, "", "forbid(principal,action,resource);"] {
        for count in 1..=MOST_REQUESTS {
            vectors.push(with_own_table(text, &question_of_rows(&[3, 2]), &REQUESTS[..count]));
        }
    }
}

/// The question with the most rows: 262,144, by six columns of eight; eight times as many where eight requests ask.
fn add_many_rows(vectors: &mut Vec<Vector>) {
    let question = question_of_rows(&[8; 6]);
    vectors.push(with_own_table(BY_REQUEST, &question, &[SYSTEM; 8]));
    vectors.push(with_own_table(BY_REQUEST, &question, &REQUESTS[1..3]));
    let last =
        "permit(principal,action,resource)when{env.c0==3&&env.c1==4&&env.c2==true&&env.c3==false&&env.c4==\"\"&&\
        !env has c5};";
    vectors.push(with_own_table(last, &question, &[TEACH, SYSTEM]));
    vectors.push(with_own_table(BY_REQUEST, &question_of_rows(&[8, 8, 8, 8, 4]), &REQUESTS));
}

/// The rich question cut and changed; a bag.
fn add_wrong_questions(vectors: &mut Vec<Vector>) {
    let text = "permit(principal,action,resource)when{principal has a};";
    for question in cut_and_changed_questions() {
        vectors.push(with_own_table(text, &question, &REQUESTS[..2]));
    }
}

/// 20: texts that are refused, tables that are cut, changed and longer.
fn add_wrong_tables(vectors: &mut Vec<Vector>) {
    let table = table_of(EXAMPLE.as_bytes(), Version::One);
    let question = example_question();
    for requests in [&[TEACH][..], &[SYSTEM], &[SYSTEM, TEACH], &[TEACH, SYSTEM, REFUSED[0].1], &REQUESTS] {
        let mut add = |text: &[u8], table: &[u8]| {
            let lent = requests_lent(requests);
            vectors.push(vector(text, table, &question, requests.len() as u64, &lent));
        };
        for text in REFUSED_TEXTS {
            add(text.as_bytes(), &table);
        }
        add(&[b' '; 8_193], &table);
        add(&[b' '; 8_192], b"");
        add(b"", b"");
        add(b"", &table);
        for at in (0..table.len()).step_by(3) {
            add(EXAMPLE.as_bytes(), &table[..at]);
            let mut changed = table.clone();
            changed[at] ^= 1;
            add(EXAMPLE.as_bytes(), &changed);
        }
        add(EXAMPLE.as_bytes(), &[&table[..], &[1, 2, 3]].concat());
    }
}

/// A random vector.
pub fn random(random: &mut Random) -> Vector {
    let wish = requests::wish(random);
    let text = requests::text(random, &wish);
    let mut table = table_of(&text, Version::One);
    let most = random.pick(&[4, 30, 100, 300]);
    let mut plan = requests::question(random, most);
    let mut question = plan.bytes();
    let asked = tallies::requests(random, &wish);
    let (many, lent) = tallies::lent(random, &asked);
    match random.below(30) {
        0 => question = damaged(question, random),
        1 => {
            break_a_rule(&mut plan, random);
            question = plan.bytes();
        }
        2 => table = damaged(table, random),
        _ => {}
    }
    vector(&text, &table, &question, many, &lent)
}

#[cfg(test)]
mod tests {
    use super::*;
    use definitions::questions::read_question;
    use definitions::tallies::{read_requests, GROUP};

    // The worked example by hand: rows 3 and 4 are allowed by policy 1, rows 2, 5 and 8 forbidden by policy 2, four are neither. The
    // sums are those of the one request.
    #[test]
    fn the_answer_is_a_line() {
        let lent = requests_lent(&[TEACH]);
        assert_eq!(answer(&example(1, &lent)), "T 0 2 1 3 2 4 4 2 5 3 544 2 545 3 546 4 548 2 549 3");
        assert_eq!(answer(&example(2, &requests_lent(&[SYSTEM; 2]))), "T 3 9 71 9 547 18");
        let before = sum_of(&lent_before());
        assert_eq!(answer(&example(2, &lent)), format!("R 21 {}", before));
        assert_eq!(answer(&example(0, &lent)), format!("R 27 {}", before));
    }

    /// 1, 2, 3 up to 612.
    fn lent_before() -> Vec<u32> {
        (1..=612).collect()
    }

    fn some(count: usize) -> Vec<Vector> {
        let mut source = Random::new(116);
        (0..count).map(|_| random(&mut source)).collect()
    }

    // A refused tally leaves the counts; a tally leaves none of what they were.
    #[test]
    fn refused_tallies_leave_the_counts() {
        for vector in fixed().iter().chain(&some(500)) {
            match tally_of(vector) {
                (Err(_), counts) => assert_eq!(counts.to_vec(), lent_before()),
                (Ok(()), counts) => {
                    let rows = read_question(&vector[2]).unwrap().rows() as u32;
                    for (number, group) in counts.chunks(GROUP).enumerate() {
                        let told = if number == MOST_REQUESTS { many_of(vector) as u32 } else { 1 };
                        let told = if (number as u64) < many_of(vector) || number == MOST_REQUESTS { told } else { 0 };
                        assert_eq!(group[..4].iter().sum::<u32>(), rows * told);
                        assert_eq!(group[4..].iter().sum::<u32>(), group[0] + group[1]);
                    }
                }
            }
        }
    }

    /// The refusal's number, the number of requests, and the turn, from 0, of the one that is refused; nothing if none is.
    fn refused_turn(vector: &Vector) -> Option<(u8, u64, usize)> {
        let number = tally_of(vector).0.err()?;
        let requests = read_requests(many_of(vector).min(8) as usize, &vector[4]);
        let turn = requests.iter().position(|request| {
            !request.is_of_system() && (number == 20 || number == 24 || request.refusal() == Some(number))
        });
        Some((number, many_of(vector), turn.unwrap_or(0)))
    }

    #[test]
    fn every_refusal_is_there_at_every_turn() {
        let found: Vec<(u8, u64, usize)> = fixed().iter().filter_map(refused_turn).collect();
        let count = |is_such: &dyn Fn(&(u8, u64, usize)) -> bool| found.iter().filter(|one| is_such(one)).count();
        for number in 20..=23 {
            for turn in 0..MOST_REQUESTS {
                assert!(count(&|one| one.0 == number && one.2 == turn) >= 2, "{} at {}", number, turn);
            }
        }
        for many in 1..=8 {
            assert!(count(&|one| one.0 == 24 && one.1 == many) >= 2, "24 with {}", many);
        }
        assert!(count(&|one| one.0 == 27) > 50);
    }

    // Every number of columns with every number of requests; each of the four outcomes, and each policy's count but 0.
    #[test]
    fn every_number_of_columns_and_requests_is_tallied() {
        let mut seen = [[0; 9]; 7];
        let mut places = [false; GROUP];
        let mut most = 0;
        for vector in fixed().iter().chain(&some(1_000)) {
            if let (Ok(()), counts) = tally_of(vector) {
                let columns = read_question(&vector[2]).unwrap().columns.len();
                seen[columns][many_of(vector) as usize] += 1;
                most = most.max(counts[..4].iter().sum());
                (0..GROUP).filter(|place| counts[*place] != 0).for_each(|place| places[place] = true);
            }
        }
        for (columns, by_requests) in seen.iter().enumerate() {
            for (requests, count) in by_requests.iter().enumerate().skip(1) {
                assert!(*count >= 2, "{} columns, {} requests", columns, requests);
            }
        }
        assert_eq!(most, 262_144);
        assert!(places.iter().all(|seen| *seen));
    }
}
