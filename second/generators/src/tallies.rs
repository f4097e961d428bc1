//! Requests of tallies, random ones and those that every seed has, as they are lent; and rules in which each of 64 policies decides
//! rows of its own.

use definitions::deciding::Request;
use definitions::plans::Column;
use definitions::tallies::{requests_lent, MOST_REQUESTS};

use crate::examples::{column, number, question_of};
use crate::random::Random;
use crate::requests::{wish, Wish};

/// Eight requests that are not refused, the system's first.
pub const REQUESTS: [Request; MOST_REQUESTS] = [
    Request { subject: b"system", action: b"", resource: b"" },
    Request { subject: b"person:K7", action: b"teach", resource: b"shaft:A" },
    Request { subject: b"tool:T1", action: b"teach", resource: b"shaft:A" },
    Request { subject: b"person:K7", action: b"read", resource: b"shaft:A" },
    Request { subject: b"person:K8", action: b"teach", resource: b"record:1" },
    Request { subject: b"tool:tool:", action: b"read", resource: b"controller:c" },
    Request { subject: b"person:system", action: b"own", resource: b"parameter:p" },
    Request { subject: b"system", action: b"teach", resource: b"shaft:A" },
];

/// Requests that are refused, with their number; behind its first fault each may have others.
pub const REFUSED: [(u8, Request); 12] = [
    (21, Request { subject: b"", action: b"", resource: b"" }),
    (21, Request { subject: b"system:", action: b"teach", resource: b"shaft:A" }),
    (21, Request { subject: b"person:", action: b"teach", resource: b"shaft:A" }),
    (21, Request { subject: b"System", action: b"", resource: b"shaft:A" }),
    (21, Request { subject: b"shaft:A", action: b"teach", resource: b"person:K7" }),
    (22, Request { subject: b"person:K7", action: b"", resource: b"shaft:A" }),
    (22, Request { subject: b"tool:T1", action: b"", resource: b"" }),
    (22, Request { subject: b"person:K7", action: &[b'a'; 101], resource: b"shaft:A" }),
    (23, Request { subject: b"person:K7", action: b"teach", resource: b"" }),
    (23, Request { subject: b"person:K7", action: b"teach", resource: b"shaft:" }),
    (23, Request { subject: b"tool:T1", action: b"teach", resource: b"person:K7" }),
    (23, Request { subject: b"tool:T1", action: b"teach", resource: b"system" }),
];

/// Permits and forbids in turn, 64 of them: policy n is satisfied in the rows in which env.a and env.b are its own numbers and env.c is
/// at least the remainder of n by 4.
pub fn rules_with_rows_of_their_own() -> String {
    (0..64)
        .map(|index| {
            let effect = if index % 2 == 0 { "permit" } else { "forbid" };
            let (a, b, c) = (index / 8, index % 8, (index + 1) % 4);
            format!("{}(principal,action,resource)when{{env.a=={}&&env.b=={}&&env.c>={}}};", effect, a, b, c)
        })
        .collect()
}

/// Columns env.a, env.b and env.c, each of the numbers from 0 on, and so many of these.
pub fn question_of_numbers(a: usize, b: usize, c: usize) -> Vec<u8> {
    let numbered = |path: &str, count: usize| -> Column {
        let candidates: Vec<Vec<u8>> = (0..count).map(|value| number(value as f64)).collect();
        column(3, path, &candidates)
    };
    question_of([&[], &[], &[]], vec![numbered("a", a), numbered("b", b), numbered("c", c)])
}

/// One to eight random requests that are not refused: some are the system's, some like this one in two parts or in all.
pub fn requests(random: &mut Random, own: &Wish) -> Vec<Request<'static>> {
    (0..random.pick(&[1, 1, 2, 2, 3, 4, 5, 6, 7, 8])).map(|_| request(random, own)).collect()
}

fn request(random: &mut Random, own: &Wish) -> Request<'static> {
    let other = wish(random);
    let part = random.below(5);
    let either = |number: usize, other: &'static str, own: &'static str| if part == number { other } else { own };
    Request {
        subject: if random.one_in(8) { b"system" } else { either(0, other.subject, own.subject).as_bytes() },
        action: either(1, other.action, own.action).as_bytes(),
        resource: either(2, other.resource, own.resource).as_bytes(),
    }
}

/// A number of requests and their bytes, as they are lent: rightly, or with a fault that mostly is refused.
pub fn lent(random: &mut Random, requests: &[Request]) -> (u64, Vec<u8>) {
    let mut requests = requests.to_vec();
    let many = requests.len() as u64;
    if random.one_in(6) {
        let at = random.below(requests.len());
        requests[at] = random.pick(&REFUSED).1;
    }
    let mut bytes = requests_lent(&requests);
    match random.below(24) {
        0 => bytes.truncate(random.below(bytes.len())),
        1 => {
            let at = random.below(bytes.len());
            bytes[at] = random.byte();
        }
        2 => {
            let at = random.below(bytes.len());
            bytes[at] = bytes[at].wrapping_add(1);
        }
        3 | 4 => bytes.extend((0..random.between(1, 30)).map(|_| random.byte())),
        5 => return (random.between(1, requests.len()) as u64, bytes),
        6 => return (random.pick(&[0, 9, many + 1, many + 8, many + 256, many << 32, u64::MAX]), bytes),
        _ => {}
    }
    (many, bytes)
}

#[cfg(test)]
mod tests {
    use super::*;
    use definitions::compile::policies_of;
    use definitions::questions::read_question;
    use definitions::tallies::read_requests;

    fn is_refused(request: &Request) -> Option<u8> {
        if request.is_of_system() {
            None
        } else {
            request.refusal()
        }
    }

    #[test]
    fn refused_requests_have_their_number() {
        assert!(REQUESTS.iter().all(|request| is_refused(request).is_none()));
        for (number, request) in REFUSED {
            assert_eq!(is_refused(&request), Some(number));
        }
    }

    #[test]
    fn there_are_64_policies_and_the_most_rows_of_numbers() {
        let policies = policies_of(rules_with_rows_of_their_own().as_bytes()).unwrap();
        assert_eq!(policies.len(), 64);
        assert_eq!(read_question(&question_of_numbers(8, 8, 8)).unwrap().rows(), 512);
    }

    // Rightly lent requests are most of them, and faults are there.
    #[test]
    fn random_requests_are_spread() {
        let mut random = Random::new(16);
        let (mut right, mut number, mut cut) = (0, 0, 0);
        for _ in 0..3_000 {
            let own = wish(&mut random);
            let requests = requests(&mut random, &own);
            assert!((1..=8).contains(&requests.len()) && requests.iter().all(|request| is_refused(request).is_none()));
            let (many, bytes) = lent(&mut random, &requests);
            if !(1..=8).contains(&many) {
                number += 1;
            } else if read_requests(many as usize, &bytes).iter().all(|request| is_refused(request).is_none()) {
                right += 1;
            } else {
                cut += 1;
            }
        }
        assert!(right > 1_800 && number > 60 && cut > 300, "{} {} {}", right, number, cut);
    }
}
