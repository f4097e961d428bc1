//! The sheet vectors: text, table, question, subject, action, resource, start row, the lent sheet's length and the named byte,
//! and the page that the call answers, with the sum of the whole sheet after it.

use definitions::compile::table_of;

use definitions::deciding::Request;
use definitions::plans::{list_value, string_value, Column};
use definitions::policies::Version;
use definitions::questions::read_question;
use definitions::sheets::{write_page, Page, PageWanted, ROW_BYTES};
use generators::bag_bytes::{break_a_rule, damaged};
use generators::examples::{column, example_question, number, question_of, question_of_rows, EXAMPLE, REQUEST};
use generators::marks::{rules_satisfied, rules_with_marks_of_their_own, PLACES};
use generators::random::Random;
use generators::requests;
use generators::rich_bags::{bag_of_length, cut_and_changed_questions};

use crate::vector::{request_of, sum_of, Vector};

/// The request of the same example.
pub const EXAMPLE_REQUEST: Request = Request { subject: b"person:K7", action: b"teach", resource: b"shaft:A" };

const ALL: &str = "permit(principal,action,resource);";

/// Where a page is wanted: start row, the sheet's length, and the named byte.
#[derive(Clone, Copy)]
pub struct Wanted {
    pub start: u64,
    pub length: u16,
    pub named: u64,
}

/// A vector; the start row and the named byte have 8 bytes, the length 2, little-endian.
pub fn vector(text: &[u8], table: &[u8], question: &[u8], request: Request, wanted: Wanted) -> Vector {
    let Request { subject, action, resource } = request;
    let mut parts: Vector =
        [text, table, question, subject, action, resource].iter().map(|part| part.to_vec()).collect();
    parts.push(wanted.start.to_le_bytes().to_vec());
    parts.push(wanted.length.to_le_bytes().to_vec());
    parts.push(wanted.named.to_le_bytes().to_vec());
    parts
}

/// A vector with the text's own table.
pub fn with_own_table(text: &str, question: &[u8], request: Request, wanted: Wanted) -> Vector {
    vector(text.as_bytes(), &table_of(text.as_bytes(), Version::One), question, request, wanted)
}

/// What a vector wants.
pub fn wanted_of(vector: &Vector) -> Wanted {
    let number = |part: &[u8]| part.iter().rev().fold(0, |number, byte| number << 8 | u64::from(*byte));
    Wanted { start: number(&vector[6]), length: number(&vector[7]) as u16, named: number(&vector[8]) }
}

/// The sheet as it is lent: byte n is n mod 251.
pub fn lent(length: u16) -> Vec<u8> {
    (0..length).map(|at| (at % 251) as u8).collect()
}

/// The call's answer and the sheet after it.
pub fn page_of(vector: &Vector) -> (Result<Page, u8>, Vec<u8>) {
    let Wanted { start, length, named } = wanted_of(vector);
    let mut sheet = lent(length);
    // A number that this machine's `usize` cannot hold is past every sheet and above every number of rows.
    let size = |number: u64| usize::try_from(number).unwrap_or(usize::MAX);
    let wanted = PageWanted { lent: &mut sheet, named_byte: size(named), start_row: size(start) };
    (write_page(&vector[0], &vector[1], &vector[2], request_of(vector), wanted), sheet)
}

/// The answer: rows written and next, or `R` and the refusal's number; and then the sum of the sheet's bytes.
pub fn answer(vector: &Vector) -> String {
    let (answer, sheet) = page_of(vector);
    match answer {
        Ok(page) => format!("{} {} {}", page.written, page.next, sum_of(&sheet)),
        Err(number) => format!("R {} {}", number, sum_of(&sheet)),
    }
}

/// The vectors that are the same for every seed.
pub fn fixed() -> Vec<Vector> {
    let mut vectors = Vec::new();
    add_example(&mut vectors);
    add_marks(&mut vectors);
    add_rooms(&mut vectors);
    add_columns(&mut vectors);
    add_bases(&mut vectors);
    add_many_entries(&mut vectors);
    add_named_bytes(&mut vectors);
    add_starts(&mut vectors);
    add_many_rows(&mut vectors);
    add_longest(&mut vectors);
    add_wrong_questions(&mut vectors);
    add_wrong_things(&mut vectors);
    vectors
}

/// The worked example from each start row, with pages of 1 to 3 rows, exact and with spare bytes.
fn add_example(vectors: &mut Vec<Vector>) {
    for start in 0..=10 {
        for (length, named) in
            [(14, 0), (28, 0), (42, 0), (15, 1), (19, 5), (29, 0), (33, 5), (50, 6), (600, 586), (600, 580)]
        {
            let wanted = Wanted { start, length, named };
            vectors.push(with_own_table(EXAMPLE, &example_question(), EXAMPLE_REQUEST, wanted));
            vectors.push(with_own_table(
                EXAMPLE,
                &example_question(),
                Request { subject: b"system", ..EXAMPLE_REQUEST },
                wanted,
            ));
        }
    }
}

/// Rows with marks of their own, on pages of one row, of some, and of all; rows that a forbid takes out between them; the first and the
/// last bit, and all; the system's rows and refused pages, which have none.
fn add_marks(vectors: &mut Vec<Vector>) {
    let question = question_of_rows(&[2; 6]);
    for forbid in [0, 1, 2, 17, 33, 49, 63, 64] {
        let text = rules_with_marks_of_their_own(forbid);
        for start in 0..64 {
            vectors.push(with_own_table(&text, &question, REQUEST, Wanted { start, length: 16, named: start % 3 }));
        }
        for (length, named) in [(28, 0), (100, 2), (896, 0), (1_000, 50)] {
            vectors.push(with_own_table(&text, &question, REQUEST, Wanted { start: 0, length, named }));
            vectors.push(with_own_table(&text, &question, REQUEST, Wanted { start: 30, length, named }));
        }
    }
    let wanted = Wanted { start: 0, length: 57, named: 1 };
    let ends = |number: usize| number == 1 || number == PLACES;
    for text in [
        rules_satisfied(|_| "permit", ends),
        rules_satisfied(|_| "permit", |_| true),
        rules_satisfied(|_| "permit", |number| number % 2 == 0),
        rules_satisfied(|number| if ends(number) { "permit" } else { "forbid" }, ends),
    ] {
        for subject in [&b"person:1"[..], b"system", b"system:"] {
            let request = Request { subject, ..REQUEST };
            vectors.push(with_own_table(&text, &question_of_rows(&[2, 2]), request, wanted));
            vectors.push(with_own_table(&text, &question_of_rows(&[2, 2]), request, Wanted { length: 14, ..wanted }));
            vectors.push(with_own_table(&text, &question_of_rows(&[2, 2]), request, Wanted { start: 5, ..wanted }));
            vectors.push(with_own_table(&text, &[0, 0, 0], request, wanted));
        }
    }
}

/// Pages of every length up to some rows' bytes, where all rows are listed, every third is, one is, or none.
fn add_rooms(vectors: &mut Vec<Vector>) {
    let question = question_of_rows(&[3, 3]);
    for text in [
        ALL,
        "permit(principal,action,resource)when{env.c1==false};",
        "permit(principal,action,resource)when{env.c0==true&&env.c1==true};",
        "permit(principal,action,resource)when{env.c0==true};forbid(principal,action,resource)when{env.c1==true};",
        "forbid(principal,action,resource);",
        "",
    ] {
        for length in (14..72).chain([126, 140]) {
            for start in [0, 4, 8, 9] {
                vectors.push(with_own_table(text, &question, REQUEST, Wanted { start, length, named: 0 }));
            }
            let wanted = Wanted { start: 1, length, named: u64::from(length) % 5 };
            if u64::from(length) - wanted.named >= ROW_BYTES as u64 {
                vectors.push(with_own_table(text, &question, REQUEST, wanted));
            }
        }
    }
}

/// 0 to 6 columns; which rows are listed tells the order of the choices.
fn add_columns(vectors: &mut Vec<Vector>) {
    for counts in [
        &[][..],
        &[1],
        &[8],
        &[2, 3],
        &[3, 1, 2],
        &[1, 1, 1, 1],
        &[2, 2, 2, 2, 2],
        &[1, 2, 1, 3, 1, 2],
        &[2, 2, 2, 2, 2, 2],
        &[8, 1, 1, 1, 1, 8],
    ] {
        let question = question_of_rows(counts);
        let rows = counts.iter().map(|count| u64::from(*count)).product::<u64>();
        for condition in [
            "true",
            "env.c0==false",
            "env has c0",
            "!env has c1",
            "env.c1==env.c0",
            "env.c5!=false||env.c2==true",
            "env.c0 in[3,\"x\",true]",
            "env.c3==false&&!env.c4==false",
            "env.c0<=4",
            "env.c0 like\"*\"",
            "!env.c0 in env.c1",
            "if env has c0 then env.c1==false else env.c2==false",
        ] {
            let text = format!("permit(principal,action,resource)when{{{}}};", condition);
            for (start, length, named) in [(0, 1_000, 0), (0, 150, 3), (rows / 2, 44, 1), (rows - 1, 14, 0)] {
                vectors.push(with_own_table(&text, &question, REQUEST, Wanted { start, length, named }));
            }
        }
        add_all_pages(vectors, ALL, &question, 73, 2);
    }
}

/// Every page of a sheet, one after the other.
fn add_all_pages(vectors: &mut Vec<Vector>, text: &str, question: &[u8], length: u16, named: u64) {
    let rows = read_question(question).map_or(0, |question| question.rows() as u64);
    let mut start = 0;
    while start < rows {
        let new = with_own_table(text, question, REQUEST, Wanted { start, length, named });
        start = page_of(&new).0.map_or(rows, |page| page.next as u64);
        vectors.push(new);
    }
}

/// Columns that set, add and remove attributes of the base, under the same root and under another.
fn add_bases(vectors: &mut Vec<Vector>) {
    let own = || string_value(b"own");
    let loan = || string_value(b"loan");
    let base: [&[(&str, Vec<u8>)]; 3] = [
        &[("a", own()), ("a.b", number(1.0)), ("l", list_value(&[b"own".to_vec()]))],
        &[("a", vec![3, 1])],
        &[("z", number(-0.0))],
    ];
    let columns = [
        column(1, "a", &[vec![0], own(), loan(), vec![3, 1]]),
        column(2, "a", &[vec![3, 0], vec![0]]),
        column(1, "a.b", &[number(0.0), number(-0.0), number(1.0), vec![0]]),
        column(1, "b", &[loan(), own(), vec![0]]),
        column(3, "l", &[list_value(&[]), list_value(&[b"own".to_vec(), b"loan".to_vec()]), vec![0]]),
        column(3, "z", &[vec![0], number(0.0), own()]),
        column(2, "a.b.c", &[vec![0], vec![3, 1]]),
        column(1, "l", &[vec![0], list_value(&[b"loan".to_vec()])]),
    ];
    for condition in [
        "principal.a==\"own\"",
        "principal has a",
        "resource has a",
        "resource.a==true",
        "principal.a . b==0",
        "principal has a.b",
        "principal.b==principal.a",
        "principal.b in env.l",
        "principal.a in principal.l",
        "env.z==0",
        "env.z==env.z",
        "!env has z",
        "resource has a.b.c",
        "resource.a\n.b . c==true||resource.a==false",
        "principal.l.containsAll([\"own\"])",
        "env.l.containsAny([\"loan\"])",
        "principal.a.b<1",
        "principal.a!=\"own\"&&principal.b!=\"own\"",
        "env has a",
        "principal has z",
    ] {
        let text = format!("permit(principal,action,resource)when{{{}}};", condition);
        for first in 0..columns.len() {
            let chosen = vec![columns[first].clone()];
            let wanted = Wanted { start: 0, length: 140, named: 0 };
            vectors.push(with_own_table(&text, &question_of(base, chosen), REQUEST, wanted));
            let chosen =
                vec![columns[first].clone(), columns[(first + 1) % 8].clone(), columns[(first + 3) % 8].clone()];
            let wanted = Wanted { start: 0, length: 700, named: 1 };
            vectors.push(with_own_table(&text, &question_of(base, chosen), REQUEST, wanted));
        }
        let empty: [&[(&str, Vec<u8>)]; 3] = [&[], &[], &[]];
        let wanted = Wanted { start: 0, length: 2_000, named: 9 };
        vectors.push(with_own_table(&text, &question_of(base, columns[..6].to_vec()), REQUEST, wanted));
        vectors.push(with_own_table(&text, &question_of(empty, columns[..4].to_vec()), REQUEST, wanted));
    }
}

/// Full sections, to which columns add up to six further attributes.
fn add_many_entries(vectors: &mut Vec<Vector>) {
    let names: Vec<String> = (0..32).map(|index| format!("p{:02}", index)).collect();
    let full: Vec<(&str, Vec<u8>)> = names.iter().map(|name| (name.as_str(), vec![3, 1])).collect();
    for root in 1..=3 {
        let mut sections: [&[(&str, Vec<u8>)]; 3] = [&[], &[], &[]];
        sections[root - 1] = &full;
        let name = ["principal", "resource", "env"][root - 1];
        for paths in
            [&["q"][..], &["a", "z"], &["o", "p", "p1", "p001", "p31.a", "q"], &["p00", "p31", "q", "p15", "a"]]
        {
            let columns: Vec<Column> =
                paths.iter().map(|path| column(root as u8, path, &[vec![0], vec![3, 1]])).collect();
            let question = question_of(sections, columns);
            for path in ["p00", "p31", "q", "a", "z", "p15", "p1", "p31.a", "o", "none"] {
                let text = format!("permit(principal,action,resource)when{{{}.{}==true}};", name, path);
                vectors.push(with_own_table(&text, &question, REQUEST, Wanted { start: 0, length: 560, named: 0 }));
            }
            let text =
                format!("permit(principal,action,resource)when{{{0}.p00==true&&{0}.p31==true&&{0} has q}};", name);
            vectors.push(with_own_table(&text, &question, REQUEST, Wanted { start: 0, length: 560, named: 7 }));
        }
    }
}

/// 01, refusal 25: named bytes around the sheet's end, and far beyond it.
fn add_named_bytes(vectors: &mut Vec<Vector>) {
    for length in [0_u16, 1, 5, 6, 7, 13, 14, 15, 27, 28, 29, 100, 251, 65_535] {
        let end = u64::from(length);
        let mut named: Vec<u64> = (0..9).collect();
        named.extend((0..30).map(|back| (end + 2).saturating_sub(back)));
        named.extend([1 << 16, 1 << 32, (1 << 32) + 1, 1 << 63]);
        named.extend([14, 13, 6, 5, 1, 0].map(|back| u64::MAX - back));
        named.sort_unstable();
        named.dedup();
        for named in named {
            for subject in [&b"system"[..], b"person:K7"] {
                let wanted = Wanted { start: 1, length, named };
                let request = Request { subject, ..EXAMPLE_REQUEST };
                vectors.push(with_own_table(EXAMPLE, &example_question(), request, wanted));
            }
        }
    }
}

/// 01, refusal 26: start rows around the number of rows, and far beyond it.
fn add_starts(vectors: &mut Vec<Vector>) {
    for counts in [&[][..], &[1], &[2], &[3, 3], &[8, 8], &[8, 8, 4]] {
        let rows = counts.iter().map(|count| u64::from(*count)).product::<u64>();
        let question = question_of_rows(counts);
        for start in [
            0,
            rows / 2,
            rows - 1,
            rows,
            rows + 1,
            rows + 2,
            255,
            256,
            257,
            1 << 16,
            (1 << 32) - 1,
            1 << 32,
            (1 << 32) + rows - 1,
            1 << 63,
            u64::MAX,
        ] {
            for (text, subject) in [
                (ALL, &b"person:1"[..]),
                (ALL, b"system"),
                ("", b"tool:1"),
                ("forbid(principal,action,resource);", b"tool:1"),
            ] {
                let request = Request { subject, ..REQUEST };
                vectors.push(with_own_table(text, &question, request, Wanted { start, length: 90, named: 3 }));
            }
        }
    }
}

/// The question with the most rows: 262,144, by six columns of eight.
fn add_many_rows(vectors: &mut Vec<Vector>) {
    let question = question_of_rows(&[8; 6]);
    let last =
        "permit(principal,action,resource)when{env.c0 in env.c1||env.c0==3&&env.c1==4&&env.c2==true&&env.c3==false&&\
        env.c4==\"\"&&!env has c5};";
    let row = ((((3 * 8 + 4) * 8 + 2) * 8 + 1) * 8 + 5) * 8;
    for (text, subject, start, length) in [
        (ALL, "person:1", 0, 140),
        (ALL, "person:1", 131_071, 65_535),
        (ALL, "person:1", 262_140, 140),
        (ALL, "person:1", 262_144, 140),
        (ALL, "person:1", 262_145, 140),
        (ALL, "system", 65_534, 140),
        (ALL, "system", 262_139, 70),
        (last, "person:1", row - 700, 140),
        (last, "person:1", row, 140),
        (last, "person:1", row + 1, 14),
        (last, "person:1", 261_000, 140),
        ("", "person:1", 260_000, 140),
    ] {
        let request = Request { subject: subject.as_bytes(), ..REQUEST };
        vectors.push(with_own_table(text, &question, request, Wanted { start, length, named: 0 }));
    }
    // One call that goes over all rows.
    let whole = Wanted { start: 0, length: 140, named: 0 };
    vectors.push(with_own_table(last, &question, REQUEST, whole));
}

/// 64 policies, texts of 8,192 bytes and questions of 4,096.
fn add_longest(vectors: &mut Vec<Vector>) {
    let question = question_of_rows(&[3, 2]);
    let mut policies = "permit(principal is tool,action,resource);".repeat(62);
    policies.push_str(
        "forbid(principal,action,resource)when{env.c0==true};permit(principal,action,resource)when{env.c1==false};",
    );
    let chain =
        |last: &str| format!("permit(principal,action,resource)when{{{}||{}}};", vec!["2<1"; 1_620].join("||"), last);
    for text in [&policies, &chain("env.c1==false"), &chain("env has c0&&env.c0==true"), &chain("false")] {
        for (start, length) in [(0, 14), (0, 28), (1, 56), (4, 200)] {
            vectors.push(with_own_table(text, &question, REQUEST, Wanted { start, length, named: 0 }));
        }
    }
    let column = [1, 1, 1, b'a', 3, 0, 3, 0, 3, 1];
    let text = "permit(principal,action,resource)when{principal.a==true};";
    for length in [4_095, 4_096, 4_097] {
        let question = [&bag_of_length(length - column.len())[..], &column].concat();
        vectors.push(with_own_table(text, &question, REQUEST, Wanted { start: 0, length: 140, named: 0 }));
    }
}

/// The rich question cut and changed; a bag.
fn add_wrong_questions(vectors: &mut Vec<Vector>) {
    let text = "permit(principal,action,resource)when{principal has a};";
    let wanted = Wanted { start: 0, length: 84, named: 0 };
    for question in cut_and_changed_questions() {
        vectors.push(with_own_table(text, &question, REQUEST, wanted));
    }
}

/// Every set of wrong things among sheet, question, start row, subject, action, resource and table; and the system.
fn add_wrong_things(vectors: &mut Vec<Vector>) {
    let good = example_question();
    let table = table_of(EXAMPLE.as_bytes(), Version::One);
    for wrong in 0..256 {
        let is_wrong = |bit: u8| wrong >> bit & 1 == 1;
        let named = if is_wrong(0) { 7 } else { 6 };
        let question: &[u8] = if is_wrong(1) { &[0, 0, 0] } else { &good };
        let start = if is_wrong(2) { 10 } else { 9 - u64::from(wrong % 8 != 0) };
        let action: &[u8] = if is_wrong(3) { b"" } else { b"teach" };
        let resource: &[u8] = if is_wrong(4) { b"person:K7" } else { b"shaft:A" };
        let table = if is_wrong(5) { &table[1..] } else { &table };
        let subject: &[u8] = match (is_wrong(6), is_wrong(7)) {
            (false, false) => b"person:K7",
            (true, false) => b"system:x",
            (false, true) => b"system",
            (true, true) => b"",
        };
        let request = Request { subject, action, resource };
        vectors.push(vector(EXAMPLE.as_bytes(), table, question, request, Wanted { start, length: 20, named }));
    }
    let wanted = Wanted { start: 0, length: 48, named: 0 };
    for text in [&b":"[..], b"permit", &[b' '; 8_193]] {
        for subject in [&b"person:K7"[..], b"system"] {
            vectors.push(vector(text, &table, &good, Request { subject, ..EXAMPLE_REQUEST }, wanted));
        }
    }
    vectors.push(vector(EXAMPLE.as_bytes(), &[&table[..], &[1, 2, 3]].concat(), &good, EXAMPLE_REQUEST, wanted));
    vectors.push(vector(b"", b"", &good, EXAMPLE_REQUEST, wanted));
    for length in [99, 100, 101] {
        let long = |start: &str| [start.as_bytes(), &vec![b'x'; length - start.len()]].concat();
        let mut add = |request: Request| {
            vectors.push(vector(EXAMPLE.as_bytes(), &table, &good, request, wanted));
        };
        add(Request { subject: &long("person:"), ..EXAMPLE_REQUEST });
        add(Request { action: &long(""), ..EXAMPLE_REQUEST });
        add(Request { resource: &long("shaft:"), ..EXAMPLE_REQUEST });
    }
}

/// A random vector.
pub fn random(random: &mut Random) -> Vector {
    let wish = requests::wish(random);
    let text = requests::text(random, &wish);
    let mut table = table_of(&text, Version::One);
    let most = random.pick(&[4, 30, 100, 300]);
    let mut plan = requests::question(random, most);
    let mut question = plan.bytes();
    let rows = read_question(&question).map_or(0, |question| question.rows());
    let mut request = Request {
        subject: wish.subject.as_bytes(),
        action: wish.action.as_bytes(),
        resource: wish.resource.as_bytes(),
    };
    let length = random.pick(&[14, 28, 56, 140, 1_400]) + random.pick(&[0, 0, 1, 6, 15]);
    let named = random.below(length - 13);
    let mut wanted = Wanted {
        start: if random.one_in(2) { 0 } else { random.below(rows + 1) as u64 },
        length: length as u16,
        named: if random.one_in(2) { 0 } else { named as u64 },
    };
    match random.below(40) {
        0 => question = damaged(question, random),
        1 => {
            break_a_rule(&mut plan, random);
            question = plan.bytes();
        }
        2 => table = damaged(table, random),
        3 => wanted.start = (rows + 1 + random.below(3)) as u64,
        4 => wanted.named = (length - random.below(ROW_BYTES)) as u64,
        5 | 6 => request.subject = b"system",
        7 => request.subject = b"system:",
        _ => {}
    }
    vector(&text, &table, &question, request, wanted)
}

#[cfg(test)]
mod tests {
    use super::*;

    #[test]
    fn the_answer_is_a_line() {
        let wanted = Wanted { start: 0, length: 30, named: 1 };
        let example = with_own_table(EXAMPLE, &example_question(), EXAMPLE_REQUEST, wanted);
        let row = |number: u8| [number, 0, 0, 0, 1, 1, 1, 0, 0, 0, 0, 0, 0, 0];
        assert_eq!(answer(&example), format!("2 9 {}", sum_of(&[&[0][..], &row(3), &row(4), &[29]].concat())));
        let mut refused = example.clone();
        refused[8] = 17_u64.to_le_bytes().to_vec();
        assert_eq!(answer(&refused), format!("R 25 {}", sum_of(&(0..30).collect::<Vec<u8>>())));
    }

    #[test]
    fn the_sheet_has_its_pattern() {
        let sheet = lent(600);
        assert_eq!(sheet.len(), 600);
        assert_eq!((sheet[0], sheet[250], sheet[251], sheet[599]), (0, 250, 0, 97));
    }

    // Outside the written rows the sheet stays.
    #[test]
    fn other_bytes_stay() {
        for vector in fixed().iter().chain(&some(500)) {
            let (answer, sheet) = page_of(vector);
            let Wanted { length, named, .. } = wanted_of(vector);
            let start = named.min(u64::from(length)) as usize;
            let end = start + ROW_BYTES * answer.map_or(0, |page| page.written);
            let before = lent(length);
            assert!(sheet[..start] == before[..start] && sheet[end..] == before[end..]);
        }
    }

    fn some(count: usize) -> Vec<Vector> {
        let mut source = Random::new(111);
        (0..count).map(|_| random(&mut source)).collect()
    }

    #[test]
    fn every_answer_is_there() {
        let answers: Vec<String> = fixed().iter().map(answer).collect();
        for number in 20..=26 {
            let start = format!("R {} ", number);
            assert!(answers.iter().filter(|line| line.starts_with(&start)).count() >= 3, "{}", number);
        }
        for start in ["0 ", "1 ", "2 ", "10 ", "4681 "] {
            assert!(answers.iter().any(|line| line.starts_with(start)), "{}", start);
        }
        assert!(answers.iter().any(|line| line.contains(" 262144 ")));
        // A last row by policy 64, whose mark is its bit alone; by policy 1, with all bits, and with the first and the last.
        for ending in [
            [&[1, 64][..], &[0; 7], &[0x80]].concat(),
            [&[1, 1][..], &[0xff; 8]].concat(),
            [&[1, 1, 1][..], &[0; 6], &[0x80]].concat(),
        ] {
            assert!(fixed().iter().any(|vector| page_of(vector).1.ends_with(&ending)), "{:?}", ending);
        }
    }

    // Pages that are full, pages that are not, and empty ones.
    #[test]
    fn random_pages_are_spread() {
        let (mut full, mut spare, mut empty) = (0, 0, 0);
        for vector in some(2_000) {
            if let Ok(page) = page_of(&vector).0 {
                let Wanted { length, named, .. } = wanted_of(&vector);
                match page.written {
                    0 => empty += 1,
                    written if written as u64 == (u64::from(length) - named) / ROW_BYTES as u64 => full += 1,
                    _ => spare += 1,
                }
            }
        }
        assert!(full > 300 && spare > 200 && empty > 200, "{} {} {}", full, spare, empty);
    }
}
