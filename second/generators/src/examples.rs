//! Document 01's example, and other texts, requests and questions that every seed has.

use definitions::deciding::Request;
use definitions::plans::{list_value, number_value, string_value, Column, Entry, Plan};

/// 01, "Checked examples".
pub const EXAMPLE: &str = "permit(principal is person, action, resource is shaft)\n  when { principal.grade >= 3 };\n\
    forbid(principal, action in [\"teach\"], resource)\n  when { principal.hired != \"own\" };\n";

/// The request of most fixed vectors.
pub const REQUEST: Request = Request { subject: b"person:K7", action: b"teach", resource: b"shaft:A:1" };

/// Texts that get a refusal, one for each number but 2 (and 1, which needs a long one).
pub const REFUSED_TEXTS: [&str; 16] = [
    "permit(principal,action,resource);/",
    ":",
    "permit(principal,action,resource);\"",
    "permit(principal,action,resource)when{1==1234567890123456};",
    "permit(principal,action,resource)when{env.if==1};",
    "permit(principal,action,resource)when{env.a};",
    "permit(principal is shaft,action,resource);",
    "permit(principal,action,resource)",
    "permit(principal,action,resource);;",
    "permit(principal,action,resource)when{action.kind==1};",
    "permit(principal,action,resource)when{!!!!!!!!!!!!!!!!!!!!!!!!!!!!!!!!true};",
    "permit(principal,action,resource)when{env.a like\"**\"};",
    "permit(principal,action,resource)when{1 in[1,1,1,1,1,1,1,1,1,1,1,1,1,1,1,1,1]};",
    "permit(principal,action,resource)when{env.wwwwwwwwwwwwwwwwwwwwwwwwwwwwwwww.wwwwwwwwwwwwwwwwwwwwwwwwwwwwwwwwww==1};",
    "permit(principal,action,resource)when{principal}; ",
    "permit",
];

/// A column.
pub fn column(root: u8, path: &str, candidates: &[Vec<u8>]) -> Column {
    Column { root, path: path.as_bytes().to_vec(), candidates: candidates.to_vec() }
}

/// A question with these sections and columns.
pub fn question_of(sections: [&[(&str, Vec<u8>)]; 3], columns: Vec<Column>) -> Vec<u8> {
    let section = |entries: &[(&str, Vec<u8>)]| {
        entries.iter().map(|(path, value)| Entry { path: path.as_bytes().to_vec(), value: value.clone() }).collect()
    };
    let sections = [section(sections[0]), section(sections[1]), section(sections[2])];
    Plan { sections, columns: Some(columns) }.bytes()
}

/// A number's kind byte and value.
pub fn number(value: f64) -> Vec<u8> {
    number_value(value.to_bits())
}

/// 01, "Checked examples": columns principal.grade (absent, 3, 2.5) and principal.hired (absent, "own", "loan").
pub fn example_question() -> Vec<u8> {
    let columns = vec![
        column(1, "grade", &[vec![0], number(3.0), number(2.5)]),
        column(1, "hired", &[vec![0], string_value(b"own"), string_value(b"loan")]),
    ];
    question_of([&[], &[], &[]], columns)
}

/// A question with columns env.c0, env.c1 and so on of so many candidates.
pub fn question_of_rows(counts: &[u8]) -> Vec<u8> {
    let columns = counts.iter().enumerate().map(|(index, count)| {
        let path = format!("c{}", index);
        let candidates: Vec<Vec<u8>> = (0..*count).map(candidate).collect();
        column(3, &path, &candidates)
    });
    question_of([&[], &[], &[]], columns.collect())
}

/// One of 8 different candidates: absent, flags, numbers, strings, a list.
fn candidate(index: u8) -> Vec<u8> {
    match index {
        0 => vec![0],
        1 | 2 => vec![3, index - 1],
        3 | 4 => number(f64::from(index)),
        5 | 6 => string_value(&vec![b'x'; usize::from(index) - 5]),
        _ => list_value(&[]),
    }
}
