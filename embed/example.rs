//! The desk in a Rust program: what example.c does, over the declarations of desk.rs. It prints example.out. Built by embed/run, with libdesk.a, where rustc makes x86-64 programs.
mod desk;

const RULES: &[u8] = b"permit(principal is person, action, resource is shaft)\n  when { principal.grade >= 3 };\nforbid(principal, action in [\"teach\"], resource)\n  when { principal.hired != \"own\" };\n";
const NOT_ON_LOAN: &[u8] = b"permit(principal, action, resource) when { !(principal.hired == \"loan\") };";
const BAG: &[u8] = b"\x02\x05grade\x02\0\0\0\0\0\0\x08\x40\x05hired\x01\x03own\0\0";
const REQUESTS: &[u8] = b"\x09person:K7\x05teach\x07shaft:A\x07tool:T1\x05teach\x07shaft:A";
const QUESTION: &[u8] = b"\0\0\0\x02\x01\x05grade\x03\0\x02\0\0\0\0\0\0\x08\x40\x02\0\0\0\0\0\0\x04\x40\x01\x05hired\x03\0\x01\x03own\x01\x04loan";

fn main() {
    let mut table = [0u8; desk::TABLE_FOR_A_BYTE * RULES.len()];
    let c = desk::compile(RULES, &mut table, desk::RULES_VERSION_1);
    println!("compile: refusal {}, line {}, column {}, length {}, policies {}, bytes {}", c.refusal, c.line, c.column, c.length, c.policies, c.bytes);
    let table = &table[..c.bytes];
    println!("begins: {}", desk::begins(RULES, table) as u8);

    let d = desk::decide(RULES, table, BAG, b"person:K7", b"teach", b"shaft:A");
    println!("decide: refusal {}, outcome {}, policy {}, mark {}", d.refusal, d.outcome, d.policy, d.mark);
    let v = desk::lookup(BAG, desk::ROOT_PRINCIPAL, b"grade");
    println!("principal.grade: refusal {}, kind {}, number {}, place {}", v.refusal, v.kind, v.number, v.place);
    let s = desk::string(BAG, desk::ROOT_PRINCIPAL, b"hired");
    println!("principal.hired: \"{}\"", String::from_utf8_lossy(&BAG[s.start..s.start + s.length]));

    let (rows, mut start, mut listed, mut pages) = (desk::rows(QUESTION), 0, 0, 0);
    println!("rows {}", rows);
    while start < rows {
        let mut page = [0u8; desk::ROW_BYTES];
        let p = desk::sheet(RULES, table, QUESTION, b"person:K7", b"teach", b"shaft:A", start, &mut page, 0);
        assert_eq!(p.refusal, 0);
        for row in page.chunks(desk::ROW_BYTES).take(p.written) {
            let mark = u64::from_le_bytes(row[6..].try_into().unwrap());
            println!("{} {} {} {}", u32::from_le_bytes([row[0], row[1], row[2], row[3]]), row[4], row[5], mark);
        }
        listed += p.written;
        pages += 1;
        start = p.next;
    }
    println!("allowed {} ({} pages)", listed, pages);

    let mut counts = [0u32; desk::TALLY_COUNTS];
    assert_eq!(desk::tally(RULES, table, QUESTION, 2, REQUESTS, &mut counts), 0);
    for (whose, group) in [("person:K7", 0), ("tool:T1", 1), ("both", desk::TALLY_SUMS)] {
        let (outcomes, policies) = counts[desk::TALLY_GROUP * group..][..desk::TALLY_GROUP].split_at(desk::TALLY_OUTCOMES);
        print!("{}: allowed {}, forbidden {}, neither {}, system {};", whose, outcomes[0], outcomes[1], outcomes[2], outcomes[3]);
        println!(" policy 1 decides {}, policy 2 decides {}", policies[0], policies[1]);
    }

    let mut permit = [0u8; desk::MOST_PERMIT];
    let l = desk::lock(b"\x04firm\x04firm\x01\x05grade\x05grade\x03", b"firm:own & grade>=3", b"\x05teach", b"shaft:A", &mut permit);
    assert_eq!(l.refusal, 0);
    println!("{}", String::from_utf8_lossy(&permit[..l.length]));

    for version in [desk::RULES_VERSION_1, desk::RULES_VERSION_2] {
        let mut table = [0u8; desk::TABLE_FOR_A_BYTE * NOT_ON_LOAN.len()];
        assert_eq!(desk::compile(NOT_ON_LOAN, &mut table, version).refusal, 0);
        let d = desk::decide(NOT_ON_LOAN, &table, b"\0\0\0", b"person:K7", b"teach", b"shaft:A");
        println!("under version {}: refusal {}, outcome {}, policy {}, mark {}", version, d.refusal, d.outcome, d.policy, d.mark);
    }
}
