//! Document 01's example, for tests.

use crate::plans::{number_value, string_value, Column, Plan};

/// 01, "Checked examples".
pub const EXAMPLE: &str = "permit(principal is person, action, resource is shaft)\n  when { principal.grade >= 3 };\n\
    forbid(principal, action in [\"teach\"], resource)\n  when { principal.hired != \"own\" };\n";

/// 01, "Checked examples": columns principal.grade (absent, 3, 2.5) and principal.hired (absent, "own", "loan").
pub fn example_question() -> Vec<u8> {
    let column = |path: &str, candidates: Vec<Vec<u8>>| Column { root: 1, path: path.as_bytes().to_vec(), candidates };
    let columns = vec![
        column("grade", vec![vec![0], number_value(3.0_f64.to_bits()), number_value(2.5_f64.to_bits())]),
        column("hired", vec![vec![0], string_value(b"own"), string_value(b"loan")]),
    ];
    Plan { sections: [Vec::new(), Vec::new(), Vec::new()], columns: Some(columns) }.bytes()
}
