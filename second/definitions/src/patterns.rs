//! `like`: whether a pattern matches a whole string (01, "Deciding"), character by character (02, request 5).

use crate::characters::characters_of;

/// The characters with a meaning of their own.
const STAR: u32 = b'*' as u32;
const MARK: u32 = b'?' as u32;
const COLON: u32 = b':' as u32;

/// 01, "Deciding": `like` matches the whole string. Any pattern that is UTF-8 is taken; the pattern rule is the compiler's. 02, request 5:
/// a string that is not UTF-8 matches no pattern, and there is no other pattern.
pub fn like(pattern: &[u8], string: &[u8]) -> bool {
    match (characters_of(pattern), characters_of(string)) {
        (Some(pattern), Some(string)) => reached(&pattern, &string)[pattern.len()][string.len()],
        _ => false,
    }
}

/// The whole table of the matching: `reached(..)[i][j]` says whether the first `i` characters of the pattern match the
/// first `j` characters of the string.
pub fn reached(pattern: &[u32], string: &[u32]) -> Vec<Vec<bool>> {
    let mut first_row = vec![false; string.len() + 1];
    first_row[0] = true;
    let mut rows = vec![first_row];
    for (index, wanted) in pattern.iter().enumerate() {
        let next = if *wanted == STAR {
            row_after_star(&rows[index], string)
        } else {
            row_after_one(&rows[index], *wanted, string)
        };
        rows.push(next);
    }
    rows
}

/// `*`: any run without `:`, maybe empty.
fn row_after_star(row: &[bool], string: &[u32]) -> Vec<bool> {
    let mut next = row.to_vec();
    for (index, character) in string.iter().enumerate() {
        if next[index] && *character != COLON {
            next[index + 1] = true;
        }
    }
    next
}

/// `?`: one character but `:`. Every other character: itself.
fn row_after_one(row: &[bool], wanted: u32, string: &[u32]) -> Vec<bool> {
    let mut next = vec![false; row.len()];
    for (index, character) in string.iter().enumerate() {
        let fits = if wanted == MARK { *character != COLON } else { *character == wanted };
        next[index + 1] = row[index] && fits;
    }
    next
}

#[cfg(test)]
mod tests {
    use super::*;

    #[test]
    fn case_j_a_star_stops_at_a_colon() {
        assert!(like(b"shaft:*", b"shaft:A1"));
        assert!(like(b"shaft:*", b"shaft:"));
        assert!(!like(b"shaft:*", b"shaft:b:A1"));
    }

    #[test]
    fn case_k_a_star_is_not_greedy() {
        assert!(like(b"*A1", b"A1A1"));
    }

    #[test]
    fn wildcards_and_the_empty_string() {
        assert!(like(b"", b""));
        assert!(!like(b"", b"a"));
        assert!(!like(b"a", b""));
        assert!(like(b"*", b""));
        assert!(like(b"**", b""));
        assert!(!like(b"*", b":"));
        assert!(!like(b"?", b""));
        assert!(!like(b"?", b":"));
        assert!(like(b"?", b"?"));
        assert!(like(b"*:*", b":"));
        assert!(!like(b"*:*", b"a:b:c"));
        assert!(like(b"?", "ü".as_bytes()));
        assert!(!like(b"a", b"A"));
        assert!(like(b"[a]", b"[a]"));
    }

    // 02, request 5: `?` is one character, and a string that is not UTF-8 matches nothing.
    #[test]
    fn a_character_is_not_a_byte() {
        assert!(like(b"S?d", "Süd".as_bytes()));
        assert!(!like(b"S??d", "Süd".as_bytes()));
        assert!(like("Süd".as_bytes(), "Süd".as_bytes()));
        assert!(like("*ü?".as_bytes(), "Süd".as_bytes()));
        assert!(!like("S\u{308}d".as_bytes(), "Süd".as_bytes()));
        assert!(like(b"????", "aü€😀".as_bytes()));
        assert!(!like(b"S?d", b"S\xFCd"));
        assert!(!like(b"S??d", b"S\xC3\xC3d"));
        for broken in [&b"\xFC"[..], b"\xC3", b"a\x80", b"\xC0\x80", b"\xED\xA0\x80", b"\xF4\x90\x80\x80"] {
            for pattern in ["*", "?", "??", "*?*"] {
                assert!(!like(pattern.as_bytes(), broken));
            }
            assert!(!like(broken, broken));
        }
    }

    #[test]
    fn the_whole_string_must_match() {
        assert!(!like(b"a", b"ab"));
        assert!(!like(b"b", b"ab"));
        assert!(!like(b"a*b", b"abc"));
    }
}
