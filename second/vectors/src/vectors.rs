//! Test vectors: the list of their sorts, their format, and the files that hold them.

use std::fs;
use std::io;
use std::path::Path;

use generators::random::Random;

use crate::bags_vectors;
use crate::begins_vectors;
use crate::begins_versions;
use crate::compile_vectors;
use crate::compile_versions;
use crate::decide_vectors;
use crate::decide_versions;
use crate::explain;
use crate::lock_vectors;
use crate::number_vectors;
use crate::packing::{Packer, Unpacker};
use crate::pattern_vectors;
use crate::questions_vectors;
use crate::sheet_vectors;
use crate::sheet_versions;
use crate::tally_vectors;
use crate::tally_versions;
use crate::token_vectors;
use crate::vector::{add_part, read_parts, take_part, take_parts, Vector};
use crate::views_vectors;

/// The seed of the stored vectors.
pub const STANDARD_SEED: u64 = 1;

/// One sort of vectors.
pub struct Sort {
    /// Its files are `NAME_vectors/stdin` and `NAME_vectors/stdout`.
    pub name: &'static str,
    /// The word for it after `explain`.
    pub explain_word: &'static str,
    /// How many parts a vector has.
    pub parts: usize,
    /// Whether they stand packed in `stdin`.
    pub packed: bool,
    /// How many vectors there are at scale 1, but for those of the versions.
    pub count: usize,
    /// The vectors that are the same for every seed.
    pub fixed: fn() -> Vec<Vector>,
    /// A random vector.
    pub random: fn(&mut Random) -> Vector,
    /// The vectors that ask what a version changes, where it can change something.
    pub versions: Option<Versions>,
    /// The answer to a vector: one line, without its line feed.
    pub answer: fn(&Vector) -> String,
    /// A vector out of what a person typed.
    pub read_typed: fn(&[u8]) -> Option<Vector>,
    /// The answer to a vector in full.
    pub explain: fn(&Vector) -> String,
}

/// 02, request 7: vectors that follow the others of their sort. Those are of version 1, but where a table has another by chance.
pub struct Versions {
    /// How many there are at scale 1.
    pub count: usize,
    /// Those that are the same for every seed.
    pub fixed: fn() -> Vec<Vector>,
    /// Random ones that belong together.
    pub random: fn(&mut Random) -> Vec<Vector>,
}

/// All sorts of vectors.
pub static SORTS: [Sort; 12] = [
    Sort {
        name: "tokens",
        explain_word: "tokens",
        parts: 1,
        packed: false,
        count: 21_000,
        fixed: token_vectors::fixed,
        random: token_vectors::random,
        versions: None,
        answer: token_vectors::answer,
        read_typed: explain::read_text,
        explain: explain::tokens,
    },
    Sort {
        name: "numbers",
        explain_word: "number",
        parts: 2,
        packed: false,
        count: 6_000,
        fixed: number_vectors::fixed,
        random: number_vectors::random,
        versions: None,
        answer: number_vectors::answer,
        read_typed: explain::read_number,
        explain: explain::number,
    },
    Sort {
        name: "patterns",
        explain_word: "like",
        parts: 2,
        packed: false,
        count: 36_000,
        fixed: pattern_vectors::fixed,
        random: pattern_vectors::random,
        versions: None,
        answer: pattern_vectors::answer,
        read_typed: explain::read_two_lines,
        explain: explain::like,
    },
    Sort {
        name: "compile",
        explain_word: "compile",
        parts: 3,
        packed: true,
        count: 60_000,
        fixed: compile_vectors::fixed,
        random: compile_vectors::random,
        versions: Some(Versions { count: 7_000, fixed: compile_versions::fixed, random: compile_versions::random }),
        answer: compile_vectors::answer,
        read_typed: explain::read_rule_text,
        explain: explain::compile,
    },
    Sort {
        name: "begins",
        explain_word: "begins",
        parts: 2,
        packed: false,
        count: 6_000,
        fixed: begins_vectors::fixed,
        random: begins_vectors::random,
        versions: Some(Versions { count: 4_000, fixed: begins_versions::fixed, random: begins_versions::random }),
        answer: begins_vectors::answer,
        read_typed: explain::read_text_and_table,
        explain: explain::begins,
    },
    Sort {
        name: "bags",
        explain_word: "bag",
        parts: 3,
        packed: false,
        count: 10_000,
        fixed: bags_vectors::fixed,
        random: bags_vectors::random,
        versions: None,
        answer: bags_vectors::answer,
        read_typed: explain::read_look_up,
        explain: explain::bag,
    },
    Sort {
        name: "questions",
        explain_word: "question",
        parts: 1,
        packed: false,
        count: 7_000,
        fixed: questions_vectors::fixed,
        random: questions_vectors::random,
        versions: None,
        answer: questions_vectors::answer,
        read_typed: explain::read_text,
        explain: explain::question,
    },
    Sort {
        name: "views",
        explain_word: "view",
        parts: 4,
        packed: false,
        count: 8_000,
        fixed: views_vectors::fixed,
        random: views_vectors::random,
        versions: None,
        answer: views_vectors::answer,
        read_typed: explain::read_view,
        explain: explain::view,
    },
    Sort {
        name: "decide",
        explain_word: "decide",
        parts: 6,
        packed: true,
        count: 34_000,
        fixed: decide_vectors::fixed,
        random: decide_vectors::random,
        versions: Some(Versions { count: 28_000, fixed: decide_versions::fixed, random: decide_versions::random }),
        answer: decide_vectors::answer,
        read_typed: explain::read_decide,
        explain: explain::decide,
    },
    Sort {
        name: "sheet",
        explain_word: "sheet",
        parts: 9,
        packed: true,
        count: 6_000,
        fixed: sheet_vectors::fixed,
        random: sheet_vectors::random,
        versions: Some(Versions { count: 4_000, fixed: sheet_versions::fixed, random: sheet_versions::random }),
        answer: sheet_vectors::answer,
        read_typed: explain::read_sheet,
        explain: explain::sheet,
    },
    Sort {
        name: "tally",
        explain_word: "tally",
        parts: 5,
        packed: true,
        count: 8_000,
        fixed: tally_vectors::fixed,
        random: tally_vectors::random,
        versions: Some(Versions { count: 2_600, fixed: tally_versions::fixed, random: tally_versions::random }),
        answer: tally_vectors::answer,
        read_typed: explain::read_tally,
        explain: explain::tally,
    },
    Sort {
        name: "lock",
        explain_word: "lock",
        parts: 9,
        packed: true,
        count: 20_000,
        fixed: lock_vectors::fixed,
        random: lock_vectors::random,
        versions: None,
        answer: lock_vectors::answer,
        read_typed: explain::read_lock,
        explain: explain::lock,
    },
];

/// The vectors of one sort: the fixed ones, then random ones up to the count; and then those of the versions, likewise.
pub fn make(sort: &Sort, seed: u64, scale: usize) -> Vec<Vector> {
    let mut vectors = (sort.fixed)();
    let mut random = Random::new(seed_of(sort.name, seed));
    while vectors.len() < sort.count * scale {
        vectors.push((sort.random)(&mut random));
    }
    if let Some(versions) = &sort.versions {
        let mut random = Random::new(seed_of(&[sort.name, " versions"].concat(), seed));
        let mut more = (versions.fixed)();
        while more.len() < versions.count * scale {
            more.extend((versions.random)(&mut random));
        }
        more.truncate(versions.count * scale);
        vectors.extend(more);
    }
    vectors
}

/// Each sort has a seed of its own, so that a new sort leaves the others as they are.
fn seed_of(name: &str, seed: u64) -> u64 {
    let mut own = seed;
    for byte in name.bytes() {
        own = Random::new(own ^ u64::from(byte)).bits();
    }
    own
}

/// The bytes of `stdin`: the number of vectors in 4 bytes, then the parts, each after its length in 2 bytes; where the vectors are
/// packed, the packed bytes of each, after their length in 2 bytes.
pub fn encode(sort: &Sort, vectors: &[Vector]) -> Vec<u8> {
    let mut packer = Packer::new();
    let mut bytes = (vectors.len() as u32).to_le_bytes().to_vec();
    for vector in vectors {
        let mut parts = Vec::new();
        for part in vector {
            add_part(&mut parts, part);
        }
        if sort.packed {
            add_part(&mut bytes, &packer.pack(&parts));
        } else {
            bytes.extend_from_slice(&parts);
        }
    }
    bytes
}

/// The vectors in the bytes of a `stdin`, or nothing if these have another form.
pub fn decode(sort: &Sort, bytes: &[u8]) -> Option<Vec<Vector>> {
    let mut unpacker = Unpacker::new();
    let mut rest = bytes.get(4..)?;
    let count = u32::from_le_bytes([bytes[0], bytes[1], bytes[2], bytes[3]]);
    let mut vectors = Vec::new();
    for _ in 0..count {
        vectors.push(if sort.packed {
            read_parts(unpacker.unpack(&take_part(&mut rest)?)?, sort.parts)?
        } else {
            take_parts(&mut rest, sort.parts)?
        });
    }
    if rest.is_empty() {
        Some(vectors)
    } else {
        None
    }
}

/// The bytes of `stdout`: one line for each vector.
pub fn answers(sort: &Sort, vectors: &[Vector]) -> String {
    let mut lines = String::new();
    for vector in vectors {
        lines.push_str(&(sort.answer)(vector));
        lines.push('\n');
    }
    lines
}

/// Write `stdin` and `stdout` of every sort below the directory.
pub fn write_all(directory: &Path, seed: u64, scale: usize) -> io::Result<()> {
    for sort in &SORTS {
        let vectors = make(sort, seed, scale);
        let folder = directory.join(format!("{}_vectors", sort.name));
        fs::create_dir_all(&folder)?;
        fs::write(folder.join("stdin"), encode(sort, &vectors))?;
        fs::write(folder.join("stdout"), answers(sort, &vectors))?;
    }
    Ok(())
}

#[cfg(test)]
mod tests {
    use super::*;
    use definitions::compile::set_said_by;
    use definitions::policies::Version;

    fn sort_named(name: &str) -> &'static Sort {
        SORTS.iter().find(|sort| sort.name == name).unwrap()
    }

    #[test]
    fn the_format_is_as_said() {
        let vectors = vec![vec![b"ab".to_vec(), Vec::new()], vec![vec![b'x'; 258], b"\0".to_vec()]];
        let (sort, one_part) = (sort_named("begins"), sort_named("tokens"));
        let bytes = encode(sort, &vectors);
        assert_eq!(&bytes[..10], b"\x02\0\0\0\x02\0ab\0\0");
        assert_eq!(&bytes[10..13], b"\x02\x01x");
        assert_eq!(decode(sort, &bytes), Some(vectors));
        assert_eq!(decode(one_part, &bytes), None);
        assert_eq!(decode(sort, &bytes[..bytes.len() - 1]), None);
        assert_eq!(decode(sort, b"\0\0"), None);
        assert_eq!(read_parts(b"\x02\0ab\0\0", 2), Some(vec![b"ab".to_vec(), Vec::new()]));
        assert_eq!(read_parts(b"\x02\0ab\0\0x", 2), None);
    }

    #[test]
    fn the_packed_format_is_as_said() {
        let vectors =
            vec![vec![b"permit".to_vec(), Vec::new(), Vec::new()], vec![b"permit".to_vec(), Vec::new(), b"x".to_vec()]];
        let sort = sort_named("compile");
        let bytes = encode(sort, &vectors);
        assert_eq!(bytes, b"\x02\0\0\0\x0d\0\x0b\x06\0permit\0\0\0\0\x07\0\x86\0\0\x02\x01\0x");
        assert_eq!(decode(sort, &bytes), Some(vectors));
        assert_eq!(decode(sort, &bytes[..bytes.len() - 1]), None);
    }

    #[test]
    fn the_counts_are_met_and_the_files_stay_small() {
        for sort in &SORTS {
            let vectors = make(sort, STANDARD_SEED, 1);
            let count = sort.count + sort.versions.as_ref().map_or(0, |versions| versions.count);
            assert_eq!(vectors.len(), count);
            let bytes = encode(sort, &vectors);
            assert!(bytes.len() <= 4_000_000, "{}", bytes.len());
            assert!(decode(sort, &bytes) == Some(vectors.clone()));
            assert_eq!(answers(sort, &vectors).lines().count(), count);
        }
    }

    // 02, request 7: questions that stand once under version 1 and then under version 2, and otherwise alike; in a good share of them the
    // answers differ.
    #[test]
    fn questions_are_asked_under_both_versions() {
        for (name, wanted) in [("decide", 10_000), ("sheet", 1_800), ("tally", 1_100)] {
            let sort = sort_named(name);
            let vectors = make(sort, STANDARD_SEED, 1);
            let (mut questions, mut differ) = (0, 0);
            for pair in vectors[sort.count..].windows(2) {
                let versions = [0, 1].map(|index: usize| set_said_by(&pair[index][0], &pair[index][1])?.version);
                let is_alike = pair[0][0] == pair[1][0] && pair[0][2..] == pair[1][2..];
                if is_alike && versions == Version::ALL.map(Some) {
                    questions += 1;
                    differ += usize::from((sort.answer)(&pair[0]) != (sort.answer)(&pair[1]));
                }
            }
            assert!(questions >= wanted && 4 * differ >= questions, "{}: {} of {}", name, differ, questions);
        }
    }

    #[test]
    fn the_seed_decides() {
        for sort in &SORTS {
            let vectors = make(sort, 7, 1);
            assert!(vectors == make(sort, 7, 1));
            assert!(vectors != make(sort, 8, 1));
        }
    }
}
