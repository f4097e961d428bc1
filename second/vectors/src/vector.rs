//! One vector: its parts, their bytes, and what the sorts of vectors share.

use definitions::compile::table_of;
use definitions::deciding::Request;
use definitions::policies::Version;
use definitions::table::{ENTRY_BYTES, FORBID, PERMIT};

/// One vector: its parts, each a byte string.
pub type Vector = Vec<Vec<u8>>;

/// A short sum of bytes, for lines that would else be long.
pub fn sum_of(bytes: &[u8]) -> u64 {
    bytes.iter().fold(0, |sum, byte| (sum * 31 + u64::from(*byte)) % 1_000_003)
}

/// A vector with its text's own table under a version; text and table are its first parts.
pub fn under(vector: &Vector, version: Version) -> Vector {
    let mut own = vector.clone();
    own[1] = table_of(&vector[0], version);
    own
}

/// A vector under each version, in their order.
pub fn under_both(vector: &Vector) -> [Vector; 2] {
    Version::ALL.map(|version| under(vector, version))
}

/// The bytes of a text's own table at which the policies begin, each with the entry of its principal part.
pub fn policy_starts(table: &[u8]) -> Vec<usize> {
    let mut starts = vec![0];
    for at in (0..table.len()).step_by(ENTRY_BYTES) {
        if matches!(table[at], PERMIT | FORBID) {
            starts.push(at + ENTRY_BYTES);
        }
    }
    starts.pop();
    starts
}

/// A vector's request; its parts are text, table, bag or question, and then these.
pub fn request_of(vector: &Vector) -> Request<'_> {
    request_in(&vector[3..6])
}

/// The request in three parts.
pub fn request_in(parts: &[Vec<u8>]) -> Request<'_> {
    Request { subject: &parts[0], action: &parts[1], resource: &parts[2] }
}

/// Add a part after its length in 2 bytes.
pub fn add_part(bytes: &mut Vec<u8>, part: &[u8]) {
    let length = u16::try_from(part.len()).expect("a part has at most 65,535 bytes");
    bytes.extend_from_slice(&length.to_le_bytes());
    bytes.extend_from_slice(part);
}

/// One vector alone: its parts, each after its length in 2 bytes, and nothing else.
pub fn read_parts(bytes: &[u8], parts: usize) -> Option<Vector> {
    let mut rest = bytes;
    let vector = take_parts(&mut rest, parts)?;
    if rest.is_empty() {
        Some(vector)
    } else {
        None
    }
}

/// The next parts.
pub fn take_parts(rest: &mut &[u8], parts: usize) -> Option<Vector> {
    (0..parts).map(|_| take_part(rest)).collect()
}

/// The next part.
pub fn take_part(rest: &mut &[u8]) -> Option<Vec<u8>> {
    let length = usize::from(u16::from_le_bytes([*rest.first()?, *rest.get(1)?]));
    let part = rest.get(2..2 + length)?.to_vec();
    *rest = &rest[2 + length..];
    Some(part)
}
