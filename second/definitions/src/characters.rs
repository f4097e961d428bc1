//! UTF-8 by RFC 3629's own table (02, request 5): bytes read as characters, row by row of the table of its section 3.

/// A row of the table: the character numbers that it has, and the first byte's fixed bits under their mask. Each further byte is
/// `10xxxxxx`, and there are so many of them.
struct Row {
    lowest: u32,
    highest: u32,
    mask: u8,
    fixed: u8,
    further: usize,
}

/// RFC 3629, section 3: "Char. number range" and "UTF-8 octet sequence".
const TABLE: [Row; 4] = [
    Row { lowest: 0x0000, highest: 0x007F, mask: 0b1000_0000, fixed: 0b0000_0000, further: 0 },
    Row { lowest: 0x0080, highest: 0x07FF, mask: 0b1110_0000, fixed: 0b1100_0000, further: 1 },
    Row { lowest: 0x0800, highest: 0xFFFF, mask: 0b1111_0000, fixed: 0b1110_0000, further: 2 },
    Row { lowest: 0x1_0000, highest: 0x10_FFFF, mask: 0b1111_1000, fixed: 0b1111_0000, further: 3 },
];

/// RFC 3629, section 3: the numbers between D800 and DFFF are prohibited.
const SURROGATES: std::ops::RangeInclusive<u32> = 0xD800..=0xDFFF;

/// The first character's number, and how many bytes it has; nothing if the bytes do not begin with a character.
pub fn first_character(bytes: &[u8]) -> Option<(u32, usize)> {
    let first = *bytes.first()?;
    let row = TABLE.iter().find(|row| first & row.mask == row.fixed)?;
    let mut number = u32::from(first & !row.mask);
    for byte in bytes.get(1..=row.further)? {
        if !goes_on(*byte) {
            return None;
        }
        number = number << 6 | u32::from(byte & 0b0011_1111);
    }
    let is_character = (row.lowest..=row.highest).contains(&number) && !SURROGATES.contains(&number);
    is_character.then(|| (number, row.further + 1))
}

/// Whether a byte is of the form `10xxxxxx`: it goes on with a character.
pub fn goes_on(byte: u8) -> bool {
    byte & 0b1100_0000 == 0b1000_0000
}

/// The numbers of the characters that bytes are one after the other; nothing if they are not UTF-8.
pub fn characters_of(bytes: &[u8]) -> Option<Vec<u32>> {
    let mut numbers = Vec::new();
    let mut rest = bytes;
    while !rest.is_empty() {
        let (number, length) = first_character(rest)?;
        numbers.push(number);
        rest = &rest[length..];
    }
    Some(numbers)
}

/// Whether bytes are UTF-8: one character after the other.
pub fn is_utf8(bytes: &[u8]) -> bool {
    let mut rest = bytes;
    while !rest.is_empty() {
        match first_character(rest) {
            Some((_, length)) => rest = &rest[length..],
            None => return false,
        }
    }
    true
}

#[cfg(test)]
mod tests {
    use super::*;

    /// The standard library, which is not used elsewhere, reads the same characters, or none.
    fn agrees(bytes: &[u8]) {
        match std::str::from_utf8(bytes) {
            Ok(text) => assert_eq!(characters_of(bytes), Some(text.chars().map(u32::from).collect())),
            Err(_) => assert!(characters_of(bytes).is_none(), "{:02X?}", bytes),
        }
        assert_eq!(is_utf8(bytes), std::str::from_utf8(bytes).is_ok());
    }

    #[test]
    fn it_agrees_with_the_library_on_all_sequences_of_up_to_three_bytes() {
        agrees(b"");
        for first in 0..=255u8 {
            agrees(&[first]);
            for second in 0..=255u8 {
                agrees(&[first, second]);
                for third in 0..=255u8 {
                    agrees(&[first, second, third]);
                }
            }
        }
    }

    // Every first and second byte, and further ones at and next to the borders of their ranges.
    #[test]
    fn it_agrees_with_the_library_on_the_borders_of_four() {
        const BORDERS: [u8; 14] = [0x00, 0x22, 0x3F, 0x7F, 0x80, 0x81, 0x8F, 0x90, 0x9F, 0xA0, 0xBF, 0xC0, 0xE0, 0xFF];
        for first in 0..=255u8 {
            for second in 0..=255u8 {
                for third in BORDERS {
                    for fourth in BORDERS {
                        agrees(&[first, second, third, fourth]);
                    }
                }
            }
        }
        for number in [0x1_0000, 0x1_FFFF, 0xF_FFFF, 0x10_0000, 0x10_FFFF] {
            let text = char::from_u32(number).unwrap().to_string();
            assert_eq!(characters_of(text.as_bytes()), Some(vec![number]));
        }
        agrees(&[0xF4, 0x90, 0x80, 0x80]);
        agrees(&[0xF0, 0x8F, 0xBF, 0xBF]);
    }

    #[test]
    fn every_character_is_read_back() {
        for number in 0..=0x11_0000 {
            let character = match char::from_u32(number) {
                Some(character) => character.to_string(),
                None => continue,
            };
            assert_eq!(characters_of(character.as_bytes()), Some(vec![number]));
        }
    }

    #[test]
    fn the_forms_that_the_request_names() {
        assert_eq!(characters_of("Süd".as_bytes()), Some(vec![0x53, 0xFC, 0x64]));
        assert!(!is_utf8(b"S\xFCd"));
        // An overlong form, a surrogate, a number above 10FFFF, a sequence cut off.
        assert!(!is_utf8(b"\xC0\xAF"));
        assert!(!is_utf8(b"\xED\xA0\x80"));
        assert!(!is_utf8(b"\xF4\x90\x80\x80"));
        assert!(!is_utf8(b"a\xE2\x82"));
        assert!(is_utf8(b"\x01\x7F\x00"));
    }
}
