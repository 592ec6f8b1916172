//! The header's fields that no plan changes.

use super::{GRAY, RGB, XYB};

/// Class and space.
const PAIRS: [(u8, &[u8; 4], &[u8; 4]); 3] = [
    (GRAY, b"mntr", b"GRAY"),
    (RGB, b"mntr", b"RGB "),
    (XYB, b"scnr", b"RGB "),
];

/// Fields and where they stand. The bytes that no field and no other part of the header names are
/// zero.
const FIELDS: [(usize, &[u8]); 9] = [
    (4, b"jxl "),
    (8, &[4, 0x40, 0, 0]),
    (20, b"XYZ "),
    // 2019, 12, 1, and midnight.
    (24, &[0x07, 0xe3, 0, 12, 0, 1, 0, 0, 0, 0, 0, 0]),
    (36, b"acspAPPL"),
    (68, &[0, 0, 0xf6, 0xd6]),
    (72, &[0, 1, 0, 0]),
    (76, &[0, 0, 0xd3, 0x2d]),
    (80, b"jxl "),
];

/// Flags, attributes, and what is reserved after the id. Maker and model, between the first two, may
/// be any.
const ZEROS: [std::ops::Range<usize>; 3] = [44..48, 56..64, 100..128];

/// The kind of the header, or None where refusal 23 is due.
pub fn kind(file: &[u8]) -> Option<u8> {
    let pair = PAIRS
        .iter()
        .find(|(_, class, space)| file[12..16] == class[..] && file[16..20] == space[..])?;
    let fields = FIELDS
        .iter()
        .all(|(at, bytes)| file[*at..].starts_with(bytes));
    let zeros = ZEROS
        .iter()
        .all(|part| file[part.clone()].iter().all(|byte| *byte == 0));
    (fields && zeros).then_some(pair.0)
}
