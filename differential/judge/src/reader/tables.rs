//! The tag tables of all plans.

use std::sync::LazyLock;

use super::{GRAY, RGB, XYB};
use crate::answer;
use crate::encoding::Encoding;

/// A tag table, and what of a plan leads to it.
pub struct Table {
    pub letters: usize,
    /// A type 0 curve; else type 3.
    pub gamma: bool,
    pub cicp: bool,
    /// Gray with `chad`.
    pub adapted: bool,
    bytes: Vec<u8>,
    length: usize,
}

impl Table {
    /// Whether a file that has 132 bytes or more has this table and its length.
    pub fn is_of(&self, file: &[u8]) -> bool {
        file.len() == self.length && file[128..].starts_with(&self.bytes)
    }

    /// The table of tags with these sizes. A tag without a size names the element before it.
    fn new(letters: usize, gamma: bool, cicp: bool, tags: &[(&[u8; 4], Option<usize>)]) -> Self {
        let mut bytes = (tags.len() as u32).to_be_bytes().to_vec();
        let mut next = 132 + 12 * tags.len();
        let mut last = (0, 0);
        for (signature, size) in tags {
            if let Some(size) = *size {
                last = (next, size);
                next += size.div_ceil(4) * 4;
            }
            bytes.extend(*signature);
            bytes.extend((last.0 as u32).to_be_bytes());
            bytes.extend((last.1 as u32).to_be_bytes());
        }
        Self {
            letters,
            gamma,
            cicp,
            adapted: false,
            bytes,
            length: next,
        }
    }
}

/// Both texts and the white, with which every table begins; `CC0` has three letters.
fn first(letters: usize) -> Vec<(&'static [u8; 4], Option<usize>)> {
    vec![
        (b"desc", Some(28 + 2 * letters)),
        (b"cprt", Some(28 + 2 * 3)),
        (b"wtpt", Some(20)),
    ]
}

fn curve_size(gamma: bool) -> usize {
    if gamma { 16 } else { 32 }
}

fn gray(letters: usize, gamma: bool, adapted: bool) -> Table {
    let mut tags = first(letters);
    if adapted {
        tags.push((b"chad", Some(44)));
    }
    tags.push((b"kTRC", Some(curve_size(gamma))));
    Table {
        adapted,
        ..Table::new(letters, gamma, false, &tags)
    }
}

fn rgb(letters: usize, gamma: bool, cicp: bool) -> Table {
    let mut tags = first(letters);
    tags.push((b"chad", Some(44)));
    if cicp {
        tags.push((b"cicp", Some(12)));
    }
    tags.extend([b"rXYZ", b"gXYZ", b"bXYZ"].map(|signature| (signature, Some(20))));
    tags.push((b"rTRC", Some(curve_size(gamma))));
    tags.extend([(b"gTRC", None), (b"bTRC", None)]);
    Table::new(letters, gamma, cicp, &tags)
}

/// The texts of the four intents are of one length, so there is one table.
fn xyb() -> Table {
    let letters = answer::description(&Encoding::xyb(0)).len();
    let mut tags = first(letters);
    tags.extend([
        (b"chad", Some(44)),
        (b"A2B0", Some(292)),
        (b"B2A0", Some(80)),
    ]);
    Table::new(letters, false, false, &tags)
}

/// Every table of a kind: a text of 1 to 372 letters, either curve, `cicp` beside type 3 or not, `chad`
/// of gray or not.
pub fn of_kind(kind: u8) -> &'static [Table] {
    static GRAYS: LazyLock<Vec<Table>> = LazyLock::new(|| {
        let shapes = [(false, false), (false, true), (true, false), (true, true)];
        let all = (1..=372)
            .flat_map(|letters| shapes.map(|(gamma, adapted)| gray(letters, gamma, adapted)));
        all.collect()
    });
    static RGBS: LazyLock<Vec<Table>> = LazyLock::new(|| {
        let shapes = [(false, false), (false, true), (true, false)];
        let all =
            (1..=372).flat_map(|letters| shapes.map(|(gamma, cicp)| rgb(letters, gamma, cicp)));
        all.collect()
    });
    static XYBS: LazyLock<Vec<Table>> = LazyLock::new(|| vec![xyb()]);
    match kind {
        GRAY => &GRAYS,
        RGB => &RGBS,
        XYB => &XYBS,
        _ => &[],
    }
}
