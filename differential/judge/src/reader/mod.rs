//! A reader of profiles by the words of the scope alone: the plan of a file, or the first refusal
//! of 21 to 28.
//!
//! It goes another way than the port's: it tries the tag tables of all plans of the file's class
//! and space, and looks at each element field by field. Of XYB, which has a plan for each intent, the
//! bytes are those that the original writes, or what 02's order 8 makes of them.

mod elements;
mod header;
mod tables;

use crate::encoding::{Device, GRAY, RGB, XYB};
use crate::leaves;
use tables::Table;

/// Each free number lies within this, of either sign.
pub const LARGEST: i32 = 2_147_483_264;

/// A plan. Kinds and curves are numbered as in the job, `cicp` is its primaries value; what a plan
/// lacks is zero. XYB has intent, maker, model and the mark and no other free part, so all but these
/// and its kind is zero.
#[derive(Clone, Debug, Default, PartialEq, Eq)]
pub struct Plan {
    pub kind: u8,
    pub intent: u32,
    pub device: Device,
    /// The mark: sixteen zero bytes stand in place of the id.
    pub id_not_computed: bool,
    pub curve: u8,
    pub gamma: i32,
    pub cicp: u8,
    /// Gray whose white is adapted to D50 (02, order 9): it has `chad`, and no white of its own.
    pub adapted: bool,
    /// X and Z of a gray white.
    pub white: [i32; 2],
    pub chad: [i32; 9],
    pub columns: [i32; 9],
    pub text: Vec<u8>,
}

impl Plan {
    fn numbers(&self) -> impl Iterator<Item = i32> {
        let single = [self.gamma, self.white[0], self.white[1]];
        let all = single.into_iter().chain(self.chad);
        all.chain(self.columns)
    }
}

/// The plan of a file, or the number of the first refusal.
pub fn read(file: &[u8]) -> Result<Plan, u32> {
    if file.len() < 132 {
        return Err(21);
    }
    if u64::from(word(file, 0)) != file.len() as u64 {
        return Err(22);
    }
    let kind = header::kind(file).ok_or(23u32)?;
    let intent = word(file, 64);
    if intent > 3 {
        return Err(24);
    }
    let table = tables::of_kind(kind).iter().find(|table| table.is_of(file));
    let mut plan = elements::read(file, kind, table.ok_or(25u32)?).ok_or(26u32)?;
    plan.intent = intent;
    plan.device = Device {
        maker: word(file, 48),
        model: word(file, 52),
    };
    if plan.numbers().any(|number| !in_range(number)) {
        return Err(27);
    }
    plan.id_not_computed = mark(&file[84..100], id(file)).ok_or(28u32)?;
    Ok(plan)
}

/// Whether an id is not computed, or None where it is wrong. The right one is tried first, so that
/// zeros have no mark where they are the right one.
fn mark(found: &[u8], right: [u8; 16]) -> Option<bool> {
    let computed = found == right;
    (computed || found == [0; 16]).then_some(!computed)
}

fn in_range(number: i32) -> bool {
    i64::from(number).abs() <= i64::from(LARGEST)
}

/// Where the element of a signature stands in a file and how long it is; None where the reader
/// refuses or the tag is absent.
pub fn find(file: &[u8], signature: [u8; 4]) -> Option<(usize, usize)> {
    place(file, read(file).is_ok(), signature)
}

/// The same where it is known whether the reader accepts the file.
pub fn place(file: &[u8], accepted: bool, signature: [u8; 4]) -> Option<(usize, usize)> {
    if !accepted {
        return None;
    }
    let count = word(file, 128) as usize;
    let lines = file[132..132 + 12 * count].chunks_exact(12);
    let mut lines = lines.filter(|line| line[..4] == signature);
    let line = lines.next()?;
    Some((word(line, 4) as usize, word(line, 8) as usize))
}

/// The id that is due: MD5 of the file with flags, intent and id zero.
pub fn id(file: &[u8]) -> [u8; 16] {
    let mut blank = file.to_vec();
    for zeros in [44..48, 64..68, 84..100] {
        blank[zeros].fill(0);
    }
    leaves::md5(&blank)
}

fn word(bytes: &[u8], at: usize) -> u32 {
    u32::from_be_bytes(bytes[at..at + 4].try_into().expect("four bytes"))
}

fn number(bytes: &[u8], at: usize) -> i32 {
    word(bytes, at) as i32
}
