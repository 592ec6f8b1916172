//! The elements of a file whose tag table is a plan's, field by field.

use std::sync::LazyLock;

use super::{GRAY, Plan, Table, XYB, number, word};
use crate::answer;
use crate::encoding::{BT709, DCI_CURVE, Encoding, GAMMA, LINEAR, SRGB_CURVE};

/// The named curves: number in the job, `cicp` transfer, the five numbers of type 3.
const CURVES: [(u8, u8, [i32; 5]); 4] = [
    (SRGB_CURVE, 13, [157286, 62119, 3417, 5072, 2651]),
    (BT709, 1, [145636, 59632, 5904, 14564, 5308]),
    (LINEAR, 8, [65536, 65536, 0, 65536, 0]),
    (DCI_CURVE, 17, [170394, 65536, 0, 65536, 0]),
];

/// The file's bytes that are not looked at yet; each call takes from the front. None where a byte
/// is not due.
struct Rest<'a>(&'a [u8]);

impl<'a> Rest<'a> {
    fn take(&mut self, count: usize) -> Option<&'a [u8]> {
        let (front, rest) = self.0.split_at_checked(count)?;
        self.0 = rest;
        Some(front)
    }

    fn expect(&mut self, bytes: &[u8]) -> Option<()> {
        (self.take(bytes.len())? == bytes).then_some(())
    }

    fn zeros(&mut self, count: usize) -> Option<()> {
        let all = self.take(count)?;
        all.iter().all(|byte| *byte == 0).then_some(())
    }

    fn numbers<const N: usize>(&mut self) -> Option<[i32; N]> {
        let bytes = self.take(4 * N)?;
        Some(std::array::from_fn(|at| number(bytes, 4 * at)))
    }

    /// An element's type and the four bytes that are reserved after it.
    fn start(&mut self, kind: &[u8; 4]) -> Option<()> {
        self.expect(kind)?;
        self.zeros(4)
    }

    /// A text with its padding: one record, English, of two bytes a letter, at 28.
    fn text(&mut self, letters: usize) -> Option<Vec<u8>> {
        self.start(b"mluc")?;
        let record = self.take(20)?;
        let fields = [
            word(record, 0),
            word(record, 4),
            word(record, 12),
            word(record, 16),
        ];
        if fields != [1, 12, 2 * letters as u32, 28] || record[8..12] != *b"enUS" {
            return None;
        }
        let units = self.take(2 * letters)?.chunks_exact(2);
        let text = units.map(|unit| (unit[0] == 0 && unit[1] <= 127).then_some(unit[1]));
        let text = text.collect::<Option<Vec<u8>>>()?;
        self.zeros(if letters % 2 == 1 { 2 } else { 0 })?;
        Some(text)
    }

    fn xyz(&mut self) -> Option<[i32; 3]> {
        self.start(b"XYZ ")?;
        self.numbers()
    }

    /// `wtpt`, which must be D50, and the numbers of `chad`.
    fn d50_and_chad(&mut self) -> Option<[i32; 9]> {
        if self.xyz()? != [63190, 65536, 54061] {
            return None;
        }
        self.start(b"sf32")?;
        self.numbers()
    }

    /// Primaries and transfer.
    fn cicp(&mut self) -> Option<(u8, u8)> {
        self.start(b"cicp")?;
        let values = self.take(4)?;
        let known = [1, 9, 11, 12].contains(&values[0]) && values[2..] == [0, 1];
        known.then_some((values[0], values[1]))
    }

    /// The curve's number, its gamma and its `cicp` transfer; the last two are zero where it has
    /// none.
    fn curve(&mut self, gamma: bool) -> Option<(u8, i32, u8)> {
        self.start(b"para")?;
        if gamma {
            self.zeros(4)?;
            let [number] = self.numbers()?;
            return Some((GAMMA, number, 0));
        }
        self.expect(&[0, 3, 0, 0])?;
        let five = self.numbers()?;
        let named = CURVES.iter().find(|(.., numbers)| *numbers == five);
        named.map(|(name, transfer, _)| (*name, 0, *transfer))
    }
}

/// The plan of the elements, what the header holds left out, or None where refusal 26 is due.
pub fn read(file: &[u8], kind: u8, table: &Table) -> Option<Plan> {
    let mut rest = Rest(&file[132 + 12 * word(file, 128) as usize..]);
    match kind {
        GRAY => gray(&mut rest, table),
        XYB => xyb(rest.0, word(file, 64)),
        _ => rgb(&mut rest, table),
    }
}

fn gray(rest: &mut Rest, table: &Table) -> Option<Plan> {
    let text = rest.text(table.letters)?;
    copyright(rest)?;
    let (white, chad) = if table.adapted {
        ([0; 2], rest.d50_and_chad()?)
    } else {
        let [x, y, z] = rest.xyz()?;
        (y == 65536).then_some(([x, z], [0; 9]))?
    };
    let (curve, gamma, _) = rest.curve(table.gamma)?;
    Some(Plan {
        kind: GRAY,
        text,
        adapted: table.adapted,
        white,
        chad,
        curve,
        gamma,
        ..Plan::default()
    })
}

fn rgb(rest: &mut Rest, table: &Table) -> Option<Plan> {
    let text = rest.text(table.letters)?;
    copyright(rest)?;
    let chad = rest.d50_and_chad()?;
    let cicp = if table.cicp { Some(rest.cicp()?) } else { None };
    let columns = [rest.xyz()?, rest.xyz()?, rest.xyz()?];
    let (curve, gamma, due) = rest.curve(table.gamma)?;
    if cicp.is_some_and(|(_, transfer)| transfer != due) {
        return None;
    }
    Some(Plan {
        kind: super::RGB,
        text,
        chad,
        cicp: cicp.map_or(0, |(primaries, _)| primaries),
        columns: std::array::from_fn(|at| columns[at / 3][at % 3]),
        curve,
        gamma,
        ..Plan::default()
    })
}

/// The one XYB plan of the header's intent, which is below 4: what is written after the table of six
/// tags. The text is that of the intent.
fn xyb(elements: &[u8], intent: u32) -> Option<Plan> {
    static WRITTEN: LazyLock<[Vec<u8>; 4]> = LazyLock::new(|| {
        [0, 1, 2, 3].map(|intent| answer::profile(&Encoding::xyb(intent)).expect("accepted"))
    });
    let same = *elements == WRITTEN[intent as usize][132 + 12 * 6..];
    same.then_some(Plan {
        kind: XYB,
        ..Plan::default()
    })
}

fn copyright(rest: &mut Rest) -> Option<()> {
    (rest.text(3)? == b"CC0").then_some(())
}
