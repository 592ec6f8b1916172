//! How often each answer, count and class of number occurred.

use std::collections::BTreeMap;
use std::ops::RangeInclusive;

use judge::encoding::{ADAPTED_GRAY, Encoding, GAMMA, GRAY, RGB, XYB};
use judge::leaves;

/// The refusals of the calls, and those of adapted gray. Number 2 no longer occurs.
const REFUSALS: [u32; 9] = [1, 3, 4, 5, 6, 7, 8, 9, 43];
const ADAPTED_REFUSALS: [u32; 6] = [1, 4, 5, 8, 9, 43];

/// The fixed numbers of a file: gray with a gamma and with a named curve, adapted gray and RGB likewise,
/// XYB.
const FILES: [usize; 7] = [4, 8, 13, 17, 22, 26, 45];

const KINDS: [(u8, &str); 4] = [
    (GRAY, "gray"),
    (RGB, "RGB"),
    (XYB, "XYB"),
    (ADAPTED_GRAY, "adapted gray"),
];

/// The counts that a file of gray can have: of X and Z none to two, of the curve none, one or five.
const GRAY_COUNTS: [u32; 7] = [0, 1, 2, 3, 5, 6, 7];

/// Those of RGB and of adapted gray: two constants of `wtpt` are rounded in every file, and one in none.
const RGB_COUNTS: RangeInclusive<u32> = 2..=25;
const ADAPTED_COUNTS: RangeInclusive<u32> = 2..=16;

#[derive(Default)]
pub struct Met {
    /// By kind, adapted gray apart, and count.
    counts: BTreeMap<(u8, u32), u64>,
    /// By the fixed numbers of the file.
    files: BTreeMap<usize, u64>,
    /// Files of XYB, by intent.
    xyb: BTreeMap<u8, u64>,
    refused: BTreeMap<u32, u64>,
    /// Of these, adapted gray.
    adapted: BTreeMap<u32, u64>,
    floats: BTreeMap<Class, u64>,
}

/// What a float is, as a fixed number. A gamma's reciprocal that is whole is counted once more.
#[derive(Clone, Copy, Debug, PartialEq, Eq, PartialOrd, Ord)]
enum Class {
    Zero,
    MinusZero,
    Whole,
    WholeReciprocal,
    RoundsToZero,
    Half,
    Rounded,
}

impl Class {
    const ALL: [(Self, &str); 7] = [
        (Self::Zero, "plus zero"),
        (Self::MinusZero, "minus zero"),
        (Self::Whole, "other whole"),
        (Self::WholeReciprocal, "of these reciprocals of a gamma"),
        (Self::RoundsToZero, "rounded to 0"),
        (Self::Half, "halves"),
        (Self::Rounded, "other rounded"),
    ];

    fn of(x: f32) -> Self {
        let scaled = f64::from(x) * 65536.0;
        if x == 0.0 && x.is_sign_negative() {
            Self::MinusZero
        } else if x == 0.0 {
            Self::Zero
        } else if leaves::is_whole(x.to_bits()) {
            Self::Whole
        } else if scaled.fract().abs() == 0.5 {
            Self::Half
        } else if scaled.abs() < 0.5 {
            Self::RoundsToZero
        } else {
            Self::Rounded
        }
    }
}

impl Met {
    pub fn accepted(&mut self, encoding: &Encoding, floats: &[f32], rounded: u32) {
        let kind = encoding.section();
        *self.counts.entry((kind, rounded)).or_default() += 1;
        *self.files.entry(floats.len()).or_default() += 1;
        if encoding.kind == XYB {
            *self.xyb.entry(encoding.intent).or_default() += 1;
        }
        let mut classes: Vec<Class> = floats.iter().map(|x| Class::of(*x)).collect();
        // The curve comes last.
        let gamma = encoding.kind != XYB && encoding.curve.kind == GAMMA;
        if gamma && classes.last() == Some(&Class::Whole) {
            classes.push(Class::WholeReciprocal);
        }
        for class in classes {
            *self.floats.entry(class).or_default() += 1;
        }
    }

    pub fn refused(&mut self, encoding: &Encoding, number: u32) {
        *self.refused.entry(number).or_default() += 1;
        if encoding.adapted {
            *self.adapted.entry(number).or_default() += 1;
        }
    }

    pub fn add(&mut self, other: Self) {
        add(&mut self.counts, other.counts);
        add(&mut self.files, other.files);
        add(&mut self.xyb, other.xyb);
        add(&mut self.refused, other.refused);
        add(&mut self.adapted, other.adapted);
        add(&mut self.floats, other.floats);
    }

    /// What should have occurred and did not.
    pub fn lacks(&self) -> Vec<String> {
        let mut all = Vec::new();
        let files = FILES.iter().filter(|file| !self.files.contains_key(file));
        all.extend(files.map(|numbers| format!("a file of {numbers} numbers")));
        let intents = (0..4).filter(|intent| !self.xyb.contains_key(intent));
        all.extend(intents.map(|intent| format!("a file of XYB with intent {intent}")));
        let refusals = REFUSALS.iter().filter(|n| !self.refused.contains_key(n));
        all.extend(refusals.map(|number| format!("refusal {number}")));
        let adapted = ADAPTED_REFUSALS.iter();
        let adapted = adapted.filter(|n| !self.adapted.contains_key(n));
        all.extend(adapted.map(|number| format!("refusal {number} of adapted gray")));
        let gray = GRAY_COUNTS.into_iter().map(|count| (GRAY, count));
        let adapted = ADAPTED_COUNTS.map(|count| (ADAPTED_GRAY, count));
        let counts = gray.chain(RGB_COUNTS.map(|count| (RGB, count)));
        let counts = counts.chain(adapted);
        let counts = counts.filter(|count| !self.counts.contains_key(count));
        all.extend(counts.map(|(kind, count)| format!("count {count} of kind {kind}")));
        let classes = Class::ALL
            .iter()
            .filter(|c| !self.floats.contains_key(&c.0));
        all.extend(classes.map(|class| format!("numbers, {}", class.1)));
        all
    }

    /// The answers: files by their fixed numbers, and refusals.
    pub fn answers(&self) -> String {
        let files = self.files.iter();
        let files = files.map(|(numbers, times)| format!("{times} files of {numbers} numbers"));
        let refused = self.refused.iter();
        let refused = refused.map(|(number, times)| format!("{times} refused {number}"));
        joined(files.chain(refused))
    }

    /// Lines on the counts of each kind, and on the numbers.
    pub fn lines(&self) -> Vec<String> {
        let mut lines = Vec::new();
        for (kind, name) in KINDS {
            let counts = self.counts.iter().filter(|(key, _)| key.0 == kind);
            let counts = joined(counts.map(|((_, count), times)| format!("{count}: {times}")));
            if !counts.is_empty() {
                lines.push(format!("{name} files with each count: {counts}"));
            }
        }
        let intents = joined(
            self.xyb
                .iter()
                .map(|(intent, times)| format!("{intent}: {times}")),
        );
        if !intents.is_empty() {
            lines.push(format!("XYB files by intent: {intents}"));
        }
        let numbers = joined(Class::ALL.iter().filter_map(|(class, name)| {
            let times = self.floats.get(class)?;
            Some(format!("{times} {name}"))
        }));
        if !numbers.is_empty() {
            lines.push(format!("numbers: {numbers}"));
        }
        lines
    }
}

fn joined(parts: impl Iterator<Item = String>) -> String {
    parts.collect::<Vec<_>>().join(", ")
}

fn add<K: Ord>(to: &mut BTreeMap<K, u64>, from: BTreeMap<K, u64>) {
    for (key, times) in from {
        *to.entry(key).or_default() += times;
    }
}
