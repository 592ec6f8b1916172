//! Jobs at random: good ones, and damaged ones.

use super::floats::NANS;
use super::random::Random;
use super::{below, byte, encodings};
use crate::encoding::{Curve, Encoding, GAMMA, OWN, Primaries, RGB, White, XYB};
use crate::jobs::SECTIONS;

// How many values have a meaning. White and primaries have as many kinds.
const KINDS: u8 = OWN + 1;
const CURVES: u8 = GAMMA + 1;
const INTENTS: u8 = 4;

/// A kind, curve or intent in a job: where it stands, and the first value without meaning.
#[derive(Clone, Copy)]
pub struct Code {
    pub place: usize,
    pub limit: u8,
}

/// The bytes of a job, and where they can be damaged.
#[derive(Clone, Default)]
pub struct Job {
    pub bytes: Vec<u8>,
    pub counts: Vec<usize>,
    pub codes: Vec<Code>,
}

impl Job {
    /// The good job of these encodings, each in its section.
    pub fn of(encodings: &[Encoding]) -> Self {
        let mut job = Self::default();
        for section in SECTIONS {
            let entries = encodings.iter().filter(|one| one.kind == section);
            let count = u8::try_from(entries.clone().count());
            job.counts.push(job.bytes.len());
            job.bytes.push(count.expect("a section has at most 255"));
            for encoding in entries {
                job.entry(encoding);
            }
        }
        job
    }

    fn entry(&mut self, encoding: &Encoding) {
        let (white, primaries, curve) = (encoding.white, encoding.primaries, encoding.curve);
        if encoding.kind != XYB {
            self.code(white.kind, KINDS);
            self.floats(&[white.wx, white.wy]);
        }
        if encoding.kind == RGB {
            self.code(primaries.kind, KINDS);
            self.floats(&primaries.xy);
        }
        if encoding.kind != XYB {
            self.code(curve.kind, CURVES);
            self.floats(&[curve.gamma]);
        }
        self.code(encoding.intent, INTENTS);
    }

    fn code(&mut self, value: u8, limit: u8) {
        let place = self.bytes.len();
        self.codes.push(Code { place, limit });
        self.bytes.push(value);
    }

    fn floats(&mut self, floats: &[u32]) {
        let bytes = floats.iter().flat_map(|bits| bits.to_be_bytes());
        self.bytes.extend(bytes);
    }

    /// One fault: an early end, bytes left, or a byte changed.
    fn damage(&mut self, random: &mut Random) {
        match random.below(6) {
            0 => self.bytes.truncate(below(random, self.bytes.len())),
            1 => {
                let more = 1 + random.below(4);
                self.bytes.extend((0..more).map(|_| byte(random)));
            }
            2 => self.change_slightly(random.pick(&self.counts), random),
            3 | 4 if !self.codes.is_empty() => {
                let code = random.pick(&self.codes);
                let values = [code.limit, 255, byte(random)];
                self.change(code.place, random.pick(&values));
            }
            _ => self.change_slightly(below(random, self.bytes.len()), random),
        }
    }

    /// To the next value, the one before or any.
    fn change_slightly(&mut self, place: usize, random: &mut Random) {
        let old = self.bytes.get(place).copied().unwrap_or_default();
        let values = [old.wrapping_add(1), old.wrapping_sub(1), byte(random)];
        self.change(place, random.pick(&values));
    }

    /// An earlier fault may have cut the place off.
    fn change(&mut self, place: usize, value: u8) {
        if let Some(byte) = self.bytes.get_mut(place) {
            *byte = value;
        }
    }
}

/// Where the entries of random jobs are drawn from.
pub struct Source {
    /// The boundary encodings of each section.
    boundary: [Vec<Encoding>; 3],
}

impl Source {
    pub fn new(boundary: &[Encoding]) -> Self {
        let of_kind = |kind| boundary.iter().filter(move |one| one.kind == kind);
        Self {
            boundary: SECTIONS.map(|section| of_kind(section).copied().collect()),
        }
    }

    /// Half of the jobs are good. The others get one fault or more, which leave some of them good.
    pub fn job(&self, random: &mut Random) -> Vec<u8> {
        let mut entries = Vec::new();
        for section in SECTIONS {
            let count = count(random);
            entries.extend((0..count).map(|_| self.encoding(random, section)));
        }
        let mut job = Job::of(&entries);
        match random.below(20) {
            0..10 => {}
            10 => fill_entries(random, &mut job),
            11..17 => job.damage(random),
            _ => (0..2 + random.below(2)).for_each(|_| job.damage(random)),
        }
        job.bytes
    }

    /// An encoding of a section.
    pub fn encoding(&self, random: &mut Random, section: u8) -> Encoding {
        if section == XYB {
            return Encoding::xyb(random.below(INTENTS.into()) as u8);
        }
        let mut encoding = match random.below(10) {
            0..3 => random.pick(&self.boundary[usize::from(section) - 1]),
            3 => of_any_floats(random, section),
            _ => loop {
                let one = encodings::encoding(random);
                if one.kind == section {
                    break one;
                }
            },
        };
        if random.percent(50) {
            let bits = || match random.below(2) {
                0 => random.pick(&NANS),
                _ => random.bits32(),
            };
            encodings::fill_unused(bits, &mut encoding);
        }
        encoding
    }
}

/// The number of entries in a section. Most are small, so that a job takes little time.
fn count(random: &mut Random) -> u32 {
    match random.below(1000) {
        0 => random.below(256),
        1..20 => random.below(12),
        _ => random.below(3),
    }
}

/// An encoding of which each number is drawn by itself.
fn of_any_floats(random: &mut Random, section: u8) -> Encoding {
    let white = White {
        kind: random.below(KINDS.into()) as u8,
        wx: random.bits32(),
        wy: random.bits32(),
    };
    let primaries = Primaries {
        kind: random.below(KINDS.into()) as u8,
        xy: [0; 6].map(|_| random.bits32()),
    };
    let curve = Curve {
        kind: random.below(CURVES.into()) as u8,
        gamma: random.bits32(),
    };
    let intent = random.below(INTENTS.into()) as u8;
    match section {
        RGB => Encoding::rgb(white, primaries, curve, intent),
        _ => Encoding::gray(white, curve, intent),
    }
}

/// Any byte in each place of each entry.
fn fill_entries(random: &mut Random, job: &mut Job) {
    for place in 0..job.bytes.len() {
        if !job.counts.contains(&place) {
            job.bytes[place] = byte(random);
        }
    }
}
