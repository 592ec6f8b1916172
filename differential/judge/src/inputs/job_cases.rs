//! Jobs that show each refusal and each form by itself, and the longest ones.

use super::encodings::{self, SRGB, status};
use super::floats::NANS;
use super::jobs::{Job, Source};
use super::random::Random;
use crate::encoding::{Curve, Encoding, GAMMA, PQ, Primaries, SRGB_CURVE, White};
use crate::jobs::SECTIONS;

/// Own primaries that are accepted.
const XY: [f32; 6] = [0.69, 0.31, 0.21, 0.71, 0.14, 0.05];

/// All of them, one of XYB alone with each intent; the fullest job is filled at random.
pub fn cases(random: &mut Random, boundary: &[Encoding]) -> Vec<Vec<u8>> {
    let mut all = vec![of_the_scope(), vec![0; 3]];
    all.extend(early_ends());
    all.extend(bytes_left());
    all.extend(without_meaning());
    all.extend(two_refusals());
    all.extend(of_each_answer(boundary));
    all.push(Job::of(&[0, 1, 2, 3].map(Encoding::xyb)).bytes);
    all.extend(unused_floats());
    all.push(Job::of(&encodings::named()).bytes);
    all.push(Job::of(&own()).bytes);
    all.extend(fullest(random, boundary));
    all
}

/// The 44 bytes of the scope: 00 01, the sRGB entry, 01 01.
pub fn of_the_scope() -> Vec<u8> {
    let mut srgb = [0; 40];
    srgb[34] = SRGB_CURVE;
    [&[0, 1], &srgb[..], &[1, 1]].concat()
}

/// An entry in each section.
fn three() -> Job {
    Job::of(&[
        Encoding::gray(White::named(0), SRGB, 1),
        Encoding::rgb(White::own(0.0, 1.0), Primaries::named(0), SRGB, 0),
        Encoding::xyb(0),
    ])
}

/// Two entries in each section, of different answers; of XYB, of different intents.
fn six() -> Job {
    Job::of(&[
        Encoding::gray(White::own(0.3, 0.0), SRGB, 0),
        Encoding::gray(White::named(1), Curve::gamma(0.45), 3),
        Encoding::rgb(White::named(0), Primaries::own(XY), Curve::gamma(0.45), 1),
        Encoding::rgb(White::named(2), Primaries::named(2), Curve::named(PQ), 2),
        Encoding::xyb(3),
        Encoding::xyb(0),
    ])
}

/// Ends at every place of a small job, in each count, and in the second entry of each section.
fn early_ends() -> Vec<Vec<u8>> {
    let cut = |job: &Job, len: usize| job.bytes[..len].to_vec();
    let (three, six) = (three(), six());
    let mut all: Vec<Vec<u8>> = (0..three.bytes.len()).map(|len| cut(&three, len)).collect();
    all.extend(six.codes.iter().map(|code| cut(&six, code.place)));
    all.extend([vec![0], vec![0, 0], vec![0, 0, 1], vec![0, 0, 2, 0]]);
    all.extend([vec![255], vec![0, 255], vec![0, 0, 255]]);
    all
}

/// Bytes after a job, and counts that do not fit its entries.
fn bytes_left() -> Vec<Vec<u8>> {
    let three = three().bytes;
    let mut all = vec![vec![0; 4]];
    for more in [&[0][..], &[1], &[255; 40]] {
        all.push([&three, more].concat());
    }
    let six = six();
    for place in &six.counts {
        for count in [0, 1, 3, 255] {
            all.push(with(&six, *place, count));
        }
    }
    all
}

/// Each kind, curve and intent just past its range, and 255.
fn without_meaning() -> Vec<Vec<u8>> {
    let six = six();
    let mut all = Vec::new();
    for code in &six.codes {
        all.push(with(&six, code.place, code.limit));
        all.push(with(&six, code.place, 255));
    }
    all
}

/// 43 in each section, beside 41 and beside 42.
fn two_refusals() -> Vec<Vec<u8>> {
    let six = six();
    let mut all = Vec::new();
    for section in SECTIONS {
        // The first byte after a count is a kind of white, or the intent of XYB.
        let place = six.counts[usize::from(section) - 1] + 1;
        let bad = with(&six, place, 4);
        all.push(bad[..bad.len() - 1].to_vec());
        all.push([&bad[..], &[0]].concat());
    }
    all
}

fn with(job: &Job, place: usize, value: u8) -> Vec<u8> {
    let mut bytes = job.bytes.clone();
    bytes[place] = value;
    bytes
}

/// For each answer that an entry can get, 0 for a profile: some that get it. Then one of each. Number 2
/// no longer occurs.
fn of_each_answer(boundary: &[Encoding]) -> Vec<Vec<u8>> {
    let mut all = Vec::new();
    let mut one_of_each = Vec::new();
    for wanted in [0, 1, 3, 4, 5, 6, 7, 8] {
        let mut some = Vec::new();
        for section in SECTIONS {
            let same = |one: &&Encoding| one.kind == section && status(one) == wanted;
            let found: Vec<Encoding> = boundary.iter().filter(same).copied().collect();
            let step = found.len().div_ceil(8).max(1);
            some.extend(found.iter().step_by(step));
            one_of_each.extend(found.last());
        }
        all.push(Job::of(&some).bytes);
    }
    all.push(Job::of(&one_of_each).bytes);
    all
}

/// Each pattern of NaN in the floats that the entries do not use.
fn unused_floats() -> Vec<Vec<u8>> {
    let mut entries = [
        Encoding::gray(White::named(2), SRGB, 0),
        Encoding::gray(White::own(0.3127, 0.329), SRGB, 1),
        Encoding::rgb(White::named(0), Primaries::named(0), SRGB, 0),
        Encoding::rgb(White::own(0.3, 0.3), Primaries::named(1), SRGB, 2),
        Encoding::rgb(White::named(1), Primaries::own(XY), Curve::named(1), 3),
        Encoding::rgb(White::named(0), Primaries::named(2), Curve::gamma(0.5), 1),
    ];
    let job = |pattern: u32| {
        for one in &mut entries {
            encodings::fill_unused(|| pattern, one);
        }
        Job::of(&entries).bytes
    };
    NANS.map(job).into()
}

/// All combinations of kinds with own coordinates in them.
fn own() -> Vec<Encoding> {
    let (white, xy) = (White::own(0.3, 0.3), Primaries::own(XY));
    let gamma = 0.45f32.to_bits();
    let mut all = Vec::new();
    for intent in 0..4 {
        for curve in (0..=GAMMA).map(|kind| Curve { kind, gamma }) {
            all.push(Encoding::gray(white, curve, intent));
            all.push(Encoding::rgb(white, xy, curve, intent));
            for kind in 0..3 {
                all.push(Encoding::rgb(white, Primaries::named(kind), curve, intent));
                all.push(Encoding::rgb(White::named(kind), xy, curve, intent));
            }
        }
    }
    all
}

/// The fullest job, of which all but every sixteenth entry of gray and RGB is accepted, and all of XYB;
/// then refused by 41, 42 and 43 at its end.
fn fullest(random: &mut Random, boundary: &[Encoding]) -> [Vec<u8>; 4] {
    let source = Source::new(boundary);
    let mut entries = Vec::new();
    for section in SECTIONS {
        for place in 1..=255 {
            entries.push(loop {
                let one = source.encoding(random, section);
                if place % 16 == 0 || status(&one) == 0 {
                    break one;
                }
            });
        }
    }
    let job = Job::of(&entries);
    let last = job.bytes.len() - 1;
    [
        job.bytes.clone(),
        job.bytes[..last].to_vec(),
        with(&job, job.counts[2], 254),
        with(&job, last, 4),
    ]
}
