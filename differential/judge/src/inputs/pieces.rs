//! Inputs for the pieces of the colour arithmetic.

use super::colours;
use super::encodings;
use super::random::Random;
use crate::encoding::{Encoding, GRAY, Primaries, RGB, White};

/// A white and primaries, as bits.
#[derive(Clone, Copy, Debug, PartialEq, Eq, Hash)]
pub struct Colours {
    pub wx: u32,
    pub wy: u32,
    pub xy: [u32; 6],
}

impl Colours {
    fn new((wx, wy): colours::Xy, xy: [f32; 6]) -> Self {
        Self {
            wx: wx.to_bits(),
            wy: wy.to_bits(),
            xy: xy.map(f32::to_bits),
        }
    }
}

/// Whites and primaries for the adaptation and the columns.
pub fn colours(random: &mut Random, count: usize) -> Vec<Colours> {
    let coordinates = |white: White, primaries: Primaries| {
        let white = white.coordinates().expect("a kind with meaning");
        let xy = primaries.coordinates().expect("a kind with meaning");
        Colours::new(white, xy)
    };
    let mut first = Vec::new();
    let mut whites = colours::whites_by_lines();
    whites.extend(colours::cancelling_whites());
    whites.extend(colours::low_cancelling_whites());
    for (at, white) in whites.into_iter().enumerate() {
        first.push(Colours::new(white, colours::named_primaries()[at % 3]));
    }
    for one in of_kind(RGB) {
        first.push(coordinates(one.white, one.primaries));
    }
    super::filled(first, count, || match random.below(10) {
        0..2 => Colours::new(colours::white(random), colours::primaries(random)),
        2..4 => {
            let (white, xy) = colours::near_singular(random);
            Colours::new(white, xy)
        }
        4..7 => {
            let (white, xy) = colours::low_white(random);
            Colours::new(white, xy)
        }
        7 => Colours::new(colours::white_by_line(random), colours::primaries(random)),
        8 => Colours::new(colours::white(random), colours::far_primaries(random)),
        _ => Colours::new(colours::white(random), [0.0; 6].map(|_| random.float())),
    })
}

/// Those of the comparisons: one in ten has its primaries on one line, one in fifty a white at
/// which a number of `chad` cancels out and the order in 1 - wx - wy shows.
pub fn compared_colours(random: &mut Random, count: usize) -> Vec<Colours> {
    let mut all = colours(random, count - count / 10 - count / 50);
    all.extend((0..count / 10).map(|_| {
        let (white, xy) = colours::on_one_line(random);
        Colours::new(white, xy)
    }));
    all.extend((0..count / 50).map(|at| {
        let white = colours::low_cancelling_white(random);
        Colours::new(white, colours::named_primaries()[at % 3])
    }));
    all
}

/// Whites for gray.
pub fn gray_whites(random: &mut Random, count: usize) -> Vec<(u32, u32)> {
    let mut first = Vec::new();
    for one in of_kind(GRAY) {
        let (wx, wy) = one.white.coordinates().expect("a kind with meaning");
        first.push((wx.to_bits(), wy.to_bits()));
    }
    super::filled(first, count, || {
        let white = encodings::gray_white(random);
        let (wx, wy) = white.coordinates().expect("a kind with meaning");
        (wx.to_bits(), wy.to_bits())
    })
}

fn of_kind(kind: u8) -> impl Iterator<Item = Encoding> {
    let all = encodings::boundary().into_iter();
    all.filter(move |one| one.kind == kind)
}

/// Two matrices: of any bits, of usual numbers, nearly singular, or of few different numbers.
pub fn matrices(random: &mut Random, count: usize) -> Vec<([f64; 9], [f64; 9])> {
    let mut one = || {
        let mut entry: Box<dyn FnMut() -> f64> = match random.below(4) {
            0 => Box::new(|| f64::from_bits(random.bits64())),
            1 => Box::new(|| f64::from(random.between(-2.0, 2.0))),
            2 => Box::new(|| f64::from(random.sized(-30, 30))),
            _ => Box::new(|| f64::from(random.below(4)) * 1e-4),
        };
        std::array::from_fn(|_| entry())
    };
    (0..count).map(|_| (one(), one())).collect()
}
