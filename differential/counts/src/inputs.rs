//! Encodings of which many numbers are whole, zero, halves, or round to 0, and codes without meaning.
//! The encodings of the other comparisons have few of these.

use judge::encoding::{
    BT709, Curve, DCI_CURVE, Encoding, HLG, LINEAR, PQ, Primaries, SRGB_CURVE, White, XYB,
};
use judge::inputs::colours::{self, Xy, ZERO_LINES};
use judge::inputs::floats::{SMALLEST, around};
use judge::inputs::{Random, encodings, filled};

use crate::port::Codes;

/// Adapted gray of the white, curve and intent of each encoding, up to `count`; XYB has no white.
pub fn adapted(encodings: &[Encoding], count: usize) -> Vec<Encoding> {
    let all = encodings.iter().filter_map(Encoding::to_adapted_gray);
    all.take(count).collect()
}

/// The cases, then random ones until there are `count`, none twice.
pub fn whole(random: &mut Random, count: usize) -> Vec<Encoding> {
    filled(cases(), count, || any(random))
}

// ---- cases

fn cases() -> Vec<Encoding> {
    let mut all = Vec::new();
    for (wx, wy) in gray_whites() {
        let white = White::own(wx, wy);
        let named = [BT709, LINEAR, SRGB_CURVE, DCI_CURVE].map(Curve::named);
        all.extend(named.map(|curve| Encoding::gray(white, curve, 1)));
        all.push(Encoding::gray(white, Curve::gamma(0.5), 1));
    }
    for gamma in gammas() {
        let curve = Curve::gamma(gamma);
        all.push(Encoding::gray(White::own(0.25, 0.5), curve, 0));
        all.push(Encoding::gray(White::named(0), curve, 2));
        let rgb = Encoding::rgb(White::named(1), Primaries::named(0), curve, 3);
        all.push(rgb);
    }
    all
}

/// Whites whose X and Z are whole or nearly so: wy is a power of two, by which X and Z are exact.
fn gray_whites() -> Vec<Xy> {
    let mut all = vec![
        (0.25, 0.5),
        (0.5, 0.5),
        (0.25, 0.75),
        (0.0, 1.0),
        (1.0, 1.0),
    ];
    for wy in [1.0, 0.5, -2.0] {
        // X in 65536ths: zeros, halves, quarters, wholes, and their neighbours.
        for x in [0.25, 0.5, 0.75, 1.0, 1.5, 2.0, 3.25, 65536.5, 65537.0] {
            for x in around(x / 65536.0 * wy) {
                all.extend([(x, wy), (-x, wy)]);
            }
        }
        // From 128 on each float is whole, from 64 on each second.
        for x in [32.0f32, 64.0, 128.0, 256.0] {
            let beside = [x.next_down(), x, x.next_up(), x.next_up().next_up()];
            all.extend(beside.map(|x| (x * wy, wy)));
        }
        all.extend([0.0, -0.0, SMALLEST, -SMALLEST].map(|wx| (wx, wy)));
    }
    all
}

/// Gammas whose reciprocal is whole or nearly so, zero, or rounds to 0.
fn gammas() -> Vec<f32> {
    let mut all = vec![f32::INFINITY, f32::MAX, 131_072.0, 1.0 / 3.0, 1.0 / 128.0];
    for power in -16..=20 {
        all.extend(around(2f32.powi(power)));
    }
    all.iter().flat_map(|gamma| [*gamma, -gamma]).collect()
}

// ---- random ones

fn any(random: &mut Random) -> Encoding {
    let intent = random.below(4) as u8;
    match random.below(20) {
        // XYB has an intent alone. What it does not use makes one differ from the next, and each is
        // tried with another output.
        0 => {
            let mut encoding = Encoding::xyb(intent);
            encodings::fill_unused(|| random.bits32(), &mut encoding);
            encoding
        }
        1..8 => Encoding::gray(gray_white(random), curve(random), intent),
        _ => {
            let (white, primaries) = rgb(random);
            Encoding::rgb(white, primaries, curve(random), intent)
        }
    }
}

/// The float without its lowest digits: any number of them.
fn short(random: &mut Random, x: f32) -> f32 {
    f32::from_bits(x.to_bits() & (u32::MAX << random.below(24)))
}

fn power_of_two(random: &mut Random, low: i32, high: i32) -> f32 {
    2f32.powi(low + random.below((high - low + 1) as u32) as i32)
}

fn gray_white(random: &mut Random) -> White {
    let wy = power_of_two(random, -6, 2) * random.pick(&[1.0, 1.0, 1.0, -1.0]);
    let (wx, wy) = match random.below(8) {
        0 => (random.pick(&[0.0, -0.0]), wy),
        // X rounds to 0.
        1 => (random.sized(-149, -16) * wy, wy),
        // Z is zero.
        2 => {
            let x = random.sized(-10, -1);
            let wy = short(random, x).abs();
            (1.0 - wy, wy)
        }
        // Here the last digit of a float is about a 65536th.
        3 => (random.sized(4, 8) * wy, wy),
        4 => (random.unit(), random.unit()),
        _ => {
            let x = random.sized(-18, 3);
            (short(random, x), wy)
        }
    };
    White::own(wx, wy)
}

fn curve(random: &mut Random) -> Curve {
    let sign = random.pick(&[1.0, 1.0, 1.0, -1.0]);
    match random.below(20) {
        0 => Curve::named(random.pick(&[PQ, HLG])),
        1..4 => Curve::named(random.pick(&[BT709, SRGB_CURVE])),
        4..7 => Curve::named(LINEAR),
        7..9 => Curve::named(DCI_CURVE),
        9..13 => Curve::gamma(sign * power_of_two(random, -16, 20)),
        // The float nearest to the reciprocal of a whole number of 65536ths.
        13..16 => {
            let whole = 1 + (random.bits32() >> (8 + random.below(24)));
            Curve::gamma(sign * (65536.0 / f64::from(whole)) as f32)
        }
        // The reciprocal is about 128, from which on each float is whole.
        16 => Curve::gamma(random.sized(-9, -6)),
        // It rounds to 0, or is zero.
        17 => Curve::gamma(random.sized(16, 127)),
        18 => Curve::gamma(sign * f32::INFINITY),
        _ => Curve::gamma(random.unit()),
    }
}

fn rgb(random: &mut Random) -> (White, Primaries) {
    let own = |(wx, wy): Xy| White::own(wx, wy);
    match random.below(10) {
        // Large numbers in `chad`, and so in the columns.
        0..3 => (own(by_line(random)), any_primaries(random)),
        3..5 => {
            let (white, xy) = between_two(random);
            (own(white), Primaries::own(xy))
        }
        5..7 => {
            let (white, xy) = colours::near_singular(random);
            (own(white), Primaries::own(xy))
        }
        7 => {
            let (white, xy) = colours::on_one_line(random);
            (own(white), Primaries::own(xy))
        }
        8 => (near_d50(random), any_primaries(random)),
        _ => (own(colours::white(random)), any_primaries(random)),
    }
}

fn any_primaries(random: &mut Random) -> Primaries {
    match random.below(4) {
        0 => Primaries::named(random.below(3) as u8),
        1 => Primaries::own(colours::far_primaries(random)),
        _ => Primaries::own(colours::primaries(random)),
    }
}

/// A white beside a line on which a component of LMS is zero, so near that the largest number of
/// `chad` just fits, and all nine may be whole.
fn by_line(random: &mut Random) -> Xy {
    let line = random.pick(&ZERO_LINES);
    let wx = line.random_wx(random);
    (wx, line.wy(wx) + random.sized(-18, -8))
}

/// A white between two primaries, all three on a grid: the third has no part in it, and its column is
/// zero where the steps that lead to it are exact.
fn between_two(random: &mut Random) -> (Xy, [f32; 6]) {
    let grid = 16;
    let mut point = || [0; 2].map(|_| 1 + random.below(grid - 1) as i32);
    let [white, [u, v], third] = [point(), point(), point()];
    let wy = random.pick(&[2, 4, 8, 8, white[1]]);
    let (first, second) = (random.pick(&[1, 2]), random.pick(&[-1, -2]));
    let on = |far: i32| [white[0] + far * (u - 8), wy + far * (v - 8)];
    let mut vertices = [on(first), on(second), third];
    vertices.rotate_left(random.below(3) as usize);
    let short = |c: i32| c as f32 / grid as f32;
    let [r, g, b] = vertices.map(|[x, y]| [short(x), short(y)]);
    (
        (short(white[0]), short(wy)),
        [r[0], r[1], g[0], g[1], b[0], b[1]],
    )
}

/// About D50, where the numbers of `chad` beside the diagonal are about 0.
fn near_d50(random: &mut Random) -> White {
    let mut near = |x: f32| x + random.sized(-24, -12);
    White::own(near(0.345_67), near(0.358_5))
}

// ---- codes

/// Codes of which at least one that this kind has is none of its numbers.
pub fn without_meaning(random: &mut Random, encoding: &Encoding) -> Codes {
    let mut codes = Codes::of(encoding);
    let Codes {
        white,
        primaries,
        curve,
        intent,
        adapted,
    } = &mut codes;
    // Each with the number of those that have a meaning. Gray has no primaries, and only adapted gray is
    // asked for by its mark.
    let mut places = vec![(intent, 4)];
    if encoding.adapted {
        places.push((adapted, 2));
    }
    if encoding.kind != XYB {
        places.extend([(white, 4), (curve, 7)]);
    }
    if encoding.kind == judge::encoding::RGB {
        places.push((primaries, 4));
    }
    let first = random.below(places.len() as u32) as usize;
    for (at, (code, meanings)) in places.into_iter().enumerate() {
        if at == first || random.percent(10) {
            *code = no_code(random, meanings);
        }
    }
    codes
}

/// A number that is not below `meanings`; some would be if they were cut to fewer bits.
fn no_code(random: &mut Random, meanings: u32) -> u32 {
    let known = random.below(meanings);
    match random.below(6) {
        0 => meanings,
        1 => meanings + random.below(250),
        2 => known + (1 << (8 + random.below(24))),
        3 => u32::MAX - random.below(8),
        4 => known.wrapping_sub(meanings),
        _ => random.bits32().max(meanings),
    }
}
