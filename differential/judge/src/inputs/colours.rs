//! Whites and primaries.

use super::floats::{NANS, SMALLEST, edge};
use super::random::Random;
use crate::encoding::{Primaries, White};
use crate::leaves;

pub type Xy = (f32, f32);

/// The coordinates of the named whites: D65, E, DCI.
pub fn named_whites() -> [Xy; 3] {
    [0, 1, 2].map(|kind| White::named(kind).coordinates().expect("named"))
}

/// The coordinates of the named primaries: SRGB, BT2100, P3.
pub fn named_primaries() -> [[f32; 6]; 3] {
    [0, 1, 2].map(|kind| Primaries::named(kind).coordinates().expect("named"))
}

/// Whites at the ends of the range that RGB takes, inside and outside.
pub fn range_whites() -> Vec<Xy> {
    let below_one = 1f32.next_down();
    let above_one = 1f32.next_up();
    let nan = f32::from_bits(NANS[1]);
    let mut whites = Vec::new();
    for wx in [0.0, -0.0, SMALLEST, 0.3127, below_one, 1.0] {
        for wy in [SMALLEST, f32::MIN_POSITIVE, 0.329, below_one, 1.0] {
            whites.push((wx, wy));
        }
    }
    let outside = [
        -SMALLEST,
        -f32::MIN_POSITIVE,
        -0.25,
        above_one,
        2.0,
        f32::MAX,
        f32::INFINITY,
        f32::NEG_INFINITY,
        f32::NAN,
        nan,
    ];
    for out in outside {
        whites.extend([(out, 0.329), (0.3127, out), (out, out)]);
    }
    for wx in [0.0, -0.0, 0.3127, 1.0] {
        whites.extend([(wx, 0.0), (wx, -0.0)]);
    }
    whites
}

/// A line of whites on which a component of LMS is zero: p wx + q wy = r, in ten-thousandths.
#[derive(Clone, Copy)]
pub struct ZeroLine {
    p: i64,
    q: i64,
    r: i64,
}

/// The lines of L, M and S, from the Bradford matrix.
pub const ZERO_LINES: [ZeroLine; 3] = [
    ZeroLine {
        p: 8951 + 1614,
        q: 2664 + 1614,
        r: 1614,
    },
    ZeroLine {
        p: -7502 - 367,
        q: 17135 - 367,
        r: -367,
    },
    ZeroLine {
        p: 389 - 10296,
        q: -685 - 10296,
        r: -10296,
    },
];

impl ZeroLine {
    /// The wy of the line above a wx.
    pub fn wy(&self, wx: f32) -> f32 {
        ((self.r as f64 - self.p as f64 * f64::from(wx)) / self.q as f64) as f32
    }

    /// A wx at random whose wy lies well in range.
    pub fn random_wx(&self, random: &mut Random) -> f32 {
        loop {
            let wx = random.unit();
            if (0.02..0.98).contains(&self.wy(wx)) {
                return wx;
            }
        }
    }

    /// Whites in range that the original refuses because the component is exactly zero. They are
    /// sought among the points of the line whose coordinates are whole numbers of two to the -k.
    fn exact(&self, count: usize) -> Vec<Xy> {
        let mut whites = Vec::new();
        for power in 1..=22 {
            let one = 1i64 << power;
            for a in 0..=one {
                let rest = self.r * one - self.p * a;
                let b = rest / self.q;
                if rest % self.q != 0 || !(1..=one).contains(&b) {
                    continue;
                }
                let white = (a as f32 / one as f32, b as f32 / one as f32);
                let status = leaves::adaptation(white.0.to_bits(), white.1.to_bits()).status;
                if status == 4 && !whites.contains(&white) {
                    whites.push(white);
                }
                if whites.len() == count {
                    return whites;
                }
            }
        }
        whites
    }
}

/// Whites in range with a component of LMS exactly zero; the first was found by an earlier search.
pub fn zero_whites() -> Vec<Xy> {
    let known = (f32::from_bits(0x3a39_1c00), f32::from_bits(0x3ec0_4627));
    let found = ZERO_LINES.iter().flat_map(|line| line.exact(8));
    std::iter::once(known).chain(found).collect()
}

/// Whites on and beside the lines, at steps that grow from one place of a float.
pub fn whites_by_lines() -> Vec<Xy> {
    let mut whites = Vec::new();
    for line in ZERO_LINES {
        for wx in [0.06, 0.14, 0.3, 0.55] {
            let wy = line.wy(wx);
            if !(0.0..1.0).contains(&wy) {
                continue;
            }
            for step in [0, 1, 30, 1000, 30_000] {
                whites.push((wx, f32::from_bits(wy.to_bits() + step)));
                whites.push((wx, f32::from_bits(wy.to_bits() - step)));
            }
        }
    }
    whites
}

/// Whites near D50 at which a number of `chad` beside the diagonal nearly cancels out. What is
/// left of it is rounding, so it shows in which order products and sums were taken.
pub fn cancelling_whites() -> Vec<Xy> {
    let element = |(wx, wy): Xy, at| {
        let chad = leaves::adaptation(wx.to_bits(), wy.to_bits());
        f32::from_bits(chad.bits[at])
    };
    let mut whites = Vec::new();
    for at in [1, 2, 3, 5, 6, 7] {
        let mut found: Vec<Xy> = Vec::new();
        for step in 0..3000 {
            let wx = 0.33 + step as f32 / 100_000.0;
            let below = |wy| element((wx, wy), at) < 0.0;
            let (low, high) = (0.30, 0.42);
            if below(low) != below(high) {
                let side = below(low);
                found.extend(edge(low, high, |wy| below(wy) == side).map(|wy| (wx, wy)));
            }
        }
        found.sort_by(|a, b| f32::total_cmp(&element(*a, at).abs(), &element(*b, at).abs()));
        whites.extend(found.into_iter().take(5));
    }
    whites
}

/// Whites with a wy so small that 1 - wx - wy is rounded, and a wx at which a number of `chad`
/// changes its sign.
pub fn low_cancelling_whites() -> Vec<Xy> {
    let negative = |wx: f32, wy: f32, at: usize| {
        let chad = leaves::adaptation(wx.to_bits(), wy.to_bits());
        chad.bits[at] >> 31 == 1
    };
    let mut random = Random::new(0);
    let mut whites = Vec::new();
    for at in 0..9 {
        for step in 0..64 {
            let (low, high) = (step as f32 / 64.0, (step + 1) as f32 / 64.0);
            let side = negative(low, 1e-10, at);
            if side == negative(high, 1e-10, at) {
                continue;
            }
            for power in [-40, -37, -34, -31] {
                let wy = random.sized(power, power).abs();
                let changes = edge(low, high, |wx| negative(wx, wy, at) == side);
                whites.extend(changes.map(|wx| (wx, wy)));
            }
        }
    }
    whites
}

/// One more of these at random, with a wx above a half: there 1 - wx - wy and 1 - wy - wx are not
/// rounded alike.
pub fn low_cancelling_white(random: &mut Random) -> Xy {
    let (at, low, high) = random.pick(&[(2, 0.55, 0.7), (5, 0.7, 0.8)]);
    let wy = random.sized(-45, -26).abs();
    let negative = |wx: f32| {
        let chad = leaves::adaptation(wx.to_bits(), wy.to_bits());
        chad.bits[at] >> 31 == 1
    };
    let side = negative(low);
    let changes = edge(low, high, |wx| negative(wx) == side);
    (random.pick(&changes), wy)
}

/// A white with a tiny wy, for which 1 - wx - wy is rounded, half way between two primaries, so
/// that the rounding shows.
pub fn low_white(random: &mut Random) -> (Xy, [f32; 6]) {
    let white = (random.between(0.2, 0.9), random.sized(-40, -30).abs());
    let (u, v) = (random.between(0.05, 0.2), random.between(0.1, 0.5));
    let third = (random.unit(), random.between(0.6, 0.9));
    let mut vertices = [(white.0 - u, v), (white.0 + u, -v), third];
    vertices.rotate_left(random.below(3) as usize);
    let [r, g, b] = vertices;
    (white, [r.0, r.1, g.0, g.1, b.0, b.1])
}

/// Primaries whose determinant, as the original computes it, is exactly `wanted` (about 1e-12).
/// Red lies at the origin; then the determinant is gx by - bx gy.
pub fn exact_determinant(wanted: f64) -> [f32; 6] {
    let gx = 0.5f32;
    let by = (wanted / f64::from(gx)) as f32;
    let product = f64::from(gx) * f64::from(by);
    for place in 0.. {
        let gy = f32::from_bits(0.5f32.to_bits() + place);
        let bx = ((product - wanted) / f64::from(gy)) as f32;
        if product - f64::from(bx) * f64::from(gy) == wanted {
            return [0.0, 0.0, gx, gy, bx, by];
        }
    }
    unreachable!("some gy serves")
}

/// A white beside a line, near enough for large numbers in `chad`, most of which still fit.
pub fn white_by_line(random: &mut Random) -> Xy {
    let line = random.pick(&ZERO_LINES);
    let wx = line.random_wx(random);
    (wx, line.wy(wx) + random.sized(-14, -5))
}

/// A white as they occur.
pub fn white(random: &mut Random) -> Xy {
    match random.below(4) {
        0 => {
            let (wx, wy) = random.pick(&named_whites());
            (nudged(random, wx), nudged(random, wy))
        }
        1 => (random.between(0.25, 0.45), random.between(0.25, 0.45)),
        2 => (random.unit(), random.unit().max(SMALLEST)),
        _ => (rounded(random.unit()), rounded(random.between(0.01, 1.0))),
    }
}

/// Primaries as they occur.
pub fn primaries(random: &mut Random) -> [f32; 6] {
    match random.below(4) {
        0 => random.pick(&named_primaries()).map(|c| nudged(random, c)),
        1 => {
            let named = random.pick(&named_primaries());
            named.map(|c| c + random.between(-0.05, 0.05))
        }
        2 => [0.0; 6].map(|_| random.between(-0.2, 1.2)),
        _ => [0.0; 6].map(|_| rounded(random.unit())),
    }
}

/// Four decimals, as people write coordinates.
fn rounded(x: f32) -> f32 {
    (x * 10_000.0).round() / 10_000.0
}

/// A few places of a float away.
pub fn nudged(random: &mut Random, x: f32) -> f32 {
    let places = random.below(9);
    f32::from_bits(x.to_bits().wrapping_add(places).wrapping_sub(4))
}

/// Primaries with one vertex beside another, so that the determinant is tiny, and a white beside
/// the line through the other two, so that the columns still fit. Here the rounding of each
/// operation shows in the result.
pub fn near_singular(random: &mut Random) -> (Xy, [f32; 6]) {
    let gap = random.sized(-38, -24);
    let at = random.unit() * 0.5;
    let (near, beside) = if random.percent(50) {
        ((at, 0.0), (at, gap))
    } else {
        ((0.0, at), (gap, at))
    };
    // In one of three cases all digits count; else the white is exactly half way.
    let short = |x: f32| (x * 1024.0).round() / 1024.0;
    let (mut wx, mut wy) = (random.between(0.1, 0.6), random.between(0.1, 0.6));
    let mut far = (2.0 * wx - near.0, 2.0 * wy - near.1);
    if random.percent(67) {
        (wx, wy) = (short(wx), short(wy));
        let near = (short(near.0), short(near.1));
        far = (2.0 * wx - near.0, 2.0 * wy - near.1);
    }
    let mut vertices = [near, far, beside];
    vertices.rotate_left(random.below(3) as usize);
    if random.percent(50) {
        vertices.swap(0, 1);
    }
    let [r, g, b] = vertices;
    ((wx, wy), [r.0, r.1, g.0, g.1, b.0, b.1])
}

/// Primaries of which one or two lie very far away; most of these fit.
pub fn far_primaries(random: &mut Random) -> [f32; 6] {
    let mut xy = primaries(random);
    let first = random.below(3) as usize;
    for vertex in [first, (first + 1) % 3]
        .into_iter()
        .take(1 + random.below(2) as usize)
    {
        let power = random.below(128) as i32;
        for c in &mut xy[2 * vertex..2 * vertex + 2] {
            *c = random.sized(power - 1, power);
        }
    }
    xy
}

/// Primaries on one line through the white, far out. Their determinant is nothing but the rounding
/// of the steps that lead to it, yet mostly above the limit; and since the white lies on the line,
/// the columns are rounding too, and many fit. So the order of each step shows in them.
pub fn on_one_line(random: &mut Random) -> (Xy, [f32; 6]) {
    if random.percent(20) {
        return near_one_line(random);
    }
    // Where the rounding cancels out the determinant is zero; so a few are drawn.
    let mut drawn = on_a_grid(random);
    for _ in 0..4 {
        let ((wx, wy), xy) = drawn;
        let answer = leaves::columns(wx.to_bits(), wy.to_bits(), xy.map(f32::to_bits));
        if answer.status != 6 {
            break;
        }
        drawn = on_a_grid(random);
    }
    drawn
}

/// All coordinates are whole numbers of 1 / grid, below two to the 24: the floats lie on the line
/// exactly. On a grid this fine the determinant takes more than 53 bits to compute.
fn on_a_grid(random: &mut Random) -> (Xy, [f32; 6]) {
    let grid = 1i32 << (10 + random.below(7));
    let white = [0; 2].map(|_| 1 + random.below(grid as u32 - 1) as i32);
    let steep = 1u32 << random.below(7);
    let direction = [0; 2].map(|_| (1 + random.below(steep) as i32) * random.pick(&[1, -1]));
    let reach = (1u32 << 23) / steep;
    let mut point = || {
        let far = random.below(2 * reach) as i32 - reach as i32;
        [0, 1].map(|at| (white[at] + far * direction[at]) as f32 / grid as f32)
    };
    let [[rx, ry], [gx, gy], [bx, by]] = [point(), point(), point()];
    let [wx, wy] = white.map(|c| c as f32 / grid as f32);
    ((wx, wy), [rx, ry, gx, gy, bx, by])
}

/// The same for any white, each coordinate rounded to a float.
fn near_one_line(random: &mut Random) -> (Xy, [f32; 6]) {
    let white = white(random);
    let (u, v) = (random.between(-1.0, 1.0), random.between(-1.0, 1.0));
    let mut point = || {
        let far = random.sized(-2, 14);
        [white.0 + far * u, white.1 + far * v]
    };
    let [[rx, ry], [gx, gy], [bx, by]] = [point(), point(), point()];
    (white, [rx, ry, gx, gy, bx, by])
}
