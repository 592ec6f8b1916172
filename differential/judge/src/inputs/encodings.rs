//! Encodings: the named ones, those at the boundaries, and random ones.

use super::colours::{self, Xy, ZERO_LINES};
use super::floats::{LIMIT, NANS, SMALLEST, SPECIAL, around, edge};
use super::random::Random;
use crate::answer;
use crate::encoding::{Curve, Encoding, GAMMA, OWN, Primaries, SRGB_CURVE, White};

pub const SRGB: Curve = Curve {
    kind: SRGB_CURVE,
    gamma: 0,
};

/// The boundary encodings, then random ones until there are `count`, none twice.
pub fn encodings(random: &mut Random, count: usize) -> Vec<Encoding> {
    super::filled(boundary(), count, || encoding(random))
}

/// What the comparisons are tried with: the same, and primaries on one line. The fixed list is made
/// without these, so that it stays as it is.
pub fn compared(random: &mut Random, count: usize) -> Vec<Encoding> {
    super::filled(compared_boundary(), count, || any(random))
}

/// The boundary encodings of the comparisons.
pub fn compared_boundary() -> Vec<Encoding> {
    let mut random = Random::new(0);
    let mut all = boundary();
    all.extend((0..200).map(|_| on_one_line(&mut random)));
    all
}

/// One encoding of the comparisons at random.
pub fn any(random: &mut Random) -> Encoding {
    match random.below(10) {
        0 => on_one_line(random),
        _ => encoding(random),
    }
}

/// Primaries on one line through the white, with any curve and intent.
pub fn on_one_line(random: &mut Random) -> Encoding {
    let ((wx, wy), xy) = colours::on_one_line(random);
    let (curve, intent) = (curve(random), random.below(4) as u8);
    Encoding::rgb(White::own(wx, wy), Primaries::own(xy), curve, intent)
}

/// Every branch and both sides of every boundary.
pub fn boundary() -> Vec<Encoding> {
    boundary_groups()
        .into_iter()
        .flat_map(|group| group.1)
        .collect()
}

/// The same, group by group, each with its name.
pub fn boundary_groups() -> Vec<(&'static str, Vec<Encoding>)> {
    vec![
        ("all combinations of the named kinds", named()),
        ("own coordinates that are a named kind's", own_as_named()),
        ("gammas", gammas()),
        ("gray whites at their boundaries", gray_whites()),
        ("RGB whites at their boundaries", rgb_whites()),
        ("two refusals or more: the order shows", order_of_refusals()),
        ("numbers of chad that just fit, or not", chad_edges()),
        ("determinants about 1e-12", determinant_edges()),
        ("columns that just fit, or not", column_edges()),
        ("coordinates that stand apart", odd_coordinates()),
        ("long texts", long_texts()),
    ]
}

/// All combinations of the named kinds.
pub fn named() -> Vec<Encoding> {
    let mut all = Vec::new();
    for intent in 0..4 {
        all.push(Encoding::xyb(intent));
        for curve in 0..=GAMMA {
            let gamma = if curve == GAMMA { 0.454_545_47f32 } else { 0.0 };
            let curve = Curve {
                kind: curve,
                gamma: gamma.to_bits(),
            };
            for white in (0..3).map(White::named) {
                all.push(Encoding::gray(white, curve, intent));
                for primaries in (0..3).map(Primaries::named) {
                    all.push(Encoding::rgb(white, primaries, curve, intent));
                }
            }
        }
    }
    all
}

/// Own coordinates that are a named kind's: they stay own.
fn own_as_named() -> Vec<Encoding> {
    let mut all = Vec::new();
    let whites = colours::named_whites();
    let primaries = colours::named_primaries();
    for (kind, (wx, wy)) in (0..).zip(whites) {
        let own = White::own(wx, wy);
        all.push(Encoding::gray(own, SRGB, 0));
        for (other, xy) in (0..).zip(primaries) {
            let named = Primaries::named(other);
            let xy = Primaries::own(xy);
            all.push(Encoding::rgb(own, named, SRGB, 0));
            all.push(Encoding::rgb(White::named(kind), xy, SRGB, 0));
            all.push(Encoding::rgb(own, xy, Curve::gamma(0.45), 3));
        }
    }
    all
}

/// Gray and RGB with each gamma that stands apart.
fn gammas() -> Vec<Encoding> {
    let mut gammas: Vec<f32> = SPECIAL.into_iter().collect();
    gammas.extend(NANS.map(f32::from_bits));
    gammas.extend([1.0 / 32768.0, -1.0 / 32768.0, 0.45, 0.454_545_47, 2.2]);
    gammas.extend([1.0 / 2.4, 1.0 / 2.6, 131072.0, 65536.0]);
    gammas.extend(around(1.0 / 32768.0));
    gammas.extend(around(131072.0));
    let gray = |gamma| Encoding::gray(White::named(0), Curve::gamma(gamma), 1);
    let mut all = Vec::new();
    for gamma in gammas {
        let curve = Curve::gamma(gamma);
        all.push(gray(gamma));
        all.push(Encoding::rgb(
            White::named(0),
            Primaries::named(1),
            curve,
            2,
        ));
    }
    all.extend(change(gray, 1.0, 0.0));
    all.extend(change(gray, -1.0, -0.0));
    all
}

/// Gray with whites at its boundaries: |wy| about 1e-12, and X and Z about the largest number.
fn gray_whites() -> Vec<Encoding> {
    let gray = |wx, wy| Encoding::gray(White::own(wx, wy), SRGB, 1);
    let mut all: Vec<Encoding> = gray_edges().into_iter().map(|(x, y)| gray(x, y)).collect();
    for (wx, wy) in colours::range_whites() {
        all.push(gray(wx, wy));
    }
    for wx in SPECIAL.into_iter().chain(NANS.map(f32::from_bits)) {
        all.push(gray(wx, 0.329));
        all.push(gray(0.3127, wx));
        all.push(gray(wx, wx));
    }
    all
}

/// Whites at which the answer to a gray encoding changes, and those beside them.
pub fn gray_edges() -> Vec<Xy> {
    let gray = |wx, wy| Encoding::gray(White::own(wx, wy), SRGB, 1);
    let mut all: Vec<Xy> = Vec::new();
    for tiny in around(1e-12) {
        all.extend([(0.0, tiny), (0.0, -tiny), (0.3127, tiny), (1.0, -tiny)]);
        all.extend([(1e-9, tiny), (-1e-9, -tiny), (tiny, tiny)]);
    }
    for large in around(LIMIT).into_iter().chain([LIMIT + 1.0, LIMIT - 1.0]) {
        all.extend([(large, 1.0), (-large, 1.0), (large, -1.0), (-large, -1.0)]);
        all.extend([(0.25, 1.0 / large), (large / 2.0, 0.5)]);
    }
    let mut edges = Vec::new();
    for wx in [0.3127, 0.0, 1.0, -0.5, 3.0] {
        edges.extend(change(|wy| gray(wx, wy), 0.329, 1e-11));
        edges.extend(change(|wy| gray(wx, wy), -0.329, -1e-11));
        edges.extend(change(|wy| gray(wx, wy), 1e-11, 0.0));
        edges.extend(change(|wy| gray(wx, wy), -1e-11, -0.0));
    }
    for wy in [0.329, 1.0, -0.5, 5e-5, 1e5] {
        edges.extend(change(|wx| gray(wx, wy), 0.3127, f32::MAX));
        edges.extend(change(|wx| gray(wx, wy), 0.3127, f32::MIN));
    }
    let bits = |edge: &Encoding| (f32::from_bits(edge.white.wx), f32::from_bits(edge.white.wy));
    all.extend(edges.iter().map(bits));
    all
}

/// RGB with whites at the ends of the range and where a component of LMS is zero.
fn rgb_whites() -> Vec<Encoding> {
    let mut whites = colours::range_whites();
    for (wx, wy) in colours::zero_whites() {
        whites.push((wx, wy));
        whites.extend([(wx, wy.next_up()), (wx.next_down(), wy)]);
    }
    let own = whites.into_iter().map(|(wx, wy)| White::own(wx, wy));
    own.map(|white| Encoding::rgb(white, Primaries::named(0), SRGB, 0))
        .collect()
}

/// Encodings that meet two refusals or more, so that the order shows.
fn order_of_refusals() -> Vec<Encoding> {
    let zero = colours::zero_whites()[0];
    let line = ZERO_LINES[1];
    let whites = [
        White::named(0),
        White::own(-1.0, 0.3),
        White::own(0.3, 0.0),
        White::own(zero.0, zero.1),
        White::own(0.3, line.wy(0.3)),
        White::own(0.0, SMALLEST),
        White::own(0.0, 1e-12),
        White::own(f32::NAN, f32::NAN),
    ];
    let [rx, ry, _, _, bx, by] = colours::named_primaries()[0];
    let one_twice = Primaries::own([rx, ry, rx, ry, bx, by]);
    let far = Primaries::own([1e30, 0.3, 0.2, 1e30, 0.3, 0.31]);
    let nan = Primaries::own([f32::NAN; 6]);
    let primaries = [Primaries::named(2), one_twice, far, nan];
    let curves = [
        SRGB,
        Curve::named(crate::encoding::PQ),
        Curve::named(crate::encoding::HLG),
        Curve::gamma(0.0),
        Curve::gamma(0.45),
    ];
    let mut all = Vec::new();
    for white in whites {
        for curve in curves {
            all.push(Encoding::gray(white, curve, 3));
            for primaries in primaries {
                all.push(Encoding::rgb(white, primaries, curve, 0));
            }
        }
    }
    all
}

/// Whites at which a number of `chad` ceases to fit.
fn chad_edges() -> Vec<Encoding> {
    let mut all = Vec::new();
    for line in ZERO_LINES {
        for wx in [0.06f32, 0.11, 0.13, 0.3, 0.5, 0.7] {
            let wy = line.wy(wx);
            let rgb = |wy| Encoding::rgb(White::own(wx, wy), Primaries::named(0), SRGB, 1);
            let here = status(&rgb(wy));
            for start in [wy + 0.01, wy - 0.01] {
                let inside = (0.0..=1.0).contains(&start);
                if inside && here == 5 && status(&rgb(start)) != 5 {
                    all.extend(change(rgb, start, wy));
                }
            }
        }
    }
    all
}

/// Primaries about |det| = 1e-12, for whites with which they are accepted and others.
fn determinant_edges() -> Vec<Encoding> {
    let mut all = Vec::new();
    for (white, near, far) in [
        ((0.25, 0.25), (0.0, 0.0), (0.5, 0.5)),
        ((0.3125, 0.34375), (0.125, 0.0), (0.5, 0.6875)),
        ((0.3127, 0.329), (0.0, 0.0), (0.6254, 0.658)),
        ((0.314, 0.351), (0.2, 0.0), (0.428, 0.702)),
        ((1.0 / 3.0, 1.0 / 3.0), (0.0, 0.0), (0.7, 0.2)),
    ] {
        let white = White::own(white.0, white.1);
        for order in 0..3 {
            let rgb = |gap: f32| {
                let mut vertices: [Xy; 3] = [near, far, (near.0, gap)];
                vertices.rotate_left(order);
                let [r, g, b] = vertices;
                let xy = Primaries::own([r.0, r.1, g.0, g.1, b.0, b.1]);
                Encoding::rgb(white, xy, SRGB, 2)
            };
            all.extend(change(rgb, 1e-9, 0.0));
            all.extend(change(rgb, -1e-9, -0.0));
            // Between these the determinant is tiny, and rounding shows.
            all.extend([2.5e-12, 3.7e-12, 1e-11, 3e-11, -2.5e-12].map(rgb));
        }
    }
    // The determinant exactly at the limit and beside it, of either sign.
    let limit = 1e-12f64;
    for determinant in [limit.next_down(), limit, limit.next_up()] {
        for determinant in [determinant, -determinant] {
            let xy = Primaries::own(colours::exact_determinant(determinant));
            all.push(Encoding::rgb(White::own(0.25, 0.25), xy, SRGB, 2));
        }
    }
    all
}

/// Primaries at which a column ceases to fit.
fn column_edges() -> Vec<Encoding> {
    let mut all = Vec::new();
    // A named triangle, one coordinate moved until the three points lie on one line.
    for xy in colours::named_primaries() {
        for at in 0..6 {
            let rgb = |c: f32| {
                let mut xy = xy;
                xy[at] = c;
                Encoding::rgb(White::named(0), Primaries::own(xy), SRGB, 3)
            };
            let flat = flat_at(xy, at);
            for start in [xy[at], 2.0 * flat - xy[at]] {
                if status(&rgb(start)) == 0 && status(&rgb(flat)) != 0 {
                    all.extend(change(rgb, start, flat));
                }
            }
        }
    }
    // One vertex nears another, the white a little off the line: here each step of the coordinate
    // moves the column by about one place of a float.
    for off in [0.001f32, -0.001, 0.01, -0.02] {
        let white = White::own(0.25 + off, 0.25);
        for order in 0..3 {
            let rgb = |gap: f32| {
                let mut vertices: [Xy; 3] = [(0.0, 0.0), (0.5, 0.5), (0.0, gap)];
                vertices.rotate_left(order);
                let [r, g, b] = vertices;
                let xy = Primaries::own([r.0, r.1, g.0, g.1, b.0, b.1]);
                Encoding::rgb(white, xy, SRGB, 0)
            };
            all.extend(change(rgb, 0.01, 1e-9));
            all.extend(change(rgb, -0.01, -1e-9));
        }
    }
    all
}

/// The value of coordinate `at` that puts the three points on one line.
fn flat_at(xy: [f32; 6], at: usize) -> f32 {
    let area = |c: f64| {
        let mut p = xy.map(f64::from);
        p[at] = c;
        (p[2] - p[0]) * (p[5] - p[1]) - (p[4] - p[0]) * (p[3] - p[1])
    };
    let (low, high) = (area(0.0), area(1.0));
    (low / (low - high)) as f32
}

/// Primaries with a coordinate that stands apart, in each of the six places.
fn odd_coordinates() -> Vec<Encoding> {
    let mut all = Vec::new();
    let odd = SPECIAL.into_iter().chain(NANS.map(f32::from_bits));
    for c in odd.chain([-0.077, 1e20, -1e20, 12345.678]) {
        for at in 0..6 {
            let mut xy = colours::named_primaries()[1];
            xy[at] = c;
            let primaries = Primaries::own(xy);
            all.push(Encoding::rgb(White::named(2), primaries, SRGB, 1));
        }
        let primaries = Primaries::own([c; 6]);
        all.push(Encoding::rgb(White::named(0), primaries, SRGB, 1));
    }
    all
}

/// Adapted gray for the lists: the named whites with each curve, own ones that show roundings, both
/// sides of each boundary, and two refusals at once. The comparisons take the whites, curves and
/// intents of all their encodings instead.
pub fn adapted() -> Vec<Encoding> {
    let gamma = Curve::gamma(0.454_545_47);
    let mut all = Vec::new();
    for (at, kind) in (0..=GAMMA).enumerate() {
        let curve = if kind == GAMMA {
            gamma
        } else {
            Curve::named(kind)
        };
        let one = |white| {
            let intent = (at + usize::from(white)) % 4;
            Encoding::adapted_gray(White::named(white), curve, intent as u8)
        };
        all.extend([0, 1, 2].map(one));
    }
    let own = |(wx, wy): Xy| Encoding::adapted_gray(White::own(wx, wy), SRGB, 1);
    all.extend(adapted_whites().into_iter().map(own));
    for (line, wx) in ZERO_LINES.into_iter().zip([0.11, 0.3, 0.3]) {
        let wy = line.wy(wx);
        all.extend(change(|wy| own((wx, wy)), wy + 0.01, wy));
    }
    for gamma in [f32::INFINITY, -0.5, 131_072.0] {
        let curve = Curve::gamma(gamma);
        all.push(Encoding::adapted_gray(White::named(1), curve, 2));
    }
    let outside = White::own(0.3, 0.0);
    let by_a_line = White::own(0.3, ZERO_LINES[1].wy(0.3));
    let pq = Curve::named(crate::encoding::PQ);
    for (white, curve) in [(outside, pq), (by_a_line, pq)] {
        all.push(Encoding::adapted_gray(white, curve, 3));
    }
    for white in [outside, by_a_line] {
        all.push(Encoding::adapted_gray(white, Curve::gamma(0.0), 3));
    }
    all
}

/// Own whites: of the cases of docs/SUPPLIER.md that show roundings of `chad`, at the ends of the range,
/// inside and outside, and two at which a component of LMS is zero.
fn adapted_whites() -> Vec<Xy> {
    let bits = |x, y| (f32::from_bits(x), f32::from_bits(y));
    let mut all = vec![
        (0.3113, 0.7),
        bits(0x274a_c7b4, 0x3f6f_fd61),
        bits(0x3eeb_501a, 0x3e46_a232),
        (0.0404, 0.276_604),
        (0.0, SMALLEST),
        (0.925, 0.56),
        (0.345_67, 0.3585),
        (0.25, 0.5),
        (0.0, 1.0),
        (-0.0, 0.329),
        (1.0, 1.0),
    ];
    let above = 1f32.next_up();
    all.extend([(-SMALLEST, 0.329), (above, 0.329), (0.3127, above)]);
    all.extend([(0.3127, 0.0), (0.3127, -0.0), (0.3127, -SMALLEST)]);
    all.extend([
        (f32::NAN, 0.329),
        (0.3127, f32::NAN),
        (0.3127, f32::INFINITY),
    ]);
    all.extend(colours::zero_whites().into_iter().take(2));
    all
}

/// The longest texts: 449 bytes, which is refused, and the longest known to be accepted.
fn long_texts() -> Vec<Encoding> {
    let least = Curve::gamma(f32::MIN);
    let mut all = Vec::new();
    for c in [f32::MIN, -1.2e38, f32::MAX, -1e38] {
        let white = White::own(c, c);
        all.push(Encoding::gray(white, least, 0));
        all.push(Encoding::rgb(white, Primaries::own([c; 6]), least, 0));
    }
    for (x, y) in [(-12345.678, -20000.5), (-32767.0, -16000.0), (0.3, 0.3)] {
        let far = Primaries::own([x, y, -3.1e38, -1.1e38, -1.2e38, -3.3e38]);
        for wy in [1.0, 0.9, 0.4] {
            all.push(Encoding::rgb(White::own(-0.0, wy), far, least, 1));
            all.push(Encoding::rgb(White::named(0), far, least, 1));
        }
    }
    all
}

/// 0 where the encoding is accepted, else the refusal's number.
pub fn status(encoding: &Encoding) -> u32 {
    answer::profile(encoding).err().unwrap_or(0)
}

/// The two encodings between which the answer becomes that of `to`.
fn change(make: impl Fn(f32) -> Encoding, from: f32, to: f32) -> [Encoding; 2] {
    let end = status(&make(to));
    edge(from, to, |c| status(&make(c)) != end).map(make)
}

/// One encoding at random.
pub fn encoding(random: &mut Random) -> Encoding {
    let curve = curve(random);
    let intent = random.below(4) as u8;
    let mut encoding = if random.percent(25) {
        Encoding::gray(gray_white(random), curve, intent)
    } else {
        let (white, primaries) = colours(random);
        Encoding::rgb(white, primaries, curve, intent)
    };
    if random.percent(50) {
        fill_unused(|| random.bits32(), &mut encoding);
    }
    encoding
}

/// Floats that a kind does not use may hold any bits.
pub fn fill_unused(mut bits: impl FnMut() -> u32, encoding: &mut Encoding) {
    if encoding.white.kind != OWN {
        encoding.white.wx = bits();
        encoding.white.wy = bits();
    }
    if encoding.primaries.kind != OWN {
        encoding.primaries.xy = [0; 6].map(|_| bits());
    }
    if encoding.curve.kind != GAMMA {
        encoding.curve.gamma = bits();
    }
}

/// The encoding with a number past its list, in one place. Some kinds do not use that place.
pub fn without_meaning(random: &mut Random, mut encoding: Encoding) -> Encoding {
    let past = random.below(200) as u8;
    match random.below(4) {
        0 => encoding.white.kind = OWN + 1 + past,
        1 => encoding.primaries.kind = OWN + 1 + past,
        2 => encoding.curve.kind = GAMMA + 1 + past,
        _ => encoding.intent = 4 + past,
    }
    encoding
}

fn curve(random: &mut Random) -> Curve {
    match random.below(20) {
        kind @ 0..5 => Curve::named(random.pick(&[0, 1, 2, 4, kind as u8])),
        5 => Curve::named(random.pick(&[3, 5])),
        6 => Curve::gamma(random.float()),
        7 => Curve::gamma(random.sized(-149, 127)),
        8 => Curve::gamma(random.sized(-16, -14)),
        9 => Curve::gamma(1.0 / random.between(0.5, 4.0)),
        10..15 => Curve::gamma(random.unit()),
        _ => Curve::named(random.below(3) as u8),
    }
}

pub fn gray_white(random: &mut Random) -> White {
    match random.below(10) {
        0 => White::named(random.below(3) as u8),
        1..5 => {
            let (wx, wy) = colours::white(random);
            White::own(wx, wy)
        }
        5 => White::own(random.sized(-149, 127), random.sized(-149, 127)),
        6 => {
            let power = random.below(250) as i32 - 120;
            White::own(
                random.sized(power - 3, power),
                random.sized(power - 3, power),
            )
        }
        7 => White::own(random.unit(), random.sized(-18, -12)),
        8 => White::own(random.sized(-20, 20), random.sized(-3, 3)),
        _ => White::own(random.float(), random.float()),
    }
}

fn colours(random: &mut Random) -> (White, Primaries) {
    let own = |(wx, wy): Xy| White::own(wx, wy);
    match random.below(100) {
        0..10 => (
            White::named(random.below(3) as u8),
            Primaries::own(colours::primaries(random)),
        ),
        10..20 => (
            own(colours::white(random)),
            Primaries::named(random.below(3) as u8),
        ),
        20..50 => (
            own(colours::white(random)),
            Primaries::own(colours::primaries(random)),
        ),
        50..66 => {
            let (white, xy) = colours::near_singular(random);
            (own(white), Primaries::own(xy))
        }
        66..70 => {
            let (white, xy) = colours::low_white(random);
            (own(white), Primaries::own(xy))
        }
        70..78 => (
            own(colours::white_by_line(random)),
            Primaries::own(colours::primaries(random)),
        ),
        78..90 => (
            own(colours::white(random)),
            Primaries::own(colours::far_primaries(random)),
        ),
        90..95 => (
            own(colours::white(random)),
            Primaries::own([0.0; 6].map(|_| random.sized(-149, 20))),
        ),
        _ => (
            White::own(random.float(), random.float()),
            Primaries::own([0.0; 6].map(|_| random.float())),
        ),
    }
}
