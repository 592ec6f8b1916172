//! Floats for the fixed number, the narrowing and the text.

use super::random::Random;

/// The largest fixed number's float, 32767.994140625.
pub const LIMIT: f32 = 32767.995;

/// The smallest float above zero.
pub const SMALLEST: f32 = f32::from_bits(1);

/// Floats that stand apart: zeros, the ends of the subnormal and normal ranges, infinities.
pub const SPECIAL: [f32; 16] = [
    0.0,
    -0.0,
    SMALLEST,
    -SMALLEST,
    f32::from_bits(0x007f_ffff),
    -f32::from_bits(0x007f_ffff),
    f32::MIN_POSITIVE,
    -f32::MIN_POSITIVE,
    1.0,
    -1.0,
    f32::MAX,
    f32::MIN,
    f32::INFINITY,
    f32::NEG_INFINITY,
    f32::EPSILON,
    0.5,
];

/// Bits of NaNs: quiet and signalling, of either sign.
pub const NANS: [u32; 6] = [
    0x7fc0_0000,
    0xffc0_0000,
    0x7f80_0001,
    0xff80_0001,
    0x7fff_ffff,
    0xffff_ffff,
];

/// A float and its two neighbours.
pub fn around(x: f32) -> [f32; 3] {
    [x.next_down(), x, x.next_up()]
}

/// The neighbours between which `holds` changes, where it holds of `from` and not of `to`.
pub fn edge(from: f32, to: f32, holds: impl Fn(f32) -> bool) -> [f32; 2] {
    assert!(holds(from) && !holds(to), "no edge from {from} to {to}");
    let (mut inside, mut outside) = (place(from), place(to));
    while inside.abs_diff(outside) > 1 {
        let middle = inside.midpoint(outside);
        if holds(at_place(middle)) {
            inside = middle;
        } else {
            outside = middle;
        }
    }
    [at_place(inside), at_place(outside)]
}

/// The place of a float among all floats in order; the negative ones lie below zero.
fn place(x: f32) -> i32 {
    let bits = x.to_bits() as i32;
    bits ^ (((bits >> 31) as u32) >> 1) as i32
}

fn at_place(place: i32) -> f32 {
    f32::from_bits((place ^ (((place >> 31) as u32) >> 1) as i32) as u32)
}

fn apart() -> Vec<u32> {
    let special = SPECIAL.iter().map(|x| x.to_bits());
    special.chain(NANS).collect()
}

fn with_negatives(floats: impl IntoIterator<Item = f32>) -> Vec<u32> {
    let both = floats.into_iter().flat_map(|x| [x, -x]);
    both.map(f32::to_bits).collect()
}

/// Bits to try the fixed number with.
pub fn fixed(random: &mut Random, count: usize) -> Vec<u32> {
    let mut first = apart();
    first.extend(with_negatives(
        [LIMIT, 32768.0, 65536.0].map(around).concat(),
    ));
    first.extend(with_negatives([2.4, 2.6, 1.0 / 0.45, 0.04045, 0.081]));
    // Halves of the last place, which are rounded away from zero, and their neighbours.
    let halves = (0..24).chain((5..23).map(|power| (1 << power) - 1));
    for half in halves {
        let tie = (half as f32 + 0.5) / 65536.0;
        first.extend(with_negatives(around(tie)));
    }
    first.extend((-149..=127).map(|power| (2f64.powi(power) as f32).to_bits()));
    super::filled(first, count, || match random.below(10) {
        0..6 => random.sized(-20, 14).to_bits(),
        6 => random.sized(14, 15).to_bits(),
        7 => {
            let whole = random.bits32() >> (9 + random.below(12));
            ((whole as f32 + 0.5) / 65536.0).to_bits()
        }
        8 => random.sized(-149, 127).to_bits(),
        _ => random.bits32(),
    })
}

/// Bits to try whether a fixed number is exact: the lowest digits are zeros, so that many floats are
/// whole numbers of 65536ths, and others miss one by one digit.
pub fn few_digits(random: &mut Random, count: usize) -> Vec<u32> {
    let mut first = apart();
    for power in -20..=15 {
        let one = 2f32.powi(power);
        first.extend(with_negatives([one]));
        for digit in 1..24 {
            let last = 2f32.powi(power - digit);
            first.extend(with_negatives([one + last, 2.0 * one - last]));
        }
    }
    super::filled(first, count, || {
        let bits = random.sized(-18, 15).to_bits();
        bits & (u32::MAX << random.below(24))
    })
}

/// Bits to try the narrowing with.
pub fn narrow(random: &mut Random, count: usize) -> Vec<u64> {
    let mut first: Vec<u64> = Vec::new();
    for bits in apart() {
        first.push(f64::from(f32::from_bits(bits)).to_bits());
    }
    let ends = [0, 1, 0x000f_ffff_ffff_ffff, 0x0010_0000_0000_0000];
    let largest = [f64::MAX.to_bits(), 0x7ff0_0000_0000_0000];
    let nans = [0x7ff8_0000_0000_0000, 0x7ff0_0000_0000_0001, (1 << 63) - 1];
    for bits in ends.into_iter().chain(largest).chain(nans) {
        first.extend([bits, bits | 1 << 63]);
    }
    // The exponents where a float of 32 bits ends, is subnormal, or is ordinary; and there
    // halves to even and odd digits, their neighbours, and digits that carry all the way.
    let exponents = (-152..=-124).chain([-1, 0, 1, 126, 127, 128]);
    for exponent in exponents {
        let start = ((exponent + 1023) as u64) << 52;
        // Below the normal range there are fewer digits left.
        let dropped = (29 + (-126 - exponent).clamp(0, 23)) as u32;
        let half = 1u64 << (dropped - 1);
        let ones = (1 << 52) - 1;
        let kept = [0, (2 * half) & ones, ones & !(2 * half - 1)];
        for digits in kept {
            let tie = start | digits | half & ones;
            first.extend([tie - 1, tie, tie + 1]);
            first.push(start | digits);
        }
        first.extend([start + 1, start | ones, start | ones | 1 << 63]);
    }
    super::filled(first, count, || {
        let bits = random.bits64();
        let exponent = match random.below(10) {
            0..4 => 1023 - 20 + u64::from(random.below(36)),
            4..6 => 1023 - 127 + u64::from(random.below(255)),
            6..8 => 1023 - 151 + u64::from(random.below(26)),
            8 => 1023 + 125 + u64::from(random.below(4)),
            _ => return bits,
        };
        let digits = match random.below(4) {
            0 => bits & 0x000f_ffff_e000_0000 | 0x1000_0000,
            1 => bits & 0x000f_ff00_0000_0000 | 1 << (28 + random.below(23)),
            _ => bits & 0x000f_ffff_ffff_ffff,
        };
        bits & 1 << 63 | exponent << 52 | digits
    })
}

/// Bits to try the text with.
pub fn text(random: &mut Random, count: usize) -> Vec<u32> {
    let mut first = apart();
    // The odd 256ths are the only ties at seven decimals.
    let ties = (0..32).chain((5..24).map(|power| (1 << power) - 1));
    for tie in ties {
        let tie = (2 * tie + 1) as f32 / 256.0;
        first.extend(with_negatives(around(tie)));
    }
    // Where digits carry, where the last decimal begins, and where decimals end.
    let carries = [
        0.999_999_94,
        0.999_999_9,
        9.999_999,
        99.999_99,
        0.099_999_99,
    ];
    first.extend(with_negatives(carries));
    for power in -9..=38 {
        first.extend(around(10f64.powi(power) as f32).map(f32::to_bits));
        first.extend(around(5.0 * 10f64.powi(power - 1) as f32).map(f32::to_bits));
    }
    for power in 22..=26 {
        first.extend(with_negatives(around(2f32.powi(power))));
    }
    first.extend((-149..=127).map(|power| (2f64.powi(power) as f32).to_bits()));
    super::filled(first, count, || match random.below(10) {
        0..4 => random.unit().to_bits(),
        4 => ((random.bits32() >> (8 + random.below(16))) as f32 / 256.0).to_bits(),
        5..7 => random.sized(-26, 25).to_bits(),
        7 => random.sized(24, 127).to_bits(),
        8 => random.sized(-149, 127).to_bits(),
        _ => random.bits32(),
    })
}
