//! The time that the original takes for a profile.

use std::hint::black_box;
use std::time::Instant;

use crate::encoding::{Curve, Encoding, Primaries, SRGB_CURVE, White};

/// The four encodings that are timed, with their names.
pub fn encodings() -> [(&'static str, Encoding); 4] {
    let own = Primaries::own([0.69, 0.31, 0.21, 0.71, 0.14, 0.05]);
    let srgb = Curve::named(SRGB_CURVE);
    [
        (
            "sRGB",
            Encoding::rgb(White::named(0), Primaries::named(0), srgb, 0),
        ),
        (
            "own primaries, gamma",
            Encoding::rgb(White::named(0), own, Curve::gamma(0.45), 1),
        ),
        ("gray", Encoding::gray(White::named(0), srgb, 1)),
        ("XYB", Encoding::xyb(0)),
    ]
}

/// Nanoseconds for one call of `work`: the best of 15 runs of 20,000 calls.
pub fn nanoseconds(mut work: impl FnMut()) -> f64 {
    const RUNS: usize = 15;
    const CALLS: usize = 20_000;
    let mut best = f64::INFINITY;
    for _ in 0..RUNS {
        let start = Instant::now();
        for _ in 0..CALLS {
            work();
        }
        best = best.min(start.elapsed().as_nanos() as f64 / CALLS as f64);
    }
    best
}

/// Nanoseconds that the original's `maybe_create_profile` takes, for each of the four.
pub fn original() -> [(&'static str, f64); 4] {
    encodings().map(|(name, encoding)| {
        let original = encoding.original().expect("these have a meaning");
        let time = nanoseconds(|| {
            let profile = black_box(&original).maybe_create_profile();
            black_box(profile.expect("these are accepted"));
        });
        (name, time)
    })
}
