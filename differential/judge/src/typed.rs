//! The encoding that a typed text describes, from the words of 02's order 2.
//!
//! The text is split at its underscores, each field is looked up whole, and a float is held
//! against its shape and then left to Rust's own `str::parse`.

use crate::encoding::{Curve, Encoding, GAMMA, GRAY, OWN, Primaries, RGB, White, XYB};
use crate::leaves;

/// The text is not in the language.
pub const NO_DESCRIPTION: u32 = 51;

/// It is, and its gamma is zero.
pub const ZERO_GAMMA: u32 = 52;

/// The names of the parts, by their numbers.
pub const WHITES: [&str; 3] = ["D65", "EER", "DCI"];
pub const PRIMARIES: [&str; 3] = ["SRG", "202", "DCI"];
pub const INTENTS: [&str; 4] = ["Per", "Rel", "Sat", "Abs"];
pub const CURVES: [&str; 6] = ["709", "Lin", "SRG", "PeQ", "DCI", "HLG"];

/// The common names, each with the long form that it replaces.
pub const COMMON: [(&str, &str); 4] = [
    ("sRGB", "RGB_D65_SRG_Per_SRG"),
    ("DisplayP3", "RGB_D65_DCI_Per_SRG"),
    ("Rec2100PQ", "RGB_D65_202_Rel_PeQ"),
    ("Rec2100HLG", "RGB_D65_202_Rel_HLG"),
];

/// The encoding that a text describes, or the number of the refusal.
pub fn read(text: &[u8]) -> Result<Encoding, u32> {
    let text = std::str::from_utf8(text).map_err(|_| NO_DESCRIPTION)?;
    let common = COMMON.iter().find(|(name, _)| *name == text);
    if COMMON.iter().any(|(_, long)| *long == text) {
        return Err(NO_DESCRIPTION);
    }
    let long = common.map_or(text, |(_, long)| long);
    let encoding = long_form(long).ok_or(NO_DESCRIPTION)?;
    if has_zero_gamma(&encoding) {
        return Err(ZERO_GAMMA);
    }
    Ok(encoding)
}

fn has_zero_gamma(encoding: &Encoding) -> bool {
    encoding.curve.kind == GAMMA && f32::from_bits(encoding.curve.gamma) == 0.0
}

pub fn long_form(text: &str) -> Option<Encoding> {
    let fields: Vec<&str> = text.split('_').collect();
    Some(match fields[..] {
        ["RGB", w, p, i, c] => Encoding::rgb(white(w)?, primaries(p)?, curve(c)?, intent(i)?),
        ["Gra", w, i, c] => Encoding::gray(white(w)?, curve(c)?, intent(i)?),
        ["XYB", i] => Encoding::xyb(intent(i)?),
        _ => return None,
    })
}

fn number_of(name: &str, names: &[&str]) -> Option<u8> {
    let place = names.iter().position(|one| *one == name)?;
    u8::try_from(place).ok()
}

fn intent(text: &str) -> Option<u8> {
    number_of(text, &INTENTS)
}

fn white(text: &str) -> Option<White> {
    if let Some(kind) = number_of(text, &WHITES) {
        return Some(White::named(kind));
    }
    let (wx, wy) = text.split_once(';')?;
    Some(White::own(float(wx)?, float(wy)?))
}

fn primaries(text: &str) -> Option<Primaries> {
    if let Some(kind) = number_of(text, &PRIMARIES) {
        return Some(Primaries::named(kind));
    }
    let points: Vec<&str> = text.split(';').collect();
    let [red, green, blue] = points[..] else {
        return None;
    };
    let point = |text: &str| {
        let (x, y) = text.split_once(',')?;
        Some((float(x)?, float(y)?))
    };
    let (red, green, blue) = (point(red)?, point(green)?, point(blue)?);
    Some(Primaries::own([
        red.0, red.1, green.0, green.1, blue.0, blue.1,
    ]))
}

fn curve(text: &str) -> Option<Curve> {
    if let Some(kind) = number_of(text, &CURVES) {
        return Some(Curve::named(kind));
    }
    text.strip_prefix('g').and_then(float).map(Curve::gamma)
}

/// A float of the language: an optional minus, one or two whole digits without a needless leading
/// zero, a point, seven digits.
pub fn float(text: &str) -> Option<f32> {
    let (whole, decimals) = text.strip_prefix('-').unwrap_or(text).split_once('.')?;
    let needless = whole.len() > 1 && whole.starts_with('0');
    let digits = |part: &str, from: usize, to: usize| {
        (from..=to).contains(&part.len()) && part.chars().all(|c| c.is_ascii_digit())
    };
    if needless || !digits(whole, 1, 2) || !digits(decimals, 7, 7) {
        return None;
    }
    text.parse().ok()
}

/// What the description of an encoding is read as, by the encoding's own numbers: each float that
/// it uses must print with at most two whole digits, and is what these digits say.
pub fn described(encoding: &Encoding) -> Result<Encoding, u32> {
    let printed = |bits: &mut u32| -> Result<(), u32> {
        // No float below 100 prints as 100.0000000: the last one is 99.9999924.
        if f32::from_bits(*bits).abs() < 100.0 {
            let float: f32 = leaves::text(*bits).parse().expect("it prints as a float");
            *bits = float.to_bits();
            return Ok(());
        }
        Err(NO_DESCRIPTION)
    };
    let mut used = match encoding.kind {
        GRAY => Encoding::gray(encoding.white, encoding.curve, encoding.intent),
        RGB => *encoding,
        _ => Encoding::xyb(encoding.intent),
    };
    match used.white.kind {
        OWN => {
            printed(&mut used.white.wx)?;
            printed(&mut used.white.wy)?;
        }
        kind => used.white = White::named(kind),
    }
    match used.primaries.kind {
        OWN => used.primaries.xy.iter_mut().try_for_each(printed)?,
        kind => used.primaries = Primaries::named(kind),
    }
    match used.curve.kind {
        GAMMA => printed(&mut used.curve.gamma)?,
        kind => used.curve = Curve::named(kind),
    }
    if has_zero_gamma(&used) {
        return Err(ZERO_GAMMA);
    }
    Ok(used)
}

/// The bytes of an encoding's record.
pub const RECORD: usize = 41;

/// The record: the space, then white, primaries, curve and intent as in an RGB entry of a job. The
/// encoding's unused numbers are zero.
pub fn record(encoding: &Encoding) -> [u8; RECORD] {
    let (white, primaries, curve) = (encoding.white, encoding.primaries, encoding.curve);
    let mut bytes = vec![encoding.kind, white.kind];
    bytes.extend([white.wx, white.wy].map(u32::to_be_bytes).as_flattened());
    bytes.push(primaries.kind);
    bytes.extend(primaries.xy.map(u32::to_be_bytes).as_flattened());
    bytes.push(curve.kind);
    bytes.extend(curve.gamma.to_be_bytes());
    bytes.push(encoding.intent);
    bytes.try_into().expect("a record has 41 bytes")
}

/// The encoding of a record; its numbers are taken as they are. A record means gray that is not adapted.
pub fn of_record(record: &[u8; RECORD]) -> Encoding {
    let float = |at: usize| u32::from_be_bytes(record[at..at + 4].try_into().expect("four bytes"));
    Encoding {
        kind: record[0],
        white: White {
            kind: record[1],
            wx: float(2),
            wy: float(6),
        },
        primaries: Primaries {
            kind: record[10],
            xy: std::array::from_fn(|at| float(11 + 4 * at)),
        },
        curve: Curve {
            kind: record[35],
            gamma: float(36),
        },
        intent: record[40],
        adapted: false,
    }
}

/// The long form of an encoding of named parts, a replaced one too. None where a part is own.
pub fn long_name(encoding: &Encoding) -> Option<String> {
    let name = |names: &[&'static str], kind: u8| names.get(usize::from(kind)).copied();
    let intent = name(&INTENTS, encoding.intent)?;
    let white = || name(&WHITES, encoding.white.kind);
    let curve = || name(&CURVES, encoding.curve.kind);
    Some(match encoding.kind {
        RGB => {
            let primaries = name(&PRIMARIES, encoding.primaries.kind)?;
            ["RGB", white()?, primaries, intent, curve()?].join("_")
        }
        GRAY => ["Gra", white()?, intent, curve()?].join("_"),
        XYB => ["XYB", intent].join("_"),
        _ => return None,
    })
}
