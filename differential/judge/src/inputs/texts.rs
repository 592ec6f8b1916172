//! Texts that describe encodings, and texts with faults.

use super::encodings;
use super::random::Random;
use super::{below, byte};
use crate::answer;
use crate::encoding::{Curve, Encoding, Primaries, White};
use crate::typed::{COMMON, CURVES, INTENTS, PRIMARIES, WHITES, long_name};

/// The last decimal's worth: a float is a whole number of ten-millionths.
const ONE: u32 = 10_000_000;

/// 10 million without its factors of two, 5 to the power of 7.
const ODD: u32 = 78_125;

// ---- floats

/// Ten-millionths of every size, the minus aside.
fn magnitude(random: &mut Random) -> u32 {
    match random.below(16) {
        0..4 => random.below(100 * ONE),
        4 => random.below(10 * ONE),
        5 => random.below(ONE),
        6 => random.below(ODD),
        7 => {
            let digits = 1 + random.below(8);
            random.below(10u32.pow(digits))
        }
        8 => {
            let power = random.below(30) as i32 - 23;
            let near = (2f64.powi(power) * f64::from(ONE)) as u32 + random.below(5);
            near.saturating_sub(2)
        }
        9..12 => beside_middle(random),
        12 => {
            // The texts on both sides of the middle between a float from 1 up and the next one.
            let float = f64::from(random.between(1.0, 99.9));
            let middle = f64::from((float as f32).next_up()) + float;
            (middle / 2.0 * f64::from(ONE)) as u32 + random.below(2)
        }
        13 => {
            // Floats that are met exactly, and the texts beside them.
            let exact = ODD * random.below(12_800) + random.below(3);
            exact.saturating_sub(1)
        }
        14 => random.pick(&[
            1,
            2,
            9,
            10,
            ONE - 1,
            ONE,
            ONE + 1,
            10 * ONE - 1,
            10 * ONE,
            10 * ONE + 1,
            100 * ONE - 2,
            100 * ONE - 1,
        ]),
        _ => 0,
    }
}

/// A text as near to the middle between two neighbouring floats as one can be, or a little
/// farther: between 2^e and 2^(e+1) floats lie 2^(e-23) apart, and a number n of ten-millionths
/// is (128 k + 64) / 10^7 of this below the middle where n 2^(16-e) is 39062 - k modulo 5^7, and as
/// far above where it is 39063 + k.
fn beside_middle(random: &mut Random) -> u32 {
    let power = random.below(14) as i32 - 7;
    let farther = random.pick(&[0u32, 0, 1, 2, 7]);
    let wanted = random.pick(&[39_062 - farther, 39_063 + farther]);
    // 39063 is the inverse of 2.
    let class = (0..16 - power).fold(u64::from(wanted), |n, _| n * 39_063 % u64::from(ODD)) as u32;
    let from = |power: i32| (2f64.powi(power) * f64::from(ONE)).ceil() as u32;
    let (low, high) = (from(power), from(power + 1).min(100 * ONE));
    let any = low + random.below(high - low);
    let near = any - (any + ODD - class) % ODD;
    if near < low { near + ODD } else { near }
}

fn push_float(random: &mut Random, text: &mut Vec<u8>) {
    let number = magnitude(random);
    push_number(text, random.percent(40), number);
}

fn push_number(text: &mut Vec<u8>, minus: bool, number: u32) {
    if minus {
        text.push(b'-');
    }
    text.extend((number / ONE).to_string().bytes());
    text.push(b'.');
    let mut decimals = number % ONE;
    let mut digits = [0; 7];
    for digit in digits.iter_mut().rev() {
        *digit = b'0' + (decimals % 10) as u8;
        decimals /= 10;
    }
    text.extend(digits);
}

/// How many floats the language has, the minus aside.
pub const FLOATS: u32 = 100 * ONE;

/// A text with nine floats, from a number of ten-millionths on; after the last float comes the first.
pub fn nine_floats(minus: bool, first: u32) -> Vec<u8> {
    let mut text = Vec::with_capacity(128);
    for (at, before) in (0..).zip(["RGB_", ";", "_", ",", ";", ",", ";", ",", "_Rel_g"]) {
        text.extend(before.bytes());
        push_number(&mut text, minus, (first + at) % FLOATS);
    }
    text
}

/// A text with floats in some of the places for them, and how many.
pub fn with_floats(random: &mut Random) -> (Vec<u8>, usize) {
    let rgb = random.percent(70);
    let (white, primaries) = (random.percent(60), rgb && random.percent(60));
    let gamma = random.percent(60) || !(white || primaries);
    let mut text = Vec::with_capacity(128);
    let mut own = 0;
    let mut floats = |random: &mut Random, text: &mut Vec<u8>, between: &[u8]| {
        push_float(random, text);
        for separator in between {
            text.push(*separator);
            push_float(random, text);
        }
        own += between.len() + 1;
    };
    text.extend(if rgb { b"RGB_" } else { b"Gra_" });
    match white {
        true => floats(random, &mut text, b";"),
        false => text.extend(random.pick(&WHITES).bytes()),
    }
    if rgb {
        text.push(b'_');
        match primaries {
            true => floats(random, &mut text, b",;,;,"),
            false => text.extend(random.pick(&PRIMARIES).bytes()),
        }
    }
    text.push(b'_');
    text.extend(random.pick(&INTENTS).bytes());
    text.push(b'_');
    match gamma {
        true => {
            text.push(b'g');
            floats(random, &mut text, b"");
        }
        false => text.extend(random.pick(&CURVES).bytes()),
    }
    (text, own)
}

// ---- encodings

/// An encoding of any kind: those of the comparisons, named ones, and own numbers of every size.
pub fn encoding(random: &mut Random) -> Encoding {
    let curve = match random.below(4) {
        0 => Curve::gamma(number(random)),
        _ => Curve::named(random.below(6) as u8),
    };
    let white = match random.below(2) {
        0 => White::own(number(random), number(random)),
        _ => White::named(random.below(3) as u8),
    };
    let primaries = match random.below(2) {
        0 => Primaries::own([0.0; 6].map(|_| number(random))),
        _ => Primaries::named(random.below(3) as u8),
    };
    let intent = random.below(4) as u8;
    match random.below(20) {
        0..7 => encodings::any(random),
        7 => Encoding::xyb(intent),
        8 => {
            let named = COMMON[below(random, COMMON.len())].1;
            crate::typed::long_form(named).expect("a long form")
        }
        9..13 => Encoding::gray(white, curve, intent),
        _ => Encoding::rgb(white, primaries, curve, intent),
    }
}

fn number(random: &mut Random) -> f32 {
    match random.below(40) {
        0 => random.float(),
        1 => random.sized(-149, 127),
        2 => random.pick(&super::floats::SPECIAL),
        3 => f32::from_bits(random.pick(&super::floats::NANS)),
        // Where three whole digits begin, and where all printed digits are zero.
        4 => f32::from_bits(100f32.to_bits() - 4 + random.below(8)),
        5..8 => random.sized(-28, -22),
        8..14 => random.sized(-24, 6),
        14..20 => random.between(-100.0, 100.0),
        _ => random.unit(),
    }
}

// ---- faults

/// A text of the language, or a long form that a common name replaces.
fn good(random: &mut Random) -> Vec<u8> {
    match random.below(10) {
        0 => random.pick(&COMMON).0.into(),
        1 => random.pick(&COMMON).1.into(),
        2..4 => {
            let (white, curve) = (random.pick(&WHITES), random.pick(&CURVES));
            let (primaries, intent) = (random.pick(&PRIMARIES), random.pick(&INTENTS));
            let text = match random.below(5) {
                0 => ["XYB", intent].join("_"),
                1 => ["Gra", white, intent, curve].join("_"),
                _ => ["RGB", white, primaries, intent, curve].join("_"),
            };
            text.into_bytes()
        }
        4 => answer::description(&encoding(random)).into_bytes(),
        _ => with_floats(random).0,
    }
}

/// A good text with up to three faults, or bytes at random.
pub fn faulty(random: &mut Random) -> Vec<u8> {
    let mut text = good(random);
    let faults = match random.below(20) {
        0..2 => 0,
        2..14 => 1,
        14..18 => 2,
        18 => 3,
        _ => return at_random(random),
    };
    for _ in 0..faults {
        fault(random, &mut text);
    }
    text
}

fn at_random(random: &mut Random) -> Vec<u8> {
    let length = random.pick(&[3, 4, 9, 10, 19, 120, 600]);
    let length = below(random, length + 2);
    match random.percent(50) {
        true => (0..length).map(|_| byte(random)).collect(),
        false => (0..length).map(|_| letter(random)).collect(),
    }
}

/// A letter that the language has.
fn letter(random: &mut Random) -> u8 {
    random.pick(b"0123456789.-;,_gRGBraXYDECISPeHLnQ672sAblt1")
}

fn any_byte(random: &mut Random) -> u8 {
    match random.below(4) {
        0 => byte(random),
        1 => random.pick(b"\0 \t\n\r+eE\x7f\x80\xc2\xff"),
        _ => letter(random),
    }
}

fn fault(random: &mut Random, text: &mut Vec<u8>) {
    let place = below(random, text.len() + 1);
    let inside = place.min(text.len().saturating_sub(1));
    match random.below(16) {
        0 => text.insert(place, any_byte(random)),
        1 if !text.is_empty() => _ = text.remove(inside),
        2 if !text.is_empty() => text[inside] = any_byte(random),
        3 if !text.is_empty() => text[inside] ^= 1 << random.below(8),
        4 => fields(random, text),
        5 => other_case(random, text, inside),
        6 => join(random, text),
        7 => text.truncate(place),
        8 => _ = text.drain(..place),
        9 => separators(random, text),
        10 => part(random, text),
        11 => ends(random, text),
        _ => number_fault(random, text),
    }
}

/// Fields, or numbers of a field: exchanged, dropped or doubled.
fn fields(random: &mut Random, text: &mut Vec<u8>) {
    let separator = random.pick(b"____;,");
    let mut all: Vec<Vec<u8>> = text
        .split(|letter| *letter == separator)
        .map(<[u8]>::to_vec)
        .collect();
    let [a, b] = [0; 2].map(|_| below(random, all.len()));
    match random.below(3) {
        0 => all.swap(a, b),
        1 => _ = all.remove(a),
        _ => all.insert(b, all[a].clone()),
    }
    *text = all.join(&separator);
}

/// One letter, or all of them.
fn other_case(random: &mut Random, text: &mut [u8], at: usize) {
    match random.below(4) {
        0 => text.make_ascii_lowercase(),
        1 => text.make_ascii_uppercase(),
        _ => {
            let letters: Vec<usize> = (0..text.len())
                .filter(|at| text[*at].is_ascii_alphabetic())
                .collect();
            let at = letters.get(at % letters.len().max(1)).copied();
            if let Some(letter) = at.and_then(|at| text.get_mut(at)) {
                *letter ^= 0x20;
            }
        }
    }
}

/// Another text before or after.
fn join(random: &mut Random, text: &mut Vec<u8>) {
    let between: &[u8] = random.pick(&[&b""[..], b"_", b";", b",", b" ", b"\0", b"\n"]);
    let other = good(random);
    let parts = match random.percent(50) {
        true => [&other, between, text],
        false => [text, between, &other],
    };
    *text = parts.concat();
}

/// A separator is another.
fn separators(random: &mut Random, text: &mut [u8]) {
    let places: Vec<usize> = (0..text.len())
        .filter(|at| b"_;,.".contains(&text[*at]))
        .collect();
    if !places.is_empty() {
        text[random.pick(&places)] = random.pick(b"_;,.-: \0");
    }
}

/// A field is another name.
fn part(random: &mut Random, text: &mut Vec<u8>) {
    const NAMES: [&str; 24] = [
        "RGB", "Gra", "XYB", "sRGB", "D65", "EER", "DCI", "SRG", "202", "Per", "Rel", "Sat", "Abs",
        "709", "Lin", "PeQ", "HLG", "g", "", "E", "P3", "D50", "PQ", "2020",
    ];
    let mut all: Vec<&[u8]> = text.split(|letter| *letter == b'_').collect();
    let at = below(random, all.len());
    all[at] = random.pick(&NAMES).as_bytes();
    *text = all.join(&b'_');
}

/// Something before or after: of a common name, letters that go on.
fn ends(random: &mut Random, text: &mut Vec<u8>) {
    const MORE: [&[u8]; 18] = [
        b"_",
        b" ",
        b"\0",
        b"\n",
        b"\r\n",
        b"0",
        b"1",
        b"P3",
        b"PQ",
        b"HLG",
        b"_Per",
        b"_Rel",
        b";",
        b",0.5000000",
        b";0.5000000",
        b"\xff",
        b"\xef\xbb\xbf",
        b"g1.0000000",
    ];
    if random.percent(50) {
        *text = random.pick(&COMMON).0.into();
    }
    let more = random.pick(&MORE);
    match random.percent(30) {
        true => *text = [more, text].concat(),
        false => text.extend(more),
    }
}

/// Floats of other shapes, and two of the right one.
const SHAPES: [&str; 44] = [
    "100.0000000",
    "123.4567890",
    "00.5000000",
    "01.5000000",
    "-00.0000000",
    "-01.0000000",
    "+1.0000000",
    "+0.0000000",
    "0.500000",
    "0.50000000",
    "12.345678",
    "12.34567890",
    "1.",
    "1",
    "-1",
    ".5000000",
    "-.5000000",
    "0",
    "",
    "-",
    ".",
    "inf",
    "-inf",
    "infinity",
    "NaN",
    "-NaN",
    "nan",
    "1e1",
    "1.00000e1",
    "1.000000e",
    "1.0E00000",
    "--1.0000000",
    "-+1.0000000",
    "- 1.0000000",
    " 1.0000000",
    "1.0000000 ",
    "1..0000000",
    "1.000.000",
    "1.0000000f",
    "1.00_0000",
    "0x1.0000000",
    "\u{663}.0000000",
    "-0.0000000",
    "0.0000000",
];

/// A float becomes one of another shape, or is changed by a letter.
fn number_fault(random: &mut Random, text: &mut Vec<u8>) {
    let mut starts = vec![0];
    starts.extend((1..text.len()).filter(|at| b"_;,g".contains(&text[at - 1])));
    let end = |start: usize| {
        let length = text[start..].iter().position(|l| b"_;,".contains(l));
        length.map_or(text.len(), |length| start + length)
    };
    starts.retain(|start| text[*start..end(*start)].contains(&b'.'));
    starts.retain(|start| text[*start] != b'g');
    if starts.is_empty() {
        return;
    }
    let start = random.pick(&starts);
    let end = end(start);
    let digits = start + usize::from(text[start] == b'-');
    let point = text[start..end].iter().position(|l| *l == b'.');
    let point = start + point.expect("each of these has one");
    let digit = b'0' + random.below(10) as u8;
    match random.below(14) {
        0 => text.insert(digits, digit),
        1 => text.insert(digits, b'0'),
        2 => text.insert(start, random.pick(b"+- ")),
        3 => text.insert(end, digit),
        4 if end > point + 1 => _ = text.remove(end - 1),
        5 => _ = text.remove(point),
        6 => text.insert(point, b'.'),
        7 => _ = text.drain(digits..point),
        8 => _ = text.drain(point..end),
        _ => {
            let shape = random.pick(&SHAPES);
            text.splice(start..end, shape.bytes());
        }
    }
}

// ---- fixed cases

/// Texts by each byte of which the cases go: the longest, one of each kind, the common names.
const WALKED: [&str; 9] = [
    "RGB_-10.1234567;-99.9999999_-30.0000001,-45.6789123;-56.7891234,-67.8912345;-78.9123456,-89.1234567_Abs_g-91.2345678",
    "Gra_0.3127000;0.3290000_Rel_g0.4545455",
    "RGB_D65_SRG_Rel_Lin",
    "Gra_EER_Sat_g0.0000000",
    "XYB_Per",
    "sRGB",
    "DisplayP3",
    "Rec2100PQ",
    "Rec2100HLG",
];

/// Every text of at most two bytes; every encoding of named parts by the original's text and in its
/// long form; of some texts each front, and each letter left out, replaced by every byte, and every
/// byte put before it.
pub fn cases() -> Vec<Vec<u8>> {
    let mut all = vec![Vec::new()];
    for first in 0..=u8::MAX {
        all.push(vec![first]);
        all.extend((0..=u8::MAX).map(|second| vec![first, second]));
    }
    for encoding in encodings::named() {
        all.push(answer::description(&encoding).into_bytes());
        all.extend(long_name(&encoding).map(String::into_bytes));
    }
    for text in WALKED.map(str::as_bytes) {
        for at in 0..=text.len() {
            let (front, back) = text.split_at(at);
            all.push(front.to_vec());
            let rest = back.get(1..).unwrap_or_default();
            all.push([front, rest].concat());
            for one in 0..=u8::MAX {
                all.push([front, &[one], rest].concat());
                all.push([front, &[one], back].concat());
            }
        }
    }
    all
}
