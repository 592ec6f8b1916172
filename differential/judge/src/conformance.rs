//! The conformance list: encodings and the original's answers, in a form that any program can be
//! tried with. conformance/README.md describes it.

use std::collections::HashSet;
use std::io::{BufRead, BufWriter, Write};

use crate::answer;
use crate::encoding::{
    BT709, Curve, DCI_CURVE, Encoding, GAMMA, GRAY, LINEAR, OWN, Primaries, SRGB_CURVE, White,
};
use crate::inputs::Random;
use crate::inputs::colours::{exact_determinant, named_primaries};
use crate::inputs::encodings::{self, SRGB};
use crate::leaves;
use crate::list::hex;

/// The encodings of the list, adapted gray aside, and those of adapted gray, which stand behind them.
const COUNT: usize = 3600;
const ADAPTED: usize = 150;

/// Bytes of an output that is long enough for every profile.
const ROOM: usize = 1200;

/// An encoding, and the number of bytes of the output.
#[derive(Clone, Copy, PartialEq, Eq, Hash)]
struct Case {
    room: usize,
    encoding: Encoding,
}

/// Cases of one subject. Of the profiles of some groups the list has every byte.
struct Group {
    name: &'static str,
    whole: bool,
    cases: Vec<Case>,
}

fn group(name: &'static str, whole: bool, encodings: Vec<Encoding>) -> Group {
    let cases = encodings.into_iter().map(roomy).collect();
    Group { name, whole, cases }
}

fn roomy(encoding: Encoding) -> Case {
    let room = ROOM;
    Case { room, encoding }
}

/// The whole list: each group under a line with its name.
pub fn list(seed: u64) -> String {
    let mut text = format!(
        "# Encodings and what the Rust answers; conformance/README.md has the form. Made by: judge conformance {seed}\n"
    );
    let mut seen = HashSet::new();
    for group in groups(seed) {
        text += &format!("# {}\n", group.name);
        for case in group.cases {
            if seen.insert(case) {
                text += &format!("{} = {}\n", case.line(), case.answer_line(group.whole));
            }
        }
    }
    text
}

/// Answers to cases on standard input, one a line: the profile in hexadecimal, or the refusal.
pub fn answer_all() -> Result<(), String> {
    let mut out = BufWriter::new(std::io::stdout().lock());
    for line in std::io::stdin().lock().lines() {
        let line = line.map_err(|error| error.to_string())?;
        let case = Case::of_line(&line).ok_or(format!("no encoding: {line}"))?;
        let said = match case.answer() {
            Ok(profile) => hex(&profile),
            Err(refusal) => format!("refused {refusal}"),
        };
        writeln!(out, "{said}").map_err(|error| error.to_string())?;
    }
    out.flush().map_err(|error| error.to_string())
}

impl Case {
    /// The profile, or the refusal. 43 is tested first.
    fn answer(&self) -> Result<Vec<u8>, u32> {
        self.encoding.original().ok_or(43u32)?;
        answer::profile_within(&self.encoding, self.room)
    }

    fn answer_line(&self, whole: bool) -> String {
        match self.answer() {
            Err(refusal) => format!("refused {refusal}"),
            Ok(profile) if whole => format!("{} bytes {}", profile.len(), hex(&profile)),
            Ok(profile) => format!("{} md5 {}", profile.len(), hex(&leaves::md5(&profile))),
        }
    }

    fn line(&self) -> String {
        let Encoding {
            white,
            primaries,
            curve,
            intent,
            ..
        } = self.encoding;
        let kind = self.encoding.section();
        let xy = primaries.xy.map(|bits| format!("{bits:08x}")).join(" ");
        format!(
            "{} {kind} {} {:08x} {:08x} {} {xy} {} {:08x} {intent}",
            self.room, white.kind, white.wx, white.wy, primaries.kind, curve.kind, curve.gamma
        )
    }

    fn of_line(line: &str) -> Option<Self> {
        let fields: Vec<&str> = line.split(' ').collect();
        let [
            room,
            kind,
            white,
            wx,
            wy,
            primaries,
            xy @ ..,
            curve,
            gamma,
            intent,
        ] = &fields[..]
        else {
            return None;
        };
        let number = |field: &str| field.parse().ok();
        let bits = |field: &str| u32::from_str_radix(field, 16).ok();
        let xy: Option<Vec<u32>> = xy.iter().map(|field| bits(field)).collect();
        let (kind, adapted) = Encoding::kind_and_mark(number(kind)?);
        Some(Self {
            room: room.parse().ok()?,
            encoding: Encoding {
                kind,
                adapted,
                white: White {
                    kind: number(white)?,
                    wx: bits(wx)?,
                    wy: bits(wy)?,
                },
                primaries: Primaries {
                    kind: number(primaries)?,
                    xy: xy?.try_into().ok()?,
                },
                curve: Curve {
                    kind: number(curve)?,
                    gamma: bits(gamma)?,
                },
                intent: number(intent)?,
            },
        })
    }
}

fn groups(seed: u64) -> Vec<Group> {
    let mut all = vec![
        group("the examples of 01", true, examples()),
        group(
            "roundings, orders and widths: the inputs of docs/SUPPLIER.md",
            true,
            shown(),
        ),
        group("floats in a text", false, texts()),
        Group {
            name: "outputs of any length: 9 comes last",
            whole: false,
            cases: rooms(),
        },
        group("a kind, curve or intent without meaning", false, unknown()),
    ];
    for (name, encodings) in encodings::boundary_groups() {
        all.push(group(name, false, encodings));
    }
    let mut random = Random::new(seed);
    all.push(group(
        "primaries on one line through the white",
        false,
        (0..100)
            .map(|_| encodings::on_one_line(&mut random))
            .collect(),
    ));
    let mut seen: HashSet<Case> = all.iter().flat_map(|group| group.cases.clone()).collect();
    let mut cases = Vec::new();
    while seen.len() < COUNT {
        let case = any(&mut random);
        if seen.insert(case) {
            cases.push(case);
        }
    }
    all.push(Group {
        name: "random",
        whole: false,
        cases,
    });
    all.extend(adapted_groups(&mut random));
    all
}

/// Adapted gray: its profile of the first whole, then both sides of its boundaries, outputs about the
/// length, numbers without meaning, and random ones.
fn adapted_groups(random: &mut Random) -> [Group; 2] {
    let examples = group("gray adapted to D50: examples", true, adapted_examples());
    let mut cases: Vec<Case> = encodings::adapted().into_iter().map(roomy).collect();
    let named = Encoding::adapted_gray(White::named(0), SRGB, 1);
    cases.extend([0, 328, 383, 384, 385].map(|room| Case {
        room,
        encoding: named,
    }));
    let unknown = unknown().into_iter().filter(|one| one.kind == GRAY);
    let unknown = unknown.map(|one| Encoding {
        adapted: true,
        ..one
    });
    cases.extend(unknown.map(roomy));
    let mut seen: HashSet<Case> = examples.cases.iter().copied().collect();
    cases.retain(|case| seen.insert(*case));
    while seen.len() < ADAPTED {
        let adapted = encodings::any(random).to_adapted_gray();
        let case = adapted.map(|encoding| with_room(random, encoding));
        cases.extend(case.filter(|case| seen.insert(*case)));
    }
    let others = Group {
        name: "gray adapted to D50: boundaries, and random ones",
        whole: false,
        cases,
    };
    [examples, others]
}

/// D65 with each curve, and whites of the inputs of docs/SUPPLIER.md.
fn adapted_examples() -> Vec<Encoding> {
    let adapted = |one: Encoding| one.to_adapted_gray().expect("it has a white");
    let whites = shown_by_whites().into_iter().take(4).map(adapted);
    let curves = [SRGB_CURVE, BT709, LINEAR, DCI_CURVE].map(Curve::named);
    let curves = curves.into_iter().chain([Curve::gamma(0.5)]);
    curves
        .map(|curve| Encoding::adapted_gray(White::named(0), curve, 1))
        .chain(whites)
        .collect()
}

/// One at random.
fn any(random: &mut Random) -> Case {
    let encoding = encodings::any(random);
    with_room(random, encoding)
}

/// One output in eight is about as long as the profile, or of any length.
fn with_room(random: &mut Random, encoding: Encoding) -> Case {
    let length = answer::profile(&encoding).map_or(0, |profile| profile.len());
    let room = match random.below(32) {
        0 => length.saturating_sub(1),
        1 => length,
        2 => length + 1,
        3 => random.below(ROOM as u32) as usize,
        _ => ROOM,
    };
    Case { room, encoding }
}

fn rgb(primaries: u8, curve: Curve, intent: u8) -> Encoding {
    Encoding::rgb(White::named(0), Primaries::named(primaries), curve, intent)
}

fn own_gray(wx: f32, wy: f32) -> Encoding {
    Encoding::gray(White::own(wx, wy), SRGB, 1)
}

/// Those of 01 that are encodings; 9 is among the outputs of any length.
fn examples() -> Vec<Encoding> {
    let [rx, ry, _, _, bx, by] = named_primaries()[0];
    let red_twice = Primaries::own([rx, ry, rx, ry, bx, by]);
    let own_white = |wx, wy| Encoding::rgb(White::own(wx, wy), Primaries::named(0), SRGB, 0);
    let mut all = vec![
        rgb(0, SRGB, 0),
        rgb(0, SRGB, 1),
        Encoding::gray(White::named(0), SRGB, 1),
        Encoding::xyb(0),
        Encoding::xyb(1),
        own_white(0.0, 1.0),
        own_gray(0.3, 0.0),
        own_white(0.3, 0.0),
        own_gray(0.0, 1e-12),
        Encoding::rgb(White::named(0), red_twice, SRGB, 0),
    ];
    for gamma in [0.0, 1.0 / 32768.0, f32::INFINITY] {
        all.push(rgb(0, Curve::gamma(gamma), 0));
        all.push(Encoding::gray(White::named(0), Curve::gamma(gamma), 0));
    }
    all
}

/// Each shows in its profile, or in its refusal, how a step is rounded, in which order it is taken
/// or in which width: docs/SUPPLIER.md says which, by their places here.
fn shown() -> Vec<Encoding> {
    let gray =
        |wx, wy, curve, intent| Encoding::gray(White::own(wx, wy), Curve::named(curve), intent);
    let mut all = shown_by_whites();
    all.extend(shown_by_primaries());
    all.extend([
        gray(0.727, 0.0111, LINEAR, 3),
        gray(0.771, 0.018, BT709, 3),
        gray(0.349, 0.0981, LINEAR, 2),
        Encoding::gray(White::named(0), Curve::gamma(0.299_281_9), 0),
        // a text of nine letters
        rgb(2, SRGB, 0),
    ]);
    all
}

/// RGB with a white of its own, or none, and named primaries.
fn shown_by_whites() -> Vec<Encoding> {
    let white = |wx: u32, wy: u32, primaries: u8, curve: u8, intent: u8| {
        let white = White { kind: OWN, wx, wy };
        let curve = Curve::named(curve);
        Encoding::rgb(white, Primaries::named(primaries), curve, intent)
    };
    vec![
        // 0.3113, 0.7
        white(0x3e9f_62b7, 0x3f33_3333, 1, SRGB_CURVE, 1),
        white(0x274a_c7b4, 0x3f6f_fd61, 0, SRGB_CURVE, 0),
        white(0x3eeb_501a, 0x3e46_a232, 1, SRGB_CURVE, 0),
        // 0.0404, 0.276604
        white(0x3d25_7a78, 0x3e8d_9f0a, 2, SRGB_CURVE, 0),
        // 0, the least positive f32
        white(0, 1, 0, SRGB_CURVE, 0),
        white(0x3a39_1c00, 0x3ec0_4627, 0, SRGB_CURVE, 0),
        // 0.3127, 1
        white(0x3ea0_1a37, 0x3f80_0000, 0, SRGB_CURVE, 0),
        // 0, 0.329
        white(0, 0x3ea8_72b0, 0, SRGB_CURVE, 0),
        // 0.925, 0.56
        white(0x3f6c_cccd, 0x3f0f_5c29, 2, LINEAR, 1),
        Encoding::rgb(White::named(1), Primaries::named(2), Curve::named(BT709), 0),
    ]
}

/// RGB with primaries of its own.
fn shown_by_primaries() -> Vec<Encoding> {
    let own = |wx: f32, wy: f32, xy: [f32; 6]| {
        Encoding::rgb(White::own(wx, wy), Primaries::own(xy), SRGB, 2)
    };
    let bits = |wx: u32, wy: u32, xy: [u32; 6]| {
        let (white, primaries) = (White { kind: OWN, wx, wy }, Primaries { kind: OWN, xy });
        Encoding::rgb(white, primaries, SRGB, 0)
    };
    vec![
        own(0.3125, 0.34375, [0.125, 0.0, 0.5, 0.6875, 0.125, 1e-11]),
        own(0.3127, 0.329, [0.0, 0.0, 0.6254, 0.658, 0.0, 1e-11]),
        own(0.314, 0.351, [0.428, 0.702, 0.2, 1e-11, 0.2, 0.0]),
        own(0.314, 0.351, [0.2, 0.0, 0.428, 0.702, 0.2, 1e-11]),
        own(
            0.314,
            0.351,
            [0.2, 0.0, 0.428, 0.702, 0.2, -4.385_952_5e-12],
        ),
        // the determinant is 1e-12 exactly
        own(0.25, 0.25, exact_determinant(1e-12)),
        bits(
            0x2382_733a,
            0x3ec1_a75d,
            [
                0x3e94_af4f,
                0xbeae_06d9,
                0x3f6b_f488,
                0x3f4b_d8e0,
                0x3f2d_7732,
                0xbee8_9a02,
            ],
        ),
        bits(
            0x2fc3_0f48,
            0x3ec0_fcf8,
            [
                0x3f76_45a2,
                0xbfff_be77,
                0x3f7e_b852,
                0xc005_1eb8,
                0x3f49_78d5,
                0xbfc8_c3a0,
            ],
        ),
    ]
}

/// Gray whites and gammas that print so that rounding, sign or length shows.
fn texts() -> Vec<Encoding> {
    let mut floats: Vec<f32> = [1.0, 3.0, 5.0, 7.0].map(|n: f32| n / 256.0).into();
    floats.extend([-0.0, -1e-9, 0.1, 0.999_999_97, 1.000_000_1, 9.999_999]);
    floats.extend([8_388_607.5, 16_777_216.0, 1e10, 3.402_823_5e38, -1.2e38]);
    floats.extend([f32::INFINITY, f32::NEG_INFINITY, f32::NAN]);
    let mut all = Vec::new();
    for x in floats {
        all.push(Encoding::gray(White::own(x, 0.5), SRGB, 0));
        all.push(Encoding::gray(White::own(0.25, x), SRGB, 0));
        all.push(Encoding::gray(White::named(1), Curve::gamma(x), 0));
        all.push(rgb(1, Curve::gamma(x), 3));
    }
    all
}

/// Around the length of the profile, and none; also of encodings that are refused by another number.
fn rooms() -> Vec<Case> {
    let mut all = Vec::new();
    let mut encodings = examples();
    encodings.push(rgb(1, Curve::named(3), 1));
    for encoding in encodings {
        let length = answer::profile(&encoding).map_or(504, |profile| profile.len());
        for room in [0, 128, length - 1, length, length + 1] {
            all.push(Case { room, encoding });
        }
    }
    all
}

/// A number past its list, in each place; unused floats and the numbers that a kind does not have hold
/// anything.
fn unknown() -> Vec<Encoding> {
    let mut random = Random::new(0);
    let mut all = Vec::new();
    for past in [1, 2, 100] {
        let mut white = rgb(0, SRGB, 0);
        white.white.kind = 3 + past;
        let mut primaries = rgb(0, SRGB, 0);
        primaries.primaries.kind = 3 + past;
        let mut curve = rgb(0, SRGB, 0);
        curve.curve.kind = GAMMA + past;
        let mut intent = rgb(0, SRGB, 0);
        intent.intent = 3 + past;
        for encoding in [white, primaries, curve, intent] {
            let gray = Encoding {
                kind: 1,
                ..encoding
            };
            let xyb = Encoding {
                kind: 3,
                ..encoding
            };
            all.extend([encoding, gray, xyb]);
        }
    }
    for mut encoding in all.clone() {
        encodings::fill_unused(|| random.bits32(), &mut encoding);
        encoding.intent = encoding.intent.max(random.below(4) as u8);
        all.push(encoding);
    }
    all
}
