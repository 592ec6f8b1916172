//! The examples of the scope ("Sheets to try") that concern the writer and jobs, and the numbers of the layout, each
//! tried against the original.

use crate::answer;
use crate::encoding::{Curve, Encoding, Primaries, White};
use crate::inputs::colours::{self, named_primaries};
use crate::inputs::encodings::SRGB;
use crate::inputs::job_cases;
use crate::jobs;
use crate::leaves;
use crate::list::hex;
use crate::profiles;

/// RFC 1321's test messages and their digests, appendix A.5.
pub const RFC_1321: [(&str, &str); 7] = [
    ("", "d41d8cd98f00b204e9800998ecf8427e"),
    ("a", "0cc175b9c0f1b6a831c399e269772661"),
    ("abc", "900150983cd24fb0d6963f7d28e17f72"),
    ("message digest", "f96b697d7cb7938d525a2f31aaf161d0"),
    (
        "abcdefghijklmnopqrstuvwxyz",
        "c3fcd3d76192e4007dfb496cca67e13b",
    ),
    (
        "ABCDEFGHIJKLMNOPQRSTUVWXYZabcdefghijklmnopqrstuvwxyz0123456789",
        "d174ab98d277d9f5a5611c2c9f419d9f",
    ),
    (
        "12345678901234567890123456789012345678901234567890123456789012345678901234567890",
        "57edf4a22be3c955ac49da2e2107b67a",
    ),
];

/// One number of the scope, and what the original gives.
pub struct Example {
    pub name: String,
    pub expected: String,
    pub found: String,
}

impl Example {
    fn new(name: &str, expected: &str, found: String) -> Self {
        Self {
            name: name.to_string(),
            expected: expected.to_string(),
            found,
        }
    }

    pub fn holds(&self) -> bool {
        self.expected == self.found
    }
}

/// All of them, in the order of the scope.
pub fn all() -> Vec<Example> {
    let mut all = fixed_numbers();
    all.extend(texts());
    all.extend(profiles());
    all.extend(intents_of_xyb());
    all.extend(adapted_gray());
    all.extend(gammas());
    all.extend(layout());
    all.extend(curves());
    all.extend(vectors());
    all.extend(listings());
    all
}

fn srgb(intent: u8) -> Encoding {
    Encoding::rgb(White::named(0), Primaries::named(0), SRGB, intent)
}

fn own_white(wx: f32, wy: f32) -> Encoding {
    Encoding::rgb(White::own(wx, wy), Primaries::named(0), SRGB, 0)
}

fn own_gray(wx: f32, wy: f32) -> Encoding {
    Encoding::gray(White::own(wx, wy), SRGB, 1)
}

fn fixed_numbers() -> Vec<Example> {
    #[allow(clippy::excessive_precision)]
    let limit = 32_767.994_140_625_f32;
    let two_to_minus_17 = 2f32.powi(-17);
    let tried = [
        ("fixed number of 1.0", 1.0, "65536"),
        ("fixed number of 32767.994140625", limit, "2147483264"),
        (
            "fixed number of the next float up",
            limit.next_up(),
            "refused",
        ),
        ("fixed number of two to the -17", two_to_minus_17, "1"),
        ("fixed number of minus that", -two_to_minus_17, "-1"),
        ("fixed number of 2.4", 2.4, "157286"),
    ];
    let found = |x: f32| match leaves::fixed(x.to_bits()) {
        Some(number) => number.to_string(),
        None => "refused".to_string(),
    };
    tried
        .map(|(name, x, expected)| Example::new(name, expected, found(x)))
        .into()
}

fn texts() -> Vec<Example> {
    let tried = [
        ("1/256 prints", 1.0 / 256.0, "0.0039062"),
        ("3/256 prints", 3.0 / 256.0, "0.0117188"),
        ("-0 prints", -0.0f32, "-0.0000000"),
    ];
    tried
        .map(|(name, x, expected)| Example::new(name, expected, leaves::text(x.to_bits())))
        .into()
}

/// An encoding of the scope: its name, the length of the output if it matters, and the length or
/// refusal that the scope gives.
pub struct Run {
    pub name: &'static str,
    pub encoding: Encoding,
    pub room: Option<u32>,
    pub number: u32,
}

impl Run {
    fn new(name: &'static str, encoding: Encoding, number: u32) -> Self {
        Self {
            name,
            encoding,
            room: None,
            number,
        }
    }

    fn example(self) -> Example {
        let room = self.room.map_or(usize::MAX, |room| room as usize);
        let found = match answer::profile_within(&self.encoding, room) {
            Ok(profile) => profile.len() as u32,
            Err(refusal) => refusal,
        };
        Example::new(self.name, &self.number.to_string(), found.to_string())
    }
}

/// The examples that are run and not proved; the fixed list has them too.
pub fn run() -> Vec<Run> {
    let [rx, ry, _, _, bx, by] = named_primaries()[0];
    let red_twice = Primaries::own([rx, ry, rx, ry, bx, by]);
    let singular = Encoding::rgb(White::named(0), red_twice, SRGB, 0);
    let [small_rgb, small_gray] = gamma(1.0 / 32768.0);
    let [zero_rgb, zero_gray] = gamma(0.0);
    vec![
        Run::new(
            "RGB white (0, 1), SRGB, SRGB, Perceptual",
            own_white(0.0, 1.0),
            544,
        ),
        Run::new("gray with wy 0", own_gray(0.3, 0.0), 3),
        Run::new("RGB with wy 0", own_white(0.3, 0.0), 4),
        Run::new("gray (0, 1e-12)", own_gray(0.0, 1e-12), 7),
        Run::new("red put for green too, under D65", singular, 6),
        Run::new("RGB with gamma 0", zero_rgb, 8),
        Run::new("gray with gamma 0", zero_gray, 8),
        Run::new("RGB with gamma 1/32768", small_rgb, 8),
        Run::new("gray with gamma 1/32768", small_gray, 8),
        Run {
            room: Some(503),
            ..Run::new("output 503 for sRGB", srgb(0), 9)
        },
    ]
}

/// RGB and gray of a gamma.
fn gamma(g: f32) -> [Encoding; 2] {
    let white = White::named(0);
    let rgb = Encoding::rgb(white, Primaries::named(0), Curve::gamma(g), 0);
    [rgb, Encoding::gray(white, Curve::gamma(g), 0)]
}

/// The infinite gammas of the scope.
pub fn infinite_gammas() -> [Encoding; 2] {
    gamma(f32::INFINITY)
}

fn profiles() -> Vec<Example> {
    let mut tried = vec![
        Run::new("D65 SRGB SRGB Perceptual", srgb(0), 504),
        Run::new("D65 SRGB SRGB Relative", srgb(1), 536),
        Run::new(
            "gray D65 Relative SRGB",
            Encoding::gray(White::named(0), SRGB, 1),
            328,
        ),
        Run::new("XYB", Encoding::xyb(0), 720),
        Run::new("XYB Relative", Encoding::xyb(1), 720),
        Run::new("XYB Saturation", Encoding::xyb(2), 720),
        Run::new("XYB Absolute", Encoding::xyb(3), 720),
    ];
    tried.extend(run());
    let text = Example::new(
        "text of D65 SRGB SRGB Perceptual",
        "sRGB",
        answer::description(&srgb(0)),
    );
    std::iter::once(text)
        .chain(tried.into_iter().map(Run::example))
        .collect()
}

/// XYB of the intents that the original refuses, by the words of 02's order 8: the header's intent, the
/// text, and where the file differs from the Perceptual one, the id aside.
fn intents_of_xyb() -> Vec<Example> {
    let perceptual = profile(&Encoding::xyb(0));
    let mut all = Vec::new();
    for (intent, name, text, places) in [
        (1, "Relative", "XYB_Rel", "67 241 245"),
        (2, "Saturation", "XYB_Sat", "67 241 243 245"),
        (3, "Absolute", "XYB_Abs", "67 241 243 245"),
    ] {
        let file = profile(&Encoding::xyb(intent));
        let differs = |at: &usize| !(84..100).contains(at) && file[*at] != perceptual[*at];
        let differing: Vec<String> = (0..file.len())
            .filter(differs)
            .map(|at| at.to_string())
            .collect();
        let letters = element(&file, b"desc")[28..].chunks_exact(2);
        let letters = letters.map(|unit| char::from(unit[1])).collect();
        let byte = file[67].to_string();
        for (what, expected, found) in [
            ("byte 67", intent.to_string().as_str(), byte),
            ("text", text, letters),
            ("bytes changed", places, differing.join(" ")),
        ] {
            let name = format!("XYB {name}: {what}");
            all.push(Example::new(&name, expected, found));
        }
    }
    all
}

/// Gray adapted to D50, by the words of 02's order 9: lengths and refusals, tags, `wtpt`, the text of
/// the same gray without the mark, and `chad` of the RGB file of the same white.
fn adapted_gray() -> Vec<Example> {
    let unmarked = Encoding::gray(White::named(0), SRGB, 1);
    let marked = Encoding::adapted_gray(White::named(0), SRGB, 1);
    let mut all: Vec<Example> = adapted_runs().into_iter().map(Run::example).collect();
    let chad = |encoding: &Encoding| hex(element(&profile(encoding), b"chad"));
    for (what, expected, found) in [
        ("tags", "desc cprt wtpt chad kTRC", tags(&marked)),
        ("wtpt", "63190 65536 54061", fixed_of(&marked, b"wtpt", 8)),
        (
            "text",
            &answer::description(&unmarked),
            answer::description(&marked),
        ),
        ("chad", &chad(&srgb(1)), chad(&marked)),
    ] {
        all.push(Example::new(
            &format!("adapted gray: {what}"),
            expected,
            found,
        ));
    }
    all
}

/// Adapted gray: the length that 02's order 9 gives, outputs about it, and the refusals 4, 5 and 8.
pub fn adapted_runs() -> Vec<Run> {
    let own = |wx, wy| Encoding::adapted_gray(White::own(wx, wy), SRGB, 1);
    let named = Encoding::adapted_gray(White::named(0), SRGB, 1);
    let gamma = |g| Encoding::adapted_gray(White::named(0), Curve::gamma(g), 0);
    let by_a_line = own(0.3, colours::ZERO_LINES[1].wy(0.3));
    let within = |name, room, number| Run {
        room: Some(room),
        ..Run::new(name, named, number)
    };
    vec![
        Run::new("adapted gray D65 Relative SRGB", named, 384),
        within("the same, output 384", 384, 384),
        within("the same, output 383", 383, 9),
        Run::new("adapted gray with wy 0", own(0.3, 0.0), 4),
        Run::new("adapted gray with wx below 0", own(-0.1, 0.3), 4),
        // Its text has 31 letters, and that of D65 15.
        Run::new("adapted gray (0, 1e-12)", own(0.0, 1e-12), 384 + 2 * 16),
        Run::new("adapted gray with M about 0", by_a_line, 5),
        Run::new("adapted gray with gamma 0", gamma(0.0), 8),
        Run::new("adapted gray with gamma 1/32768", gamma(1.0 / 32768.0), 8),
    ]
}

fn gammas() -> Vec<Example> {
    let mut all = Vec::new();
    let both = [("RGB", b"rTRC"), ("gray", b"kTRC")];
    for ((kind, tag), encoding) in both.into_iter().zip(infinite_gammas()) {
        let name = format!("{kind} with an infinite gamma: number");
        all.push(Example::new(&name, "0", fixed_of(&encoding, tag, 12)));
        let name = format!("{kind} with an infinite gamma: end of the text");
        let text = answer::description(&encoding);
        all.push(Example::new(
            &name,
            "ginf",
            text[text.len() - 4..].to_string(),
        ));
    }
    all
}

/// The numbers of "The layout": sizes, the white of RGB and XYB, `cicp`, the id.
fn layout() -> Vec<Example> {
    let gamma = Encoding::rgb(White::named(0), Primaries::named(0), Curve::gamma(0.45), 0);
    let gray = Encoding::gray(White::named(0), SRGB, 1);
    let xyb = Encoding::xyb(0);
    let rgb = srgb(0);
    let white = "63190 65536 54061";
    let mut all = vec![
        Example::new(
            "tags of RGB",
            "desc cprt wtpt chad cicp rXYZ gXYZ bXYZ rTRC gTRC bTRC",
            tags(&rgb),
        ),
        Example::new(
            "tags of RGB with gamma",
            "desc cprt wtpt chad rXYZ gXYZ bXYZ rTRC gTRC bTRC",
            tags(&gamma),
        ),
        Example::new("tags of gray", "desc cprt wtpt kTRC", tags(&gray)),
        Example::new("tags of XYB", "desc cprt wtpt chad A2B0 B2A0", tags(&xyb)),
        Example::new("wtpt of RGB", white, fixed_of(&rgb, b"wtpt", 8)),
        Example::new("wtpt of XYB", white, fixed_of(&xyb, b"wtpt", 8)),
    ];
    for (encoding, tag, size) in [
        (&rgb, b"desc", "36"),
        (&rgb, b"cprt", "34"),
        (&rgb, b"wtpt", "20"),
        (&rgb, b"chad", "44"),
        (&rgb, b"cicp", "12"),
        (&rgb, b"rXYZ", "20"),
        (&rgb, b"rTRC", "32"),
        (&gamma, b"rTRC", "16"),
        (&xyb, b"A2B0", "292"),
        (&xyb, b"B2A0", "80"),
    ] {
        let name = format!("size of {}", String::from_utf8_lossy(tag));
        let found = element(&profile(encoding), tag).len().to_string();
        all.push(Example::new(&name, size, found));
    }
    for (white, primaries, expected) in [(0, 0, "01"), (0, 1, "09"), (0, 2, "0c"), (2, 2, "0b")] {
        for (curve, transfer) in [(0, "01"), (1, "08"), (2, "0d"), (4, "11")] {
            let curve = Curve::named(curve);
            let encoding =
                Encoding::rgb(White::named(white), Primaries::named(primaries), curve, 0);
            let name = format!(
                "cicp of white {white}, primaries {primaries}, curve {}",
                curve.kind
            );
            let found = hex(&element(&profile(&encoding), b"cicp")[8..]);
            all.push(Example::new(
                &name,
                &format!("{expected}{transfer}0001"),
                found,
            ));
        }
    }
    let mut file = profile(&srgb(3));
    let id = hex(&file[84..100]);
    for field in [44..48, 64..68, 84..100] {
        file[field].fill(0);
    }
    all.push(Example::new(
        "id of sRGB Absolute",
        &hex(&leaves::md5(&file)),
        id,
    ));
    all
}

/// The table of type 3 numbers.
fn curves() -> Vec<Example> {
    let tried = [
        ("numbers of SRGB", 2, "157286 62119 3417 5072 2651"),
        ("numbers of BT709", 0, "145636 59632 5904 14564 5308"),
        ("numbers of Linear", 1, "65536 65536 0 65536 0"),
        ("numbers of DCI", 4, "170394 65536 0 65536 0"),
    ];
    tried
        .map(|(name, curve, expected)| {
            let encoding = Encoding::gray(White::named(0), Curve::named(curve), 0);
            Example::new(name, expected, fixed_of(&encoding, b"kTRC", 12))
        })
        .into()
}

/// RFC 1321's test vectors.
fn vectors() -> Vec<Example> {
    let one = |(message, digest): (&str, &str)| {
        let name = format!("MD5 of \"{message}\"");
        Example::new(&name, digest, hex(&leaves::md5(message.as_bytes())))
    };
    RFC_1321.map(one).into()
}

/// The listing that the scope prints whole, its last line by 02's order 8, and the empty job.
fn listings() -> Vec<Example> {
    let job = job_cases::of_the_scope();
    let listing = |job: &[u8]| jobs::listing(&jobs::answer(job)).replace('\n', "/");
    vec![
        Example::new("bytes of the job", "44", job.len().to_string()),
        Example::new(
            "listing of the job, with / for each end of a line",
            "profiles 2/2 1 504/3 1 720/",
            listing(&job),
        ),
        Example::new("listing of an empty job", "job refused 41/", listing(&[])),
    ]
}

fn profile(encoding: &Encoding) -> Vec<u8> {
    answer::profile(encoding).expect("the encodings of the examples are accepted")
}

fn element<'a>(file: &'a [u8], tag: &[u8; 4]) -> &'a [u8] {
    profiles::element(file, tag).expect("the tags of the examples are present")
}

fn tags(encoding: &Encoding) -> String {
    let names: Vec<String> = profiles::table(&profile(encoding))
        .map(|entry| String::from_utf8_lossy(&entry.0).into_owned())
        .collect();
    names.join(" ")
}

/// The fixed numbers of an element, from a place in it on.
fn fixed_of(encoding: &Encoding, tag: &[u8; 4], from: usize) -> String {
    let file = profile(encoding);
    let numbers: Vec<String> = element(&file, tag)[from..]
        .chunks_exact(4)
        .map(|four| i32::from_be_bytes(four.try_into().expect("four bytes")).to_string())
        .collect();
    numbers.join(" ")
}
