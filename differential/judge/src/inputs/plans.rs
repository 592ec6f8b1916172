//! Profiles for the reader: what the original writes, and plans that no encoding leads to.

use super::random::Random;
use super::{below, devices, encodings};
use crate::answer;
use crate::encoding::{GAMMA, GRAY, RGB, XYB};
use crate::profiles::Sheet;
use crate::reader::{self, LARGEST, Plan};

/// Numbers at the ends of a free number's range, inside and outside.
pub const ENDS: [i32; 8] = [
    LARGEST,
    LARGEST + 1,
    -LARGEST,
    -LARGEST - 1,
    i32::MAX,
    i32::MIN,
    i32::MIN + 1,
    LARGEST - 1,
];

pub const NAMED: [u8; 4] = [0, 1, 2, 4];
pub const PRIMARIES: [u8; 4] = [1, 9, 11, 12];

/// A number in range.
pub fn number(random: &mut Random) -> i32 {
    match random.below(8) {
        0 => random.pick(&[LARGEST, -LARGEST, LARGEST - 1, 1 - LARGEST]),
        1 => random.pick(&[0, 1, -1, 65536, 63190, 54061]),
        2 => (random.bits32() >> (1 + random.below(31))) as i32,
        3 => -((random.bits32() >> (1 + random.below(31))) as i32),
        _ => random.bits32() as i32,
    }
    .clamp(-LARGEST, LARGEST)
}

/// Letters of 0 to 127, NUL among them.
pub fn text(random: &mut Random, letters: usize) -> Vec<u8> {
    match random.below(4) {
        0 => vec![random.pick(&[0, 1, 127, b'a']); letters],
        _ => (0..letters).map(|_| random.below(128) as u8).collect(),
    }
}

/// A plan of a kind with a text of some letters; `gamma` and `cicp` say which curve and whether
/// the tag is there. Maker and model are any.
pub fn of_shape(random: &mut Random, kind: u8, letters: usize, gamma: bool, cicp: bool) -> Plan {
    let mut apart = random.apart();
    let mut plan = Plan {
        kind,
        device: devices::or_zeros(&mut apart),
        ..Plan::default()
    };
    if kind == XYB {
        plan.intent = apart.below(4);
        return plan;
    }
    plan.intent = random.below(4);
    plan.text = text(random, letters);
    plan.curve = if gamma { GAMMA } else { random.pick(&NAMED) };
    if gamma {
        plan.gamma = number(random);
    }
    if kind == GRAY {
        plan.white = [0; 2].map(|_| number(random));
        return plan;
    }
    plan.chad = [0; 9].map(|_| number(random));
    plan.columns = [0; 9].map(|_| number(random));
    if cicp {
        plan.cicp = random.pick(&PRIMARIES);
    }
    plan
}

/// The gray plan adapted to D50: with nine numbers of `chad` in place of X and Z.
pub fn adapted(random: &mut Random, gray: Plan) -> Plan {
    Plan {
        adapted: true,
        white: [0; 2],
        chad: [0; 9].map(|_| number(random)),
        ..gray
    }
}

/// Half of the gray plans are adapted.
pub fn half_adapted(random: &mut Random, plan: Plan) -> Plan {
    match plan.kind {
        GRAY if random.percent(50) => adapted(random, plan),
        _ => plan,
    }
}

/// Any plan.
pub fn plan(random: &mut Random) -> Plan {
    let mut own = Random::new(random.apart().bits64());
    let kind = match random.below(20) {
        0 => XYB,
        1..8 => GRAY,
        _ => RGB,
    };
    let letters = match random.below(4) {
        0 => random.pick(&[1, 2, 3, 4, 371, 372]),
        1 => 1 + below(random, 372),
        _ => 1 + below(random, 40),
    };
    let gamma = random.percent(40);
    let cicp = !gamma && random.percent(60);
    let plan = of_shape(random, kind, letters, gamma, cicp);
    half_adapted(&mut own, plan)
}

/// A profile that the original writes. Of the gray ones half are adapted, where that is written too.
pub fn written_file(random: &mut Random) -> Vec<u8> {
    let mut own = Random::new(random.apart().bits64());
    loop {
        let encoding = encodings::any(random);
        let Ok(file) = answer::profile(&encoding) else {
            continue;
        };
        let adapted = encoding.kind == GRAY && own.percent(50);
        let adapted = encoding.to_adapted_gray().filter(|_| adapted);
        let adapted = adapted.and_then(|one| answer::profile(&one).ok());
        return adapted.unwrap_or(file);
    }
}

/// The plan of such a profile.
///
/// # Panics
/// If the judge's reader refuses it, or does not lay out to it: then the judge is wrong.
pub fn written(random: &mut Random) -> Plan {
    let file = written_file(random);
    let plan = reader::read(&file).expect("the original's profiles are accepted");
    assert!(
        Sheet::of(&plan).bytes() == file,
        "{plan:?} lays out otherwise"
    );
    plan
}
