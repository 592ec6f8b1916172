//! Damaged profiles in order: every byte, every length, every field of one profile of each shape.

use super::damage::{get, length_fields, put};
use super::devices;
use super::plans::{self, ENDS, NAMED, PRIMARIES};
use super::random::Random;
use crate::encoding::{Device, Encoding, GAMMA, GRAY, RGB, White, XYB};
use crate::inputs::encodings::SRGB;
use crate::profiles::{self, Sheet, Tag, change_id, cicp, numbers, set_id, set_size, zero_id};
use crate::reader::Plan;
use crate::{answer, reader};

/// Kind, gamma and `cicp` of every shape but those of XYB and adapted gray.
const SHAPES: [(u8, bool, bool); 5] = [
    (GRAY, false, false),
    (GRAY, true, false),
    (RGB, false, false),
    (RGB, false, true),
    (RGB, true, false),
];

/// Maker and model of the cases that have any. The eight bytes all differ, and none is zero.
const DEVICE: Device = Device {
    maker: 0x6d61_6b72,
    model: 0xff80_017f,
};

/// All cases, with maker and model zero, and the same files again with others. After each file whose
/// id is right comes the same with zeros in place of the id. Numbers and texts follow from the seed.
pub fn cases(random: &mut Random) -> Vec<Vec<u8>> {
    let mut again = random.clone();
    let mut files = Vec::new();
    cases_of(random, Device::default(), &mut files);
    cases_of(&mut again, DEVICE, &mut files);
    let with_zeros = |file: Vec<u8>| {
        let zeros = id_is_right(&file).then(|| without_id(&file));
        std::iter::once(file).chain(zeros)
    };
    files.into_iter().flat_map(with_zeros).collect()
}

fn id_is_right(file: &[u8]) -> bool {
    file.len() >= 100 && file[84..100] == reader::id(file)
}

fn without_id(file: &[u8]) -> Vec<u8> {
    let mut file = file.to_vec();
    zero_id(&mut file);
    file
}

fn cases_of(random: &mut Random, device: Device, files: &mut Vec<Vec<u8>>) {
    let mut own = Random::new(random.apart().bits64());
    for plan in bases(random) {
        cases_of_plan(random, &Plan { device, ..plan }, files);
    }
    for plan in adapted_bases(&mut own) {
        let plan = Plan { device, ..plan };
        cases_of_plan(&mut own, &plan, files);
        whites(&plan, files);
        chads(&plan, files);
    }
}

fn cases_of_plan(random: &mut Random, plan: &Plan, files: &mut Vec<Vec<u8>>) {
    let file = Sheet::of(plan).bytes();
    files.push(file.clone());
    every_byte(&file, files);
    every_length(&file, files);
    length_fields_changed(&file, files);
    lines_exchanged(&file, files);
    headers(&file, files);
    ids(&file, files);
    if plan.kind == XYB {
        names_mixed(plan, files);
    } else {
        text_lengths(random, plan, files);
        free_numbers(plan, files);
    }
    transfers(plan, files);
}

/// A plan of each shape, of XYB one for each intent; and the plan of sRGB as it is written.
fn bases(random: &mut Random) -> Vec<Plan> {
    let mut all = Vec::new();
    for (letters, (kind, gamma, cicp)) in (1..).zip(SHAPES) {
        all.push(plans::of_shape(random, kind, letters, gamma, cicp));
    }
    let xyb = plans::of_shape(random, XYB, 0, false, false);
    let of_intent = |intent| Plan {
        intent,
        ..xyb.clone()
    };
    all.extend((0..4).map(of_intent));
    let srgb = Encoding::rgb(White::named(0), Default::default(), SRGB, 0);
    all.push(written(&srgb));
    all
}

/// A plan of each shape of adapted gray, and that of D65 as it is written.
fn adapted_bases(random: &mut Random) -> [Plan; 3] {
    let [named, gamma] = [(6, false), (7, true)].map(|(letters, gamma)| {
        let gray = plans::of_shape(random, GRAY, letters, gamma, false);
        plans::adapted(random, gray)
    });
    let d65 = Encoding::adapted_gray(White::named(0), SRGB, 1);
    [named, gamma, written(&d65)]
}

fn written(encoding: &Encoding) -> Plan {
    let file = answer::profile(encoding).expect("accepted");
    reader::read(&file).expect("accepted")
}

/// The file with its old id, and with the one that is due.
fn with_both_ids(mut file: Vec<u8>, files: &mut Vec<Vec<u8>>) {
    files.push(file.clone());
    set_id(&mut file);
    files.push(file);
}

fn every_byte(file: &[u8], files: &mut Vec<Vec<u8>>) {
    for at in 0..file.len() {
        let old = file[at];
        for value in [old.wrapping_add(1), old ^ 0x80, 255 - old] {
            let mut changed = file.to_vec();
            changed[at] = value;
            with_both_ids(changed, files);
        }
    }
}

/// Every early end, and up to 12 bytes too many; the size field follows or not.
fn every_length(file: &[u8], files: &mut Vec<Vec<u8>>) {
    for length in 0..=file.len() + 12 {
        let mut changed = file.to_vec();
        changed.resize(length, 0);
        files.push(changed.clone());
        set_size(&mut changed);
        with_both_ids(changed, files);
    }
}

fn length_fields_changed(file: &[u8], files: &mut Vec<Vec<u8>>) {
    for at in length_fields(file) {
        let old = get(file, at).expect("inside");
        let all = [1, 2, 3, 4, 8, 12, 1 << 8, 1 << 16, 1 << 24, 1 << 31];
        let near = all
            .iter()
            .flat_map(|by| [old.wrapping_add(*by), old.wrapping_sub(*by)]);
        for value in near.chain([0, file.len() as u32, u32::MAX]) {
            let mut changed = file.to_vec();
            put(&mut changed, at, value);
            with_both_ids(changed, files);
        }
    }
}

/// Every two lines of the table exchanged: whole, and their signatures, offsets and sizes.
fn lines_exchanged(file: &[u8], files: &mut Vec<Vec<u8>>) {
    let lines = get(file, 128).expect("inside") as usize;
    for (a, b) in (0..lines).flat_map(|b| (0..b).map(move |a| (a, b))) {
        for part in [0..12, 0..4, 4..8, 8..12] {
            let mut changed = file.to_vec();
            for at in part {
                changed.swap(132 + 12 * a + at, 132 + 12 * b + at);
            }
            set_id(&mut changed);
            files.push(changed);
        }
    }
}

/// Makers and models, intents, classes and spaces.
fn headers(file: &[u8], files: &mut Vec<Vec<u8>>) {
    for device in devices::cases() {
        let mut changed = file.to_vec();
        put(&mut changed, 48, device.maker);
        put(&mut changed, 52, device.model);
        with_both_ids(changed, files);
    }
    for intent in [
        0,
        1,
        2,
        3,
        4,
        5,
        255,
        256,
        1 << 16,
        1 << 24,
        1 << 31,
        u32::MAX,
    ] {
        let mut changed = file.to_vec();
        put(&mut changed, 64, intent);
        with_both_ids(changed, files);
    }
    for class in [b"mntr", b"scnr", b"prtr", b"spac"] {
        for space in [b"GRAY", b"RGB ", b"CMYK", b"Lab "] {
            let mut changed = file.to_vec();
            changed[12..16].copy_from_slice(class);
            changed[16..20].copy_from_slice(space);
            with_both_ids(changed, files);
        }
    }
}

/// Each bit of the id changed, and each set where zeros stand in its place.
fn ids(file: &[u8], files: &mut Vec<Vec<u8>>) {
    for bit in 0..128 {
        for mut changed in [file.to_vec(), without_id(file)] {
            change_id(&mut changed, bit);
            files.push(changed);
        }
    }
}

/// XYB with every text whose last three letters each have their place in the short name of an intent:
/// its own, those of the three others, and 44 that no plan has.
fn names_mixed(plan: &Plan, files: &mut Vec<Vec<u8>>) {
    for first in *b"PRSA" {
        for second in *b"eab" {
            for third in *b"rlts" {
                let text = [b'X', b'Y', b'B', b'_', first, second, third];
                let mut sheet = Sheet::of(plan);
                sheet.tags[0].element = Some(profiles::text(&text.map(u16::from)));
                files.push(sheet.bytes());
            }
        }
    }
}

/// Texts of 0 to 374 letters with all that follows from their length; and a letter past 127.
fn text_lengths(random: &mut Random, plan: &Plan, files: &mut Vec<Vec<u8>>) {
    for letters in 0..=374 {
        let mut other = plan.clone();
        other.text = plans::text(random, letters);
        files.push(Sheet::of(&other).bytes());
        let mut sheet = Sheet::of(&other);
        let mut text: Vec<u16> = other.text.iter().copied().map(u16::from).collect();
        if let Some(last) = text.last_mut() {
            *last = random.pick(&[127, 128, 255, 256, 0x100 + *last]);
            sheet.tags[0].element = Some(profiles::text(&text));
            files.push(sheet.bytes());
        }
    }
}

/// Each free number at the ends of its range and of 32 bits.
fn free_numbers(plan: &Plan, files: &mut Vec<Vec<u8>>) {
    for value in ENDS.into_iter().chain([0, -1]) {
        let mut add = |change: &dyn Fn(&mut Plan)| {
            let mut other = plan.clone();
            change(&mut other);
            files.push(Sheet::of(&other).bytes());
        };
        if plan.curve == GAMMA {
            add(&|other| other.gamma = value);
        }
        if plan.kind == GRAY && !plan.adapted {
            (0..2).for_each(|at| add(&|other| other.white[at] = value));
            continue;
        }
        for at in 0..9 {
            add(&|other| other.chad[at] = value);
            if plan.kind == RGB {
                add(&|other| other.columns[at] = value);
            }
        }
    }
}

/// Adapted gray with a `wtpt` that is not D50, and the same without its `chad`, which is gray of that
/// white. D50 itself stands among them.
fn whites(plan: &Plan, files: &mut Vec<Vec<u8>>) {
    let d50 = profiles::d50();
    let beside = (0..3).flat_map(|at| [-1, 1].map(|by| (at, by)));
    let beside = beside.map(|(at, by)| {
        let mut white = d50;
        white[at] += by;
        white
    });
    // That of D65, that of the adaptation, and D50 in another order.
    let others = [
        [62289, 65536, 71372],
        [63191, 65536, 54081],
        [54061, 65536, 63190],
        [0; 3],
        d50,
    ];
    for white in beside.chain(others) {
        let mut sheet = Sheet::of(plan);
        sheet.tags[2].element = Some(numbers(b"XYZ ", &white));
        files.push(sheet.bytes());
        sheet.tags.remove(3);
        files.push(sheet.bytes());
    }
}

/// Adapted gray with a `chad` of another type, size or name, in each other place, twice, or naming the
/// element of another tag.
fn chads(plan: &Plan, files: &mut Vec<Vec<u8>>) {
    let sheet = Sheet::of(plan);
    let mut add = |change: &dyn Fn(&mut Vec<Tag>)| {
        let mut other = sheet.clone();
        change(&mut other.tags);
        files.push(other.bytes());
    };
    for kind in [b"XYZ ", b"sf3\0", b"SF32", b"para", b"mluc", b"chad"] {
        add(&|tags| tags[3].element = Some(numbers(kind, &plan.chad)));
    }
    for numbers_of_chad in [0, 1, 3, 6, 8, 10, 18] {
        let numbers_of_chad = vec![1; numbers_of_chad];
        add(&|tags| tags[3].element = Some(numbers(b"sf32", &numbers_of_chad)));
    }
    for name in [
        b"CHAD", b"chaD", b"cicp", b"rXYZ", b"wtpt", b"kTRC", b"rTRC", b"A2B0",
    ] {
        add(&|tags| tags[3].signature = *name);
    }
    for place in [0, 1, 2, 4] {
        add(&|tags| {
            let chad = tags.remove(3);
            tags.insert(place, chad);
        });
    }
    for tag in 1..5 {
        add(&|tags| tags[tag].element = None);
        add(&|tags| tags.insert(tag, tags[3].clone()));
    }
}

/// `cicp` with every primaries value and every transfer value, beside every curve.
fn transfers(plan: &Plan, files: &mut Vec<Vec<u8>>) {
    let with = |plan: &Plan, primaries: u8, transfer: u8| {
        let mut sheet = Sheet::of(&Plan {
            cicp: 0,
            ..plan.clone()
        });
        let place = sheet.tags.len().min(4);
        sheet.tags.insert(place, cicp(primaries, transfer));
        sheet.bytes()
    };
    if plan.kind != RGB {
        files.extend(PRIMARIES.map(|primaries| with(plan, primaries, 13)));
        return;
    }
    for curve in NAMED.into_iter().chain([GAMMA]) {
        let plan = Plan {
            curve,
            ..plan.clone()
        };
        for value in 0..=255 {
            files.push(with(&plan, value, profiles::transfer(curve)));
            files.push(with(&plan, PRIMARIES[usize::from(value) % 4], value));
        }
    }
}
