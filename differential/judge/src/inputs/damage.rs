//! Faults in profiles: in the tags before they are laid out, and in the bytes after.

use super::plans::{self, ENDS, NAMED, PRIMARIES};
use super::random::Random;
use super::{below, byte, devices};
use crate::answer;
use crate::encoding::{Encoding, GRAY, XYB};
use crate::profiles::{
    self, Sheet, Tag, change_id, cicp, header, numbers, parametric, set_id, set_size, zero_id,
};
use crate::reader::Plan;

/// A file for the reader: three in ten are whole, the others have faults, one or several. In half of
/// them the id is made anew after the faults; in one of 24 a bit of it is changed; in some zeros take
/// its place. Of XYB some have another text, of gray some another white or `chad`, whatever else they
/// have.
pub fn file(random: &mut Random) -> Vec<u8> {
    let plan = match random.below(3) {
        0 => Plan {
            device: devices::or_zeros(&mut random.apart()),
            ..plans::written(random)
        },
        _ => plans::plan(random),
    };
    let mut sheet = Sheet::of(&plan);
    // Numbers of their own: those set apart here have made maker, model and intent of XYB.
    let mut own = Random::new(random.apart().bits64());
    match plan.kind {
        XYB => text_of_xyb(&mut own, &mut sheet),
        GRAY => white_of_gray(&mut own, &mut sheet),
        _ => {}
    }
    let (in_tags, in_bytes) = match random.below(20) {
        0..6 => (0, 0),
        6..11 => (1, 0),
        11..16 => (0, 1),
        16..18 => (1, 1),
        _ => (random.below(3), random.below(4)),
    };
    for _ in 0..in_tags {
        tags(random, &mut sheet);
    }
    let mut file = sheet.bytes();
    for _ in 0..in_bytes {
        bytes(random, &mut file);
    }
    let mut apart = random.apart();
    match random.below(24) {
        0 => change_id(&mut file, below(&mut apart, 128)),
        1..12 => {}
        _ => set_id(&mut file),
    }
    zero_some(random, &mut file);
    file
}

/// One file in four gets zeros in place of its id. The numbers are its own: of an XYB plan, those set
/// apart here may be the ones that made maker and model.
pub fn zero_some(random: &Random, file: &mut [u8]) {
    if Random::new(random.apart().bits64()).below(4) == 0 {
        zero_id(file);
    }
}

/// One fault before the tags are laid out, so that table and lengths fit each other.
fn tags(random: &mut Random, sheet: &mut Sheet) {
    match random.below(12) {
        0 => order(random, &mut sheet.tags),
        1 => letters(random, sheet),
        2 => cicp_beside(random, sheet),
        3 => class_and_space(random, sheet),
        4 => {
            let intent = random.pick(&[1, 2, 3, 4, 255, 256, 1 << 24, 0x0300_0000, u32::MAX]);
            sheet.header[64..68].copy_from_slice(&intent.to_be_bytes());
        }
        5 | 6 => number_at_an_end(random, sheet),
        7 => curve(random, sheet),
        8 => {
            let tag = below(random, sheet.tags.len());
            let names = [b"rTRC", b"kTRC", b"cicp", b"DESC", b"gXYZ", b"A2B1"];
            sheet.tags[tag].signature = *random.pick(&names);
        }
        9 => {
            let text = plans::text(random, 3).into_iter().map(u16::from);
            element(sheet, b"cprt", profiles::text(&text.collect::<Vec<_>>()));
        }
        10 => share(random, sheet),
        _ => {
            let tag = below(random, sheet.tags.len());
            if let Some(element) = &mut sheet.tags[tag].element {
                let at = below(random, element.len());
                element[at] = byte(random);
            }
        }
    }
}

fn element(sheet: &mut Sheet, signature: &[u8; 4], element: Vec<u8>) {
    for tag in &mut sheet.tags {
        if tag.signature == *signature {
            tag.element = Some(element.clone());
        }
    }
}

/// One XYB file in four gets the text of any intent, one in eight a text with one letter changed.
fn text_of_xyb(random: &mut Random, sheet: &mut Sheet) {
    let intent = random.below(4) as u8;
    let mut text: Vec<u16> = answer::description(&Encoding::xyb(intent))
        .encode_utf16()
        .collect();
    match random.below(8) {
        0 | 1 => {}
        2 => {
            let at = below(random, text.len());
            text[at] ^= 1 << random.below(7);
        }
        _ => return,
    }
    element(sheet, b"desc", profiles::text(&text));
}

/// Of gray files, adapted or not, one in four gets another white, or a `chad` that is left out, added,
/// of another type, size or name, or in another place.
fn white_of_gray(random: &mut Random, sheet: &mut Sheet) {
    let d50 = profiles::d50();
    match (random.below(32), sheet.tags.len() == 5) {
        (0, true) => sheet.tags.swap(2, 3),
        (1, true) => sheet.tags.swap(3, 4),
        (2, true) => drop(sheet.tags.remove(3)),
        (3, true) => {
            let kind = random.pick(&[b"XYZ ", b"sf3\0", b"SF32", b"para"]);
            element(sheet, b"chad", nine(random, kind));
        }
        (4, true) => {
            let mut chad = nine(random, b"sf32");
            chad.resize(chad.len() + below(random, 9) - 4, 0);
            element(sheet, b"chad", chad);
        }
        (5, true) => sheet.tags[3].signature = *random.pick(&[b"cicp", b"CHAD", b"rXYZ", b"wtpt"]),
        (at @ 0..5, false) => {
            let chad = nine(random, b"sf32");
            let place = random.pick(&[2, 3, 3, 3, 4]);
            sheet.tags.insert(place, Tag::new(b"chad", chad));
            if at < 3 {
                element(sheet, b"wtpt", numbers(b"XYZ ", &d50));
            }
        }
        (6, _) => element(sheet, b"wtpt", numbers(b"XYZ ", &d50)),
        (7, _) => {
            let mut white = d50;
            let (at, any) = (below(random, 3), plans::number(random));
            white[at] = random.pick(&[white[at] + 1, white[at] - 1, any]);
            element(sheet, b"wtpt", numbers(b"XYZ ", &white));
        }
        _ => {}
    }
}

/// An element of a type with nine numbers.
fn nine(random: &mut Random, kind: &[u8; 4]) -> Vec<u8> {
    numbers(kind, &[0; 9].map(|_| plans::number(random)))
}

/// Tags or parts of them exchanged, left out or there twice.
fn order(random: &mut Random, tags: &mut Vec<Tag>) {
    let (a, b) = (below(random, tags.len()), below(random, tags.len()));
    match random.below(5) {
        0 => tags.swap(a, b),
        1 => {
            let name = tags[a].signature;
            tags[a].signature = tags[b].signature;
            tags[b].signature = name;
        }
        2 => {
            let element = tags[a].element.clone();
            tags[a].element = tags[b].element.clone();
            tags[b].element = element;
        }
        3 if tags.len() > 1 => {
            tags.remove(a);
        }
        _ => tags.insert(b, tags[a].clone()),
    }
}

/// A text of no letter, of 373 or more, or with a letter above 127.
fn letters(random: &mut Random, sheet: &mut Sheet) {
    let count = match random.below(4) {
        0 => 0,
        1 => 373,
        2 => 374 + below(random, 300),
        _ => 1 + below(random, 372),
    };
    let mut text: Vec<u16> = (0..count).map(|_| random.below(128) as u16).collect();
    if random.percent(50) && count > 0 {
        let odd = [128, 255, 256, 0x4100, random.bits32() as u16];
        text[below(random, count)] = random.pick(&odd);
    }
    element(sheet, b"desc", profiles::text(&text));
}

/// A `cicp` tag with other values, or where none belongs.
fn cicp_beside(random: &mut Random, sheet: &mut Sheet) {
    let primaries = match random.below(3) {
        0 => byte(random),
        _ => random.pick(&PRIMARIES),
    };
    let transfer = match random.below(3) {
        0 => byte(random),
        _ => profiles::transfer(random.pick(&NAMED)),
    };
    let mut tag = cicp(primaries, transfer);
    if random.percent(10) {
        let element = tag.element.as_mut().expect("just made");
        element[10 + below(random, 2)] = byte(random);
    }
    match sheet.tags.iter().position(|tag| tag.signature == *b"cicp") {
        Some(place) => sheet.tags[place] = tag,
        None => {
            let place = sheet.tags.len().min(4);
            sheet.tags.insert(place, tag);
        }
    }
}

/// Another kind's header, or a pair that no kind has. Maker, model and intent stay.
fn class_and_space(random: &mut Random, sheet: &mut Sheet) {
    let mut other = header(1 + random.below(3) as u8).to_vec();
    for field in [48..56, 64..68] {
        other[field.clone()].copy_from_slice(&sheet.header[field]);
    }
    sheet.header = other;
    if random.percent(30) {
        let class: &[u8; 4] = random.pick(&[b"mntr", b"scnr", b"prtr", b"MNTR"]);
        let space: &[u8; 4] = random.pick(&[b"GRAY", b"RGB ", b"CMYK", b"RGB\0"]);
        sheet.header[12..16].copy_from_slice(class);
        sheet.header[16..20].copy_from_slice(space);
    }
}

/// Where an element's numbers begin; None where it has none.
fn first_number(element: &[u8]) -> Option<usize> {
    match element.get(..4)? {
        b"para" => Some(12),
        b"XYZ " | b"sf32" => Some(8),
        _ => None,
    }
}

/// One number at an end of its range or past it, in any place where an element has numbers.
fn number_at_an_end(random: &mut Random, sheet: &mut Sheet) {
    let elements = sheet.tags.iter_mut().filter_map(|tag| tag.element.as_mut());
    let mut elements: Vec<_> = elements
        .filter(|element| first_number(element).is_some_and(|first| first + 4 <= element.len()))
        .collect();
    if elements.is_empty() {
        return;
    }
    let element = below(random, elements.len());
    let element = &mut elements[element];
    let first = first_number(element).expect("it has numbers");
    let at = first + 4 * below(random, (element.len() - first) / 4);
    element[at..at + 4].copy_from_slice(&random.pick(&ENDS).to_be_bytes());
}

/// Another curve: of another type, with numbers of two names, or with one a little off.
fn curve(random: &mut Random, sheet: &mut Sheet) {
    let mut five = profiles::named(random.pick(&NAMED));
    let curve = match random.below(4) {
        0 => {
            let kind = random.below(5) as u16;
            parametric(kind, &[65536; 7][..1 + below(random, 7)])
        }
        1 => {
            five[below(random, 5)] += random.pick(&[1, -1, 65536]);
            parametric(3, &five)
        }
        2 => {
            let other = profiles::named(random.pick(&NAMED));
            let at = below(random, 5);
            five[at] = other[at];
            parametric(3, &five)
        }
        _ => parametric(3, &five),
    };
    let all = random.percent(20);
    for signature in [b"kTRC", b"rTRC"] {
        element(sheet, signature, curve.clone());
    }
    if all {
        element(sheet, b"gTRC", curve);
    }
}

/// A tag on the element before it.
fn share(random: &mut Random, sheet: &mut Sheet) {
    let tag = below(random, sheet.tags.len());
    if tag > 0 {
        sheet.tags[tag].element = None;
    }
}

/// One fault in the bytes of a file, which may have others.
fn bytes(random: &mut Random, file: &mut Vec<u8>) {
    if file.is_empty() {
        return;
    }
    match random.below(10) {
        0 | 1 => change(random, file),
        2 | 3 => length_field(random, file),
        4 => cut(random, file),
        5 => extend(random, file),
        6 => exchange(random, file),
        7 => {
            let at = 4 * below(random, file.len() / 4 + 1);
            put(file, at, random.pick(&ENDS) as u32);
        }
        8 => padding(random, file),
        _ => shift(random, file),
    }
}

/// A byte to the next value, the one before, with one bit changed, or to any.
fn change(random: &mut Random, file: &mut [u8]) {
    let at = below(random, file.len());
    let old = file[at];
    let bit = old ^ (1 << random.below(8));
    let values = [old.wrapping_add(1), old.wrapping_sub(1), bit, byte(random)];
    file[at] = random.pick(&values);
}

pub fn put(file: &mut [u8], at: usize, value: u32) {
    if let Some(field) = file.get_mut(at..at + 4) {
        field.copy_from_slice(&value.to_be_bytes());
    }
}

pub fn get(file: &[u8], at: usize) -> Option<u32> {
    let field = file.get(at..at + 4)?;
    Some(u32::from_be_bytes(field.try_into().expect("four bytes")))
}

/// Where lengths, offsets and counts stand: in the header, the table, and the texts.
pub fn length_fields(file: &[u8]) -> Vec<usize> {
    let mut places = vec![0, 128];
    let lines = get(file, 128).unwrap_or(0).min(20) as usize;
    for line in (0..lines).map(|line| 132 + 12 * line) {
        places.extend([line + 4, line + 8]);
        let element = get(file, line + 4).unwrap_or(0) as usize;
        if file
            .get(element..)
            .is_some_and(|rest| rest.starts_with(b"mluc"))
        {
            places.extend([8, 12, 20, 24].map(|at| element + at));
        }
    }
    places.retain(|at| at + 4 <= file.len());
    places
}

fn length_field(random: &mut Random, file: &mut [u8]) {
    let places = length_fields(file);
    if places.is_empty() {
        return;
    }
    let at = random.pick(&places);
    let old = get(file, at).expect("inside");
    let by = random.pick(&[1, 2, 4, 12, 0x8000_0000, old]);
    let values = [
        old.wrapping_add(by),
        old.wrapping_sub(by),
        file.len() as u32,
        u32::MAX,
    ];
    put(file, at, random.pick(&values));
}

/// An early end, at any length or at about 132 bytes; the size field follows or not.
fn cut(random: &mut Random, file: &mut Vec<u8>) {
    let length = match random.below(4) {
        0 => random.pick(&[0, 3, 4, 131, 132, 133]).min(file.len()),
        1 => file.len().saturating_sub(1 + below(random, 8)),
        _ => below(random, file.len()),
    };
    file.truncate(length);
    if random.percent(75) {
        set_size(file);
    }
}

fn extend(random: &mut Random, file: &mut Vec<u8>) {
    let more = 1 + below(random, 12);
    let zeros = random.percent(50);
    file.extend((0..more).map(|_| if zeros { 0 } else { byte(random) }));
    if random.percent(75) {
        set_size(file);
    }
}

/// Two lines of the table exchanged, or a field of them.
fn exchange(random: &mut Random, file: &mut [u8]) {
    let lines = get(file, 128).unwrap_or(0).min(20) as usize;
    if lines == 0 || file.len() < 132 + 12 * lines {
        return;
    }
    let [a, b] = [0; 2].map(|_| 132 + 12 * below(random, lines));
    let (from, to) = random.pick(&[(0, 12), (0, 4), (4, 8), (8, 12), (4, 12)]);
    for at in from..to {
        file.swap(a + at, b + at);
    }
}

/// A byte of an element's padding, where one has any.
fn padding(random: &mut Random, file: &mut [u8]) {
    let lines = get(file, 128).unwrap_or(0).min(20) as usize;
    let ends = (0..lines).filter_map(|line| {
        let offset = get(file, 132 + 12 * line + 4)?;
        let size = get(file, 132 + 12 * line + 8)?;
        let end = offset.checked_add(size)? as usize;
        (!end.is_multiple_of(4) && end < file.len()).then_some(end)
    });
    let ends: Vec<usize> = ends.collect();
    if !ends.is_empty() {
        let at = random.pick(&ends) + below(random, 2);
        let value = random.pick(&[1, 128, 255]);
        if let Some(byte) = file.get_mut(at) {
            *byte = value;
        }
    }
}

/// Bytes taken out or put in between, the size field following.
fn shift(random: &mut Random, file: &mut Vec<u8>) {
    let count = random.pick(&[1, 2, 4, 12]);
    let at = below(random, file.len());
    if random.percent(50) {
        file.drain(at..(at + count).min(file.len()));
    } else {
        file.splice(at..at, std::iter::repeat_n(0, count));
    }
    set_size(file);
}
