//! Lays out profiles: of plans, and of tags that no plan has, for the reader to be tried with.
//!
//! Header, D50 and the elements of XYB are taken from what the original writes, and the numbers of
//! the named curves are its floats, made fixed numbers by it: nothing here is shared with the
//! judge's reader.

use std::ops::Range;
use std::sync::LazyLock;

use crate::encoding::{Encoding, GAMMA, GRAY, RGB, White, XYB};
use crate::inputs::encodings::SRGB;
use crate::reader::{Plan, id};
use crate::{answer, leaves};

/// The white of `wtpt` of RGB, as the original has it.
pub const D50: [f32; 3] = [0.964203, 1.0, 0.824905];

/// A tag; without an element of its own it names the one before.
#[derive(Clone)]
pub struct Tag {
    pub signature: [u8; 4],
    pub element: Option<Vec<u8>>,
}

/// A profile before it is laid out.
#[derive(Clone)]
pub struct Sheet {
    pub header: Vec<u8>,
    pub tags: Vec<Tag>,
    pub id_not_computed: bool,
}

/// The headers that the original writes, by kind.
pub fn header(kind: u8) -> &'static [u8] {
    static WRITTEN: LazyLock<[Vec<u8>; 3]> = LazyLock::new(|| {
        let white = White::named(0);
        let rgb = Encoding::rgb(white, Default::default(), SRGB, 0);
        let all = [Encoding::gray(white, SRGB, 0), rgb, Encoding::xyb(0)];
        all.map(|one| answer::profile(&one).expect("accepted"))
    });
    &WRITTEN[usize::from(kind) - 1][..128]
}

impl Tag {
    pub fn new(signature: &[u8; 4], element: Vec<u8>) -> Self {
        Self {
            signature: *signature,
            element: Some(element),
        }
    }
}

impl Sheet {
    pub fn of(plan: &Plan) -> Self {
        let mut header = header(plan.kind).to_vec();
        header[48..52].copy_from_slice(&plan.device.maker.to_be_bytes());
        header[52..56].copy_from_slice(&plan.device.model.to_be_bytes());
        header[64..68].copy_from_slice(&plan.intent.to_be_bytes());
        let id_not_computed = plan.id_not_computed;
        let mut tags = Vec::new();
        if plan.kind == XYB {
            return Self {
                header,
                tags: xyb_tags(plan.intent),
                id_not_computed,
            };
        }
        let letters: Vec<u16> = plan.text.iter().copied().map(u16::from).collect();
        tags.push(Tag::new(b"desc", text(&letters)));
        tags.push(Tag::new(b"cprt", text(&b"CC0".map(u16::from))));
        if plan.kind == GRAY {
            gray_tags(plan, &mut tags);
        } else {
            rgb_tags(plan, &mut tags);
        }
        Self {
            header,
            tags,
            id_not_computed,
        }
    }

    /// Of a profile in which each tag has an element of its own.
    pub fn of_file(file: &[u8]) -> Self {
        let tag = |(signature, at): ([u8; 4], Range<usize>)| Tag {
            signature,
            element: Some(file[at].to_vec()),
        };
        Self {
            header: file[..128].to_vec(),
            tags: table(file).map(tag).collect(),
            id_not_computed: false,
        }
    }

    /// The file, with its size and its id or zeros in place of it.
    pub fn bytes(&self) -> Vec<u8> {
        let mut file = self.header.clone();
        file.extend((self.tags.len() as u32).to_be_bytes());
        let start = 132 + 12 * self.tags.len();
        let mut elements = Vec::new();
        let mut entry = [0; 8];
        for tag in &self.tags {
            if let Some(element) = &tag.element {
                let offset = (start + elements.len()) as u32;
                entry[..4].copy_from_slice(&offset.to_be_bytes());
                entry[4..].copy_from_slice(&(element.len() as u32).to_be_bytes());
                elements.extend(element);
                elements.resize(elements.len().next_multiple_of(4), 0);
            }
            file.extend(tag.signature);
            file.extend(entry);
        }
        file.extend(elements);
        set_size(&mut file);
        match self.id_not_computed {
            true => zero_id(&mut file),
            false => set_id(&mut file),
        }
        file
    }
}

/// Puts the file's length into its size field, where there is one.
pub fn set_size(file: &mut [u8]) {
    let size = (file.len() as u32).to_be_bytes();
    if let Some(field) = file.get_mut(..4) {
        field.copy_from_slice(&size);
    }
}

/// Puts the right id, where there is room for one.
pub fn set_id(file: &mut [u8]) {
    if file.len() >= 100 {
        let id = id(file);
        file[84..100].copy_from_slice(&id);
    }
}

/// Puts zeros in place of the id, where there is room for one.
pub fn zero_id(file: &mut [u8]) {
    if let Some(id) = file.get_mut(84..100) {
        id.fill(0);
    }
}

/// Changes one of the 128 bits of the id, where there is room for it.
pub fn change_id(file: &mut [u8], bit: usize) {
    if let Some(byte) = file.get_mut(84 + bit / 8) {
        *byte ^= 0x80 >> (bit % 8);
    }
}

/// `wtpt` with D50, and `chad`.
fn adapted_tags(plan: &Plan, tags: &mut Vec<Tag>) {
    tags.push(Tag::new(b"wtpt", numbers(b"XYZ ", &d50())));
    tags.push(Tag::new(b"chad", numbers(b"sf32", &plan.chad)));
}

fn gray_tags(plan: &Plan, tags: &mut Vec<Tag>) {
    let [x, z] = plan.white;
    match plan.adapted {
        true => adapted_tags(plan, tags),
        false => tags.push(Tag::new(b"wtpt", numbers(b"XYZ ", &[x, 65536, z]))),
    }
    tags.push(Tag::new(b"kTRC", curve(plan)));
}

fn rgb_tags(plan: &Plan, tags: &mut Vec<Tag>) {
    debug_assert_eq!(plan.kind, RGB);
    adapted_tags(plan, tags);
    if plan.cicp != 0 {
        tags.push(cicp(plan.cicp, transfer(plan.curve)));
    }
    for (signature, column) in [b"rXYZ", b"gXYZ", b"bXYZ"]
        .into_iter()
        .zip(plan.columns.chunks(3))
    {
        tags.push(Tag::new(signature, numbers(b"XYZ ", column)));
    }
    tags.push(Tag::new(b"rTRC", curve(plan)));
    for signature in [b"gTRC", b"bTRC"] {
        tags.push(Tag {
            signature: *signature,
            element: None,
        });
    }
}

/// The tags of XYB of an intent as they are written; none shares its element.
fn xyb_tags(intent: u32) -> Vec<Tag> {
    static WRITTEN: LazyLock<[Vec<Tag>; 4]> =
        LazyLock::new(|| [0, 1, 2, 3].map(|intent| tags_written(&Encoding::xyb(intent))));
    WRITTEN[intent as usize].clone()
}

fn tags_written(encoding: &Encoding) -> Vec<Tag> {
    let file = answer::profile(encoding).expect("accepted");
    Sheet::of_file(&file).tags
}

/// The lines of a tag table: the signature, and where the element stands.
pub fn table(file: &[u8]) -> impl Iterator<Item = ([u8; 4], Range<usize>)> {
    let word = |bytes: &[u8]| u32::from_be_bytes(bytes.try_into().expect("four bytes")) as usize;
    let count = file.get(128..132).map_or(0, word);
    let lines = file.get(132..).unwrap_or_default().chunks_exact(12);
    lines.take(count).map(move |line| {
        let (signature, offset) = (line[..4].try_into(), word(&line[4..8]));
        let place = offset..offset + word(&line[8..]);
        (signature.expect("four bytes"), place)
    })
}

/// The element of a tag; None where a profile has no such tag.
pub fn element<'a>(file: &'a [u8], signature: &[u8; 4]) -> Option<&'a [u8]> {
    let (_, place) = table(file).find(|line| line.0 == *signature)?;
    file.get(place)
}

/// A text element of any letters.
pub fn text(letters: &[u16]) -> Vec<u8> {
    let mut element = b"mluc\0\0\0\0\0\0\0\x01\0\0\0\x0cenUS".to_vec();
    element.extend((2 * letters.len() as u32).to_be_bytes());
    element.extend(28u32.to_be_bytes());
    element.extend(letters.iter().flat_map(|letter| letter.to_be_bytes()));
    element
}

/// An element of a type and numbers.
pub fn numbers(kind: &[u8; 4], numbers: &[i32]) -> Vec<u8> {
    let mut element = kind.to_vec();
    element.extend([0; 4]);
    element.extend(numbers.iter().flat_map(|number| number.to_be_bytes()));
    element
}

pub fn cicp(primaries: u8, transfer: u8) -> Tag {
    let mut element = b"cicp\0\0\0\0".to_vec();
    element.extend([primaries, transfer, 0, 1]);
    Tag::new(b"cicp", element)
}

/// A curve of any type and numbers.
pub fn parametric(kind: u16, values: &[i32]) -> Vec<u8> {
    let first = i32::from(kind) << 16;
    let all: Vec<i32> = std::iter::once(first)
        .chain(values.iter().copied())
        .collect();
    numbers(b"para", &all)
}

fn curve(plan: &Plan) -> Vec<u8> {
    match plan.curve {
        GAMMA => parametric(0, &[plan.gamma]),
        name => parametric(3, &named(name)),
    }
}

/// The numbers of that white.
pub fn d50() -> [i32; 3] {
    D50.map(fixed)
}

fn fixed(x: f32) -> i32 {
    leaves::fixed(x.to_bits()).expect("a fixed number")
}

/// The five numbers of a named curve.
pub fn named(name: u8) -> [i32; 5] {
    named_floats(name).map(fixed)
}

/// The floats that the original makes them from.
pub fn named_floats(name: u8) -> [f32; 5] {
    match name {
        0 => [1.0 / 0.45, 1.0 / 1.099, 0.099 / 1.099, 1.0 / 4.5, 0.081],
        1 => [1.0, 1.0, 0.0, 1.0, 0.0],
        2 => [2.4, 1.0 / 1.055, 0.055 / 1.055, 1.0 / 12.92, 0.04045],
        4 => [2.6, 1.0, 0.0, 1.0, 0.0],
        _ => panic!("no named curve {name}"),
    }
}

/// The `cicp` transfer value of a curve; that of a gamma is none, 2 stands in.
pub fn transfer(curve: u8) -> u8 {
    match curve {
        0 => 1,
        1 => 8,
        2 => 13,
        4 => 17,
        _ => 2,
    }
}
