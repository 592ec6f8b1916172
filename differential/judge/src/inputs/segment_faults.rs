//! Faults in segments: in their numbers and counts before they are laid out, and in the bytes after.

use super::random::Random;
use super::segments::{Piece, bytes};
use super::{below, byte};

/// What is wrong with segments. Most faults have several forms.
#[derive(Clone, Copy, Debug, PartialEq, Eq)]
pub enum Fault {
    Doubled,
    Missing,
    Zero,
    High,
    Counts,
    OneCount,
    Many,
    Short,
    PastEnd,
    Length,
    Marker,
    Name,
    Before,
    Between,
    After,
    Truncated,
    Empty,
    Random,
    Several,
}

/// The faults and their names.
pub const FAULTS: [(Fault, &str); 19] = [
    (Fault::Doubled, "number doubled"),
    (Fault::Missing, "segment missing"),
    (Fault::Zero, "number zero"),
    (Fault::High, "number too high"),
    (Fault::Counts, "counts wrong"),
    (Fault::OneCount, "one count wrong"),
    (Fault::Many, "more than 255"),
    (Fault::Short, "length under 16"),
    (Fault::PastEnd, "length past the end"),
    (Fault::Length, "another length"),
    (Fault::Marker, "marker"),
    (Fault::Name, "name"),
    (Fault::Before, "bytes before"),
    (Fault::Between, "bytes between"),
    (Fault::After, "bytes after"),
    (Fault::Truncated, "cut off"),
    (Fault::Empty, "no bytes"),
    (Fault::Random, "random bytes"),
    (Fault::Several, "two faults"),
];

// ---- in numbers and counts

impl Fault {
    /// What of the fault is to be seen before the segments are laid out.
    pub fn in_pieces(self, random: &mut Random, pieces: &mut Vec<Piece>) {
        if pieces.is_empty() {
            return;
        }
        let one = below(random, pieces.len());
        let count = pieces.len() as u8;
        let near = [0, 255, count.wrapping_sub(1), count.wrapping_add(1)];
        let wrong = [near[0], near[1], near[2], near[3], byte(random)];
        match self {
            Self::Doubled => doubled(random, pieces, one),
            Self::Missing => {
                pieces.remove(one);
                if random.percent(50) {
                    add_to_counts(pieces, u8::MAX);
                }
            }
            Self::Zero if random.percent(50) => pieces[one].number = 0,
            Self::Zero => add_to_numbers(pieces, u8::MAX),
            Self::High if random.percent(30) => add_to_numbers(pieces, 1),
            Self::High => {
                let above = count.wrapping_add(1 << random.below(8));
                pieces[one].number = random.pick(&[above, 255, count.wrapping_add(1)]);
            }
            Self::Counts => {
                let count = random.pick(&wrong);
                pieces.iter_mut().for_each(|piece| piece.count = count);
            }
            Self::OneCount => pieces[one].count = random.pick(&wrong),
            Self::Many => many(random, pieces),
            _ => {}
        }
    }
}

fn add_to_numbers(pieces: &mut [Piece], by: u8) {
    for piece in pieces {
        piece.number = piece.number.wrapping_add(by);
    }
}

fn add_to_counts(pieces: &mut [Piece], by: u8) {
    for piece in pieces {
        piece.count = piece.count.wrapping_add(by);
    }
}

/// A number twice or more often: another is missing, or a copy of the segment follows.
fn doubled(random: &mut Random, pieces: &mut Vec<Piece>, one: usize) {
    let other = below(random, pieces.len());
    match random.below(5) {
        0 | 1 => {
            pieces.push(pieces[one].clone());
            if random.percent(50) {
                add_to_counts(pieces, 1);
            }
        }
        2 => pieces[one].number = pieces[other].number,
        3 => {
            // The sum of the numbers stays.
            pieces[one].number = pieces[one].number.wrapping_add(1);
            pieces[other].number = pieces[other].number.wrapping_sub(1);
        }
        _ => {
            let count = pieces.len();
            let any = |piece: &mut Piece| piece.number = 1 + below(random, count) as u8;
            pieces.iter_mut().for_each(any);
        }
    }
}

/// 256 segments or more, those past the file's end empty. Their number's last byte may be the count.
fn many(random: &mut Random, pieces: &mut Vec<Piece>) {
    let total = random.pick(&[256, 256, 257, 258, 511, 512]);
    let last = pieces.len() - 1;
    let end = pieces[last].to;
    pieces.extend((pieces.len()..total).map(|at| Piece {
        number: (at + 1) as u8,
        count: 0,
        from: end,
        to: end,
    }));
    let count = random.pick(&[total as u8, total as u8, 255, 0]);
    pieces.iter_mut().for_each(|piece| piece.count = count);
}

// ---- in the bytes

impl Fault {
    /// What of the fault is to be seen in the bytes; `starts` are the places of the segments.
    pub fn in_bytes(self, random: &mut Random, all: &mut Vec<u8>, starts: &[usize]) {
        let fits = |start: &usize| start + 18 <= all.len();
        let whole = starts.iter().take_while(|start| fits(start)).count();
        if whole == 0 {
            return;
        }
        let place = below(random, whole);
        let start = starts[place];
        match self {
            Self::Short => short(random, all, start),
            Self::PastEnd => {
                let left = all.len() - start - 2;
                let any = left + 1 + below(random, 1000);
                put_length(all, start, random.pick(&[left + 1, left + 2, 65_535, any]));
            }
            Self::Length => another_length(random, all, start),
            Self::Marker => marker(random, &mut all[start..start + 2]),
            Self::Name => name(random, all, start),
            Self::Before => put_in(all, 0, stray(random)),
            Self::Between if whole > 1 => put_in(all, starts[place.max(1)], stray(random)),
            Self::After => all.extend(stray(random)),
            Self::Truncated => {
                let most = random.pick(&[1, 20, all.len()]);
                all.truncate(all.len() - 1 - below(random, most.min(all.len())));
            }
            Self::Empty => all.clear(),
            Self::Random => {
                // After a right front of any length, or none.
                all.truncate(random.pick(&[0, 2, 4, 16, 18, start]));
                all.extend(bytes(random, 100));
            }
            _ => {}
        }
    }
}

fn put_in(all: &mut Vec<u8>, at: usize, bytes: Vec<u8>) {
    all.splice(at..at, bytes);
}

/// Writes a length field; what it cannot hold becomes its largest.
fn put_length(all: &mut [u8], start: usize, length: usize) {
    let length = u16::try_from(length).unwrap_or(u16::MAX);
    all[start + 2..start + 4].copy_from_slice(&length.to_be_bytes());
}

/// A length under 16. Where that is 15, the count may be left out: of 255 segments the count is FF,
/// with which the next begins.
fn short(random: &mut Random, all: &mut Vec<u8>, start: usize) {
    let any = below(random, 16);
    let length = random.pick(&[0, 2, 14, 15, 15, any]);
    if length == 15 && random.percent(70) {
        all.remove(start + 17);
    }
    put_length(all, start, length);
}

/// A length a little off, one that takes in what follows, or any.
fn another_length(random: &mut Random, all: &mut [u8], start: usize) {
    let old = usize::from(u16::from_be_bytes([all[start + 2], all[start + 3]]));
    let next = start + 2 + old;
    let next_length = match all.get(next + 2..next + 4) {
        Some(field) => usize::from(u16::from_be_bytes([field[0], field[1]])),
        None => 0,
    };
    let lengths = [
        old + 1,
        old.saturating_sub(1),
        old + 2,
        old.saturating_sub(2),
        usize::from((old as u16).swap_bytes()),
        old + 2 + next_length,
        below(random, 65_536),
    ];
    put_length(all, start, random.pick(&lengths));
}

fn marker(random: &mut Random, marker: &mut [u8]) {
    let at = below(random, 2);
    let markers = [
        [0xff, 0xe1],
        [0xff, 0xe3],
        [0xfe, 0xe2],
        [0xe2, 0xff],
        [0xff, 0xff],
        [0xff, 0xd8],
        [0x00, 0xe2],
    ];
    if random.percent(50) {
        marker.copy_from_slice(&random.pick(&markers));
    } else {
        marker[at] ^= 1 << random.below(8);
    }
}

/// A letter or the zero byte changed, left out or there twice; the length field may follow.
fn name(random: &mut Random, all: &mut Vec<u8>, start: usize) {
    let at = start + 4 + below(random, 12);
    let length = usize::from(u16::from_be_bytes([all[start + 2], all[start + 3]]));
    let follows = random.percent(70);
    match random.below(6) {
        0 => {
            all.remove(at);
            put_length(all, start, length.saturating_sub(usize::from(follows)));
        }
        1 => {
            all.insert(at, all[at]);
            put_length(all, start, length + usize::from(follows));
        }
        2 => all[start + 15] = random.pick(&[b' ', b'0', 1, 0xff]),
        3 => all[at] ^= 0x20,
        4 => all[at] ^= 1 << random.below(8),
        _ => all[at] = byte(random),
    }
}

/// Bytes that are no segment of a profile: parts of a JPEG file, fill bytes, or any.
fn stray(random: &mut Random) -> Vec<u8> {
    let fixed: [&[u8]; 9] = [
        &[0],
        &[0xff],
        &[0xff, 0xd8],
        &[0xff, 0xe2],
        &[0xff, 0xe2, 0],
        b"\xff\xe1\0\x08Exif\0\0",
        b"\xff\xe2\0\x08MPF\0II",
        b"\xff\xe2\0\x0eICC_PROFILE\0",
        b"\xff\xe2\xff\xffICC_PROFILE\0\x02\x02",
    ];
    if random.percent(50) {
        return random.pick(&fixed).to_vec();
    }
    let mut any = bytes(random, 20);
    any.push(byte(random));
    any
}
