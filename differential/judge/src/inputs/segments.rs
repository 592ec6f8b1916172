//! Files to put into segments, sizes and outputs for them, and segments to join.

use super::random::Random;
use super::{below, byte, damage, plans};
use crate::encoding::{GRAY, RGB, XYB};
use crate::profiles::{Sheet, set_size};
use crate::reader;
use crate::segments::{self, MOST_DATA, Reading};

pub use super::segment_faults::{FAULTS, Fault};

/// The most bytes of a file that the reader accepts.
pub const LONGEST: usize = 1240;

/// No output is longer than this.
pub const LARGEST_ROOM: usize = 200_000;

// ---- files

/// A file and what the reader says of it.
pub struct File {
    pub bytes: Vec<u8>,
    pub reading: Reading,
}

impl File {
    pub fn new(bytes: Vec<u8>) -> Self {
        let reading = reader::read(&bytes).map(drop);
        Self { bytes, reading }
    }
}

/// Some files at a time. Each serves about eight calls, for making one takes longer than a call.
pub struct Files {
    make: fn(&mut Random) -> Vec<u8>,
    held: Vec<File>,
}

impl Files {
    pub fn new(random: &mut Random, make: fn(&mut Random) -> Vec<u8>) -> Self {
        let held = (0..32).map(|_| File::new(make(random))).collect();
        Self { make, held }
    }

    pub fn next(&mut self, random: &mut Random) -> &File {
        let place = below(random, self.held.len());
        if random.below(8) == 0 {
            self.held[place] = File::new((self.make)(random));
        }
        &self.held[place]
    }
}

/// Any bytes: files that the reader accepts, and such as it refuses by each of its numbers.
pub fn any(random: &mut Random) -> Vec<u8> {
    match random.below(32) {
        0..14 => accepted(random),
        14..20 => damage::file(random),
        20..27 => long(random),
        27..29 => {
            let mut file = accepted(random);
            let any = below(random, 140);
            file.truncate(random.pick(&[0, 1, 3, 4, 131, 132, 133, any]));
            file
        }
        29 => {
            // Segments are no file, and what they hold counts for nothing.
            let (file, size) = (accepted(random), 100 + below(random, 1400));
            segments::write(&file, Ok(()), size, usize::MAX).expect("they fit")
        }
        _ => bytes(random, 600),
    }
}

/// Less than `limit` bytes at random.
pub fn bytes(random: &mut Random, limit: usize) -> Vec<u8> {
    let count = below(random, limit);
    (0..count).map(|_| byte(random)).collect()
}

/// A file that the reader accepts; half are written by the original for encodings at random. In some
/// zeros take the place of the id.
pub fn accepted(random: &mut Random) -> Vec<u8> {
    let mut file = with_id(random);
    damage::zero_some(random, &mut file);
    file
}

fn with_id(random: &mut Random) -> Vec<u8> {
    match random.below(16) {
        0..3 => Sheet::of(&plans::plan(random)).bytes(),
        3 => about_255(random),
        4 => with_a_front(random),
        5..8 => Sheet::of(&plans::of_shape(random, XYB, 0, false, false)).bytes(),
        _ => plans::written_file(random),
    }
}

/// A profile whose length is about 255 times 2, 3 or 4: one line more of text, and segments of that
/// size are too many.
fn about_255(random: &mut Random) -> Vec<u8> {
    let wanted = random.pick(&[508, 512, 764, 768, 1020, 1024]);
    let (kind, gamma) = (random.pick(&[GRAY, RGB]), random.percent(50));
    let mut own = Random::new(random.apart().bits64());
    let plan = plans::of_shape(random, kind, 1, gamma, false);
    let mut plan = plans::half_adapted(&mut own, plan);
    let shortest = Sheet::of(&plan).bytes().len();
    plan.text = plans::text(random, 1 + (wanted - shortest) / 2);
    Sheet::of(&plan).bytes()
}

/// A profile with the front of a segment in its `chad`, whose numbers may be any.
fn with_a_front(random: &mut Random) -> Vec<u8> {
    let mut own = Random::new(random.apart().bits64());
    let mut plan = match own.below(2) {
        0 => {
            let gray = plans::of_shape(random, GRAY, 20, false, false);
            plans::adapted(&mut own, gray)
        }
        _ => plans::of_shape(random, RGB, 20, false, false),
    };
    let mut front = Vec::new();
    let (number, count) = (random.below(4) as u8, random.below(4) as u8);
    segments::push(&mut front, number, count, &[0; 18]);
    for (number, bytes) in plan.chad.iter_mut().zip(front.chunks_exact(4)) {
        *number = i32::from_be_bytes(bytes.try_into().expect("four bytes"));
    }
    Sheet::of(&plan).bytes()
}

/// A profile with so many bytes more that it is longer than any. With a right size field the reader
/// looks at the header and the tag table.
fn long(random: &mut Random) -> Vec<u8> {
    let mut file = accepted(random);
    let about = [65_519, 65_520, 65_536, 65_536 + file.len(), 131_038];
    let length = match random.below(256) {
        0 => random.pick(&about),
        1 => 65_000 + below(random, 70_000),
        2..128 => LONGEST + 1 + below(random, 20),
        _ => LONGEST + 1 + below(random, 3000),
    };
    let (old, more) = (file.len(), byte(random));
    file.resize(length, more);
    set_size(&mut file);
    match random.below(5) {
        0 => {
            let sizes = [old, length - 1, length + 1, length & 0xffff, length << 16];
            damage::put(&mut file, 0, random.pick(&sizes) as u32);
        }
        1 => {
            let at = 4 + below(random, 124);
            file[at] = byte(random);
        }
        2 => damage::put(&mut file, 64, random.pick(&[1, 3, 4, 256, u32::MAX])),
        3 => {
            let at = 128 + below(random, 100);
            file[at] = byte(random);
        }
        _ => {}
    }
    file
}

// ---- writing

/// A size to name for a file of so many bytes.
pub fn size(random: &mut Random, length: usize) -> usize {
    match random.below(16) {
        0 => random.pick(&[0, 1]),
        1..4 => 2 + below(random, 7),
        4 | 5 => divisor(random, length.max(1)),
        6 => random.pick(&[length, length + 1, length.saturating_sub(1)]),
        7 => random.pick(&[65_518, 65_519, 65_520, 65_535, 65_536, (1 << 32) + 5]),
        // Without its upper bits it would be within the limits.
        8 => random.pick(&[1 << 16, 1 << 31, 1 << 32, 1 << 63]) + below(random, length + 2),
        9 => usize::MAX - below(random, length + 2),
        10 => below(random, 70_000),
        11 => random.bits64() as usize,
        12 => length.div_ceil(1 + below(random, 256)),
        _ => below(random, length + 2),
    }
}

/// A size that leaves no rest, from any number up.
fn divisor(random: &mut Random, length: usize) -> usize {
    let from = 1 + below(random, length);
    let divides = |size: &usize| length.is_multiple_of(*size);
    (from..length).find(divides).unwrap_or(length)
}

/// A size that the file can be put in by.
pub fn good_size(random: &mut Random, length: usize) -> usize {
    let least = length.div_ceil(segments::MOST).max(1);
    match random.below(8) {
        0 => least,
        1 => least + below(random, 8),
        2 => MOST_DATA - below(random, 2),
        3 => divisor(random, length.max(1)).max(least),
        _ => least + below(random, length + 2 - least),
    }
}

/// An output's length for a call that needs `due` bytes where it accepts.
pub fn room(random: &mut Random, due: usize) -> usize {
    let room = match random.below(16) {
        0..6 => due,
        6 | 7 => due.saturating_sub(1),
        8 => due + 1,
        9 => due + below(random, 64),
        10 => 0,
        11 => below(random, due + 1),
        12 => due.saturating_sub(1 + below(random, 20)),
        13 => LONGEST,
        14 => due + LONGEST,
        _ if random.below(64) == 0 => LARGEST_ROOM,
        _ => due + 2,
    };
    room.min(LARGEST_ROOM)
}

// ---- joining

/// A segment before it is laid out: its data are the file's bytes from `from` up to `to`.
#[derive(Clone)]
pub struct Piece {
    pub number: u8,
    pub count: u8,
    pub from: usize,
    pub to: usize,
}

/// The file in segments of any sizes in any order, and the fault that they have, if any.
pub fn cut(random: &mut Random, file: &[u8]) -> (Vec<u8>, Option<Fault>) {
    let fault = random.percent(55).then(|| random.pick(&FAULTS).0);
    let mut pieces = pieces(random, file.len());
    let applied = match fault {
        Some(Fault::Several) => (0..2).map(|_| random.pick(&FAULTS).0).collect(),
        one => Vec::from_iter(one),
    };
    for fault in &applied {
        fault.in_pieces(random, &mut pieces);
    }
    shuffle(random, &mut pieces);
    let (mut bytes, starts) = laid_out(file, &pieces);
    for fault in &applied {
        fault.in_bytes(random, &mut bytes, &starts);
    }
    (bytes, fault)
}

/// A file of so many bytes, cut into 1 to 255 pieces.
fn pieces(random: &mut Random, length: usize) -> Vec<Piece> {
    let count = match random.below(64) {
        0..20 => 1,
        20..40 => 2 + below(random, 3),
        40..60 => 5 + below(random, 12),
        60 | 61 => 17 + below(random, 60),
        62 => 1 + below(random, 255),
        _ => random.pick(&[254, 255]),
    };
    let count = count.max(length.div_ceil(MOST_DATA));
    let mut ends = cuts(random, length, count);
    ends.push(length);
    let starts = std::iter::once(0).chain(ends.iter().copied());
    let numbered = (1..=255).zip(starts.zip(&ends));
    let all = numbered.map(|(number, (from, to))| Piece {
        number,
        count: count as u8,
        from,
        to: *to,
    });
    all.collect()
}

/// One place less than there are pieces, in rising order. Two that are the same make an empty piece.
fn cuts(random: &mut Random, length: usize, count: usize) -> Vec<usize> {
    let even = match random.below(2) {
        0 => length.div_ceil(count),
        _ => length.div_ceil(count).next_multiple_of(64).min(MOST_DATA),
    };
    let few = [0; 3].map(|_| below(random, length + 1));
    let way = if length > MOST_DATA {
        0
    } else {
        random.below(4)
    };
    let mut cuts: Vec<usize> = (1..count)
        .map(|at| match way {
            0 => (at * even).min(length),
            // The header's bytes in many segments.
            1 => below(random, 140).min(length),
            2 => random.pick(&few),
            _ => below(random, length + 1),
        })
        .collect();
    cuts.sort_unstable();
    cuts
}

/// Any order, in half of the cases one that is not random.
pub fn shuffle<T>(random: &mut Random, all: &mut [T]) {
    match random.below(6) {
        0 => {}
        1 => all.reverse(),
        2 if !all.is_empty() => all.rotate_left(below(random, all.len())),
        _ => {
            for last in (1..all.len()).rev() {
                all.swap(last, below(random, last + 1));
            }
        }
    }
}

/// The segments, and where each starts.
fn laid_out(file: &[u8], pieces: &[Piece]) -> (Vec<u8>, Vec<usize>) {
    let mut bytes = Vec::with_capacity(file.len() + segments::FRONT * pieces.len() + 32);
    let mut starts = Vec::with_capacity(pieces.len());
    for piece in pieces {
        starts.push(bytes.len());
        let data = &file[piece.from..piece.to];
        segments::push(&mut bytes, piece.number, piece.count, data);
    }
    (bytes, starts)
}
