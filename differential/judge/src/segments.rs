//! A profile put into APP2 segments and joined again, from the words of 02's order 4.
//!
//! The file is cut into chunks, each set behind its front; the way back lists the segments, sorts
//! them by their numbers and puts their data together. What the reader says of the file is asked
//! for by the caller, who may know it already.

/// The named size is outside its limits, or needs too many segments.
pub const SIZE: u32 = 53;

/// The bytes are no complete segments.
pub const NO_SEGMENTS: u32 = 54;

/// The output is shorter than the segments, or than their data.
pub const OUTPUT: u32 = 55;

/// The most data of a segment: its length field counts 16 bytes more.
pub const MOST_DATA: usize = 65_519;

/// The most segments: their count is one byte.
pub const MOST: usize = 255;

/// The bytes of a segment before its data.
pub const FRONT: usize = 18;

const MARKER: [u8; 2] = [0xff, 0xe2];
const NAME: &[u8; 12] = b"ICC_PROFILE\0";

/// What the length field counts besides the data: itself, the name, the number and the count.
const COUNTED: usize = 2 + NAME.len() + 2;

/// What the reader says: nothing, or the number of its refusal.
pub type Reading = Result<(), u32>;

/// The segments of a file for an output of `room` bytes, or the number of the refusal.
pub fn write(file: &[u8], reading: Reading, size: usize, room: usize) -> Result<Vec<u8>, u32> {
    reading?;
    if !(1..=MOST_DATA).contains(&size) {
        return Err(SIZE);
    }
    let chunks = file.chunks(size);
    let count = u8::try_from(chunks.len()).map_err(|_| SIZE)?;
    let mut all = Vec::with_capacity(file.len() + FRONT * chunks.len());
    for (number, data) in (1..=count).zip(chunks) {
        push(&mut all, number, count, data);
    }
    if all.len() > room {
        return Err(OUTPUT);
    }
    Ok(all)
}

/// Adds a segment.
///
/// # Panics
/// If its data is too long for a length of 16 bits.
pub fn push(all: &mut Vec<u8>, number: u8, count: u8, data: &[u8]) {
    let length = u16::try_from(COUNTED + data.len()).expect("the data fits a segment");
    all.extend(MARKER);
    all.extend(length.to_be_bytes());
    all.extend(NAME);
    all.extend([number, count]);
    all.extend(data);
}

/// A segment of a buffer.
struct Segment<'a> {
    number: u8,
    count: u8,
    data: &'a [u8],
}

/// The file that segments hold, for an output of `room` bytes, or the number of the refusal.
pub fn join(
    buffer: &[u8],
    room: usize,
    read: impl FnOnce(&[u8]) -> Reading,
) -> Result<Vec<u8>, u32> {
    let mut segments = listed(buffer).ok_or(NO_SEGMENTS)?;
    let count = segments.len();
    if count == 0 || segments.iter().any(|one| usize::from(one.count) != count) {
        return Err(NO_SEGMENTS);
    }
    segments.sort_by_key(|one| one.number);
    let numbers = segments.iter().map(|one| usize::from(one.number));
    if !numbers.eq(1..=count) {
        return Err(NO_SEGMENTS);
    }
    let length: usize = segments.iter().map(|one| one.data.len()).sum();
    if length > room {
        return Err(OUTPUT);
    }
    let mut file = Vec::with_capacity(length);
    for segment in &segments {
        file.extend(segment.data);
    }
    read(&file)?;
    Ok(file)
}

/// The segments in the order of the buffer. None where there is anything else in it.
fn listed(mut rest: &[u8]) -> Option<Vec<Segment<'_>>> {
    let mut all = Vec::new();
    while !rest.is_empty() {
        let (marker, from_length) = rest.split_first_chunk()?;
        let (length, _) = from_length.split_first_chunk()?;
        let length = usize::from(u16::from_be_bytes(*length));
        if *marker != MARKER || length < COUNTED {
            return None;
        }
        let (segment, next) = from_length.split_at_checked(length)?;
        let (name, after_name) = segment[2..].split_at(NAME.len());
        if name != NAME {
            return None;
        }
        all.push(Segment {
            number: after_name[0],
            count: after_name[1],
            data: &after_name[2..],
        });
        rest = next;
    }
    Some(all)
}
