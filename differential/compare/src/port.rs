//! The port, through its static libraries: leaves, jobs and reader by the comparison's own entries, the writer by the port's.

use judge::encoding::{Device, Encoding, GRAY, RGB};
use judge::leaves::{Linalg, Numbers, double_bits};

use crate::reader::Reading;

mod entries {
    unsafe extern "C" {
        pub fn merqyduk_write_xyb(intent: u32, out: *mut u8, len: usize) -> u32;
        pub fn merqyduk_write_gray(
            white: u32,
            wx: f32,
            wy: f32,
            curve: u32,
            gamma: f32,
            intent: u32,
            out: *mut u8,
            len: usize,
        ) -> u32;
        #[allow(clippy::too_many_arguments)]
        pub fn merqyduk_write_rgb(
            white: u32,
            wx: f32,
            wy: f32,
            primaries: u32,
            rx: f32,
            ry: f32,
            gx: f32,
            gy: f32,
            bx: f32,
            by: f32,
            curve: u32,
            gamma: f32,
            intent: u32,
            out: *mut u8,
            len: usize,
        ) -> u32;
        pub fn merqyduk_write_xyb_device(
            intent: u32,
            maker: u32,
            model: u32,
            out: *mut u8,
            len: usize,
        ) -> u32;
        #[allow(clippy::too_many_arguments)]
        pub fn merqyduk_write_gray_device(
            white: u32,
            wx: f32,
            wy: f32,
            curve: u32,
            gamma: f32,
            intent: u32,
            maker: u32,
            model: u32,
            out: *mut u8,
            len: usize,
        ) -> u32;
        #[allow(clippy::too_many_arguments)]
        pub fn merqyduk_write_rgb_device(
            white: u32,
            wx: f32,
            wy: f32,
            primaries: u32,
            rx: f32,
            ry: f32,
            gx: f32,
            gy: f32,
            bx: f32,
            by: f32,
            curve: u32,
            gamma: f32,
            intent: u32,
            maker: u32,
            model: u32,
            out: *mut u8,
            len: usize,
        ) -> u32;
        #[allow(clippy::too_many_arguments)]
        pub fn merqyduk_write_gray_counted(
            white: u32,
            wx: f32,
            wy: f32,
            curve: u32,
            gamma: f32,
            intent: u32,
            out: *mut u8,
            len: usize,
            rounded: *mut u32,
        ) -> u32;
        #[allow(clippy::too_many_arguments)]
        pub fn merqyduk_length_gray_counted(
            white: u32,
            wx: f32,
            wy: f32,
            curve: u32,
            gamma: f32,
            intent: u32,
            capacity: usize,
            rounded: *mut u32,
        ) -> u32;
        #[allow(clippy::too_many_arguments)]
        pub fn merqyduk_write_gray_adapted(
            white: u32,
            wx: f32,
            wy: f32,
            curve: u32,
            gamma: f32,
            intent: u32,
            adapted: u32,
            maker: u32,
            model: u32,
            out: *mut u8,
            len: usize,
            rounded: *mut u32,
        ) -> u32;
        #[allow(clippy::too_many_arguments)]
        pub fn merqyduk_length_gray_adapted(
            white: u32,
            wx: f32,
            wy: f32,
            curve: u32,
            gamma: f32,
            intent: u32,
            adapted: u32,
            capacity: usize,
            rounded: *mut u32,
        ) -> u32;
        pub fn merqyduk_length_xyb(intent: u32, capacity: usize) -> u32;
        pub fn merqyduk_length_gray(
            white: u32,
            wx: f32,
            wy: f32,
            curve: u32,
            gamma: f32,
            intent: u32,
            capacity: usize,
        ) -> u32;
        #[allow(clippy::too_many_arguments)]
        pub fn merqyduk_length_rgb(
            white: u32,
            wx: f32,
            wy: f32,
            primaries: u32,
            rx: f32,
            ry: f32,
            gx: f32,
            gy: f32,
            bx: f32,
            by: f32,
            curve: u32,
            gamma: f32,
            intent: u32,
            capacity: usize,
        ) -> u32;
        pub fn merqyduk_read(
            file: *const u8,
            file_len: usize,
            plan: *mut u8,
            plan_len: usize,
        ) -> u32;
        pub fn merqyduk_find(
            file: *const u8,
            file_len: usize,
            signature: u32,
            offset: *mut u32,
        ) -> u32;
        pub fn merqyduk_parse_description(
            text: *const u8,
            text_len: usize,
            record: *mut u8,
            record_len: usize,
        ) -> u32;
        pub fn merqyduk_write_segments(
            file: *const u8,
            file_len: usize,
            size: usize,
            out: *mut u8,
            out_len: usize,
        ) -> u32;
        pub fn merqyduk_join_segments(
            segments: *const u8,
            segments_len: usize,
            out: *mut u8,
            out_len: usize,
        ) -> u32;
        pub fn merqyduk_job(job: *const u8, job_len: usize, entries: *mut u32) -> u32;
        pub fn merqyduk_job_profile(
            job: *const u8,
            job_len: usize,
            i: usize,
            out: *mut u8,
            len: usize,
        ) -> u32;
        #[allow(clippy::too_many_arguments)]
        pub fn leaf_validate(
            kind: u32,
            white: u32,
            wx: u32,
            wy: u32,
            primaries: u32,
            rx: u32,
            ry: u32,
            gx: u32,
            gy: u32,
            bx: u32,
            by: u32,
            curve: u32,
            gamma: u32,
            intent: u32,
        ) -> u32;
        #[allow(clippy::too_many_arguments)]
        pub fn leaf_read(
            file: *const u8,
            file_len: usize,
            codes: *mut u32,
            free: *mut i32,
            chad: *mut i32,
            columns: *mut i32,
            text: *mut u8,
        ) -> usize;
        pub fn leaf_find(
            file: *const u8,
            file_len: usize,
            a: u8,
            b: u8,
            c: u8,
            d: u8,
            found: *mut super::Part,
        );
        pub fn leaf_listing(job: *const u8, job_len: usize, out: *mut u8, len: usize) -> usize;
        pub fn leaf_listing_length(job: *const u8, job_len: usize) -> usize;
        pub fn leaf_profiles(job: *const u8, job_len: usize, out: *mut u8, len: usize) -> usize;
        pub fn leaf_profiles_length(job: *const u8, job_len: usize) -> usize;
        pub fn leaf_entry(
            job: *const u8,
            job_len: usize,
            i: usize,
            out: *mut u8,
            len: usize,
        ) -> usize;
        pub fn leaf_fixed(x: u32, mark: *mut u32) -> u64;
        pub fn leaf_narrow(x: f64) -> u32;
        pub fn leaf_text(x: u32, out: *mut u8, len: usize) -> usize;
        pub fn leaf_md5(data: *const u8, data_len: usize, out: *mut u8, len: usize) -> usize;
        pub fn leaf_adaptation(wx: u32, wy: u32, out: *mut u8, len: usize) -> u32;
        pub fn leaf_product(a: *const f64, b: *const f64, out: *mut f64);
        pub fn leaf_applied(a: *const f64, v: *const f64, out: *mut f64);
        pub fn leaf_inverse(a: *const f64, out: *mut f64) -> u32;
        pub fn leaf_gray_white(wx: u32, wy: u32, out: *mut u8, len: usize) -> u32;
        #[allow(clippy::too_many_arguments)]
        pub fn leaf_columns(
            wx: u32,
            wy: u32,
            rx: u32,
            ry: u32,
            gx: u32,
            gy: u32,
            bx: u32,
            by: u32,
            out: *mut u8,
            len: usize,
        ) -> u32;
        #[allow(clippy::too_many_arguments)]
        pub fn leaf_description(
            kind: u32,
            white: u32,
            wx: u32,
            wy: u32,
            primaries: u32,
            rx: u32,
            ry: u32,
            gx: u32,
            gy: u32,
            bx: u32,
            by: u32,
            curve: u32,
            gamma: u32,
            intent: u32,
            out: *mut u8,
            len: usize,
        ) -> usize;
    }
}

/// A slice as the port writes it.
#[repr(C)]
pub struct Part {
    at: *const u8,
    len: usize,
}

/// The fixed number, and 1 where it is exact, else 0. The mark is filled before, so that one that is
/// not written shows.
pub fn fixed(bits: u32) -> Option<(i32, u32)> {
    let mut mark = 0xa5;
    let answer = unsafe { entries::leaf_fixed(bits, &mut mark) };
    let number = u32::try_from(answer).ok()?;
    Some((number as i32, mark))
}

pub fn narrow(bits: u64) -> u32 {
    unsafe { entries::leaf_narrow(f64::from_bits(bits)) }
}

/// A text that a call writes at the front of a buffer.
fn written(mut call: impl FnMut(*mut u8, usize) -> usize) -> Vec<u8> {
    let mut out = [0u8; 512];
    let len = call(out.as_mut_ptr(), out.len());
    out[..len].to_vec()
}

pub fn text(bits: u32) -> Vec<u8> {
    written(|out, len| unsafe { entries::leaf_text(bits, out, len) })
}

pub fn md5(data: &[u8]) -> Vec<u8> {
    written(|out, len| unsafe { entries::leaf_md5(data.as_ptr(), data.len(), out, len) })
}

fn word(bytes: &[u8]) -> u32 {
    u32::from_be_bytes(bytes.try_into().expect("four bytes"))
}

/// The numbers that a call writes as big-endian bits.
fn numbers<const N: usize>(mut call: impl FnMut(*mut u8, usize) -> u32) -> Numbers<N> {
    let mut out = [0u8; 64];
    let status = call(out.as_mut_ptr(), out.len());
    let mut bits = [0; N];
    for (bits, bytes) in bits.iter_mut().zip(out.chunks_exact(4)) {
        *bits = word(bytes);
    }
    Numbers { status, bits }
}

pub fn adaptation(wx: u32, wy: u32) -> Numbers<9> {
    numbers(|out, len| unsafe { entries::leaf_adaptation(wx, wy, out, len) })
}

pub fn linalg(a: [f64; 9], b: [f64; 9]) -> Linalg {
    let (mut product, mut inverse, mut applied) = ([0.0; 9], [0.0; 9], [0.0; 3]);
    let status = unsafe {
        entries::leaf_product(a.as_ptr(), b.as_ptr(), product.as_mut_ptr());
        entries::leaf_applied(a.as_ptr(), b.as_ptr(), applied.as_mut_ptr());
        entries::leaf_inverse(a.as_ptr(), inverse.as_mut_ptr())
    };
    Linalg {
        product: double_bits(&product),
        applied: double_bits(&applied),
        inverse: (status == 0).then(|| double_bits(&inverse)),
    }
}

pub fn gray_white(wx: u32, wy: u32) -> Numbers<3> {
    numbers(|out, len| unsafe { entries::leaf_gray_white(wx, wy, out, len) })
}

pub fn columns(wx: u32, wy: u32, [rx, ry, gx, gy, bx, by]: [u32; 6]) -> Numbers<9> {
    numbers(|out, len| unsafe { entries::leaf_columns(wx, wy, rx, ry, gx, gy, bx, by, out, len) })
}

pub fn description(encoding: &Encoding) -> Vec<u8> {
    let (white, primaries, curve) = (encoding.white, encoding.primaries, encoding.curve);
    let [rx, ry, gx, gy, bx, by] = primaries.xy;
    written(|out, len| unsafe {
        entries::leaf_description(
            encoding.kind.into(),
            white.kind.into(),
            white.wx,
            white.wy,
            primaries.kind.into(),
            rx,
            ry,
            gx,
            gy,
            bx,
            by,
            curve.kind.into(),
            curve.gamma,
            encoding.intent.into(),
            out,
            len,
        )
    })
}

/// `validate_icc_matrix`: 0 or a number.
pub fn validation(encoding: &Encoding) -> u32 {
    let (white, primaries, curve) = (encoding.white, encoding.primaries, encoding.curve);
    let [rx, ry, gx, gy, bx, by] = primaries.xy;
    unsafe {
        entries::leaf_validate(
            encoding.kind.into(),
            white.kind.into(),
            white.wx,
            white.wy,
            primaries.kind.into(),
            rx,
            ry,
            gx,
            gy,
            bx,
            by,
            curve.kind.into(),
            curve.gamma,
            encoding.intent.into(),
        )
    }
}

/// The reader's answer. The fields are filled before, so that one that is not written shows.
pub fn read(file: &[u8]) -> Reading {
    let mut reading = Reading {
        codes: [0xa5; 9],
        free: [0xa5; 3],
        chad: [0xa5; 9],
        columns: [0xa5; 9],
        letters: 0,
        text: [0xa5; 372],
    };
    reading.letters = unsafe {
        entries::leaf_read(
            file.as_ptr(),
            file.len(),
            reading.codes.as_mut_ptr(),
            reading.free.as_mut_ptr(),
            reading.chad.as_mut_ptr(),
            reading.columns.as_mut_ptr(),
            reading.text.as_mut_ptr(),
        )
    };
    reading
}

/// The finder: where its part stands, seen from the front of the file, and its length.
pub fn find(file: &[u8], [a, b, c, d]: [u8; 4]) -> (isize, usize) {
    let mut found = Part {
        at: file.as_ptr().wrapping_add(file.len()),
        len: 0,
    };
    unsafe { entries::leaf_find(file.as_ptr(), file.len(), a, b, c, d, &mut found) };
    let place = (found.at as isize).wrapping_sub(file.as_ptr() as isize);
    (place, found.len)
}

/// The reader into a lent record: 0, a refusal, or 9 where the record is too short.
pub fn read_into(file: &[u8], record: &mut [u8]) -> u32 {
    let (at, len) = (record.as_mut_ptr(), record.len());
    unsafe { entries::merqyduk_read(file.as_ptr(), file.len(), at, len) }
}

/// The finder from C: the size, and the offset in the lent number.
pub fn find_offset(file: &[u8], signature: [u8; 4], offset: &mut u32) -> u32 {
    let signature = u32::from_be_bytes(signature);
    unsafe { entries::merqyduk_find(file.as_ptr(), file.len(), signature, offset) }
}

/// The numbers of an encoding, as the C entries take them.
struct Arguments {
    white: u32,
    wx: f32,
    wy: f32,
    primaries: u32,
    xy: [f32; 6],
    curve: u32,
    gamma: f32,
    intent: u32,
}

impl Arguments {
    fn of(encoding: &Encoding) -> Self {
        Self {
            white: encoding.white.kind.into(),
            wx: f32::from_bits(encoding.white.wx),
            wy: f32::from_bits(encoding.white.wy),
            primaries: encoding.primaries.kind.into(),
            xy: encoding.primaries.xy.map(f32::from_bits),
            curve: encoding.curve.kind.into(),
            gamma: f32::from_bits(encoding.curve.gamma),
            intent: encoding.intent.into(),
        }
    }
}

/// The writer: a length, or a refusal number below 100.
pub fn write(encoding: &Encoding, out: &mut [u8]) -> u32 {
    let a = Arguments::of(encoding);
    let [rx, ry, gx, gy, bx, by] = a.xy;
    let (at, len) = (out.as_mut_ptr(), out.len());
    unsafe {
        match encoding.kind {
            GRAY => entries::merqyduk_write_gray(
                a.white, a.wx, a.wy, a.curve, a.gamma, a.intent, at, len,
            ),
            RGB => entries::merqyduk_write_rgb(
                a.white,
                a.wx,
                a.wy,
                a.primaries,
                rx,
                ry,
                gx,
                gy,
                bx,
                by,
                a.curve,
                a.gamma,
                a.intent,
                at,
                len,
            ),
            _ => entries::merqyduk_write_xyb(a.intent, at, len),
        }
    }
}

/// The same with maker and model. Of no output, a null pointer is passed.
pub fn write_device(encoding: &Encoding, device: Device, out: &mut [u8]) -> u32 {
    let a = Arguments::of(encoding);
    let [rx, ry, gx, gy, bx, by] = a.xy;
    let Device { maker, model } = device;
    let (at, len) = (place_mut(out), out.len());
    unsafe {
        match encoding.kind {
            GRAY => entries::merqyduk_write_gray_device(
                a.white, a.wx, a.wy, a.curve, a.gamma, a.intent, maker, model, at, len,
            ),
            RGB => entries::merqyduk_write_rgb_device(
                a.white,
                a.wx,
                a.wy,
                a.primaries,
                rx,
                ry,
                gx,
                gy,
                bx,
                by,
                a.curve,
                a.gamma,
                a.intent,
                maker,
                model,
                at,
                len,
            ),
            _ => entries::merqyduk_write_xyb_device(a.intent, maker, model, at, len),
        }
    }
}

/// What the writer would answer on an output of `capacity` bytes, without an output.
pub fn length(encoding: &Encoding, capacity: usize) -> u32 {
    let a = Arguments::of(encoding);
    let [rx, ry, gx, gy, bx, by] = a.xy;
    unsafe {
        match encoding.kind {
            GRAY => entries::merqyduk_length_gray(
                a.white, a.wx, a.wy, a.curve, a.gamma, a.intent, capacity,
            ),
            RGB => entries::merqyduk_length_rgb(
                a.white,
                a.wx,
                a.wy,
                a.primaries,
                rx,
                ry,
                gx,
                gy,
                bx,
                by,
                a.curve,
                a.gamma,
                a.intent,
                capacity,
            ),
            _ => entries::merqyduk_length_xyb(a.intent, capacity),
        }
    }
}

/// Gray by the entry that counts: the count, where the answer is a length, goes to the lent number.
pub fn write_gray_counted(encoding: &Encoding, out: &mut [u8], rounded: &mut u32) -> u32 {
    let a = Arguments::of(encoding);
    let (at, len) = (place_mut(out), out.len());
    unsafe {
        entries::merqyduk_write_gray_counted(
            a.white, a.wx, a.wy, a.curve, a.gamma, a.intent, at, len, rounded,
        )
    }
}

/// The same without an output.
pub fn length_gray_counted(encoding: &Encoding, capacity: usize, rounded: &mut u32) -> u32 {
    let a = Arguments::of(encoding);
    unsafe {
        entries::merqyduk_length_gray_counted(
            a.white, a.wx, a.wy, a.curve, a.gamma, a.intent, capacity, rounded,
        )
    }
}

/// Gray by the entry that takes the mark of adapted gray, which need be no encoding's, with maker and
/// model.
pub fn write_gray_adapted(
    encoding: &Encoding,
    mark: u32,
    device: Device,
    out: &mut [u8],
    rounded: &mut u32,
) -> u32 {
    let a = Arguments::of(encoding);
    let Device { maker, model } = device;
    let (at, len) = (place_mut(out), out.len());
    unsafe {
        entries::merqyduk_write_gray_adapted(
            a.white, a.wx, a.wy, a.curve, a.gamma, a.intent, mark, maker, model, at, len, rounded,
        )
    }
}

/// The same without an output.
pub fn length_gray_adapted(
    encoding: &Encoding,
    mark: u32,
    capacity: usize,
    rounded: &mut u32,
) -> u32 {
    let a = Arguments::of(encoding);
    unsafe {
        entries::merqyduk_length_gray_adapted(
            a.white, a.wx, a.wy, a.curve, a.gamma, a.intent, mark, capacity, rounded,
        )
    }
}

/// Where bytes stand; of no bytes, a null pointer.
fn place(bytes: &[u8]) -> *const u8 {
    match bytes {
        [] => std::ptr::null(),
        _ => bytes.as_ptr(),
    }
}

fn place_mut(bytes: &mut [u8]) -> *mut u8 {
    match bytes {
        [] => std::ptr::null_mut(),
        _ => bytes.as_mut_ptr(),
    }
}

/// A text read into a record: 0, or a refusal. Of no bytes, a null pointer is passed.
pub fn parse_description(text: &[u8], record: &mut [u8]) -> u32 {
    let (at, len) = (place_mut(record), record.len());
    unsafe { entries::merqyduk_parse_description(place(text), text.len(), at, len) }
}

/// A file put into segments: their length, or a refusal. Of no bytes, a null pointer is passed.
pub fn write_segments(file: &[u8], size: usize, out: &mut [u8]) -> u32 {
    let (at, len) = (place_mut(out), out.len());
    unsafe { entries::merqyduk_write_segments(place(file), file.len(), size, at, len) }
}

/// Segments joined: the file's length, or a refusal. Of no bytes, a null pointer is passed.
pub fn join_segments(segments: &[u8], out: &mut [u8]) -> u32 {
    let (at, len) = (place_mut(out), out.len());
    unsafe { entries::merqyduk_join_segments(place(segments), segments.len(), at, len) }
}

/// Whether the job is good: 0 and the number of entries, or a refusal and the number left as it was.
pub fn job(job: &[u8], entries: &mut u32) -> u32 {
    unsafe { entries::merqyduk_job(job.as_ptr(), job.len(), entries) }
}

/// The profile of an entry: a length, a refusal number below 100, or 0 where there is no such entry.
pub fn job_profile(job: &[u8], i: usize, out: &mut [u8]) -> u32 {
    let (at, len) = (out.as_mut_ptr(), out.len());
    unsafe { entries::merqyduk_job_profile(job.as_ptr(), job.len(), i, at, len) }
}

/// The listing: its length, or 9.
pub fn listing(job: &[u8], out: &mut [u8]) -> usize {
    unsafe { entries::leaf_listing(job.as_ptr(), job.len(), out.as_mut_ptr(), out.len()) }
}

pub fn listing_length(job: &[u8]) -> usize {
    unsafe { entries::leaf_listing_length(job.as_ptr(), job.len()) }
}

/// The profiles of a job: their length, or 9.
pub fn profiles(job: &[u8], out: &mut [u8]) -> usize {
    unsafe { entries::leaf_profiles(job.as_ptr(), job.len(), out.as_mut_ptr(), out.len()) }
}

pub fn profiles_length(job: &[u8]) -> usize {
    unsafe { entries::leaf_profiles_length(job.as_ptr(), job.len()) }
}

/// An entry of a job by its index: its section, place and description; or the refusal, 0 where
/// there is no such entry.
pub fn entry(job: &[u8], i: usize) -> Result<(u32, u32, Vec<u8>), u32> {
    let mut out = [0u8; 512];
    let (at, len) = (out.as_mut_ptr(), out.len());
    let letters = unsafe { entries::leaf_entry(job.as_ptr(), job.len(), i, at, len) };
    let [first, second] = [0, 4].map(|at| word(&out[at..at + 4]));
    match letters {
        0 => Err(first),
        _ => Ok((first, second, out[8..8 + letters].to_vec())),
    }
}
