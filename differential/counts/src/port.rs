//! The port's entries that count, through its static library.

use judge::encoding::{Encoding, GRAY, RGB};

mod entries {
    unsafe extern "C" {
        pub fn merqyduk_write_xyb_counted(
            intent: u32,
            out: *mut u8,
            len: usize,
            rounded: *mut u32,
        ) -> u32;
        #[allow(clippy::too_many_arguments)]
        pub fn merqyduk_write_gray_counted(
            white: u32,
            wx: f32,
            wy: f32,
            curve: u32,
            gamma: f32,
            intent: u32,
            out: *mut u8,
            len: usize,
            rounded: *mut u32,
        ) -> u32;
        #[allow(clippy::too_many_arguments)]
        pub fn merqyduk_write_rgb_counted(
            white: u32,
            wx: f32,
            wy: f32,
            primaries: u32,
            rx: f32,
            ry: f32,
            gx: f32,
            gy: f32,
            bx: f32,
            by: f32,
            curve: u32,
            gamma: f32,
            intent: u32,
            out: *mut u8,
            len: usize,
            rounded: *mut u32,
        ) -> u32;
        #[allow(clippy::too_many_arguments)]
        pub fn merqyduk_write_gray_adapted(
            white: u32,
            wx: f32,
            wy: f32,
            curve: u32,
            gamma: f32,
            intent: u32,
            adapted: u32,
            maker: u32,
            model: u32,
            out: *mut u8,
            len: usize,
            rounded: *mut u32,
        ) -> u32;
        #[allow(clippy::too_many_arguments)]
        pub fn merqyduk_length_gray_adapted(
            white: u32,
            wx: f32,
            wy: f32,
            curve: u32,
            gamma: f32,
            intent: u32,
            adapted: u32,
            capacity: usize,
            rounded: *mut u32,
        ) -> u32;
        pub fn merqyduk_length_xyb_counted(intent: u32, capacity: usize, rounded: *mut u32) -> u32;
        #[allow(clippy::too_many_arguments)]
        pub fn merqyduk_length_gray_counted(
            white: u32,
            wx: f32,
            wy: f32,
            curve: u32,
            gamma: f32,
            intent: u32,
            capacity: usize,
            rounded: *mut u32,
        ) -> u32;
        #[allow(clippy::too_many_arguments)]
        pub fn merqyduk_length_rgb_counted(
            white: u32,
            wx: f32,
            wy: f32,
            primaries: u32,
            rx: f32,
            ry: f32,
            gx: f32,
            gy: f32,
            bx: f32,
            by: f32,
            curve: u32,
            gamma: f32,
            intent: u32,
            capacity: usize,
            rounded: *mut u32,
        ) -> u32;
    }
}

/// The numbers that stand for white, primaries, curve, intent and the mark of adapted gray. They may
/// have no meaning.
#[derive(Clone, Copy, Debug)]
pub struct Codes {
    pub white: u32,
    pub primaries: u32,
    pub curve: u32,
    pub intent: u32,
    pub adapted: u32,
}

impl Codes {
    pub fn of(encoding: &Encoding) -> Self {
        Self {
            white: encoding.white.kind.into(),
            primaries: encoding.primaries.kind.into(),
            curve: encoding.curve.kind.into(),
            intent: encoding.intent.into(),
            adapted: encoding.adapted.into(),
        }
    }
}

/// The kind and the floats of an encoding, and codes that need not be its own. Gray is asked for by the
/// entries that take its mark or, where it has none, also by those without.
#[derive(Clone, Copy)]
pub struct Asked<'a> {
    pub encoding: &'a Encoding,
    pub codes: Codes,
    pub with_mark: bool,
}

impl Asked<'_> {
    fn white(&self) -> (f32, f32) {
        let white = self.encoding.white;
        (f32::from_bits(white.wx), f32::from_bits(white.wy))
    }

    fn gamma(&self) -> f32 {
        f32::from_bits(self.encoding.curve.gamma)
    }

    /// The writer: a length, or a refusal number below 100. Of no output, a null pointer is passed.
    pub fn write(&self, out: &mut [u8], rounded: *mut u32) -> u32 {
        let (len, c) = (out.len(), self.codes);
        let at = match out {
            [] => std::ptr::null_mut(),
            _ => out.as_mut_ptr(),
        };
        let ((wx, wy), gamma) = (self.white(), self.gamma());
        let [rx, ry, gx, gy, bx, by] = self.encoding.primaries.xy.map(f32::from_bits);
        unsafe {
            match self.encoding.kind {
                GRAY if self.with_mark => entries::merqyduk_write_gray_adapted(
                    c.white, wx, wy, c.curve, gamma, c.intent, c.adapted, 0, 0, at, len, rounded,
                ),
                GRAY => entries::merqyduk_write_gray_counted(
                    c.white, wx, wy, c.curve, gamma, c.intent, at, len, rounded,
                ),
                RGB => entries::merqyduk_write_rgb_counted(
                    c.white,
                    wx,
                    wy,
                    c.primaries,
                    rx,
                    ry,
                    gx,
                    gy,
                    bx,
                    by,
                    c.curve,
                    gamma,
                    c.intent,
                    at,
                    len,
                    rounded,
                ),
                _ => entries::merqyduk_write_xyb_counted(c.intent, at, len, rounded),
            }
        }
    }

    /// What the writer would answer on an output of `capacity` bytes, without an output.
    pub fn length(&self, capacity: usize, rounded: *mut u32) -> u32 {
        let ((wx, wy), gamma, c) = (self.white(), self.gamma(), self.codes);
        let [rx, ry, gx, gy, bx, by] = self.encoding.primaries.xy.map(f32::from_bits);
        unsafe {
            match self.encoding.kind {
                GRAY if self.with_mark => entries::merqyduk_length_gray_adapted(
                    c.white, wx, wy, c.curve, gamma, c.intent, c.adapted, capacity, rounded,
                ),
                GRAY => entries::merqyduk_length_gray_counted(
                    c.white, wx, wy, c.curve, gamma, c.intent, capacity, rounded,
                ),
                RGB => entries::merqyduk_length_rgb_counted(
                    c.white,
                    wx,
                    wy,
                    c.primaries,
                    rx,
                    ry,
                    gx,
                    gy,
                    bx,
                    by,
                    c.curve,
                    gamma,
                    c.intent,
                    capacity,
                    rounded,
                ),
                _ => entries::merqyduk_length_xyb_counted(c.intent, capacity, rounded),
            }
        }
    }
}
