//! An encoding as plain numbers, and the original's enum that it stands for.
//!
//! Floats are held as their bits, so that two encodings are equal where their bits are.

use std::fmt::{Debug, Formatter, Result as Printed};

use jxl::api::color::{
    JxlColorEncoding, JxlPrimaries, JxlTransferFunction, JxlWhitePoint, RenderingIntent,
};

pub const GRAY: u8 = 1;
pub const RGB: u8 = 2;
pub const XYB: u8 = 3;

/// Adapted gray, which is gray with the mark of 02's order 9, where a list has one number for kind and
/// mark.
pub const ADAPTED_GRAY: u8 = 4;

/// The number of the own white and of the own primaries.
pub const OWN: u8 = 3;

pub const BT709: u8 = 0;
pub const LINEAR: u8 = 1;
pub const SRGB_CURVE: u8 = 2;
pub const PQ: u8 = 3;
pub const DCI_CURVE: u8 = 4;
pub const HLG: u8 = 5;
pub const GAMMA: u8 = 6;

/// The only intent of XYB that the original writes.
pub const PERCEPTUAL: u8 = 0;

/// Kind 0 D65, 1 E, 2 DCI, 3 own; the coordinates count for 3 only.
#[derive(Clone, Copy, Debug, Default, PartialEq, Eq, Hash)]
pub struct White {
    pub kind: u8,
    pub wx: u32,
    pub wy: u32,
}

/// Kind 0 SRGB, 1 BT2100, 2 P3, 3 own; the six coordinates (rx, ry, gx, gy, bx, by) count for 3
/// only.
#[derive(Clone, Copy, Debug, Default, PartialEq, Eq, Hash)]
pub struct Primaries {
    pub kind: u8,
    pub xy: [u32; 6],
}

/// Kind 0 to 6 in the original's order; gamma counts for 6 only.
#[derive(Clone, Copy, Debug, Default, PartialEq, Eq, Hash)]
pub struct Curve {
    pub kind: u8,
    pub gamma: u32,
}

/// Kind 1 gray, 2 RGB, 3 XYB. Gray has no primaries; XYB has an intent and nothing else.
#[derive(Clone, Copy, Debug, Default, PartialEq, Eq, Hash)]
pub struct Encoding {
    pub kind: u8,
    pub white: White,
    pub primaries: Primaries,
    pub curve: Curve,
    pub intent: u8,
    /// The mark of 02's order 9, which only gray has: its white is adapted to D50. The original writes
    /// none with it.
    pub adapted: bool,
}

/// Maker and model of 02's order 6, four bytes each, the first the most significant. The original
/// has none: its headers have zeros for them.
#[derive(Clone, Copy, Default, PartialEq, Eq)]
pub struct Device {
    pub maker: u32,
    pub model: u32,
}

impl Debug for Device {
    /// In hexadecimal, so that the bytes show.
    fn fmt(&self, f: &mut Formatter<'_>) -> Printed {
        f.debug_struct("Device")
            .field("maker", &format_args!("{:#010x}", self.maker))
            .field("model", &format_args!("{:#010x}", self.model))
            .finish()
    }
}

impl White {
    pub fn named(kind: u8) -> Self {
        Self {
            kind,
            ..Self::default()
        }
    }

    pub fn own(wx: f32, wy: f32) -> Self {
        Self {
            kind: OWN,
            wx: wx.to_bits(),
            wy: wy.to_bits(),
        }
    }

    fn original(&self) -> Option<JxlWhitePoint> {
        Some(match self.kind {
            0 => JxlWhitePoint::D65,
            1 => JxlWhitePoint::E,
            2 => JxlWhitePoint::DCI,
            OWN => JxlWhitePoint::Chromaticity {
                wx: f32::from_bits(self.wx),
                wy: f32::from_bits(self.wy),
            },
            _ => return None,
        })
    }

    /// The coordinates that the original gives it.
    pub fn coordinates(&self) -> Option<(f32, f32)> {
        self.original().map(|white| white.to_xy_coords())
    }
}

impl Primaries {
    pub fn named(kind: u8) -> Self {
        Self {
            kind,
            ..Self::default()
        }
    }

    pub fn own(xy: [f32; 6]) -> Self {
        Self {
            kind: OWN,
            xy: xy.map(f32::to_bits),
        }
    }

    fn original(&self) -> Option<JxlPrimaries> {
        let [rx, ry, gx, gy, bx, by] = self.xy.map(f32::from_bits);
        Some(match self.kind {
            0 => JxlPrimaries::SRGB,
            1 => JxlPrimaries::BT2100,
            2 => JxlPrimaries::P3,
            OWN => JxlPrimaries::Chromaticities {
                rx,
                ry,
                gx,
                gy,
                bx,
                by,
            },
            _ => return None,
        })
    }

    /// The coordinates that the original gives them, in the order of the field `xy`.
    pub fn coordinates(&self) -> Option<[f32; 6]> {
        let [r, g, b] = self.original()?.to_xy_coords();
        Some([r.0, r.1, g.0, g.1, b.0, b.1])
    }
}

impl Curve {
    pub fn named(kind: u8) -> Self {
        Self { kind, gamma: 0 }
    }

    pub fn gamma(gamma: f32) -> Self {
        Self {
            kind: GAMMA,
            gamma: gamma.to_bits(),
        }
    }

    fn original(&self) -> Option<JxlTransferFunction> {
        Some(match self.kind {
            BT709 => JxlTransferFunction::BT709,
            LINEAR => JxlTransferFunction::Linear,
            SRGB_CURVE => JxlTransferFunction::SRGB,
            PQ => JxlTransferFunction::PQ,
            DCI_CURVE => JxlTransferFunction::DCI,
            HLG => JxlTransferFunction::HLG,
            GAMMA => JxlTransferFunction::Gamma(f32::from_bits(self.gamma)),
            _ => return None,
        })
    }
}

impl Encoding {
    pub fn gray(white: White, curve: Curve, intent: u8) -> Self {
        Self {
            kind: GRAY,
            white,
            curve,
            intent,
            ..Self::default()
        }
    }

    pub fn rgb(white: White, primaries: Primaries, curve: Curve, intent: u8) -> Self {
        Self {
            kind: RGB,
            white,
            primaries,
            curve,
            intent,
            ..Self::default()
        }
    }

    pub fn adapted_gray(white: White, curve: Curve, intent: u8) -> Self {
        Self {
            adapted: true,
            ..Self::gray(white, curve, intent)
        }
    }

    pub fn xyb(intent: u8) -> Self {
        Self {
            kind: XYB,
            intent,
            ..Self::default()
        }
    }

    /// Adapted gray of the same white, curve and intent; None for XYB, which has no white.
    pub fn to_adapted_gray(&self) -> Option<Self> {
        let adapted = Self::adapted_gray(self.white, self.curve, self.intent);
        (self.kind != XYB).then_some(adapted)
    }

    /// Its number in a list: that of its kind, or of adapted gray.
    pub fn section(&self) -> u8 {
        if self.adapted {
            ADAPTED_GRAY
        } else {
            self.kind
        }
    }

    /// Kind and mark of a number in a list. One that no list has is left as it is.
    pub fn kind_and_mark(section: u8) -> (u8, bool) {
        match section {
            ADAPTED_GRAY => (GRAY, true),
            kind => (kind, false),
        }
    }

    /// Whether the curve is PQ or HLG, which the port refuses before all else.
    pub fn is_pq_or_hlg(&self) -> bool {
        self.kind != XYB && matches!(self.curve.kind, PQ | HLG)
    }

    /// The original's enum, which has no mark. None where a number has no meaning.
    pub fn original(&self) -> Option<JxlColorEncoding> {
        let rendering_intent = match self.intent {
            0 => RenderingIntent::Perceptual,
            1 => RenderingIntent::Relative,
            2 => RenderingIntent::Saturation,
            3 => RenderingIntent::Absolute,
            _ => return None,
        };
        Some(match self.kind {
            GRAY => JxlColorEncoding::GrayscaleColorSpace {
                white_point: self.white.original()?,
                transfer_function: self.curve.original()?,
                rendering_intent,
            },
            RGB => JxlColorEncoding::RgbColorSpace {
                white_point: self.white.original()?,
                primaries: self.primaries.original()?,
                transfer_function: self.curve.original()?,
                rendering_intent,
            },
            XYB => JxlColorEncoding::XYB { rendering_intent },
            _ => return None,
        })
    }
}
