//! The original's answer to an encoding, by the refusal numbers of the scope.
//!
//! The original has one error for 5, 7 and 8. They are told apart by calling its own pieces in its
//! order; what they say is then held against the error of the whole call. It refuses XYB with another
//! intent than Perceptual; what is due there is made from its Perceptual file (02, order 8). It has no
//! adapted gray; what is due there is put together from its gray, its RGB and its own adaptation (02,
//! order 9).

use std::sync::LazyLock;

use jxl::api::color::{JxlColorEncoding, open};
use jxl::error::Error;

use crate::encoding::{Curve, Device, Encoding, GAMMA, GRAY, LINEAR, PERCEPTUAL, White, XYB};
use crate::leaves;
use crate::profiles::{self, D50, Sheet, Tag, element, numbers, set_id};

/// The profile, or the number of the refusal (1, or 3 to 8).
///
/// # Panics
/// If the pieces and the whole call disagree, if the original does not refuse XYB with another intent
/// than Perceptual by `InvalidRenderingIntent`, or if a number of the encoding has no meaning.
pub fn profile(encoding: &Encoding) -> Result<Vec<u8>, u32> {
    let original = meaning(encoding);
    if encoding.is_pq_or_hlg() {
        return Err(1);
    }
    if encoding.adapted {
        return adapted_gray(encoding);
    }
    let whole = original.maybe_create_profile();
    if encoding.kind == XYB && encoding.intent != PERCEPTUAL {
        let refused = matches!(whole, Err(Error::InvalidRenderingIntent));
        assert!(refused, "{encoding:?}: the original gives {whole:?}");
        return Ok(xyb_of_other_intent(encoding));
    }
    match (whole, by_pieces(encoding)) {
        (Ok(Some(bytes)), Ok(())) => Ok(bytes),
        (Err(error), Err(refusal)) if refusal.is(&error) => Err(refusal.number),
        (whole, pieces) => panic!("{encoding:?}: the whole {whole:?}, the pieces {pieces:?}"),
    }
}

/// Where the letters of the text stand in the original's XYB file: behind 128 bytes of header, a table
/// of six tags, and the 28 bytes that `desc` begins with. There are seven.
const XYB_TEXT: std::ops::Range<usize> = 232..246;

/// The Perceptual file with the intent in byte 67, the text of the intent, and the id that is then due.
fn xyb_of_other_intent(encoding: &Encoding) -> Vec<u8> {
    let perceptual = Encoding::xyb(PERCEPTUAL);
    let mut file = profile(&perceptual).expect("the original writes this one");
    assert_eq!(file[XYB_TEXT], utf16(&description(&perceptual)));
    file[67] = encoding.intent;
    file[XYB_TEXT].copy_from_slice(&utf16(&description(encoding)));
    set_id(&mut file);
    file
}

const D65: White = White {
    kind: 0,
    wx: 0,
    wy: 0,
};

/// The original's gray file of the curve and intent, under D65, with the text of the encoding, the `wtpt`
/// of its RGB, a `chad` behind that, and the id that is then due.
fn adapted_gray(encoding: &Encoding) -> Result<Vec<u8>, u32> {
    static WTPT: LazyLock<Vec<u8>> = LazyLock::new(|| {
        let rgb = Encoding::rgb(D65, Default::default(), Curve::named(LINEAR), PERCEPTUAL);
        let file = profile(&rgb).expect("the original writes this one");
        element(&file, b"wtpt").expect("RGB has one").to_vec()
    });
    let chad = chad_numbers(encoding)?;
    // Under D65 gray is refused by 8 alone.
    let unmarked = profile(&Encoding::gray(D65, encoding.curve, encoding.intent))?;
    let letters: Vec<u16> = description(encoding).encode_utf16().collect();
    let mut sheet = Sheet::of_file(&unmarked);
    let [desc, _, wtpt, _] = &mut sheet.tags[..] else {
        panic!("the original's gray has four tags")
    };
    desc.element = Some(profiles::text(&letters));
    wtpt.element = Some(WTPT.clone());
    sheet
        .tags
        .insert(3, Tag::new(b"chad", numbers(b"sf32", &chad)));
    Ok(sheet.bytes())
}

/// The nine numbers of `chad` of the encoding's white, or the refusal: 4 or 5.
pub fn chad_numbers(encoding: &Encoding) -> Result<[i32; 9], u32> {
    let floats = chad(encoding).map_err(|refusal| refusal.number)?;
    Ok(floats.map(|x| leaves::fixed(x.to_bits()).expect("it fits")))
}

/// The floats that the fixed numbers of an accepted adapted gray are made from, in the file's order.
pub fn adapted_floats(encoding: &Encoding) -> Vec<f32> {
    let chad = chad(encoding).expect("the encoding is accepted");
    let curve = match encoding.curve.kind {
        GAMMA => vec![reciprocal(encoding.curve)],
        name => profiles::named_floats(name).to_vec(),
    };
    [&D50[..], &chad, &curve].concat()
}

/// The letters of a text in UTF-16, the higher byte first.
fn utf16(text: &str) -> Vec<u8> {
    text.encode_utf16().flat_map(u16::to_be_bytes).collect()
}

/// The same for an output of `room` bytes, which adds refusal 9.
pub fn profile_within(encoding: &Encoding, room: usize) -> Result<Vec<u8>, u32> {
    let bytes = profile(encoding)?;
    within(&bytes, room)?;
    Ok(bytes)
}

/// The bytes, or refusal 9 where an output of `room` bytes is shorter.
pub fn within(bytes: &[u8], room: usize) -> Result<&[u8], u32> {
    if bytes.len() > room {
        return Err(9);
    }
    Ok(bytes)
}

/// A profile of the original with maker and model in its header, and the id that is then due.
pub fn with_device(profile: &[u8], device: Device) -> Vec<u8> {
    let mut file = profile.to_vec();
    file[48..52].copy_from_slice(&device.maker.to_be_bytes());
    file[52..56].copy_from_slice(&device.model.to_be_bytes());
    set_id(&mut file);
    file
}

/// The text of the profile's description; PQ and HLG have one too.
pub fn description(encoding: &Encoding) -> String {
    meaning(encoding).get_color_encoding_description()
}

fn meaning(encoding: &Encoding) -> JxlColorEncoding {
    encoding
        .original()
        .unwrap_or_else(|| panic!("a number without meaning in {encoding:?}"))
}

/// A refusal that the pieces lead to; `value` is the float that does not fit, for 5, 7 and 8.
#[derive(Debug)]
struct Refusal {
    number: u32,
    value: Option<f32>,
}

impl Refusal {
    fn plain(number: u32) -> Self {
        Self {
            number,
            value: None,
        }
    }

    /// Whether the original's error is this refusal.
    fn is(&self, error: &Error) -> bool {
        match (error, self.number) {
            (Error::IccInvalidWhitePointY(_), 3) => true,
            (Error::IccInvalidWhitePoint(..), 4) => true,
            (Error::MatrixInversionFailed(_), 6) => true,
            (Error::IccValueOutOfRangeS15Fixed16(found), 5 | 7 | 8) => self
                .value
                .is_some_and(|value| same_or_both_nan(value, *found)),
            _ => false,
        }
    }
}

fn same_or_both_nan(a: f32, b: f32) -> bool {
    a.to_bits() == b.to_bits() || (a.is_nan() && b.is_nan())
}

/// The first refusal, in the original's order, by its own pieces.
fn by_pieces(encoding: &Encoding) -> Result<(), Refusal> {
    if encoding.kind == XYB {
        return Ok(());
    }
    let (wx, wy) = encoding.white.coordinates().expect("a kind with meaning");
    if encoding.kind == GRAY {
        let white = piece(open::cie_xyz_from_white_cie_xy(wx, wy))?;
        fit(7, white)?;
    } else {
        chad(encoding)?;
        let xy = encoding.primaries.coordinates();
        let xy = xy.expect("a kind with meaning");
        let rows = piece(open::create_icc_rgb_matrix(xy, wx, wy))?;
        // The writer goes by columns: red, green, blue.
        fit(7, (0..9).map(|at| rows[at % 3][at / 3]))?;
    }
    if encoding.curve.kind == GAMMA {
        fit(8, [reciprocal(encoding.curve)])?;
    }
    Ok(())
}

/// `adapt_to_xyz_d50` of the encoding's white, narrowed as the original narrows it, row by row.
fn chad(encoding: &Encoding) -> Result<[f32; 9], Refusal> {
    let (wx, wy) = encoding.white.coordinates().expect("a kind with meaning");
    let rows = piece(open::adapt_to_xyz_d50(wx, wy))?;
    let floats = std::array::from_fn(|at| rows[at / 3][at % 3] as f32);
    fit(5, floats)?;
    Ok(floats)
}

fn reciprocal(gamma: Curve) -> f32 {
    1.0 / f32::from_bits(gamma.gamma)
}

/// A piece's own error, as a refusal.
fn piece<T>(answer: Result<T, Error>) -> Result<T, Refusal> {
    answer.map_err(|error| {
        Refusal::plain(match error {
            Error::IccInvalidWhitePointY(_) => 3,
            Error::IccInvalidWhitePoint(..) => 4,
            Error::MatrixInversionFailed(_) => 6,
            error => panic!("no piece gives {error:?}"),
        })
    })
}

/// Refuses by `number` at the first value that is no fixed number.
fn fit(number: u32, values: impl IntoIterator<Item = f32>) -> Result<(), Refusal> {
    for value in values {
        if leaves::fixed(value.to_bits()).is_none() {
            return Err(Refusal {
                number,
                value: Some(value),
            });
        }
    }
    Ok(())
}
