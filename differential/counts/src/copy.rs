//! The original's profile of an encoding, with the floats that its fixed numbers are made from. These
//! are told by a copy of the original that reports them (build.sh) and is otherwise the same.

use judge::answer;
use judge::encoding::{Encoding, GAMMA, GRAY, PERCEPTUAL, Primaries, RGB, White, XYB};
use jxl::api::color as original;
use jxl_counted::api::color as copy;

pub struct Profile {
    pub bytes: Vec<u8>,
    /// In the original's order.
    pub floats: Vec<f32>,
}

/// The profile, or the number of the refusal (1, or 3 to 8). The copy refuses XYB with another intent
/// than Perceptual, as the original does; the floats are then those of its Perceptual file. It has no
/// adapted gray either: there they are those of its RGB and its gray.
///
/// # Panics
/// If the copy answers otherwise than the original, or reports fewer or more floats than the file
/// has fixed numbers.
pub fn profile(encoding: &Encoding) -> Result<Profile, u32> {
    if encoding.kind == XYB && encoding.intent != PERCEPTUAL {
        let copied = copied(encoding).maybe_create_profile();
        assert!(copied.is_err(), "{encoding:?}: the copy {copied:?}");
        let Profile { floats, .. } = profile(&Encoding::xyb(PERCEPTUAL))?;
        let bytes = answer::profile(encoding)?;
        return Ok(Profile { bytes, floats });
    }
    if encoding.adapted {
        return adapted(encoding);
    }
    let given = answer::profile(encoding);
    // PQ and HLG are refused before the original is asked; it would stop the program.
    if encoding.is_pq_or_hlg() {
        return Err(given.expect_err("the port refuses these"));
    }
    let copied = copied(encoding).maybe_create_profile();
    let floats = reported::taken();
    match (given, copied) {
        (Ok(bytes), Ok(Some(copied))) if bytes == copied => {
            let (due, found) = (fixed_numbers(encoding), floats.len());
            assert!(due == found, "{encoding:?}: {found} floats, not {due}");
            Ok(Profile { bytes, floats })
        }
        (Err(number), Err(_)) => Err(number),
        (given, copied) => panic!("{encoding:?}: the original {given:?}, the copy {copied:?}"),
    }
}

/// The floats of adapted gray: those of `wtpt` and `chad` are the first twelve that the copy reports of an
/// RGB file of the white, whether it refuses what comes behind them or not; those of the curve, the last
/// of its gray file of the curve under D65.
///
/// # Panics
/// If they are not those that the judge makes the file from.
fn adapted(encoding: &Encoding) -> Result<Profile, u32> {
    let bytes = answer::profile(encoding)?;
    let (curve, intent) = (encoding.curve, encoding.intent);
    let rgb = Encoding::rgb(encoding.white, Primaries::named(0), curve, intent);
    let _ = copied(&rgb).maybe_create_profile();
    let white = reported::taken();
    let gray = profile(&Encoding::gray(White::named(0), curve, intent))?.floats;
    let floats = [&white[..3 + 9], &gray[3..]].concat();
    let bits = |floats: &[f32]| floats.iter().map(|x| x.to_bits()).collect::<Vec<_>>();
    let due = answer::adapted_floats(encoding);
    assert!(
        bits(&due) == bits(&floats) && floats.len() == fixed_numbers(encoding),
        "{encoding:?}: {floats:?}, not {due:?}"
    );
    Ok(Profile { bytes, floats })
}

/// How many fixed numbers are made from floats: three of `wtpt`, nine of `chad`, nine of the columns,
/// and the curve's, which the file has once. XYB has six curves of one number, three of five, and a
/// matrix of twelve.
fn fixed_numbers(encoding: &Encoding) -> usize {
    let curve = if encoding.curve.kind == GAMMA { 1 } else { 5 };
    match encoding.kind {
        GRAY if encoding.adapted => 3 + 9 + curve,
        GRAY => 3 + curve,
        RGB => 3 + 9 + 9 + curve,
        _ => 3 + 9 + 6 + 3 * 5 + 12,
    }
}

/// The copy's enum, made from the original's.
fn copied(encoding: &Encoding) -> copy::JxlColorEncoding {
    use original::JxlColorEncoding as From;
    match encoding.original().expect("a number has no meaning") {
        From::RgbColorSpace {
            white_point,
            primaries,
            transfer_function,
            rendering_intent,
        } => copy::JxlColorEncoding::RgbColorSpace {
            white_point: white(white_point),
            primaries: three(primaries),
            transfer_function: curve(transfer_function),
            rendering_intent: intent(rendering_intent),
        },
        From::GrayscaleColorSpace {
            white_point,
            transfer_function,
            rendering_intent,
        } => copy::JxlColorEncoding::GrayscaleColorSpace {
            white_point: white(white_point),
            transfer_function: curve(transfer_function),
            rendering_intent: intent(rendering_intent),
        },
        From::XYB { rendering_intent } => copy::JxlColorEncoding::XYB {
            rendering_intent: intent(rendering_intent),
        },
    }
}

fn white(white: original::JxlWhitePoint) -> copy::JxlWhitePoint {
    use copy::JxlWhitePoint as To;
    use original::JxlWhitePoint as From;
    match white {
        From::D65 => To::D65,
        From::E => To::E,
        From::DCI => To::DCI,
        From::Chromaticity { wx, wy } => To::Chromaticity { wx, wy },
    }
}

fn three(primaries: original::JxlPrimaries) -> copy::JxlPrimaries {
    use copy::JxlPrimaries as To;
    use original::JxlPrimaries as From;
    match primaries {
        From::SRGB => To::SRGB,
        From::BT2100 => To::BT2100,
        From::P3 => To::P3,
        From::Chromaticities {
            rx,
            ry,
            gx,
            gy,
            bx,
            by,
        } => To::Chromaticities {
            rx,
            ry,
            gx,
            gy,
            bx,
            by,
        },
    }
}

fn curve(curve: original::JxlTransferFunction) -> copy::JxlTransferFunction {
    use copy::JxlTransferFunction as To;
    use original::JxlTransferFunction as From;
    match curve {
        From::BT709 => To::BT709,
        From::Linear => To::Linear,
        From::SRGB => To::SRGB,
        From::PQ => To::PQ,
        From::DCI => To::DCI,
        From::HLG => To::HLG,
        From::Gamma(gamma) => To::Gamma(gamma),
    }
}

fn intent(intent: original::RenderingIntent) -> copy::RenderingIntent {
    use copy::RenderingIntent as To;
    use original::RenderingIntent as From;
    match intent {
        From::Perceptual => To::Perceptual,
        From::Relative => To::Relative,
        From::Saturation => To::Saturation,
        From::Absolute => To::Absolute,
    }
}
