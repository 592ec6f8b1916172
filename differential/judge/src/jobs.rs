//! Jobs, read by the words of the scope ("The job"); each entry is answered by the original.

use crate::answer;
use crate::encoding::{Curve, Encoding, GRAY, Primaries, RGB, White, XYB};

/// The sections in their order. A section has the number of its kind of encoding.
pub const SECTIONS: [u8; 3] = [GRAY, RGB, XYB];

/// An entry, its place in the section from 1, and the original's answer to it: the profile, or the
/// number of the refusal (1, or 3 to 8).
pub struct Entry {
    pub section: u8,
    pub place: u8,
    pub encoding: Encoding,
    pub profile: Result<Vec<u8>, u32>,
}

/// The entries of a job in order, or the refusal of the job as a whole (41 to 43).
pub type Answer = Result<Vec<Entry>, u32>;

/// The original's answer to a job.
pub fn answer(job: &[u8]) -> Answer {
    let places = read(job)?;
    let entries = places.into_iter().map(|(place, encoding)| Entry {
        section: encoding.kind,
        place,
        encoding,
        profile: answer::profile(&encoding),
    });
    Ok(entries.collect())
}

/// What the listing program prints.
pub fn listing(answer: &Answer) -> String {
    let entries = match answer {
        Ok(entries) => entries,
        Err(refusal) => return format!("job refused {refusal}\n"),
    };
    let mut text = format!("profiles {}\n", entries.len());
    for entry in entries {
        text += &format!("{} {} ", entry.section, entry.place);
        text += &match &entry.profile {
            Ok(profile) => format!("{}\n", profile.len()),
            Err(refusal) => format!("refused {refusal}\n"),
        };
    }
    text
}

/// What the second program writes: the accepted profiles one after another.
pub fn profiles(answer: &Answer) -> Vec<u8> {
    let entries = answer.iter().flatten();
    let accepted = entries.filter_map(|entry| entry.profile.as_ref().ok());
    accepted.flatten().copied().collect()
}

/// The encodings of a job, each with its place in its section. 43 comes after 41 and 42, wherever
/// they stand.
fn read(job: &[u8]) -> Result<Vec<(u8, Encoding)>, u32> {
    let mut rest = Rest(job);
    let mut all = Vec::new();
    for section in SECTIONS {
        let count = rest.byte()?;
        for place in 1..=count {
            all.push((place, rest.entry(section)?));
        }
    }
    if !rest.0.is_empty() {
        return Err(42);
    }
    if all.iter().any(|(_, one)| one.original().is_none()) {
        return Err(43);
    }
    Ok(all)
}

/// The encoding that the bytes of one entry mean; None where they are too few, too many or without
/// meaning.
pub fn encoding(section: u8, entry: &[u8]) -> Option<Encoding> {
    let mut rest = Rest(entry);
    let encoding = rest.entry(section).ok()?;
    let whole = SECTIONS.contains(&section) && rest.0.is_empty();
    encoding.original().filter(|_| whole).map(|_| encoding)
}

/// The bytes of a job that are not read yet. Each call takes from the front, or answers 41 where
/// they do not suffice.
struct Rest<'a>(&'a [u8]);

impl Rest<'_> {
    fn byte(&mut self) -> Result<u8, u32> {
        let (first, rest) = self.0.split_first().ok_or(41u32)?;
        self.0 = rest;
        Ok(*first)
    }

    fn float(&mut self) -> Result<u32, u32> {
        let (bits, rest) = self.0.split_first_chunk().ok_or(41u32)?;
        self.0 = rest;
        Ok(u32::from_be_bytes(*bits))
    }

    fn white(&mut self) -> Result<White, u32> {
        Ok(White {
            kind: self.byte()?,
            wx: self.float()?,
            wy: self.float()?,
        })
    }

    fn primaries(&mut self) -> Result<Primaries, u32> {
        let kind = self.byte()?;
        let mut xy = [0; 6];
        for bits in &mut xy {
            *bits = self.float()?;
        }
        Ok(Primaries { kind, xy })
    }

    fn curve(&mut self) -> Result<Curve, u32> {
        Ok(Curve {
            kind: self.byte()?,
            gamma: self.float()?,
        })
    }

    fn entry(&mut self, section: u8) -> Result<Encoding, u32> {
        Ok(match section {
            GRAY => Encoding::gray(self.white()?, self.curve()?, self.byte()?),
            RGB => {
                let (white, primaries) = (self.white()?, self.primaries()?);
                Encoding::rgb(white, primaries, self.curve()?, self.byte()?)
            }
            _ => Encoding::xyb(self.byte()?),
        })
    }
}
