//! The fixed list that `crates/vectors` replays: a first line, then a record a line. README.md
//! describes the form. A record starts with its input, so a list can also be checked.

use std::fmt::Write;

use crate::encoding::{Device, Encoding};
use crate::inputs::jobs::Job;
use crate::inputs::pieces::Colours;
use crate::leaves::{self, Numbers};
use crate::reader::{self, Plan};
use crate::{answer, jobs};

/// The seed of the list that the repository keeps.
pub const SEED: u64 = 1;

/// The commit of libjxl/jxl-rs whose files answer (`SHA256SUMS` has them).
const COMMIT: &str = "9b3c1af91e";

/// What an output holds before it is lent.
const UNTOUCHED: u8 = 165;

/// The first line of a list.
pub fn first_line(seed: u64) -> String {
    format!("merqyduk vectors, format 5, seed {seed}, jxl-rs {COMMIT}")
}

/// The input of a record.
#[derive(Clone, Debug, PartialEq, Eq)]
pub enum Input {
    /// `m`: a message for MD5.
    Message(Vec<u8>),
    /// `b`: bytes for MD5.
    Bytes(Vec<u8>),
    /// `f`: a float for the fixed number.
    Fixed(u32),
    /// `n`: a double to narrow.
    Narrow(u64),
    /// `t`: a float to print.
    Text(u32),
    /// `c`: a white and primaries.
    Colours(Colours),
    /// `g`: a gray white.
    GrayWhite(u32, u32),
    /// `e`: the length of an output, and an encoding.
    Encoding(u32, Encoding),
    /// `r`: a file for the reader.
    File(Vec<u8>),
    /// `j`: a job.
    Job(Vec<u8>),
}

/// A record: an input, and fields of its answer that 01 or RFC 1321 gives, each with its place.
#[derive(Clone, Debug)]
pub struct Record {
    pub input: Input,
    pub given: Vec<(usize, String)>,
}

impl Record {
    pub fn new(input: Input) -> Self {
        Self {
            input,
            given: Vec::new(),
        }
    }

    /// The line of the list.
    ///
    /// # Panics
    /// If a given field is not what the original leads to.
    pub fn line(&self) -> String {
        let mut answer = self.input.answer();
        for (place, field) in &self.given {
            assert_eq!(answer[*place], *field, "{:?}", self.input);
            answer[*place].clone_from(field);
        }
        line(self.input.letter(), &self.input.fields(), &answer)
    }
}

fn line(letter: char, input: &[String], answer: &[String]) -> String {
    let mut line = letter.to_string();
    for field in input.iter().filter(|field| !field.is_empty()) {
        line += " ";
        line += field;
    }
    line += " =";
    for field in answer.iter().filter(|field| !field.is_empty()) {
        line += " ";
        line += field;
    }
    line
}

impl Input {
    pub fn letter(&self) -> char {
        match self {
            Self::Message(_) => 'm',
            Self::Bytes(_) => 'b',
            Self::Fixed(_) => 'f',
            Self::Narrow(_) => 'n',
            Self::Text(_) => 't',
            Self::Colours(_) => 'c',
            Self::GrayWhite(..) => 'g',
            Self::Encoding(..) => 'e',
            Self::File(_) => 'r',
            Self::Job(_) => 'j',
        }
    }

    /// The fields of the input.
    fn fields(&self) -> Vec<String> {
        match self {
            Self::Message(bytes) | Self::Bytes(bytes) => vec![hex(bytes)],
            Self::File(bytes) | Self::Job(bytes) => vec![hex(bytes)],
            Self::Fixed(bits) | Self::Text(bits) => words(&[*bits]),
            Self::Narrow(bits) => vec![format!("{bits:016x}")],
            Self::Colours(Colours { wx, wy, xy }) => [words(&[*wx, *wy]), words(xy)].concat(),
            Self::GrayWhite(wx, wy) => words(&[*wx, *wy]),
            Self::Encoding(room, encoding) => {
                let section = format!("{:02x}", encoding.section());
                vec![section, word(*room), hex(&entry(encoding))]
            }
        }
    }

    /// The fields of the answer.
    fn answer(&self) -> Vec<String> {
        match self {
            Self::Message(bytes) | Self::Bytes(bytes) => vec![hex(&leaves::md5(bytes))],
            Self::Fixed(bits) => match leaves::fixed(*bits) {
                Some(number) => words(&[0, number as u32]),
                None => words(&[1, 0]),
            },
            Self::Narrow(bits) => words(&[leaves::narrow(*bits)]),
            Self::Text(bits) => vec![hex(leaves::text(*bits).as_bytes())],
            Self::Colours(Colours { wx, wy, xy }) => {
                let columns = numbers(&leaves::columns(*wx, *wy, *xy));
                [numbers(&leaves::adaptation(*wx, *wy)), columns].concat()
            }
            Self::GrayWhite(wx, wy) => match leaves::gray_white(*wx, *wy) {
                white if white.status == 0 => numbers(&white),
                white => words(&[white.status]),
            },
            Self::Encoding(room, encoding) => written(*room as usize, encoding),
            Self::File(file) => read(file),
            Self::Job(job) => entries(job),
        }
    }

    /// The input of a line, or None where it is no record.
    pub fn of_line(line: &str) -> Option<Self> {
        let (letter, rest) = line.split_at_checked(1)?;
        let (input, _) = rest.split_once(" =")?;
        let bytes = unhex(&input.replace(' ', ""))?;
        let mut rest = &bytes[..];
        let input = match letter {
            "m" => return Some(Self::Message(bytes)),
            "b" => return Some(Self::Bytes(bytes)),
            "r" => return Some(Self::File(bytes)),
            "j" => return Some(Self::Job(bytes)),
            "f" => Self::Fixed(take_word(&mut rest)?),
            "n" => {
                let high = u64::from(take_word(&mut rest)?);
                Self::Narrow(high << 32 | u64::from(take_word(&mut rest)?))
            }
            "t" => Self::Text(take_word(&mut rest)?),
            "c" => {
                let (wx, wy) = (take_word(&mut rest)?, take_word(&mut rest)?);
                let mut xy = [0; 6];
                for bits in &mut xy {
                    *bits = take_word(&mut rest)?;
                }
                Self::Colours(Colours { wx, wy, xy })
            }
            "g" => Self::GrayWhite(take_word(&mut rest)?, take_word(&mut rest)?),
            "e" => {
                let (section, after) = rest.split_first()?;
                rest = after;
                let room = take_word(&mut rest)?;
                let (kind, adapted) = Encoding::kind_and_mark(*section);
                let encoding = jobs::encoding(kind, rest)?;
                rest = &[];
                Self::Encoding(
                    room,
                    Encoding {
                        adapted,
                        ..encoding
                    },
                )
            }
            _ => return None,
        };
        rest.is_empty().then_some(input)
    }
}

/// The entry of an encoding in a job: the bytes of its section after the count. Adapted gray, which no
/// job has, has those of gray.
fn entry(encoding: &Encoding) -> Vec<u8> {
    let job = Job::of(&[*encoding]);
    let count = job.counts[usize::from(encoding.kind) - 1];
    let end = job.bytes.len() - (job.counts.len() - usize::from(encoding.kind));
    job.bytes[count + 1..end].to_vec()
}

/// The writer's answer into an output of `room` bytes, that whole output, and the text.
fn written(room: usize, encoding: &Encoding) -> Vec<String> {
    let mut output = vec![UNTOUCHED; room];
    let number = match answer::profile_within(encoding, room) {
        Ok(profile) => {
            output[..profile.len()].copy_from_slice(&profile);
            profile.len() as u32
        }
        Err(refusal) => refusal,
    };
    let text = answer::description(encoding);
    vec![
        word(number),
        hex(&leaves::md5(&output)),
        word(text.len() as u32),
        hex(&leaves::md5(text.as_bytes())),
    ]
}

/// The reader's answer: the refusal or 0, and the plan; all zero where the file is refused.
fn read(file: &[u8]) -> Vec<String> {
    let (refusal, plan) = match reader::read(file) {
        Ok(plan) => (0, plan),
        Err(refusal) => (refusal, Plan::default()),
    };
    let [white_x, white_z] = plan.white;
    let mut fields = words(&[
        refusal,
        plan.kind.into(),
        plan.intent,
        plan.curve.into(),
        plan.gamma as u32,
        plan.cicp.into(),
        white_x as u32,
        white_z as u32,
        plan.text.len() as u32,
    ]);
    let numbers = plan.chad.iter().chain(&plan.columns);
    fields.extend(numbers.map(|number| word(*number as u32)));
    let Device { maker, model } = plan.device;
    let marks = [plan.id_not_computed, plan.adapted].map(u32::from);
    fields.extend(words(&[maker, model]));
    fields.extend(words(&marks));
    fields.push(hex(&plan.text));
    fields
}

/// The answer to a job: the refusal or 0, the number of entries; the profiles; each entry by its
/// index, and one past the last; the listing.
fn entries(job: &[u8]) -> Vec<String> {
    let answer = jobs::answer(job);
    let (refusal, count) = match &answer {
        Ok(entries) => (0, entries.len()),
        Err(refusal) => (*refusal, 0),
    };
    let mut fields = words(&[refusal, count as u32]);
    fields.extend(outputs(&jobs::profiles(&answer)));
    for entry in answer.iter().flatten() {
        fields.push(word(match &entry.profile {
            Ok(profile) => profile.len() as u32,
            Err(refusal) => *refusal,
        }));
    }
    fields.push(word(refusal));
    let listing = jobs::listing(&answer);
    fields.extend(outputs(listing.as_bytes()));
    fields.push(hex(listing.as_bytes()));
    fields
}

/// What is answered and what an output holds, for one that is a byte too short and for one of the
/// right length. There is none shorter than no bytes.
fn outputs(bytes: &[u8]) -> Vec<String> {
    let (refusal, short) = match bytes.len() {
        0 => (0, 0),
        n => (9, n - 1),
    };
    vec![
        word(refusal),
        hex(&leaves::md5(&vec![UNTOUCHED; short])),
        word(bytes.len() as u32),
        hex(&leaves::md5(bytes)),
    ]
}

fn numbers<const N: usize>(numbers: &Numbers<N>) -> Vec<String> {
    [words(&[numbers.status]), words(&numbers.bits)].concat()
}

/// A number of 32 bits as a field.
pub fn word(word: u32) -> String {
    format!("{word:08x}")
}

fn words(words: &[u32]) -> Vec<String> {
    words.iter().copied().map(word).collect()
}

/// Bytes as lower-case hexadecimal digits.
pub fn hex(bytes: &[u8]) -> String {
    bytes.iter().fold(String::new(), |mut all, byte| {
        write!(all, "{byte:02x}").expect("a string takes all");
        all
    })
}

fn unhex(digits: &str) -> Option<Vec<u8>> {
    let pair = |pair: &[u8]| u8::from_str_radix(std::str::from_utf8(pair).ok()?, 16).ok();
    let pairs = digits.as_bytes().chunks_exact(2);
    if !pairs.remainder().is_empty() {
        return None;
    }
    pairs.map(pair).collect()
}

fn take_word(rest: &mut &[u8]) -> Option<u32> {
    let (bytes, after) = rest.split_first_chunk()?;
    *rest = after;
    Some(u32::from_be_bytes(*bytes))
}
