//! Texts read into encodings, against the judge's own reading of them.

use std::fmt::{Display, Formatter, Result as Printed};

use judge::encoding::{Encoding, GRAY, RGB};
use judge::inputs::{Random, encodings, texts};
use judge::list::hex;
use judge::progress::Progress;
use judge::{answer, typed};

use crate::{Run, port};

/// From this many descriptions and texts on, each answer must have occurred.
const ENOUGH: usize = 100_000;

/// Records are lent of up to so many bytes, in a buffer that is a little longer.
const LENT: usize = 60;
const BUFFER: usize = 64;

pub fn typed(run: &mut Run) {
    let mut random = Random::new(run.seed);
    cases(run, &mut random);
    floats(run, &mut random);
    descriptions(run, &mut random);
    faulty(run, &mut random);
}

fn cases(run: &mut Run, random: &mut Random) {
    let all = texts::cases();
    let mut part = Part::new("typed, cases", all.len(), random);
    for text in &all {
        part.text(text);
    }
    part.finish(run, "texts", false);
}

/// Texts with up to nine floats each, until there are enough floats.
fn floats(run: &mut Run, random: &mut Random) {
    let mut part = Part::new("typed, floats", run.count, random);
    while part.tried < part.count {
        let (text, floats) = texts::with_floats(part.random);
        part.text(&text);
        part.tried += floats - 1;
    }
    part.finish(run, "floats", false);
}

/// Every float of the language, nine in a text. No gamma is zero.
pub fn every_float(run: &mut Run) {
    let mut random = Random::new(run.seed);
    let mut part = Part::new("floats", 2 * texts::FLOATS as usize, &mut random);
    for minus in [false, true] {
        for first in (0..texts::FLOATS).step_by(9) {
            part.text(&texts::nine_floats(minus, first));
            part.tried += 9.min(texts::FLOATS - first) as usize - 1;
        }
    }
    part.finish(run, "floats", false);
}

/// What the original prints is read as an encoding that it prints alike.
fn descriptions(run: &mut Run, random: &mut Random) {
    let mut boundary = encodings::compared_boundary().into_iter();
    let mut part = Part::new("typed, descriptions", run.count, random);
    while part.tried < part.count {
        let encoding = boundary.next();
        let encoding = encoding.unwrap_or_else(|| texts::encoding(part.random));
        let text = answer::description(&encoding);
        let (due, by_numbers) = (typed::read(text.as_bytes()), typed::described(&encoding));
        assert!(
            due == by_numbers,
            "the judge: {text} is {due:?}, by its numbers {by_numbers:?}"
        );
        if let Some(record) = part.text(text.as_bytes()) {
            let found = typed::of_record(&record).original();
            let again = found.map(|encoding| encoding.get_color_encoding_description());
            if again.as_ref() != Some(&text) {
                part.differs(format!("the text of what {text} is read as: {again:?}"));
            }
        }
    }
    part.finish(run, "encodings", true);
}

fn faulty(run: &mut Run, random: &mut Random) {
    let mut part = Part::new("typed, faults", run.count, random);
    while part.tried < part.count {
        let text = texts::faulty(part.random);
        part.text(&text);
    }
    part.finish(run, "texts", true);
}

/// One of the comparisons.
struct Part<'a> {
    name: &'static str,
    count: usize,
    random: &'a mut Random,
    tried: usize,
    met: Met,
    differences: usize,
    progress: Progress,
}

/// A call's answer, and the buffer that holds the lent record at its front.
#[derive(PartialEq)]
struct Called {
    answer: u32,
    buffer: [u8; BUFFER],
}

impl Called {
    fn due(reading: &Result<Encoding, u32>, lent: usize, mut buffer: [u8; BUFFER]) -> Self {
        let answer = match reading {
            Err(number) => *number,
            Ok(_) if lent < typed::RECORD => 9,
            Ok(encoding) => {
                buffer[..typed::RECORD].copy_from_slice(&typed::record(encoding));
                0
            }
        };
        Self { answer, buffer }
    }

    fn by_port(text: &[u8], lent: usize, mut buffer: [u8; BUFFER]) -> Self {
        let answer = port::parse_description(text, &mut buffer[..lent]);
        Self { answer, buffer }
    }
}

impl Display for Called {
    fn fmt(&self, f: &mut Formatter<'_>) -> Printed {
        write!(f, "{} {}", self.answer, hex(&self.buffer))
    }
}

impl<'a> Part<'a> {
    fn new(name: &'static str, count: usize, random: &'a mut Random) -> Self {
        Self {
            name,
            count,
            random,
            tried: 0,
            met: Met::default(),
            differences: 0,
            progress: Progress::new(name, count),
        }
    }

    /// A text, into a record that is long enough and then into one of any length. What stands in
    /// the first, where the port accepts.
    fn text(&mut self, text: &[u8]) -> Option<[u8; typed::RECORD]> {
        let reading = typed::read(text);
        let enough = typed::RECORD + self.random.below(20) as usize;
        let any = self.random.below(LENT as u32 + 1) as usize;
        let [first, second] = [enough, any].map(|lent| self.call(text, &reading, lent));
        self.met.add(text, &reading, &second);
        self.tried += 1;
        self.progress.at(self.tried, self.differences);
        let record = first.buffer.first_chunk().copied();
        record.filter(|_| first.answer == 0)
    }

    fn call(&mut self, text: &[u8], reading: &Result<Encoding, u32>, lent: usize) -> Called {
        // The buffer holds any bytes before, so that one that is written shows.
        let mut buffer = [0; BUFFER];
        for bytes in buffer.chunks_exact_mut(8) {
            bytes.copy_from_slice(&self.random.bits64().to_be_bytes());
        }
        let expected = Called::due(reading, lent, buffer);
        let found = Called::by_port(text, lent, buffer);
        if expected != found {
            self.differs(format!(
                "{} into {lent} bytes: expected {expected}, found {found}",
                text.escape_ascii()
            ));
        }
        found
    }

    fn differs(&mut self, difference: String) {
        self.differences += 1;
        if self.differences <= 3 {
            println!("{}: {difference}", self.name);
        }
    }

    fn finish(self, run: &mut Run, what: &str, all: bool) {
        let Self { name, met, .. } = self;
        let (tried, differences) = (self.tried, self.differences);
        println!("{name}: {tried} {what}, {differences} differences ({met})");
        run.differences += differences;
        if all && self.count >= ENOUGH && met.0.contains(&0) {
            println!("{name}: an answer never occurred");
            run.differences += 1;
        }
    }
}

/// How many texts are gray, RGB by a long form, XYB and a common name, how many are refused by 51
/// and 52, and how many calls by 9.
#[derive(Default)]
struct Met([u64; 7]);

impl Met {
    fn add(&mut self, text: &[u8], reading: &Result<Encoding, u32>, short: &Called) {
        let place = match reading {
            Err(number) => *number as usize - 47,
            Ok(encoding) => match encoding.kind {
                GRAY => 0,
                RGB if text.starts_with(b"RGB_") => 1,
                RGB => 3,
                _ => 2,
            },
        };
        self.0[place] += 1;
        self.0[6] += u64::from(short.answer == 9);
    }
}

impl Display for Met {
    fn fmt(&self, f: &mut Formatter<'_>) -> Printed {
        let [gray, rgb, xyb, common, no_text, zero_gamma, short] = self.0;
        write!(
            f,
            "{gray} gray, {rgb} RGB, {xyb} XYB, {common} common names, {no_text} refused 51, \
             {zero_gamma} refused 52; {short} with a short record 9"
        )
    }
}
