//! The writer against the original: with maker and model zero, where its files are the original's, and
//! with others, where they are these with the eight bytes changed and the id that is then due. Each file
//! that is written is read, also without its id and under other ids. Of each white, curve and intent
//! adapted gray is tried too (`adapted`).

use std::collections::BTreeMap;
use std::fmt::{Display, Formatter, Result as Printed};

use judge::answer;
use judge::encoding::{Encoding, GRAY, RGB, XYB};
use judge::inputs::{Random, devices, encodings};

use crate::adapted::AdaptedGray;
use crate::{PART, Run, Tally, port, reader};

/// From this many encodings on, each answer must have occurred.
pub const ENOUGH: usize = 100_000;

/// An output that is enough for every profile.
pub const LONG: usize = 1300;

/// After so many encodings comes one more that is tried with maker and model only.
const BESIDE: usize = 16;

/// Tries encodings in both ways, and adapted gray. The others draw their numbers apart, so that the
/// first has the encodings and outputs that the seed always had.
pub fn writer(run: &mut Run) {
    let mut random = Random::new(run.seed);
    let mut plain = Tally::new("writer and dry call", run.count);
    let mut with_device = WithDevice {
        random: random.apart(),
        tally: Tally::new(
            "writer with maker and model",
            run.count + run.count / BESIDE,
        ),
        beside: Tally::new("writer and dry call, beside", run.count / BESIDE),
        met: Met::default(),
        read: Tally::new("written files read", 2 * (run.count + run.count / BESIDE)),
    };
    let own = Random::new(random.apart().bits64());
    let mut adapted = AdaptedGray::new(own, run.count);
    while plain.tried < run.count {
        for (encoding, room) in calls(&mut random, PART.min(run.count - plain.tried)) {
            let profile = answer::profile(&encoding);
            let call = Call::new(&encoding, room, &profile);
            let found = call.answers();
            plain.add(&(encoding, room), &call.due(), &found);
            with_device.read_back(&encoding, &found.written);
            with_device.call(&call, &found);
            if plain.tried.is_multiple_of(BESIDE) {
                with_device.beside(&encoding);
            }
            adapted.call(&encoding);
        }
    }
    println!("{plain}");
    run.differences += plain.different;
    with_device.finish(run);
    adapted.finish(run);
}

/// Encodings, each with an output of 1,300 bytes or, one in eight, of any length up to 800.
fn calls(random: &mut Random, count: usize) -> Vec<(Encoding, usize)> {
    let encodings = encodings::compared(random, count);
    let mut room = || match random.below(8) {
        0 => random.below(801) as usize,
        _ => LONG,
    };
    encodings.into_iter().map(|one| (one, room())).collect()
}

// ---- one call

/// What the output holds before a call.
const FILL: u8 = 0xa5;

/// What a call on an output of `room` bytes answers and leaves in it.
#[derive(Debug, PartialEq)]
pub struct Written {
    pub answer: usize,
    output: Vec<u8>,
}

impl Written {
    /// What is due where the original gives these bytes or this refusal.
    pub fn due(given: Result<&[u8], u32>, room: usize) -> Self {
        let mut output = vec![FILL; room];
        let answer = match given.and_then(|bytes| answer::within(bytes, room)) {
            Ok(bytes) => {
                output[..bytes.len()].copy_from_slice(bytes);
                bytes.len()
            }
            Err(number) => number as usize,
        };
        Self { answer, output }
    }

    /// The file, where one was written: a number below 100 is a refusal.
    pub fn file(&self) -> Option<&[u8]> {
        self.output
            .get(..self.answer)
            .filter(|file| file.len() >= 100)
    }

    /// What a call of the port gives.
    pub fn by(call: impl FnOnce(&mut [u8]) -> usize, room: usize) -> Self {
        let mut output = vec![FILL; room];
        let answer = call(&mut output);
        Self { answer, output }
    }
}

/// An encoding, the bytes of the output, and what the original gives: a profile or a refusal.
struct Call<'a> {
    encoding: &'a Encoding,
    room: usize,
    given: Result<&'a [u8], u32>,
}

/// What is answered with an output, and without one.
#[derive(Debug, PartialEq)]
struct Answers {
    written: Written,
    lengths: [usize; 5],
}

impl<'a> Call<'a> {
    fn new(encoding: &'a Encoding, room: usize, profile: &'a Result<Vec<u8>, u32>) -> Self {
        Self {
            encoding,
            room,
            given: profile.as_deref().map_err(|number| *number),
        }
    }

    /// What is due with maker and model zero.
    fn due(&self) -> Answers {
        let within = |capacity| self.given.and_then(|bytes| answer::within(bytes, capacity));
        let length = |capacity| match within(capacity) {
            Ok(bytes) => bytes.len(),
            Err(number) => number as usize,
        };
        Answers {
            written: Written::due(self.given, self.room),
            lengths: lengths(length, self.room),
        }
    }

    /// What the port answers.
    fn answers(&self) -> Answers {
        let write = |out: &mut [u8]| port::write(self.encoding, out) as usize;
        let length = |capacity| port::length(self.encoding, capacity) as usize;
        Answers {
            written: Written::by(write, self.room),
            lengths: lengths(length, self.room),
        }
    }
}

/// What is answered without an output: for `room` bytes, none, the most, as many as the answer for the most says, and one less.
fn lengths(answer: impl Fn(usize) -> usize, room: usize) -> [usize; 5] {
    let most = answer(usize::MAX);
    [
        answer(room),
        answer(0),
        most,
        answer(most),
        answer(most - 1),
    ]
}

// ---- with maker and model

struct WithDevice {
    random: Random,
    tally: Tally,
    /// The encodings that come beside the others, with maker and model zero.
    beside: Tally,
    met: Met,
    /// The files of both ways, each under four ids.
    read: Tally,
}

impl WithDevice {
    /// The call with any maker and model. Its answer is also that of the call without them, and of the
    /// dry call.
    fn call(&mut self, call: &Call, plain: &Answers) {
        let Call { encoding, room, .. } = *call;
        let device = devices::any(&mut self.random);
        let profile = call.given.map(|bytes| answer::with_device(bytes, device));
        let given = profile.as_deref().map_err(|number| *number);
        let due = Written::due(given, room);
        self.met.add(encoding, due.answer);
        let answers = [due.answer; 2];
        let write = |out: &mut [u8]| port::write_device(encoding, device, out) as usize;
        let found = Written::by(write, room);
        self.read_back(encoding, &found);
        let [dry, ..] = plain.lengths;
        self.tally.add(
            &(encoding, device, room),
            &(due, answers),
            &(found, [plain.written.answer, dry]),
        );
    }

    /// Reads a file that was written by its id, without it, and with a bit changed, another each time.
    fn read_back(&mut self, encoding: &Encoding, written: &Written) {
        if let Some(file) = written.file() {
            let [due, found] = reader::of_written(encoding, file, self.read.tried % 128);
            self.read.add(encoding, &due, &found);
        }
    }

    /// What the encodings of the comparison have little of: XYB, each intent alike, numbers without
    /// meaning, and outputs of about the profile's length. Both ways are tried.
    fn beside(&mut self, encoding: &Encoding) {
        let random = &mut self.random;
        let encoding = match random.below(3) {
            0 => *encoding,
            1 => Encoding::xyb(random.below(4) as u8),
            _ => encodings::without_meaning(random, *encoding),
        };
        let known = encoding.original().ok_or(43);
        let profile = known.and_then(|_| answer::profile(&encoding));
        let length = profile.as_ref().map_or(0, Vec::len);
        let rooms = [length, length.saturating_sub(1), length + 1, 0, LONG];
        let call = Call::new(&encoding, random.pick(&rooms), &profile);
        let found = call.answers();
        self.beside.add(&(encoding, call.room), &call.due(), &found);
        self.read_back(&encoding, &found.written);
        self.call(&call, &found);
    }

    fn finish(self, run: &mut Run) {
        let Self {
            tally,
            beside,
            met,
            read,
            ..
        } = self;
        println!("{beside}");
        println!("{tally} ({met})");
        println!("{read}");
        run.differences += beside.different + tally.different + read.different;
        if run.count >= ENOUGH && met.lacks_one() {
            println!("{}: an answer never occurred", tally.name);
            run.differences += 1;
        }
    }
}

/// The kinds of files, XYB by intent, and the refusals. Number 2 no longer occurs.
const KINDS: [(u8, u8, &str); 6] = [
    (GRAY, 0, "gray"),
    (RGB, 0, "RGB"),
    (XYB, 0, "XYB Perceptual"),
    (XYB, 1, "XYB Relative"),
    (XYB, 2, "XYB Saturation"),
    (XYB, 3, "XYB Absolute"),
];
const REFUSALS: [usize; 9] = [1, 3, 4, 5, 6, 7, 8, 9, 43];

/// How often each answer was due.
#[derive(Default)]
struct Met {
    /// By kind and, for XYB, intent.
    files: BTreeMap<(u8, u8), u64>,
    refused: BTreeMap<usize, u64>,
}

impl Met {
    fn add(&mut self, encoding: &Encoding, answer: usize) {
        let intent = match encoding.kind {
            XYB => encoding.intent,
            _ => 0,
        };
        let times = match REFUSALS.contains(&answer) {
            true => self.refused.entry(answer).or_default(),
            false => self.files.entry((encoding.kind, intent)).or_default(),
        };
        *times += 1;
    }

    fn lacks_one(&self) -> bool {
        self.files.len() < KINDS.len() || self.refused.len() < REFUSALS.len()
    }
}

impl Display for Met {
    fn fmt(&self, f: &mut Formatter<'_>) -> Printed {
        let files = KINDS.map(|(kind, intent, name)| {
            let times = self.files.get(&(kind, intent)).unwrap_or(&0);
            format!("{times} {name}")
        });
        write!(f, "{}", files.join(", "))?;
        for (number, times) in &self.refused {
            write!(f, ", {times} refused {number}")?;
        }
        Ok(())
    }
}
