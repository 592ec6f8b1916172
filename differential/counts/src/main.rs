//! Tries the port's count of rounded numbers against one that is made from the original's own floats.
//!
//! Each part takes COUNT encodings: those that the writer is compared with, those with many whole
//! numbers, and those with a code that has no meaning; then adapted gray of the whites, curves and intents
//! of each of these. Prints for each part how often each count and each answer occurred, and fails if one
//! call differs.

mod copy;
mod inputs;
mod met;
mod port;

use std::fmt::{Display, Formatter, Result as Printed};
use std::process::ExitCode;

use judge::encoding::{Encoding, GRAY};
use judge::inputs::{Random, encodings};
use judge::progress::Progress;
use judge::{answer, leaves};

use met::Met;
use port::{Asked, Codes};

const USAGE: &str = "counts COUNT [SEED]";

/// Encodings are made in parts, so that they fit into memory.
const PART: usize = 1_000_000;

/// From this many encodings on, each answer and each class of number must have occurred.
const ENOUGH: usize = 100_000;

/// An output that is enough for every profile.
const LONG: usize = 1300;

// ---- one call

/// What a call answers and leaves in what is lent to it: the output, and the count between two
/// numbers that are not lent.
#[derive(Clone, PartialEq)]
struct Called {
    answer: u32,
    output: Vec<u8>,
    count: [u32; 3],
}

impl Called {
    /// Before the call, what is lent holds anything.
    fn before(random: &mut Random, room: usize) -> Self {
        Self {
            answer: 0,
            output: vec![random.bits32() as u8; room],
            count: [0; 3].map(|_| random.bits32()),
        }
    }
}

impl Display for Called {
    fn fmt(&self, f: &mut Formatter<'_>) -> Printed {
        let [before, count, behind] = self.count;
        let answer = self.answer;
        write!(
            f,
            "{answer}, count {count}, beside it {before:x} {behind:x}"
        )
    }
}

/// What is due for an encoding: a profile and its count, or a refusal.
#[derive(Clone, Copy)]
struct Due<'a> {
    asked: Asked<'a>,
    answer: Result<(&'a [u8], u32), u32>,
}

impl Due<'_> {
    /// A call with an output of `room` bytes, and those without one. What the first that differs
    /// does.
    fn calls(&self, random: &mut Random, room: usize) -> Result<(), String> {
        let write = |output: &mut [u8], count| self.asked.write(output, count);
        self.call(random, room, room, write)
            .map_err(|how| format!("written into {room} bytes: {how}"))?;
        let most = match self.answer {
            Ok((bytes, _)) => bytes.len(),
            Err(number) => number as usize,
        };
        for capacity in [room, 0, usize::MAX, most, most - 1] {
            let length = |_: &mut [u8], count| self.asked.length(capacity, count);
            self.call(random, capacity, 0, length)
                .map_err(|how| format!("length for {capacity} bytes: {how}"))?;
        }
        Ok(())
    }

    /// One call on an output of `lent` bytes, where a profile of up to `capacity` bytes is accepted.
    fn call(
        &self,
        random: &mut Random,
        capacity: usize,
        lent: usize,
        call: impl FnOnce(&mut [u8], *mut u32) -> u32,
    ) -> Result<(), String> {
        let mut found = Called::before(random, lent);
        let expected = self.after(found.clone(), capacity);
        // A pointer into all three, so that one beside the count that is written shows.
        let count = found.count.as_mut_ptr().wrapping_add(1);
        found.answer = call(&mut found.output, count);
        if found == expected {
            return Ok(());
        }
        let mut both = found.output.iter().zip(&expected.output);
        let byte = both.position(|(found, expected)| found != expected);
        let byte = byte.map_or(String::new(), |at| format!(", output byte {at}"));
        Err(format!("expected {expected}, found {found}{byte}"))
    }

    /// What the call must make of what was before. One without an output writes no profile.
    fn after(&self, before: Called, capacity: usize) -> Called {
        let mut called = before;
        let within = |(bytes, count)| answer::within(bytes, capacity).map(|bytes| (bytes, count));
        called.answer = match self.answer.and_then(within) {
            Ok((bytes, count)) => {
                if !called.output.is_empty() {
                    called.output[..bytes.len()].copy_from_slice(bytes);
                }
                called.count[1] = count;
                bytes.len() as u32
            }
            Err(number) => number,
        };
        called
    }
}

// ---- the parts

/// One of the comparisons.
struct Part {
    name: &'static str,
    random: Random,
    tried: usize,
    differences: usize,
    met: Met,
    progress: Progress,
}

impl Part {
    fn new(name: &'static str, count: usize, seed: u64) -> Self {
        Self {
            name,
            random: Random::new(seed),
            tried: 0,
            differences: 0,
            met: Met::default(),
            progress: Progress::new(name, count),
        }
    }

    /// An encoding, by its own codes.
    fn encoding(&mut self, encoding: &Encoding) {
        let profile = copy::profile(encoding);
        let answer = match &profile {
            Ok(profile) => {
                let floats = profile.floats.iter();
                let rounded = floats.filter(|x| !leaves::is_whole(x.to_bits())).count() as u32;
                self.met.accepted(encoding, &profile.floats, rounded);
                Ok((profile.bytes.as_slice(), rounded))
            }
            Err(number) => Err(*number),
        };
        self.asked(encoding, Codes::of(encoding), answer);
    }

    /// An encoding with a code that has no meaning.
    fn without_meaning(&mut self, encoding: &Encoding) {
        let codes = inputs::without_meaning(&mut self.random, encoding);
        self.asked(encoding, codes, Err(43));
    }

    fn asked(&mut self, encoding: &Encoding, codes: Codes, answer: Result<(&[u8], u32), u32>) {
        let room = self.room(answer.map_or(0, |(bytes, _)| bytes.len()));
        match answer.and_then(|(bytes, _)| answer::within(bytes, room)) {
            Ok(_) => {}
            Err(number) => self.met.refused(encoding, number),
        }
        let mut apart = self.random.apart();
        let calls = |random: &mut Random, with_mark| {
            let asked = Asked {
                encoding,
                codes,
                with_mark,
            };
            Due { asked, answer }.calls(random, room)
        };
        // Adapted gray has no other entries; gray has both, and the mark is then 0.
        let mut called = calls(&mut self.random, encoding.adapted);
        if encoding.kind == GRAY && !encoding.adapted {
            called = called.and_then(|()| calls(&mut apart, true));
        }
        if let Err(how) = called {
            self.differences += 1;
            if self.differences <= 3 {
                println!("{}: {encoding:x?} with {codes:?}, {how}", self.name);
            }
        }
        self.tried += 1;
        self.progress.at(self.tried, self.differences);
    }

    /// The bytes of an output: enough of them, one time in eight any up to 800, and one in eight as
    /// many as the profile has, or one less.
    fn room(&mut self, length: usize) -> usize {
        match self.random.below(8) {
            0 => self.random.below(801) as usize,
            1 if length > 0 => length - self.random.below(2) as usize,
            _ => LONG,
        }
    }

    fn print(&self) {
        let (name, answers) = (self.name, self.met.answers());
        let (tried, differences) = (self.tried, self.differences);
        println!("{name}: {tried} encodings, {differences} differences ({answers})");
        for line in self.met.lines() {
            println!("  {line}");
        }
    }
}

/// All parts; the number of differences.
fn run(count: usize, seed: u64) -> usize {
    type Inputs = fn(&mut Random, usize) -> Vec<Encoding>;
    type Try = fn(&mut Part, &Encoding);
    let parts: [(&'static str, Inputs, Try); 6] = [
        (
            "counts, encodings of the writer",
            encodings::compared,
            Part::encoding,
        ),
        ("counts, whole numbers", inputs::whole, Part::encoding),
        (
            "counts, no meaning",
            encodings::compared,
            Part::without_meaning,
        ),
        (
            "counts, adapted gray",
            |random, count| inputs::adapted(&encodings::compared(random, count), count),
            Part::encoding,
        ),
        (
            "counts, adapted gray, whole numbers",
            |random, count| inputs::adapted(&inputs::whole(random, count), count),
            Part::encoding,
        ),
        (
            "counts, adapted gray, no meaning",
            |random, count| inputs::adapted(&encodings::compared(random, count), count),
            Part::without_meaning,
        ),
    ];
    let mut met = Met::default();
    let mut differences = 0;
    for (name, inputs, tried) in parts {
        let mut part = Part::new(name, count, seed);
        while part.tried < count {
            for encoding in inputs(&mut part.random, PART.min(count - part.tried)) {
                tried(&mut part, &encoding);
            }
        }
        part.print();
        differences += part.differences;
        met.add(part.met);
    }
    if count >= ENOUGH {
        for what in met.lacks() {
            println!("counts: never occurred: {what}");
            differences += 1;
        }
    }
    differences
}

fn asked(words: &[String]) -> Result<(usize, u64), &'static str> {
    let (count, seed) = match words {
        [count] => (count, "1"),
        [count, seed] => (count, seed.as_str()),
        _ => return Err("COUNT and perhaps SEED are needed"),
    };
    let count = count.parse().ok().filter(|count| *count > 0);
    let seed = seed.parse().map_err(|_| "SEED is a number")?;
    Ok((count.ok_or("COUNT is a number above 0")?, seed))
}

fn main() -> ExitCode {
    let words: Vec<String> = std::env::args().skip(1).collect();
    match asked(&words).map(|(count, seed)| run(count, seed)) {
        Ok(0) => ExitCode::SUCCESS,
        Ok(_) => ExitCode::FAILURE,
        Err(why) => {
            eprintln!("{why}\n{USAGE}");
            ExitCode::from(2)
        }
    }
}
