//! Gray adapted to D50 (02, order 9), by the two entries that take its mark as a number. With the mark 1
//! they are held against what the judge makes of the original, with 0 against the entries without a
//! mark; any other number is 43. Besides, the `chad` of each file is held against that of an RGB file of
//! the original with the same white, and each file is read.

use std::collections::BTreeMap;
use std::fmt::{Display, Formatter, Result as Printed};

use judge::encoding::{Curve, Device, Encoding, LINEAR, Primaries, RGB};
use judge::inputs::{Random, devices, encodings};
use judge::{answer, leaves, profiles};

use crate::writer::{ENOUGH, LONG, Written};
use crate::{Run, Tally, port, reader};

/// What a lent count holds before a call.
const UNTOUCHED: u32 = 0xa5a5_a5a5;

/// What a call on an output gives, and what those without one give at some capacities; each with the
/// lent count.
#[derive(Debug, PartialEq)]
struct Answers {
    written: Written,
    rounded: u32,
    lengths: Vec<(u32, u32)>,
}

impl Answers {
    /// What is due where the profile and its count, or the refusal, is given.
    fn due(given: Result<(&[u8], u32), u32>, room: usize, capacities: &[usize]) -> Self {
        let within = |capacity| {
            let (bytes, rounded) = given?;
            answer::within(bytes, capacity).map(|bytes| (bytes.len() as u32, rounded))
        };
        let length = |capacity: &usize| within(*capacity).unwrap_or_else(|no| (no, UNTOUCHED));
        Self {
            written: Written::due(given.map(|(bytes, _)| bytes), room),
            rounded: length(&room).1,
            lengths: capacities.iter().map(length).collect(),
        }
    }

    /// What calls of the port give.
    fn by(
        room: usize,
        capacities: &[usize],
        write: impl FnOnce(&mut [u8], &mut u32) -> u32,
        length: impl Fn(usize, &mut u32) -> u32,
    ) -> Self {
        let mut rounded = UNTOUCHED;
        let written = Written::by(|out| write(out, &mut rounded) as usize, room);
        let length = |capacity: &usize| {
            let mut rounded = UNTOUCHED;
            (length(*capacity, &mut rounded), rounded)
        };
        Self {
            written,
            rounded,
            lengths: capacities.iter().map(length).collect(),
        }
    }

    /// What the entries that take a mark give.
    fn by_mark(case: &Case, mark: u32, device: Device) -> Self {
        let encoding = &case.encoding;
        Self::by(
            case.room,
            &case.capacities,
            |out, rounded| port::write_gray_adapted(encoding, mark, device, out, rounded),
            |capacity, rounded| port::length_gray_adapted(encoding, mark, capacity, rounded),
        )
    }
}

/// Adapted gray, and outputs and capacities for it.
struct Case {
    encoding: Encoding,
    /// The profile and its count, or the refusal.
    given: Result<(Vec<u8>, u32), u32>,
    room: usize,
    capacities: [usize; 6],
}

impl Case {
    /// The output has 1,300 bytes or, one in eight, as many as the profile or about as many, and one in
    /// eight any number up to 800. The capacities are this, none, the most, and about the length.
    fn new(random: &mut Random, encoding: Encoding) -> Self {
        let given = given(&encoding);
        let length = given.as_ref().map_or(0, |(bytes, _)| bytes.len());
        let room = match random.below(8) {
            0 => random.below(801) as usize,
            1 => random.pick(&[length, length.saturating_sub(1), length + 1, 0]),
            _ => LONG,
        };
        let most = match given {
            Ok(_) => length,
            Err(number) => number as usize,
        };
        Self {
            encoding,
            given,
            room,
            capacities: [room, 0, usize::MAX, most - 1, most, most + 1],
        }
    }

    /// What is due with the mark 1.
    fn due(&self, device: Device) -> Answers {
        let file = |(bytes, rounded): &(Vec<u8>, u32)| match device == Device::default() {
            true => (bytes.clone(), *rounded),
            false => (answer::with_device(bytes, device), *rounded),
        };
        let given = self.given.as_ref().map(file);
        let given = given
            .as_ref()
            .map(|(bytes, rounded)| (&bytes[..], *rounded));
        Answers::due(
            given.map_err(|number| **number),
            self.room,
            &self.capacities,
        )
    }
}

/// The profile of adapted gray and how many of its floats are no whole number of 65536ths.
fn given(encoding: &Encoding) -> Result<(Vec<u8>, u32), u32> {
    encoding.original().ok_or(43u32)?;
    let bytes = answer::profile(encoding)?;
    let floats = answer::adapted_floats(encoding);
    let rounded = floats.iter().filter(|x| !leaves::is_whole(x.to_bits()));
    Ok((bytes, rounded.count() as u32))
}

/// The comparisons, each tried for the white, curve and intent of every encoding.
pub struct AdaptedGray {
    random: Random,
    marked: Tally,
    with_device: Tally,
    unmarked: Tally,
    other_marks: Tally,
    chad: Tally,
    /// Files with whose white none of the primaries that are tried gives an RGB file.
    without_rgb: u64,
    read: Tally,
    met: Met,
}

impl AdaptedGray {
    pub fn new(random: Random, count: usize) -> Self {
        let tally = |name, times| Tally::new(name, times * count);
        Self {
            random,
            marked: tally("adapted gray and its dry call", 1),
            with_device: tally("adapted gray with maker and model", 1),
            unmarked: tally("gray with the mark 0", 1),
            other_marks: tally("gray with other marks", 1),
            chad: tally("adapted gray, chad beside RGB's", 1),
            without_rgb: 0,
            read: tally("adapted files read", 2),
            met: Met::default(),
        }
    }

    /// Adapted gray of the encoding's white, curve and intent; one in 16 has a number without meaning.
    /// XYB has no white.
    pub fn call(&mut self, encoding: &Encoding) {
        let Some(adapted) = encoding.to_adapted_gray() else {
            return;
        };
        let adapted = match self.random.below(16) {
            0 => encodings::without_meaning(&mut self.random, adapted),
            _ => adapted,
        };
        let case = Case::new(&mut self.random, adapted);
        let device = devices::any(&mut self.random);
        let found = self.mark_1(&case, device);
        self.mark_0(&case, device);
        self.other_mark(&case, device);
        if let Some(file) = found.file() {
            match chad_of_rgb(encoding) {
                None => self.without_rgb += 1,
                chad => {
                    let found = profiles::element(file, b"chad").map(<[u8]>::to_vec);
                    self.chad.add(&case.encoding, &chad, &found);
                }
            }
        }
    }

    /// With maker and model zero, and with any. What is written with zeros.
    fn mark_1(&mut self, case: &Case, device: Device) -> Written {
        let input = (case.encoding, device, case.room);
        let found = Answers::by_mark(case, 1, device);
        self.read_back(case, &found.written);
        self.with_device.add(&input, &case.due(device), &found);
        let zeros = Device::default();
        let (due, found) = (case.due(zeros), Answers::by_mark(case, 1, zeros));
        self.met.add(due.written.answer);
        self.read_back(case, &found.written);
        self.marked.add(&input, &due, &found);
        found.written
    }

    /// The entries without a mark answer, write and count the same. That with maker and model does not
    /// count, and that which counts has neither.
    fn mark_0(&mut self, case: &Case, device: Device) {
        let gray = Encoding {
            adapted: false,
            ..case.encoding
        };
        let mut counted = 0;
        let due = Answers::by(
            case.room,
            &case.capacities,
            |out, rounded| {
                let mut beside = vec![0; out.len()];
                counted = port::write_gray_counted(&gray, &mut beside, rounded);
                port::write_device(&gray, device, out)
            },
            |capacity, rounded| port::length_gray_counted(&gray, capacity, rounded),
        );
        let found = Answers::by_mark(case, 0, device);
        let answers = [due.written.answer, counted as usize];
        let same = [found.written.answer; 2];
        let input = (case.encoding, device, case.room);
        self.unmarked.add(&input, &(due, answers), &(found, same));
    }

    /// 43 comes before all else, and nothing is touched.
    fn other_mark(&mut self, case: &Case, device: Device) {
        let random = &mut self.random;
        let known = random.below(2);
        let mark = match random.below(4) {
            0 => 2 + random.below(4),
            1 => known + (1 << (1 + random.below(31))),
            2 => u32::MAX - known,
            _ => random.bits32().max(2),
        };
        let due = Answers::due(Err(43), case.room, &case.capacities);
        let found = Answers::by_mark(case, mark, device);
        let input = (case.encoding, mark, case.room);
        self.other_marks.add(&input, &due, &found);
    }

    /// Reads a file that was written by its id, without it, and with a bit changed, another each time.
    fn read_back(&mut self, case: &Case, written: &Written) {
        // Where none is due, a file is a difference by itself.
        if let (Some(file), Ok(_)) = (written.file(), &case.given) {
            let [due, found] = reader::of_written(&case.encoding, file, self.read.tried % 128);
            self.read.add(&case.encoding, &due, &found);
        }
    }

    pub fn finish(self, run: &mut Run) {
        println!("{} ({})", self.marked, self.met);
        println!("{}", self.with_device);
        println!("{}", self.unmarked);
        println!("{}", self.other_marks);
        let without = self.without_rgb;
        println!("{} ({without} whites without an RGB file)", self.chad);
        println!("{}", self.read);
        let pairs = [&self.marked, &self.with_device, &self.unmarked];
        let others = [&self.other_marks, &self.chad, &self.read];
        let all = pairs.into_iter().chain(others);
        run.differences += all.map(|tally| tally.different).sum::<usize>();
        if run.count >= ENOUGH && self.met.lacks_one() {
            println!("{}: an answer never occurred", self.marked.name);
            run.differences += 1;
        }
    }
}

/// The `chad` element of an RGB file of the original with the encoding's white: by its own primaries
/// where it is RGB, by named ones, or with red at the white. Then green and blue have no part in the
/// white, so the columns are D50 and about 0 and fit.
fn chad_of_rgb(encoding: &Encoding) -> Option<Vec<u8>> {
    let (wx, wy) = encoding.white.coordinates()?;
    let own = (encoding.kind == RGB).then_some(encoding.primaries);
    let at_white = Primaries::own([wx, wy, 0.3, 0.6, 0.15, 0.06]);
    let others = [0, 1, 2]
        .map(Primaries::named)
        .into_iter()
        .chain([at_white]);
    own.into_iter().chain(others).find_map(|primaries| {
        let curve = Curve::named(LINEAR);
        let rgb = Encoding::rgb(encoding.white, primaries, curve, encoding.intent);
        let file = rgb.original()?.maybe_create_profile().ok()??;
        profiles::element(&file, b"chad").map(<[u8]>::to_vec)
    })
}

const REFUSALS: [usize; 6] = [1, 4, 5, 8, 9, 43];

/// How often each answer was due.
#[derive(Default)]
struct Met {
    files: u64,
    refused: BTreeMap<usize, u64>,
}

impl Met {
    fn add(&mut self, answer: usize) {
        match REFUSALS.contains(&answer) {
            true => *self.refused.entry(answer).or_default() += 1,
            false => self.files += 1,
        }
    }

    fn lacks_one(&self) -> bool {
        self.files == 0 || self.refused.len() < REFUSALS.len()
    }
}

impl Display for Met {
    fn fmt(&self, f: &mut Formatter<'_>) -> Printed {
        write!(f, "{} files", self.files)?;
        for (number, times) in &self.refused {
            write!(f, ", {times} refused {number}")?;
        }
        Ok(())
    }
}
