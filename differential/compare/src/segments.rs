//! Profiles put into APP2 segments and joined again, against the judge's own cutting and joining.

use std::alloc::{Layout, alloc_zeroed, dealloc};
use std::fmt::{Display, Formatter, Result as Printed};

use judge::encoding::{Curve, Encoding, SRGB_CURVE, White};
use judge::inputs::Random;
use judge::inputs::segments::{self as inputs, FAULTS, Fault, File, Files, LARGEST_ROOM, LONGEST};
use judge::list::hex;
use judge::profiles::zero_id;
use judge::progress::Progress;
use judge::segments::{self, FRONT, MOST_DATA};
use judge::{answer, bench, reader};

use crate::lent::{Lent, put};
use crate::{Run, port};

/// From this many calls on, each answer must have occurred.
const ENOUGH: usize = 100_000;

/// Files that are tried with lengths of more than 32 bits.
const FILES_BEYOND: usize = 64;

/// So many bytes of an output are looked at then: more than the segments of any profile.
const LOOKED_AT: usize = 8192;

/// A part that meets a difference says what it is, and the run ends.
pub fn segments(run: &mut Run) {
    let mut random = Random::new(run.seed);
    for part in [cases, written, joined, there_and_back, beyond_32_bits] {
        if let Err(difference) = part(run, &mut random) {
            println!("{difference}");
            run.differences += 1;
            return;
        }
    }
}

// ---- the parts

/// Every size for six files, two of them XYB of different intents and one adapted gray, and for the gray
/// one with zeros in place of its id; of segments of the latter three every byte, of those of gray with
/// its id also every length, number and count.
fn cases(run: &mut Run, random: &mut Random) -> Result<(), String> {
    let profiles = bench::encodings().map(|(_, encoding)| answer::profile(&encoding));
    let [srgb, own, gray, xyb] = profiles.map(|profile| profile.expect("these are accepted"));
    let relative = answer::profile(&Encoding::xyb(1)).expect("accepted");
    let adapted = Encoding::adapted_gray(White::named(0), Curve::named(SRGB_CURVE), 1);
    let adapted = answer::profile(&adapted).expect("accepted");
    let mut zeros = gray.clone();
    zero_id(&mut zeros);
    let files = [srgb, own, xyb, relative, adapted, gray, zeros].map(File::new);
    let [.., adapted, gray, zeros] = &files;
    let changed = [gray, zeros, adapted].map(|file| (file, around(&file.bytes)));
    let sizes: usize = files.iter().map(|file| file.bytes.len() + 8).sum();
    let changes: usize = changed.iter().map(|(_, all)| all.len()).sum();
    let count = 3 * sizes + changes + 3 * 65_536;
    let mut part = Part::new("segments, cases", count, random);
    for file in &files {
        let length = file.bytes.len();
        for size in (0..=length + 2).chain(MOST_DATA - 2..MOST_DATA + 3) {
            let due = length + FRONT * length.div_ceil(size.max(1));
            for room in [due - 1, due, due + 1] {
                part.written(random, file, size, room)?;
            }
        }
    }
    for (file, all) in &changed {
        for bytes in all {
            part.joined(random, file, bytes, None, LONGEST)?;
        }
    }
    for value in 0..=u16::MAX {
        for bytes in with_value(&gray.bytes, value) {
            part.joined(random, gray, &bytes, None, LONGEST)?;
        }
    }
    part.finish(run, Met::lacks_none);
    Ok(())
}

/// A file in two segments, the second first.
fn in_two(file: &[u8]) -> Vec<u8> {
    let (first, second) = file.split_at(100);
    let mut bytes = Vec::new();
    segments::push(&mut bytes, 2, 2, second);
    segments::push(&mut bytes, 1, 2, first);
    bytes
}

/// These two with every byte changed to every value, left out and doubled, and each of their fronts.
fn around(file: &[u8]) -> Vec<Vec<u8>> {
    let bytes = in_two(file);
    let mut all = vec![bytes.clone()];
    for at in 0..bytes.len() {
        for value in 0..=255 {
            let mut changed = bytes.clone();
            changed[at] = value;
            all.push(changed);
        }
        let [mut less, mut more] = [0; 2].map(|_| bytes.clone());
        less.remove(at);
        more.insert(at, bytes[at]);
        all.extend([less, more, bytes[..at].to_vec()]);
    }
    all
}

/// These two with a value as the first or the second length, and one segment with it as number and count.
fn with_value(file: &[u8], value: u16) -> [Vec<u8>; 3] {
    let [first, second] = [0, FRONT + file.len() - 100].map(|start| {
        let mut bytes = in_two(file);
        bytes[start + 2..start + 4].copy_from_slice(&value.to_be_bytes());
        bytes
    });
    let [number, count] = value.to_be_bytes();
    let mut one = Vec::new();
    segments::push(&mut one, number, count, file);
    [first, second, one]
}

fn written(run: &mut Run, random: &mut Random) -> Result<(), String> {
    let mut files = Files::new(random, inputs::any);
    let mut part = Part::new("segments, written", run.count, random);
    while part.tried < run.count {
        let file = files.next(random);
        let length = file.bytes.len();
        let size = inputs::size(random, length);
        // Past 300 segments, which are too many, the output is not made longer.
        let count = length.div_ceil(size.max(1)).min(300);
        let room = inputs::room(random, length + FRONT * count);
        part.written(random, file, size, room)?;
    }
    part.finish(run, Met::lacks_of_written);
    Ok(())
}

fn joined(run: &mut Run, random: &mut Random) -> Result<(), String> {
    let mut files = Files::new(random, inputs::any);
    let mut part = Part::new("segments, joined", run.count, random);
    while part.tried < run.count {
        let file = files.next(random);
        let (bytes, fault) = inputs::cut(random, &file.bytes);
        let room = inputs::room(random, file.bytes.len());
        part.joined(random, file, &bytes, fault, room)?;
    }
    part.finish(run, Met::lacks_of_joined);
    Ok(())
}

/// What the port has put into segments, in another order, joined by the port.
fn there_and_back(run: &mut Run, random: &mut Random) -> Result<(), String> {
    let mut files = Files::new(random, inputs::accepted);
    let calls = 2 * run.count;
    let mut part = Part::new("segments, there and back", calls, random);
    while part.tried < calls {
        let file = files.next(random);
        let length = file.bytes.len();
        let size = inputs::good_size(random, length);
        let room = length + FRONT * length.div_ceil(size);
        part.written(random, file, size, room)?;
        let mut all: Vec<&[u8]> = part.lent.output.lent().chunks(FRONT + size).collect();
        inputs::shuffle(random, &mut all);
        let bytes = all.concat();
        let by_judge = segments::join(&bytes, length, |_| Ok(()));
        assert!(
            by_judge.as_ref() == Ok(&file.bytes),
            "the judge: {by_judge:?} by segments of {size} bytes of {}",
            hex(&file.bytes)
        );
        part.joined(random, file, &bytes, None, length)?;
    }
    part.finish(run, Met::lacks_none);
    Ok(())
}

/// Lengths of more than 32 bits: of the output, of the file and of the segments.
fn beyond_32_bits(_: &mut Run, random: &mut Random) -> Result<(), String> {
    // The system gives such memory when it is written to, so little of it is taken.
    const MEMORY: Layout = Layout::new::<[u8; (1 << 32) + 65_536]>();
    let at = unsafe { alloc_zeroed(MEMORY) };
    if at.is_null() {
        println!("segments, beyond 32 bits: not tried, there is no memory for it");
        return Ok(());
    }
    let memory = unsafe { std::slice::from_raw_parts_mut(at, MEMORY.size()) };
    let mut tried = Ok(());
    for _ in 0..FILES_BEYOND {
        let file = inputs::accepted(random);
        let size = inputs::good_size(random, file.len());
        tried = tried.and_then(|()| beyond(memory, &file, size));
    }
    unsafe { dealloc(at, MEMORY) };
    tried?;
    println!("segments, beyond 32 bits: {FILES_BEYOND} files, 0 differences");
    Ok(())
}

/// The calls with an output, a file and segments that are 2 to the 32 longer than they need, or, the
/// outputs, 100 bytes less. The memory holds zeros before and after.
fn beyond(memory: &mut [u8], file: &[u8], size: usize) -> Result<(), String> {
    let parts = segments::write(file, Ok(()), size, usize::MAX).expect("the size is a good one");
    let mut small = [0; LOOKED_AT];
    let longer = |length: usize| (1 << 32) + length;
    let differs = |call| format!("segments, {call}\nsize {size}, file {}", hex(file));

    let output = &mut memory[..longer(parts.len() - 100)];
    let answer = port::write_segments(file, size, output);
    check("output", output, Ok(&parts), answer).map_err(differs)?;
    let output = &mut memory[..longer(file.len() - 100)];
    let answer = port::join_segments(&parts, output);
    check("output of joining", output, Ok(file), answer).map_err(differs)?;

    let input = &mut memory[..longer(file.len())];
    input[..file.len()].copy_from_slice(file);
    let due = reader::read(input).map(|_| &[][..]);
    let answer = port::write_segments(input, size, &mut small);
    check("file", &mut small, due, answer).map_err(differs)?;
    input[..file.len()].fill(0);

    let input = &mut memory[..longer(parts.len())];
    input[..parts.len()].copy_from_slice(&parts);
    let due = segments::join(input, small.len(), |_| Ok(()));
    let answer = port::join_segments(input, &mut small);
    let due = due.as_deref().map_err(|number| *number);
    check("segments", &mut small, due, answer).map_err(differs)?;
    input[..parts.len()].fill(0);
    Ok(())
}

/// Whether the front of an output that held zeros is what is due; then it holds zeros again.
fn check(
    what: &str,
    output: &mut [u8],
    due: Result<&[u8], u32>,
    answer: u32,
) -> Result<(), String> {
    let front = &mut output[..LOOKED_AT];
    let mut expected = [0; LOOKED_AT];
    let expected_answer = put(&mut expected, due);
    let same = answer == expected_answer && *front == expected;
    front.fill(0);
    match same {
        true => Ok(()),
        false => Err(format!(
            "{what} beyond 32 bits: expected {expected_answer}, found {answer}, or other bytes"
        )),
    }
}

// ---- one call

/// One of the comparisons.
struct Part {
    name: &'static str,
    tried: usize,
    met: Met,
    lent: Lent,
    progress: Progress,
}

impl Part {
    fn new(name: &'static str, count: usize, random: &mut Random) -> Self {
        Self {
            name,
            tried: 0,
            met: Met::default(),
            lent: Lent::new(random, LARGEST_ROOM),
            progress: Progress::new(name, count),
        }
    }

    /// A file put into segments, into an output of `room` bytes.
    fn written(
        &mut self,
        random: &mut Random,
        file: &File,
        size: usize,
        room: usize,
    ) -> Result<(), String> {
        let due = segments::write(&file.bytes, file.reading, size, room);
        self.met.written(&file.bytes, size, &due);
        let call = |file: &[u8], output: &mut [u8]| port::write_segments(file, size, output);
        let called = self.lent.call(random, &file.bytes, room, &due, call);
        self.next(called, || {
            format!(
                "size {size}, output of {room} bytes, file {}",
                hex(&file.bytes)
            )
        })
    }

    /// Segments joined, into an output of `room` bytes; most hold the file.
    fn joined(
        &mut self,
        random: &mut Random,
        file: &File,
        bytes: &[u8],
        fault: Option<Fault>,
        room: usize,
    ) -> Result<(), String> {
        let mut length = 0;
        let due = segments::join(bytes, room, |data| {
            length = data.len();
            match data == file.bytes {
                true => file.reading,
                false => reader::read(data).map(drop),
            }
        });
        self.met.joined(length, fault, &due);
        let called = self
            .lent
            .call(random, bytes, room, &due, port::join_segments);
        self.next(called, || {
            format!("output of {room} bytes, segments {}", hex(bytes))
        })
    }

    fn next(
        &mut self,
        called: Result<(), String>,
        input: impl Fn() -> String,
    ) -> Result<(), String> {
        self.tried += 1;
        self.progress.at(self.tried, 0);
        let (name, tried) = (self.name, self.tried);
        called.map_err(|difference| format!("{name}, call {tried}: {difference}\n{}", input()))
    }

    /// Prints what was met; `lacks` says whether an answer did not occur.
    fn finish(self, run: &mut Run, lacks: fn(&Met) -> bool) {
        let Self {
            name, tried, met, ..
        } = self;
        println!("{name}: {tried} calls, 0 differences ({met})");
        if run.count >= ENOUGH && lacks(&met) {
            println!("{name}: an answer never occurred");
            run.differences += 1;
        }
    }
}

// ---- what was met

/// How often each answer was due.
#[derive(Default)]
struct Met {
    /// Accepted, and refused by 21 to 28.
    read: [u64; 9],
    /// Of these, refused by 22 to 25 and longer than any profile.
    long: [u64; 4],
    /// Of the accepted files, those with zeros in place of their id.
    zeros: u64,
    /// And those of XYB, by intent.
    xyb: [u64; 4],
    /// And those of adapted gray.
    adapted: u64,
    /// Refused by 53: outside the limits, and too many segments.
    sizes: [u64; 2],
    /// Refused by 54, by the fault; at the end without a name for it.
    faults: [u64; FAULTS.len() + 1],
    /// Refused by 55.
    outputs: u64,
}

impl Met {
    fn written(&mut self, file: &[u8], size: usize, due: &Result<Vec<u8>, u32>) {
        let within = (1..=MOST_DATA).contains(&size);
        match due {
            Err(segments::SIZE) => self.sizes[usize::from(within)] += 1,
            Err(number) => self.refused(file.len(), *number),
            Ok(_) => self.accepted(file),
        }
    }

    fn joined(&mut self, length: usize, fault: Option<Fault>, due: &Result<Vec<u8>, u32>) {
        let place = FAULTS.iter().position(|(one, _)| Some(*one) == fault);
        match due {
            Err(segments::NO_SEGMENTS) => self.faults[place.unwrap_or(FAULTS.len())] += 1,
            Err(number) => self.refused(length, *number),
            Ok(file) => self.accepted(file),
        }
    }

    fn accepted(&mut self, file: &[u8]) {
        self.read[0] += 1;
        self.zeros += u64::from(file[84..100] == [0; 16]);
        if file[12..16] == *b"scnr" {
            self.xyb[usize::from(file[67])] += 1;
        }
        self.adapted += u64::from(file[16..20] == *b"GRAY" && file[131] == 5);
    }

    fn refused(&mut self, length: usize, number: u32) {
        if number == segments::OUTPUT {
            self.outputs += 1;
            return;
        }
        self.read[number as usize - 20] += 1;
        if length > LONGEST && (22..=25).contains(&number) {
            self.long[number as usize - 22] += 1;
        }
    }

    fn lacks_none(&self) -> bool {
        false
    }

    fn lacks_of_written(&self) -> bool {
        self.lacks_of_both() || self.sizes.contains(&0)
    }

    fn lacks_of_joined(&self) -> bool {
        self.lacks_of_both() || self.faults[..FAULTS.len()].contains(&0)
    }

    fn lacks_of_both(&self) -> bool {
        let both = (1..self.read[0]).contains(&self.zeros) && !self.xyb.contains(&0);
        let both = both && self.adapted > 0;
        self.read.contains(&0) || !both || self.long.contains(&0) || self.outputs == 0
    }
}

impl Display for Met {
    /// What never occurred is left out.
    fn fmt(&self, f: &mut Formatter<'_>) -> Printed {
        let [perceptual, relative, saturation, absolute] = self.xyb;
        write!(
            f,
            "{} accepted, of these {} with a zero id, XYB by intent {perceptual} {relative} \
             {saturation} {absolute}, and {} adapted gray",
            self.read[0], self.zeros, self.adapted
        )?;
        let [outside, many] = self.sizes;
        let no_segments = self.faults.iter().sum();
        let numbers = (21..).map(|number| format!("refused {number}"));
        let read = numbers.zip(self.read[1..].iter().copied());
        let others = [
            ("refused 53 for the limits".to_string(), outside),
            ("refused 53 for too many segments".to_string(), many),
            ("refused 54".to_string(), no_segments),
            ("refused 55".to_string(), self.outputs),
        ];
        for (name, times) in read.chain(others).filter(|(_, times)| *times > 0) {
            write!(f, ", {times} {name}")?;
        }
        if self.long != [0; 4] {
            let [size, header, intent, table] = self.long;
            write!(f, "; of more than {LONGEST} bytes {size} refused 22, ")?;
            write!(
                f,
                "{header} refused 23, {intent} refused 24, {table} refused 25"
            )?;
        }
        let names = FAULTS.iter().map(|(_, name)| *name);
        let by_fault = names.zip(self.faults).filter(|(_, times)| *times > 0);
        for (at, (name, times)) in by_fault.enumerate() {
            let before = if at == 0 { "; 54 for" } else { "," };
            write!(f, "{before} {name} {times}")?;
        }
        Ok(())
    }
}
