//! The reader and the finder against the judge's own, which goes by the words of 01 and 02.

use std::fmt::{Display, Formatter, Result as Printed};
use std::path::Path;
use std::sync::LazyLock;

use judge::answer;
use judge::encoding::{ADAPTED_GRAY, Device, Encoding, GRAY, RGB, XYB};
use judge::inputs::{Random, damage, plans, profile_cases};
use judge::list::hex;
use judge::profiles::{self, Sheet, change_id, set_id, set_size, zero_id};
use judge::progress::Progress;
use judge::reader::{self, Plan};

use crate::{Run, port};

/// From this many files on, each answer must have occurred.
const ENOUGH: usize = 100_000;

/// Every tag of the layout, then some that no profile has.
const SIGNATURES: [&[u8; 4]; 21] = [
    b"desc",
    b"cprt",
    b"wtpt",
    b"chad",
    b"cicp",
    b"rXYZ",
    b"gXYZ",
    b"bXYZ",
    b"rTRC",
    b"gTRC",
    b"bTRC",
    b"kTRC",
    b"A2B0",
    b"B2A0",
    b"\0\0\0\0",
    b"DESC",
    b"csed",
    b"A2B1",
    b"mluc",
    b"XYZ ",
    b"acsp",
];

/// The reader's answer as the port gives it.
#[derive(Clone, Debug, PartialEq, Eq)]
pub struct Reading {
    /// Refusal, kind, intent, maker, model, the mark of an id that is not computed, curve, `cicp`, and
    /// the mark of adapted gray.
    pub codes: [u32; 9],
    /// Gamma, and X and Z of a gray white.
    pub free: [i32; 3],
    pub chad: [i32; 9],
    pub columns: [i32; 9],
    pub letters: usize,
    pub text: [u8; 372],
}

impl Reading {
    /// The answer that is due: of a refused file all is zero but the number.
    fn due(answer: &Result<Plan, u32>) -> Self {
        let none = Plan::default();
        let plan = answer.as_ref().unwrap_or(&none);
        let refusal = *answer.as_ref().err().unwrap_or(&0);
        let mut text = [0; 372];
        text[..plan.text.len()].copy_from_slice(&plan.text);
        let [kind, curve, cicp] = [plan.kind, plan.curve, plan.cicp].map(u32::from);
        let Device { maker, model } = plan.device;
        let [mark, adapted] = [plan.id_not_computed, plan.adapted].map(u32::from);
        let intent = plan.intent;
        Self {
            codes: [
                refusal, kind, intent, maker, model, mark, curve, cicp, adapted,
            ],
            free: [plan.gamma, plan.white[0], plan.white[1]],
            chad: plan.chad,
            columns: plan.columns,
            letters: plan.text.len(),
            text,
        }
    }
}

/// The answers to a file that was written: as it is, with zeros in place of its id, and with one bit of
/// the id and of the zeros changed. Those that are due, which follow from the plan of the first: that
/// plan, with the encoding's kind and intent, the same with the mark, and 28 twice; and those of the port.
/// Of adapted gray the numbers of `chad` are those of the encoding, and there is no white.
pub fn of_written(encoding: &Encoding, file: &[u8], bit: usize) -> [[Reading; 4]; 2] {
    let mut zeros = file.to_vec();
    zero_id(&mut zeros);
    let [near, near_zeros] = [file, &zeros].map(|from| {
        let mut changed = from.to_vec();
        change_id(&mut changed, bit);
        changed
    });
    let found = [file, &zeros, &near, &near_zeros].map(port::read);
    let [read, marked] = [0, 1].map(|mark| {
        let mut reading = found[0].clone();
        reading.codes[..3].copy_from_slice(&[0, encoding.kind.into(), encoding.intent.into()]);
        reading.codes[5] = mark;
        reading.codes[8] = encoding.adapted.into();
        if encoding.adapted {
            reading.chad = answer::chad_numbers(encoding).expect("it was written");
            reading.columns = [0; 9];
            reading.free[1..].fill(0);
        }
        reading
    });
    let refused = Reading::due(&Err(28));
    [[read, marked, refused.clone(), refused], found]
}

/// The bytes of a lent record before a call, and how many the struct of C has.
const UNTOUCHED: u8 = 0xa5;
const RECORD: usize = 492;

impl Reading {
    /// What the call from C leaves in a record of so many bytes, and its answer.
    fn record_due(&self, length: usize) -> (u32, Vec<u8>) {
        let mut record = vec![UNTOUCHED; length];
        let [
            refusal,
            kind,
            intent,
            maker,
            model,
            mark,
            curve,
            cicp,
            adapted,
        ] = self.codes;
        if refusal != 0 || length < RECORD {
            return (if refusal != 0 { refusal } else { 9 }, record);
        }
        let [gamma, white_x, white_z] = self.free.map(i32::cast_unsigned);
        let first = [
            kind, intent, maker, model, mark, curve, gamma, cicp, adapted, white_x, white_z,
        ];
        let nines = self.chad.iter().chain(&self.columns);
        let numbers = first
            .into_iter()
            .chain(nines.map(|n| n.cast_unsigned()))
            .chain([self.letters as u32]);
        let bytes: Vec<u8> = numbers
            .flat_map(u32::to_le_bytes)
            .chain(self.text)
            .collect();
        record[..RECORD].copy_from_slice(&bytes);
        (0, record)
    }
}

/// The call from C on records of three lengths: it answers and leaves what is due.
fn record_differs(file: &[u8], due: &Reading) -> Option<String> {
    for length in [RECORD + 4, RECORD, RECORD - 1] {
        let mut record = vec![UNTOUCHED; length];
        let found = port::read_into(file, &mut record);
        let (expected, bytes) = due.record_due(length);
        if found != expected || record != bytes {
            return Some(format!(
                "merqyduk_read into {length} bytes: expected {expected} {}, found {found} {}",
                hex(&bytes),
                hex(&record)
            ));
        }
    }
    None
}

/// Tries the cases and random files in turn, then random files only; each that is accepted, and each
/// XYB file with the text of another intent, also under other ids.
pub fn reader(run: &mut Run) {
    let mut random = Random::new(run.seed);
    let mut cases = profile_cases::cases(&mut random).into_iter();
    let mut apart = random.apart();
    let (mut met, mut other_ids) = (Met::default(), Met::default());
    let mut progress = Progress::new("reader", run.count);
    for tried in 0..run.count {
        let case = if tried % 2 == 0 { cases.next() } else { None };
        let file = case.unwrap_or_else(|| damage::file(&mut random));
        if trial(run, &file, &mut met) || is_crossed(&file) {
            for file in under_other_ids(&mut apart, &file) {
                trial(run, &file, &mut other_ids);
            }
        }
        progress.at(tried + 1, run.differences);
    }
    let left = cases.count();
    if left > 0 {
        println!("reader: {left} of the cases were not tried, COUNT is too small for them");
    }
    println!(
        "reader: {} files, {} differences ({met}; under other ids {other_ids})",
        run.count, run.differences
    );
    println!(
        "reader, XYB: {}; under other ids {}",
        met.xyb, other_ids.xyb
    );
    println!(
        "reader, gray with five tags: {}; under other ids {}",
        met.adapted, other_ids.adapted
    );
    if run.count >= ENOUGH && met.lacks_one() {
        println!("reader: an answer never occurred");
        run.differences += 1;
    }
}

/// The profiles of a folder, as they are and with each header that the layout has.
pub fn folder(run: &mut Run, folder: &Path) -> Result<(), String> {
    let mut random = Random::new(run.seed);
    let mut met = Met::default();
    let mut files = 0;
    let entries = std::fs::read_dir(folder).map_err(|error| error.to_string())?;
    for entry in entries {
        let path = entry.map_err(|error| error.to_string())?.path();
        let profile = path
            .extension()
            .is_some_and(|end| end == "icc" || end == "icm");
        if !profile {
            continue;
        }
        let bytes = std::fs::read(&path).map_err(|error| format!("{}: {error}", path.display()))?;
        files += 1;
        trial(run, &bytes, &mut met);
        for file in with_our_headers(&bytes, &mut random) {
            trial(run, &file, &mut met);
        }
    }
    let differences = run.differences;
    println!("reader: {files} profiles of the folder, {differences} differences ({met})");
    if files == 0 {
        return Err(format!("no .icc or .icm file in {}", folder.display()));
    }
    Ok(())
}

/// A profile of another maker under each of our headers, in which its own maker and model stay, so
/// that its table is looked at; and its front under the table of a plan.
fn with_our_headers(bytes: &[u8], random: &mut Random) -> Vec<Vec<u8>> {
    let mut all = Vec::new();
    for kind in [GRAY, RGB, XYB, ADAPTED_GRAY] {
        let (kind, adapted) = Encoding::kind_and_mark(kind);
        let mut file = bytes.to_vec();
        if file.len() >= 128 {
            let header = profiles::header(kind);
            file[..48].copy_from_slice(&header[..48]);
            file[56..128].copy_from_slice(&header[56..]);
        }
        set_size(&mut file);
        set_id(&mut file);
        all.push(file);
        // Of its elements the table of a plan makes others.
        let plan = plans::of_shape(random, kind, 8, false, kind == RGB);
        let plan = match adapted {
            true => plans::adapted(random, plan),
            false => plan,
        };
        let mut file = Sheet::of(&plan).bytes();
        let table = 132 + 12 * usize::from(file[131]);
        let count = (file.len() - table).min(bytes.len().saturating_sub(table));
        file[table..table + count].copy_from_slice(&bytes[bytes.len() - count..]);
        set_id(&mut file);
        all.push(file);
    }
    all
}

/// The file with the right id, with zeros in its place, and with each of these two but for one bit.
/// Of the four the file itself is left out.
fn under_other_ids(random: &mut Random, file: &[u8]) -> impl Iterator<Item = Vec<u8>> {
    let [mut right, mut zeros] = [file; 2].map(<[u8]>::to_vec);
    set_id(&mut right);
    zero_id(&mut zeros);
    let near = [&right, &zeros].map(|file| {
        let mut changed = file.clone();
        change_id(&mut changed, random.below(128) as usize);
        changed
    });
    let all = [right, zeros].into_iter().chain(near);
    all.filter(move |other| other != file)
}

/// The judge's answer. It must be the one under the right id but for the mark or 28, and its plan must
/// lay out to the file.
fn judged(file: &[u8]) -> Result<Plan, u32> {
    let answer = reader::read(file);
    let mut right = file.to_vec();
    set_id(&mut right);
    let due = match reader::read(&right) {
        Ok(_) if right != file && file[84..100] != [0; 16] => Err(28),
        Ok(plan) if right != file => Ok(Plan {
            id_not_computed: true,
            ..plan
        }),
        same => same,
    };
    assert!(
        answer == due,
        "the judge: {answer:?}, not {due:?}, of {}",
        hex(file)
    );
    if let Ok(plan) = &answer {
        let laid_out = Sheet::of(plan).bytes();
        assert!(
            laid_out == file,
            "the judge: {plan:?} is not the plan of {}",
            hex(file)
        );
    }
    answer
}

/// One file: the reader's whole answer, and the finder's. Says whether the file is accepted.
fn trial(run: &mut Run, file: &[u8], met: &mut Met) -> bool {
    let answer = judged(file);
    met.add(file, &answer);
    let mut differences = Vec::new();
    let (expected, found) = (Reading::due(&answer), port::read(file));
    if expected != found {
        differences.push(format!("read: expected {expected:?}, found {found:?}"));
    }
    if is_crossed(file) {
        let (due, found) = (expected.codes[0], found.codes[0]);
        met.xyb.crossed(file, [due, found] == [26; 2]);
        if [due, found] != [26; 2] {
            differences.push(format!("crossed text: the judge {due}, the port {found}"));
        }
    }
    differences.extend(record_differs(file, &expected));
    differences.extend(find_differs(file, answer.is_ok()));
    run.differences += usize::from(!differences.is_empty());
    if run.differences <= 3 {
        for difference in &differences {
            println!("file {}\n{difference}", hex(file));
        }
    }
    answer.is_ok()
}

/// Whether an XYB file has the text of another intent than its header's, both below 4, and is what is
/// written otherwise. Maker, model and id may be any. By 02's order 8 it is refused by 26.
fn is_crossed(file: &[u8]) -> bool {
    static WRITTEN: LazyLock<[Vec<u8>; 4]> = LazyLock::new(|| {
        [0, 1, 2, 3].map(|intent| {
            let file = answer::profile(&Encoding::xyb(intent)).expect("accepted");
            without_free_bytes(&file)
        })
    });
    if file.len() != WRITTEN[0].len() {
        return false;
    }
    let blank = without_free_bytes(file);
    let text = WRITTEN.iter().position(|written| *written == blank);
    let header = u32::from_be_bytes(file[64..68].try_into().expect("four bytes"));
    text.is_some_and(|text| header < 4 && header as usize != text)
}

/// The file with zeros for maker, model, intent and id.
fn without_free_bytes(file: &[u8]) -> Vec<u8> {
    let mut blank = file.to_vec();
    for free in [48..56, 64..68, 84..100] {
        blank[free].fill(0);
    }
    blank
}

/// What the finder answers otherwise than is due.
fn find_differs(file: &[u8], accepted: bool) -> Vec<String> {
    let mut differences = Vec::new();
    for signature in asked(file, accepted) {
        // 01 leaves open where an empty part lies; the port's is at the front of the file.
        let part = reader::place(file, accepted, signature);
        let expected = part.map_or((0, 0), |(place, length)| (place as isize, length));
        let found = port::find(file, signature);
        if expected != found {
            let name = String::from_utf8_lossy(&signature).into_owned();
            differences.push(format!(
                "find {name:?}: expected {expected:?}, found {found:?}"
            ));
        }
        let mut offset = u32::MAX;
        let size = port::find_offset(file, signature, &mut offset);
        let due = part.map_or((0, u32::MAX), |(place, size)| (size as u32, place as u32));
        if (size, offset) != due {
            differences.push(format!(
                "merqyduk_find {signature:?}: expected {due:?}, found {:?}",
                (size, offset)
            ));
        }
    }
    differences
}

/// The signatures to ask for: of an accepted file all, of a refused one three that its table may
/// have.
fn asked(file: &[u8], accepted: bool) -> Vec<[u8; 4]> {
    if accepted {
        return SIGNATURES.iter().map(|signature| **signature).collect();
    }
    let first = file
        .get(132..136)
        .map(|bytes| bytes.try_into().expect("four bytes"));
    [*b"cprt", *b"rTRC"].into_iter().chain(first).collect()
}

/// How often each answer was due. What never was is not printed.
#[derive(Default)]
struct Met {
    /// Accepted, and refused by 21 to 28.
    answers: [u64; 9],
    /// Of the accepted files, those whose maker or model is not zero.
    devices: u64,
    /// And those whose id is not computed.
    marks: u64,
    xyb: MetXyb,
    adapted: MetAdapted,
}

impl Met {
    fn add(&mut self, file: &[u8], answer: &Result<Plan, u32>) {
        let number = *answer.as_ref().err().unwrap_or(&20) as usize - 20;
        self.answers[number] += 1;
        self.adapted.add(file, answer);
        let device = |plan: &Plan| plan.device != Device::default();
        self.devices += u64::from(answer.as_ref().is_ok_and(device));
        self.marks += u64::from(answer.as_ref().is_ok_and(|plan| plan.id_not_computed));
        if let Ok(plan) = answer
            && plan.kind == XYB
        {
            self.xyb.accepted[plan.intent as usize] += 1;
        }
    }

    fn lacks_one(&self) -> bool {
        let both = |some: u64| (1..self.answers[0]).contains(&some);
        let lacks = self.answers.contains(&0) || !both(self.devices) || !both(self.marks);
        lacks || self.xyb.lacks_one() || self.adapted.lacks_one()
    }
}

impl Display for Met {
    fn fmt(&self, f: &mut Formatter<'_>) -> Printed {
        let [accepted, refused @ ..] = &self.answers;
        let Self { devices, marks, .. } = self;
        write!(
            f,
            "{accepted} accepted, of these {devices} with a maker or model and {marks} with the mark"
        )?;
        let occurred = (21..).zip(refused).filter(|(_, times)| **times > 0);
        for (number, times) in occurred {
            write!(f, ", {times} refused {number}")?;
        }
        Ok(())
    }
}

/// What was due of files that are of gray by their header and have five tags, as adapted gray has.
#[derive(Default)]
struct MetAdapted {
    /// Accepted, and refused by 24 to 28.
    answers: [u64; 6],
    /// Of the accepted, those whose id is not computed.
    marks: u64,
}

impl MetAdapted {
    fn add(&mut self, file: &[u8], answer: &Result<Plan, u32>) {
        let five = file.get(128..132) == Some(&[0, 0, 0, 5]);
        let gray = file.get(12..20) == Some(b"mntrGRAY");
        let place = match answer {
            Ok(_) => 0,
            Err(number) => number.saturating_sub(23) as usize,
        };
        if five && gray && (answer.is_ok() || place > 0) {
            self.answers[place] += 1;
            self.marks += u64::from(answer.as_ref().is_ok_and(|plan| plan.id_not_computed));
        }
    }

    fn lacks_one(&self) -> bool {
        self.answers.contains(&0) || !(1..self.answers[0]).contains(&self.marks)
    }
}

impl Display for MetAdapted {
    fn fmt(&self, f: &mut Formatter<'_>) -> Printed {
        let [accepted, refused @ ..] = &self.answers;
        let marks = self.marks;
        write!(f, "{accepted} accepted, of these {marks} with the mark")?;
        let occurred = (24..).zip(refused).filter(|(_, times)| **times > 0);
        for (number, times) in occurred {
            write!(f, ", {times} refused {number}")?;
        }
        Ok(())
    }
}

/// What was due of XYB files.
#[derive(Default)]
struct MetXyb {
    /// Accepted, by intent.
    accepted: [u64; 4],
    /// With the text of another intent: by their right id, with zeros in place of it, and by another.
    crossed: [u64; 3],
    /// Of these, refused by 26 by both.
    refused: u64,
}

impl MetXyb {
    fn crossed(&mut self, file: &[u8], refused: bool) {
        let id = &file[84..100];
        let place = if id == reader::id(file) {
            0
        } else if id == [0; 16] {
            1
        } else {
            2
        };
        self.crossed[place] += 1;
        self.refused += u64::from(refused);
    }

    fn lacks_one(&self) -> bool {
        let [right, zeros, _] = self.crossed;
        self.accepted.contains(&0) || right == 0 || zeros == 0
    }
}

impl Display for MetXyb {
    fn fmt(&self, f: &mut Formatter<'_>) -> Printed {
        let [perceptual, relative, saturation, absolute] = self.accepted;
        write!(
            f,
            "accepted by intent {perceptual} {relative} {saturation} {absolute}"
        )?;
        let [right, zeros, other] = self.crossed;
        match right + zeros + other {
            0 => Ok(()),
            all => write!(
                f,
                "; crossed texts {all}, {right} with the right id, {zeros} with zeros and {other} with \
                 another, of these {} refused 26",
                self.refused
            ),
        }
    }
}
