//! The calls on jobs: listing, profiles, number of entries, and entries by index.

use std::fmt::{Debug, Display, Formatter, Result as Printed};

use judge::answer;
use judge::encoding::XYB;
use judge::inputs::jobs::Source;
use judge::inputs::{Random, encodings, job_cases};
use judge::jobs::{self, Answer};
use judge::list::hex;
use judge::progress::Progress;

use crate::writer::Written;
use crate::{Run, port};

/// From this many jobs on, each answer must have occurred.
const ENOUGH: usize = 100_000;

/// How many entries of a job are asked for by index, besides the one past the end.
const ASKED: usize = 3;

pub fn jobs(run: &mut Run) {
    let mut random = Random::new(run.seed);
    let boundary = encodings::compared_boundary();
    let source = Source::new(&boundary);
    let mut cases = job_cases::cases(&mut random, &boundary).into_iter();
    let mut met = Met::default();
    let mut progress = Progress::new("jobs", run.count);
    for tried in 0..run.count {
        let job = cases.next().unwrap_or_else(|| source.job(&mut random));
        let answer = jobs::answer(&job);
        met.add(&answer);
        let mut trial = Trial {
            job: &job,
            answer: &answer,
            differences: Vec::new(),
        };
        trial.whole(&mut random);
        trial.by_index(&mut random);
        run.differences += usize::from(!trial.differences.is_empty());
        if run.differences <= 3 {
            trial.print();
        }
        progress.at(tried + 1, run.differences);
    }
    println!(
        "jobs: {} inputs, {} differences ({met})",
        run.count, run.differences
    );
    if run.count >= ENOUGH && met.lacks_one() {
        println!("jobs: an answer never occurred");
        run.differences += 1;
    }
}

/// The refusals of an entry. Number 2 no longer occurs.
const REFUSALS: [u32; 7] = [1, 3, 4, 5, 6, 7, 8];

/// How many jobs and entries got each answer.
#[derive(Default)]
struct Met {
    /// Good, and refused by 41, 42 and 43.
    jobs: [u64; 4],
    /// Accepted, and refused by each of `REFUSALS`.
    entries: [u64; 1 + REFUSALS.len()],
    /// Of the accepted, those of XYB, by intent.
    xyb: [u64; 4],
}

impl Met {
    fn add(&mut self, answer: &Answer) {
        let number = *answer.as_ref().err().unwrap_or(&40) as usize - 40;
        self.jobs[number] += 1;
        for entry in answer.iter().flatten() {
            let place = |number| REFUSALS.iter().position(|one| *one == number);
            let place = match entry.profile {
                Ok(_) => 0,
                Err(number) => 1 + place(number).expect("a refusal of an entry"),
            };
            self.entries[place] += 1;
            if entry.section == XYB && entry.profile.is_ok() {
                self.xyb[usize::from(entry.encoding.intent)] += 1;
            }
        }
    }

    fn lacks_one(&self) -> bool {
        self.jobs.contains(&0) || self.entries.contains(&0) || self.xyb.contains(&0)
    }
}

impl Display for Met {
    fn fmt(&self, f: &mut Formatter<'_>) -> Printed {
        write!(f, "{} good", self.jobs[0])?;
        for (number, times) in (41..).zip(&self.jobs[1..]) {
            write!(f, ", {times} refused {number}")?;
        }
        let entries: u64 = self.entries.iter().sum();
        let [perceptual, relative, saturation, absolute] = self.xyb;
        write!(
            f,
            "; {entries} entries: {} accepted, of these XYB by intent {perceptual} {relative} \
             {saturation} {absolute}",
            self.entries[0]
        )?;
        for (number, times) in REFUSALS.iter().zip(&self.entries[1..]) {
            write!(f, ", {times} refused {number}")?;
        }
        Ok(())
    }
}

/// One job, the original's answer to it, and what the port says otherwise.
struct Trial<'a> {
    job: &'a [u8],
    answer: &'a Answer,
    differences: Vec<String>,
}

impl Trial<'_> {
    fn same<T: PartialEq + Debug>(&mut self, call: &str, expected: T, found: T) {
        if expected != found {
            let difference = format!("{call}: expected {expected:?}, found {found:?}");
            self.differences.push(difference);
        }
    }

    /// The differences, each cut where it is long.
    fn print(&self) {
        for difference in &self.differences {
            let job = hex(self.job);
            println!("job {job:.600}, {difference:.1200}");
        }
    }

    /// The calls on the whole job.
    fn whole(&mut self, random: &mut Random) {
        // What the number is before a call, and after a refused one.
        const BEFORE: u32 = 0xa5a5_a5a5;
        let job = self.job;
        let mut entries = BEFORE;
        let status = port::job(job, &mut entries);
        let expected = match self.answer {
            Ok(all) => (0, all.len() as u32),
            Err(refusal) => (*refusal, BEFORE),
        };
        self.same("number of entries", expected, (status, entries));

        let listing = jobs::listing(self.answer);
        let length = port::listing_length(job);
        self.same("length of the listing", listing.len(), length);
        self.written("listing", listing.as_bytes(), port::listing, random);

        let profiles = jobs::profiles(self.answer);
        let length = port::profiles_length(job);
        self.same("length of the profiles", profiles.len(), length);
        self.written("profiles", &profiles, port::profiles, random);
    }

    /// A call that writes `bytes`: into an output as long, one byte shorter, and longer.
    fn written(
        &mut self,
        name: &str,
        bytes: &[u8],
        call: impl Fn(&[u8], &mut [u8]) -> usize,
        random: &mut Random,
    ) {
        let longer = bytes.len() + 1 + random.below(40) as usize;
        let shorter = bytes.len().checked_sub(1);
        for room in [bytes.len(), longer].into_iter().chain(shorter) {
            let expected = Written::due(Ok(bytes), room);
            let found = Written::by(|out| call(self.job, out), room);
            self.same(&format!("{name} into {room} bytes"), expected, found);
        }
    }

    /// Some entries, the one past the end, and one far beyond it; of a bad job, these only.
    fn by_index(&mut self, random: &mut Random) {
        let count = self.answer.as_ref().map_or(0, Vec::len);
        let asked: Vec<usize> = match count {
            0..=ASKED => (0..count).collect(),
            _ => (0..ASKED)
                .map(|_| random.below(count as u32) as usize)
                .collect(),
        };
        let beyond = [usize::MAX, count + 255, count + 256];
        for i in asked.into_iter().chain([count, random.pick(&beyond)]) {
            self.entry(i);
            self.profile(i, random);
        }
    }

    fn entry(&mut self, i: usize) {
        let expected = match self.answer {
            Err(refusal) => Err(*refusal),
            Ok(all) => all.get(i).ok_or(0).map(|entry| {
                let text = answer::description(&entry.encoding);
                (entry.section.into(), entry.place.into(), text.into_bytes())
            }),
        };
        self.same(&format!("entry {i}"), expected, port::entry(self.job, i));
    }

    /// The profile of an entry, into an output that may be short.
    fn profile(&mut self, i: usize, random: &mut Random) {
        let given = match self.answer {
            Err(refusal) => Err(*refusal),
            Ok(all) => all.get(i).ok_or(0).and_then(|entry| {
                let profile = entry.profile.as_deref();
                profile.map_err(|number| *number)
            }),
        };
        let length = given.map_or(0, <[u8]>::len) as u32;
        let room = match random.below(4) {
            0 => length.saturating_sub(1),
            1 => random.below(length + 1),
            2 => length,
            _ => 1300,
        } as usize;
        let expected = Written::due(given, room);
        let found = Written::by(|out| port::job_profile(self.job, i, out) as usize, room);
        self.same(&format!("profile {i} into {room} bytes"), expected, found);
    }
}
