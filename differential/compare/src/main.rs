//! Tries the port against the original on many inputs.
//!
//! Each leaf, `validate_icc_matrix`, the writer, the calls on jobs, the reader, the reading of typed
//! texts, or the calls on segments are tried on COUNT inputs: the boundary cases first, then random
//! ones that follow from the seed. Prints a line for each and fails if one answer differs. `bench`
//! times the writer beside the original, and typed texts.

mod adapted;
mod jobs;
mod lent;
mod port;
mod reader;
mod segments;
mod typed;
mod writer;

use std::fmt::{Debug, Display, Formatter, Result as Printed};
use std::hint::black_box;
use std::process::ExitCode;

use judge::inputs::{Random, encodings, floats, pieces};
use judge::progress::Progress;
use judge::{answer, bench, leaves};

const USAGE: &str = "\
compare leaves|validate|writer|jobs|reader|typed|segments COUNT [SEED]
compare profiles FOLDER
compare floats
compare bench";

/// Inputs are made in parts, so that they fit into memory.
const PART: usize = 1_000_000;

struct Run {
    count: usize,
    seed: u64,
    differences: usize,
}

impl Run {
    fn without_count() -> Self {
        Self {
            count: 0,
            seed: 1,
            differences: 0,
        }
    }

    fn leaf<I: Debug, A: PartialEq + Debug>(
        &mut self,
        name: &'static str,
        mut inputs: impl FnMut(&mut Random, usize) -> Vec<I>,
        original: impl Fn(&I) -> A,
        port: impl Fn(&I) -> A,
    ) {
        let mut random = Random::new(self.seed);
        let mut tally = Tally::new(name, self.count);
        while tally.tried < self.count {
            for input in inputs(&mut random, PART.min(self.count - tally.tried)) {
                tally.add(&input, &original(&input), &port(&input));
            }
        }
        println!("{tally}");
        self.differences += tally.different;
    }
}

/// One comparison: on how many inputs it was tried, and how many answers differed.
struct Tally {
    name: &'static str,
    tried: usize,
    different: usize,
    progress: Progress,
}

impl Tally {
    fn new(name: &'static str, count: usize) -> Self {
        Self {
            name,
            tried: 0,
            different: 0,
            progress: Progress::new(name, count),
        }
    }

    fn add<A: PartialEq + Debug>(&mut self, input: &impl Debug, expected: &A, found: &A) {
        self.tried += 1;
        if expected != found {
            self.different += 1;
            if self.different <= 3 {
                let name = self.name;
                println!("{name} of {input:x?}: expected {expected:x?}, found {found:x?}");
            }
        }
        self.progress.at(self.tried, self.different);
    }
}

impl Display for Tally {
    fn fmt(&self, f: &mut Formatter<'_>) -> Printed {
        let Self {
            name,
            tried,
            different,
            ..
        } = self;
        write!(f, "{name}: {tried} inputs, {different} differences")
    }
}

/// Messages of 0 to 200 bytes, every length in turn.
fn messages(random: &mut Random, count: usize) -> Vec<Vec<u8>> {
    (0..count)
        .map(|at| (0..at % 201).map(|_| random.bits32() as u8).collect())
        .collect()
}

fn leaves(run: &mut Run) {
    numbers_and_text(run);
    colours(run);
    validate(run);
}

fn numbers_and_text(run: &mut Run) {
    // The number, and 1 where it is exact.
    let fixed = |x: &u32| leaves::fixed(*x).map(|n| (n, u32::from(leaves::is_whole(*x))));
    let by_port = |x: &u32| port::fixed(*x);
    run.leaf("fixed number", floats::fixed, fixed, by_port);
    let inputs = floats::few_digits;
    run.leaf("fixed number, few digits", inputs, fixed, by_port);
    run.leaf(
        "narrowing",
        floats::narrow,
        |x| leaves::narrow(*x),
        |x| port::narrow(*x),
    );
    run.leaf(
        "seven decimals",
        floats::text,
        |x| leaves::text(*x).into_bytes(),
        |x| port::text(*x),
    );
    run.leaf(
        "MD5",
        messages,
        |m| leaves::md5(m).to_vec(),
        |m| port::md5(m),
    );
    run.leaf(
        "description",
        encodings::compared,
        |e| answer::description(e).into_bytes(),
        port::description,
    );
}

fn colours(run: &mut Run) {
    run.leaf(
        "linear algebra",
        pieces::matrices,
        |(a, b)| leaves::linalg(*a, *b),
        |(a, b)| port::linalg(*a, *b),
    );
    run.leaf(
        "adaptation",
        pieces::compared_colours,
        |c| leaves::adaptation(c.wx, c.wy),
        |c| port::adaptation(c.wx, c.wy),
    );
    run.leaf(
        "columns",
        pieces::compared_colours,
        |c| leaves::columns(c.wx, c.wy, c.xy),
        |c| port::columns(c.wx, c.wy, c.xy),
    );
    run.leaf(
        "gray white",
        pieces::gray_whites,
        |(wx, wy)| leaves::gray_white(*wx, *wy),
        |(wx, wy)| port::gray_white(*wx, *wy),
    );
}

fn validate(run: &mut Run) {
    run.leaf(
        "validate_icc_matrix",
        encodings::compared,
        leaves::validation,
        port::validation,
    );
}

/// Nanoseconds of both for each of four encodings, the best of several turns taken in turn.
fn bench() {
    for (name, encoding) in bench::encodings() {
        let theirs = encoding.original().expect("these have a meaning");
        let mut output = [0u8; 1300];
        let (mut port, mut original, mut length) = (f64::INFINITY, f64::INFINITY, f64::INFINITY);
        for _ in 0..5 {
            original = original.min(bench::nanoseconds(|| {
                black_box(
                    black_box(&theirs)
                        .maybe_create_profile()
                        .expect("these are accepted"),
                );
            }));
            port = port.min(bench::nanoseconds(|| {
                black_box(port::write(black_box(&encoding), &mut output));
            }));
            length = length.min(bench::nanoseconds(|| {
                black_box(port::length(black_box(&encoding), 1300));
            }));
        }
        println!(
            "{name}: {port:.0} ns, the original {original:.0} ns, ratio {:.2}; the dry call {length:.0} ns, ratio {:.2}",
            port / original,
            length / port
        );
    }
}

/// Nanoseconds for reading the longest text beside Rust's own for its nine floats, and for a short
/// one beside the writer of its encoding.
fn bench_typed() {
    const LONGEST: &str = "RGB_-10.1234567;-23.4567891_-34.5678912,-45.6789123;-56.7891234,-67.8912345;-78.9123456,-89.1234567_Abs_g-91.2345678";
    const SHORT: &str = "RGB_D65_SRG_Rel_Lin";
    let floats: Vec<&str> = LONGEST
        .split(['_', ';', ',', 'g'])
        .filter(|part| part.contains('.'))
        .collect();
    let short = judge::typed::read(SHORT.as_bytes()).expect("it is in the language");
    let (mut record, mut output) = ([0u8; 41], [0u8; 1300]);
    let mut read = |text: &str| {
        black_box(port::parse_description(
            black_box(text.as_bytes()),
            &mut record,
        ));
    };
    let mut best = [f64::INFINITY; 4];
    for _ in 0..5 {
        let times = [
            bench::nanoseconds(|| read(LONGEST)),
            bench::nanoseconds(|| {
                for float in &floats {
                    _ = black_box(black_box(float).parse::<f32>());
                }
            }),
            bench::nanoseconds(|| read(SHORT)),
            bench::nanoseconds(|| {
                black_box(port::write(black_box(&short), &mut output));
            }),
        ];
        best = std::array::from_fn(|at| times[at].min(best[at]));
    }
    let [long, parsed, short, written] = best;
    let (count, letters) = (floats.len(), LONGEST.len());
    println!(
        "a typed text of {letters} letters: {long:.0} ns, Rust's own for its {count} floats {parsed:.0} ns, ratio {:.2}",
        long / parsed
    );
    println!(
        "{SHORT}, typed: {short:.0} ns, the writer {written:.0} ns, ratio {:.2}",
        short / written
    );
}

/// What the words of the command line ask for.
enum Asked {
    Try(fn(&mut Run), Run),
    Profiles(String),
    EveryFloat,
    Bench,
}

impl Asked {
    fn of(words: &[&str]) -> Result<Self, String> {
        let (what, rest) = words.split_first().ok_or("a word is missing")?;
        let tried: fn(&mut Run) = match (*what, rest) {
            ("bench", []) => return Ok(Self::Bench),
            ("floats", []) => return Ok(Self::EveryFloat),
            ("profiles", [folder]) => return Ok(Self::Profiles(folder.to_string())),
            ("leaves", _) => leaves,
            ("validate", _) => validate,
            ("writer", _) => writer::writer,
            ("jobs", _) => jobs::jobs,
            ("reader", _) => reader::reader,
            ("typed", _) => typed::typed,
            ("segments", _) => segments::segments,
            _ => return Err(format!("not known: {}", words.join(" "))),
        };
        let (count, seed) = match rest {
            [count] => (*count, "1"),
            [count, seed] => (*count, *seed),
            _ => return Err("COUNT and perhaps SEED are needed".to_string()),
        };
        let count = count.parse().ok().filter(|count| *count > 0);
        let run = Run {
            count: count.ok_or("COUNT is a number above 0")?,
            seed: seed.parse().map_err(|_| "SEED is a number")?,
            differences: 0,
        };
        Ok(Self::Try(tried, run))
    }

    /// The number of differences.
    fn run(self) -> Result<usize, String> {
        match self {
            Self::Try(tried, mut run) => {
                tried(&mut run);
                Ok(run.differences)
            }
            Self::Profiles(folder) => {
                let mut run = Run::without_count();
                reader::folder(&mut run, folder.as_ref())?;
                Ok(run.differences)
            }
            Self::EveryFloat => {
                let mut run = Run::without_count();
                typed::every_float(&mut run);
                Ok(run.differences)
            }
            Self::Bench => {
                bench();
                bench_typed();
                Ok(0)
            }
        }
    }
}

fn main() -> ExitCode {
    let words: Vec<String> = std::env::args().skip(1).collect();
    let words: Vec<&str> = words.iter().map(String::as_str).collect();
    match Asked::of(&words)
        .map_err(|why| format!("{why}\n{USAGE}"))
        .and_then(Asked::run)
    {
        Ok(0) => ExitCode::SUCCESS,
        Ok(_) => ExitCode::FAILURE,
        Err(why) => {
            eprintln!("{why}");
            ExitCode::from(2)
        }
    }
}
