//! The judge on the command line.

use std::io::{BufRead, BufWriter, Read, Write};
use std::process::ExitCode;

use judge::encoding::{Curve, Encoding, Primaries, White};
use judge::inputs::records;
use judge::list::{self, Input, Record, hex};
use judge::{answer, bench, conformance, examples, jobs, leaves, reader};

const USAGE: &str = "\
judge profile ENCODING [ROOM]  the profile, or the refusal; ROOM is the output's length
judge describe ENCODING        the text of the description
judge fixed FLOAT              the fixed number
judge narrow DOUBLE            the float that a double narrows to
judge text FLOAT               a float as it is printed
judge examples                   tries the numbers of the scope
judge list [SEED]              writes the fixed list
judge check < LIST             tries a list, line by line
judge job < JOB                the listing of a job
judge read < PROFILE           the plan of a profile, or the refusal
judge bench                    times the four kinds of profile
judge conformance [SEED]       writes the conformance list
judge answer < ENCODINGS       answers to the encodings of that list

ENCODING is one of
  1 WHITE WX WY CURVE GAMMA INTENT
  2 WHITE WX WY PRIMARIES RX RY GX GY BX BY CURVE GAMMA INTENT
  3 INTENT
  4 WHITE WX WY CURVE GAMMA INTENT (gray adapted to D50)
WHITE: 0 D65, 1 E, 2 DCI, 3 own. PRIMARIES: 0 SRGB, 1 BT2100, 2 P3, 3 own.
CURVE: 0 BT709, 1 Linear, 2 SRGB, 3 PQ, 4 DCI, 5 HLG, 6 gamma.
INTENT: 0 Perceptual, 1 Relative, 2 Saturation, 3 Absolute.
A float is written in decimal, or as its bits: 0x and hexadecimal digits.";

fn main() -> ExitCode {
    let arguments: Vec<String> = std::env::args().skip(1).collect();
    let done = arguments
        .split_first()
        .ok_or(String::new())
        .and_then(|(command, rest)| run(command, Words(rest)));
    match done {
        Ok(true) => ExitCode::SUCCESS,
        Ok(false) => ExitCode::FAILURE,
        Err(why) => {
            eprintln!("{why}\n{USAGE}");
            ExitCode::from(2)
        }
    }
}

/// Runs a command; false where a comparison failed.
fn run(command: &str, mut words: Words) -> Result<bool, String> {
    match command {
        "profile" => show_profile(words)?,
        "describe" => println!("{}", answer::description(&words.encoding()?)),
        "fixed" => match leaves::fixed(words.float()?) {
            Some(number) => println!("{number} (0x{number:08x})"),
            None => println!("refused"),
        },
        "narrow" => {
            let bits = leaves::narrow(words.double()?);
            println!("0x{bits:08x} ({:e})", f32::from_bits(bits));
        }
        "text" => println!("{}", leaves::text(words.float()?)),
        "examples" => return Ok(try_examples()),
        "list" => write_list(words.number_or(list::SEED)?)?,
        "check" => return check_list(),
        "job" => show_listing()?,
        "read" => show_plan()?,
        "bench" => {
            for (name, nanoseconds) in bench::original() {
                println!("{name}: {nanoseconds:.0} ns");
            }
        }
        "conformance" => print!("{}", conformance::list(words.number_or(list::SEED)?)),
        "answer" => conformance::answer_all()?,
        _ => return Err(format!("no command {command}")),
    }
    Ok(true)
}

fn show_profile(mut words: Words) -> Result<(), String> {
    let encoding = words.encoding()?;
    let room = words.number_or(u64::MAX)?;
    let room = usize::try_from(room).unwrap_or(usize::MAX);
    println!("description {}", answer::description(&encoding));
    match answer::profile_within(&encoding, room) {
        Err(refusal) => println!("refused {refusal}"),
        Ok(profile) => {
            println!("length {}", profile.len());
            println!("md5 {}", hex(&leaves::md5(&profile)));
            for (line, bytes) in profile.chunks(16).enumerate() {
                println!("{:04x} {}", 16 * line, hex(bytes));
            }
        }
    }
    Ok(())
}

fn try_examples() -> bool {
    let all = examples::all();
    for example in &all {
        let mark = if example.holds() { "ok" } else { "DIFFERS" };
        println!(
            "{mark} {}: expected {}, found {}",
            example.name, example.expected, example.found
        );
    }
    let good = all.iter().filter(|example| example.holds()).count();
    println!("{good} of {}", all.len());
    good == all.len()
}

fn write_list(seed: u64) -> Result<(), String> {
    let mut out = BufWriter::new(std::io::stdout().lock());
    let records = records::all(seed);
    let lines = records.iter().map(Record::line);
    for line in std::iter::once(list::first_line(seed)).chain(lines) {
        writeln!(out, "{line}").map_err(|error| error.to_string())?;
    }
    out.flush().map_err(|error| error.to_string())
}

/// Reads a list and says, for each type, how many of its lines are the original's.
fn check_list() -> Result<bool, String> {
    let mut kinds: Vec<(char, u32, u32)> = Vec::new();
    for line in std::io::stdin().lock().lines().skip(1) {
        let line = line.map_err(|error| error.to_string())?;
        let input = Input::of_line(&line).ok_or(format!("no record: {line}"))?;
        let kind = input.letter();
        if kinds.last().is_none_or(|last| last.0 != kind) {
            kinds.push((kind, 0, 0));
        }
        let last = kinds.last_mut().expect("just pushed");
        last.2 += 1;
        last.1 += u32::from(Record::new(input).line() == line);
    }
    for (kind, good, all) in &kinds {
        println!("{kind}: {good} of {all}");
    }
    Ok(kinds.iter().all(|(_, good, all)| good == all))
}

fn input() -> Result<Vec<u8>, String> {
    let mut bytes = Vec::new();
    let read = std::io::stdin().lock().read_to_end(&mut bytes);
    read.map_err(|error| error.to_string())?;
    Ok(bytes)
}

fn show_listing() -> Result<(), String> {
    print!("{}", jobs::listing(&jobs::answer(&input()?)));
    Ok(())
}

fn show_plan() -> Result<(), String> {
    match reader::read(&input()?) {
        Ok(plan) => println!("{plan:#?}"),
        Err(refusal) => println!("refused {refusal}"),
    }
    Ok(())
}

/// The words of the command line that are left.
struct Words<'a>(&'a [String]);

impl Words<'_> {
    fn next(&mut self) -> Result<&str, String> {
        let (first, rest) = self.0.split_first().ok_or("a word is missing")?;
        self.0 = rest;
        Ok(first)
    }

    fn small(&mut self) -> Result<u8, String> {
        let word = self.next()?;
        word.parse().map_err(|_| format!("no small number: {word}"))
    }

    fn number_or(&mut self, otherwise: u64) -> Result<u64, String> {
        if self.0.is_empty() {
            return Ok(otherwise);
        }
        let word = self.next()?;
        word.parse().map_err(|_| format!("no number: {word}"))
    }

    fn float(&mut self) -> Result<u32, String> {
        let word = self.next()?;
        let bits = match word.strip_prefix("0x") {
            Some(digits) => u32::from_str_radix(digits, 16).ok(),
            None => word.parse().ok().map(f32::to_bits),
        };
        bits.ok_or(format!("no float: {word}"))
    }

    fn double(&mut self) -> Result<u64, String> {
        let word = self.next()?;
        let bits = match word.strip_prefix("0x") {
            Some(digits) => u64::from_str_radix(digits, 16).ok(),
            None => word.parse().ok().map(f64::to_bits),
        };
        bits.ok_or(format!("no double: {word}"))
    }

    fn white(&mut self) -> Result<White, String> {
        Ok(White {
            kind: self.small()?,
            wx: self.float()?,
            wy: self.float()?,
        })
    }

    fn primaries(&mut self) -> Result<Primaries, String> {
        let kind = self.small()?;
        let mut xy = [0; 6];
        for bits in &mut xy {
            *bits = self.float()?;
        }
        Ok(Primaries { kind, xy })
    }

    fn curve(&mut self) -> Result<Curve, String> {
        Ok(Curve {
            kind: self.small()?,
            gamma: self.float()?,
        })
    }

    fn encoding(&mut self) -> Result<Encoding, String> {
        let kind = self.small()?;
        let encoding = match kind {
            1 => Encoding::gray(self.white()?, self.curve()?, self.small()?),
            2 => {
                let (white, primaries) = (self.white()?, self.primaries()?);
                Encoding::rgb(white, primaries, self.curve()?, self.small()?)
            }
            3 => Encoding::xyb(self.small()?),
            4 => Encoding::adapted_gray(self.white()?, self.curve()?, self.small()?),
            _ => return Err(format!("no kind of encoding: {kind}")),
        };
        match encoding.original() {
            Some(_) => Ok(encoding),
            None => Err("a kind, curve or intent has no meaning".to_string()),
        }
    }
}
