//! The records of the fixed list, type by type: what 01 and RFC 1321 give first, then boundary
//! cases, then random ones.

use super::jobs::Source;
use super::random::Random;
use super::{below, damage, encodings, floats, job_cases, pieces, plans, profile_cases};
use crate::answer;
use crate::encoding::{Encoding, GRAY, RGB, XYB};
use crate::examples::{self, RFC_1321, Run};
use crate::list::{Input, Record, hex, word};
use crate::profiles::{Sheet, Tag, change_id, numbers};
use crate::reader::{self, LARGEST, Plan};

/// The longest output that a record lends: no profile is as long.
const ROOM: u32 = 1300;

/// All records of a seed.
pub fn all(seed: u64) -> Vec<Record> {
    let mut random = Random::new(seed);
    let random = &mut random;
    let plain = |inputs: Vec<Input>| inputs.into_iter().map(Record::new);
    let mut all = messages();
    all.extend(lengths().map(|n| Record::new(Input::Bytes(pattern(n)))));
    let fixed = floats::fixed(random, 1500).into_iter().map(Input::Fixed);
    all.extend(plain(fixed.collect()));
    let narrow = floats::narrow(random, 1500).into_iter().map(Input::Narrow);
    all.extend(plain(narrow.collect()));
    let texts = floats::text(random, 1500).into_iter().map(Input::Text);
    all.extend(plain(texts.collect()));
    let colours = pieces::colours(random, 1150).into_iter();
    all.extend(plain(colours.map(Input::Colours).collect()));
    let whites = pieces::gray_whites(random, 400).into_iter();
    all.extend(plain(
        whites.map(|(wx, wy)| Input::GrayWhite(wx, wy)).collect(),
    ));
    all.extend(encoded_examples());
    all.extend(intents_of_xyb());
    all.extend(adapted_grays(&mut random.apart()));
    let encodings = encodings::encodings(random, 2600);
    let outputs = encodings.into_iter().enumerate();
    all.extend(plain(
        outputs
            .map(|(at, one)| Input::Encoding(room(random, at, &one), one))
            .collect(),
    ));
    all.extend(infinite_gammas());
    all.extend(ids(&mut random.apart()));
    all.extend(files_of_xyb());
    let mut own = Random::new(random.apart().bits64());
    all.extend(files_of_adapted(&mut own));
    all.extend(plain(files(random).into_iter().map(Input::File).collect()));
    all.extend(job_examples());
    all.extend(plain(jobs(random).into_iter().map(Input::Job).collect()));
    all
}

/// RFC 1321, A.5, with its own digests.
fn messages() -> Vec<Record> {
    let one = |(message, digest): (&str, &str)| Record {
        input: Input::Message(message.into()),
        given: vec![(0, digest.to_string())],
    };
    RFC_1321.map(one).into()
}

/// Every place in a block, and both sides of where a block is added, up to the longest file.
fn lengths() -> impl Iterator<Item = usize> {
    let later = [183, 192, 320, 440, 448, 504, 512, 520, 1015, 1200, 1240];
    (0..=130).chain(later.into_iter().flat_map(|n| [n, n + 1]))
}

fn pattern(length: usize) -> Vec<u8> {
    (0..length).map(|i| (7 * i + length) as u8).collect()
}

/// The examples of 01 ("Sheets to try") that are run and not proved: the lengths and refusals are
/// 01's.
fn encoded_examples() -> Vec<Record> {
    examples::run().into_iter().map(of_run).collect()
}

fn of_run(one: Run) -> Record {
    Record {
        input: Input::Encoding(one.room.unwrap_or(ROOM), one.encoding),
        given: vec![(0, word(one.number))],
    }
}

/// Adapted gray: what 02's order 9 gives, then others into outputs of all sorts.
fn adapted_grays(random: &mut Random) -> Vec<Record> {
    let given = examples::adapted_runs().into_iter().map(of_run);
    let others = encodings::adapted().into_iter().enumerate();
    let others = others.map(|(at, one)| Input::Encoding(room(random, at, &one), one));
    given.chain(others.map(Record::new)).collect()
}

/// XYB of each intent into an output of just its length, and into one that is a byte short. By 02's
/// order 8 all have 720 bytes, so the second answer is 9.
fn intents_of_xyb() -> Vec<Record> {
    let one = |intent, room, number| Record {
        input: Input::Encoding(room, Encoding::xyb(intent)),
        given: vec![(0, word(number))],
    };
    let both = |intent| [one(intent, 720, 720), one(intent, 719, 9)];
    (0..4).flat_map(both).collect()
}

/// What is written for an infinite gamma; its number, the fifth field, is 0 by 01.
fn infinite_gammas() -> Vec<Record> {
    let one = |encoding| Record {
        input: Input::File(answer::profile(&encoding).expect("accepted")),
        given: vec![(4, word(0))],
    };
    examples::infinite_gammas().map(one).into()
}

/// Zeros in place of the id of each kind, two other ids, and zeros beside elements that are refused.
/// The mark, field 29, and the refusals are given by 02 and 01.
fn ids(random: &mut Random) -> [Record; 7] {
    let [gray, rgb, xyb] = [GRAY, RGB, XYB].map(|kind| Plan {
        id_not_computed: true,
        ..plans::of_shape(random, kind, 12, false, kind == RGB)
    });
    let with_id = Plan {
        id_not_computed: false,
        ..rgb.clone()
    };
    let letter = Plan {
        text: vec![128],
        ..gray.clone()
    };
    let number = Plan {
        white: [0, LARGEST + 1],
        ..gray.clone()
    };
    let all = [
        (gray, 0),
        (rgb.clone(), 0),
        (xyb, 0),
        (with_id, 28),
        (rgb, 28),
        (letter, 26),
        (number, 27),
    ];
    all.map(|(plan, refusal)| {
        let mut file = Sheet::of(&plan).bytes();
        if refusal == 28 {
            change_id(&mut file, below(random, 128));
        }
        let mark = u32::from(refusal == 0);
        Record {
            input: Input::File(file),
            given: vec![(0, word(refusal)), (29, word(mark))],
        }
    })
}

/// XYB of each intent: with its id, and with zeros in place of it, so with the mark; beside the text of
/// each other intent, which is 26 under either id; and with intent 4 in its header, which is 24. Given
/// by 02's order 8 are the refusal, kind, intent and mark.
fn files_of_xyb() -> Vec<Record> {
    let plan = |intent, id_not_computed| Plan {
        kind: XYB,
        intent,
        id_not_computed,
        ..Plan::default()
    };
    let accepted = |plan: Plan| {
        let numbers = [0, XYB.into(), plan.intent, plan.id_not_computed.into()];
        of_file(&Sheet::of(&plan), numbers)
    };
    // The elements of one intent under a header with another.
    let refused = |intent: u32, header: u32, zeros, number| {
        let mut sheet = Sheet::of(&plan(intent, zeros));
        sheet.header[64..68].copy_from_slice(&header.to_be_bytes());
        of_file(&sheet, [number, 0, 0, 0])
    };
    let mut all = Vec::new();
    for intent in 0..4 {
        all.extend([false, true].map(|zeros| accepted(plan(intent, zeros))));
        let others = (0..4).filter(|header| *header != intent);
        all.extend(others.map(|header| refused(intent, header, header > intent, 26)));
        all.push(refused(intent, 4, intent % 2 == 1, 24));
    }
    all
}

/// Adapted gray: with its id and with zeros in place of it, by either curve; a `wtpt` that is not D50, a
/// `chad` of another type, and a letter above 127 with 26; `chad` before `wtpt`, another name in its
/// place, and one number less with 25; a number outside its range with 27; a bit of the id changed
/// with 28. The same without `chad` is gray that is not adapted. Given by 02's order 9 are the refusal,
/// the mark of the id, and that of adapted gray: fields 0, 29 and 30.
fn files_of_adapted(random: &mut Random) -> Vec<Record> {
    let [named, gamma] = [false, true].map(|gamma| {
        let gray = plans::of_shape(random, GRAY, 9, gamma, false);
        plans::adapted(random, gray)
    });
    let zeros = |plan: &Plan| Plan {
        id_not_computed: true,
        ..plan.clone()
    };
    let accepted = [named.clone(), zeros(&named), gamma.clone(), zeros(&gamma)];
    let accepted = accepted.map(|plan| {
        let marks = [plan.id_not_computed, true].map(u32::from);
        of_marks(Sheet::of(&plan).bytes(), 0, marks)
    });
    let sheet = Sheet::of(&named);
    let changed = |change: &dyn Fn(&mut Vec<Tag>)| {
        let mut other = sheet.clone();
        change(&mut other.tags);
        other.bytes()
    };
    let numbers_of = |kind, count| Some(numbers(kind, &named.chad[..count]));
    let mut near = sheet.bytes();
    change_id(&mut near, below(random, 128));
    let mut outside = named.clone();
    outside.chad[8] = LARGEST + 1;
    let mut letter = named.clone();
    letter.text[8] = 128;
    let refused = [
        (changed(&|tags| tags.swap(2, 3)), 25),
        (changed(&|tags| tags[3].signature = *b"cicp"), 25),
        (
            changed(&|tags| tags[3].element = numbers_of(b"sf32", 8)),
            25,
        ),
        (
            changed(&|tags| tags[3].element = numbers_of(b"XYZ ", 9)),
            26,
        ),
        (
            changed(&|tags| tags[2].element = Some(numbers(b"XYZ ", &[62289, 65536, 71372]))),
            26,
        ),
        (Sheet::of(&letter).bytes(), 26),
        (Sheet::of(&outside).bytes(), 27),
        (near, 28),
    ];
    let refused = refused.map(|(file, number)| of_marks(file, number, [0; 2]));
    let unmarked = changed(&|tags| drop(tags.remove(3)));
    let unmarked = of_marks(unmarked, 0, [0; 2]);
    let all = accepted.into_iter().chain(refused);
    all.chain(std::iter::once(unmarked)).collect()
}

/// The record of a file with its refusal, and the marks of the id and of adapted gray.
fn of_marks(file: Vec<u8>, refusal: u32, marks: [u32; 2]) -> Record {
    let [id_not_computed, adapted] = marks.map(word);
    Record {
        input: Input::File(file),
        given: vec![(0, word(refusal)), (29, id_not_computed), (30, adapted)],
    }
}

/// The record of a file with its refusal, kind, intent and mark: fields 0, 1, 2 and 29.
fn of_file(sheet: &Sheet, numbers: [u32; 4]) -> Record {
    let given = [0, 1, 2, 29].into_iter().zip(numbers.map(word));
    Record {
        input: Input::File(sheet.bytes()),
        given: given.collect(),
    }
}

/// The empty job, and the job of 01 with the listing that 01 prints, its last line by 02's order 8.
fn job_examples() -> Vec<Record> {
    let listing = "profiles 2\n2 1 504\n3 1 720\n";
    vec![
        Record {
            input: Input::Job(Vec::new()),
            given: vec![(0, word(41))],
        },
        Record {
            input: Input::Job(job_cases::of_the_scope()),
            given: vec![(13, hex(listing.as_bytes()))],
        },
    ]
}

/// One output in eight is a byte short, one as long as the profile, one any; the others are as long
/// as the profile or longer.
fn room(random: &mut Random, at: usize, encoding: &Encoding) -> u32 {
    let length = match answer::profile(encoding) {
        Ok(profile) => profile.len() as u32,
        Err(_) => return random.below(ROOM + 1),
    };
    match at % 8 {
        0 => length - 1,
        1 => length,
        2 => random.below(length + 20),
        _ => length + random.below(ROOM + 1 - length),
    }
}

/// Files for the reader: some that the original writes, some of plans that no encoding leads to;
/// for each refusal some of the cases, evenly; then any, whole and damaged.
fn files(random: &mut Random) -> Vec<Vec<u8>> {
    let mut all: Vec<Vec<u8>> = (0..20)
        .map(|_| Sheet::of(&plans::written(random)).bytes())
        .collect();
    all.extend((0..50).map(|_| Sheet::of(&plans::plan(random)).bytes()));
    let short = all[0][..132].to_vec();
    all.extend([short[..131].to_vec(), short, Vec::new()]);
    let cases = profile_cases::cases(random);
    let refusal = |file: &[u8]| reader::read(file).err().unwrap_or(0);
    let numbers: Vec<u32> = cases.iter().map(|file| refusal(file)).collect();
    for wanted in [0, 21, 22, 23, 24, 25, 26, 27, 28] {
        let places: Vec<usize> = (0..cases.len())
            .filter(|at| numbers[*at] == wanted)
            .collect();
        // Any of each part: at a fixed distance the ids could all be of one sort.
        let parts = places.chunks(places.len().div_ceil(10).max(1));
        let mut own = Random::new(random.bits64());
        all.extend(parts.map(|part| cases[own.pick(part)].clone()));
    }
    all.extend((0..50).map(|_| damage::file(random)));
    all
}

/// The cases, and 60 random jobs, good and damaged.
fn jobs(random: &mut Random) -> Vec<Vec<u8>> {
    let boundary = encodings::boundary();
    let mut cases = job_cases::cases(random, &boundary);
    cases.retain(|job| !job.is_empty() && *job != job_cases::of_the_scope());
    let count = cases.len() + 60;
    let source = Source::new(&boundary);
    super::filled(cases, count, || source.job(random))
}
