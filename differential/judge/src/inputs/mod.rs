//! What the port is tried with: every branch and both sides of every boundary first, then random
//! inputs. All of it follows from the seed.

pub mod colours;
pub mod damage;
pub mod devices;
pub mod encodings;
pub mod floats;
pub mod job_cases;
pub mod jobs;
pub mod pieces;
pub mod plans;
pub mod profile_cases;
pub mod random;
pub mod records;
pub mod segment_faults;
pub mod segments;
pub mod texts;

use std::collections::HashSet;
use std::hash::Hash;

pub use random::Random;

/// `first`, without repeats, and then new ones from `next` until there are `count`.
pub fn filled<T: Clone + Eq + Hash>(
    first: Vec<T>,
    count: usize,
    mut next: impl FnMut() -> T,
) -> Vec<T> {
    let mut seen = HashSet::new();
    let mut all: Vec<T> = first
        .into_iter()
        .filter(|one| seen.insert(one.clone()))
        .collect();
    while all.len() < count {
        let one = next();
        if seen.insert(one.clone()) {
            all.push(one);
        }
    }
    all
}

fn byte(random: &mut Random) -> u8 {
    random.bits32() as u8
}

fn below(random: &mut Random, limit: usize) -> usize {
    random.below(limit as u32) as usize
}
