//! Buffers that are lent to a call, whose every byte is known before and after it.

use std::ops::Range;

use judge::inputs::Random;

/// So many bytes stand behind what is lent, and up to so many before it.
const BESIDE: usize = 16;

/// What an output holds before starts at one of so many places.
const STARTS: usize = 65_536;

/// Bytes that are lent from a longer buffer, and what all of the buffer must be after the call.
#[derive(Default)]
pub struct Buffer {
    bytes: Vec<u8>,
    due: Vec<u8>,
    lent: Range<usize>,
}

impl Buffer {
    fn set(&mut self, [before, lent, behind]: [&[u8]; 3]) {
        self.bytes.clear();
        for part in [before, lent, behind] {
            self.bytes.extend_from_slice(part);
        }
        self.due.clone_from(&self.bytes);
        self.lent = before.len()..before.len() + lent.len();
    }

    /// What was lent, as it is now.
    pub fn lent(&self) -> &[u8] {
        &self.bytes[self.lent.clone()]
    }

    /// The first byte that is not as it must be, seen from the first that was lent.
    fn difference(&self) -> Option<String> {
        if self.bytes == self.due {
            return None;
        }
        let mut both = self.bytes.iter().zip(&self.due);
        let at = both.position(|(found, due)| found != due)?;
        let place = at as isize - self.lent.start as isize;
        let (due, found) = (self.due[at], self.bytes[at]);
        Some(format!("byte {place} is due {due:02x}, found {found:02x}"))
    }
}

/// The buffers of input and output, which hold any bytes before a call, so that one that is written
/// shows.
pub struct Lent {
    any: Vec<u8>,
    input: Buffer,
    pub output: Buffer,
}

impl Lent {
    /// For outputs of up to so many bytes.
    pub fn new(random: &mut Random, largest: usize) -> Self {
        let words = (largest + STARTS).div_ceil(8);
        let any = (0..words).flat_map(|_| random.bits64().to_be_bytes());
        Self {
            any: any.collect(),
            input: Buffer::default(),
            output: Buffer::default(),
        }
    }

    /// One call, at any address; what it does otherwise than is due.
    pub fn call(
        &mut self,
        random: &mut Random,
        input: &[u8],
        room: usize,
        due: &Result<Vec<u8>, u32>,
        call: impl FnOnce(&[u8], &mut [u8]) -> u32,
    ) -> Result<(), String> {
        let [before, before_output] = [0; 2].map(|_| random.below(BESIDE as u32) as usize);
        let any = &self.any[random.below((STARTS - 2 * BESIDE) as u32) as usize..];
        let (front, any) = any.split_at(BESIDE);
        self.input.set([&front[before..], input, front]);
        let (lent, behind) = any.split_at(room);
        self.output
            .set([&front[before_output..], lent, &behind[..BESIDE]]);

        let lent = self.output.lent.clone();
        let answer = call(self.input.lent(), &mut self.output.bytes[lent.clone()]);
        let due = due.as_deref().map_err(|number| *number);
        let due = put(&mut self.output.due[lent], due);
        if answer != due {
            return Err(format!("expected {due}, found {answer}"));
        }
        let input = self
            .input
            .difference()
            .map(|byte| format!("{due}, but of the input {byte}"));
        let output = self
            .output
            .difference()
            .map(|byte| format!("{due}, but of the output {byte}"));
        input.or(output).map_or(Ok(()), Err)
    }
}

/// Puts what is written to the front of an output, and says the answer.
pub fn put(output: &mut [u8], due: Result<&[u8], u32>) -> u32 {
    match due {
        Ok(bytes) => {
            output[..bytes.len()].copy_from_slice(bytes);
            bytes.len() as u32
        }
        Err(number) => number,
    }
}
