//! The programs `push` and `dig` against the reference: their text for the same input,
//! and what they leave of a pipe that others read after them.

use crate::pipe::{first_bytes, read_in_turn, Feed, Readings, LIMIT};
use std::process::Command;
use std::time::Duration;
use std::{fmt, io};
use vectors::call::{Call, Case};
use vectors::limits::longest;
use vectors::random::Random;
use vectors::record::stored_cases;
use vectors::stream::Chance;

/// Fewer bytes for each sheet come into a pipe one by one.
const SHORT: usize = 25;

/// A program, which reads the sheets of a call, each after its 16-bit length.
#[derive(Debug, Clone, Copy)]
pub struct Program {
    /// Its name.
    pub name: &'static str,
    /// The call.
    pub call: Call,
    /// The text that the reference prints for an input.
    pub text: fn(&[u8]) -> Vec<u8>,
}

/// The programs.
pub const PROGRAMS: [Program; 2] = [
    Program { name: "push", call: Call::Sigma, text: reference::push },
    Program { name: "dig", call: Call::Query, text: reference::dig },
];

/// Bytes of which programs on one pipe print or leave something else than they
/// should.
#[derive(Debug)]
pub struct OtherReadings {
    /// What comes into the pipe.
    pub feed: Feed,
    /// What the reference prints, and the bytes after the sheets.
    pub expected: Readings,
    /// What the programs printed and left.
    pub found: Readings,
}

impl fmt::Display for OtherReadings {
    fn fmt(&self, out: &mut fmt::Formatter<'_>) -> fmt::Result {
        let Self { feed, expected, found } = self;
        writeln!(out, "input: {}", first_bytes(&feed.bytes))?;
        writeln!(out, "expected:\n{expected}found:\n{found}")
    }
}

impl Program {
    /// Inputs for the program: the sheets of cases of its call, each after its length,
    /// whole and then cut, with other lengths, or with bytes after them.
    pub fn inputs(self, seed: u64, count: usize) -> impl Iterator<Item = Vec<u8>> {
        let mut random = Random::seeded(seed);
        let whole = self.whole(&mut random, seed);
        let both = whole.flat_map(move |input| [changed(&mut random, input.clone()), input]);
        [vec![], vec![0], vec![0, 7]].into_iter().chain(both).take(count)
    }

    /// Two whole inputs each, first the longest, and what comes after them: nothing
    /// or other bytes.
    pub fn pairs(self, seed: u64, count: usize) -> impl Iterator<Item = ([Vec<u8>; 2], Vec<u8>)> {
        let mut random = Random::seeded(seed);
        let longest = framed(&vec![vec![0; u16::MAX.into()]; self.sheets()]);
        let whole = self.whole(&mut random, seed);
        let mut whole = [longest.clone(), longest].into_iter().chain(whole);
        (0..count).map(move |i| {
            let mut next = || whole.next().expect("an input after each");
            ([next(), next()], random.bytes(300 * (i % 2)))
        })
    }

    /// The number of sheets that the program reads.
    fn sheets(self) -> usize {
        self.call.sheets().len()
    }

    /// The sheets of cases of the call, each after its 16-bit length: those of the stored
    /// cases and the longest, in an order by chance, then others by chance.
    fn whole(self, random: &mut Random, seed: u64) -> impl Iterator<Item = Vec<u8>> {
        let of_call = move |case: &Case| case.call == self.call;
        let fixed = stored_cases().into_iter().chain(longest()).filter(of_call);
        let fixed = random.shuffled(fixed.collect());
        let cases = fixed.into_iter().chain(Chance::seeded(seed).filter(of_call));
        cases.map(|case| framed(&case.sheets))
    }

    /// The bytes after the last sheet.
    fn after_sheets(self, mut input: &[u8]) -> &[u8] {
        for _ in 0..self.sheets() {
            let Some((length, rest)) = input.split_first_chunk() else { return &[] };
            input = rest.get(u16::from_be_bytes(*length).into()..).unwrap_or_default();
        }
        input
    }

    /// Runs the program on the inputs; how many texts were refusals and how many
    /// tables, or the first input of which something else is printed or left.
    pub fn compare_texts(
        self,
        program: impl Fn() -> Command,
        inputs: impl Iterator<Item = Vec<u8>>,
    ) -> io::Result<Result<[usize; 2], Box<OtherReadings>>> {
        let mut counts = [0; 2];
        for input in inputs {
            let text = (self.text)(&input);
            let tables = text.starts_with(b"tables");
            let left = self.after_sheets(&input).to_vec();
            let expected = Readings { printed: vec![Some((text, true))], left };
            let feed = Feed { bytes: input, slowly: false, open: false };
            if let Err(other) = compare(feed, [program()], expected, LIMIT)? {
                return Ok(Err(other));
            }
            counts[usize::from(tables)] += 1;
        }
        Ok(Ok(counts))
    }

    /// Runs the program twice on each pair in one pipe, which stays open; short pairs
    /// come byte by byte. How many pairs came at once and how many byte by byte, or
    /// the first of which something else is printed or left.
    pub fn compare_pairs(
        self,
        program: impl Fn() -> Command,
        pairs: impl Iterator<Item = ([Vec<u8>; 2], Vec<u8>)>,
        limit: Duration,
    ) -> io::Result<Result<[usize; 2], Box<OtherReadings>>> {
        let mut counts = [0; 2];
        for (inputs, left) in pairs {
            let bytes = [inputs.concat(), left.clone()].concat();
            let slowly = bytes.len() < SHORT * self.sheets();
            let printed = inputs.iter().map(|input| Some(((self.text)(input), true))).collect();
            let feed = Feed { bytes, slowly, open: true };
            let expected = Readings { printed, left };
            if let Err(other) = compare(feed, [program(), program()], expected, limit)? {
                return Ok(Err(other));
            }
            counts[usize::from(slowly)] += 1;
        }
        Ok(Ok(counts))
    }
}

/// Sheets, each after its 16-bit length.
fn framed(sheets: &[Vec<u8>]) -> Vec<u8> {
    let mut input = Vec::new();
    for sheet in sheets {
        let length = u16::try_from(sheet.len()).expect("a 16-bit length");
        input.extend(length.to_be_bytes());
        input.extend(sheet);
    }
    input
}

/// The input cut, with a byte changed, or with bytes after it.
fn changed(random: &mut Random, mut input: Vec<u8>) -> Vec<u8> {
    let at = random.below(input.len());
    match random.below(4) {
        0 => input.truncate(at),
        1 => input[at] = random.bits() as u8,
        2 => input[0] = random.bits() as u8,
        _ => input.extend(random.bytes(300)),
    }
    input
}

/// Runs the programs on one pipe; whether they print and leave what is expected.
fn compare(
    feed: Feed,
    programs: impl IntoIterator<Item = Command>,
    expected: Readings,
    limit: Duration,
) -> io::Result<Result<(), Box<OtherReadings>>> {
    let found = read_in_turn(&feed, programs, limit)?;
    if found == expected {
        return Ok(Ok(()));
    }
    Ok(Err(Box::new(OtherReadings { feed, expected, found })))
}
