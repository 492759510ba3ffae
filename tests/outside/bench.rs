//! The test bench: the comparison of one call, and what has been seen.

use super::interface::{Call, Interface, Model, Octets};
use super::random::Random;
use crate::reference::wrong::Wrong;
use crate::reference::Answer;
use std::collections::{BTreeMap, BTreeSet};

/// What a call leaves: its result and the lent memory.
#[derive(Clone, PartialEq, Debug)]
pub struct Left {
    pub result: u32,
    pub first: Vec<u8>,
    pub second: Vec<u8>,
}

/// The first difference found.
pub type Check = Result<(), String>;

/// What the reference gives where it cannot refuse.
pub fn good<T>(answer: Answer<T>) -> Result<T, String> {
    answer.map_err(|number| format!("the reference itself gives {number} for a good case"))
}

pub struct Bench<'a> {
    pub subject: &'a dyn Interface,
    pub random: Random,
    /// How much of the whole run is made, in percent.
    pub share: usize,
    pub checks: u64,
    /// How often each function gave each number (and 0 for none), and how often each answer of an event was given.
    pub numbers: BTreeMap<(&'static str, u8), u64>,
    pub answers: BTreeMap<&'static str, u64>,
    /// The conditions of "Layout broken" that were met.
    pub layouts: BTreeSet<&'static str>,
    /// Which reading was met where the papers leave two.
    pub readings: BTreeMap<&'static str, &'static str>,
}

const GUARD: usize = 16;

/// Lent memory with guards on both sides.
struct Guarded(Vec<u8>);

impl Guarded {
    fn new(octets: &[u8]) -> Guarded {
        Guarded([&[0xC5; GUARD][..], octets, &[0x5C; GUARD]].concat())
    }

    fn lend(&mut self) -> &mut [u8] {
        let end = self.0.len() - GUARD;
        &mut self.0[GUARD..end]
    }

    fn unhurt(&self) -> bool {
        self.0[..GUARD] == [0xC5; GUARD] && self.0[self.0.len() - GUARD..] == [0x5C; GUARD]
    }
}

pub fn shown(octets: &[u8]) -> String {
    format!("{:?}", Octets(octets.to_vec()))
}

/// Where two lists of octets differ first.
fn difference(what: &str, expected: &[u8], got: &[u8]) -> String {
    let at = expected.iter().zip(got).position(|(a, b)| a != b).unwrap_or(0);
    let (is, should) = (got.get(at), expected.get(at));
    format!("{what}: octet {at} is {is:02x?}, expected {should:02x?}\n  got      {}\n  expected {}", shown(got), shown(expected))
}

impl<'a> Bench<'a> {
    pub fn new(subject: &'a dyn Interface, seed: u64, share: usize) -> Bench<'a> {
        let (numbers, answers, layouts, readings) = Default::default();
        Bench { subject, random: Random(seed), share, checks: 0, numbers, answers, layouts, readings }
    }

    /// So many of the whole run's rounds, at least one.
    pub fn rounds(&self, whole: usize) -> usize {
        (whole * self.share / 100).max(1)
    }

    pub fn check(&mut self, good: bool, case: impl FnOnce() -> String) -> Check {
        self.checks += 1;
        good.then_some(()).ok_or_else(case)
    }

    /// What the reference leaves of this call.
    pub fn expected(&self, call: &Call, first: &[u8], second: &[u8]) -> Left {
        let (mut first, mut second) = (first.to_vec(), second.to_vec());
        let result = Model(Wrong::Nothing).call(call, &mut first, &mut second);
        Left { result, first, second }
    }

    /// Call the subject over this lent memory, note what it gave, and look at guards and, after a refusal, at the memory.
    pub fn call(&mut self, call: &Call, first: &[u8], second: &[u8]) -> Result<Left, String> {
        let before = call.clone();
        let (mut a, mut b) = (Guarded::new(first), Guarded::new(second));
        let result = self.subject.call(call, a.lend(), b.lend());
        let left = Left { result, first: a.lend().to_vec(), second: b.lend().to_vec() };
        let case = |what: &str| format!("{call:?}\n  over {} and {}\n  {what}", shown(first), shown(second));
        self.check(a.unhurt() && b.unhurt(), || case("memory outside the lent one is written"))?;
        self.check(before == *call, || case("the input is written"))?;
        let (name, _, numbers) = call.facts();
        if !numbers.is_empty() {
            if result != 0 {
                let untouched = left.first == first && left.second == second;
                self.check(untouched, || case(&format!("number {result}, but lent memory is touched")))?;
            }
            *self.numbers.entry((name, result as u8)).or_default() += 1;
            if call.is_event() && result == 0 {
                *self.answers.entry(answer_name(&left.second)).or_default() += 1;
            }
        }
        Ok(left)
    }

    /// Call the subject and compare what it leaves.
    pub fn expect(&mut self, call: &Call, first: &[u8], second: &[u8], expected: &Left) -> Check {
        let left = self.call(call, first, second)?;
        let case = |what: String| format!("{call:?}\n  over {} and {}\n  {what}", shown(first), shown(second));
        self.check(left.result == expected.result, || case(format!("gives {}, expected {}", left.result, expected.result)))?;
        self.check(left.first == expected.first, || case(difference("first lent memory", &expected.first, &left.first)))?;
        self.check(left.second == expected.second, || case(difference("second lent memory", &expected.second, &left.second)))
    }

    /// Call the subject and compare with the reference over the same lent memory.
    pub fn compare_over(&mut self, call: &Call, first: &[u8], second: &[u8]) -> Result<Left, String> {
        let expected = self.expected(call, first, second);
        self.expect(call, first, second, &expected)?;
        Ok(expected)
    }

    /// The same for a function without an event, over lent memory of the right size with random contents.
    pub fn compare(&mut self, call: &Call) -> Result<Left, String> {
        let first = self.random.octets(call.facts().1);
        self.compare_over(call, &first, &[])
    }

    /// The same, and then over lent memory of wrong sizes: 1, and nothing touched.
    pub fn compare_sizes(&mut self, call: &Call) -> Check {
        self.compare(call)?;
        let right = call.facts().1;
        for size in (0..=64).chain([right.wrapping_sub(1).min(2000), right + 1, 2 * right, 1024, 1027]) {
            let first = self.random.octets(size);
            self.compare_over(call, &first, &[])?;
        }
        Ok(())
    }

    /// Note which of two readings was met; another one later is a fault.
    pub fn reading(&mut self, point: &'static str, met: &'static str) -> Check {
        let noted = *self.readings.entry(point).or_insert(met);
        self.check(noted == met, || format!("{point}: {noted} before, {met} now"))
    }
}

/// The name of the answer in a line.
fn answer_name(line: &[u8]) -> &'static str {
    match (line[0], line[12] >> 6) {
        (1, _) => "opened",
        (2, _) => "repeat",
        (3, _) => "stored",
        (4, _) => "bad",
        (5, _) => "handed on",
        (6, 0) => "ACK",
        (6, 1) => "NACK",
        (6, 2) => "SACK",
        _ => "unknown",
    }
}
