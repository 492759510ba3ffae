//! What the programs print, line by line against the reference.

use super::bench::{Bench, Check};
use super::captures::{capture, log, long_capture, long_log, parts};
use super::interface::Octets;
use crate::reference::programs::{printed, run, Program};
use crate::reference::wrong::{with, Wrong};
use std::io::{Error, Read, Write};

/// How the input is handed over: from a file, or through a pipe in pieces of at most so many octets.
#[derive(Clone, Copy, Debug)]
pub enum Feed {
    File,
    Pipe(usize),
}

/// A standard input.
#[derive(Clone, Debug)]
pub enum Input {
    /// A file with these octets.
    File(Octets),
    /// A pipe with these octets that stays open.
    Open(Octets),
    /// These octets; then reading fails, since there is nothing yet and the program is not to wait.
    NotReady(Octets),
    /// A folder.
    Folder,
    Closed,
}

/// A standard output: one that is kept, a full disk, or none.
#[derive(Clone, Copy, PartialEq, Debug)]
pub enum Output {
    Kept,
    Full,
    Closed,
}

/// How a program is started.
#[derive(Clone, Debug)]
pub struct Setting<'a> {
    pub arguments: &'a [&'a str],
    pub input: Input,
    pub output: Output,
}

/// What a program wrote, and whether it left its input unread.
pub struct Said {
    pub output: String,
    pub error: String,
    pub unread: bool,
}

/// One that runs the programs.
pub trait Runner {
    fn run(&self, program: Program, input: &[u8], feed: Feed) -> Result<String, String>;

    /// The lines of each part behind the own address, as many as are given beside it, awaited before the next part is handed over.
    fn run_live(&self, program: Program, own: &[u8], parts: &[(&[u8], usize)]) -> Result<Vec<String>, String>;

    /// A run that has to end by itself, in any setting.
    fn run_in(&self, program: Program, setting: &Setting) -> Result<Said, String>;
}

/// The reference in place of the programs.
pub struct ModelRunner(pub Wrong);

impl Runner for ModelRunner {
    fn run(&self, program: Program, input: &[u8], _: Feed) -> Result<String, String> {
        Ok(with(self.0, || printed(program, input)))
    }

    fn run_live(&self, program: Program, own: &[u8], parts: &[(&[u8], usize)]) -> Result<Vec<String>, String> {
        let input: Vec<u8> = parts.iter().fold(own.to_vec(), |all, (part, _)| [&all, *part].concat());
        let lines = with(self.0, || printed(program, &input));
        Ok(lines.lines().take(parts.iter().map(|(_, lines)| lines).sum()).map(String::from).collect())
    }

    fn run_in(&self, program: Program, setting: &Setting) -> Result<Said, String> {
        let (octets, then) = match &setting.input {
            Input::File(octets) => (&octets.0[..], Then::End),
            Input::Open(octets) => (&octets.0[..], Then::Waits),
            Input::NotReady(octets) => (&octets.0[..], Then::Fails),
            Input::Folder | Input::Closed => (&[][..], Then::Fails),
        };
        let mut from = ModelInput { octets, then, unread: true, waited: false };
        let (mut kept, mut none, mut error) = (vec![], NoOutput, vec![]);
        let to: &mut dyn Write = if setting.output == Output::Kept { &mut kept } else { &mut none };
        with(self.0, || run(program, setting.arguments.len(), &mut from, to, &mut error));
        if from.waited {
            return Err("does not end while its input is open".into());
        }
        let text = |octets| String::from_utf8(octets).map_err(|_| "octets that are no text".to_string());
        Ok(Said { output: text(kept)?, error: text(error)?, unread: from.unread })
    }
}

/// What an input does behind its octets.
enum Then {
    End,
    Fails,
    Waits,
}

struct ModelInput<'a> {
    octets: &'a [u8],
    then: Then,
    unread: bool,
    waited: bool,
}

impl Read for ModelInput<'_> {
    fn read(&mut self, to: &mut [u8]) -> std::io::Result<usize> {
        self.unread = false;
        match self.octets.read(to)? {
            0 if !to.is_empty() && matches!(self.then, Then::Fails) => Err(Error::other("can't be read")),
            n => {
                self.waited |= n == 0 && !to.is_empty() && matches!(self.then, Then::Waits);
                Ok(n)
            }
        }
    }
}

struct NoOutput;

impl Write for NoOutput {
    fn write(&mut self, _: &[u8]) -> std::io::Result<usize> {
        Err(Error::other("can't be written"))
    }

    fn flush(&mut self) -> std::io::Result<()> {
        Ok(())
    }
}

pub fn programs(bench: &mut Bench, runner: &dyn Runner) -> Check {
    short_inputs(bench, runner)?;
    live(bench, runner)?;
    for round in 0..bench.rounds(60).max(12) {
        let long = round % 20 == 19;
        let datagrams = if long { 2500 } else { bench.random.below(200) };
        let capture = capture(bench, datagrams)?;
        compare(bench, runner, Program::Gateway, &capture)?;
        compare(bench, runner, Program::Delivered, &capture)?;
        let records = if long { 1500 } else { bench.random.below(300) };
        let log = log(bench, records)?;
        compare(bench, runner, Program::Replay, &log)?;
    }
    long_inputs(bench, runner)
}

/// Inputs long enough for a wrong index or count to show: over 10,000 parts, and 100,000 datagrams.
fn long_inputs(bench: &mut Bench, runner: &dyn Runner) -> Check {
    let log = long_log(bench, 10_500)?;
    compare(bench, runner, Program::Replay, &log)?;
    for datagrams in [10_500, 100_000] {
        let capture = long_capture(bench, datagrams)?;
        compare(bench, runner, Program::Gateway, &capture)?;
        let lines = compare(bench, runner, Program::Delivered, &capture)?;
        let late = lines.lines().filter_map(index_of).any(|index| index > datagrams * 9 / 10);
        bench.check(late, || format!("the reference itself delivers nothing late among {datagrams} datagrams"))?;
    }
    Ok(())
}

/// One run, and its lines; those that were expected.
fn compare(bench: &mut Bench, runner: &dyn Runner, program: Program, input: &[u8]) -> Result<String, String> {
    let pieces = if input.len() < 300_000 { &[1, 2, 3, 7, 53, 56, 635, 4096, 100_000][..] } else { &[635, 4096, 100_000] };
    let feed = if bench.random.one_in(3) { Feed::File } else { Feed::Pipe(bench.random.pick(pieces)) };
    let expected = printed(program, input);
    let case = |why: String| {
        let begin: String = input.iter().take(4000).map(|octet| format!("{octet:02x}")).collect();
        format!("{program:?} fed {feed:?}: {why}\n  input of {} octets, which begins {begin}", input.len())
    };
    let got = runner.run(program, input, feed).map_err(case)?;
    let (mut got_lines, mut expected_lines) = (got.split('\n'), expected.split('\n'));
    for at in 0.. {
        let (g, e) = (got_lines.next(), expected_lines.next());
        bench.check(g == e, || case(format!("line {at} is {g:?}, expected {e:?}")))?;
        if e.is_none() {
            break;
        }
    }
    Ok(expected)
}

/// The index at the start of a line.
fn index_of(line: &str) -> Option<usize> {
    line.split(' ').next()?.parse().ok()
}

/// Each datagram and each record is answered when it has come, with the input still open.
fn live(bench: &mut Bench, runner: &dyn Runner) -> Check {
    for program in [Program::Gateway, Program::Delivered, Program::Replay] {
        let input = if program == Program::Replay { log(bench, 100)? } else { capture(bench, 100)? };
        compare_live(bench, runner, program, &input[..3], &parts(program, &input[3..]))?;
    }
    Ok(())
}

fn compare_live(bench: &mut Bench, runner: &dyn Runner, program: Program, own: &[u8], parts: &[&[u8]]) -> Check {
    let expected = printed(program, &[own, &parts.concat()].concat());
    // a delivery names its datagram; the others have a line for each part
    let named = |at: usize| expected.lines().filter(|line| index_of(line) == Some(at)).count();
    let lines = |at: usize| if program == Program::Delivered { named(at) } else { 1 };
    let with_lines: Vec<(&[u8], usize)> = parts.iter().enumerate().map(|(at, part)| (*part, lines(at))).collect();
    let got = runner.run_live(program, own, &with_lines)?;
    for (at, (g, e)) in got.iter().zip(expected.lines()).enumerate() {
        bench.check(g == e, || format!("{program:?} with its input open: line {at} is {g:?}, expected {e:?}"))?;
    }
    let all: usize = with_lines.iter().map(|(_, lines)| lines).sum();
    bench.check(got.len() == all, || format!("{program:?} with its input open: {} lines for {all}", got.len()))
}

/// No input, an address or a part of it, and little behind it.
fn short_inputs(bench: &mut Bench, runner: &dyn Runner) -> Check {
    for size in [0, 1, 2, 3, 4, 5, 6, 7, 55, 56, 57, 109] {
        for fill in [0, 3, 255] {
            let input = vec![fill; size];
            for program in [Program::Gateway, Program::Delivered, Program::Replay] {
                compare(bench, runner, program, &input)?;
            }
        }
    }
    // one record of every kind, of no octets, and one cut short
    for kind in (0..6).chain([128, 255]) {
        for tail in [&[][..], &[0], &[0, 0], &[0, 1], &[0, 1, 9], &[0, 1, 9, 2, 0, 0], &[255, 255, 1]] {
            let input = [&[1, 2, 3, kind][..], tail].concat();
            compare(bench, runner, Program::Replay, &input)?;
        }
    }
    Ok(())
}
