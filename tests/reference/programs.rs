//! What the programs print, and what they say where they can't go on.

use super::history::{Given, History, Transaction};
use super::stored::save;
use super::wrong::{wrong, Wrong};
use super::*;
use std::io::{Read, Write};

#[derive(Clone, Copy, PartialEq, Debug)]
pub enum Program {
    Gateway,
    Replay,
    Delivered,
    /// The worked examples: no input. What it prints is compared elsewhere; here it has one line.
    Vectors,
}

impl Program {
    pub const ALL: [Program; 4] = [Program::Gateway, Program::Replay, Program::Delivered, Program::Vectors];

    pub fn name(self) -> &'static str {
        match self {
            Program::Gateway => "gateway",
            Program::Replay => "replay",
            Program::Delivered => "delivered",
            Program::Vectors => "vectors",
        }
    }
}

/// Why a program stops before the end of its input: standard input can't be read, or standard output can't be written.
enum Stop {
    Input,
    Output,
}

type Run = Result<(), Stop>;

/// Run a program with so many arguments. Its lines go to standard output, what it says to standard error.
pub fn run(program: Program, arguments: usize, from: &mut dyn Read, to: &mut dyn Write, says: &mut dyn Write) {
    let name = program.name();
    if arguments > 0 && !wrong(Wrong::ArgumentsIgnored) {
        say(says, format_args!("usage: {name}"));
        return;
    }
    let run = match program {
        Program::Gateway => gateway(from, to),
        Program::Replay => replay(from, to),
        Program::Delivered => delivered(from, to),
        Program::Vectors => put(to, "the worked examples"),
    };
    match run {
        Ok(()) => (),
        Err(_) if wrong(Wrong::StopsSilent) => (),
        Err(Stop::Input) => say(says, format_args!("{name}: standard input can't be read")),
        Err(Stop::Output) => say(says, format_args!("{name}: standard output can't be written")),
    }
}

/// A line on standard error; there is no other place to tell that it can't be written.
fn say(says: &mut dyn Write, what: std::fmt::Arguments) {
    let _ = writeln!(says, "{what}");
}

/// What a program prints of a whole input.
pub fn printed(program: Program, mut input: &[u8]) -> String {
    let mut lines = vec![];
    run(program, 0, &mut input, &mut lines, &mut std::io::sink());
    String::from_utf8(lines).expect("the lines are text")
}

/// The next n octets; fewer where the input ends.
fn next(from: &mut dyn Read, n: usize) -> Result<Vec<u8>, Stop> {
    let mut octets = vec![];
    match from.take(n as u64).read_to_end(&mut octets) {
        Err(_) if !wrong(Wrong::UnreadableTakenForEnd) => Err(Stop::Input),
        _ => Ok(octets),
    }
}

/// One line.
fn put(to: &mut dyn Write, line: impl std::fmt::Display) -> Run {
    match writeln!(to, "{line}") {
        Err(_) if !wrong(Wrong::UnwritableIgnored) => Err(Stop::Output),
        _ => Ok(()),
    }
}

/// Own address, then datagrams of 53 octets: a line for each when it is read, then the counts.
fn gateway(from: &mut dyn Read, to: &mut dyn Write) -> Run {
    let (mut datagrams, mut messages, mut refused) = (0, 0, 0);
    let own = next(from, 3)?;
    let mut receiver = History { own: number(&own), present: None };
    while own.len() == 3 {
        let datagram = next(from, 53)?;
        if datagram.is_empty() || datagram.len() < 53 && wrong(Wrong::LeftoverNotCounted) {
            break;
        }
        let given = receiver.on_datagram(&datagram);
        let index = if wrong(Wrong::IndexModulo5000) { datagrams % 5000 } else { datagrams };
        put(to, format_args!("{index} {}", given.as_ref().err().unwrap_or(&0)))?;
        datagrams += 1;
        messages += u32::from(matches!(given, Ok(Given::HandedOn(_))));
        refused += u32::from(given.is_err());
    }
    put(to, format_args!("end {datagrams} {messages} {refused}"))
}

/// Own address, then datagrams of 53 octets: a line for each message that is handed on, and for each that is bad.
fn delivered(from: &mut dyn Read, to: &mut dyn Write) -> Run {
    let own = next(from, 3)?;
    let mut receiver = History { own: number(&own), present: None };
    let mut opened = 0;
    for index in 0.. {
        let datagram = if own.len() == 3 { next(from, 53)? } else { vec![] };
        if datagram.is_empty() {
            break;
        }
        let given = receiver.on_datagram(&datagram);
        if given == Ok(Given::Opened) {
            opened = index;
        }
        let index = match () {
            () if wrong(Wrong::IndexOfHeader) => opened,
            () if wrong(Wrong::IndexInSixteenBits) => index % 65_536,
            () => index,
        };
        match (given, &receiver.present) {
            (Ok(Given::HandedOn(message)), Some(t)) => put(to, format_args!("{index} {}", delivery(t, &message)))?,
            (Ok(Given::Bad), Some(t)) => put(to, format_args!("{index} {} bad", source(t)))?,
            (Ok(Given::Repeat), Some(t)) if t.complete && wrong(Wrong::PrintedAgainAtRepeat) => {
                put(to, format_args!("{index} {}", delivery(t, &t.message())))?
            }
            _ => (),
        }
    }
    Ok(())
}

/// The line of a message, behind its index.
fn delivery(t: &Transaction, message: &[u8]) -> String {
    let (length, octets) = (message.len(), hex(message));
    if wrong(Wrong::SapLeftOut) {
        return format!("{} {length} {octets}", source(t));
    }
    let sap = if wrong(Wrong::SapWithPad) { t.sap << 4 | t.pad & 15 } else { t.sap };
    format!("{} {sap} {length} {octets}", source(t))
}

/// The source of a transaction, as it is printed.
fn source(t: &Transaction) -> u32 {
    if wrong(Wrong::SourceReversed) {
        return t.source.swap_bytes() >> 8;
    }
    t.source
}

/// Hexadecimal in lower case; `-` for no octets.
fn hex(octets: &[u8]) -> String {
    if octets.is_empty() {
        return "-".into();
    }
    octets.iter().map(|octet| format!("{octet:02x}")).collect()
}

/// The line of an answer.
fn line(given: Answer<Given>) -> String {
    match given {
        Err(number) => number.to_string(),
        Ok(Given::Opened) => "opened".into(),
        Ok(Given::Repeat) => "repeat".into(),
        Ok(Given::Stored) => "stored".into(),
        Ok(Given::Bad) => "bad".into(),
        Ok(Given::HandedOn(message)) => format!("message {} {}", message.len(), hex(&message)),
        Ok(Given::Response((header, block))) => format!("response {} {}", hex(&header), hex(block.as_ref().map_or(&[], |b| &b[..]))),
    }
}

/// The octets of a restart: a stamp, and what the store holds before.
pub const RESTART: usize = 2 + STORE;

/// Own address, then records of kind, length (2) and octets: a line for each when it is read.
fn replay(from: &mut dyn Read, to: &mut dyn Write) -> Run {
    let own = next(from, 3)?;
    let mut receiver = History { own: number(&own), present: None };
    while own.len() == 3 {
        let head = next(from, 3)?;
        let length = if head.len() < 3 { 0 } else { number(&head[1..]) as usize };
        let octets = next(from, length)?;
        if head.len() < 3 || octets.len() < length {
            // cut short by the end of input
            if !head.is_empty() && !wrong(Wrong::CutRecordSilent) {
                put(to, "1")?;
            }
            break;
        }
        let line = match head[0] {
            0 => line(receiver.on_header(&octets)),
            1 => line(receiver.on_block(&octets)),
            2 if octets.is_empty() => line(receiver.on_end()),
            // a restart changes nothing: the store's octets before it are of no matter
            3 if octets.len() == RESTART => format!("restored {}", hex(&save(&receiver, number(&octets[..2]) as u16))),
            _ => line(Err(SIZE)),
        };
        put(to, line)?;
    }
    Ok(())
}
