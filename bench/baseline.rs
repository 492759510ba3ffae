//! The two programs by the other versions: `baseline gateway|replay plain|fast|reference`.

#![allow(dead_code)]

mod fast;
mod plain;
mod receiver;
#[path = "../tests"]
mod second {
    pub mod reference;
}

use receiver::{Codes, Given, Receiver};
use second::reference::programs::{run, Program};
use std::io::{stderr, stdin, stdout, BufWriter, Read, Result, Write};

fn decimal(mut n: u64, out: &mut Vec<u8>) {
    let at = out.len();
    loop {
        out.push(b'0' + (n % 10) as u8);
        n /= 10;
        if n == 0 {
            break;
        }
    }
    out[at..].reverse();
}

/// Read until the memory is full or the input ends.
fn read_full(from: &mut impl Read, to: &mut [u8]) -> Result<usize> {
    let mut n = 0;
    while n < to.len() {
        match from.read(&mut to[n..])? {
            0 => break,
            more => n += more,
        }
    }
    Ok(n)
}

fn gateway<C: Codes>() -> Result<()> {
    let (mut input, mut output) = (stdin().lock(), stdout().lock());
    let (mut datagrams, mut messages, mut refused) = (0, 0, 0);
    let mut own = [0; 3];
    let mut octets = vec![0; 53 * 1024];
    let mut lines = Vec::with_capacity(1 << 15);
    if read_full(&mut input, &mut own)? == 3 {
        let mut receiver = Receiver::<C>::fresh(u32::from_be_bytes([0, own[0], own[1], own[2]]));
        loop {
            let n = read_full(&mut input, &mut octets)?;
            for datagram in octets[..n].chunks(53) {
                let given = receiver.on_datagram(datagram);
                decimal(datagrams, &mut lines);
                lines.push(b' ');
                decimal(given.as_ref().err().copied().unwrap_or(0).into(), &mut lines);
                lines.push(b'\n');
                datagrams += 1;
                messages += u64::from(matches!(given, Ok(Given::HandedOn(_))));
                refused += u64::from(given.is_err());
            }
            output.write_all(&lines)?;
            lines.clear();
            if n < octets.len() {
                break;
            }
        }
    }
    writeln!(output, "end {datagrams} {messages} {refused}")
}

fn hex(octets: &[u8], out: &mut Vec<u8>) {
    if octets.is_empty() {
        out.push(b'-');
    }
    for o in octets {
        out.extend([o >> 4, o & 15].map(|d| b"0123456789abcdef"[usize::from(d)]));
    }
}

/// The lines of whole records; the captures made here have no others.
fn replay<C: Codes>() -> Result<()> {
    let (mut input, mut output) = (stdin().lock(), BufWriter::with_capacity(1 << 16, stdout().lock()));
    let mut octets = Vec::new();
    input.read_to_end(&mut octets)?;
    let Some((own, mut rest)) = octets.split_first_chunk::<3>() else {
        return Ok(());
    };
    let mut receiver = Receiver::<C>::fresh(u32::from_be_bytes([0, own[0], own[1], own[2]]));
    let mut text = Vec::new();
    let mut form = [0; 1024];
    while let Some(([kind, high, low], behind)) = rest.split_first_chunk::<3>() {
        let Some((record, behind)) = behind.split_at_checked(usize::from(*high) << 8 | usize::from(*low)) else {
            return output.write_all(b"1\n");
        };
        rest = behind;
        text.clear();
        let given = match (kind, record.len()) {
            (0, _) => receiver.on_header(record),
            (1, _) => receiver.on_block(record),
            (2, 0) => receiver.on_end(),
            (3, 632) => {
                // a restart: save, and restore what was saved into a store of other octets
                receiver.save(u16::from_be_bytes([record[0], record[1]]), &mut form);
                receiver.store.copy_from_slice(&record[2..]);
                receiver = Receiver::restore(&form).expect("what was saved");
                text.extend(b"restored ");
                hex(&form, &mut text);
                text.push(b'\n');
                output.write_all(&text)?;
                continue;
            }
            _ => Err(1),
        };
        match given {
            Err(number) => decimal(number.into(), &mut text),
            Ok(Given::Opened) => text.extend(b"opened"),
            Ok(Given::Repeat) => text.extend(b"repeat"),
            Ok(Given::Stored) => text.extend(b"stored"),
            Ok(Given::Bad) => text.extend(b"bad"),
            Ok(Given::HandedOn(length)) => {
                text.extend(b"message ");
                decimal(length as u64, &mut text);
                text.push(b' ');
                hex(&receiver.store[..length], &mut text);
            }
            Ok(Given::Response(octets, length)) => {
                text.extend(b"response ");
                hex(&octets[..12], &mut text);
                text.push(b' ');
                hex(&octets[12..length], &mut text);
            }
        }
        text.push(b'\n');
        output.write_all(&text)?;
    }
    if rest.is_empty() {
        output.flush()
    } else {
        output.write_all(b"1\n")
    }
}

fn reference(program: Program) -> Result<()> {
    run(program, 0, &mut stdin(), &mut stdout(), &mut stderr());
    Ok(())
}

fn main() -> Result<()> {
    let arguments: Vec<String> = std::env::args().skip(1).collect();
    match (arguments[0].as_str(), arguments[1].as_str()) {
        ("gateway", "plain") => gateway::<plain::Plain>(),
        ("gateway", "fast") => gateway::<fast::Fast>(),
        ("gateway", "reference") => reference(Program::Gateway),
        ("replay", "plain") => replay::<plain::Plain>(),
        ("replay", "fast") => replay::<fast::Fast>(),
        ("replay", "reference") => reference(Program::Replay),
        _ => panic!("baseline gateway|replay plain|fast|reference"),
    }
}
