//! Captures and logs for the programs: an own address, then datagrams or records, some of them hostile.

use super::bench::{good, Bench};
use super::events::{in_datagram, own_address, Event, Sender};
use super::random::Random;
use crate::reference::history::History;
use crate::reference::programs::{Program, RESTART};
use crate::reference::*;

/// The whole datagrams or records of an input, without its own address.
pub fn parts(program: Program, mut rest: &[u8]) -> Vec<&[u8]> {
    if program != Program::Replay {
        return rest.chunks_exact(53).collect();
    }
    let mut records = vec![];
    while rest.len() >= 3 && rest.len() >= 3 + number(&rest[1..3]) as usize {
        let (record, after) = rest.split_at(3 + number(&rest[1..3]) as usize);
        records.push(record);
        rest = after;
    }
    records
}

/// A record of a log.
pub fn record(kind: u8, octets: &[u8]) -> Vec<u8> {
    [&[kind][..], &(octets.len() as u16).to_be_bytes(), octets].concat()
}

/// An address and datagrams, some with octets left over.
pub fn capture(bench: &mut Bench, many: usize) -> Result<Vec<u8>, String> {
    let own = own_address(&mut bench.random);
    let all = datagrams(bench, own, many)?.concat();
    Ok(with_leftover(&mut bench.random, own, all))
}

/// The same, of stretches of fewer datagrams, which are quicker to make.
pub fn long_capture(bench: &mut Bench, many: usize) -> Result<Vec<u8>, String> {
    let own = own_address(&mut bench.random);
    let few = datagrams(bench, own, 3000)?;
    let all = stretches(&mut bench.random, &few, many);
    Ok(with_leftover(&mut bench.random, own, all))
}

/// An address and records, the last now and then cut short.
pub fn log(bench: &mut Bench, many: usize) -> Result<Vec<u8>, String> {
    let own = own_address(&mut bench.random);
    let all = records(bench, own, many)?.concat();
    Ok(cut(&mut bench.random, own, all))
}

/// The same, of stretches of fewer records.
pub fn long_log(bench: &mut Bench, many: usize) -> Result<Vec<u8>, String> {
    let own = own_address(&mut bench.random);
    let few = records(bench, own, 3000)?;
    let all = stretches(&mut bench.random, &few, many);
    Ok(cut(&mut bench.random, own, all))
}

/// So many parts, in stretches of up to 400 from anywhere among these.
fn stretches(random: &mut Random, few: &[Vec<u8>], many: usize) -> Vec<u8> {
    let (mut all, mut put) = (vec![], 0);
    while put < many {
        let from = random.below(few.len());
        let size = (1 + random.below(400)).min(few.len() - from).min(many - put);
        all.extend(few[from..from + size].concat());
        put += size;
    }
    all
}

fn with_leftover(random: &mut Random, own: u32, datagrams: Vec<u8>) -> Vec<u8> {
    let mut input = [&address(own)[..], &datagrams].concat();
    if random.one_in(2) {
        let left_over = random.below(53);
        input.extend(random.octets(left_over));
    }
    input
}

fn cut(random: &mut Random, own: u32, records: Vec<u8>) -> Vec<u8> {
    let mut input = [&address(own)[..], &records].concat();
    if random.one_in(2) {
        input.truncate(input.len() - random.below(input.len().min(20)));
    }
    input
}

fn datagrams(bench: &mut Bench, own: u32, many: usize) -> Result<Vec<Vec<u8>>, String> {
    let mut history = good(History::fresh(own))?;
    let mut sender = Sender::new(&mut bench.random, own);
    let mut all = vec![];
    for _ in 0..many {
        let event = sender.event(&mut bench.random, &history);
        let mut datagram = in_datagram(bench, &event);
        datagram.resize(53, 0);
        let _ = history.on_datagram(&datagram);
        all.push(datagram);
    }
    Ok(all)
}

fn records(bench: &mut Bench, own: u32, many: usize) -> Result<Vec<Vec<u8>>, String> {
    let mut history = good(History::fresh(own))?;
    let mut sender = Sender::new(&mut bench.random, own);
    let restarts = bench.random.pick(&[3, 10, 100]);
    let mut all = vec![];
    for _ in 0..many {
        let (kind, octets) = if bench.random.one_in(restarts) {
            (3, bench.random.octets(RESTART))
        } else if bench.random.one_in(40) {
            let kind = bench.random.pick(&[0, 1, 2, 2, 3, 3, 4, 5, 127, 128, 255]);
            let size = bench.random.pick(&[0, 1, 2, 11, 12, 13, 631, 632, 633, 4096, 65_535]);
            // a header or block of a good size would change what the sender knows
            (kind, bench.random.octets(if kind < 2 && size == 12 { 0 } else { size }))
        } else {
            match sender.event(&mut bench.random, &history) {
                Event::Header(octets) => {
                    let _ = history.on_header(&octets);
                    (0, octets)
                }
                Event::Block(octets) => {
                    let _ = history.on_block(&octets);
                    (1, octets)
                }
                Event::End => (2, vec![]),
            }
        };
        all.push(record(kind, &octets));
    }
    Ok(all)
}
