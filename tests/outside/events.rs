//! Random lists of events, each event compared with the history rule: number, answer, and the stored form octet by octet.

use super::bench::{good, Bench, Check, Left};
use super::formats::damage_datagram;
use super::interface::{line, Call, Octets, LINE};
use super::random::Random;
use crate::reference::burst::*;
use crate::reference::history::{Given, History};
use crate::reference::packet::*;
use crate::reference::stored::save;
use crate::reference::*;

#[derive(Clone, PartialEq, Debug)]
pub enum Event {
    Header(Vec<u8>),
    Block(Vec<u8>),
    End,
}

/// The stations that send: what they are sending now. Repeats, losses and faults are made of it.
pub struct Sender {
    own: u32,
    header: Header,
    /// The ten data octets of each block.
    data: Vec<[u8; 10]>,
    /// Events that are already decided.
    ahead: Vec<Event>,
}

impl Sender {
    pub fn new(random: &mut Random, own: u32) -> Sender {
        let nine = [0, 0, 8];
        let header = Header { format: 3, group: 0, a: 1, pad: 0, sap: 0, destination: own, source: 1, full: 1, count: 1, nine };
        let mut sender = Sender { own, header, data: vec![], ahead: vec![] };
        sender.next_message(random);
        sender
    }

    /// Take another message, of a few stations, SAPs and N(S), so that equal ones occur.
    fn next_message(&mut self, random: &mut Random) {
        let length = match random.below(8) {
            0 => random.below(627),
            1 => random.pick(&[0, 6, 7, 16, 17, 616, 617, 626]),
            2 => random.below(160),
            _ => random.below(40),
        };
        let message = random.octets(length);
        let all = message_octets(&message).unwrap_or_default();
        self.data = all.chunks(10).filter_map(|ten| sized(ten).ok()).collect();
        let pad = all.len() - 4 - length;
        let h = &mut self.header;
        (h.pad, h.count) = (pad as u8, self.data.len() as u8);
        h.source = random.pick(&[1, 0x10_0000, 0xFF_FFFF, self.own]);
        h.sap = random.pick(&[0, 4, 15]);
        h.nine = [random.below(2) as u8, random.pick(&[0, 1, 7]), random.pick(&[8, 8, 0, 15])];
        // now and then a message with a bad check
        if random.one_in(6) {
            let n = random.below(self.data.len());
            random.flip(&mut self.data[n], 1);
        }
        // or one with more pad than its length asks for
        if random.one_in(8) {
            let most = (10 * self.data.len() - 4).min(31);
            self.header.pad = random.below(most + 1) as u8;
        }
    }

    fn block(&self, n: usize) -> Event {
        Event::Block(write_block(n as u8 & 127, &self.data[n % self.data.len()]).map_or(vec![], |octets| octets.to_vec()))
    }

    fn header(&self, header: &Header) -> Event {
        Event::Header(write_header(header).map_or(vec![], |octets| octets.to_vec()))
    }

    /// The next event; the history tells which blocks are missing.
    pub fn event(&mut self, random: &mut Random, history: &History) -> Event {
        if let Some(event) = self.ahead.pop() {
            return event;
        }
        let blocks = self.data.len();
        let mut header = self.header.clone();
        match random.below(32) {
            0 | 1 => {
                self.next_message(random);
                self.header(&self.header)
            }
            2 | 3 => self.header(&header),
            4 => self.other_header(random),
            5 | 6 => self.partial_header(random),
            7 => self.refused_header(random),
            8 | 9 => Event::End,
            10 => self.any_octets(random),
            // all the missing blocks, in order or not, some lost, some twice
            11..=13 => {
                let missing = |n: &usize| history.present.as_ref().is_none_or(|t| t.held(*n as u8).is_none());
                let mut numbers: Vec<usize> = (0..blocks).filter(missing).collect();
                if random.one_in(2) {
                    (1..numbers.len()).for_each(|i| numbers.swap(i, random.below(i + 1)));
                }
                if random.one_in(3) {
                    let lost = 2 + random.below(8);
                    numbers.retain(|_| !random.one_in(lost));
                }
                if random.one_in(4) {
                    numbers.extend(numbers.clone());
                }
                self.ahead = numbers.iter().rev().map(|&n| self.block(n)).collect();
                self.header(&header)
            }
            14 => {
                header.full = 0;
                header.count = 1 + random.below(blocks) as u8;
                self.header(&header)
            }
            15 => self.altered_block(random),
            16 => self.spoilt_block(random),
            17 => self.block(blocks + random.below(130 - blocks)),
            18..=21 => self.block(random.below(blocks)),
            _ => {
                let missing = (0..blocks).find(|&n| history.present.as_ref().is_none_or(|t| t.held(n as u8).is_none()));
                missing.map_or_else(|| self.block(random.below(blocks)), |n| self.block(n))
            }
        }
    }

    /// A full header that differs in one of the five.
    fn other_header(&mut self, random: &mut Random) -> Event {
        let h = &mut self.header;
        match random.below(5) {
            0 => h.source = random.address(),
            1 => h.sap = random.octet() & 15,
            2 => h.nine[1] = random.octet() & 7,
            3 => h.pad = random.octet() & 31,
            _ => h.count = 1 + random.below(63) as u8,
        }
        let event = self.header(&self.header);
        self.header.count = self.data.len() as u8;
        event
    }

    /// A partial header with any count, equal in the four or not.
    fn partial_header(&self, random: &mut Random) -> Event {
        let mut h = self.header.clone();
        h.full = 0;
        h.count = 1 + random.below(63) as u8;
        match random.below(9) {
            0 => h.source ^= 1 << random.below(24),
            1 => h.sap ^= 1 << random.below(4),
            2 => h.nine[1] ^= 1 << random.below(3),
            3 => h.pad ^= 1 << random.below(5),
            4 => h.count = random.pick(&[0, 64, 127]),
            _ => (),
        }
        self.header(&h)
    }

    /// A header that gets 8 to 11.
    fn refused_header(&self, random: &mut Random) -> Event {
        let mut h = self.header.clone();
        h.full = random.below(2) as u8;
        match random.below(9) {
            0 => h.group = 1,
            1 => h.a = 0,
            2 => h.destination = random.pick(&[self.own ^ 1, self.own ^ 0x80_0000, 0, 0xFF_FFFF]),
            3 => h.format = 1,
            4 => (h.format, h.nine) = (2, [8, 0, 0]),
            5 => h.count = random.pick(&[0, 64, 65, 127]),
            6 => (h.count, h.pad) = (1 + random.below(4) as u8, 31),
            7 => (h.count, h.pad) = random.pick(&[(1, 7), (1, 6), (2, 17), (2, 16), (3, 27), (3, 26)]),
            _ => {
                let Event::Header(mut octets) = self.header(&h) else { return Event::End };
                if random.one_in(2) {
                    random.flip(&mut octets, 1);
                    return Event::Header(octets);
                }
                // a format that is none of ours, with a good check
                octets[0] = octets[0] & 0xF0 | random.pick(&[0, 4, 5, 7, 11, 13, 15]);
                return Event::Header(with_header_check(&octets[..10]).map_or(vec![], |octets| octets.to_vec()));
            }
        }
        self.header(&h)
    }

    /// A block with a good check and other contents.
    fn altered_block(&self, random: &mut Random) -> Event {
        let n = random.below(self.data.len());
        let mut data = self.data[n];
        let times = 1 + random.below(3);
        random.flip(&mut data, times);
        Event::Block(write_block(n as u8, &data).map_or(vec![], |octets| octets.to_vec()))
    }

    /// A block with a bad check.
    fn spoilt_block(&self, random: &mut Random) -> Event {
        let Event::Block(mut octets) = self.block(random.below(self.data.len())) else { return Event::End };
        let times = 1 + random.below(2);
        random.flip(&mut octets, times);
        Event::Block(octets)
    }

    /// Octets of any size; or a reserved bit, which changes nothing.
    fn any_octets(&self, random: &mut Random) -> Event {
        let size = random.pick(&[0, 1, 11, 12, 12, 13, 24, 53]);
        match random.below(3) {
            0 => Event::Header(random.octets(size)),
            1 => Event::Block(random.octets(size)),
            _ => {
                let Event::Header(mut octets) = self.header(&self.header) else { return Event::End };
                octets[0] |= 0x20;
                Event::Header(with_header_check(&octets[..10]).map_or(vec![], |octets| octets.to_vec()))
            }
        }
    }
}

/// A header or block in a datagram, mostly with errors that are put right.
pub fn in_datagram(bench: &mut Bench, event: &Event) -> Vec<u8> {
    let (data_type, octets) = match event {
        Event::Header(octets) => (HEADER, octets.clone()),
        Event::Block(octets) => (BLOCK, octets.clone()),
        Event::End => (BLOCK, bench.random.octets(12)),
    };
    let random = &mut bench.random;
    let info = sized(&octets).unwrap_or([0; 12]);
    let burst = Burst { colour: random.octet() & 15, data_type, info };
    let labels = Labels {
        sequence: random.octet(),
        source: random.address(),
        target: random.address(),
        repeater: random.next() as u32,
        timeslot: random.octet() & 1,
        call_type: random.octet() & 1,
        stream: random.next() as u32,
    };
    let sync = random.octet() & 1;
    let mut datagram = write_datagram(&labels, &burst, sync).map_or(vec![], |octets| octets.to_vec());
    if random.one_in(2) {
        random.flip(&mut datagram[20..], 1);
        random.flip(&mut datagram[34..40], 3);
    }
    if bench.random.one_in(12) {
        damage_datagram(bench, &mut datagram);
    }
    datagram
}

/// Own addresses of receivers.
pub fn own_address(random: &mut Random) -> u32 {
    let any = random.address();
    random.pick(&[0, 1, 0xFF_FFFF, any, any])
}

pub fn events(bench: &mut Bench) -> Check {
    for _ in 0..bench.rounds(400) {
        let own = own_address(&mut bench.random);
        let in_datagrams = bench.random.pick(&[0, 0, 3, 10]);
        list(bench, own, in_datagrams)?;
    }
    Ok(())
}

/// One list: a stored form goes from event to event in the subject's hands; the history is told the same events.
fn list(bench: &mut Bench, own: u32, in_datagrams: usize) -> Check {
    let mut history = good(History::fresh(own))?;
    let stamp = bench.random.stamp();
    let mut form = bench.random.octets(1024);
    let fresh = Left { result: 0, first: save(&history, stamp), second: vec![] };
    bench.expect(&Call::Fresh { own, stamp }, &form, &[], &fresh)?;
    form = fresh.first;
    let mut sender = Sender::new(&mut bench.random, own);
    for at in 0..20 + bench.random.below(400) {
        let event = sender.event(&mut bench.random, &history);
        let stamp = bench.random.stamp();
        let (call, given) = if event != Event::End && bench.random.below(10) < in_datagrams {
            let datagram = Octets(in_datagram(bench, &event));
            let given = history.on_datagram(&datagram.0);
            (Call::OnDatagram { stamp, datagram }, given)
        } else {
            match event {
                Event::Header(octets) => {
                    let given = history.on_header(&octets);
                    (Call::OnHeader { stamp, header: Octets(octets) }, given)
                }
                Event::Block(octets) => {
                    let given = history.on_block(&octets);
                    (Call::OnBlock { stamp, block: Octets(octets) }, given)
                }
                Event::End => (Call::OnEnd { stamp }, history.on_end()),
            }
        };
        form = step(bench, &call, &form, &history, stamp, &given).map_err(|why| format!("event {at} of a list: {why}"))?;
    }
    Ok(())
}

/// One event of the list: what it must leave is found from the history; a refusal leaves all.
fn step(bench: &mut Bench, call: &Call, form: &[u8], history: &History, stamp: u16, given: &Answer<Given>) -> Result<Vec<u8>, String> {
    let before = bench.random.octets(LINE);
    let expected = match given {
        Ok(given) => Left { result: 0, first: save(history, stamp), second: line(given) },
        Err(number) => Left { result: (*number).into(), first: form.to_vec(), second: before.clone() },
    };
    bench.expect(call, form, &before, &expected)?;
    Ok(expected.first)
}

/// A history after some random events, for the stored forms.
pub fn some_history(bench: &mut Bench, events: usize) -> Result<History, String> {
    let own = own_address(&mut bench.random);
    let mut history = good(History::fresh(own))?;
    let mut sender = Sender::new(&mut bench.random, own);
    for _ in 0..events {
        // refusals are of no matter here
        let _ = match sender.event(&mut bench.random, &history) {
            Event::Header(octets) => history.on_header(&octets),
            Event::Block(octets) => history.on_block(&octets),
            Event::End => history.on_end(),
        };
    }
    Ok(history)
}
