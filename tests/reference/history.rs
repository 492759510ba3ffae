//! The receiver, by the history rule: the present transaction and the list of the blocks kept, from the events alone.

use super::burst::{read_datagram, BLOCK};
use super::packet::*;
use super::wrong::{wrong, Wrong};
use super::*;

#[derive(Clone, PartialEq, Debug)]
pub struct Transaction {
    pub source: u32,
    pub sap: u8,
    pub ns: u8,
    pub pad: u8,
    pub blocks: u8,
    pub complete: bool,
    /// The blocks kept, in order of arrival.
    pub kept: Vec<(u8, [u8; 10])>,
}

impl Transaction {
    /// A number is held if a block with it is kept, with the data octets of the first such block.
    pub fn held(&self, n: u8) -> Option<[u8; 10]> {
        let mut with_it = self.kept.iter().filter(|(serial, _)| *serial == n).map(|(_, data)| *data);
        if wrong(Wrong::SecondBlockWins) {
            return with_it.last();
        }
        with_it.next()
    }

    pub fn all_held(&self) -> bool {
        (0..self.blocks).all(|n| self.held(n).is_some())
    }

    /// The octets of all the blocks by number, zeros for those not held.
    pub fn octets(&self) -> Vec<u8> {
        (0..self.blocks).flat_map(|n| self.held(n).unwrap_or([0; 10])).collect()
    }

    /// The first 10B - 4 - pad octets.
    pub fn message(&self) -> Vec<u8> {
        let length = (10 * usize::from(self.blocks) - 4).saturating_sub(self.pad.into());
        self.octets()[..length].to_vec()
    }
}

#[derive(Clone, PartialEq, Debug)]
pub enum Given {
    Opened,
    Repeat,
    Stored,
    Bad,
    HandedOn(Vec<u8>),
    Response(ResponseOctets),
}

#[derive(Clone, PartialEq, Debug)]
pub struct History {
    pub own: u32,
    pub present: Option<Transaction>,
}

impl History {
    /// At first there is no transaction.
    pub fn fresh(own: u32) -> Answer<History> {
        refuse_if(too_wide(own), WRITER)?;
        Ok(History { own, present: None })
    }

    pub fn on_header(&mut self, octets: &[u8]) -> Answer<Given> {
        let h = read_header(octets)?;
        refuse_if(h.format != 3 || h.group == 1 || h.a == 0 || h.destination != self.own, NOT_FOR_US)?;
        refuse_if(h.count < 1 || usize::from(h.count) > MOST_BLOCKS, COUNT)?;
        let pad_tested = h.full == 1 || wrong(Wrong::PartialPadTested);
        refuse_if(pad_tested && u32::from(h.pad) > 10 * u32::from(h.count) - 4, COUNT)?;
        let ns = h.nine[1];
        let four = self.present.as_ref().is_some_and(|t| (t.source, t.sap, t.ns, t.pad) == (h.source, h.sap, ns, h.pad));
        let five = four && self.present.as_ref().is_some_and(|t| t.blocks == h.count);
        if h.full == 0 {
            refuse_if(!four, NO_TRANSACTION)?;
            if wrong(Wrong::PartialCountTakenForMessage) {
                self.present.iter_mut().for_each(|t| t.blocks = h.count);
            }
            return Ok(Given::Repeat);
        }
        if five {
            return Ok(Given::Repeat);
        }
        let (source, sap, pad, blocks) = (h.source, h.sap, h.pad, h.count);
        self.present = Some(Transaction { source, sap, ns, pad, blocks, complete: false, kept: Vec::new() });
        Ok(Given::Opened)
    }

    pub fn on_block(&mut self, octets: &[u8]) -> Answer<Given> {
        if wrong(Wrong::TransactionBeforeCheck) && octets.len() == 12 {
            refuse_if(self.present.as_ref().is_none_or(|t| t.complete), NO_TRANSACTION)?;
        }
        let (serial, data) = read_block(octets)?;
        let t = self.present.as_mut().ok_or(NO_TRANSACTION)?;
        if wrong(Wrong::HandsOnAgainAtRepeat) && t.complete && t.held(serial) == Some(data) {
            return Ok(Given::HandedOn(t.message()));
        }
        refuse_if(t.complete, NO_TRANSACTION)?;
        refuse_if(serial >= t.blocks, SERIAL)?;
        // the block is valid: it is kept, behind those kept before
        let held_before = t.held(serial);
        let all_before = t.all_held();
        t.kept.push((serial, data));
        match held_before {
            Some(first) if first != data => return Err(DIFFERS),
            Some(_) => return Ok(Given::Repeat),
            None => (),
        }
        if all_before || !t.all_held() {
            return Ok(Given::Stored);
        }
        // by this event every number below B becomes held
        if message_is_good(&t.octets()) {
            t.complete = true;
            return Ok(Given::HandedOn(t.message()));
        }
        if !wrong(Wrong::KeepsBlocksAfterBad) {
            t.kept.clear();
        }
        Ok(Given::Bad)
    }

    pub fn on_end(&self) -> Answer<Given> {
        let t = self.present.as_ref().ok_or(NO_TRANSACTION)?;
        let none_held = (0..t.blocks).all(|n| t.held(n).is_none());
        let reply = match (t.complete, none_held) {
            (true, _) => ACK,
            (false, true) => NACK,
            (false, false) => SACK,
        };
        // 1 for held and for n of B or more
        let flags = flag_octets(|n| n >= t.blocks || t.held(n).is_some());
        Ok(Given::Response(write_response(reply, t.sap, t.ns, t.source, self.own, &flags)?))
    }

    /// Data type 6 is a header, 7 a block.
    pub fn on_datagram(&mut self, octets: &[u8]) -> Answer<Given> {
        let (_, burst) = read_datagram(octets)?;
        if burst.data_type == BLOCK {
            self.on_block(&burst.info)
        } else {
            self.on_header(&burst.info)
        }
    }
}

/// 8 octets of flags, block n in octet n/8 at weight 2^(n mod 8).
pub fn flag_octets(flag: impl Fn(u8) -> bool) -> [u8; 8] {
    let mut octets = [0; 8];
    for n in (0..64).filter(|&n| flag(n)) {
        octets[usize::from(n) / 8] |= 1 << (n % 8);
    }
    octets
}
