//! Datagrams, headers, blocks, the receiver on a plain struct and its stored form, over either set of codes.

use std::marker::PhantomData;

/// The number of a refusal.
pub type Number = u8;

pub trait Codes {
    fn read_slot_type(word: u32) -> Result<u8, Number>;
    fn write_slot_type(data: u8) -> u32;
    fn read_field(field: &[u8; 25]) -> Result<[u8; 12], Number>;
    fn read_burst_field(burst: &[u8; 33]) -> Result<[u8; 12], Number>;
    fn write_field(info: &[u8; 12]) -> [u8; 25];
    fn header_check(mask: u16, octets: &[u8]) -> u16;
    fn block_check(serial: u8, data: &[u8; 10]) -> u16;
    fn message_check(octets: &[u8]) -> u32;
}

const MASK: u16 = 0xCCCC;

fn three(o: &[u8]) -> u32 {
    u32::from_be_bytes([0, o[0], o[1], o[2]])
}

// ---- datagrams

/// Data octet of the slot type and the information.
#[inline]
fn read_parts<C: Codes>(d: &[u8]) -> Result<(u8, [u8; 12]), Number> {
    let d: &[u8; 53] = d.try_into().map_err(|_| 1)?;
    if !d.starts_with(b"DMRD") {
        return Err(2);
    }
    if d[15] >> 4 & 3 != 2 {
        return Err(3);
    }
    let burst: &[u8; 33] = d.last_chunk().unwrap();
    let high = u32::from(u16::from_be_bytes([burst[12], burst[13]]) >> 4 & 0x3FF);
    let low = u32::from(u16::from_be_bytes([burst[19], burst[20]]) >> 2 & 0x3FF);
    let slot = C::read_slot_type(high << 10 | low)?;
    if slot & 15 != d[15] & 15 || !matches!(slot & 15, 6 | 7) {
        return Err(5);
    }
    Ok((slot, C::read_burst_field(burst)?))
}

/// The 31 octets that the library's reader gives.
pub fn read_datagram<C: Codes>(d: &[u8], out: &mut [u8; 31]) -> Number {
    match read_parts::<C>(d) {
        Err(number) => number,
        Ok((slot, info)) => {
            out[..11].copy_from_slice(&d[4..15]);
            out[11] = d[15] >> 7;
            out[12] = d[15] >> 6 & 1;
            out[13..17].copy_from_slice(&d[16..20]);
            out[17] = slot >> 4;
            out[18] = slot & 15;
            out[19..].copy_from_slice(&info);
            0
        }
    }
}

/// A datagram of this source, sent to this address, with a burst of a mobile.
pub fn write_datagram<C: Codes>(sequence: u8, source: u32, target: u32, data_type: u8, info: &[u8; 12]) -> [u8; 53] {
    let mut d = [0; 53];
    d[..4].copy_from_slice(b"DMRD");
    d[4] = sequence;
    d[5..8].copy_from_slice(&source.to_be_bytes()[1..]);
    d[8..11].copy_from_slice(&target.to_be_bytes()[1..]);
    d[11..15].copy_from_slice(&9u32.to_be_bytes());
    d[15] = 0x20 | data_type;
    d[16..20].copy_from_slice(&77u32.to_be_bytes());
    let field = C::write_field(info);
    let slot = u128::from(C::write_slot_type(0x10 | data_type));
    // 98 bits of the field, 10 of the slot type, 48 of sync, 10, 98
    let (before, behind) = (u128::from(field[12] >> 6), u128::from(field[12] >> 4 & 3));
    let middle = before << 70 | slot >> 10 << 60 | 0xD5D7_F77F_D757 << 12 | (slot & 0x3FF) << 2 | behind;
    let burst = &mut d[20..];
    burst[..12].copy_from_slice(&field[..12]);
    burst[12..21].copy_from_slice(&middle.to_be_bytes()[7..]);
    for j in 21..33 {
        burst[j] = field[j - 9] << 4 | field[j - 8] >> 4;
    }
    d
}

// ---- headers and blocks

pub fn header<C: Codes>(full: bool, sap: u8, ns: u8, pad: u8, blocks: u8, destination: u32, source: u32) -> [u8; 12] {
    let mut h = [0; 12];
    h[0] = 0x43 | pad >> 4 << 4;
    h[1] = sap << 4 | pad & 15;
    h[2..5].copy_from_slice(&destination.to_be_bytes()[1..]);
    h[5..8].copy_from_slice(&source.to_be_bytes()[1..]);
    h[8] = u8::from(full) << 7 | blocks;
    h[9] = ns << 4 | 8;
    closed::<C>(h)
}

fn closed<C: Codes>(mut h: [u8; 12]) -> [u8; 12] {
    let check = C::header_check(MASK, &h[..10]);
    h[10..].copy_from_slice(&check.to_be_bytes());
    h
}

#[inline]
pub fn read_block<C: Codes>(b: &[u8; 12]) -> Result<(u8, &[u8; 10]), Number> {
    let data = b.last_chunk().unwrap();
    if u16::from_be_bytes([b[0] & 1, b[1]]) != C::block_check(b[0] >> 1, data) {
        return Err(13);
    }
    Ok((b[0] >> 1, data))
}

pub fn write_block<C: Codes>(serial: u8, data: &[u8; 10]) -> [u8; 12] {
    let mut b = [0; 12];
    let first = u16::from(serial) << 9 | C::block_check(serial, data);
    b[..2].copy_from_slice(&first.to_be_bytes());
    b[2..].copy_from_slice(data);
    b
}

// ---- the receiver

#[derive(Clone, Copy, PartialEq)]
struct Transaction {
    source: u32,
    sap: u8,
    ns: u8,
    pad: u8,
    blocks: u8,
}

pub enum Given {
    Opened,
    Repeat,
    Stored,
    Bad,
    /// The store's first octets, this many.
    HandedOn(usize),
    /// Header and data block, and how many octets of them count.
    Response([u8; 24], usize),
}

pub struct Receiver<C> {
    own: u32,
    phase: u8,
    t: Transaction,
    flags: u64,
    pub store: [u8; 630],
    codes: PhantomData<C>,
}

impl<C> Clone for Receiver<C> {
    fn clone(&self) -> Self {
        Receiver { codes: PhantomData, ..*self }
    }
}

fn below(blocks: u8) -> u64 {
    (1 << blocks) - 1
}

impl<C: Codes> Receiver<C> {
    pub fn fresh(own: u32) -> Self {
        let t = Transaction { source: 0, sap: 0, ns: 0, pad: 0, blocks: 0 };
        Receiver { own, phase: 0, t, flags: 0, store: [0; 630], codes: PhantomData }
    }

    pub fn on_datagram(&mut self, d: &[u8]) -> Result<Given, Number> {
        let (slot, info) = read_parts::<C>(d)?;
        if slot & 15 == 6 {
            self.on_header(&info)
        } else {
            self.on_block(&info)
        }
    }

    pub fn on_header(&mut self, h: &[u8]) -> Result<Given, Number> {
        let h: &[u8; 12] = h.try_into().map_err(|_| 1)?;
        if C::header_check(MASK, &h[..10]) != u16::from_be_bytes([h[10], h[11]]) {
            return Err(8);
        }
        if !matches!(h[0] & 15, 1..=3) {
            return Err(9);
        }
        if h[0] & 0xCF != 0x43 || three(&h[2..]) != self.own {
            return Err(10);
        }
        let (full, blocks, pad) = (h[8] >> 7 == 1, h[8] & 127, h[0] & 16 | h[1] & 15);
        if !(1..=63).contains(&blocks) || full && u16::from(pad) > 10 * u16::from(blocks) - 4 {
            return Err(11);
        }
        let mut t = Transaction { source: three(&h[5..]), sap: h[1] >> 4, ns: h[9] >> 4 & 7, pad, blocks };
        if !full {
            t.blocks = self.t.blocks;
        }
        if self.phase != 0 && t == self.t {
            return Ok(Given::Repeat);
        }
        if !full {
            return Err(12);
        }
        (self.phase, self.t, self.flags) = (1, t, 0);
        Ok(Given::Opened)
    }

    pub fn on_block(&mut self, b: &[u8]) -> Result<Given, Number> {
        let (serial, data) = read_block::<C>(b.try_into().map_err(|_| 1)?)?;
        if self.phase != 1 {
            return Err(12);
        }
        if serial >= self.t.blocks {
            return Err(14);
        }
        let at = 10 * usize::from(serial);
        let place = &mut self.store[at..at + 10];
        if self.flags >> serial & 1 == 1 {
            return if place == data { Ok(Given::Repeat) } else { Err(15) };
        }
        place.copy_from_slice(data);
        self.flags |= 1 << serial;
        if self.flags != below(self.t.blocks) {
            return Ok(Given::Stored);
        }
        if !self.message_good() {
            self.flags = 0;
            return Ok(Given::Bad);
        }
        self.phase = 2;
        Ok(Given::HandedOn(10 * usize::from(self.t.blocks) - 4 - usize::from(self.t.pad)))
    }

    fn message_good(&self) -> bool {
        let end = 10 * usize::from(self.t.blocks) - 4;
        C::message_check(&self.store[..end]).to_le_bytes() == self.store[end..end + 4]
    }

    pub fn on_end(&self) -> Result<Given, Number> {
        if self.phase == 0 {
            return Err(12);
        }
        let (nine, blocks) = match (self.phase, self.flags) {
            (2, _) => (0b00_001_000, 0),
            (_, 0) => (0b01_001_000, 0),
            _ => (0b10_000_000, 1),
        };
        let mut h = [1, self.t.sap << 4, 0, 0, 0, 0, 0, 0, blocks, nine | self.t.ns, 0, 0];
        h[2..5].copy_from_slice(&self.t.source.to_be_bytes()[1..]);
        h[5..8].copy_from_slice(&self.own.to_be_bytes()[1..]);
        let mut out = [0; 24];
        out[..12].copy_from_slice(&closed::<C>(h));
        if blocks == 0 {
            return Ok(Given::Response(out, 12));
        }
        let flags = (self.flags | !below(self.t.blocks)).to_le_bytes();
        out[12..20].copy_from_slice(&flags);
        out[20..].copy_from_slice(&C::message_check(&flags).to_le_bytes());
        Ok(Given::Response(out, 24))
    }
}

// ---- the stored form

impl<C: Codes> Receiver<C> {
    pub fn save(&self, stamp: u16, form: &mut [u8; 1024]) {
        let (a, b) = form.split_at_mut(512);
        a[..2].copy_from_slice(&[1, 0]);
        b[..2].copy_from_slice(&[1, 1]);
        a[2..4].copy_from_slice(&stamp.to_be_bytes());
        b[2..4].copy_from_slice(&stamp.to_be_bytes());
        a[4] = self.phase;
        a[5..8].copy_from_slice(&self.own.to_be_bytes()[1..]);
        a[8..11].copy_from_slice(&self.t.source.to_be_bytes()[1..]);
        a[11..15].copy_from_slice(&[self.t.sap, self.t.ns, self.t.pad, self.t.blocks]);
        a[15..23].copy_from_slice(&self.flags.to_le_bytes());
        let mut store = self.store;
        for (n, block) in store.chunks_exact_mut(10).enumerate() {
            if self.flags >> n & 1 == 0 {
                block.fill(0);
            }
        }
        a[23..510].copy_from_slice(&store[..487]);
        b[4..147].copy_from_slice(&store[487..]);
        b[147..510].fill(0);
        for half in [a, b] {
            let check = C::header_check(0, &half[..510]);
            half[510..].copy_from_slice(&check.to_be_bytes());
        }
    }

    pub fn restore(form: &[u8; 1024]) -> Result<Self, Number> {
        let (a, b) = form.split_at(512);
        for half in [a, b] {
            if C::header_check(0, &half[..510]) != u16::from_be_bytes([half[510], half[511]]) {
                return Err(17);
            }
        }
        let mut store = [0; 630];
        store[..487].copy_from_slice(&a[23..510]);
        store[487..].copy_from_slice(&b[4..147]);
        let t = Transaction { source: three(&a[8..]), sap: a[11], ns: a[12], pad: a[13], blocks: a[14] };
        let flags = u64::from_le_bytes(*a[15..].first_chunk().unwrap());
        let rx = Receiver { own: three(&a[5..]), phase: a[4], t, flags, store, codes: PhantomData };
        let marked = a[..2] == [1, 0] && b[..2] == [1, 1] && a[2..4] == b[2..4];
        let clear = rx.store.chunks_exact(10).enumerate().all(|(n, block)| flags >> n & 1 == 1 || *block == [0; 10]);
        if marked && clear && b[147..510].iter().all(|&o| o == 0) && rx.is_good() {
            Ok(rx)
        } else {
            Err(18)
        }
    }

    fn is_good(&self) -> bool {
        let t = &self.t;
        if self.phase == 0 {
            return self.flags == 0 && *t == Self::fresh(0).t;
        }
        let widths = t.sap < 16 && t.ns < 8 && t.pad < 32 && (1..=63).contains(&t.blocks);
        if !widths || u16::from(t.pad) > 10 * u16::from(t.blocks) - 4 || self.flags & !below(t.blocks) != 0 {
            return false;
        }
        let all = self.flags == below(t.blocks);
        match self.phase {
            1 => !all,
            2 => all && self.message_good(),
            _ => false,
        }
    }

    /// The answer's 1,027 octets.
    fn put_line(&self, given: &Given, line: &mut [u8; 1027]) {
        let (code, contents): (u8, &[u8]) = match given {
            Given::Opened => (1, &[]),
            Given::Repeat => (2, &[]),
            Given::Stored => (3, &[]),
            Given::Bad => (4, &[]),
            Given::HandedOn(length) => (5, &self.store[..*length]),
            Given::Response(octets, length) => (6, &octets[..*length]),
        };
        line[0] = code;
        line[1..3].copy_from_slice(&(contents.len() as u16).to_be_bytes());
        line[3..3 + contents.len()].copy_from_slice(contents);
        line[3 + contents.len()..].fill(0);
    }
}

/// An event on the stored form, as the library has it: restore, act, save.
pub fn on_form<C: Codes>(form: &mut [u8; 1024], stamp: u16, datagram: &[u8], line: &mut [u8; 1027]) -> Number {
    let step = Receiver::<C>::restore(form).and_then(|mut rx| Ok((rx.on_datagram(datagram)?, rx)));
    match step {
        Err(number) => number,
        Ok((given, rx)) => {
            rx.save(stamp, form);
            rx.put_line(&given, line);
            0
        }
    }
}
