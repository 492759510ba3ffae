//! Datagram and burst.

use super::codes::*;
use super::*;

/// What a burst carries.
#[derive(Clone, PartialEq, Debug)]
pub struct Burst {
    pub colour: u8,
    pub data_type: u8,
    pub info: [u8; 12],
}

pub const HEADER: u8 = 6;
pub const BLOCK: u8 = 7;
pub const BASE: u8 = 0;
pub const MOBILE: u8 = 1;

const SYNC: [[u8; 6]; 2] = [[0xDF, 0xF5, 0x7D, 0x75, 0xDF, 0x5D], [0xD5, 0xD7, 0xF7, 0x7F, 0xD7, 0x57]];

/// Bits 0-97 and 166-263 are the block field, 98-107 and 156-165 the slot type, 108-155 the sync.
pub fn write_burst(burst: &Burst, sync: u8) -> Answer<[u8; 33]> {
    refuse_if(burst.colour > 15 || !matches!(burst.data_type, HEADER | BLOCK) || sync > MOBILE, WRITER)?;
    let field = write_field(&burst.info);
    let slot = bits(write_slot_type(burst.colour << 4 | burst.data_type), 20);
    let sync = bits_of(&SYNC[usize::from(sync)]);
    sized(&octets_of(&[&field[..98], &slot[..10], &sync, &slot[10..], &field[98..]].concat()))
}

/// The slot type's word and the 196 bits of the block field.
pub fn parts(octets: &[u8; 33]) -> (u32, Vec<bool>) {
    let all = bits_of(octets);
    (value(&[&all[98..108], &all[156..166]].concat()), [&all[..98], &all[166..]].concat())
}

/// A burst by itself, or one whose datagram names a data type.
fn read_parts(octets: &[u8; 33], named: Option<u8>) -> Answer<Burst> {
    let (word, field) = parts(octets);
    let slot = read_slot_type(word)?;
    let data_type = slot & 15;
    refuse_if(named.is_some_and(|named| named != data_type) || !matches!(data_type, HEADER | BLOCK), DATA_TYPE)?;
    Ok(Burst { colour: slot >> 4, data_type, info: read_field(&field)? })
}

pub fn read_burst(octets: &[u8]) -> Answer<Burst> {
    read_parts(&sized(octets)?, None)
}

/// What a datagram says beside its burst.
#[derive(Clone, PartialEq, Debug)]
pub struct Labels {
    pub sequence: u8,
    pub source: u32,
    pub target: u32,
    pub repeater: u32,
    pub timeslot: u8,
    pub call_type: u8,
    pub stream: u32,
}

pub fn write_datagram(labels: &Labels, burst: &Burst, sync: u8) -> Answer<[u8; 53]> {
    refuse_if(too_wide(labels.source) || too_wide(labels.target) || labels.timeslot > 1 || labels.call_type > 1, WRITER)?;
    let carried = write_burst(burst, sync)?;
    let mut out = b"DMRD".to_vec();
    out.push(labels.sequence);
    out.extend(address(labels.source));
    out.extend(address(labels.target));
    out.extend(labels.repeater.to_be_bytes());
    out.push(labels.timeslot << 7 | labels.call_type << 6 | 2 << 4 | burst.data_type);
    out.extend(labels.stream.to_be_bytes());
    out.extend(carried);
    sized(&out)
}

pub fn read_datagram(octets: &[u8]) -> Answer<(Labels, Burst)> {
    let octets: [u8; 53] = sized(octets)?;
    refuse_if(&octets[..4] != b"DMRD", PREFIX)?;
    let kind = octets[15];
    refuse_if(kind >> 4 & 3 != 2, FRAME_TYPE)?;
    let burst = read_parts(&sized(&octets[20..])?, Some(kind & 15))?;
    let labels = Labels {
        sequence: octets[4],
        source: number(&octets[5..8]),
        target: number(&octets[8..11]),
        repeater: number(&octets[11..15]),
        timeslot: kind >> 7,
        call_type: kind >> 6 & 1,
        stream: number(&octets[16..20]),
    };
    Ok((labels, burst))
}

/// The next sequence counter; 255 goes to 0.
pub fn next_sequence(sequence: u8) -> u8 {
    if sequence == 255 {
        0
    } else {
        sequence + 1
    }
}
