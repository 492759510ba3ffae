//! A plain second implementation of document 01, written from the paper and in its order, to compare the library and the programs with.
//! It is made to be read beside the paper and is slow: bits are booleans, and the receiver is the history rule itself.

pub mod burst; // datagram and burst
pub mod codes; // slot type, block field, the three checks
pub mod examples; // the worked examples, as checks of this reference
pub mod history; // the receiver, by the history rule
pub mod packet; // headers, blocks, messages, responses
pub mod programs; // the lines that the programs print, and what they say
pub mod stored; // the stored form
pub mod wrong; // mistakes that can be switched on, to show that the tests find them

/// An answer, or one of the paper's numbers.
pub type Answer<T> = Result<T, u8>;

pub const SIZE: u8 = 1;
pub const PREFIX: u8 = 2;
pub const FRAME_TYPE: u8 = 3;
pub const SLOT_TYPE: u8 = 4;
pub const DATA_TYPE: u8 = 5;
pub const FIELD: u8 = 6;
pub const RESERVED: u8 = 7;
pub const HEADER_CHECK: u8 = 8;
pub const FORMAT: u8 = 9;
pub const NOT_FOR_US: u8 = 10;
pub const COUNT: u8 = 11;
pub const NO_TRANSACTION: u8 = 12;
pub const BLOCK_CHECK: u8 = 13;
pub const SERIAL: u8 = 14;
pub const DIFFERS: u8 = 15;
pub const WRITER: u8 = 16;
pub const STORED_CHECK: u8 = 17;
pub const STORED_LAYOUT: u8 = 18;
pub const STORED_ADDRESS: u8 = 19;

pub const LONGEST_MESSAGE: usize = 626;
pub const MOST_BLOCKS: usize = 63;
pub const STORE: usize = 630;

/// Refuse with the number if the condition is true.
pub fn refuse_if(condition: bool, number: u8) -> Answer<()> {
    if condition {
        Err(number)
    } else {
        Ok(())
    }
}

/// Exactly N octets, or the number for a wrong size.
pub fn sized<const N: usize>(octets: &[u8]) -> Answer<[u8; N]> {
    octets.try_into().map_err(|_| SIZE)
}

/// The number in octets, the most significant first.
pub fn number(octets: &[u8]) -> u32 {
    octets.iter().fold(0, |sum, &octet| sum << 8 | u32::from(octet))
}

/// The three octets of an address.
pub fn address(value: u32) -> [u8; 3] {
    [(value >> 16) as u8, (value >> 8) as u8, value as u8]
}

/// Is the address over its 24 bits?
pub fn too_wide(address: u32) -> bool {
    address >> 24 != 0
}

/// Octets as bits, the highest first.
pub fn bits_of(octets: &[u8]) -> Vec<bool> {
    octets.iter().flat_map(|&octet| (0..8).map(move |i| octet >> (7 - i) & 1 == 1)).collect()
}

/// The low `width` bits of a value, the highest first.
pub fn bits(value: u32, width: u32) -> Vec<bool> {
    (0..width).map(|i| value >> (width - 1 - i) & 1 == 1).collect()
}

/// Bits as a number, the first highest.
pub fn value(bits: &[bool]) -> u32 {
    bits.iter().fold(0, |sum, &bit| sum << 1 | u32::from(bit))
}

/// Bits as octets; a last octet that is not full is filled with zeros.
pub fn octets_of(bits: &[bool]) -> Vec<u8> {
    bits.chunks(8).map(|some| (value(some) << (8 - some.len())) as u8).collect()
}
