//! Slot type, block field and the checks.

use super::wrong::{wrong, Wrong};
use super::*;

/// The remainder of the bits, as a polynomial with the highest power first, by a generator of this degree (given without its
/// highest power).
pub fn remainder(bits: &[bool], degree: u32, generator: u32) -> u32 {
    let mut rest: u64 = 0;
    for &bit in bits {
        rest = rest << 1 | u64::from(bit);
        if rest >> degree & 1 == 1 {
            rest ^= 1 << degree | u64::from(generator);
        }
    }
    rest as u32
}

/// The same of the bits times x^degree.
pub fn remainder_times(bits: &[bool], degree: u32, generator: u32) -> u32 {
    let mut longer = bits.to_vec();
    longer.extend((0..degree).map(|_| false));
    remainder(&longer, degree, generator)
}

// ---- slot type

/// The 20 bits of a slot type: data, 11 bits of remainder, and one that makes the number of ones even.
pub fn write_slot_type(data: u8) -> u32 {
    // x^11 + x^10 + x^6 + x^5 + x^4 + x^2 + 1
    let rest = remainder_times(&bits(data.into(), 8), 11, 0b100_0111_0101);
    let word = (u32::from(data) << 11 | rest) << 1;
    word | word.count_ones() % 2
}

/// The distance of two words: the ones of their exclusive or.
pub fn distance(a: u32, b: u32) -> u32 {
    (a ^ b).count_ones()
}

/// The data of a codeword at a distance of at most 3.
pub fn read_slot_type(word: u32) -> Answer<u8> {
    refuse_if(word >> 20 != 0, SIZE)?;
    let most = if wrong(Wrong::FourWrongBitsTaken) { 4 } else { 3 };
    SLOT_TYPES.with(|words| words.iter().position(|&codeword| distance(word, codeword) <= most)).map(|data| data as u8).ok_or(SLOT_TYPE)
}

thread_local! {
    static SLOT_TYPES: Vec<u32> = (0..=255).map(write_slot_type).collect();
}

// ---- block field

pub const FIELD_BITS: usize = 196;
pub const ROWS: usize = 13;
pub const COLUMNS: usize = 15;

/// Where the plain position is sent.
pub fn sent_position(plain: usize) -> usize {
    181 * plain % FIELD_BITS
}

/// The plain position of row r, column c.
pub fn place(r: usize, c: usize) -> usize {
    1 + 15 * r + c
}

/// The four parity bits of a row's 11 or a column's 9 data bits: the remainder by x^4 + x + 1, highest power first.
pub fn parity(data: &[bool]) -> Vec<bool> {
    bits(remainder_times(data, 4, 0b0011), 4)
}

pub fn is_codeword(word: &[bool]) -> bool {
    remainder(word, 4, 0b0011) == 0
}

/// Put right one wrong bit, where the remainder names one of the positions.
fn put_right(word: &mut [bool]) {
    let rest = remainder(word, 4, 0b0011);
    for i in 0..word.len() {
        let mut single = vec![false; word.len()];
        single[i] = true;
        if rest != 0 && remainder(&single, 4, 0b0011) == rest {
            word[i] = !word[i];
            return;
        }
    }
}

type Matrix = [[bool; COLUMNS]; ROWS];

fn column(matrix: &Matrix, c: usize) -> Vec<bool> {
    matrix.iter().map(|row| row[c]).collect()
}

/// The 196 bits in plain order: R(2), R(1), R(0), then the 96 bits, row by row in rows 0-8, columns 0-10, and their parity.
pub fn plain_field(reserved: [bool; 3], info: &[u8; 12]) -> Vec<bool> {
    let mut matrix: Matrix = [[false; COLUMNS]; ROWS];
    for (i, bit) in reserved.into_iter().chain(bits_of(info)).enumerate() {
        matrix[i / 11][i % 11] = bit;
    }
    for row in matrix.iter_mut().take(9) {
        let four = parity(&row[..11]);
        row[11..].copy_from_slice(&four);
    }
    for c in 0..COLUMNS {
        for (i, bit) in parity(&column(&matrix, c)[..9]).into_iter().enumerate() {
            matrix[9 + i][c] = bit;
        }
    }
    // plain position 0 is sent 0
    [false].into_iter().chain(matrix.into_iter().flatten()).collect()
}

/// The 196 bits in the order of sending.
pub fn interleave(plain: &[bool]) -> Vec<bool> {
    let mut sent = vec![false; FIELD_BITS];
    for (i, &bit) in plain.iter().enumerate() {
        sent[sent_position(i)] = bit;
    }
    sent
}

pub fn write_field(info: &[u8; 12]) -> Vec<bool> {
    interleave(&plain_field([false; 3], info))
}

pub fn read_field(sent: &[bool]) -> Answer<[u8; 12]> {
    let mut matrix: Matrix = [[false; COLUMNS]; ROWS];
    for (r, row) in matrix.iter_mut().enumerate() {
        for (c, bit) in row.iter_mut().enumerate() {
            *bit = sent[sent_position(place(r, c))];
        }
    }
    // the columns first
    for c in 0..COLUMNS {
        let mut word = column(&matrix, c);
        put_right(&mut word);
        for (r, bit) in word.into_iter().enumerate() {
            matrix[r][c] = bit;
        }
    }
    // then all 13 rows
    let rows = if wrong(Wrong::RowsZeroToEightOnly) { 9 } else { ROWS };
    for row in matrix.iter_mut().take(rows) {
        put_right(row);
    }
    let good = matrix.iter().all(|row| is_codeword(row)) && (0..COLUMNS).all(|c| is_codeword(&column(&matrix, c)));
    refuse_if(!good, FIELD)?;
    let data: Vec<bool> = matrix[..9].iter().flat_map(|row| row[..11].to_vec()).collect();
    refuse_if(data[..3].contains(&true), RESERVED)?;
    sized(&octets_of(&data[3..]))
}

// ---- checks

/// The header's check: the remainder times x^16 by x^16 + x^12 + x^5 + 1, inverted, then XORed with the mask.
pub fn header_check(mask: u16, octets: &[u8]) -> u16 {
    !(remainder_times(&bits_of(octets), 16, 0x1021) as u16) ^ mask
}

pub const HEADER_MASK: u16 = 0xCCCC;

/// The block's check: the remainder by x^9 + x^6 + x^4 + x^3 + 1 of the data octets followed by the seven bits of the serial, times
/// x^9, inverted, XORed with 0F0.
pub fn block_check(serial: u8, data: &[u8]) -> u16 {
    let mut fed = bits_of(data);
    fed.extend(bits(serial.into(), 7));
    let rest = remainder_times(&fed, 9, 0b0_0101_1001) as u16;
    (rest ^ 0x1FF) ^ 0x0F0
}

/// The message check: generator 04C11DB7, start 0, no inversion, over the octets with each pair exchanged. A last octet that has no
/// other to make a pair with is fed as it stands.
pub fn message_check(octets: &[u8]) -> u32 {
    let exchanged: Vec<u8> = octets.chunks(2).flat_map(|pair| pair.iter().rev().copied()).collect();
    remainder_times(&bits_of(&exchanged), 32, 0x04C1_1DB7)
}

/// The four octets of a message check, the lowest first.
pub fn message_check_octets(octets: &[u8]) -> [u8; 4] {
    message_check(octets).to_le_bytes()
}
