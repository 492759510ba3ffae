//! The codes in the Rust that one writes without thinking of speed: checks that take a bit or, for headers, an octet at a time, a
//! search through the slot types, and a block field in 13 words, its bits picked one by one.

use super::receiver::{Codes, Number};

pub struct Plain;

/// The register takes in an octet. A generator of a degree below 32 stands in the high bits, and so do its checks.
#[inline(always)]
fn taken(generator: u32, r: u32, octet: u8) -> u32 {
    shifted(generator, r ^ u32::from(octet) << 24, 8)
}

#[inline(always)]
fn shifted(generator: u32, mut r: u32, k: usize) -> u32 {
    for _ in 0..k {
        r = if r >> 31 == 1 { r << 1 ^ generator } else { r << 1 };
    }
    r
}

#[inline(always)]
fn register(generator: u32, octets: &[u8]) -> u32 {
    let mut r = 0;
    for &octet in octets {
        r = taken(generator, r, octet);
    }
    r
}

/// The header's register times x^8, by folds.
#[inline(always)]
fn times_octet(x: u16) -> u16 {
    let t = x >> 8;
    let u = t ^ t >> 4;
    x << 8 ^ u << 12 ^ u << 5 ^ u
}

// ---- block field

type Matrix = [u16; 13];

fn row_remainder(w: u16) -> u16 {
    let a = w >> 8;
    let u = (w & 255) ^ a ^ (a << 2);
    let h = u >> 4;
    let v = (u & 15) ^ h ^ (h << 1);
    let g = v >> 4;
    (v & 15) ^ g ^ (g << 1)
}

/// The remainders of all columns at once, the lowest bits first.
fn column_remainders(m: &Matrix) -> [u16; 4] {
    m.iter().fold([0; 4], |[a, b, c, d], row| [row ^ d, a ^ d, b, c])
}

fn correct(m: &mut Matrix) {
    let [s0, s1, s2, s3] = column_remainders(m);
    let (mut a, mut b, mut c, mut d) = (s1, s2 ^ s1, s3 ^ s2, s0 ^ s3);
    for row in m.iter_mut() {
        *row ^= a & !(b | c | d);
        (a, b, c, d) = (d, a ^ d, b, c);
    }
    for row in m.iter_mut() {
        let s = row_remainder(*row);
        *row ^= 1 << (0xCBD6_79E3_A582_410F_u64 >> (4 * s) & 15);
        *row &= 0x7FFF;
    }
}

fn sent(plain: usize) -> usize {
    181 * plain % 196
}

#[inline(always)]
fn field_row(field: &[u8; 25], r: usize) -> u16 {
    let mut row = 0;
    for c in 0..15 {
        let q = sent(1 + 15 * r + c);
        row = row << 1 | u16::from(field[q / 8] >> (7 - q % 8) & 1);
    }
    row
}

impl Codes for Plain {
    fn read_slot_type(word: u32) -> Result<u8, Number> {
        if word >> 20 != 0 {
            return Err(1);
        }
        let near = |&data: &u8| (word ^ Plain::write_slot_type(data)).count_ones() <= 3;
        let first = (word >> 12) as u8;
        if near(&first) {
            return Ok(first);
        }
        (0..=255).rev().find(near).ok_or(4)
    }

    fn write_slot_type(data: u8) -> u32 {
        let word = u32::from(data) << 11 | taken(0x8EA0_0000, 0, data) >> 21;
        word << 1 | word.count_ones() % 2
    }

    fn read_field(field: &[u8; 25]) -> Result<[u8; 12], Number> {
        let row = |r| field_row(field, r);
        let mut m: Matrix = [row(0), row(1), row(2), row(3), row(4), row(5), row(6), row(7), row(8), row(9), row(10), row(11), row(12)];
        correct(&mut m);
        if column_remainders(&m) != [0; 4] {
            return Err(6);
        }
        if m[0] >> 12 != 0 {
            return Err(7);
        }
        let data = m[..9].iter().fold(0, |all: u128, row| all << 11 | u128::from(row >> 4));
        Ok(*data.to_be_bytes().last_chunk().unwrap())
    }

    fn read_burst_field(burst: &[u8; 33]) -> Result<[u8; 12], Number> {
        let mut field = [0; 25];
        field[..12].copy_from_slice(&burst[..12]);
        field[12] = burst[12] >> 6 << 6 | (burst[20] & 3) << 4 | burst[21] >> 4;
        for j in 13..25 {
            field[j] = burst[j + 8] << 4 | burst.get(j + 9).map_or(0, |next| next >> 4);
        }
        Plain::read_field(&field)
    }

    fn write_field(info: &[u8; 12]) -> [u8; 25] {
        let mut m: Matrix = [0; 13];
        let data = info.iter().fold(0, |all: u128, &octet| all << 8 | u128::from(octet));
        for (r, row) in m[..9].iter_mut().enumerate() {
            let w = (data >> (88 - 11 * r) & 0x7FF) as u16 * 16;
            *row = w ^ row_remainder(w);
        }
        let [a, b, c, d] = column_remainders(&m);
        m[9..].copy_from_slice(&[d, c, b, a]);
        let mut field = [0; 25];
        for i in 0..195 {
            let q = sent(1 + i);
            field[q / 8] |= ((m[i / 15] >> (14 - i % 15) & 1) as u8) << (7 - q % 8);
        }
        field
    }

    fn header_check(mask: u16, octets: &[u8]) -> u16 {
        octets.iter().fold(0, |r, &octet| times_octet(r ^ u16::from(octet) << 8)) ^ 0xFFFF ^ mask
    }

    fn block_check(serial: u8, data: &[u8; 10]) -> u16 {
        let r = register(0x2C80_0000, data);
        (shifted(0x2C80_0000, r ^ u32::from(serial & 127) << 25, 7) >> 23) as u16 ^ 0x1FF ^ 0x0F0
    }

    fn message_check(octets: &[u8]) -> u32 {
        let mut r = 0;
        for pair in octets.chunks(2) {
            for &octet in pair.iter().rev() {
                r = taken(0x04C1_1DB7, r, octet);
            }
        }
        r
    }
}
