//! What is measured on: words, fields, datagrams, captures and records, the same in every run.

use super::fast::Fast;
use super::receiver::{header, write_block, write_datagram, Codes};
use super::second::random::Random;

pub const OWN: u32 = 0x00_2711;
pub const SOURCE: u32 = 0x00_9C42;

/// Exchange a bit for the other, the first highest in octet 0.
pub fn flip(octets: &mut [u8], bit: usize) {
    octets[bit / 8] ^= 128 >> (bit % 8);
}

/// A slot type with this many wrong bits among the parity, and among the data.
pub fn slot_word(random: &mut Random, parity: usize, data: usize) -> u32 {
    let mut word = Fast::write_slot_type(random.next() as u8);
    let mut wrong = 0;
    for (low, count, many) in [(0, 12, parity), (12, 8, data)] {
        let before = wrong;
        while u32::count_ones(wrong ^ before) < many as u32 {
            wrong |= 1 << (low + random.below(count));
        }
    }
    word ^= wrong;
    word
}

/// A block field with one wrong bit in this many columns; a deep one has any wrong bits in the last column.
pub fn field(random: &mut Random, columns: usize, deep: bool) -> [u8; 25] {
    let mut field = Fast::write_field(&random.array());
    let mut wrong = |r: usize, c: usize| flip(&mut field, 181 * (1 + 15 * r + c) % 196);
    for c in 0..columns {
        wrong(random.below(13), c);
    }
    for r in (0..13).filter(|_| deep && random.below(2) == 1) {
        wrong(r, 14);
    }
    field
}

/// The header and the blocks of a message of this length, ready for the air.
pub fn message(random: &mut Random, length: usize, ns: u8) -> Vec<(u8, [u8; 12])> {
    let blocks = (length + 4).div_ceil(10);
    let mut octets: Vec<u8> = (0..length).map(|_| random.next() as u8).collect();
    octets.resize(10 * blocks - 4, 0);
    octets.extend(Fast::message_check(&octets).to_le_bytes());
    let pad = (10 * blocks - 4 - length) as u8;
    let first = (6, header::<Fast>(true, 4, ns, pad, blocks as u8, OWN, SOURCE));
    let block = |(n, data): (usize, &[u8])| (7, write_block::<Fast>(n as u8, data.try_into().expect("ten octets")));
    [first].into_iter().chain(octets.chunks(10).enumerate().map(block)).collect()
}

pub fn datagrams(parts: &[(u8, [u8; 12])]) -> Vec<[u8; 53]> {
    parts.iter().enumerate().map(|(i, (kind, info))| write_datagram::<Fast>(i as u8, SOURCE, OWN, *kind, info)).collect()
}

/// Eight whole messages of 626 octets, with N(S) 0 to 7: 512 datagrams that can be sent round and round, since each header opens.
pub fn round(random: &mut Random) -> Vec<[u8; 53]> {
    (0..8).flat_map(|ns| datagrams(&message(random, 626, ns))).collect()
}

/// A capture for the gateway program: own address and this many datagrams, messages of 0 to 626 octets. In a worn one every third
/// datagram has 1 to 3 wrong bits in its slot type and 1 to 5 in its block field, and every 50th is noise behind its labels.
pub fn capture(count: usize, worn: bool) -> Vec<u8> {
    let mut random = Random(7);
    let mut out = Vec::with_capacity(3 + 53 * (count + 64));
    out.extend(&OWN.to_be_bytes()[1..]);
    let mut made = 0;
    for ns in (0..8).cycle() {
        let length = random.below(627);
        for mut d in datagrams(&message(&mut random, length, ns)) {
            if worn && random.below(50) == 0 {
                d[20..].copy_from_slice(&random.array::<33>());
            } else if worn && random.below(3) == 0 {
                for _ in 0..1 + random.below(3) {
                    let i = random.below(20);
                    flip(&mut d[20..], if i < 10 { 98 + i } else { 146 + i });
                }
                for _ in 0..1 + random.below(5) {
                    let i = random.below(196);
                    flip(&mut d[20..], if i < 98 { i } else { 68 + i });
                }
            }
            out.extend(d);
            made += 1;
            if made == count {
                return out;
            }
        }
    }
    out
}

/// Records for the replay program: messages of 0 to 626 octets with an end of attempt behind each, and a restart before every event,
/// with other octets in the store. Says how many records there are.
pub fn records(count: usize) -> (Vec<u8>, usize) {
    let mut random = Random(8);
    let mut out = OWN.to_be_bytes()[1..].to_vec();
    let mut made = 0;
    let mut record = |kind: u8, octets: &[u8]| {
        out.push(kind);
        out.extend((octets.len() as u16).to_be_bytes());
        out.extend(octets);
    };
    for ns in (0..8).cycle() {
        let length = random.below(627);
        for (kind, info) in message(&mut random, length, ns).into_iter().chain([(8, [0; 12])]) {
            record(3, &random.array::<632>());
            record(kind - 6, if kind == 8 { &[] } else { &info });
            made += 2;
            if made >= count {
                return (out, made);
            }
        }
    }
    (out, made)
}
