//! The codes as fast as Rust by hand gets them with the default target: all of them are linear over GF(2), so everything is tables,
//! made when this is compiled, and exclusive ors. No instruction beyond the default target's is used.

use super::receiver::{Codes, Number};

pub struct Fast;

/// b, of fewer bits than the degree, times x^k by a generator given without its highest power.
const fn times(b: u32, k: usize, degree: u32, generator: u64) -> u32 {
    let (mut r, mut i) = (b as u64, 0);
    while i < k {
        r <<= 1;
        if r >> degree & 1 == 1 {
            r ^= 1 << degree | generator;
        }
        i += 1;
    }
    r as u32
}

// ---- slot type

/// The 12 parity bits of each data octet.
const PARITY: [u16; 256] = {
    let (mut table, mut data) = ([0; 256], 0);
    while data < 256 {
        let word = (data << 11 | times(data, 11, 11, 0x475)) << 1;
        table[data as usize] = ((word | word.count_ones() % 2) & 0xFFF) as u16;
        data += 1;
    }
    table
};

const NONE: u16 = 0x100;

/// For each remainder, the data bits of the one pattern of at most 3 wrong bits that leaves it.
static PATTERN: [u16; 4096] = {
    let mut table = [NONE; 4096];
    let mut i = 0;
    // bit 20 stands for no bit
    while i <= 20 {
        let mut j = 0;
        while j <= i {
            let mut k = 0;
            while k <= j {
                let distinct = (i == 20 || i != j) && (j == 20 || j != k);
                let e: u32 = (1 << i | 1 << j | 1 << k) & 0xF_FFFF;
                if distinct {
                    table[(PARITY[(e >> 12) as usize] ^ (e & 0xFFF) as u16) as usize] = (e >> 12) as u16;
                }
                k += 1;
            }
            j += 1;
        }
        i += 1;
    }
    table
};

// ---- block field

/// What one received bit, or four, add: the 99 data bits (the last lowest), the remainders of the columns and those of the rows, four
/// bits each.
#[derive(Clone, Copy)]
#[repr(align(32))]
struct Sum {
    high: u64,
    low: u64,
    columns: u64,
    rows: u64,
}

impl Sum {
    const ZERO: Sum = Sum { high: 0, low: 0, columns: 0, rows: 0 };

    const fn with(self, o: &Sum) -> Sum {
        Sum { high: self.high ^ o.high, low: self.low ^ o.low, columns: self.columns ^ o.columns, rows: self.rows ^ o.rows }
    }
}

/// The remainder that a wrong bit at x^k leaves.
const fn remainder(k: usize) -> u64 {
    times(1, k, 4, 3) as u64
}

const fn of_bit(sent: usize) -> Sum {
    let plain = 13 * sent % 196;
    if plain == 0 {
        return Sum::ZERO;
    }
    let (r, c) = ((plain - 1) / 15, (plain - 1) % 15);
    let data: u128 = if r < 9 && c < 11 { 1 << (98 - (11 * r + c)) } else { 0 };
    Sum { high: (data >> 64) as u64, low: data as u64, columns: remainder(12 - r) << (4 * c), rows: remainder(14 - c) << (4 * r) }
}

static READ: [[Sum; 16]; 49] = {
    let mut table = [[Sum::ZERO; 16]; 49];
    let mut q = 0;
    while q < 196 {
        let (bit, mut v) = (of_bit(q), 0);
        while v < 16 {
            if v >> (3 - q % 4) & 1 == 1 {
                table[q / 4][v] = table[q / 4][v].with(&bit);
            }
            v += 1;
        }
        q += 1;
    }
    table
};

/// What putting right adds where a column, or a row, has this remainder: the bit that the remainder names, if it names one.
static COLUMN: [[Sum; 16]; 15] = {
    let (mut table, mut c) = ([[Sum::ZERO; 16]; 15], 0);
    while c < 15 {
        let mut r = 0;
        while r < 13 {
            table[c][remainder(12 - r) as usize] = of_bit(181 * (1 + 15 * r + c) % 196);
            r += 1;
        }
        c += 1;
    }
    table
};
static ROW: [[Sum; 16]; 13] = {
    let (mut table, mut r) = ([[Sum::ZERO; 16]; 13], 0);
    while r < 13 {
        let mut c = 0;
        while c < 15 {
            table[r][remainder(14 - c) as usize] = of_bit(181 * (1 + 15 * r + c) % 196);
            c += 1;
        }
        r += 1;
    }
    table
};

/// The columns with a remainder that names a row, then the rows.
#[inline(never)]
fn corrected(mut sum: Sum) -> Sum {
    let columns = sum.columns;
    for (c, table) in COLUMN.iter().enumerate() {
        sum = sum.with(&table[(columns >> (4 * c) & 15) as usize]);
    }
    let rows = sum.rows;
    for (r, table) in ROW.iter().enumerate() {
        sum = sum.with(&table[(rows >> (4 * r) & 15) as usize]);
    }
    sum
}

#[inline]
fn two(sum: Sum, at: usize, octet: u8) -> Sum {
    sum.with(&READ[at][usize::from(octet >> 4)]).with(&READ[at + 1][usize::from(octet & 15)])
}

/// The first 96 bits, the four in the middle and the last 96.
#[inline]
fn read_halves(first: &[u8; 12], middle: u8, last: &[u8; 12]) -> Result<[u8; 12], Number> {
    let mut sum = READ[24][usize::from(middle & 15)];
    for i in 0..12 {
        sum = two(sum, 2 * i, first[i]);
        sum = two(sum, 25 + 2 * i, last[i]);
    }
    if sum.columns | sum.rows != 0 {
        sum = corrected(sum);
        if sum.columns | sum.rows != 0 {
            return Err(6);
        }
    }
    if sum.high >> 32 != 0 {
        return Err(7);
    }
    let mut info = [0; 12];
    info[..4].copy_from_slice(&(sum.high as u32).to_be_bytes());
    info[4..].copy_from_slice(&sum.low.to_be_bytes());
    Ok(info)
}

/// The 256 bits that each four bits of information add to a field, the first highest.
static WRITE: [[[u64; 4]; 16]; 24] = {
    let mut table = [[[0; 4]; 16]; 24];
    let mut j = 0;
    while j < 96 {
        let (r, c) = ((j + 3) / 11, (j + 3) % 11);
        // the bit with its parity, along the row and along the column: the product of the two
        let along: u64 = 1 << (14 - c) | remainder(14 - c);
        let down: u64 = 1 << (12 - r) | remainder(12 - r);
        let mut i = 0;
        while i < 195 {
            if down >> (12 - i / 15) & 1 == 1 && along >> (14 - i % 15) & 1 == 1 {
                let (q, mut v) = (181 * (i + 1) % 196, 0);
                while v < 16 {
                    if v >> (3 - j % 4) & 1 == 1 {
                        table[j / 4][v][q / 64] ^= 1 << (63 - q % 64);
                    }
                    v += 1;
                }
            }
            i += 1;
        }
        j += 1;
    }
    table
};

// ---- checks

/// Entry k, o: octet o with k octets behind it, and `more` bits and the degree behind those.
const fn checks<const N: usize>(more: usize, degree: u32, generator: u64) -> [[u32; 256]; N] {
    let (mut table, mut k) = ([[0; 256]; N], 0);
    while k < N {
        let mut o = 0;
        while o < 256 {
            // from the entry before on: constant evaluation is slow
            let (from, steps) = if k == 0 { (o as u32, more + degree as usize) } else { (table[k - 1][o], 8) };
            table[k][o] = times(from, steps, degree, generator);
            o += 1;
        }
        k += 1;
    }
    table
}

static HEADER: [[u16; 256]; 16] = {
    let (wide, mut table, mut i) = (checks::<16>(0, 16, 0x1021), [[0; 256]; 16], 0);
    while i < 4096 {
        table[i / 256][i % 256] = wide[i / 256][i % 256] as u16;
        i += 1;
    }
    table
};
static BLOCK: [[u32; 256]; 10] = checks::<10>(7, 9, 0x59);
static SERIAL: [u32; 128] = {
    let (mut table, mut serial) = ([0; 128], 0);
    while serial < 128 {
        table[serial] = times(serial as u32, 9, 9, 0x59);
        serial += 1;
    }
    table
};
static MESSAGE: [[u32; 256]; 16] = checks::<16>(0, 32, 0x04C1_1DB7);

impl Codes for Fast {
    #[inline]
    fn read_slot_type(word: u32) -> Result<u8, Number> {
        if word >> 20 != 0 {
            return Err(1);
        }
        let data = (word >> 12) as u8;
        let pattern = PATTERN[usize::from((PARITY[usize::from(data)] ^ word as u16) & 0xFFF)];
        if pattern == NONE {
            return Err(4);
        }
        Ok(data ^ pattern as u8)
    }

    #[inline]
    fn write_slot_type(data: u8) -> u32 {
        u32::from(data) << 12 | u32::from(PARITY[usize::from(data)])
    }

    #[inline]
    fn read_field(field: &[u8; 25]) -> Result<[u8; 12], Number> {
        let last = std::array::from_fn(|i| field[12 + i] << 4 | field[13 + i] >> 4);
        read_halves(field.first_chunk().unwrap(), field[12] >> 4, &last)
    }

    #[inline]
    fn read_burst_field(burst: &[u8; 33]) -> Result<[u8; 12], Number> {
        read_halves(burst.first_chunk().unwrap(), burst[12] >> 6 << 2 | burst[20] & 3, burst.last_chunk().unwrap())
    }

    #[inline]
    fn write_field(info: &[u8; 12]) -> [u8; 25] {
        let mut sum = [0; 4];
        for (i, &octet) in info.iter().enumerate() {
            let (a, b) = (&WRITE[2 * i][usize::from(octet >> 4)], &WRITE[2 * i + 1][usize::from(octet & 15)]);
            for w in 0..4 {
                sum[w] ^= a[w] ^ b[w];
            }
        }
        let mut field = [0; 25];
        for w in 0..3 {
            field[8 * w..8 * w + 8].copy_from_slice(&sum[w].to_be_bytes());
        }
        field[24] = (sum[3] >> 56) as u8;
        field
    }

    #[inline]
    fn header_check(mask: u16, octets: &[u8]) -> u16 {
        // zeros before the first octet add nothing: the first run may be short
        let (head, runs) = octets.split_at(octets.len() % 16);
        let mut r = 0;
        for (&o, table) in head.iter().zip(HEADER[..head.len()].iter().rev()) {
            r ^= table[usize::from(o)];
        }
        for run in runs.chunks_exact(16) {
            let run: &[u8; 16] = run.try_into().unwrap();
            let [a, b] = r.to_be_bytes();
            r = HEADER[15][usize::from(run[0] ^ a)] ^ HEADER[14][usize::from(run[1] ^ b)];
            for i in 2..16 {
                r ^= HEADER[15 - i][usize::from(run[i])];
            }
        }
        !r ^ mask
    }

    #[inline]
    fn block_check(serial: u8, data: &[u8; 10]) -> u16 {
        let mut r = SERIAL[usize::from(serial & 127)];
        for i in 0..10 {
            r ^= BLOCK[9 - i][usize::from(data[i])];
        }
        r as u16 ^ 0x1FF ^ 0x0F0
    }

    #[inline]
    fn message_check(octets: &[u8]) -> u32 {
        let even = octets.len() & !1;
        let (head, runs) = octets[..even].split_at(even % 16);
        let mut r = 0;
        for (pair, tables) in head.chunks_exact(2).zip(MESSAGE[..head.len()].chunks_exact(2).rev()) {
            r ^= tables[1][usize::from(pair[1])] ^ tables[0][usize::from(pair[0])];
        }
        for run in runs.chunks_exact(16) {
            let run: &[u8; 16] = run.try_into().unwrap();
            let before = r.to_be_bytes();
            r = 0;
            for i in 0..16 {
                let with = if i < 4 { before[i] } else { 0 };
                r ^= MESSAGE[15 - i][usize::from(run[i ^ 1] ^ with)];
            }
        }
        if octets.len() % 2 == 1 {
            r = r << 8 ^ MESSAGE[0][usize::from((r >> 24) as u8 ^ octets[even])];
        }
        r
    }
}
