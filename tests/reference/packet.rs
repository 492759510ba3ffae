//! Headers, blocks, messages, responses.

use super::codes::*;
use super::*;

// ---- headers

#[derive(Clone, PartialEq, Debug)]
pub struct Header {
    pub format: u8,
    pub group: u8,
    pub a: u8,
    pub pad: u8,
    pub sap: u8,
    pub destination: u32,
    pub source: u32,
    pub full: u8,
    pub count: u8,
    /// Octet 9. Format 1: class, type, status; format 2: FSN; format 3: S, N(S), FSN.
    pub nine: [u8; 3],
}

/// The widths of octet 9's parts, from the highest bits down.
fn widths(format: u8) -> Answer<[u32; 3]> {
    match format {
        1 => Ok([2, 3, 3]),
        2 => Ok([4, 0, 0]),
        3 => Ok([1, 3, 4]),
        _ => Err(FORMAT),
    }
}

pub fn write_header(h: &Header) -> Answer<[u8; 12]> {
    let widths = widths(h.format).map_err(|_| WRITER)?;
    let fits = h.group < 2 && h.a < 2 && h.pad < 32 && h.sap < 16 && h.full < 2 && h.count < 128;
    let nine_fits = (0..3).all(|i| u32::from(h.nine[i]) < 1 << widths[i]);
    refuse_if(!fits || !nine_fits || too_wide(h.destination) || too_wide(h.source), WRITER)?;
    let mut out = vec![h.group << 7 | h.a << 6 | (h.pad >> 4) << 4 | h.format, h.sap << 4 | h.pad & 15];
    out.extend(address(h.destination));
    out.extend(address(h.source));
    out.push(h.full << 7 | h.count);
    out.push((0..3).fold(0, |octet, i| octet << widths[i] | h.nine[i]));
    with_header_check(&out)
}

/// Ten octets and the check behind them.
pub fn with_header_check(ten: &[u8]) -> Answer<[u8; 12]> {
    sized(&[ten, &header_check(HEADER_MASK, ten).to_be_bytes()].concat())
}

pub fn read_header(octets: &[u8]) -> Answer<Header> {
    let o: [u8; 12] = sized(octets)?;
    refuse_if(header_check(HEADER_MASK, &o[..10]).to_be_bytes() != o[10..], HEADER_CHECK)?;
    let format = o[0] & 15;
    let nine = match format {
        1 => [o[9] >> 6, o[9] >> 3 & 7, o[9] & 7],
        2 => [o[9] & 15, 0, 0],
        3 => [o[9] >> 7, o[9] >> 4 & 7, o[9] & 15],
        _ => return Err(FORMAT),
    };
    Ok(Header {
        format,
        group: o[0] >> 7,
        a: o[0] >> 6 & 1,
        pad: (o[0] >> 4 & 1) << 4 | o[1] & 15,
        sap: o[1] >> 4,
        destination: number(&o[2..5]),
        source: number(&o[5..8]),
        full: o[8] >> 7,
        count: o[8] & 127,
        nine,
    })
}

// ---- blocks

pub fn write_block(serial: u8, data: &[u8; 10]) -> Answer<[u8; 12]> {
    refuse_if(serial > 127, WRITER)?;
    let first = u16::from(serial) << 9 | block_check(serial, data);
    sized(&[&first.to_be_bytes()[..], data].concat())
}

pub fn read_block(octets: &[u8]) -> Answer<(u8, [u8; 10])> {
    let o: [u8; 12] = sized(octets)?;
    let serial = o[0] >> 1;
    let check = u16::from(o[0] & 1) << 8 | u16::from(o[1]);
    refuse_if(check != block_check(serial, &o[2..]), BLOCK_CHECK)?;
    Ok((serial, sized(&o[2..])?))
}

// ---- messages

/// The number of blocks and the pad of a message of L octets.
pub fn message_size(length: usize) -> Answer<(usize, usize)> {
    refuse_if(length > LONGEST_MESSAGE, WRITER)?;
    let blocks = (length + 4).div_ceil(10);
    Ok((blocks, 10 * blocks - 4 - length))
}

/// The octets of a message's blocks: message, pad, check.
pub fn message_octets(message: &[u8]) -> Answer<Vec<u8>> {
    let (_, pad) = message_size(message.len())?;
    let mut all = message.to_vec();
    all.resize(message.len() + pad, 0);
    all.extend(message_check_octets(&all));
    Ok(all)
}

/// Is the check in the last four octets good?
pub fn message_is_good(all: &[u8]) -> bool {
    let (before, check) = all.split_at(all.len() - 4);
    message_check_octets(before) == *check
}

pub fn message_block(message: &[u8], n: usize) -> Answer<[u8; 12]> {
    let all = message_octets(message)?;
    let data = all.chunks(10).nth(n).ok_or(WRITER)?;
    write_block(n as u8, &sized(data)?)
}

/// A confirmed message's header: format 3, A = 1, FSN 1000.
fn confirmed(pad: usize, sap: u8, ns: u8, destination: u32, source: u32, full: u8, count: usize) -> Answer<[u8; 12]> {
    let (pad, count, nine) = (pad as u8, count as u8, [0, ns, 0b1000]);
    write_header(&Header { format: 3, group: 0, a: 1, pad, sap, destination, source, full, count, nine })
}

pub fn full_header(length: usize, sap: u8, ns: u8, destination: u32, source: u32) -> Answer<[u8; 12]> {
    let (blocks, pad) = message_size(length)?;
    confirmed(pad, sap, ns, destination, source, 1, blocks)
}

pub fn partial_header(length: usize, count: u8, sap: u8, ns: u8, destination: u32, source: u32) -> Answer<[u8; 12]> {
    let (blocks, pad) = message_size(length)?;
    refuse_if(count == 0 || usize::from(count) > blocks, WRITER)?;
    confirmed(pad, sap, ns, destination, source, 0, count.into())
}

// ---- responses

pub const ACK: u8 = 0;
pub const NACK: u8 = 1;
pub const SACK: u8 = 2;

/// A response's header and, for a SACK, its data block.
pub type ResponseOctets = ([u8; 12], Option<[u8; 12]>);

pub fn write_response(reply: u8, sap: u8, ns: u8, destination: u32, source: u32, flags: &[u8; 8]) -> Answer<ResponseOctets> {
    let (class, kind, count) = match reply {
        ACK => (0b00, 0b001, 0),
        NACK => (0b01, 0b001, 0),
        SACK => (0b10, 0b000, 1),
        _ => return Err(WRITER),
    };
    let nine = [class, kind, ns];
    let header = write_header(&Header { format: 1, group: 0, a: 0, pad: 0, sap, destination, source, full: 0, count, nine })?;
    let block = (reply == SACK).then(|| sized(&[&flags[..], &message_check_octets(flags)].concat())).transpose()?;
    Ok((header, block))
}

/// A response's header and, for class 10 alone, its 8 flag octets.
pub fn read_response(header: &[u8], block: &[u8]) -> Answer<(Header, Option<[u8; 8]>)> {
    let header = read_header(header)?;
    refuse_if(header.format != 1, FORMAT)?;
    if header.nine[0] != 0b10 {
        return Ok((header, None));
    }
    let block: [u8; 12] = sized(block)?;
    refuse_if(!message_is_good(&block), BLOCK_CHECK)?;
    Ok((header, Some(sized(&block[..8])?)))
}
