//! Readers and writers of every format, on good, damaged and hostile octets and numbers.

use super::bench::{good, Bench, Check};
use super::interface::{Call, Octets};
use crate::reference::burst::*;
use crate::reference::codes::*;
use crate::reference::packet::*;
use crate::reference::*;

pub fn formats(bench: &mut Bench) -> Check {
    any_octets(bench)?;
    sizes_and_messages(bench)?;
    for _ in 0..bench.rounds(3000) {
        headers(bench)?;
        blocks(bench)?;
        responses(bench)?;
        bursts(bench)?;
        datagrams(bench)?;
    }
    format_two(bench)?;
    lent_sizes(bench)
}

/// The value, or now and then one at the edge of its width or beyond it.
fn edge(bench: &mut Bench, value: u8, width: u32) -> u8 {
    if !bench.random.one_in(16) {
        return value;
    }
    let over = if width < 8 { 1 << width } else { 255 };
    bench.random.pick(&[0, over - 1, over, over | 1, 127, 128, 255])
}

fn edge_address(bench: &mut Bench) -> u32 {
    let near = bench.random.address();
    bench.random.pick(&[near, near, near, near, near, near, 0, 0xFF_FFFF, 0x100_0000, near | 1 << 24, near | 1 << 31, u32::MAX])
}

/// Every reader on every size from 0 to 64 and a few more.
fn any_octets(bench: &mut Bench) -> Check {
    for size in (0..=64).chain([255, 256, 626, 1024, 65_536]) {
        for fill in 0..4 {
            let mut octets = bench.random.octets(size);
            match fill {
                1 => octets.fill(0),
                2 => octets.fill(255),
                3 => octets.iter_mut().zip(b"DMRD").for_each(|(octet, &letter)| *octet = letter),
                _ => (),
            }
            let octets = Octets(octets);
            bench.compare(&Call::ReadDatagram { datagram: octets.clone() })?;
            bench.compare(&Call::ReadBurst { burst: octets.clone() })?;
            bench.compare(&Call::ReadHeader { header: octets.clone() })?;
            bench.compare(&Call::ReadBlock { block: octets.clone() })?;
            bench.compare(&Call::ReadResponse { header: octets.clone(), block: octets.clone() })?;
            bench.compare(&Call::WriteHeader { fields: octets.clone() })?;
            bench.compare(&Call::WriteBlock { serial: size as u8, data: octets.clone() })?;
            let info = Octets(bench.random.octets(12));
            let (sync, flags) = (fill & 1, octets.clone());
            bench.compare(&Call::WriteResponse { reply: fill, sap: 1, ns: 2, destination: 3, source: 4, flags })?;
            bench.compare(&Call::WriteBurst { colour: 1, data_type: 6, info: octets.clone(), sync })?;
            bench.compare(&Call::WriteDatagram { labels: octets.clone(), colour: 1, data_type: 7, info, sync })?;
            let mut labels = Octets(bench.random.octets(17));
            labels.0[11..13].fill(fill & 1);
            bench.compare(&Call::WriteDatagram { labels, colour: 1, data_type: 7, info: octets, sync })?;
        }
    }
    for sequence in 0..=255 {
        bench.compare(&Call::NextSequence { sequence })?;
    }
    Ok(())
}

/// Message sizes, message headers and the blocks of messages.
fn sizes_and_messages(bench: &mut Bench) -> Check {
    for (length, size) in [(0, [1, 6]), (6, [1, 0]), (7, [2, 9]), (626, [63, 0])] {
        let left = bench.compare(&Call::MessageSize { length })?;
        bench.check(left.first == size, || format!("the worked example L = {length}"))?;
    }
    let far = [1 << 8, 1 << 16, (1 << 16) + 6, 1 << 32, (1 << 32) + 6, usize::MAX, usize::MAX - 3, usize::MAX - 4, usize::MAX / 2];
    for length in (0..=700).chain(far) {
        bench.compare(&Call::MessageSize { length })?;
        let (destination, source) = (edge_address(bench), edge_address(bench));
        for _ in 0..2 {
            let (sap, ns) = (bench.random.octet() & 15, bench.random.octet() & 7);
            let (sap, ns) = (edge(bench, sap, 4), edge(bench, ns, 3));
            bench.compare(&Call::FullHeader { length, sap, ns, destination, source })?;
            let blocks = message_size(length).map_or(63, |(blocks, _)| blocks);
            let count = 1 + bench.random.below(blocks) as u8;
            let count = bench.random.pick(&[count, count, count, 0, blocks as u8, blocks as u8 + 1, 127, 128, 255]);
            bench.compare(&Call::PartialHeader { length, count, sap, ns, destination, source })?;
        }
    }
    for round in 0..bench.rounds(150) {
        let length = if round % 3 == 0 { round % 70 } else { bench.random.below(640) };
        let message = Octets(bench.random.octets(length));
        let blocks = message_size(length).map_or(63, |(blocks, _)| blocks);
        for n in (0..blocks + 2).chain([128, 255, 256, 256 + blocks, 1 << 32, usize::MAX]) {
            bench.compare(&Call::MessageBlock { message: message.clone(), n })?;
        }
    }
    for length in [627, 630, 700, 65_536] {
        let message = Octets(bench.random.octets(length));
        bench.compare(&Call::MessageBlock { message, n: 0 })?;
    }
    Ok(())
}

/// Fields of a header, mostly within their widths.
fn header_fields(bench: &mut Bench) -> Vec<u8> {
    let format = 1 + bench.random.below(3) as u8;
    let format = edge(bench, format, 4);
    let nine: [u32; 3] = match format {
        1 => [2, 3, 3],
        2 => [4, 0, 0],
        _ => [1, 3, 4],
    };
    let widths = [1, 1, 5, 4, 8, 8, 8, 8, 8, 8, 1, 7, nine[0], nine[1], nine[2]];
    let mut fields = vec![format];
    for width in widths {
        let within = (u32::from(bench.random.octet()) & ((1 << width) - 1)) as u8;
        // the two octets behind a format 2's FSN are looked at apart
        fields.push(if width == 0 { 0 } else { edge(bench, within, width) });
    }
    fields
}

fn headers(bench: &mut Bench) -> Check {
    let fields = header_fields(bench);
    let written = bench.compare(&Call::WriteHeader { fields: fields.clone().into() })?;
    if written.result == 0 {
        let read = bench.compare(&Call::ReadHeader { header: written.first.clone().into() })?;
        bench.check(read.first == fields, || format!("header {fields:02x?} does not read back equal"))?;
        let mut damaged = written.first;
        let times = 1 + bench.random.below(3);
        bench.random.flip(&mut damaged, times);
        bench.compare(&Call::ReadHeader { header: damaged.into() })?;
    }
    // any ten octets with a good check
    let ten: [u8; 10] = bench.random.array();
    let header = good(with_header_check(&ten))?;
    bench.compare(&Call::ReadHeader { header: header.into() })?;
    bench.compare(&Call::ReadResponse { header: header.into(), block: Octets(vec![]) }).map(|_| ())
}

fn blocks(bench: &mut Bench) -> Check {
    let data: [u8; 10] = bench.random.array();
    let serial = bench.random.octet() & 127;
    let serial = edge(bench, serial, 7);
    let written = bench.compare(&Call::WriteBlock { serial, data: data.into() })?;
    if written.result == 0 {
        let read = bench.compare(&Call::ReadBlock { block: written.first.clone().into() })?;
        bench.check(read.first[0] == serial && read.first[1..] == data, || format!("block {serial} {data:02x?} does not read back"))?;
        let mut damaged = written.first;
        let times = 1 + bench.random.below(3);
        bench.random.flip(&mut damaged, times);
        bench.compare(&Call::ReadBlock { block: damaged.into() })?;
    }
    Ok(())
}

fn responses(bench: &mut Bench) -> Check {
    let reply = bench.random.below(3) as u8;
    let reply = edge(bench, reply, 2);
    let (sap, ns) = (bench.random.octet() & 15, bench.random.octet() & 7);
    let (sap, ns) = (edge(bench, sap, 4), edge(bench, ns, 3));
    let (destination, source) = (edge_address(bench), edge_address(bench));
    let flags: [u8; 8] = bench.random.array();
    let written = bench.compare(&Call::WriteResponse { reply, sap, ns, destination, source, flags: flags.into() })?;
    if written.result == 0 {
        let (header, block) = written.first.split_at(12);
        let read = bench.compare(&Call::ReadResponse { header: header.into(), block: block.into() })?;
        let again = [&[reply, u8::from(reply != SACK), ns, sap][..], &address(destination), &address(source)].concat();
        let read_flags = if reply == SACK { flags } else { [0; 8] };
        bench.check(read.first[..10] == again && read.first[10..] == read_flags, || format!("response {written:?} does not read back"))?;
        let (mut header, mut block) = (header.to_vec(), block.to_vec());
        match bench.random.below(3) {
            0 => bench.random.flip(&mut header, 1),
            1 => bench.random.flip(&mut block, 1),
            _ => block.truncate(bench.random.below(12)),
        }
        bench.compare(&Call::ReadResponse { header: header.into(), block: block.into() })?;
    }
    // any class and type, reserved bits, group, A, pad and flag
    let mut ten: [u8; 10] = bench.random.array();
    ten[0] = ten[0] & 0xF0 | 1;
    let header = good(with_header_check(&ten))?;
    let size = bench.random.pick(&[12, 12, 12, 0, 11, 13]);
    let mut block = bench.random.octets(size);
    if size == 12 && bench.random.one_in(2) {
        let check = message_check_octets(&block[..8]);
        block[8..].copy_from_slice(&check);
    }
    bench.compare(&Call::ReadResponse { header: header.into(), block: block.into() }).map(|_| ())
}

/// Colour code, data type, information and sync of a burst, mostly good.
fn burst_parts(bench: &mut Bench) -> (u8, u8, [u8; 12], u8) {
    let (colour, data_type, sync) = (bench.random.octet() & 15, 6 + (bench.random.octet() & 1), bench.random.octet() & 1);
    (edge(bench, colour, 4), edge(bench, data_type, 4), bench.random.array(), edge(bench, sync, 1))
}

/// Do some damage to the 33 octets of a burst.
fn damage_burst(bench: &mut Bench, burst: &mut [u8]) {
    match bench.random.below(5) {
        // the slot type: bits 98-107 and 156-165
        0 | 1 => {
            for _ in 0..1 + bench.random.below(5) {
                let bit = bench.random.below(20);
                let bit = if bit < 10 { 98 + bit } else { 146 + bit };
                burst[bit / 8] ^= 0x80 >> (bit % 8);
            }
        }
        // another slot type
        2 => {
            let slot = bits(write_slot_type(bench.random.octet()), 20);
            let mut all = bits_of(burst);
            all[98..108].copy_from_slice(&slot[..10]);
            all[156..166].copy_from_slice(&slot[10..]);
            burst.copy_from_slice(&octets_of(&all));
        }
        // a field with reserved bits
        3 => {
            let field = interleave(&plain_field([bench.random.one_in(2), bench.random.one_in(2), true], &bench.random.array()));
            let mut all = bits_of(burst);
            all[..98].copy_from_slice(&field[..98]);
            all[166..].copy_from_slice(&field[98..]);
            burst.copy_from_slice(&octets_of(&all));
        }
        _ => {
            let times = 1 + bench.random.below(30);
            bench.random.flip(burst, times);
        }
    }
}

fn bursts(bench: &mut Bench) -> Check {
    let (colour, data_type, info, sync) = burst_parts(bench);
    let written = bench.compare(&Call::WriteBurst { colour, data_type, info: info.into(), sync })?;
    if written.result == 0 {
        let read = bench.compare(&Call::ReadBurst { burst: written.first.clone().into() })?;
        let parts = [&[colour, data_type][..], &info].concat();
        bench.check(read.first == parts, || format!("burst {parts:02x?} does not read back equal"))?;
        let mut damaged = written.first;
        damage_burst(bench, &mut damaged);
        bench.compare(&Call::ReadBurst { burst: damaged.into() })?;
    }
    Ok(())
}

fn datagrams(bench: &mut Bench) -> Check {
    let (colour, data_type, info, sync) = burst_parts(bench);
    let mut labels = bench.random.octets(17);
    for at in [11, 12] {
        labels[at] &= 1;
        labels[at] = edge(bench, labels[at], 1);
    }
    let written = bench.compare(&Call::WriteDatagram { labels: labels.clone().into(), colour, data_type, info: info.into(), sync })?;
    if written.result == 0 {
        let read = bench.compare(&Call::ReadDatagram { datagram: written.first.clone().into() })?;
        let parts = [&labels[..], &[colour, data_type], &info].concat();
        bench.check(read.first == parts, || format!("datagram {parts:02x?} does not read back equal"))?;
        let mut damaged = written.first;
        damage_datagram(bench, &mut damaged);
        bench.compare(&Call::ReadDatagram { datagram: damaged.into() })?;
    }
    Ok(())
}

/// Do some damage to the octets of a datagram.
pub fn damage_datagram(bench: &mut Bench, datagram: &mut Vec<u8>) {
    match bench.random.below(8) {
        0 => bench.random.flip(&mut datagram[..4], 1),
        1 => datagram[15] ^= bench.random.pick(&[0x10, 0x20, 0x30, 0x80, 0x40]),
        2 => datagram[15] ^= 1 + bench.random.below(15) as u8,
        3 => {
            let size = bench.random.pick(&[0, 1, 20, 52, 54, 55]);
            datagram.resize(size, 0);
        }
        _ => damage_burst(bench, &mut datagram[20..]),
    }
}

/// Behind the FSN of a format 2 header stand two octets that the paper gives no width. If they are not 0, either they are fields
/// outside their width, or they are not looked at.
fn format_two(bench: &mut Bench) -> Check {
    for _ in 0..bench.rounds(200) {
        let mut fields = vec![2, 0, 1, 0, 3, 0, 0, 1, 0, 0, 2, 1, 5, bench.random.octet() & 15, 0, 0];
        let plain = bench.expected(&Call::WriteHeader { fields: fields.clone().into() }, &[0; 12], &[]).first;
        let at = 14 + bench.random.below(2);
        fields[at] = bench.random.other_octet(0);
        let call = Call::WriteHeader { fields: fields.into() };
        let left = bench.call(&call, &[0; 12], &[])?;
        let point = "octets behind a format 2 header's FSN, not 0";
        match left.result {
            16 => bench.reading(point, "refused with 16")?,
            _ => {
                bench.check(left.result == 0 && left.first == plain, || format!("{call:?} leaves {left:02x?}"))?;
                bench.reading(point, "not looked at")?;
            }
        }
    }
    Ok(())
}

/// Good input, and lent memory of every size.
fn lent_sizes(bench: &mut Bench) -> Check {
    let header = good(full_header(20, 1, 2, 3, 4))?;
    let info = Octets(header.to_vec());
    let burst = good(write_burst(&Burst { colour: 1, data_type: HEADER, info: header }, BASE))?;
    let labels = Octets(vec![0; 17]);
    let call = Call::WriteDatagram { labels: labels.clone(), colour: 1, data_type: 6, info: info.clone(), sync: 1 };
    let datagram = bench.compare(&call)?.first;
    let flags = Octets(vec![0x0F; 8]);
    let (ack, _) = good(write_response(ACK, 1, 2, 3, 4, &[0; 8]))?;
    let (sap, ns, destination, source) = (1, 2, 3, 4);
    let fields = Octets(vec![3, 0, 1, 6, 1, 0, 0, 3, 0, 0, 4, 1, 3, 0, 2, 8]);
    for call in [
        call,
        Call::Fresh { own: 7, stamp: 9 },
        Call::Fresh { own: 1 << 24, stamp: 9 },
        Call::Fresh { own: u32::MAX, stamp: 9 },
        Call::MessageSize { length: 626 },
        Call::MessageSize { length: 627 },
        Call::FullHeader { length: 20, sap, ns, destination, source },
        Call::FullHeader { length: 20, sap: 16, ns, destination, source },
        Call::PartialHeader { length: 20, count: 1, sap, ns, destination, source },
        Call::PartialHeader { length: 20, count: 0, sap, ns, destination, source },
        Call::MessageBlock { message: [9; 20].into(), n: 2 },
        Call::MessageBlock { message: [9; 20].into(), n: 3 },
        Call::WriteHeader { fields },
        Call::WriteHeader { fields: [4; 16].into() },
        Call::WriteBlock { serial: 3, data: [1; 10].into() },
        Call::WriteBlock { serial: 128, data: [1; 10].into() },
        Call::WriteResponse { reply: 2, sap, ns, destination, source, flags: flags.clone() },
        Call::WriteResponse { reply: 3, sap, ns, destination, source, flags },
        Call::WriteBurst { colour: 1, data_type: 6, info: info.clone(), sync: 0 },
        Call::WriteBurst { colour: 16, data_type: 6, info: info.clone(), sync: 0 },
        Call::WriteDatagram { labels, colour: 1, data_type: 5, info: info.clone(), sync: 1 },
        Call::ReadDatagram { datagram: datagram.into() },
        Call::ReadBurst { burst: burst.into() },
        Call::ReadHeader { header: info },
        Call::ReadBlock { block: good(message_block(&[9; 20], 1))?.into() },
        Call::ReadResponse { header: ack.into(), block: Octets(vec![]) },
    ] {
        bench.compare_sizes(&call)?;
    }
    Ok(())
}
