//! The functions of kirruskabe.h as calls, and the reference behind the same interface.

use crate::reference::burst::*;
use crate::reference::codes::*;
use crate::reference::history::{Given, History};
use crate::reference::packet::*;
use crate::reference::stored::{restore, save, FORM};
use crate::reference::wrong::{with, wrong, Wrong};
use crate::reference::*;

/// Octets that are shown in hexadecimal.
#[derive(Clone, PartialEq)]
pub struct Octets(pub Vec<u8>);

impl std::fmt::Debug for Octets {
    fn fmt(&self, to: &mut std::fmt::Formatter) -> std::fmt::Result {
        write!(to, "({})", self.0.len())?;
        self.0.iter().try_for_each(|octet| write!(to, "{octet:02x}"))
    }
}

impl<T: AsRef<[u8]>> From<T> for Octets {
    fn from(octets: T) -> Octets {
        Octets(octets.as_ref().to_vec())
    }
}

/// A call of one function. The lent memory is given apart: first the stored form or the result, then the answer of an event.
#[derive(Clone, PartialEq, Debug)]
pub enum Call {
    Fresh { own: u32, stamp: u16 },
    OnDatagram { stamp: u16, datagram: Octets },
    OnHeader { stamp: u16, header: Octets },
    OnBlock { stamp: u16, block: Octets },
    OnEnd { stamp: u16 },
    MessageSize { length: usize },
    FullHeader { length: usize, sap: u8, ns: u8, destination: u32, source: u32 },
    PartialHeader { length: usize, count: u8, sap: u8, ns: u8, destination: u32, source: u32 },
    MessageBlock { message: Octets, n: usize },
    WriteHeader { fields: Octets },
    WriteBlock { serial: u8, data: Octets },
    WriteResponse { reply: u8, sap: u8, ns: u8, destination: u32, source: u32, flags: Octets },
    WriteBurst { colour: u8, data_type: u8, info: Octets, sync: u8 },
    WriteDatagram { labels: Octets, colour: u8, data_type: u8, info: Octets, sync: u8 },
    NextSequence { sequence: u8 },
    ReadDatagram { datagram: Octets },
    ReadBurst { burst: Octets },
    ReadHeader { header: Octets },
    ReadBlock { block: Octets },
    ReadResponse { header: Octets, block: Octets },
    WriteSlotType { data: u8 },
    ReadSlotType { word: u32 },
    WriteField { info: Octets },
    ReadField { field: Octets },
    HeaderCheck { mask: u16, octets: Octets },
    BlockCheck { serial: u8, data: Octets },
    MessageCheck { octets: Octets },
}

/// Every function of the header, without `kirruskabe_`, and the numbers that it can give (none where its result is a value).
pub const FUNCTIONS: [(&str, &[u8]); 27] = [
    ("fresh", &[1, 16]),
    ("on_datagram", &[1, 2, 3, 4, 5, 6, 7, 8, 9, 10, 11, 12, 13, 14, 15, 17, 18]),
    ("on_header", &[1, 8, 9, 10, 11, 12, 17, 18]),
    ("on_block", &[1, 12, 13, 14, 15, 17, 18]),
    ("on_end", &[1, 12, 17, 18]),
    ("message_size", &[1, 16]),
    ("full_header", &[1, 16]),
    ("partial_header", &[1, 16]),
    ("message_block", &[1, 16]),
    ("write_header", &[1, 16]),
    ("write_block", &[1, 16]),
    ("write_response", &[1, 16]),
    ("write_burst", &[1, 16]),
    ("write_datagram", &[1, 16]),
    ("next_sequence", &[]),
    ("read_datagram", &[1, 2, 3, 4, 5, 6, 7]),
    ("read_burst", &[1, 4, 5, 6, 7]),
    ("read_header", &[1, 8, 9]),
    ("read_block", &[1, 13]),
    ("read_response", &[1, 8, 9, 13]),
    ("write_slot_type", &[]),
    ("read_slot_type", &[1, 4]),
    ("write_field", &[1]),
    ("read_field", &[1, 6, 7]),
    ("header_check", &[]),
    ("block_check", &[]),
    ("message_check", &[]),
];

impl Call {
    /// The function's name, and the octets that its first lent memory has.
    fn name(&self) -> (&'static str, usize) {
        match self {
            Call::Fresh { .. } => ("fresh", FORM),
            Call::OnDatagram { .. } => ("on_datagram", FORM),
            Call::OnHeader { .. } => ("on_header", FORM),
            Call::OnBlock { .. } => ("on_block", FORM),
            Call::OnEnd { .. } => ("on_end", FORM),
            Call::MessageSize { .. } => ("message_size", 2),
            Call::FullHeader { .. } => ("full_header", 12),
            Call::PartialHeader { .. } => ("partial_header", 12),
            Call::MessageBlock { .. } => ("message_block", 12),
            Call::WriteHeader { .. } => ("write_header", 12),
            Call::WriteBlock { .. } => ("write_block", 12),
            Call::WriteResponse { .. } => ("write_response", 24),
            Call::WriteBurst { .. } => ("write_burst", 33),
            Call::WriteDatagram { .. } => ("write_datagram", 53),
            Call::NextSequence { .. } => ("next_sequence", 0),
            Call::ReadDatagram { .. } => ("read_datagram", 31),
            Call::ReadBurst { .. } => ("read_burst", 14),
            Call::ReadHeader { .. } => ("read_header", 16),
            Call::ReadBlock { .. } => ("read_block", 11),
            Call::ReadResponse { .. } => ("read_response", 18),
            Call::WriteSlotType { .. } => ("write_slot_type", 0),
            Call::ReadSlotType { .. } => ("read_slot_type", 1),
            Call::WriteField { .. } => ("write_field", 25),
            Call::ReadField { .. } => ("read_field", 12),
            Call::HeaderCheck { .. } => ("header_check", 0),
            Call::BlockCheck { .. } => ("block_check", 0),
            Call::MessageCheck { .. } => ("message_check", 0),
        }
    }

    /// The function's name, the octets that its first lent memory has, and the numbers that it can give.
    pub fn facts(&self) -> (&'static str, usize, &'static [u8]) {
        let (name, size) = self.name();
        let numbers = FUNCTIONS.iter().find(|function| function.0 == name).map_or(&[][..], |function| function.1);
        (name, size, numbers)
    }

    pub fn is_event(&self) -> bool {
        matches!(self, Call::OnDatagram { .. } | Call::OnHeader { .. } | Call::OnBlock { .. } | Call::OnEnd { .. })
    }
}

pub const LINE: usize = 1027;

/// One that answers calls: the library, or the reference.
pub trait Interface {
    fn call(&self, call: &Call, first: &mut [u8], second: &mut [u8]) -> u32;
}

/// The reference, with a mistake switched on or with none.
pub struct Model(pub Wrong);

impl Interface for Model {
    fn call(&self, call: &Call, first: &mut [u8], second: &mut [u8]) -> u32 {
        with(self.0, || value_of(call).unwrap_or_else(|| answer(call, first, second).err().unwrap_or(0).into()))
    }
}

/// The functions that give a value and no number.
fn value_of(call: &Call) -> Option<u32> {
    match call {
        Call::NextSequence { sequence } => Some(next_sequence(*sequence).into()),
        Call::WriteSlotType { data } => Some(write_slot_type(*data)),
        Call::HeaderCheck { mask, octets } => Some(header_check(*mask, &octets.0).into()),
        Call::BlockCheck { serial, data } => Some(block_check(*serial, &data.0).into()),
        Call::MessageCheck { octets } => Some(message_check(&octets.0)),
        _ => None,
    }
}

/// The others: sizes first, then the answer, and only then the lent memory.
fn answer(call: &Call, first: &mut [u8], second: &mut [u8]) -> Answer<()> {
    if wrong(Wrong::ClearsLentMemory) {
        first.fill(0);
    }
    refuse_if(first.len() != call.facts().1 || call.is_event() && second.len() != LINE, SIZE)?;
    if call.is_event() {
        let (form, line) = event(call, first)?;
        second.copy_from_slice(&line);
        first.copy_from_slice(&form);
    } else {
        first.copy_from_slice(&result(call)?);
    }
    Ok(())
}

/// What an event is given has the right size; an end of attempt is given nothing.
fn given_is_sized(call: &Call) -> bool {
    match call {
        Call::OnDatagram { datagram, .. } => datagram.0.len() == 53,
        Call::OnHeader { header: octets, .. } | Call::OnBlock { block: octets, .. } => octets.0.len() == 12,
        _ => true,
    }
}

/// An event on a stored form: the stored form and the answer after it. Every size comes before the stored form's numbers.
fn event(call: &Call, form: &[u8]) -> Answer<(Vec<u8>, Vec<u8>)> {
    refuse_if(!given_is_sized(call) && !wrong(Wrong::FormBeforeSize), SIZE)?;
    let mut history = restore(None, form)?;
    let (stamp, given) = match call {
        Call::OnDatagram { stamp, datagram } => (stamp, history.on_datagram(&datagram.0)?),
        Call::OnHeader { stamp, header } => (stamp, history.on_header(&header.0)?),
        Call::OnBlock { stamp, block } => (stamp, history.on_block(&block.0)?),
        Call::OnEnd { stamp } => (stamp, history.on_end()?),
        _ => return Err(0),
    };
    Ok((save(&history, *stamp), line(&given)))
}

/// An answer in 1,027 octets: a code, the length of the contents, contents, zeros.
pub fn line(given: &Given) -> Vec<u8> {
    let (code, contents) = match given {
        Given::Opened => (1, vec![]),
        Given::Repeat => (2, vec![]),
        Given::Stored => (3, vec![]),
        Given::Bad => (4, vec![]),
        Given::HandedOn(message) => (5, message.clone()),
        Given::Response((header, block)) => (6, [&header[..], block.as_ref().map_or(&[], |block| &block[..])].concat()),
    };
    let mut line = vec![code];
    line.extend((contents.len() as u16).to_be_bytes());
    line.extend(contents);
    line.resize(LINE, 0);
    line
}

fn result(call: &Call) -> Answer<Vec<u8>> {
    Ok(match call {
        Call::Fresh { own, stamp } => save(&History::fresh(*own)?, *stamp),
        Call::MessageSize { length } => {
            let (blocks, pad) = message_size(*length)?;
            vec![blocks as u8, pad as u8]
        }
        Call::FullHeader { length, sap, ns, destination, source } => full_header(*length, *sap, *ns, *destination, *source)?.to_vec(),
        Call::PartialHeader { length, count, sap, ns, destination, source } => {
            partial_header(*length, *count, *sap, *ns, *destination, *source)?.to_vec()
        }
        Call::MessageBlock { message, n } => message_block(&message.0, *n)?.to_vec(),
        Call::WriteHeader { fields } => write_header(&header_of(&sized(&fields.0)?))?.to_vec(),
        Call::WriteBlock { serial, data } => write_block(*serial, &sized(&data.0)?)?.to_vec(),
        Call::WriteResponse { reply, sap, ns, destination, source, flags } => {
            let (header, block) = write_response(*reply, *sap, *ns, *destination, *source, &sized(&flags.0)?)?;
            [header, block.unwrap_or([0; 12])].concat()
        }
        Call::WriteBurst { colour, data_type, info, sync } => {
            write_burst(&Burst { colour: *colour, data_type: *data_type, info: sized(&info.0)? }, *sync)?.to_vec()
        }
        Call::WriteDatagram { labels, colour, data_type, info, sync } => {
            let labels = labels_of(&sized(&labels.0)?);
            write_datagram(&labels, &Burst { colour: *colour, data_type: *data_type, info: sized(&info.0)? }, *sync)?.to_vec()
        }
        Call::ReadDatagram { datagram } => {
            let (labels, burst) = read_datagram(&datagram.0)?;
            [labels_octets(&labels), burst_octets(&burst)].concat()
        }
        Call::ReadBurst { burst } => burst_octets(&read_burst(&burst.0)?),
        Call::ReadHeader { header } => header_fields(&read_header(&header.0)?),
        Call::ReadBlock { block } => {
            let (serial, data) = read_block(&block.0)?;
            [&[serial][..], &data].concat()
        }
        Call::ReadResponse { header, block } => {
            let (h, flags) = read_response(&header.0, &block.0)?;
            [&h.nine[..], &[h.sap], &address(h.destination), &address(h.source), &flags.unwrap_or([0; 8])].concat()
        }
        Call::ReadSlotType { word } => vec![read_slot_type(*word)?],
        Call::WriteField { info } => octets_of(&write_field(&sized(&info.0)?)),
        Call::ReadField { field } => read_field(&bits_of(&sized::<25>(&field.0)?)[..FIELD_BITS])?.to_vec(),
        _ => return Err(0),
    })
}

// ---- the octets in which the interface gives and takes fields

pub fn header_of(f: &[u8; 16]) -> Header {
    let (destination, source) = (number(&f[5..8]), number(&f[8..11]));
    let nine = [f[13], f[14], f[15]];
    Header { format: f[0], group: f[1], a: f[2], pad: f[3], sap: f[4], destination, source, full: f[11], count: f[12], nine }
}

pub fn header_fields(h: &Header) -> Vec<u8> {
    let (destination, source) = (address(h.destination), address(h.source));
    [&[h.format, h.group, h.a, h.pad, h.sap][..], &destination, &source, &[h.full, h.count], &h.nine].concat()
}

fn labels_of(l: &[u8; 17]) -> Labels {
    Labels {
        sequence: l[0],
        source: number(&l[1..4]),
        target: number(&l[4..7]),
        repeater: number(&l[7..11]),
        timeslot: l[11],
        call_type: l[12],
        stream: number(&l[13..]),
    }
}

fn labels_octets(l: &Labels) -> Vec<u8> {
    let (source, target) = (address(l.source), address(l.target));
    let (repeater, stream) = (l.repeater.to_be_bytes(), l.stream.to_be_bytes());
    [&[l.sequence][..], &source, &target, &repeater, &[l.timeslot, l.call_type], &stream].concat()
}

fn burst_octets(burst: &Burst) -> Vec<u8> {
    [&[burst.colour, burst.data_type][..], &burst.info].concat()
}
