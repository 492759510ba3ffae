//! The library: every function of kirruskabe.h, and the one place where they are called.

use super::interface::{Call, Interface};

type In = *const u8;
type Out = *mut u8;

extern "C" {
    fn kirruskabe_fresh(own: u32, stamp: u16, form: Out, form_len: usize) -> u8;
    fn kirruskabe_on_datagram(form: Out, form_len: usize, stamp: u16, datagram: In, datagram_len: usize, line: Out, line_len: usize) -> u8;
    fn kirruskabe_on_header(form: Out, form_len: usize, stamp: u16, header: In, header_len: usize, line: Out, line_len: usize) -> u8;
    fn kirruskabe_on_block(form: Out, form_len: usize, stamp: u16, block: In, block_len: usize, line: Out, line_len: usize) -> u8;
    fn kirruskabe_on_end(form: Out, form_len: usize, stamp: u16, line: Out, line_len: usize) -> u8;
    fn kirruskabe_message_size(length: usize, out: Out, out_len: usize) -> u8;
    fn kirruskabe_full_header(length: usize, sap: u8, ns: u8, destination: u32, source: u32, out: Out, out_len: usize) -> u8;
    fn kirruskabe_partial_header(length: usize, count: u8, sap: u8, ns: u8, destination: u32, source: u32, out: Out, out_len: usize) -> u8;
    fn kirruskabe_message_block(message: In, message_len: usize, n: usize, out: Out, out_len: usize) -> u8;
    fn kirruskabe_write_header(fields: In, fields_len: usize, out: Out, out_len: usize) -> u8;
    fn kirruskabe_write_block(serial: u8, data: In, data_len: usize, out: Out, out_len: usize) -> u8;
    fn kirruskabe_write_response(
        reply: u8,
        sap: u8,
        ns: u8,
        destination: u32,
        source: u32,
        flags: In,
        flags_len: usize,
        out: Out,
        out_len: usize,
    ) -> u8;
    fn kirruskabe_write_burst(colour: u8, datatype: u8, info: In, info_len: usize, sync: u8, out: Out, out_len: usize) -> u8;
    fn kirruskabe_write_datagram(
        labels: In,
        labels_len: usize,
        colour: u8,
        datatype: u8,
        info: In,
        info_len: usize,
        sync: u8,
        out: Out,
        out_len: usize,
    ) -> u8;
    fn kirruskabe_next_sequence(sequence: u8) -> u8;
    fn kirruskabe_read_datagram(datagram: In, datagram_len: usize, out: Out, out_len: usize) -> u8;
    fn kirruskabe_read_burst(burst: In, burst_len: usize, out: Out, out_len: usize) -> u8;
    fn kirruskabe_read_header(header: In, header_len: usize, out: Out, out_len: usize) -> u8;
    fn kirruskabe_read_block(block: In, block_len: usize, out: Out, out_len: usize) -> u8;
    fn kirruskabe_read_response(header: In, header_len: usize, block: In, block_len: usize, out: Out, out_len: usize) -> u8;
    fn kirruskabe_write_slot_type(data: u8) -> u32;
    fn kirruskabe_read_slot_type(word: u32, out: Out, out_len: usize) -> u8;
    fn kirruskabe_write_field(info: In, info_len: usize, out: Out, out_len: usize) -> u8;
    fn kirruskabe_read_field(field: In, field_len: usize, out: Out, out_len: usize) -> u8;
    fn kirruskabe_header_check(mask: u16, octets: In, octets_len: usize) -> u16;
    fn kirruskabe_block_check(serial: u8, data: In, data_len: usize) -> u16;
    fn kirruskabe_message_check(octets: In, octets_len: usize) -> u32;
}

pub struct Library;

impl Interface for Library {
    fn call(&self, call: &Call, first: &mut [u8], second: &mut [u8]) -> u32 {
        let (out, size) = (first.as_mut_ptr(), first.len());
        let (line, line_size) = (second.as_mut_ptr(), second.len());
        // Every pointer below comes from a slice and goes with that slice's length; the two lent slices are separate, and neither
        // overlaps the call's own octets.
        unsafe {
            match call {
                Call::Fresh { own, stamp } => kirruskabe_fresh(*own, *stamp, out, size).into(),
                Call::OnDatagram { stamp, datagram: d } => {
                    kirruskabe_on_datagram(out, size, *stamp, d.0.as_ptr(), d.0.len(), line, line_size).into()
                }
                Call::OnHeader { stamp, header: h } => {
                    kirruskabe_on_header(out, size, *stamp, h.0.as_ptr(), h.0.len(), line, line_size).into()
                }
                Call::OnBlock { stamp, block: b } => {
                    kirruskabe_on_block(out, size, *stamp, b.0.as_ptr(), b.0.len(), line, line_size).into()
                }
                Call::OnEnd { stamp } => kirruskabe_on_end(out, size, *stamp, line, line_size).into(),
                Call::MessageSize { length } => kirruskabe_message_size(*length, out, size).into(),
                Call::FullHeader { length, sap, ns, destination, source } => {
                    kirruskabe_full_header(*length, *sap, *ns, *destination, *source, out, size).into()
                }
                Call::PartialHeader { length, count, sap, ns, destination, source } => {
                    kirruskabe_partial_header(*length, *count, *sap, *ns, *destination, *source, out, size).into()
                }
                Call::MessageBlock { message: m, n } => kirruskabe_message_block(m.0.as_ptr(), m.0.len(), *n, out, size).into(),
                Call::WriteHeader { fields: f } => kirruskabe_write_header(f.0.as_ptr(), f.0.len(), out, size).into(),
                Call::WriteBlock { serial, data: d } => kirruskabe_write_block(*serial, d.0.as_ptr(), d.0.len(), out, size).into(),
                Call::WriteResponse { reply, sap, ns, destination, source, flags: f } => {
                    kirruskabe_write_response(*reply, *sap, *ns, *destination, *source, f.0.as_ptr(), f.0.len(), out, size).into()
                }
                Call::WriteBurst { colour, data_type, info: i, sync } => {
                    kirruskabe_write_burst(*colour, *data_type, i.0.as_ptr(), i.0.len(), *sync, out, size).into()
                }
                Call::WriteDatagram { labels: l, colour, data_type, info: i, sync } => {
                    let (labels, info) = (l.0.as_ptr(), i.0.as_ptr());
                    kirruskabe_write_datagram(labels, l.0.len(), *colour, *data_type, info, i.0.len(), *sync, out, size).into()
                }
                Call::NextSequence { sequence } => kirruskabe_next_sequence(*sequence).into(),
                Call::ReadDatagram { datagram: d } => kirruskabe_read_datagram(d.0.as_ptr(), d.0.len(), out, size).into(),
                Call::ReadBurst { burst: b } => kirruskabe_read_burst(b.0.as_ptr(), b.0.len(), out, size).into(),
                Call::ReadHeader { header: h } => kirruskabe_read_header(h.0.as_ptr(), h.0.len(), out, size).into(),
                Call::ReadBlock { block: b } => kirruskabe_read_block(b.0.as_ptr(), b.0.len(), out, size).into(),
                Call::ReadResponse { header: h, block: b } => {
                    kirruskabe_read_response(h.0.as_ptr(), h.0.len(), b.0.as_ptr(), b.0.len(), out, size).into()
                }
                Call::WriteSlotType { data } => kirruskabe_write_slot_type(*data),
                Call::ReadSlotType { word } => kirruskabe_read_slot_type(*word, out, size).into(),
                Call::WriteField { info: i } => kirruskabe_write_field(i.0.as_ptr(), i.0.len(), out, size).into(),
                Call::ReadField { field: f } => kirruskabe_read_field(f.0.as_ptr(), f.0.len(), out, size).into(),
                Call::HeaderCheck { mask, octets: o } => kirruskabe_header_check(*mask, o.0.as_ptr(), o.0.len()).into(),
                Call::BlockCheck { serial, data: d } => kirruskabe_block_check(*serial, d.0.as_ptr(), d.0.len()).into(),
                Call::MessageCheck { octets: o } => kirruskabe_message_check(o.0.as_ptr(), o.0.len()),
            }
        }
    }
}
