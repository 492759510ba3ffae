//! A stand-in for the library, made of the reference: with it and with standin_programs.rs `run --standin` tries the outside tests
//! themselves, linking and child processes included, where the real ones are not built.

#![allow(dead_code)]

#[path = "outside/interface.rs"]
mod interface;
mod reference;

use interface::{Call, Interface, Model, Octets};
use reference::wrong::Wrong;

unsafe fn given(octets: *const u8, size: usize) -> Octets {
    std::slice::from_raw_parts(octets, size).into()
}

unsafe fn answer(call: Call, out: *mut u8, size: usize) -> u8 {
    Model(Wrong::Nothing).call(&call, std::slice::from_raw_parts_mut(out, size), &mut []) as u8
}

unsafe fn event(call: Call, form: *mut u8, form_len: usize, line: *mut u8, line_len: usize) -> u8 {
    let (form, line) = (std::slice::from_raw_parts_mut(form, form_len), std::slice::from_raw_parts_mut(line, line_len));
    Model(Wrong::Nothing).call(&call, form, line) as u8
}

fn value(call: Call) -> u32 {
    Model(Wrong::Nothing).call(&call, &mut [], &mut [])
}

/// Export a function that gives a number, from its parameters before the lent memory and the call made of them.
macro_rules! export {
    ($name:ident($($p:ident: $t:ty),*) $call:expr) => {
        #[no_mangle]
        pub unsafe extern "C" fn $name($($p: $t,)* out: *mut u8, out_len: usize) -> u8 {
            answer($call, out, out_len)
        }
    };
}

type In = *const u8;

export!(kirruskabe_fresh(own: u32, stamp: u16) Call::Fresh { own, stamp });
export!(kirruskabe_message_size(length: usize) Call::MessageSize { length });
export!(kirruskabe_full_header(length: usize, sap: u8, ns: u8, destination: u32, source: u32)
    Call::FullHeader { length, sap, ns, destination, source });
export!(kirruskabe_partial_header(length: usize, count: u8, sap: u8, ns: u8, destination: u32, source: u32)
    Call::PartialHeader { length, count, sap, ns, destination, source });
export!(kirruskabe_message_block(message: In, len: usize, n: usize) Call::MessageBlock { message: given(message, len), n });
export!(kirruskabe_write_header(fields: In, len: usize) Call::WriteHeader { fields: given(fields, len) });
export!(kirruskabe_write_block(serial: u8, data: In, len: usize) Call::WriteBlock { serial, data: given(data, len) });
export!(kirruskabe_write_response(reply: u8, sap: u8, ns: u8, destination: u32, source: u32, flags: In, len: usize)
    Call::WriteResponse { reply, sap, ns, destination, source, flags: given(flags, len) });
export!(kirruskabe_write_burst(colour: u8, data_type: u8, info: In, len: usize, sync: u8)
    Call::WriteBurst { colour, data_type, info: given(info, len), sync });
export!(kirruskabe_write_datagram(labels: In, labels_len: usize, colour: u8, data_type: u8, info: In, len: usize, sync: u8)
    Call::WriteDatagram { labels: given(labels, labels_len), colour, data_type, info: given(info, len), sync });
export!(kirruskabe_read_datagram(datagram: In, len: usize) Call::ReadDatagram { datagram: given(datagram, len) });
export!(kirruskabe_read_burst(burst: In, len: usize) Call::ReadBurst { burst: given(burst, len) });
export!(kirruskabe_read_header(header: In, len: usize) Call::ReadHeader { header: given(header, len) });
export!(kirruskabe_read_block(block: In, len: usize) Call::ReadBlock { block: given(block, len) });
export!(kirruskabe_read_response(header: In, header_len: usize, block: In, len: usize)
    Call::ReadResponse { header: given(header, header_len), block: given(block, len) });
export!(kirruskabe_read_slot_type(word: u32) Call::ReadSlotType { word });
export!(kirruskabe_write_field(info: In, len: usize) Call::WriteField { info: given(info, len) });
export!(kirruskabe_read_field(field: In, len: usize) Call::ReadField { field: given(field, len) });

#[no_mangle]
pub unsafe extern "C" fn kirruskabe_on_datagram(f: *mut u8, n: usize, stamp: u16, datagram: In, len: usize, l: *mut u8, k: usize) -> u8 {
    event(Call::OnDatagram { stamp, datagram: given(datagram, len) }, f, n, l, k)
}

#[no_mangle]
pub unsafe extern "C" fn kirruskabe_on_header(f: *mut u8, n: usize, stamp: u16, header: In, len: usize, l: *mut u8, k: usize) -> u8 {
    event(Call::OnHeader { stamp, header: given(header, len) }, f, n, l, k)
}

#[no_mangle]
pub unsafe extern "C" fn kirruskabe_on_block(f: *mut u8, n: usize, stamp: u16, block: In, len: usize, l: *mut u8, k: usize) -> u8 {
    event(Call::OnBlock { stamp, block: given(block, len) }, f, n, l, k)
}

#[no_mangle]
pub unsafe extern "C" fn kirruskabe_on_end(f: *mut u8, n: usize, stamp: u16, l: *mut u8, k: usize) -> u8 {
    event(Call::OnEnd { stamp }, f, n, l, k)
}

#[no_mangle]
pub extern "C" fn kirruskabe_next_sequence(sequence: u8) -> u8 {
    value(Call::NextSequence { sequence }) as u8
}

#[no_mangle]
pub extern "C" fn kirruskabe_write_slot_type(data: u8) -> u32 {
    value(Call::WriteSlotType { data })
}

#[no_mangle]
pub unsafe extern "C" fn kirruskabe_header_check(mask: u16, octets: In, len: usize) -> u16 {
    value(Call::HeaderCheck { mask, octets: given(octets, len) }) as u16
}

#[no_mangle]
pub unsafe extern "C" fn kirruskabe_block_check(serial: u8, data: In, len: usize) -> u16 {
    value(Call::BlockCheck { serial, data: given(data, len) }) as u16
}

#[no_mangle]
pub unsafe extern "C" fn kirruskabe_message_check(octets: In, len: usize) -> u32 {
    value(Call::MessageCheck { octets: given(octets, len) })
}
