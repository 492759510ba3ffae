//! The library's functions that are measured, over slices.

type In = *const u8;
type Out = *mut u8;

extern "C" {
    fn kirruskabe_read_slot_type(word: u32, out: Out, out_len: usize) -> u8;
    fn kirruskabe_read_field(field: In, field_len: usize, out: Out, out_len: usize) -> u8;
    fn kirruskabe_write_field(info: In, info_len: usize, out: Out, out_len: usize) -> u8;
    fn kirruskabe_header_check(mask: u16, octets: In, octets_len: usize) -> u16;
    fn kirruskabe_block_check(serial: u8, data: In, data_len: usize) -> u16;
    fn kirruskabe_message_check(octets: In, octets_len: usize) -> u32;
    fn kirruskabe_read_datagram(datagram: In, datagram_len: usize, out: Out, out_len: usize) -> u8;
    #[cfg(events)]
    fn kirruskabe_fresh(own: u32, stamp: u16, form: Out, form_len: usize) -> u8;
    #[cfg(events)]
    fn kirruskabe_on_datagram(form: Out, form_len: usize, stamp: u16, datagram: In, datagram_len: usize, line: Out, line_len: usize) -> u8;
}

// In each function below every pointer comes from a slice and goes with that slice's length, and lent slices are exclusive.

pub fn read_slot_type(word: u32) -> Result<u8, u8> {
    let mut out = [0];
    let number = unsafe { kirruskabe_read_slot_type(word, out.as_mut_ptr(), 1) };
    if number == 0 {
        Ok(out[0])
    } else {
        Err(number)
    }
}

pub fn read_field(field: &[u8; 25]) -> Result<[u8; 12], u8> {
    let mut out = [0; 12];
    let number = unsafe { kirruskabe_read_field(field.as_ptr(), 25, out.as_mut_ptr(), 12) };
    if number == 0 {
        Ok(out)
    } else {
        Err(number)
    }
}

pub fn write_field(info: &[u8; 12]) -> [u8; 25] {
    let mut out = [0; 25];
    unsafe { kirruskabe_write_field(info.as_ptr(), 12, out.as_mut_ptr(), 25) };
    out
}

pub fn header_check(mask: u16, octets: &[u8]) -> u16 {
    unsafe { kirruskabe_header_check(mask, octets.as_ptr(), octets.len()) }
}

pub fn block_check(serial: u8, data: &[u8; 10]) -> u16 {
    unsafe { kirruskabe_block_check(serial, data.as_ptr(), 10) }
}

pub fn message_check(octets: &[u8]) -> u32 {
    unsafe { kirruskabe_message_check(octets.as_ptr(), octets.len()) }
}

pub fn read_datagram(datagram: &[u8], out: &mut [u8; 31]) -> u8 {
    unsafe { kirruskabe_read_datagram(datagram.as_ptr(), datagram.len(), out.as_mut_ptr(), 31) }
}

/// Does the library have the events?
pub const EVENTS: bool = cfg!(events);

#[cfg(events)]
pub fn fresh(own: u32, stamp: u16, form: &mut [u8; 1024]) -> u8 {
    unsafe { kirruskabe_fresh(own, stamp, form.as_mut_ptr(), 1024) }
}

#[cfg(events)]
pub fn on_datagram(form: &mut [u8; 1024], stamp: u16, datagram: &[u8], line: &mut [u8; 1027]) -> u8 {
    unsafe { kirruskabe_on_datagram(form.as_mut_ptr(), 1024, stamp, datagram.as_ptr(), datagram.len(), line.as_mut_ptr(), 1027) }
}

#[cfg(not(events))]
pub fn fresh(_: u32, _: u16, _: &mut [u8; 1024]) -> u8 {
    unreachable!("only called where EVENTS")
}

#[cfg(not(events))]
pub fn on_datagram(_: &mut [u8; 1024], _: u16, _: &[u8], _: &mut [u8; 1027]) -> u8 {
    unreachable!("only called where EVENTS")
}
