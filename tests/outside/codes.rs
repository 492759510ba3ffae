//! The codes: slot types, block fields, checks.

use super::bench::{Bench, Check};
use super::interface::{Call, Octets};
use crate::reference::codes::*;
use crate::reference::examples::{from_hex, IDLE_BURST, IDLE_INFO};
use crate::reference::*;

pub fn codes(bench: &mut Bench) -> Check {
    slot_types(bench)?;
    fields(bench)?;
    checks(bench)
}

/// All words of 20 bits, and some of more.
fn slot_types(bench: &mut Bench) -> Check {
    for data in 0..=255 {
        bench.compare(&Call::WriteSlotType { data })?;
    }
    let whole = bench.share >= 100;
    for i in 0..bench.rounds(1 << 20) {
        let word = if whole { i as u32 } else { near_a_word(bench) };
        let expected = read_slot_type(word);
        let mut out = [word as u8 ^ 0xA5];
        let left = if expected.is_ok() { [expected.unwrap_or(0)] } else { out };
        let got = bench.subject.call(&Call::ReadSlotType { word }, &mut out, &mut []);
        let number = u32::from(expected.err().unwrap_or(0));
        bench.check(got == number && out == left, || format!("slot type {word:05x}: {got} {out:02x?}, expected {number} {left:02x?}"))?;
    }
    for i in 0..2000 {
        let word = if i < 12 { 1 << (20 + i) } else { bench.random.next() as u32 };
        bench.compare(&Call::ReadSlotType { word })?;
    }
    for word in [0, write_slot_type(0x16), u32::MAX, 1 << 20, 0xFFFFF] {
        bench.compare_sizes(&Call::ReadSlotType { word })?;
    }
    Ok(())
}

/// A codeword with up to five wrong bits.
fn near_a_word(bench: &mut Bench) -> u32 {
    let mut word = write_slot_type(bench.random.octet());
    for _ in 0..bench.random.below(6) {
        word ^= 1 << bench.random.below(20);
    }
    word
}

/// Read a field with these positions of the plain order wrong. Within the promise it must come back as sent.
fn field_with(bench: &mut Bench, info: &[u8; 12], plain: &[bool], wrong: &[usize], promised: bool) -> Check {
    let mut damaged = plain.to_vec();
    for &position in wrong {
        damaged[position] = !damaged[position];
    }
    let mut field = octets_of(&interleave(&damaged));
    // four bits behind the 196 are not looked at
    field[24] |= bench.random.octet() & 15;
    let left = bench.compare(&Call::ReadField { field: Octets(field) })?;
    if promised {
        bench.check(left.result == 0 && left.first == info, || format!("the reference itself: info {info:02x?}, wrong at {wrong:?}"))?;
    }
    Ok(())
}

fn fields(bench: &mut Bench) -> Check {
    let idle = bits_of(&from_hex(IDLE_BURST));
    let field = octets_of(&[&idle[..98], &idle[166..]].concat());
    let read = bench.compare(&Call::ReadField { field: Octets(field) })?;
    bench.check(read.first == from_hex(IDLE_INFO), || "the idle burst".into())?;

    // all single and all double errors of some fields: each is within the promise
    for round in 0..bench.rounds(4) {
        let info: [u8; 12] = if round == 3 { [0; 12] } else { bench.random.array() };
        let plain = plain_field([false; 3], &info);
        bench.compare(&Call::WriteField { info: info.into() })?;
        field_with(bench, &info, &plain, &[], true)?;
        for a in 0..FIELD_BITS {
            field_with(bench, &info, &plain, &[a], true)?;
            // a small run leaves out most of the doubles
            for b in (0..a).step_by(if bench.share < 100 { 13 } else { 1 }) {
                field_with(bench, &info, &plain, &[a, b], true)?;
            }
        }
    }
    for _ in 0..bench.rounds(20_000) {
        let info: [u8; 12] = bench.random.array();
        let random = &mut bench.random;
        // at most one of the columns holds more than one wrong bit
        let bad = random.below(COLUMNS);
        let few = random.one_in(2);
        let mut wrong: Vec<usize> = (0..ROWS).filter(|_| random.one_in(2)).map(|r| place(r, bad)).collect();
        for c in (0..COLUMNS).filter(|&c| c != bad) {
            if !few || random.one_in(4) {
                wrong.push(place(random.below(ROWS), c));
            }
        }
        wrong.extend(random.one_in(2).then_some(0));
        field_with(bench, &info, &plain_field([false; 3], &info), &wrong, true)?;
    }
    // beyond the promise, with reserved bits, and any octets
    for _ in 0..bench.rounds(20_000) {
        let info: [u8; 12] = bench.random.array();
        let reserved = if bench.random.one_in(3) { std::array::from_fn(|_| bench.random.one_in(2)) } else { [false; 3] };
        let errors = if bench.random.one_in(4) { 0 } else { 2 + bench.random.below(12) };
        let wrong: Vec<usize> = (0..errors).map(|_| bench.random.below(FIELD_BITS)).collect();
        field_with(bench, &info, &plain_field(reserved, &info), &wrong, false)?;
    }
    for size in (0..=64).chain([196, 1024]) {
        let octets = Octets(bench.random.octets(size));
        bench.compare_sizes(&Call::ReadField { field: octets.clone() })?;
        bench.compare_sizes(&Call::WriteField { info: octets })?;
    }
    for _ in 0..bench.rounds(2000) {
        let field = Octets(bench.random.octets(25));
        bench.compare(&Call::ReadField { field })?;
    }
    Ok(())
}

fn checks(bench: &mut Bench) -> Check {
    let zeros = bench.compare(&Call::HeaderCheck { mask: HEADER_MASK, octets: [0; 10].into() })?;
    bench.check(zeros.result == 0x3333, || "ten zero header octets".into())?;
    let zeros = bench.compare(&Call::BlockCheck { serial: 0, data: [0; 10].into() })?;
    bench.check(zeros.result == 0x10F, || "serial 0 with ten zero octets".into())?;
    for length in (0..=700).chain([1021, 4096, 65_537]) {
        for fill in 0..bench.rounds(3) {
            let mut octets = bench.random.octets(length);
            if fill == 2 {
                octets.fill(if length % 3 == 0 { 0xFF } else { 0 });
            }
            let octets = Octets(octets);
            let mask = bench.random.pick(&[HEADER_MASK, 0, 0xFFFF, 0x8001]);
            bench.compare(&Call::HeaderCheck { mask, octets: octets.clone() })?;
            let serial = bench.random.octet() & 127;
            bench.compare(&Call::BlockCheck { serial, data: octets.clone() })?;
            bench.compare(&Call::MessageCheck { octets })?;
        }
    }
    // every serial; one over seven bits has no meaning in the paper, and what it gives has nine bits all the same
    for serial in 0..=255 {
        let data = Octets(bench.random.octets(10));
        let call = Call::BlockCheck { serial, data };
        if serial < 128 {
            bench.compare(&call)?;
        } else {
            let left = bench.call(&call, &[], &[])?;
            bench.check(left.result < 512, || format!("{call:?} gives {:x}, over nine bits", left.result))?;
        }
    }
    Ok(())
}
