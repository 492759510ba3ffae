//! Stored forms: every change of one octet, and forms with good checks whose layout is broken.

use super::bench::{good, Bench, Check};
use super::events::{in_datagram, some_history, Event};
use super::formats::damage_datagram;
use super::interface::{Call, Octets, LINE};
use crate::reference::burst::read_datagram;
use crate::reference::history::{flag_octets, History, Transaction};
use crate::reference::packet::*;
use crate::reference::stored::*;
use crate::reference::*;

/// The conditions of "Layout broken", each of which must have been met.
pub const LAYOUTS: [&str; 14] = [
    "octet 0 or 1",
    "unequal stamps",
    "phase over 2",
    "behind the store",
    "phase 0 with an octet that is not zero",
    "phase 0 with a transaction",
    "phase 1 with all held",
    "phase 2 with not all held",
    "a field outside its width",
    "no blocks",
    "a flag at B or above",
    "an octet of a block not held",
    "phase 2 with a bad message check",
    "pad over 10B - 4",
];

pub fn forms(bench: &mut Bench) -> Check {
    for form in some_forms(bench)? {
        for at in 0..FORM {
            for _ in 0..bench.rounds(4) {
                let value = bench.random.other_octet(form[at]);
                let near = form[at] ^ 1 << bench.random.below(8);
                let value = bench.random.pick(&[value, near]);
                let mut changed = form.clone();
                changed[at] = value;
                event_over(bench, &changed)?;
                with_checks(&mut changed);
                event_over(bench, &changed)?;
            }
        }
    }
    broken_layouts(bench)?;
    sizes(bench)?;
    torn(bench)?;
    two_faults(bench)
}

/// The stored forms of an idle, a beginning, an open, a nearly finished and a completed receiver, of short and long messages.
fn some_forms(bench: &mut Bench) -> Result<Vec<Vec<u8>>, String> {
    let mut forms = vec![];
    for (length, held) in [(0, 0), (14, 1), (626, 40), (626, 62), (0, 1), (90, 10), (626, 63)] {
        let history = sent(bench, length, held)?;
        forms.push(save(&history, bench.random.stamp()));
    }
    forms.push(save(&good(History::fresh(0x12_3456))?, bench.random.stamp()));
    Ok(forms)
}

/// A receiver with the first blocks of a message.
fn sent(bench: &mut Bench, length: usize, held: usize) -> Result<History, String> {
    let own = bench.random.address();
    let message = bench.random.octets(length);
    let mut history = good(History::fresh(own))?;
    let (sap, ns) = (bench.random.octet() & 15, bench.random.octet() & 7);
    good(full_header(length, sap, ns, own, bench.random.address()).and_then(|header| history.on_header(&header)))?;
    for n in 0..held {
        good(message_block(&message, n).and_then(|block| history.on_block(&block)))?;
    }
    Ok(history)
}

/// A random event over these octets, compared.
fn event_over(bench: &mut Bench, form: &[u8]) -> Check {
    let stamp = bench.random.stamp();
    let call = match bench.random.below(6) {
        0 => {
            let own = number(&form[5..8]);
            let header = full_header(bench.random.below(627), 1, 2, own, 3).unwrap_or([0; 12]);
            Call::OnHeader { stamp, header: header.into() }
        }
        1 => {
            let block = good(write_block(bench.random.octet() & 63, &bench.random.array()))?;
            Call::OnBlock { stamp, block: block.into() }
        }
        2 => Call::OnDatagram { stamp, datagram: Octets(bench.random.octets(53)) },
        _ => Call::OnEnd { stamp },
    };
    let line = bench.random.octets(LINE);
    bench.compare_over(&call, form, &line).map(|_| ())
}

/// The event must get 18 in the reference too: the condition is one of "Layout broken".
fn broken(bench: &mut Bench, what: &'static str, form: &[u8]) -> Check {
    bench.layouts.insert(what);
    let mut form = form.to_vec();
    with_checks(&mut form);
    let number = restore(None, &form).err();
    bench.check(number == Some(STORED_LAYOUT), || format!("the reference itself: {what} gets {number:?}"))?;
    for _ in 0..2 {
        event_over(bench, &form).map_err(|why| format!("{what}: {why}"))?;
    }
    Ok(())
}

fn broken_layouts(bench: &mut Bench) -> Check {
    for round in 0..bench.rounds(60).max(6) {
        let events = bench.random.below(60);
        let history = match round % 6 {
            0 => some_history(bench, 0)?,
            1 => sent(bench, 300, 12)?,
            2 => sent(bench, 10 * round, round + 1)?,
            _ => some_history(bench, events)?,
        };
        let form = save(&history, bench.random.stamp());
        event_over(bench, &form)?;
        let change = |at: usize, value: u8| {
            let mut changed = form.clone();
            changed[at] = value;
            changed
        };
        // the octets that name form, block and stamp
        for at in [0, 1, 512, 513] {
            let value = bench.random.other_octet(form[at]);
            broken(bench, "octet 0 or 1", &change(at, value))?;
        }
        for at in [2, 3, 514, 515] {
            let value = bench.random.other_octet(form[at]);
            broken(bench, "unequal stamps", &change(at, value))?;
        }
        for phase in [3, 4, 128, 255] {
            broken(bench, "phase over 2", &change(4, phase))?;
        }
        let value = bench.random.other_octet(0);
        let at = 512 + 147 + bench.random.below(363);
        broken(bench, "behind the store", &change(at, value))?;
        // both stamps changed alike, and any addresses, are no fault
        let mut other = form.clone();
        let stamp: [u8; 2] = bench.random.array();
        other[2..4].copy_from_slice(&stamp);
        other[514..516].copy_from_slice(&stamp);
        other[5..8].copy_from_slice(&bench.random.array::<3>());
        with_checks(&mut other);
        event_over(bench, &other)?;
        let Some(t) = &history.present else {
            for at in [8, 11, 14, 15, 22, 23, 509, 516, 658, 8 + bench.random.below(502), 516 + bench.random.below(506)] {
                broken(bench, "phase 0 with an octet that is not zero", &change(at, value))?;
            }
            continue;
        };
        broken(bench, "phase 0 with a transaction", &change(4, 0))?;
        broken(bench, if t.complete { "phase 1 with all held" } else { "phase 2 with not all held" }, &change(4, 3 - form[4]))?;
        for (at, least) in [(11, 16), (12, 8), (13, 32), (14, 64)] {
            let over = least + bench.random.below(256 - usize::from(least)) as u8;
            for value in [least, over, 255] {
                broken(bench, "a field outside its width", &change(at, value))?;
            }
        }
        broken(bench, "no blocks", &change(14, 0))?;
        for n in t.blocks..64 {
            let at = 15 + usize::from(n) / 8;
            broken(bench, "a flag at B or above", &change(at, form[at] | 1 << (n % 8)))?;
        }
        let place = |octet: usize| if octet < 487 { 23 + octet } else { 516 + octet - 487 };
        let not_held = (0..STORE).filter(|octet| *octet / 10 >= t.blocks.into() || t.held((octet / 10) as u8).is_none());
        for octet in not_held.step_by(7) {
            broken(bench, "an octet of a block not held", &change(place(octet), value))?;
        }
        if t.complete {
            let octet = place(bench.random.below(10 * usize::from(t.blocks)));
            let value = bench.random.other_octet(form[octet]);
            broken(bench, "phase 2 with a bad message check", &change(octet, value))?;
        }
        edges(bench, t)?;
    }
    Ok(())
}

/// Transactions made without events: pads at the edge, all held, none held.
fn edges(bench: &mut Bench, t: &Transaction) -> Check {
    let own = bench.random.address();
    for blocks in [1, 2, 3, 4, 63] {
        let most = (10 * u32::from(blocks) - 4).min(31) as u8;
        for (pad, good_pad) in [(0, true), (most, true), (most + 1, false)] {
            for kind in 0..4 {
                let all: Vec<(u8, [u8; 10])> = (0..blocks).map(|n| (n, bench.random.array())).collect();
                let mut t = Transaction { pad, blocks, complete: kind > 1, kept: all, ..t.clone() };
                match kind {
                    // open: some held
                    0 => t.kept.retain(|(n, _)| n % 3 == 1),
                    // open: all held
                    1 => (),
                    // complete: a bad message check; a good one
                    2 => t.kept[0].1[0] ^= u8::from(message_is_good(&t.octets())),
                    _ => {
                        let last = usize::from(blocks) - 1;
                        let octets = t.octets();
                        let check = crate::reference::codes::message_check_octets(&octets[..octets.len() - 4]);
                        t.kept[last].1[6..].copy_from_slice(&check);
                    }
                }
                let well = good_pad && matches!(kind, 0 | 3);
                let form = save(&History { own, present: Some(t) }, bench.random.stamp());
                let number = restore(None, &form).err();
                let expected = (!well).then_some(STORED_LAYOUT);
                bench.check(number == expected, || format!("the reference itself: B {blocks}, pad {pad}, kind {kind}: {number:?}"))?;
                event_over(bench, &form)?;
                bench.layouts.extend((!good_pad).then_some("pad over 10B - 4"));
            }
        }
    }
    // flags alone, over a store of zeros: blocks of zeros are held
    let flags = flag_octets(|n| n < t.blocks && n % 2 == 0);
    let mut form = save(&History { own, present: Some(Transaction { kept: vec![], complete: false, ..t.clone() }) }, 7);
    form[15..23].copy_from_slice(&flags);
    with_checks(&mut form);
    event_over(bench, &form)
}

/// Stored forms and answers of wrong sizes.
fn sizes(bench: &mut Bench) -> Check {
    let history = sent(bench, 50, 3)?;
    let form = save(&history, 1);
    let block = good(write_block(0, &[0; 10]))?;
    let header = good(partial_header(50, 1, 1, 1, history.own, 1))?;
    let stamp = 2;
    for call in [
        Call::OnEnd { stamp },
        Call::OnBlock { stamp, block: block.into() },
        Call::OnHeader { stamp, header: header.into() },
        Call::OnDatagram { stamp, datagram: [0; 53].into() },
    ] {
        for size in (0..=64).chain([512, 1022, 1023, 1025, 1026, 1027, 2048, 65_536]) {
            let mut other = form.clone();
            other.resize(size, 0);
            let line = bench.random.octets(LINE);
            bench.compare_over(&call, &other, &line)?;
            let line = bench.random.octets(size);
            if size != LINE {
                bench.compare_over(&call, &form, &line)?;
                bench.compare_over(&call, &other, &line)?;
            }
        }
    }
    // no stored form, and an answer of a wrong size: 1 is first
    for at in [4, 600] {
        let mut bad = form.clone();
        bad[at] ^= 0x80;
        bench.compare_over(&Call::OnEnd { stamp }, &bad, &[0; 1026])?;
        with_checks(&mut bad);
        bench.compare_over(&Call::OnEnd { stamp }, &bad, &[0; 1028])?;
    }
    for size in (0..=64).chain([1024, 65_536]) {
        let octets = Octets(bench.random.octets(size));
        let line = bench.random.octets(LINE);
        bench.compare_over(&Call::OnBlock { stamp, block: octets.clone() }, &form, &line)?;
        bench.compare_over(&Call::OnHeader { stamp, header: octets.clone() }, &form, &line)?;
        bench.compare_over(&Call::OnDatagram { stamp, datagram: octets }, &form, &line)?;
    }
    Ok(())
}

/// One block of the form before an event and one of the form after it: 18 if the stamps differ. If they are equal, a form that counts a
/// block as held whose octets were not written is taken for a good one.
fn torn(bench: &mut Bench) -> Check {
    for held in 0..62 {
        let history = sent(bench, 620, held)?;
        let mut next = history.clone();
        good(write_block(held as u8, &bench.random.array()).and_then(|block| next.on_block(&block)))?;
        let stamp = bench.random.stamp();
        for other in [stamp.wrapping_add(1), stamp] {
            let (before, after) = (save(&history, stamp), save(&next, other));
            for (first, second, taken) in [(&after, &before, true), (&before, &after, held < 48)] {
                let form = [&first[..HALF], &second[HALF..]].concat();
                let expected = if stamp == other && taken { 0 } else { STORED_LAYOUT };
                let left = bench.compare_over(&Call::OnEnd { stamp }, &form, &[0; LINE])?;
                let case = || format!("a form torn at block {held}, stamps {stamp} and {other}: {}", left.result);
                bench.check(left.result == u32::from(expected), case)?;
            }
        }
    }
    Ok(())
}

/// A stored form that is none, together with a fault of the event: 1 for every size comes first, then 17 or 18, then the event's own
/// numbers.
fn two_faults(bench: &mut Bench) -> Check {
    let good_form = save(&sent(bench, 50, 3)?, 1);
    for form_number in [STORED_CHECK, STORED_LAYOUT] {
        let mut form = good_form.clone();
        form[0] = 9;
        if form_number == STORED_LAYOUT {
            with_checks(&mut form);
        }
        let stamp = bench.random.stamp();
        for size in (0..=64).chain([1024, 65_536]) {
            let octets = Octets(bench.random.octets(size));
            let number = |right: usize| if size == right { form_number } else { SIZE };
            refused_with(bench, &Call::OnHeader { stamp, header: octets.clone() }, &form, number(12))?;
            refused_with(bench, &Call::OnBlock { stamp, block: octets.clone() }, &form, number(12))?;
            refused_with(bench, &Call::OnDatagram { stamp, datagram: octets }, &form, number(53))?;
        }
        for number in PREFIX..=RESERVED {
            let call = Call::OnDatagram { stamp, datagram: refused_datagram(bench, number).into() };
            refused_with(bench, &call, &good_form, number)?;
            refused_with(bench, &call, &form, form_number)?;
        }
    }
    Ok(())
}

/// The event gets this number from the reference too.
fn refused_with(bench: &mut Bench, call: &Call, form: &[u8], number: u8) -> Check {
    let line = bench.random.octets(LINE);
    let result = bench.compare_over(call, form, &line)?.result;
    bench.check(result == number.into(), || format!("the reference itself: {call:?} gets {result}, not {number}"))
}

/// A datagram that is refused with this number, 2 to 7.
fn refused_datagram(bench: &mut Bench, number: u8) -> Vec<u8> {
    loop {
        let mut datagram = in_datagram(bench, &Event::End);
        if datagram.len() == 53 {
            damage_datagram(bench, &mut datagram);
        }
        if read_datagram(&datagram).err() == Some(number) {
            return datagram;
        }
    }
}
