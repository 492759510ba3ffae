//! The stored form of a history state, and what restoring says of any octets.

use super::codes::header_check;
use super::history::{flag_octets, History, Transaction};
use super::packet::message_is_good;
use super::wrong::{wrong, Wrong};
use super::*;

pub const FORM: usize = 1024;
pub const HALF: usize = 512;

/// Put the check behind each block's 510 octets.
pub fn with_checks(form: &mut [u8]) {
    for block in form.chunks_mut(HALF) {
        let check = header_check(0, &block[..510]);
        block[510..].copy_from_slice(&check.to_be_bytes());
    }
}

/// The 1,024 octets of the state.
pub fn save(history: &History, stamp: u16) -> Vec<u8> {
    let mut store = [0; STORE];
    let mut first = vec![1, 0];
    first.extend(stamp.to_be_bytes());
    match &history.present {
        None => {
            first.push(0);
            first.extend(address(history.own));
            first.extend([0; 15]);
        }
        Some(t) => {
            first.push(if t.complete { 2 } else { 1 });
            first.extend(address(history.own));
            first.extend(address(t.source));
            first.extend([t.sap, t.ns, t.pad, t.blocks]);
            first.extend(flag_octets(|n| n < t.blocks && t.held(n).is_some()));
            let octets = t.octets();
            store[..octets.len()].copy_from_slice(&octets);
        }
    }
    first.extend(&store[..487]);
    let mut second = vec![1, 1];
    second.extend(stamp.to_be_bytes());
    second.extend(&store[487..]);
    first.resize(HALF, 0);
    second.resize(HALF, 0);
    let mut form = [first, second].concat();
    with_checks(&mut form);
    form
}

/// The state in the octets, for a receiver of this address; or, without an address, for the one that the octets name.
pub fn restore(own: Option<u32>, form: &[u8]) -> Answer<History> {
    refuse_if(form.len() != FORM || own.is_some_and(too_wide), SIZE)?;
    let (first, second) = form.split_at(HALF);
    for block in [first, second] {
        refuse_if(header_check(0, &block[..510]).to_be_bytes() != block[510..], STORED_CHECK)?;
    }
    let layout = |good: bool| refuse_if(!good, STORED_LAYOUT);
    layout(first[0] == 1 && second[0] == 1 && first[1] == 0 && second[1] == 1)?;
    layout(first[2..4] == second[2..4] || wrong(Wrong::StampsNotCompared))?;
    layout(second[147..510].iter().all(|&octet| octet == 0))?;
    let (phase, address) = (first[4], number(&first[5..8]));
    let store = [&first[23..510], &second[4..147]].concat();
    let present = match phase {
        0 => {
            layout(first[8..510].iter().chain(&store).all(|&octet| octet == 0))?;
            None
        }
        1 | 2 => Some(restore_transaction(phase == 2, &first[8..23], &store)?),
        _ => return Err(STORED_LAYOUT),
    };
    refuse_if(own.is_some_and(|own| own != address), STORED_ADDRESS)?;
    Ok(History { own: address, present })
}

/// The transaction of phase 1 or 2: source (3), SAP, N(S), pad, B, flags (8), and the store.
fn restore_transaction(complete: bool, octets: &[u8], store: &[u8]) -> Answer<Transaction> {
    let layout = |good: bool| refuse_if(!good, STORED_LAYOUT);
    let (source, sap, ns, pad, blocks) = (number(&octets[..3]), octets[3], octets[4], octets[5], octets[6]);
    layout(sap < 16 && ns < 8 && pad < 32 && blocks >= 1 && usize::from(blocks) <= MOST_BLOCKS)?;
    layout(u32::from(pad) <= 10 * u32::from(blocks) - 4)?;
    let flag = |n: u8| octets[7 + usize::from(n) / 8] >> (n % 8) & 1 == 1;
    layout((blocks..64).all(|n| !flag(n)))?;
    // a block that is held is in the list; the octets of any other are zero
    let mut t = Transaction { source, sap, ns, pad, blocks, complete, kept: Vec::new() };
    for (n, data) in store.chunks(10).enumerate() {
        let n = n as u8;
        if flag(n) {
            t.kept.push((n, sized(data)?));
        } else {
            layout(data.iter().all(|&octet| octet == 0) || wrong(Wrong::StoreNotTested))?;
        }
    }
    layout(t.all_held() == complete)?;
    layout(!complete || message_is_good(&t.octets()))?;
    if wrong(Wrong::PhaseNotRestored) {
        t.complete = false;
    }
    Ok(t)
}
