//! The paper's worked examples, a published burst, and round trips, as checks of the reference itself.

use super::burst::*;
use super::codes::*;
use super::history::*;
use super::packet::*;
use super::programs::{printed, Program};
use super::stored::*;
use super::*;

/// Annex D's idle burst, as open decoders carry it: its slot type is left blank (20 zeros, which is the codeword of data 00), and its
/// block field reads with no bit put right.
pub const IDLE_BURST: &str = "53C25EABA8671DC7383BD936000DFF57D75DF5D003F6E465171B48CA6D4FC610B4";
pub const IDLE_INFO: &str = "FF83DF1732094ED1E7CD8A91";

pub fn from_hex(text: &str) -> Vec<u8> {
    (0..text.len() / 2).map(|i| u8::from_str_radix(&text[2 * i..2 * i + 2], 16).expect("hexadecimal")).collect()
}

/// The number of checks made, or the first that fails.
pub fn examples() -> Result<u64, String> {
    let mut made = 0;
    let mut check = |what: &str, good: bool| {
        made += 1;
        good.then_some(()).ok_or_else(|| format!("the reference fails the paper's example: {what}"))
    };

    for (data, parity) in [(0x01, 0x8EB), (0x02, 0x93E), (0x16, 0x0CE)] {
        check("slot types", write_slot_type(data) == u32::from(data) << 12 | parity)?;
    }
    let one = |length: usize, at: usize| (0..length).map(|i| i == at).collect::<Vec<bool>>();
    check("eleven data bits, the first", value(&parity(&one(11, 0))) == 0b1001)?;
    check("eleven data bits, the last", value(&parity(&one(11, 10))) == 0b0011)?;
    check("nine data bits, the first", value(&parity(&one(9, 0))) == 0b1111)?;
    check("plain positions", [1, 2, 3].map(sent_position) == [181, 166, 151])?;
    let last = plain_field([false; 3], &[0, 0, 0, 0, 0, 0, 0, 0, 0, 0, 0, 1]);
    let ones: Vec<usize> = (0..FIELD_BITS).filter(|&i| last[i]).collect();
    check("96 bits, the last", ones == [131, 134, 135, 176, 179, 180, 191, 194, 195])?;
    check("ten zero header octets", header_check(HEADER_MASK, &[0; 10]) == 0x3333)?;
    check("serial 0 with ten zero octets", block_check(0, &[0; 10]) == 0x10F)?;
    for (length, blocks, pad) in [(0, 1, 6), (6, 1, 0), (7, 2, 9), (626, 63, 0)] {
        check("(L, B, pad)", message_size(length) == Ok((blocks, pad)))?;
    }
    check("L = 627", message_size(627) == Err(WRITER))?;
    for (reply, nine) in [(ACK, 0x0D), (NACK, 0x4D), (SACK, 0x85)] {
        check("N(S) 5", write_response(reply, 0, 5, 0, 0, &[0; 8]).is_ok_and(|(header, _)| header[9] == nine))?;
    }

    // B = 3, only block 1 missing
    let mut history = History { own: 7, present: None };
    let message = [5; 20];
    check("opens", history.on_header(&full_header(20, 1, 5, 7, 9).unwrap_or([0; 12])) == Ok(Given::Opened))?;
    for n in [2, 0] {
        check("stores", history.on_block(&message_block(&message, n).unwrap_or([0; 12])) == Ok(Given::Stored))?;
    }
    let Ok(Given::Response((header, Some(block)))) = history.on_end() else {
        return Err("the reference gives no SACK".into());
    };
    check("B = 3, block 1 missing", block[..8] == [0xFD, 0xFF, 0xFF, 0xFF, 0xFF, 0xFF, 0xFF, 0xFF])?;
    check("its SACK reads back", read_response(&header, &block).is_ok_and(|(_, flags)| flags == sized(&block[..8]).ok()))?;

    // stored forms: the three phases, and another address
    for n in [None, Some(1), Some(1)] {
        if let Some(n) = n {
            let given = history.on_block(&message_block(&message, n).unwrap_or([0; 12]));
            check("hands on once", given == Ok(Given::HandedOn(message.to_vec())) || given == Err(NO_TRANSACTION))?;
        }
        let form = save(&history, 0x1234);
        check("saves", form.len() == FORM && form[2..4] == [0x12, 0x34])?;
        check("restores", restore(Some(7), &form).is_ok_and(|restored| save(&restored, 0x1234) == form))?;
        check("stored for another address", restore(Some(8), &form) == Err(STORED_ADDRESS))?;
        check("no address", restore(Some(1 << 24), &form) == Err(SIZE))?;
        check("no form", restore(Some(7), &form[1..]) == Err(SIZE))?;
    }

    // four wrong bits in a slot type, all of them; up to three come back
    for word in (0..1_u32 << 20).filter(|word| word.count_ones() <= 4) {
        let expected = if word.count_ones() == 4 { Err(SLOT_TYPE) } else { Ok(0x16) };
        check("wrong bits in a slot type", read_slot_type(write_slot_type(0x16) ^ word) == expected)?;
    }

    let zeros = |n| printed(Program::Gateway, &vec![0; n]);
    check("address and 53 zero octets", zeros(56) == "0 2\nend 1 0 1\n")?;
    check("under three octets", zeros(2) == "end 0 0 0\n" && zeros(3) == "end 0 0 0\n")?;

    let idle: [u8; 33] = sized(&from_hex(IDLE_BURST)).unwrap_or([0; 33]);
    let (word, field) = parts(&idle);
    check("the idle burst's slot type", word == 0 && read_slot_type(word) == Ok(0))?;
    check("the idle burst's field", read_field(&field).is_ok_and(|info| info[..] == from_hex(IDLE_INFO) && write_field(&info) == field))?;
    check("the idle burst", read_burst(&idle) == Err(DATA_TYPE))?;
    Ok(made)
}
