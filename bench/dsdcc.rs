//! The library's readers beside the decoders of DSDcc, on the same words.

use super::fast::Fast;
use super::inputs::{field, slot_word};
use super::library;
use super::receiver::Codes;
use super::second::random::Random;
use super::timing::{best, version, Aim, Plan, Version};
use std::hint::black_box;

extern "C" {
    fn dsdcc_hamming(bits: *mut u8, data: *mut u8, words: usize) -> bool;
    fn dsdcc_golay(bits: *mut u8) -> bool;
}

const WORDS: usize = 28;

/// The 15 columns of a field, two zeros before each, and its 13 rows: 28 words of 15 bits, an octet for each bit.
fn words(field: &[u8; 25]) -> [u8; 15 * WORDS] {
    let bit = |r: usize, c: usize| {
        let q = 181 * (1 + 15 * r + c) % 196;
        field[q / 8] >> (7 - q % 8) & 1
    };
    std::array::from_fn(|i| match (i / 15, i % 15) {
        (c, k) if c < 15 => {
            if k < 2 {
                0
            } else {
                bit(k - 2, c)
            }
        }
        (n, c) => bit(n - 15, c),
    })
}

/// 28 decodes: the words are put right in place.
fn hamming(words: &mut [u8; 15 * WORDS], data: &mut [u8; 11 * WORDS]) {
    unsafe { dsdcc_hamming(words.as_mut_ptr(), data.as_mut_ptr(), WORDS) };
}

/// 28 decodes of each; wrong bits have to be put back before, in a copy.
fn hamming_over(unpacked: &[[u8; 15 * WORDS]], copied: bool) -> Version<'_> {
    let mut words = unpacked.to_vec();
    let mut data = [0; 11 * WORDS];
    version("DSDcc", move || {
        for (to, from) in words.iter_mut().zip(unpacked) {
            if copied {
                *to = *from;
            }
            hamming(black_box(to), &mut data);
            black_box(&data);
        }
    })
}

fn golay(bits: &[u8; 20]) -> Option<u8> {
    let mut bits = *bits;
    let good = unsafe { dsdcc_golay(bits.as_mut_ptr()) };
    good.then(|| bits[..8].iter().fold(0, |d, bit| d << 1 | bit))
}

fn over<'a, I, O>(name: &'static str, inputs: &'a [I], f: impl Fn(&I) -> O + 'a) -> Version<'a> {
    version(name, move || inputs.iter().for_each(|i| drop(black_box(f(black_box(i))))))
}

/// The line of the library, the fast version and DSDcc; gives the library's time by DSDcc's.
fn line(plan: &Plan, what: &str, mut versions: Vec<Version>) -> f64 {
    let least = best(plan, 64, &mut versions);
    let figures: String = least.iter().map(|ns| format!("{ns:>11.1}")).collect();
    println!("{what:<44}{figures}{:>11.2}{:>10.2}", least[0] / least[2], least[1] / least[2]);
    least[0] / least[2]
}

pub fn measure(plan: &Plan) -> Aim {
    println!("\n{:<44}{:>11}{:>11}{:>11}{:>11}{:>10}", "beside DSDcc, ns each", "library", "fast", "DSDcc", "lib/DSDcc", "fast/D.");
    let mut random = Random(4);
    let mut most: f64 = 0.0;
    for (what, columns) in [("block field, 28 Hamming, no wrong bit", 0), ("block field, 28 Hamming, a wrong bit a column", 15)] {
        let fields: Vec<_> = (0..64).map(|_| field(&mut random, columns, false)).collect();
        let unpacked: Vec<_> = fields.iter().map(words).collect();
        for (f, w) in fields.iter().zip(&unpacked) {
            let info = library::read_field(f).expect("correctable");
            let right = words(&Fast::write_field(&info));
            let mut bits = *w;
            hamming(&mut bits, &mut [0; 11 * WORDS]);
            assert!(bits[..15 * 15] == right[..15 * 15], "{what}: DSDcc puts right other bits of a column");
        }
        let versions = vec![over("library", &fields, library::read_field), over("fast", &fields, Fast::read_field)];
        most = most.max(line(plan, what, versions.into_iter().chain([hamming_over(&unpacked, columns > 0)]).collect()));
    }
    for (what, parity, data) in [("slot type, no wrong bit", 0, 0), ("slot type, 3 wrong, 2 of them data", 1, 2)] {
        let words: Vec<u32> = (0..64).map(|_| slot_word(&mut random, parity, data)).collect();
        let unpacked: Vec<[u8; 20]> = words.iter().map(|w| std::array::from_fn(|i| (w >> (19 - i) & 1) as u8)).collect();
        for (w, bits) in words.iter().zip(&unpacked) {
            assert_eq!(golay(bits), library::read_slot_type(*w).ok(), "{what}: DSDcc reads {w:x} otherwise");
        }
        let library = over("library", &words, |w| library::read_slot_type(*w));
        line(plan, what, vec![library, over("fast", &words, |w| Fast::read_slot_type(*w)), over("DSDcc", &unpacked, golay)]);
    }
    Aim { what: "block field read by 28 of DSDcc's Hamming decodes", aim: "below 1", ratio: Some(most) }
}
