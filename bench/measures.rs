//! The measures of the library inside this process. Each compares the outputs of all versions first.

use super::fast::Fast;
use super::inputs::*;
use super::library;
use super::plain::Plain;
use super::receiver::{on_form, read_datagram, Codes, Receiver};
use super::second::random::Random;
use super::second::reference::{self, bits_of, octets_of};
use super::timing::{head, measure, ratio, version, Aim, Plan, Version};
use reference::history::{Given, History};
use std::fmt::Debug;
use std::hint::black_box;

const MANY: usize = 256;

/// A function of one input, in four versions. Gives the library's time by the fast version's.
fn of_inputs<I, O: PartialEq + Debug>(
    plan: &Plan,
    what: &str,
    inputs: &[I],
    library: impl Fn(&I) -> O,
    plain: impl Fn(&I) -> O,
    fast: impl Fn(&I) -> O,
    reference: impl Fn(&I) -> O,
) -> Option<f64> {
    for input in inputs {
        let right = reference(input);
        assert_eq!(library(input), right, "{what}: the library and the reference differ");
        assert_eq!(plain(input), right, "{what}: the plain version and the reference differ");
        assert_eq!(fast(input), right, "{what}: the fast version and the reference differ");
    }
    let versions = vec![over("library", inputs, library), over("plain", inputs, plain), over("fast", inputs, fast)];
    by_fast(measure(plan, what, inputs.len(), versions.into_iter().chain([over("reference", inputs, reference)]).collect()))
}

/// The library's time by the fast version's.
fn by_fast([library, _, fast, _]: [Option<f64>; 4]) -> Option<f64> {
    ratio(library, fast)
}

fn over<'a, I, O>(name: &'static str, inputs: &'a [I], f: impl Fn(&I) -> O + 'a) -> Version<'a> {
    version(name, move || {
        for input in inputs {
            black_box(f(black_box(input)));
        }
    })
}

fn reference_datagram(d: &[u8; 53]) -> (u8, [u8; 31]) {
    let mut out = [0; 31];
    match reference::burst::read_datagram(d) {
        Err(number) => (number, out),
        Ok((l, b)) => {
            let labels = [
                &[l.sequence][..],
                &reference::address(l.source),
                &reference::address(l.target),
                &l.repeater.to_be_bytes(),
                &[l.timeslot, l.call_type],
                &l.stream.to_be_bytes(),
            ];
            out.copy_from_slice(&[&labels.concat()[..], &[b.colour, b.data_type], &b.info].concat());
            (0, out)
        }
    }
}

fn into<const N: usize>(read: impl Fn(&mut [u8; N]) -> u8) -> (u8, [u8; N]) {
    let mut out = [0; N];
    (read(&mut out), out)
}

fn make<T>(f: impl FnMut(&mut Random) -> T) -> Vec<T> {
    let mut f = f;
    let mut random = Random(1);
    (0..MANY).map(|_| f(&mut random)).collect()
}

pub fn codes(plan: &Plan) -> Vec<Aim> {
    head("codes and readers", "ns each");
    for (what, parity, data) in [
        ("slot type read, no wrong bit", 0, 0),
        ("slot type read, data bits right, 3 wrong", 3, 0),
        ("slot type read, data bits wrong, 1 to 3", 0, 1),
        ("slot type read, no codeword near", 1, 3),
    ] {
        let words = make(|random| loop {
            let (more, fewer) = if parity == 0 && data == 1 { (random.below(2), random.below(2)) } else { (0, 0) };
            let word = slot_word(random, parity + more, data + fewer);
            if (parity + data > 3) == reference::codes::read_slot_type(word).is_err() {
                return word;
            }
        });
        let reference = |w: &u32| reference::codes::read_slot_type(*w);
        let (plain, fast) = (|w: &u32| Plain::read_slot_type(*w), |w: &u32| Fast::read_slot_type(*w));
        of_inputs(plan, what, &words, |w| library::read_slot_type(*w), plain, fast, reference);
    }
    let mut read = Vec::new();
    for (what, columns, deep) in [
        ("block field read, no wrong bit", 0, false),
        ("block field read, a wrong bit in each column", 15, false),
        ("block field read, and more in one of them", 14, true),
    ] {
        let fields = make(|random| field(random, columns, deep));
        let reference = |f: &[u8; 25]| reference::codes::read_field(&bits_of(f)[..196]);
        read.push(of_inputs(plan, what, &fields, library::read_field, Plain::read_field, Fast::read_field, reference));
    }
    let worst = read[1].zip(read[2]).map(|(one, more)| one.max(more));
    let infos = make(|random| random.array::<12>());
    let reference = |info: &[u8; 12]| octets_of(&reference::codes::write_field(info)).try_into().expect("25 octets");
    let written = of_inputs(plan, "block field write", &infos, library::write_field, Plain::write_field, Fast::write_field, reference);

    let tens = make(|random| random.array::<10>());
    let library = |o: &[u8; 10]| library::header_check(0xCCCC, o);
    let reference = |o: &[u8; 10]| reference::codes::header_check(0xCCCC, o);
    let (plain, fast) = (|o: &[u8; 10]| Plain::header_check(0xCCCC, o), |o: &[u8; 10]| Fast::header_check(0xCCCC, o));
    of_inputs(plan, "header check, 10 octets", &tens, library, plain, fast, reference);
    let halves = &make(|random| random.array::<510>())[..32];
    let library = |o: &[u8; 510]| library::header_check(0, o);
    let reference = |o: &[u8; 510]| reference::codes::header_check(0, o);
    let (plain, fast) = (|o: &[u8; 510]| Plain::header_check(0, o), |o: &[u8; 510]| Fast::header_check(0, o));
    let stored = of_inputs(plan, "stored block's check, 510 octets", halves, library, plain, fast, reference);
    let library = |o: &[u8; 10]| library::block_check(o[0] & 127, o);
    let reference = |o: &[u8; 10]| reference::codes::block_check(o[0] & 127, o);
    let (plain, fast) = (|o: &[u8; 10]| Plain::block_check(o[0] & 127, o), |o: &[u8; 10]| Fast::block_check(o[0] & 127, o));
    let block = of_inputs(plan, "block check, 10 octets and serial", &tens, library, plain, fast, reference);
    let messages = &make(|random| random.array::<626>())[..32];
    let reference = |o: &[u8; 626]| reference::codes::message_check(o);
    let (plain, fast) = (|o: &[u8; 626]| Plain::message_check(o), |o: &[u8; 626]| Fast::message_check(o));
    let message = of_inputs(plan, "message check, 626 octets", messages, |o| library::message_check(o), plain, fast, reference);

    let mut sent = round(&mut Random(2));
    let library = |d: &[u8; 53]| into(|out| library::read_datagram(d, out));
    let plain = |d: &[u8; 53]| into(|out| read_datagram::<Plain>(d, out));
    let fast = |d: &[u8; 53]| into(|out| read_datagram::<Fast>(d, out));
    of_inputs(plan, "datagram read, no wrong bit", &sent, library, plain, fast, reference_datagram);
    for (i, d) in sent.iter_mut().enumerate() {
        flip(&mut d[20..], 98 + i % 8);
        flip(&mut d[20..], i % 98);
        flip(&mut d[20..], 166 + i % 98);
    }
    of_inputs(plan, "datagram read, a data bit and 2 field bits", &sent, library, plain, fast, reference_datagram);
    vec![
        Aim { what: "block field read, no wrong bit, library by fast", aim: "at most 2.5", ratio: read[0] },
        Aim { what: "block field read, the worse of the others, library by fast", aim: "at most 1.3", ratio: worst },
        Aim { what: "block field write, library by fast", aim: "at most 15", ratio: written },
        Aim { what: "stored block's check, library by fast", aim: "at most 1.5", ratio: stored },
        Aim { what: "block check, library by fast", aim: "at most 5", ratio: block },
        Aim { what: "message check, library by fast", aim: "at most 4", ratio: message },
    ]
}

// ---- events

type Form = [u8; 1024];
type Line = [u8; 1027];
type OnForm = fn(&mut Form, u16, &[u8], &mut Line) -> u8;

/// The event of the reference, on the stored form.
fn reference_on_form(form: &mut Form, stamp: u16, datagram: &[u8], line: &mut Line) -> u8 {
    let step = reference::stored::restore(None, form).and_then(|mut history| Ok((history.on_datagram(datagram)?, history)));
    match step {
        Err(number) => number,
        Ok((given, history)) => {
            form.copy_from_slice(&reference::stored::save(&history, stamp));
            let (code, contents) = match given {
                Given::Opened => (1, vec![]),
                Given::Repeat => (2, vec![]),
                Given::Stored => (3, vec![]),
                Given::Bad => (4, vec![]),
                Given::HandedOn(message) => (5, message),
                Given::Response(_) => unreachable!("no datagram is an end of attempt"),
            };
            *line = [0; 1027];
            line[0] = code;
            line[1..3].copy_from_slice(&(contents.len() as u16).to_be_bytes());
            line[3..3 + contents.len()].copy_from_slice(&contents);
            0
        }
    }
}

const ON_FORM: [(&str, OnForm); 4] =
    [("library", library::on_datagram), ("plain", on_form::<Plain>), ("fast", on_form::<Fast>), ("reference", reference_on_form)];

fn on_forms() -> &'static [(&'static str, OnForm)] {
    &ON_FORM[if library::EVENTS { 0 } else { 1 }..]
}

fn fresh_form() -> Form {
    let mut form = [0; 1024];
    Receiver::<Fast>::fresh(OWN).save(0, &mut form);
    if library::EVENTS {
        let mut other = [0; 1024];
        assert_eq!(library::fresh(OWN, 0, &mut other), 0, "a fresh receiver");
        assert!(form == other, "fresh: the library and the fast version differ");
    }
    form
}

/// The datagrams one after the other on stored forms of all versions, with each compared; the forms before each.
fn compared(datagrams: &[[u8; 53]]) -> Vec<Form> {
    let mut before = Vec::new();
    let (mut form, mut line) = (fresh_form(), [7; 1027]);
    for (i, d) in datagrams.iter().enumerate() {
        before.push(form);
        let old_line = line;
        let number = reference_on_form(&mut form, i as u16, d, &mut line);
        for (name, on) in on_forms() {
            let (mut f, mut l) = (before[i], old_line);
            assert_eq!(on(&mut f, i as u16, d, &mut l), number, "event {i}: {name} and the reference differ");
            assert!(f == form && l == line, "event {i}: {name} and the reference differ in the form or the line");
        }
    }
    before
}

/// The datagrams of a whole message of 626 octets.
const MESSAGE: usize = 64;

fn kept<'a, O>(name: &'static str, sent: &'a [[u8; 53]], mut on: impl FnMut(&[u8]) -> O + 'a) -> Version<'a> {
    let mut messages = sent.chunks(MESSAGE).cycle();
    version(name, move || messages.next().into_iter().flatten().for_each(|d| drop(black_box(on(black_box(d))))))
}

pub fn events(plan: &Plan) -> [Aim; 3] {
    head("events", "ns each");
    if !library::EVENTS {
        println!("skipped for the library: it has no kirruskabe_on_datagram");
    }
    let sent = &round(&mut Random(3))[..];
    let before = &compared(sent)[..];
    // a run is one message: each version goes round the eight
    let versions = on_forms().iter().map(|&(name, on)| {
        let (mut form, mut line) = (fresh_form(), [0; 1027]);
        let mut messages = sent.chunks(MESSAGE).cycle();
        version(name, move || {
            for d in messages.next().into_iter().flatten() {
                black_box(on(black_box(&mut form), 5, black_box(d), &mut line));
                black_box(&line);
            }
        })
    });
    let event = by_fast(measure(plan, "datagram to event, stored form", MESSAGE, versions.collect()));

    // datagram n + 1 of a message is block n
    let mut seen = Vec::new();
    for (what, n) in
        [("stored form, first block of 63", 0), ("stored form, 60th block of 63", 59), ("stored form, last block, handed on", 62)]
    {
        let versions = on_forms().iter().map(|&(name, on)| {
            let mut line = [0; 1027];
            version(name, move || {
                for k in (0..sent.len()).step_by(MESSAGE) {
                    let mut form = before[k + n + 1];
                    black_box(on(black_box(&mut form), 5, black_box(&sent[k + n + 1]), &mut line));
                    black_box((&form, &line));
                }
            })
        });
        seen.push(measure(plan, what, 8, versions.collect()));
    }

    let (mut plain, mut fast) = (Receiver::<Plain>::fresh(OWN), Receiver::<Fast>::fresh(OWN));
    let mut history = History { own: OWN, present: None };
    let versions = vec![
        kept("plain", sent, move |d| plain.on_datagram(d)),
        kept("fast", sent, move |d| fast.on_datagram(d)),
        kept("reference", sent, move |d| history.on_datagram(d)),
    ];
    measure(plan, "datagram to event, receiver kept in memory", MESSAGE, versions);
    [
        Aim { what: "datagram to event on the stored form, library by fast", aim: "at most 2", ratio: event },
        Aim { what: "stored form, last block, handed on, library by fast", aim: "at most 2.5", ratio: by_fast(seen[2]) },
        Aim { what: "60th block by first block, library", aim: "1", ratio: ratio(seen[1][0], seen[0][0]) },
    ]
}
