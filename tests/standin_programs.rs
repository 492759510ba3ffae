//! A stand-in for the programs, made of the reference. A program is chosen by the name it is called by.
//!
//! Without the start of Rust's library, which opens another file in the place of a standard one that is closed.

#![no_main]
#![allow(dead_code)]

mod reference;

use reference::programs::{run, Program};
use std::fs::File;
use std::io::{BufReader, LineWriter};
use std::os::fd::FromRawFd;

/// The program that is called by this name.
fn called(name: &str) -> Option<Program> {
    Program::ALL.into_iter().find(|program| name.rsplit('/').next() == Some(program.name()))
}

#[no_mangle]
pub extern "C" fn main(_: i32, _: *const *const u8) -> i32 {
    let mut arguments = std::env::args_os();
    let name = arguments.next().unwrap_or_default();
    // the descriptors are used here alone; std's own handles take a closed one for one that is empty
    let [from, to, mut says] = [0, 1, 2].map(|descriptor| unsafe { File::from_raw_fd(descriptor) });
    let Some(program) = called(&name.to_string_lossy()) else { return 1 };
    run(program, arguments.count(), &mut BufReader::new(from), &mut LineWriter::new(to), &mut says);
    0
}
