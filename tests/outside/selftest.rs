//! The tests can fail: each mistake of the reference, put in the library's and the programs' place, must be found.

use super::bench::{Bench, Check};
use super::interface::Model;
use super::programs::ModelRunner;
use super::{coverage, sections, PROGRAM_SECTIONS, SECTIONS};
use crate::reference::wrong::{Wrong, OF_LIBRARY, OF_PROGRAMS};

/// Part of the whole run that is enough to find every mistake, in percent.
const SHARE: usize = 4;

pub fn self_test(seed: u64) -> Check {
    let found = |wrong: Wrong, which: &[&'static str]| -> Option<&'static str> {
        let model = Model(wrong);
        which.iter().copied().find(|&section| {
            let mut bench = Bench::new(&model, seed, SHARE);
            sections(&mut bench, &ModelRunner(wrong), &[section]).is_err()
        })
    };
    // a mistake of the programs alone is looked for where they are run
    let of_programs = OF_PROGRAMS.map(|wrong| (wrong, &PROGRAM_SECTIONS[..]));
    for (wrong, which) in OF_LIBRARY.map(|wrong| (wrong, &SECTIONS[..])).into_iter().chain(of_programs) {
        match found(wrong, which) {
            Some(section) => println!("self-test: {wrong:?} is found by {section}"),
            None => return Err(format!("the mistake {wrong:?} is not found")),
        }
    }
    // the reference without a mistake is not blamed, and a run in which nothing occurs is not taken for a whole one
    let model = Model(Wrong::Nothing);
    let mut bench = Bench::new(&model, seed, SHARE);
    if coverage(&mut bench).is_ok() {
        return Err("an empty run is taken for a whole one".into());
    }
    sections(&mut bench, &ModelRunner(Wrong::Nothing), &SECTIONS)?;
    println!("self-test: {} mistakes found, {} checks of the reference against itself", OF_LIBRARY.len() + OF_PROGRAMS.len(), bench.checks);
    Ok(())
}
