//! The benchmark: `bench GATEWAY REPLAY BASELINE FOLDER`. `run` beside this file builds all and starts it.
//!
//! Environment: ROUNDS (60), DATAGRAMS (1000000), RECORDS (20000), RUNS (5, of each program).

#![allow(dead_code)]

mod children;
#[cfg(dsdcc)]
mod dsdcc;
mod fast;
mod inputs;
mod instructions;
mod library;
mod measures;
mod plain;
mod receiver;
#[path = "../tests"]
mod second {
    pub mod random;
    pub mod reference;
}
mod timing;

use std::time::Duration;

fn setting(name: &str, usual: usize) -> usize {
    std::env::var(name).map_or(usual, |text| text.parse().unwrap_or_else(|_| panic!("{name} is a number")))
}

fn main() {
    let paths: Vec<String> = std::env::args().skip(1).collect();
    let [gateway, replay, baseline, folder] = &paths[..] else {
        panic!("bench GATEWAY REPLAY BASELINE FOLDER");
    };
    let plan = timing::Plan { rounds: setting("ROUNDS", 60).max(1), turn: Duration::from_micros(500) };
    let mut aims = measures::codes(&plan);
    #[cfg(dsdcc)]
    aims.push(dsdcc::measure(&plan));
    #[cfg(not(dsdcc))]
    println!("\nbeside DSDcc: skipped, its headers (Debian: libdsdcc-dev) or g++ were not found");
    aims.extend(measures::events(&plan));
    let children = children::Children {
        gateway: gateway.into(),
        replay: replay.into(),
        baseline: baseline.into(),
        folder: folder.into(),
        datagrams: setting("DATAGRAMS", 1_000_000).max(10),
        records: setting("RECORDS", 20_000).max(20),
        rounds: setting("RUNS", 5).max(1),
    };
    aims.extend(children.measure());
    aims.push(instructions::measure(&children.gateway, &children.replay, &children.baseline, &children.folder));
    println!("\n{:<72}{:>9}   aim", "aims", "ratio");
    aims.iter().for_each(timing::Aim::print);
}
