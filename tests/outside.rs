//! Outside tests: the library through its C interface and the programs as child processes, compared with the reference.
//!
//!     outside [--seed N] [--share PERCENT] [--self-test] GATEWAY REPLAY DELIVERED
//!
//! Ends with status 1 at the first difference. `run` beside this file builds and runs all.

#[path = "outside/bench.rs"]
mod bench;
#[path = "outside/captures.rs"]
mod captures;
#[path = "outside/children.rs"]
mod children;
#[path = "outside/codes.rs"]
mod codes;
#[path = "outside/events.rs"]
mod events;
#[path = "outside/formats.rs"]
mod formats;
#[path = "outside/forms.rs"]
mod forms;
#[path = "outside/interface.rs"]
mod interface;
#[path = "outside/library.rs"]
mod library;
#[path = "outside/programs.rs"]
mod programs;
mod random;
mod reference;
#[path = "outside/selftest.rs"]
mod selftest;
#[path = "outside/speaking.rs"]
mod speaking;

use bench::{Bench, Check};
use children::Children;
use programs::Runner;
use std::time::Instant;

/// The sections in their order; the programs are run in those of the second list alone.
const SECTIONS: [&str; 6] = ["codes", "formats", "events", "forms", "speaking", "programs"];
const PROGRAM_SECTIONS: [&str; 2] = ["speaking", "programs"];

/// Run these sections; the case of the first difference names its section.
fn sections(bench: &mut Bench, runner: &dyn Runner, which: &[&str]) -> Check {
    for &section in which {
        let result = match section {
            "codes" => codes::codes(bench),
            "formats" => formats::formats(bench),
            "events" => events::events(bench),
            "forms" => forms::forms(bench),
            "speaking" => speaking::speaking(bench, runner),
            _ => programs::programs(bench, runner),
        };
        result.map_err(|why| format!("{section}: {why}"))?;
    }
    Ok(())
}

/// Every answer, and every number of every function, did occur (asked of a run of at least half the whole). 19 cannot: each event
/// restores for the address that the stored form itself names, and a program restores its own receiver. The reference's own examples
/// ask for it.
fn coverage(bench: &mut Bench) -> Check {
    for answer in ["opened", "repeat", "stored", "bad", "handed on", "ACK", "NACK", "SACK"] {
        let often = bench.answers.get(answer).copied().unwrap_or(0);
        bench.check(often > 0, || format!("the answer {answer} never occurred"))?;
    }
    for layout in forms::LAYOUTS {
        let met = bench.layouts.contains(layout);
        bench.check(met, || format!("no stored form had its layout broken by: {layout}"))?;
    }
    for (name, numbers) in interface::FUNCTIONS {
        for &number in [0].iter().chain(numbers).filter(|_| !numbers.is_empty()) {
            let often = bench.numbers.get(&(name, number)).copied().unwrap_or(0);
            bench.check(often > 0, || format!("{name} never gave {number}"))?;
        }
    }
    Ok(())
}

struct Arguments {
    seed: u64,
    share: usize,
    self_test: bool,
    paths: Vec<String>,
}

fn arguments() -> Result<Arguments, String> {
    let mut found = Arguments { seed: 20_260, share: 100, self_test: false, paths: vec![] };
    let mut all = std::env::args().skip(1);
    while let Some(argument) = all.next() {
        let mut value = || all.next().and_then(|text| text.parse::<u64>().ok()).ok_or(format!("{argument} asks for a number"));
        match argument.as_str() {
            "--seed" => found.seed = value()?,
            "--share" => found.share = value()? as usize,
            "--self-test" => found.self_test = true,
            _ => found.paths.push(argument),
        }
    }
    Ok(found)
}

/// Run what the arguments ask for; the last line to print.
fn whole_run(arguments: &Arguments) -> Result<String, String> {
    let made = reference::examples::examples()?;
    if arguments.self_test {
        selftest::self_test(arguments.seed)?;
    }
    let [gateway, replay, delivered] = &arguments.paths[..] else {
        let alone = Ok("self-test passed; the library and the programs were not tested".into());
        return if arguments.self_test { alone } else { Err("the paths of gateway, replay and delivered are asked for".into()) };
    };
    let children = Children { gateway: gateway.clone(), replay: replay.clone(), delivered: delivered.clone() };
    let mut bench = Bench::new(&library::Library, arguments.seed, arguments.share);
    for section in SECTIONS {
        let (start, before) = (Instant::now(), bench.checks);
        sections(&mut bench, &children, &[section])?;
        println!("{section}: {} checks, {:.1} s", bench.checks - before, start.elapsed().as_secs_f32());
    }
    if arguments.share >= 50 {
        coverage(&mut bench)?;
    }
    let total = |name: &str| bench.numbers.iter().filter(|((n, _), _)| n.starts_with(name)).map(|(_, often)| often).sum::<u64>();
    println!("events: {} calls; answers {:?}", total("on_"), bench.answers);
    let rarest = bench.numbers.iter().filter(|((name, _), _)| name.starts_with("on_")).min_by_key(|(_, often)| **often);
    println!("rarest number of an event: {rarest:?}");
    for (point, met) in &bench.readings {
        println!("reading: {point}: {met}");
    }
    Ok(format!("outside tests: {} checks passed", made + bench.checks))
}

fn main() {
    let result = arguments().and_then(|arguments| whole_run(&arguments).map_err(|why| format!("seed {}: {why}", arguments.seed)));
    match result {
        Ok(last) => println!("{last}"),
        Err(why) => {
            eprintln!("outside tests: FAILED\n{why}");
            std::process::exit(1);
        }
    }
}
