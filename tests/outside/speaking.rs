//! What the programs say on standard error: how they are used, and why they stop before the end of their input.

use super::bench::{good, Bench, Check};
use super::captures::{parts, record};
use super::events::{in_datagram, Event};
use super::interface::Octets;
use super::programs::{Input, Output, Runner, Said, Setting};
use crate::reference::packet::{full_header, message_block};
use crate::reference::programs::{printed, Program};
use crate::reference::*;

const WITH_INPUT: [Program; 3] = [Program::Gateway, Program::Replay, Program::Delivered];

pub fn speaking(bench: &mut Bench, runner: &dyn Runner) -> Check {
    usage(bench, runner)?;
    unreadable(bench, runner)?;
    unwritable(bench, runner)?;
    // a run in which nothing is amiss is silent; those over inputs are seen to be so where their lines are compared
    let setting = Setting { arguments: &[], input: Input::File([].into()), output: Output::Kept };
    let said = ran(runner, Program::Vectors, &setting)?;
    bench.check(said.error.is_empty() && !said.output.is_empty(), || format!("Vectors prints {:?} and says {:?}", said.output, said.error))
}

fn ran(runner: &dyn Runner, program: Program, setting: &Setting) -> Result<Said, String> {
    runner.run_in(program, setting).map_err(|why| format!("{program:?} in {setting:?}: {why}"))
}

/// An address and one message, of one block, for which every program has a line.
fn one_message(bench: &mut Bench, program: Program) -> Result<Vec<u8>, String> {
    let own = bench.random.address();
    let message = bench.random.octets(6);
    let header = good(full_header(6, 4, 1, own, bench.random.address()))?.to_vec();
    let block = good(message_block(&message, 0))?.to_vec();
    let mut input = address(own).to_vec();
    if program == Program::Replay {
        input.extend([record(0, &header), record(1, &block)].concat());
        return Ok(input);
    }
    for event in [Event::Header(header), Event::Block(block)] {
        // a datagram that is damaged too much is made again
        let datagram = std::iter::repeat_with(|| in_datagram(bench, &event)).find(|octets| burst::read_datagram(octets).is_ok());
        input.extend(datagram.unwrap_or_default());
    }
    Ok(input)
}

/// One line on standard error that is as asked for, and these lines before it.
fn spoke(bench: &mut Bench, program: Program, setting: &Setting, said: &Said, lines: &str, asked: impl Fn(&str) -> bool) -> Check {
    let case = |what: String| format!("{program:?} in {setting:?}: {what}");
    let line = said.error.strip_suffix('\n').filter(|line| !line.contains('\n'));
    bench.check(line.is_some_and(asked), || case(format!("says {:?} on standard error", said.error)))?;
    bench.check(said.output == lines, || case(format!("prints {:?}, expected {lines:?}", said.output)))
}

/// With any argument a program says how it is used, and reads and prints nothing.
fn usage(bench: &mut Bench, runner: &dyn Runner) -> Check {
    let long = "x".repeat(5000);
    for program in Program::ALL {
        let octets = one_message(bench, program)?;
        let begin = format!("usage: {}", program.name());
        let asked = |line: &str| line.strip_prefix(&begin).is_some_and(|rest| rest.is_empty() || rest.starts_with(' '));
        for arguments in [&["--help"][..], &["-h"], &["x"], &[""], &["--help", "x"], &["/dev/null"], &[&long]] {
            for input in [Input::Open(Octets(octets.clone())), Input::File(Octets(octets.clone())), Input::Open([].into()), Input::Closed] {
                let setting = Setting { arguments, input, output: Output::Kept };
                let said = ran(runner, program, &setting)?;
                spoke(bench, program, &setting, &said, "", asked)?;
                bench.check(said.unread, || format!("{program:?} in {setting:?}: reads its input"))?;
            }
        }
    }
    Ok(())
}

/// Where standard input can't be read a program says so and stops: the lines of what came before stand, and nothing is taken for an end.
fn unreadable(bench: &mut Bench, runner: &dyn Runner) -> Check {
    let asked = |line: &str| line.contains("standard input");
    for program in WITH_INPUT {
        let octets = one_message(bench, program)?;
        let (cut, begun) = (octets.len() - 1, [&octets[..], &octets[3..9]].concat());
        let inputs = [&octets[..0], &octets[..2], &octets[..3], &octets[..cut], &octets, &begun].map(|some| Input::NotReady(some.into()));
        for input in [Input::Folder, Input::Closed].into_iter().chain(inputs) {
            let lines = if let Input::NotReady(some) = &input { lines_of_whole(program, &some.0) } else { String::new() };
            let setting = Setting { arguments: &[], input, output: Output::Kept };
            let said = ran(runner, program, &setting)?;
            spoke(bench, program, &setting, &said, &lines, asked)?;
        }
    }
    Ok(())
}

/// The lines of the whole datagrams or records, without what is printed at an end.
fn lines_of_whole(program: Program, octets: &[u8]) -> String {
    let Some((own, rest)) = octets.split_at_checked(3) else { return String::new() };
    let lines = printed(program, &[own, &parts(program, rest).concat()].concat());
    lines.lines().filter(|line| !line.starts_with("end")).map(|line| format!("{line}\n")).collect()
}

/// Where standard output can't be written a program says so and stops at its next line, though its input stays open.
fn unwritable(bench: &mut Bench, runner: &dyn Runner) -> Check {
    let asked = |line: &str| line.contains("standard output");
    for output in [Output::Full, Output::Closed] {
        for program in WITH_INPUT {
            let octets = one_message(bench, program)?;
            for input in [Input::Open(Octets(octets.clone())), Input::File(Octets(octets))] {
                let setting = Setting { arguments: &[], input, output };
                let said = ran(runner, program, &setting)?;
                spoke(bench, program, &setting, &said, "", asked)?;
            }
        }
        // the line at the end, and the program without an input
        for (program, octets) in [(Program::Gateway, vec![]), (Program::Gateway, vec![1, 2, 3]), (Program::Vectors, vec![])] {
            let setting = Setting { arguments: &[], input: Input::File(Octets(octets)), output };
            let said = ran(runner, program, &setting)?;
            spoke(bench, program, &setting, &said, "", asked)?;
        }
    }
    Ok(())
}
