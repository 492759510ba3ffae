//! The programs' instructions, counted by callgrind: the same in every run, whatever else the machine does.

use super::inputs::{capture, records};
use super::timing::{head, line, Aim, COLUMNS};
use std::fs::{write, File};
use std::path::Path;
use std::process::{Command, Stdio};

/// What a run takes. None where valgrind is not installed or the program is not there.
fn counted(program: &Path, args: &[&str], input: &Path) -> Option<f64> {
    let mut command = Command::new("valgrind");
    command.args(["--tool=callgrind", "--callgrind-out-file=/dev/null"]).arg(program).args(args);
    let stdin = File::open(input).expect("the input that was written");
    let said = command.stdin(stdin).stdout(Stdio::null()).stderr(Stdio::piped()).output().ok()?.stderr;
    let said = String::from_utf8_lossy(&said);
    said.lines().find_map(|l| l.split_once("Collected :")?.1.trim().parse().ok())
}

/// For each of the records from `half` on: the whole by less the first part, so that start and end of the program do not count.
fn each(program: &Path, args: &[&str], folder: &Path, (half, few): (&[u8], usize), (whole, many): (&[u8], usize)) -> Option<f64> {
    let [some, all] = [("half", half), ("whole", whole)].map(|(name, octets)| {
        let path = folder.join(name);
        write(&path, octets).expect("room for the input");
        counted(program, args, &path)
    });
    Some((all? - some?) / (many - few) as f64)
}

/// The library's program beside those of the other versions; the reference is not counted.
fn compare(what: &str, kind: &str, program: &Path, baseline: &Path, folder: &Path, half: (&[u8], usize), whole: (&[u8], usize)) -> Option<f64> {
    let figures = COLUMNS.map(|version| match version {
        "library" => each(program, &[], folder, half, whole),
        "reference" => None,
        _ => each(baseline, &[kind, version], folder, half, whole),
    });
    line(what, figures, false);
    figures[0]
}

pub fn measure(gateway: &Path, replay: &Path, baseline: &Path, folder: &Path) -> Aim {
    const FEW: usize = 3000;
    head("instructions by callgrind", "each");
    let of_capture = |what: &str, worn: bool| {
        let all = capture(2 * FEW, worn);
        compare(what, "gateway", gateway, baseline, folder, (&all[..3 + 53 * FEW], FEW), (&all, 2 * FEW))
    };
    let good = of_capture("gateway, datagram, no wrong bit", false);
    of_capture("gateway, datagram, worn capture", true);
    let ((some, few), (all, many)) = (records(FEW / 2), records(FEW));
    compare("replay, record, a restart before each event", "replay", replay, baseline, folder, (&some, few), (&all, many));
    if good.is_none() {
        println!("skipped for the library: valgrind or the program was not found");
    }
    Aim { what: "instructions a datagram in the gateway program, no wrong bit", aim: "at most 2200", ratio: good }
}
