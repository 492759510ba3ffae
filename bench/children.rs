//! The programs, as child processes beside programs of the other versions.

use super::inputs::{capture, records};
use super::timing::{head, line, ratio, Aim, COLUMNS};
use std::fs::{read_to_string, write, File};
use std::io::Read;
use std::path::{Path, PathBuf};
use std::process::{Command, Stdio};
use std::time::Instant;

pub struct Children {
    pub gateway: PathBuf,
    pub replay: PathBuf,
    /// The program of the other versions: `baseline gateway|replay plain|fast|reference`.
    pub baseline: PathBuf,
    /// A folder for the inputs.
    pub folder: PathBuf,
    pub datagrams: usize,
    pub records: usize,
    pub rounds: usize,
}

/// What a run of a child took, in seconds of the processor, to the end of its output and to this many octets of it, and the output.
struct Run {
    seconds: f64,
    to_mark: f64,
    output: Vec<u8>,
}

/// The child's processor time, where the system tells it; else the time since its start.
fn clock(child: u32, start: Instant) -> f64 {
    let text = read_to_string(format!("/proc/{child}/schedstat")).ok();
    let told = text.and_then(|text| text.split(' ').next()?.parse::<f64>().ok());
    told.map_or_else(|| start.elapsed().as_secs_f64(), |nanoseconds| nanoseconds / 1e9)
}

fn run(command: &mut Command, input: &Path, mark: usize) -> Run {
    let stdin = File::open(input).expect("the input that was written");
    let mut output = Vec::with_capacity(1 << 24);
    let mut some = vec![0; 1 << 16];
    let mut to_mark = 0.0;
    let start = Instant::now();
    let mut child = command.stdin(stdin).stdout(Stdio::piped()).spawn().expect("the program starts");
    let mut pipe = child.stdout.take().expect("a pipe");
    loop {
        let n = pipe.read(&mut some).expect("the output");
        if n == 0 {
            break;
        }
        if (output.len()..output.len() + n).contains(&mark) {
            to_mark = clock(child.id(), start);
        }
        output.extend(&some[..n]);
    }
    let seconds = clock(child.id(), start);
    let status = child.wait().expect("the end of the program");
    assert!(status.success(), "{command:?} ended with {status}");
    Run { seconds, to_mark, output }
}

/// Where half of the lines end.
fn half(output: &[u8]) -> usize {
    let lines = output.iter().filter(|&&o| o == b'\n').count();
    output.iter().enumerate().filter(|(_, &o)| o == b'\n').nth(lines / 2).map_or(0, |(i, _)| i)
}

/// The lines but the last.
fn body(output: &[u8]) -> &[u8] {
    let end = output[..output.len().saturating_sub(1)].iter().rposition(|&o| o == b'\n').map_or(0, |i| i + 1);
    &output[..end]
}

impl Children {
    fn command(&self, program: &Path, kind: &str, version: &str) -> Command {
        if version == "library" {
            return Command::new(program);
        }
        let mut command = Command::new(&self.baseline);
        command.args([kind, version]);
        command
    }

    /// How many a processor second, in turn, best of the rounds; the reference runs once, on a tenth. Gives the rates, and the
    /// library's second half of the output by its first.
    fn compare(&self, what: &str, program: &Path, whole: (&[u8], usize), tenth: (&[u8], usize)) -> ([Option<f64>; 4], Option<f64>) {
        let kind = what.split(',').next().unwrap_or(what);
        let (whole_path, tenth_path) = (self.folder.join("whole"), self.folder.join("tenth"));
        write(&whole_path, whole.0).expect("room for the input");
        write(&tenth_path, tenth.0).expect("room for the input");
        let right_tenth = run(&mut self.command(program, kind, "plain"), &tenth_path, 0).output;
        let right = run(&mut self.command(program, kind, "plain"), &whole_path, 0).output;
        assert!(right.starts_with(body(&right_tenth)), "{what}: the tenth and the whole differ");
        let mark = half(&right);
        let mut rates = [None; 4];
        let mut halves = (f64::INFINITY, f64::INFINITY);
        for round in 0..self.rounds {
            for (i, version) in COLUMNS.into_iter().enumerate() {
                let reference = version == "reference";
                if reference && round > 0 || version == "library" && !program.exists() {
                    continue;
                }
                let (path, right, count) = if reference { (&tenth_path, &right_tenth, tenth.1) } else { (&whole_path, &right, whole.1) };
                let run = run(&mut self.command(program, kind, version), path, mark);
                assert!(run.output == *right, "{what}: the program of the {version} prints other lines than that of the plain version");
                let rate = count as f64 / run.seconds;
                rates[i] = Some(rates[i].map_or(rate, |best: f64| best.max(rate)));
                if version == "library" {
                    halves = (halves.0.min(run.to_mark), halves.1.min(run.seconds - run.to_mark));
                }
            }
        }
        line(what, rates, true);
        (rates, rates[0].map(|_| halves.1 / halves.0))
    }

    pub fn measure(&self) -> [Aim; 4] {
        head("programs", "a processor second");
        for (name, path) in [("gateway", &self.gateway), ("replay", &self.replay)] {
            if !path.exists() {
                println!("skipped for the library: there is no program {name}");
            }
        }
        let few = self.datagrams / 10;
        let run = |what: &str, worn: bool| {
            let all = capture(self.datagrams, worn);
            self.compare(what, &self.gateway, (&all, self.datagrams), (&all[..3 + 53 * few], few))
        };
        let ([library, plain, fast, _], growth) = run("gateway, datagrams, no wrong bit", false);
        let ([worn, _, worn_fast, _], _) = run("gateway, datagrams, worn capture", true);
        let ((all, many), (part, few)) = (records(self.records), records(self.records / 10));
        self.compare("replay, records, a restart before each event", &self.replay, (&all, many), (&part, few));
        [
            Aim { what: "datagram in the gateway program, library by fast", aim: "at most 2.5", ratio: ratio(fast, library) },
            Aim { what: "the same, library by plain", aim: "below 1", ratio: ratio(plain, library) },
            Aim { what: "the same, worn capture, library by fast", aim: "at most 3.5", ratio: ratio(worn_fast, worn) },
            Aim { what: "second half of the capture by the first, gateway program", aim: "1", ratio: growth },
        ]
    }
}
