//! The programs themselves, run as child processes.

use super::programs::{Feed, Input, Output, Runner, Said, Setting};
use crate::reference::programs::Program;
use std::fs::File;
use std::io::{BufRead, BufReader, Read, Seek, Write};
use std::os::fd::OwnedFd;
use std::os::unix::net::UnixStream;
use std::path::PathBuf;
use std::process::{Child, Command, ExitStatus, Stdio};
use std::time::{Duration, Instant};

/// The paths of the programs; `vectors` stands beside the gateway.
pub struct Children {
    pub gateway: String,
    pub replay: String,
    pub delivered: String,
}

/// The time that a run over an input may take, and that of a run which has to stop by itself.
const PATIENCE: Duration = Duration::from_secs(60);
const STOPS: Duration = Duration::from_secs(10);

/// How a child ended, and what it wrote.
struct Ended {
    status: ExitStatus,
    output: Vec<u8>,
    error: Vec<u8>,
}

impl Children {
    fn path(&self, program: Program) -> PathBuf {
        match program {
            Program::Gateway => PathBuf::from(&self.gateway),
            Program::Replay => PathBuf::from(&self.replay),
            Program::Delivered => PathBuf::from(&self.delivered),
            Program::Vectors => PathBuf::from(&self.gateway).with_file_name("vectors"),
        }
    }
}

impl Runner for Children {
    fn run(&self, program: Program, input: &[u8], feed: Feed) -> Result<String, String> {
        let path = self.path(program);
        let told = |why: std::io::Error| format!("{path:?}: {why}");
        let stdin = match feed {
            Feed::File => Stdio::from(file_with(input).map_err(told)?),
            Feed::Pipe(_) => Stdio::piped(),
        };
        let mut child = Command::new(&path).stdin(stdin).stdout(Stdio::piped()).stderr(Stdio::piped()).spawn().map_err(told)?;
        let to = child.stdin.take();
        let piece = if let Feed::Pipe(piece) = feed { piece } else { 1 };
        let ended = std::thread::scope(|scope| {
            // a program that ends early closes the pipe; its output tells
            scope.spawn(move || to.map(|to| write_pieces(to, input, piece)));
            watched(child, PATIENCE)
        })?;
        let error = String::from_utf8_lossy(&ended.error);
        if !ended.status.success() || !error.is_empty() {
            return Err(format!("{path:?} ends with {} and says {error:?}", ended.status));
        }
        String::from_utf8(ended.output).map_err(|_| format!("{path:?} prints octets that are no text"))
    }

    fn run_live(&self, program: Program, own: &[u8], parts: &[(&[u8], usize)]) -> Result<Vec<String>, String> {
        let path = self.path(program);
        let told = |why: std::io::Error| format!("{path:?}: {why}");
        let mut child = Command::new(&path).stdin(Stdio::piped()).stdout(Stdio::piped()).spawn().map_err(told)?;
        let (mut to, from) = (child.stdin.take().ok_or("no input")?, child.stdout.take().ok_or("no output")?);
        let (put, lines) = std::sync::mpsc::channel();
        std::thread::spawn(move || BufReader::new(from).lines().map_while(Result::ok).try_for_each(|line| put.send(line)));
        let mut answers = vec![];
        let result = to.write_all(own).map_err(told).and_then(|()| {
            for (part, many) in parts {
                to.write_all(part).map_err(told)?;
                for _ in 0..*many {
                    let line = lines.recv_timeout(PATIENCE);
                    answers.push(line.map_err(|why| format!("{path:?} gives no line while its input is open: {why}"))?);
                }
            }
            Ok(answers)
        });
        let _ = child.kill();
        child.wait().map_err(told)?;
        result
    }

    fn run_in(&self, program: Program, setting: &Setting) -> Result<Said, String> {
        let path = self.path(program);
        let told = |why: std::io::Error| format!("{path:?}: {why}");
        let input = Prepared::new(&setting.input).map_err(told)?;
        let output = match setting.output {
            Output::Kept => Stdio::piped(),
            Output::Full => Stdio::from(File::options().write(true).open("/dev/full").map_err(told)?),
            Output::Closed => Stdio::null(),
        };
        // the shell can close descriptors before it becomes the program
        let closes_input = if matches!(setting.input, Input::Closed) { " <&-" } else { "" };
        let closes_output = if setting.output == Output::Closed { " >&-" } else { "" };
        let becomes = format!("exec \"$0\" \"$@\"{closes_input}{closes_output}");
        let mut command = Command::new("sh");
        command.args(["-c", &becomes]).arg(&path).args(setting.arguments);
        let mut child = command.stdin(input.end).stdout(output).stderr(Stdio::piped()).spawn().map_err(told)?;
        let to = child.stdin.take();
        if let (Some(mut to), Input::Open(octets)) = (to.as_ref(), &setting.input) {
            // a program that has ended takes nothing
            let _ = to.write_all(&octets.0);
        }
        let ended = watched(child, STOPS)?;
        drop(to);
        if !ended.status.success() {
            return Err(format!("ends with {}", ended.status));
        }
        let unread = input.file.is_none_or(|mut file| file.stream_position().is_ok_and(|at| at == 0));
        let text = |octets| String::from_utf8(octets).map_err(|_| "octets that are no text".to_string());
        Ok(Said { output: text(ended.output)?, error: text(ended.error)?, unread })
    }
}

/// An input for a child. A file is shared with it: the place of its next octet tells whether it was read.
struct Prepared {
    end: Stdio,
    file: Option<File>,
    /// The other end of the input, which stays open.
    _other: Option<UnixStream>,
}

impl Prepared {
    fn new(input: &Input) -> std::io::Result<Prepared> {
        let (mut file, mut other) = (None, None);
        let end = match input {
            Input::File(octets) => {
                let shared = file_with(&octets.0)?;
                file = Some(shared.try_clone()?);
                Stdio::from(shared)
            }
            Input::Open(_) => Stdio::piped(),
            // a pair of sockets, which fails to read as a pipe does and can be asked not to wait
            Input::NotReady(octets) => {
                let (mut ours, its) = UnixStream::pair()?;
                its.set_nonblocking(true)?;
                ours.write_all(&octets.0)?;
                other = Some(ours);
                Stdio::from(OwnedFd::from(its))
            }
            Input::Folder => Stdio::from(File::open("/")?),
            Input::Closed => Stdio::null(),
        };
        Ok(Prepared { end, file, _other: other })
    }
}

/// An open file with these octets, and no name any more.
fn file_with(octets: &[u8]) -> std::io::Result<File> {
    let path = std::env::temp_dir().join(format!("outside-input-{}", std::process::id()));
    std::fs::write(&path, octets)?;
    let file = File::open(&path);
    std::fs::remove_file(&path)?;
    file
}

/// Wait until the child has ended and closed what it writes to; end it when the time is over.
fn watched(mut child: Child, limit: Duration) -> Result<Ended, String> {
    let (output, error) = (child.stdout.take(), child.stderr.take());
    std::thread::scope(|scope| {
        let output = scope.spawn(move || read_all(output));
        let error = scope.spawn(move || read_all(error));
        let (start, mut late) = (Instant::now(), false);
        let status = loop {
            match child.try_wait() {
                Ok(Some(status)) => break status,
                Ok(None) => std::thread::sleep(Duration::from_micros(200)),
                Err(why) => return Err(why.to_string()),
            }
            if start.elapsed() > limit && !late {
                late = true;
                let _ = child.kill();
            }
        };
        let whole = |reader: std::thread::ScopedJoinHandle<std::io::Result<Vec<u8>>>| {
            reader.join().map_err(|_| "the reader of the output failed".to_string())?.map_err(|why| why.to_string())
        };
        let (output, error) = (whole(output)?, whole(error)?);
        if late {
            return Err(format!("does not end within {} s", limit.as_secs()));
        }
        Ok(Ended { status, output, error })
    })
}

fn read_all(from: Option<impl Read>) -> std::io::Result<Vec<u8>> {
    let mut octets = vec![];
    from.map(|mut from| from.read_to_end(&mut octets)).transpose().map(|_| octets)
}

/// Write in pieces, and let the reader come to each of the first ones.
fn write_pieces(mut to: impl Write, input: &[u8], piece: usize) -> std::io::Result<()> {
    for (i, some) in input.chunks(piece.max(1)).enumerate() {
        to.write_all(some)?;
        if i < 200 {
            std::thread::sleep(Duration::from_micros(100));
        }
    }
    Ok(())
}
