//! Running the programs under test, within limits of time and memory.

use std::fmt;
use std::io::{Read, Write};
use std::path::PathBuf;
use std::process::{self, Child, Stdio};
use std::thread::{self, JoinHandle};
use std::time::{Duration, Instant};

/// How long a program may take.
const MOST_TIME: Duration = Duration::from_secs(10);

/// How much memory a program may take, in kilobytes.
const MOST_MEMORY: u32 = 256 * 1024;

/// How many bytes of an input or an output are shown.
const MOST_SHOWN: usize = 2000;

/// One of the two programs.
#[derive(Clone, Copy, Debug, PartialEq, Eq)]
pub enum Program {
    Compile,
    Compare,
}

impl Program {
    /// Its name, which is that of its file too.
    pub fn name(self) -> &'static str {
        match self {
            Self::Compile => "compile",
            Self::Compare => "compare",
        }
    }
}

/// How a run has ended.
#[derive(Clone, Copy, Debug, PartialEq, Eq)]
pub enum End {
    /// By itself, with this status.
    Status(i32),
    /// By a signal.
    Signal,
    /// It took too long and was ended.
    TooLong,
}

/// What a run has given.
pub struct Outcome {
    pub end: End,
    pub output: Vec<u8>,
    pub errors: Vec<u8>,
}

impl fmt::Display for Outcome {
    fn fmt(&self, out: &mut fmt::Formatter<'_>) -> fmt::Result {
        writeln!(out, "{:?}", self.end)?;
        writeln!(out, "standard output: {}", shown(&self.output))?;
        write!(out, "standard error: {}", shown(&self.errors))
    }
}

/// Bytes as they can be printed, cut short if there are very many.
pub fn shown(bytes: &[u8]) -> String {
    let start = &bytes[..bytes.len().min(MOST_SHOWN)];
    let text = String::from_utf8_lossy(start).replace('\0', "\u{fffd}");
    if start.len() < bytes.len() {
        format!("{text} .. ({} bytes)", bytes.len())
    } else {
        text
    }
}

/// A command to be run.
pub struct Command<'a> {
    pub program: Program,
    pub arguments: Vec<String>,
    /// The names under which the job or the texts are passed.
    pub names: Vec<String>,
    /// The standard input.
    pub input: &'a [u8],
}

impl Command<'_> {
    /// Runs the command with the program of a directory.
    pub fn run(&self, dir: &str) -> Outcome {
        let path: PathBuf = [dir, self.program.name()].iter().collect();
        let mut child = process::Command::new("sh")
            .arg("-c")
            .arg(format!("ulimit -v {MOST_MEMORY}; exec \"$0\" \"$@\""))
            .arg(path)
            .args(&self.arguments)
            .stdin(Stdio::piped())
            .stdout(Stdio::piped())
            .stderr(Stdio::piped())
            .spawn()
            .expect("sh can be started");
        let mut pipe = child.stdin.take().expect("standard input is piped");
        let input = self.input.to_vec();
        // A program need not read its input, so that a broken pipe is fine.
        let writer = thread::spawn(move || pipe.write_all(&input).unwrap_or(()));
        let output = collect(child.stdout.take().expect("standard output is piped"));
        let errors = collect(child.stderr.take().expect("standard error is piped"));
        let end = wait(&mut child);
        writer.join().expect("the writer does not panic");
        let [output, errors] = [output, errors].map(|it| it.join().expect("no reader panics"));
        Outcome {
            end,
            output,
            errors,
        }
    }
}

/// Reads a pipe to its end beside the other pipe.
fn collect(mut pipe: impl Read + Send + 'static) -> JoinHandle<Vec<u8>> {
    thread::spawn(move || {
        let mut all = Vec::new();
        pipe.read_to_end(&mut all).expect("a pipe can be read");
        all
    })
}

/// Waits for the program to end, and ends it if it takes too long.
fn wait(child: &mut Child) -> End {
    let begun = Instant::now();
    let mut pause = Duration::from_micros(200);
    while begun.elapsed() < MOST_TIME {
        if let Some(status) = child.try_wait().expect("a child can be waited for") {
            return status.code().map_or(End::Signal, End::Status);
        }
        thread::sleep(pause);
        pause = (pause * 5 / 4).min(Duration::from_millis(20));
    }
    child.kill().expect("a child can be ended");
    child.wait().expect("a child can be waited for");
    End::TooLong
}
