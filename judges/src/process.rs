//! A proved program as a process.

use std::io::{self, ErrorKind, Write};
use std::process::{Child, Command, Output, Stdio};
use std::sync::mpsc::{channel, RecvTimeoutError};
use std::thread;
use std::time::Duration;

/// No input takes a program a second.
const LIMIT: Duration = Duration::from_secs(30);
/// Long enough for the program to have read what there is.
const PAUSE: Duration = Duration::from_millis(3);

/// What a program is given on standard input: bytes, of which the first `early` come before a pause.
pub struct Input {
    /// All of them.
    pub bytes: Vec<u8>,
    /// How many of them come before the pause.
    pub early: usize,
}

impl Input {
    /// Bytes without a pause.
    #[must_use]
    pub fn whole(bytes: Vec<u8>) -> Self {
        Self { early: bytes.len(), bytes }
    }
}

/// Runs a program; one that does not end is stopped, and its status tells so.
pub fn run(command: &mut Command, input: &Input) -> io::Result<Output> {
    command.stdin(Stdio::piped()).stdout(Stdio::piped()).stderr(Stdio::piped());
    let mut child = command.spawn()?;
    let number = child.id().to_string();
    let (ended, waiting) = channel::<()>();
    thread::scope(|scope| {
        scope.spawn(move || {
            if waiting.recv_timeout(LIMIT) == Err(RecvTimeoutError::Timeout) {
                let _ = Command::new("kill").args(["-9", &number]).status();
            }
        });
        let written = write(&mut child, input);
        let output = child.wait_with_output();
        drop(ended);
        written.and(output)
    })
}

fn write(child: &mut Child, input: &Input) -> io::Result<()> {
    let mut stdin = child.stdin.take().expect("a pipe");
    let (early, late) = input.bytes.split_at(input.early);
    let mut both = stdin.write_all(early);
    if !late.is_empty() {
        thread::sleep(PAUSE);
        both = both.and_then(|()| stdin.write_all(late));
    }
    match both {
        // The program need not read what is over the longest input.
        Err(error) if error.kind() == ErrorKind::BrokenPipe => Ok(()),
        other => other,
    }
}

/// What the program did, if it is not what was wanted: these bytes, nothing on standard error and status 0.
#[must_use]
pub fn fault(output: &Output, wanted: &[u8]) -> Option<String> {
    let right = output.stdout == wanted && output.status.success() && output.stderr.is_empty();
    (!right).then(|| format!("{}; wanted {}", told(output), say(wanted)))
}

/// What the program did.
#[must_use]
pub fn told(Output { status, stdout, stderr }: &Output) -> String {
    format!("printed {}; {status}; standard error {}", say(stdout), say(stderr))
}

fn say(bytes: &[u8]) -> String {
    let start: String = String::from_utf8_lossy(bytes).chars().take(200).collect();
    format!("{start:?}")
}
