//! A program, run on some input up to a time limit.

use std::io::{self, ErrorKind, Read, Write};
use std::path::Path;
use std::process::{Child, Command, ExitStatus, Output, Stdio};
use std::sync::mpsc::{self, Receiver};
use std::thread;
use std::time::{Duration, Instant};

/// How much is read of what a program prints, so that one that prints without end fills no memory:
/// more than any right answer has.
const PRINTED: u64 = 1 << 20;

/// Between two looks at whether a program that prints nothing more has ended.
const PAUSE: Duration = Duration::from_micros(100);

/// What the program prints of the input, and its status. At the limit it is killed.
pub fn run(program: &Path, input: &[u8], limit: Duration) -> io::Result<Output> {
    let mut command = Command::new(program);
    let pipes = command.stdin(Stdio::piped()).stdout(Stdio::piped()).stderr(Stdio::piped());
    let mut child = pipes.spawn()?;
    let output = output(&mut child, input.to_vec(), Instant::now() + limit);
    if output.is_err() {
        child.kill()?;
        child.wait()?;
    }
    output.map_err(|error| match error.kind() {
        ErrorKind::TimedOut => io::Error::other(format!("did not end within {limit:?}")),
        _ => error,
    })
}

fn output(child: &mut Child, input: Vec<u8>, end: Instant) -> io::Result<Output> {
    let stdin = child.stdin.take().expect("a pipe");
    let stdout = child.stdout.take().expect("a pipe");
    let stderr = child.stderr.take().expect("a pipe");
    let written = apart(move || write(stdin, &input));
    let (stdout, stderr) = (apart(move || read(stdout)), apart(move || read(stderr)));
    received(&written, end)?;
    let (stdout, stderr) = (received(&stdout, end)?, received(&stderr, end)?);
    Ok(Output { status: ended(child, end)?, stdout, stderr })
}

/// Work on a pipe in a thread of its own. It may never be done, even after the program is killed,
/// where another process holds the pipe: so nothing joins the thread, which ends with the driver.
fn apart<T: Send + 'static>(
    work: impl FnOnce() -> io::Result<T> + Send + 'static,
) -> Receiver<io::Result<T>> {
    let (sender, receiver) = mpsc::channel();
    // Sending fails where the limit was met first, and nobody waits any more.
    thread::spawn(move || drop(sender.send(work())));
    receiver
}

fn received<T>(result: &Receiver<io::Result<T>>, end: Instant) -> io::Result<T> {
    let left = end.saturating_duration_since(Instant::now());
    result.recv_timeout(left).unwrap_or_else(|_| Err(ErrorKind::TimedOut.into()))
}

/// The pipe is closed at the end: a program reads to the end of its input. Of a longer file it may
/// leave the end unread.
fn write(mut pipe: impl Write, input: &[u8]) -> io::Result<()> {
    match pipe.write_all(input) {
        Err(error) if error.kind() != ErrorKind::BrokenPipe => Err(error),
        _ => Ok(()),
    }
}

fn read(pipe: impl Read) -> io::Result<Vec<u8>> {
    let mut printed = Vec::new();
    pipe.take(PRINTED).read_to_end(&mut printed)?;
    Ok(printed)
}

/// The standard library can wait for a process with no limit only, so this looks again and again.
fn ended(child: &mut Child, end: Instant) -> io::Result<ExitStatus> {
    loop {
        match child.try_wait()? {
            Some(status) => return Ok(status),
            None if Instant::now() >= end => return Err(ErrorKind::TimedOut.into()),
            None => thread::sleep(PAUSE),
        }
    }
}
