//! Runs a program with bytes on its standard input; bytes as text.

use std::io::{BufReader, Error, Read, Result, Write};
use std::os::fd::OwnedFd;
use std::os::unix::net::UnixStream;
use std::process::{Command, Output, Stdio};
use std::sync::mpsc::channel;
use std::thread::{scope, sleep};
use std::time::Duration;

/// All that the program writes, and how it ends.
pub fn run(program: &str, arguments: &[String], input: &[u8]) -> Result<Output> {
    feed(program, arguments, input, &[input.len()]).map(|fed| fed.output)
}

/// What came of a program.
pub struct Fed {
    /// All that it wrote, and how it ended.
    pub output: Output,
    /// Whether it took all of its input; it need not.
    pub took_all: bool,
    /// The most memory that it had before its input ended, in KiB, where the system
    /// tells.
    pub peak: Option<u64>,
}

/// Runs the program with its input in pieces of these lengths.
pub fn feed(program: &str, arguments: &[String], input: &[u8], pieces: &[usize]) -> Result<Fed> {
    let piped = Stdio::piped;
    let mut command = Command::new(program);
    let mut child =
        command.args(arguments).stdin(piped()).stdout(piped()).stderr(piped()).spawn()?;
    let (id, stdin) = (child.id(), child.stdin.take());
    scope(|scope| {
        let writer = scope.spawn(move || {
            // It need not read all of its input, so a broken pipe is fine.
            let took_all = stdin.as_ref().is_some_and(|to| write_pieces(to, input, pieces).is_ok());
            // It still waits for more.
            (took_all, peak(id))
        });
        let output = child.wait_with_output()?;
        let (took_all, peak) = writer.join().unwrap_or_default();
        Ok(Fed { output, took_all, peak })
    })
}

/// Gives the program its input in parts, each after as many bytes as the part before
/// brings were printed. All that was printed before its input ended; an error if it
/// takes too long.
pub fn in_turns(program: &str, parts: &[&[u8]], printed: &[usize]) -> Result<Vec<u8>> {
    let mut child = Command::new(program).stdin(Stdio::piped()).stdout(Stdio::piped()).spawn()?;
    let (mut stdin, stdout) = (child.stdin.take(), child.stdout.take());
    let (sender, receiver) = channel();
    std::thread::spawn(move || {
        let mut bytes = stdout.into_iter().flat_map(|out| BufReader::new(out).bytes());
        while bytes.next().is_some_and(|byte| byte.is_ok_and(|byte| sender.send(byte).is_ok())) {}
    });
    let mut all = vec![];
    for (part, more) in parts.iter().zip(printed) {
        stdin.as_mut().map_or(Ok(()), |stdin| stdin.write_all(part))?;
        for _ in 0..*more {
            all.push(receiver.recv_timeout(PATIENCE).map_err(Error::other)?);
        }
    }
    drop(stdin);
    child.wait()?;
    Ok(all)
}

/// So long a program may take to print what it should.
const PATIENCE: Duration = Duration::from_secs(20);

/// Runs the program with an input that gives these bytes, and then neither more nor an
/// end: a read that would have to wait fails.
pub fn read_fails(program: &str, input: &[u8]) -> Result<Output> {
    let (mut to, from) = UnixStream::pair()?;
    from.set_nonblocking(true)?;
    to.write_all(input)?;
    Command::new(program).stdin(OwnedFd::from(from)).output()
}

/// After each of the first pieces, and then now and then, the program gets time to read
/// what it was given, so that its reads are cut where the pieces are.
const PAUSE: Duration = Duration::from_micros(50);
const FIRST: usize = 20;
const NOW_AND_THEN: usize = 50;

fn write_pieces(mut to: impl Write, input: &[u8], pieces: &[usize]) -> Result<()> {
    let mut rest = input;
    for (index, length) in pieces.iter().enumerate() {
        let (piece, behind) = rest.split_at(*length);
        to.write_all(piece)?;
        rest = behind;
        if !rest.is_empty() && (index < FIRST || index % NOW_AND_THEN == 0) {
            sleep(PAUSE);
        }
    }
    Ok(())
}

fn peak(id: u32) -> Option<u64> {
    let status = std::fs::read_to_string(format!("/proc/{id}/status")).ok()?;
    let line = status.lines().find_map(|line| line.strip_prefix("VmHWM:"))?;
    line.trim().strip_suffix(" kB")?.parse().ok()
}

pub fn hex(bytes: &[u8]) -> String {
    bytes.iter().map(|byte| format!("{byte:02x}")).collect()
}

/// No more of a long run than this is printed, in bytes.
const SHOWN: usize = 4_000;

/// Hex of a run, or of its beginning if it is long.
pub fn cut_hex(bytes: &[u8]) -> String {
    if bytes.len() <= SHOWN {
        return hex(bytes);
    }
    format!("{}... (the first {SHOWN} of {} bytes)", hex(&bytes[..SHOWN]), bytes.len())
}
