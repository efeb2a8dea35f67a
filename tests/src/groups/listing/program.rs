//! The listing program, run on an input: whole, in pieces, over a connection that is reset, and into a pipe that nobody reads.

use std::ffi::{c_int, c_ulong};
use std::io::{self, Read, Write};
use std::os::fd::{AsRawFd, OwnedFd};
use std::os::unix::net::UnixStream;
use std::process::{ChildStdin, Command, Output, Stdio};
use std::sync::atomic::{AtomicBool, Ordering};
use std::thread;

const PROGRAM: &str = concat!(env!("CARGO_MANIFEST_DIR"), "/../target/front/list");

/// The program, which is ended with status 124 if it takes a minute.
fn limited() -> Command {
    let mut command = Command::new("timeout");
    command.args(["60", PROGRAM]);
    command
}

/// How many bytes of a pipe are not read yet (Linux).
const FIONREAD: c_ulong = 0x541B;

/// Whether calls on a file wait (Linux).
const FIONBIO: c_ulong = 0x5421;

extern "C" {
    fn ioctl(fd: c_int, request: c_ulong, ...) -> c_int;
}

/// Runs the program on an input that comes in these pieces, each in a read of its own, or in several if it is too long for one.
/// Answers with the count of pieces that it read too.
pub fn fed(pieces: &[&[u8]]) -> io::Result<(Output, usize)> {
    run(Stdio::piped(), pieces)
}

/// Runs the program over a connection that brings `sent` and is then reset.
pub fn reset_after(sent: &[u8]) -> io::Result<Output> {
    let (board, program) = UnixStream::pair()?;
    // An end that is closed with bytes unread resets the connection.
    (&program).write_all(b"unread")?;
    (&board).write_all(sent)?;
    drop(board);
    limited().stdin(OwnedFd::from(program)).output()
}

/// Runs the program with a pipe as output that nobody reads before its end, and whose writes do not wait.
pub fn into_full_pipe(input: &[u8]) -> io::Result<Output> {
    let (mut reader, writer) = io::pipe()?;
    control(&writer, FIONBIO, 1)?;
    let (mut output, _) = run(writer.into(), &[input])?;
    reader.read_to_end(&mut output.stdout)?;
    Ok(output)
}

fn run(stdout: Stdio, pieces: &[&[u8]]) -> io::Result<(Output, usize)> {
    let mut program = limited()
        .stdin(Stdio::piped())
        .stdout(stdout)
        .stderr(Stdio::piped())
        .spawn()?;
    let stdin = program.stdin.take().expect("a pipe, as asked for");
    let ended = AtomicBool::new(false);
    thread::scope(|scope| {
        let feeder = scope.spawn(|| feed(stdin, pieces, &ended));
        let output = program.wait_with_output()?;
        ended.store(true, Ordering::Relaxed);
        let read = feeder.join().expect("a feeder that does not panic")?;
        Ok((output, read))
    })
}

/// Writes each piece when the program has read the one before, and answers with the count of pieces read.
fn feed(mut stdin: ChildStdin, pieces: &[&[u8]], ended: &AtomicBool) -> io::Result<usize> {
    for (read, piece) in pieces.iter().enumerate() {
        match stdin.write_all(piece) {
            Err(error) if error.kind() == io::ErrorKind::BrokenPipe => return Ok(read),
            written => written?,
        }
        while control(&stdin, FIONREAD, 0)? > 0 {
            if ended.load(Ordering::Relaxed) {
                return Ok(read);
            }
            thread::yield_now();
        }
    }
    Ok(pieces.len())
}

/// Hands the call a number, and answers with what the call leaves there.
fn control(file: &impl AsRawFd, request: c_ulong, number: c_int) -> io::Result<c_int> {
    let mut number = number;
    // Safety: both requests read or write one number, and the file is open.
    match unsafe { ioctl(file.as_raw_fd(), request, &mut number) } {
        0 => Ok(number),
        _ => Err(io::Error::last_os_error()),
    }
}
