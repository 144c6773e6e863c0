//! The program `mondays` where a read or a write fails, is interrupted, or
//! goes on for long.

use crate::feeding::{drain, finished, peak, said, started, until, waits, Program, Ran};
use crate::moves;
use crate::random::Random;
use reference::mondays::{self, LINE_BYTES};
use std::fs::{File, OpenOptions};
use std::io::Write;
use std::os::fd::OwnedFd;
use std::os::unix::net::UnixStream;
use std::process::{Command, Stdio};
use std::thread;
use std::time::Duration;

type Outcome = Result<(), String>;

/// A test with its name.
pub type Named = (&'static str, fn(&Program) -> Outcome);

pub const ALL: [Named; 10] = [
    ("standard input is a folder", folder),
    ("standard input is closed", closed),
    ("standard input cannot be read", write_only),
    ("a read fails after some bytes", reset),
    ("a read fails after a bad line", reset_after_bad),
    ("a read is interrupted", interrupted),
    ("a bad line before an endless file", endless),
    ("standard output is full", full),
    ("nobody reads standard output", unread),
    ("memory over a long file", constant_memory),
];

/// The failure is told, and what is printed are the windows of the lines
/// before it: of all whole blocks, and perhaps more.
fn ended_early(ran: &Ran, before: &[u8]) -> Outcome {
    if ran.told.is_empty() {
        return Err("nothing is told on standard error".into());
    }
    let block = moves::BLOCK * LINE_BYTES;
    let windows = |unit: usize| mondays::answer(&before[..before.len() / unit * unit]);
    let (least, most) = (windows(block), windows(LINE_BYTES));
    let printed = String::from_utf8_lossy(&ran.printed);
    let whole_lines = printed.is_empty() || printed.ends_with('\n');
    if most.starts_with(&*printed) && printed.starts_with(&least) && whole_lines {
        return Ok(());
    }
    let last = printed.lines().last();
    Err(format!(
        "other windows are printed, the last line is {last:?}"
    ))
}

fn folder(program: &Program) -> Outcome {
    let input = File::open("/").map_err(said)?;
    ended_early(&finished(program.start(input)?)?, &[])
}

/// The shell closes standard input. Rust's programs open an empty file in its
/// place before they start, so that the reference, which is one, cannot tell.
fn closed(program: &Program) -> Outcome {
    if cfg!(feature = "mock") {
        return Ok(());
    }
    let mut shell = Command::new("sh");
    shell.args(["-c", "exec \"$@\" <&-", "sh"]).args(&program.0);
    ended_early(&finished(started(&mut shell)?)?, &[])
}

fn write_only(program: &Program) -> Outcome {
    let input = OpenOptions::new().write(true).open("/dev/null");
    ended_early(&finished(program.start(input.map_err(said)?)?)?, &[])
}

/// The program's end of a stream that gives these bytes and then a failed
/// read: the other end is closed with a byte unread in it. Only the first read
/// after the bytes fails; the next would find the stream's end.
fn run_on_reset(program: &Program, bytes: &[u8]) -> Result<Ran, String> {
    let (mut ours, mut theirs) = UnixStream::pair().map_err(said)?;
    theirs.write_all(b"?").map_err(said)?;
    let child = program.start(OwnedFd::from(theirs))?;
    thread::scope(|scope| {
        scope.spawn(move || {
            // A program that has ended need not read it all.
            let _ = ours.write_all(bytes);
        });
        finished(child)
    })
}

fn reset(program: &Program) -> Outcome {
    let random = &mut Random::new(1);
    let lengths = [0, 5, 504, 512, 803, 32_768, 32_848, 65_541, 98_304, 100_000];
    for length in lengths {
        let mut file = moves::good(random, 13_000);
        file.truncate(length);
        let ran = run_on_reset(program, &file)?;
        ended_early(&ran, &file).map_err(|what| format!("after {length} bytes: {what}"))?;
    }
    Ok(())
}

/// A bad line in a block that was read whole speaks before the failed read.
fn reset_after_bad(program: &Program) -> Outcome {
    let mut file = moves::good(&mut Random::new(2), 9000);
    file[700 * LINE_BYTES + 4] = 129;
    let ran = run_on_reset(program, &file)?;
    if ran.printed == mondays::answer(&file).as_bytes() && ran.told.is_empty() {
        return Ok(());
    }
    Err("the bad line before it is not the last that is told".into())
}

/// Sends the program a signal.
fn signal(name: &str, id: u32) -> Outcome {
    let command = format!("kill -{name} {id}");
    let sent = Command::new("sh").args(["-c", &command]).status();
    match sent {
        Ok(status) if status.success() => Ok(()),
        _ => Err(format!("{command} fails")),
    }
}

/// Gives the first bytes, stops and continues the program while it waits for
/// more, and gives the rest. On a stream with a time limit this ends the read
/// with EINTR, though no handler is there.
pub fn run_interrupted(program: &Program, first: &[u8], rest: &[u8]) -> Result<Ran, String> {
    let (mut ours, theirs) = UnixStream::pair().map_err(said)?;
    let limit = Some(Duration::from_secs(1000));
    theirs.set_read_timeout(limit).map_err(said)?;
    let child = program.start(OwnedFd::from(theirs))?;
    let id = child.id();
    ours.write_all(first).map_err(said)?;
    for _ in 0..2 {
        waits(id)?;
        signal("STOP", id)?;
        until(id, &['T', 'Z', 'X'])?;
        signal("CONT", id)?;
    }
    waits(id)?;
    // A program that has ended need not read it all.
    let _ = ours.write_all(rest);
    drop(ours);
    finished(child)
}

fn interrupted(program: &Program) -> Outcome {
    let file = moves::good(&mut Random::new(3), 5000);
    let expected = mondays::answer(&file);
    for place in [0, 1003, 33_001] {
        let (first, rest) = file.split_at(place);
        let ran = run_interrupted(program, first, rest)?;
        if !ran.told.is_empty() {
            return Err(format!("after {place} bytes: told {:?}", ran.told));
        }
        if ran.printed != expected.as_bytes() {
            return Err(format!("after {place} bytes: another answer"));
        }
    }
    Ok(())
}

fn full(program: &Program) -> Outcome {
    for count in [64, 20_000] {
        let file = moves::good(&mut Random::new(4), count);
        let sink = OpenOptions::new().write(true).open("/dev/full");
        let mut command = program.command();
        command.stdin(Stdio::piped()).stderr(Stdio::piped());
        command.stdout(sink.map_err(said)?);
        let mut child = command.spawn().map_err(said)?;
        let mut pipe = child.stdin.take().ok_or("no pipe")?;
        let ran = thread::scope(|scope| {
            // A program that has ended need not read it all.
            scope.spawn(move || drop(pipe.write_all(&file)));
            finished(child)
        })?;
        if ran.told.is_empty() {
            return Err(format!("{count} lines: nothing is told"));
        }
    }
    Ok(())
}

/// After a bad line nothing more is looked at.
fn endless(program: &Program) -> Outcome {
    let ran = finished(program.start(File::open("/dev/zero").map_err(said)?)?)?;
    if ran.printed == b"number 24\n" && ran.told.is_empty() {
        return Ok(());
    }
    Err(format!("{} bytes are printed", ran.printed.len()))
}

/// A program whose output nobody reads ends.
fn unread(program: &Program) -> Outcome {
    let file = moves::good(&mut Random::new(5), 100_000);
    let mut child = program.start(Stdio::piped())?;
    drop(child.stdout.take());
    let mut pipe = child.stdin.take().ok_or("no pipe")?;
    thread::scope(|scope| {
        scope.spawn(move || drop(pipe.write_all(&file)));
        finished(child)
    })?;
    Ok(())
}

/// Over a long file the program takes no more memory than over two blocks.
fn constant_memory(program: &Program) -> Outcome {
    const SPARE: u64 = 1024;
    let file = moves::good(&mut Random::new(6), 1_000_000);
    let mut child = program.start(Stdio::piped())?;
    let id = child.id();
    let mut pipe = child.stdin.take().ok_or("no pipe")?;
    let output = child.stdout.take().ok_or("no pipe")?;
    let reading = thread::spawn(move || drain(output));
    let (first, rest) = file.split_at(2 * moves::BLOCK * LINE_BYTES);
    pipe.write_all(first).map_err(said)?;
    waits(id)?;
    let early = peak(id)?;
    pipe.write_all(rest).map_err(said)?;
    waits(id)?;
    let late = peak(id)?;
    drop(pipe);
    finished(child)?;
    let read = reading
        .join()
        .map_err(|_| "reading failed")?
        .map_err(said)?;
    if read < 3_000_000 {
        return Err(format!("only {read} bytes are printed"));
    }
    if late > early + SPARE {
        return Err(format!("{early} KiB after two blocks, {late} at the end"));
    }
    Ok(())
}
