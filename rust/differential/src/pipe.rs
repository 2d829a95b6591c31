//! Programs that read from one pipe, one after the other.

use crate::hex;
use std::fmt;
use std::io::{self, PipeReader, PipeWriter, Read, Write};
use std::process::{Child, Command, ExitStatus, Stdio};
use std::sync::mpsc::{channel, Receiver};
use std::thread;
use std::time::{Duration, Instant};

/// A program that has not ended after so long counts as one that does not end.
pub const LIMIT: Duration = Duration::from_secs(20);

/// The pause after each byte that comes by itself.
const PAUSE: Duration = Duration::from_millis(1);

/// What comes into a pipe, and how.
#[derive(Debug)]
pub struct Feed {
    /// The bytes.
    pub bytes: Vec<u8>,
    /// Whether they come one by one, with a pause after each.
    pub slowly: bool,
    /// Whether the pipe stays open behind them until the programs have ended.
    pub open: bool,
}

/// What a program printed, and whether it ended well.
pub type Printed = (Vec<u8>, bool);

/// What programs on one pipe did.
#[derive(Debug, PartialEq, Eq)]
pub struct Readings {
    /// What each printed. `None` is a program that had not ended in time and was
    /// killed; none is run after it.
    pub printed: Vec<Option<Printed>>,
    /// The bytes that the next reader of the pipe finds.
    pub left: Vec<u8>,
}

impl fmt::Display for Readings {
    fn fmt(&self, out: &mut fmt::Formatter<'_>) -> fmt::Result {
        for printed in &self.printed {
            let Some((text, ended_well)) = printed else {
                writeln!(out, "not ended in time")?;
                continue;
            };
            write!(out, "{}", String::from_utf8_lossy(text))?;
            writeln!(out, "ended {}", if *ended_well { "well" } else { "with a failure" })?;
        }
        writeln!(out, "left in the pipe: {}", first_bytes(&self.left))
    }
}

/// At most the first 1,000 bytes, and how many more there are.
pub fn first_bytes(bytes: &[u8]) -> String {
    let (first, more) = bytes.split_at(bytes.len().min(1000));
    format!("{} (and {} more bytes)", hex(first), more.len())
}

/// Runs the programs one after the other on one pipe, each for at most `limit`.
pub fn read_in_turn(
    feed: &Feed,
    programs: impl IntoIterator<Item = Command>,
    limit: Duration,
) -> io::Result<Readings> {
    let (mut reader, writer) = io::pipe()?;
    let (ended, until_ended) = channel::<()>();
    // The writer always comes to its end: whatever the programs do, the pipe is
    // then read to its end, or has no reader any more.
    thread::scope(move |scope| {
        scope.spawn(move || write(feed, writer, until_ended));
        let mut printed = Vec::new();
        for program in programs {
            printed.push(run(program, reader.try_clone()?, limit)?);
            if printed.last() == Some(&None) {
                break;
            }
        }
        drop(ended);
        let mut left = Vec::new();
        reader.read_to_end(&mut left)?;
        Ok(Readings { printed, left })
    })
}

/// Writes the bytes, and closes the pipe.
fn write(feed: &Feed, mut pipe: PipeWriter, until_ended: Receiver<()>) {
    let piece = if feed.slowly { 1 } else { feed.bytes.len().max(1) };
    for piece in feed.bytes.chunks(piece) {
        if pipe.write_all(piece).is_err() {
            return;
        }
        if feed.slowly {
            thread::sleep(PAUSE);
        }
    }
    if feed.open {
        let _ = until_ended.recv();
    }
}

/// Runs a program on the pipe; one that has not ended in time is killed.
fn run(mut program: Command, pipe: PipeReader, limit: Duration) -> io::Result<Option<Printed>> {
    let until = Instant::now() + limit;
    let mut child = program.stdin(pipe).stdout(Stdio::piped()).spawn()?;
    // The command holds a reader of the pipe.
    drop(program);
    let mut stdout = child.stdout.take().expect("standard output is piped");
    let (send, text) = channel();
    thread::spawn(move || {
        let mut text = Vec::new();
        let read = stdout.read_to_end(&mut text).map(|_| text);
        let _ = send.send(read);
    });
    if let Ok(text) = text.recv_timeout(limit) {
        if let Some(status) = ended(&mut child, until)? {
            return Ok(Some((text?, status.success())));
        }
    }
    child.kill()?;
    child.wait()?;
    Ok(None)
}

/// How the program ended, if it ends in time.
fn ended(child: &mut Child, until: Instant) -> io::Result<Option<ExitStatus>> {
    loop {
        let status = child.try_wait()?;
        if status.is_some() || Instant::now() >= until {
            return Ok(status);
        }
        thread::sleep(Duration::from_millis(1));
    }
}
