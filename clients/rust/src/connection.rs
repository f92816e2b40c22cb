//! A connection to a service: `clfs FOLDER share --door PLACE` serves programs that come and go, and `clfs FOLDER share IN OUT` a program at a pair of
//! pipes.
//!
//! Who comes to a door makes two pipes of its own beside it, writes their name to the door, and waits for the number of its client. The end of the
//! pipe to the service ends the visit; a program that dies ends it so too. No open waits for a service that isn't there: until the service has
//! opened the pipes, this side is a reader and a writer of its own input (the guard), and an open of the door tells whether somebody reads it.
//! Only for the first reply this side sleeps, in short pieces, since the standard library can't wait for one of two things.
use crate::error::{End, Error};
use crate::pipe::Peer;
use std::collections::hash_map::RandomState;
use std::fs::{self, File, OpenOptions};
use std::hash::{BuildHasher, Hasher};
use std::io::{self, ErrorKind, Read, Write};
use std::os::fd::OwnedFd;
use std::os::unix::fs::{FileTypeExt, OpenOptionsExt, PermissionsExt};
use std::os::unix::net::UnixStream;
use std::path::{Path, PathBuf};
use std::process::{Command, Stdio};
use std::time::{Duration, Instant};

/// What the standard library has no names for, as Linux on most processors and the BSDs have it.
const O_NONBLOCK: i32 = if cfg!(any(target_os = "linux", target_os = "android")) { 0o4000 } else { 4 };
const ENXIO: i32 = 6;
/// How long the sleeps are, at first and at most.
const FIRST_PAUSE: Duration = Duration::from_micros(100);
const LONGEST_PAUSE: Duration = Duration::from_millis(5);
/// No first reply is longer.
const LONGEST_SAID: usize = 128;
const MOST_CLIENTS: u8 = 64;
/// The reply to an empty line, whatever the log is like.
const BAD_LINE: &str = "0 refused 28 BadLine 0";

/// The two ends of a connection.
pub(crate) struct Connection {
    lines: Option<File>,
    replies: Option<File>,
    was_killed: bool,
}

impl Connection {
    fn new(lines: File, replies: File) -> io::Result<Connection> {
        set_nonblocking(&replies, false)?;
        Ok(Connection { lines: Some(lines), replies: Some(replies), was_killed: false })
    }
}

impl Peer for Connection {
    fn id(&self) -> u32 {
        0
    }

    fn write(&mut self, bytes: &[u8]) -> io::Result<usize> {
        self.lines.as_mut().ok_or(ErrorKind::BrokenPipe)?.write(bytes)
    }

    fn write_waiting(&mut self, bytes: &[u8]) -> io::Result<usize> {
        let lines = self.lines.as_mut().ok_or(ErrorKind::BrokenPipe)?;
        let written = set_nonblocking(lines, false).and_then(|()| lines.write(bytes));
        // (whatever came of the write, as after a signal: no later one may wait)
        set_nonblocking(lines, true).and(written)
    }

    fn read(&mut self, piece: &mut [u8]) -> io::Result<usize> {
        self.replies.as_mut().map_or(Ok(0), |replies| replies.read(piece))
    }

    fn end_input(&mut self) {
        self.lines = None;
    }

    fn kill(&mut self) -> io::Result<()> {
        self.lines = None;
        self.was_killed = true;
        Ok(())
    }

    /// The end of the visit if this side ended it, and else of the service.
    fn end(&mut self, _: Option<(End, i32)>, unanswered: usize) -> Result<End, Error> {
        let has_left = self.lines.is_none() && unanswered == 0;
        Ok(if self.was_killed || has_left { End::Well } else { End::ServiceEnded })
    }

    fn release(&mut self) {
        self.lines = None;
        self.replies = None;
    }
}

/// A visit by the door in a folder, and its number.
pub(crate) fn visit(place: &Path, timeout: Option<Duration>) -> Result<(Connection, u8), Error> {
    let mut patience = Patience::new(timeout);
    let door_path = place.join("door");
    let name = format!("{}-{:016x}", std::process::id(), RandomState::new().build_hasher().finish());
    let pipes = Pipes::make(place, &name, rights_of(&door_path)?)?;
    let _guard = open(&pipes.input, Way::Both).map_err(Error::System)?;
    let lines = open(&pipes.input, Way::Write).map_err(Error::System)?;
    let mut replies = open(&pipes.output, Way::Read).map_err(Error::System)?;
    let mut door = open_for_service(&door_path)?.ok_or(Error::NoService)?;
    ring(&mut door, &name, &mut patience)?;
    let is_served = || Ok(open_for_service(&door_path)?.is_some());
    let said = first_line(&mut replies, is_served, &mut patience)?.ok_or(Error::NoFreeNumber)?;
    let number = number_of(&said).ok_or(Error::UnknownReply(said))?;
    Ok((Connection::new(lines, replies).map_err(Error::System)?, number))
}

/// The pair of pipes of a client of `share`.
pub(crate) fn pair(input: &Path, output: &Path, timeout: Option<Duration>) -> Result<Connection, Error> {
    let mut patience = Patience::new(timeout);
    // (before the input, so that the service finds a reader when it opens this one)
    let mut replies = open(output, Way::Read).map_err(unopened)?;
    let mut lines = loop {
        match open_for_service(input)? {
            Some(lines) => break lines,
            None if patience.wait() => {}
            None => return Err(Error::NoService),
        }
    };
    match lines.write_all(b"\n") {
        Err(error) if error.kind() == ErrorKind::BrokenPipe => return Err(Error::NoService),
        written => written.map_err(Error::System)?,
    }
    let is_served = || Ok(open_for_service(input)?.is_some());
    let said = first_line(&mut replies, is_served, &mut patience)?.ok_or(Error::NoService)?;
    if said != BAD_LINE {
        return Err(Error::UnknownReply(said));
    }
    Connection::new(lines, replies).map_err(Error::System)
}

/// Writes the name to the door, which is full where very many wait.
fn ring(door: &mut File, name: &str, patience: &mut Patience) -> Result<(), Error> {
    loop {
        // (so few bytes are written whole or not at all)
        match door.write_all(format!("{name}\n").as_bytes()) {
            Ok(()) => return Ok(()),
            Err(error) => match error.kind() {
                ErrorKind::WouldBlock if patience.wait() => {}
                ErrorKind::WouldBlock => return Err(Error::NoFreeNumber),
                ErrorKind::BrokenPipe => return Err(Error::NoService),
                ErrorKind::Interrupted => {}
                _ => return Err(Error::System(error)),
            },
        }
    }
}

/// The first line of the replies, as long as there is a service; None if it doesn't come in time.
fn first_line(replies: &mut File, is_served: impl Fn() -> Result<bool, Error>, patience: &mut Patience) -> Result<Option<String>, Error> {
    let (mut line, mut byte, mut has_come) = (Vec::new(), [0], false);
    loop {
        match replies.read(&mut byte) {
            Ok(1) if byte[0] == b'\n' => return Ok(Some(String::from_utf8_lossy(&line).into_owned())),
            Ok(1) if line.len() < LONGEST_SAID => {
                line.push(byte[0]);
                continue;
            }
            Ok(1) => return Err(Error::UnknownReply(String::from_utf8_lossy(&line).into_owned())),
            // (without a writer there is nothing, before the service has come as after it has gone)
            Ok(_) if has_come => return Err(Error::NoService),
            Ok(_) => {}
            Err(error) if error.kind() == ErrorKind::WouldBlock => has_come = true,
            Err(error) if error.kind() == ErrorKind::Interrupted => continue,
            Err(error) => return Err(Error::System(error)),
        }
        if !is_served()? {
            return Err(Error::NoService);
        }
        if !patience.wait() {
            return Ok(None);
        }
    }
}

/// The number of the line `NUMBER client`.
fn number_of(line: &str) -> Option<u8> {
    let number: u8 = line.strip_suffix(" client")?.parse().ok()?;
    ((1..=MOST_CLIENTS).contains(&number) && line == format!("{number} client")).then_some(number)
}

/// The sleeps of one beginning, and their end.
struct Patience {
    deadline: Option<Instant>,
    pause: Duration,
}

impl Patience {
    fn new(timeout: Option<Duration>) -> Patience {
        // (a time that is too far for the clock is none)
        Patience { deadline: timeout.and_then(|timeout| Instant::now().checked_add(timeout)), pause: FIRST_PAUSE }
    }

    /// Sleeps for a while. False if the time is over.
    fn wait(&mut self) -> bool {
        let left = self.deadline.map_or(self.pause, |deadline| deadline.saturating_duration_since(Instant::now()));
        std::thread::sleep(left.min(self.pause));
        self.pause = LONGEST_PAUSE.min(2 * self.pause);
        !left.is_zero()
    }
}

/// The pipes of a visit, whose names are gone at its beginning, whoever removes them.
struct Pipes {
    input: PathBuf,
    output: PathBuf,
}

impl Pipes {
    /// Makes them by the program `mkfifo`, since the standard library makes none.
    fn make(place: &Path, name: &str, rights: u32) -> Result<Pipes, Error> {
        let pipes = Pipes { input: place.join(format!("{name}.in")), output: place.join(format!("{name}.out")) };
        let mut command = Command::new("mkfifo");
        command.arg("-m").arg(format!("{rights:o}")).arg("--").args([&pipes.input, &pipes.output]).stdin(Stdio::null());
        let ran = command.output().map_err(Error::System)?;
        if ran.status.success() {
            return Ok(pipes);
        }
        let text = String::from_utf8_lossy(&ran.stderr).trim_end().to_owned();
        Err(Error::System(io::Error::new(ErrorKind::Other, text)))
    }
}

impl Drop for Pipes {
    fn drop(&mut self) {
        let _ = fs::remove_file(&self.input);
        let _ = fs::remove_file(&self.output);
    }
}

/// The rights of the door, which its visitors' pipes get too: whoever may use the one serves the others.
fn rights_of(door: &Path) -> Result<u32, Error> {
    match fs::metadata(door) {
        Ok(metadata) if metadata.file_type().is_fifo() => Ok(metadata.permissions().mode() & 0o666),
        Ok(_) => Err(Error::NoService),
        Err(error) if error.kind() == ErrorKind::NotFound => Err(Error::NoService),
        Err(error) => Err(Error::System(error)),
    }
}

/// What a pipe is opened for.
#[derive(Clone, Copy, PartialEq)]
enum Way {
    Read,
    Write,
    Both,
}

/// Opens a named pipe without waiting. Anything else is as a pipe that nobody reads: a line that is written into a file would change it.
fn open(path: &Path, way: Way) -> io::Result<File> {
    check_pipe(&fs::metadata(path)?)?;
    let opened = OpenOptions::new().read(way != Way::Write).write(way != Way::Read).custom_flags(O_NONBLOCK).open(path)?;
    // (it may have been replaced meanwhile)
    check_pipe(&opened.metadata()?)?;
    Ok(opened)
}

fn check_pipe(found: &fs::Metadata) -> io::Result<()> {
    if found.file_type().is_fifo() {
        return Ok(());
    }
    Err(io::Error::from_raw_os_error(ENXIO))
}

/// Why a pipe of a service isn't open.
fn unopened(error: io::Error) -> Error {
    match error.raw_os_error() {
        Some(ENXIO) => Error::NoService,
        _ => Error::System(error),
    }
}

/// Opens a pipe for writing; None if it isn't there, or nobody reads it.
fn open_for_service(path: &Path) -> Result<Option<File>, Error> {
    match open(path, Way::Write).map_err(unopened) {
        Ok(file) => Ok(Some(file)),
        Err(Error::NoService) => Ok(None),
        Err(Error::System(error)) if error.kind() == ErrorKind::NotFound => Ok(None),
        Err(error) => Err(error),
    }
}

/// Whether reading and writing return if they would have to wait. (The call of a socket for this does it for each descriptor.)
fn set_nonblocking(file: &File, on: bool) -> io::Result<()> {
    UnixStream::from(OwnedFd::from(file.try_clone()?)).set_nonblocking(on)
}
