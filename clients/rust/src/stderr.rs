//! The program's standard error. Nothing but its text tells a folder that another process has from a disk that failed, so it is read here, in a
//! thread, and goes on to where the caller wants it, in another one: a reader that takes nothing keeps neither the program waiting nor its calls.
use crate::error::End;
use std::fs::File;
use std::io::{self, ErrorKind, Read, Write};
use std::os::fd::OwnedFd;
use std::process::ChildStderr;
use std::sync::mpsc::{sync_channel, Receiver, SyncSender};
use std::sync::{Arc, Mutex, PoisonError};
use std::thread::Builder;
use std::time::Duration;

const BEGINNINGS: [(&[u8], End); 3] =
    [(b"clfs: locked: ", End::Locked), (b"clfs: no folder: ", End::NoFolder), (b"clfs: no permission: ", End::NoPermission)];
/// As many bytes as any of these may have.
const BEGINNING: usize = 24;
const PIECE: usize = 4096;
/// As many pieces wait to be passed on; what comes above that is left out.
const MOST_PIECES: usize = 1024;
/// As long is waited for what is to come after the end of the program.
const PATIENCE: Duration = Duration::from_secs(1);

/// Where what the program writes to its standard error goes on to.
#[derive(Debug, Default)]
pub enum Errors {
    /// To the standard error of this process.
    #[default]
    Own,
    /// Nowhere.
    Nowhere,
    /// To this file, pipe or socket.
    To(OwnedFd),
}

/// The reading of a program's standard error.
pub(crate) struct Watch {
    cause: Arc<Mutex<Option<End>>>,
    /// Both end without a word, when all is read and when all is passed on.
    read: Receiver<()>,
    passed: Receiver<()>,
}

impl Watch {
    pub(crate) fn start(from: ChildStderr, to: Errors) -> io::Result<Watch> {
        let cause = Arc::new(Mutex::new(None));
        let (told, read) = sync_channel(0);
        let (done, passed) = sync_channel(0);
        let (pieces, taken) = sync_channel(MOST_PIECES);
        let to: Option<Box<dyn Write + Send>> = match to {
            Errors::Own => Some(Box::new(io::stderr())),
            Errors::Nowhere => None,
            Errors::To(to) => Some(Box::new(File::from(to))),
        };
        if let Some(to) = to {
            Builder::new().spawn(move || pass_on(taken, to, done))?;
        }
        let found = Arc::clone(&cause);
        Builder::new().spawn(move || read_all(from, &found, pieces, told))?;
        Ok(Watch { cause, read, passed })
    }

    /// How the program has ended, after its end: the cause that it told, if that goes with its status, or else this. Waits until all is read and
    /// passed on, but not for long: a child of the program may keep its standard error.
    pub(crate) fn end(&self, end: End, code: Option<i32>) -> End {
        // (each of these has nothing to receive, and ends at once if the thread has ended)
        let _ = self.read.recv_timeout(PATIENCE);
        let _ = self.passed.recv_timeout(PATIENCE);
        match (*self.cause.lock().unwrap_or_else(PoisonError::into_inner), code) {
            (Some(cause), Some(4)) => cause,
            (Some(End::NoFolder), Some(6)) => End::NoFolder,
            _ => end,
        }
    }
}

/// Reads up to the end.
fn read_all(mut from: ChildStderr, cause: &Mutex<Option<End>>, pieces: SyncSender<Vec<u8>>, _told: SyncSender<()>) {
    let mut piece = [0; PIECE];
    let mut line = Vec::with_capacity(BEGINNING);
    loop {
        match from.read(&mut piece) {
            Ok(0) => return,
            Ok(size) => {
                look(&piece[..size], &mut line, cause);
                let _ = pieces.try_send(piece[..size].to_vec());
            }
            Err(error) if error.kind() == ErrorKind::Interrupted => {}
            Err(_) => return,
        }
    }
}

/// Looks for the beginning of a line that tells a cause. `line` has the beginning of the one that the bytes go on with.
fn look(bytes: &[u8], line: &mut Vec<u8>, cause: &Mutex<Option<End>>) {
    for byte in bytes {
        if *byte == b'\n' {
            line.clear();
        } else if line.len() < BEGINNING {
            line.push(*byte);
            if let Some((_, end)) = BEGINNINGS.iter().find(|(text, _)| line == text) {
                *cause.lock().unwrap_or_else(PoisonError::into_inner) = Some(*end);
            }
        }
    }
}

fn pass_on(pieces: Receiver<Vec<u8>>, mut to: Box<dyn Write + Send>, _done: SyncSender<()>) {
    for piece in pieces {
        if to.write_all(&piece).is_err() {
            return;
        }
    }
}
