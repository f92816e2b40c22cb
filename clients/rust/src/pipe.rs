//! What goes to a program or a service, and what comes back: lines go in, and replies come out in the same order.
//!
//! The other side stops reading when its output is full. So whoever writes has to read, too: if a write finds no room and a whole line has no reply
//! yet, a reply is sure to come, and is waited for; if there is no such line, nothing can fill the output, and the write itself waits.
use crate::error::{End, Ending, Error};
use crate::reply::end_of;
use std::collections::VecDeque;
use std::io::{self, ErrorKind};
use std::sync::{Arc, OnceLock, Weak};

/// What serves the lines: a program of one's own, or a service.
pub(crate) trait Peer: Send {
    /// The process; 0 of a service.
    fn id(&self) -> u32;
    /// Writes as much as there is room for.
    fn write(&mut self, bytes: &[u8]) -> io::Result<usize>;
    /// As that, and waits until there is room.
    fn write_waiting(&mut self, bytes: &[u8]) -> io::Result<usize>;
    /// Reads what there is, or waits for some.
    fn read(&mut self, piece: &mut [u8]) -> io::Result<usize>;
    /// Lets it answer what was sent, and end.
    fn end_input(&mut self);
    /// Ends it at once.
    fn kill(&mut self) -> io::Result<()>;
    /// How it ended, after the end of its output, with these last words and so many lines without a reply.
    fn end(&mut self, last: Option<(End, i32)>, unanswered: usize) -> Result<End, Error>;
    /// Lets go of it, whether it has ended or not.
    fn release(&mut self);
}

/// The place of a reply: what was sent for it keeps it, and it is thrown away if nobody does.
pub(crate) type Slot = OnceLock<String>;

/// As many bytes of lines are gathered before they are written.
const GATHERED: usize = 1 << 16;

pub(crate) struct Pipe {
    peer: Box<dyn Peer>,
    lines: Vec<u8>,
    written: usize,
    piece: Vec<u8>,
    begun: Vec<u8>,
    waiting: VecDeque<Weak<Slot>>,
    last: Option<(End, i32)>,
    failure: Option<Error>,
}

impl Pipe {
    pub(crate) fn new(peer: impl Peer + 'static) -> Pipe {
        Pipe {
            peer: Box::new(peer),
            lines: Vec::with_capacity(2 * GATHERED),
            written: 0,
            piece: vec![0; 1 << 16],
            begun: Vec::new(),
            waiting: VecDeque::new(),
            last: None,
            failure: None,
        }
    }

    pub(crate) fn id(&self) -> u32 {
        self.peer.id()
    }

    pub(crate) fn kill(&mut self) -> io::Result<()> {
        self.peer.kill()
    }

    pub(crate) fn is_over(&self) -> bool {
        self.failure.is_some()
    }

    pub(crate) fn under_way(&self) -> usize {
        self.waiting.len()
    }

    /// Puts a line to those that are gathered, and gives the place where its reply will be.
    pub(crate) fn gather(&mut self, line: &[u8]) -> Result<Arc<Slot>, Error> {
        self.check()?;
        let slot = Arc::new(Slot::new());
        self.lines.extend_from_slice(line);
        self.lines.push(b'\n');
        self.waiting.push_back(Arc::downgrade(&slot));
        Ok(slot)
    }

    /// As that, and writes what is gathered if it is much.
    pub(crate) fn send(&mut self, line: &[u8]) -> Result<Arc<Slot>, Error> {
        let slot = self.gather(line)?;
        if self.lines.len() - self.written >= GATHERED {
            self.push()?;
        }
        Ok(slot)
    }

    /// Waits until the reply is there.
    pub(crate) fn wait(&mut self, slot: &Slot) -> Result<(), Error> {
        while slot.get().is_none() {
            self.push()?;
            if slot.get().is_some() {
                break;
            }
            if self.waiting.is_empty() {
                return Err(Error::OtherTicket);
            }
            self.read()?;
        }
        Ok(())
    }

    /// Writes the lines that were gathered.
    pub(crate) fn push(&mut self) -> Result<(), Error> {
        self.check()?;
        while self.written < self.lines.len() {
            match self.peer.write(&self.lines[self.written..]) {
                Ok(size) => self.written += size,
                Err(error) => match error.kind() {
                    ErrorKind::WouldBlock => self.wait_for_room()?,
                    ErrorKind::Interrupted => {}
                    // The program has ended. What it said before is still to be read.
                    ErrorKind::BrokenPipe | ErrorKind::ConnectionReset => self.written = self.lines.len(),
                    _ => return Err(self.fail(Error::System(error))),
                },
            }
        }
        self.lines.clear();
        self.written = 0;
        Ok(())
    }

    fn wait_for_room(&mut self) -> Result<(), Error> {
        let rest = &self.lines[self.written..];
        let unwritten = rest.iter().filter(|byte| **byte == b'\n').count();
        if self.waiting.len() > unwritten {
            return self.read();
        }
        // (no more than the line that is partly there: nobody takes the replies to later ones while this waits)
        let line = rest.iter().position(|byte| *byte == b'\n').map_or(rest.len(), |at| at + 1);
        match self.peer.write_waiting(&rest[..line]) {
            Ok(size) => self.written += size,
            Err(error) if error.kind() == ErrorKind::Interrupted => {}
            Err(error) if matches!(error.kind(), ErrorKind::BrokenPipe | ErrorKind::ConnectionReset) => self.written = self.lines.len(),
            Err(error) => return Err(self.fail(Error::System(error))),
        }
        Ok(())
    }

    /// Takes the output that is there, or waits for some. The end of it is the end of the program.
    fn read(&mut self) -> Result<(), Error> {
        let mut piece = std::mem::take(&mut self.piece);
        let taken = match self.peer.read(&mut piece) {
            Ok(0) => Err(self.end()),
            Ok(size) => self.take_piece(&piece[..size]),
            Err(error) if error.kind() == ErrorKind::Interrupted => Ok(()),
            Err(error) => Err(self.fail(Error::System(error))),
        };
        self.piece = piece;
        taken
    }

    /// Goes over the lines that a piece of the output completes.
    fn take_piece(&mut self, mut rest: &[u8]) -> Result<(), Error> {
        while let Some(at) = rest.iter().position(|byte| *byte == b'\n') {
            self.begun.extend_from_slice(&rest[..at]);
            rest = &rest[at + 1..];
            let line = std::mem::take(&mut self.begun);
            self.take_line(line)?;
        }
        self.begun.extend_from_slice(rest);
        Ok(())
    }

    /// A line of the output: a reply to the first line under way, or the last words of the program.
    fn take_line(&mut self, line: Vec<u8>) -> Result<(), Error> {
        let line = match String::from_utf8(line) {
            Ok(line) if self.last.is_none() => line,
            Ok(line) => return Err(self.fail(Error::UnknownReply(line))),
            Err(error) => {
                let line = String::from_utf8_lossy(error.as_bytes()).into_owned();
                return Err(self.fail(Error::UnknownReply(line)));
            }
        };
        if !line.starts_with(|first: char| first.is_ascii_digit()) {
            self.last = end_of(&line);
            return if self.last.is_some() { Ok(()) } else { Err(self.fail(Error::UnknownReply(line))) };
        }
        match self.waiting.pop_front() {
            None => return Err(self.fail(Error::UnknownReply(line))),
            Some(slot) => {
                if let Some(slot) = slot.upgrade() {
                    // (a slot is in the queue once)
                    let _ = slot.set(line);
                }
            }
        }
        Ok(())
    }

    /// Ends the input, takes what is still answered, and waits for the end of the program.
    pub(crate) fn close(&mut self) -> Result<(), Error> {
        self.push()?;
        self.peer.end_input();
        loop {
            match self.read() {
                Ok(()) => {}
                Err(Error::Ended(Ending { end: End::Well, unanswered: 0 })) => return Ok(()),
                Err(error) => return Err(error),
            }
        }
    }

    /// The end of the output: how the program has ended.
    fn end(&mut self) -> Error {
        let unanswered = self.waiting.len();
        match self.peer.end(self.last.take(), unanswered) {
            Ok(end) => self.fail(Error::Ended(Ending { end, unanswered })),
            Err(error) => self.fail(error),
        }
    }

    /// From now on each call is answered so. A program that hasn't ended serves nobody any more.
    pub(crate) fn fail(&mut self, error: Error) -> Error {
        let again = error.again();
        self.failure = Some(error);
        self.waiting.clear();
        self.lines.clear();
        self.written = 0;
        self.peer.release();
        again
    }

    fn check(&self) -> Result<(), Error> {
        match &self.failure {
            Some(error) => Err(error.again()),
            None => Ok(()),
        }
    }
}

impl Drop for Pipe {
    fn drop(&mut self) {
        if self.failure.is_none() {
            let _ = self.close();
        }
    }
}
