#![doc = include_str!("../README.md")]
#![forbid(unsafe_code)]
#![warn(missing_docs)]

mod connection;
mod error;
mod pipe;
mod pool;
mod program;
mod records;
mod reply;
mod stderr;
mod values;

pub use error::{End, Ending, Error, Place, Refusal};
pub use pool::{Lent, Pool};
pub use records::{Records, Walk};
pub use stderr::Errors;
pub use values::{Area, Cursor, Draft, Extent, Info, Kind, Lsn, Mode, NoLsn, Policy, PolicyKind, Record};

use pipe::{Pipe, Slot};
use program::Program;
use reply::{answer_of, end_of, Reply};
use std::ffi::OsStr;
use std::fmt::{self, Write};
use std::path::Path;
use std::process::{Command, Stdio};
use std::sync::Arc;
use std::time::Duration;

/// The longest line that the program takes, without its line feed.
const LONGEST_LINE: usize = 131_072;

/// Words for `serve` that each start passes: a run may take any number of bytes.
const SERVE_OPTIONS: &[&str] = &["--endless"];

/// How a log is served.
#[derive(Debug)]
pub struct Options {
    command: Command,
    errors: Errors,
}

impl Options {
    /// The log in this folder, by the program that the system finds under the name `clfs`.
    pub fn new(folder: impl AsRef<Path>) -> Options {
        Options::with_program(folder, "clfs")
    }

    /// The log in this folder, by this program.
    pub fn with_program(folder: impl AsRef<Path>, program: impl AsRef<OsStr>) -> Options {
        let mut command = Command::new(program);
        command.arg(folder.as_ref()).arg("serve").args(SERVE_OPTIONS);
        Options { command, errors: Errors::Own }
    }

    /// So many full blocks may wait before all are written, 1 to 64.
    pub fn write_buffers(mut self, count: u32) -> Options {
        self.command.arg("--write-buffers").arg(count.to_string());
        self
    }

    /// So many blocks that were read are kept in memory, 1 to 4,096.
    pub fn read_buffers(mut self, count: u32) -> Options {
        self.command.arg("--read-buffers").arg(count.to_string());
        self
    }

    /// Where what the program writes to its standard error goes on to, once it was read here.
    pub fn stderr(mut self, to: Errors) -> Options {
        self.errors = to;
        self
    }

    /// Starts the program and waits until the log is open.
    pub fn start(self) -> Result<Log, Error> {
        let program = Program::start(self.command, self.errors).map_err(Error::System)?;
        let mut log = Log::new(Pipe::new(program), None);
        log.meet()?;
        Ok(log)
    }
}

/// A program that serves a log, or a connection to one. It ends when the handle is closed or let go, or when this process ends.
pub struct Log {
    pipe: Pipe,
    line: String,
    client: u8,
    /// Of a connection.
    number: Option<u8>,
}

impl fmt::Debug for Log {
    fn fmt(&self, f: &mut fmt::Formatter<'_>) -> fmt::Result {
        f.debug_struct("Log").field("id", &self.id()).field("under_way", &self.under_way()).finish_non_exhaustive()
    }
}

/// A line under way, whose reply gives a `T`. Who lets it go throws the reply away.
#[must_use]
pub struct Ticket<T> {
    slot: Arc<Slot>,
    /// Of the flush after an append, in a line of its own.
    flush: Option<Arc<Slot>>,
    area: Area,
    take: fn(Reply, Area) -> Option<T>,
}

impl<T> fmt::Debug for Ticket<T> {
    fn fmt(&self, f: &mut fmt::Formatter<'_>) -> fmt::Result {
        f.debug_struct("Ticket").field("area", &self.area).field("reply", &self.slot.get()).finish_non_exhaustive()
    }
}

impl Log {
    /// Starts the program `clfs` over the log in a folder.
    pub fn start(folder: impl AsRef<Path>) -> Result<Log, Error> {
        Options::new(folder).start()
    }

    /// A connection to the service whose door is in a folder, beside other programs, with the number that the service gives it for as long as it is
    /// open. Waits so long for the number, without a limit for None.
    ///
    /// ```no_run
    /// # use std::time::Duration;
    /// # fn main() -> Result<(), clfs::Error> {
    /// let mut log = clfs::Log::connect("place", Duration::from_secs(10))?;
    /// let stream = log.open(log.number(), "orders")?;
    /// let orders = log.area(log.number(), stream, 1000, 4)?;
    /// log.append(orders, &clfs::Draft { flush: true, ..clfs::Draft::new(b"commit") })?;
    /// log.close()
    /// # }
    /// ```
    ///
    /// Each call has that number; another one is [`Error::OtherClient`]. The connection begins without areas, and its end deletes those that it
    /// made. An append with `flush` is two lines over it, answered with the second one: so connections share a sync. If the append is refused,
    /// the log is flushed all the same. The pipes are made by the program `mkfifo`.
    pub fn connect(place: impl AsRef<Path>, timeout: impl Into<Option<Duration>>) -> Result<Log, Error> {
        let (connection, number) = connection::visit(place.as_ref(), timeout.into())?;
        Ok(Log::new(Pipe::new(connection), Some(number)))
    }

    /// A connection as this client of `clfs FOLDER share`, by the pair of named pipes of that client. Waits so long for somebody who serves it.
    /// Each pair serves once.
    pub fn attach(
        number: u8,
        input: impl AsRef<Path>,
        output: impl AsRef<Path>,
        timeout: impl Into<Option<Duration>>,
    ) -> Result<Log, Error> {
        let connection = connection::pair(input.as_ref(), output.as_ref(), timeout.into())?;
        Ok(Log::new(Pipe::new(connection), Some(number)))
    }

    fn new(pipe: Pipe, number: Option<u8>) -> Log {
        Log { pipe, line: String::new(), client: number.unwrap_or(1), number }
    }

    /// Ends the input, takes the replies under way, and waits for the end of the program, or of the visit to a service. What isn't flushed is gone
    /// with the program.
    pub fn close(mut self) -> Result<(), Error> {
        self.pipe.close()
    }

    /// The process of the program; 0 of a connection.
    pub fn id(&self) -> u32 {
        self.pipe.id()
    }

    /// The number of the client: over a connection its own, and else what [`Log::set_client`] has set, at first 1.
    pub fn number(&self) -> u8 {
        self.client
    }

    /// Whether the handle is of no use any more, as far as calls have seen: the program or the service has ended, or said what nobody knows.
    pub fn is_over(&self) -> bool {
        self.pipe.is_over()
    }

    /// Kills the program, as a crash would, or ends the visit to a service, as the death of this process would. The next call tells so.
    pub fn kill(&mut self) -> Result<(), Error> {
        self.pipe.kill().map_err(Error::System)
    }

    /// From now on this client asks in the calls that name neither a client nor an area, as [`Log::info`]. At first it is 1, and over a connection its
    /// own, the only one that may ask there.
    pub fn set_client(&mut self, client: u8) {
        self.client = client;
    }

    // Streams, areas, and the whole log.

    /// The number of the stream of this name, which is made if it isn't there.
    pub fn open(&mut self, client: u8, name: &str) -> Result<u32, Error> {
        if name.is_empty() || name.contains(|letter: char| letter.is_whitespace()) {
            return Err(Error::NotAWord(name.to_owned()));
        }
        self.ask(client, format_args!("open {name}"), |reply, _| match reply {
            Reply::Stream(number) => Some(number),
            _ => None,
        })
    }

    /// A new area on a stream, for records of at most `largest` bytes and with `reads` cursors.
    pub fn area(&mut self, client: u8, stream: u32, largest: u32, reads: u32) -> Result<Area, Error> {
        let number = self.ask(client, format_args!("area {stream} {largest} {reads}"), |reply, _| match reply {
            Reply::Area(number) => Some(number),
            _ => None,
        })?;
        Ok(Area { client, number, stream })
    }

    /// What the log and the stream of this number are like.
    pub fn info(&mut self, stream: u32) -> Result<Info, Error> {
        self.ask(self.client, format_args!("info {stream}"), |reply, _| match reply {
            Reply::Info(info) => Some(info),
            _ => None,
        })
    }

    /// Turns archiving on or off.
    pub fn archive(&mut self, on: bool) -> Result<(), Error> {
        self.ask(self.client, format_args!("archive {}", if on { "on" } else { "off" }), done)
    }

    /// Says that everything below the LSN is archived.
    pub fn tail(&mut self, lsn: Lsn) -> Result<Lsn, Error> {
        self.ask(self.client, format_args!("tail {lsn}"), |reply, _| match reply {
            Reply::Tail(lsn) => Some(lsn),
            _ => None,
        })
    }

    /// What is to be archived.
    pub fn extents(&mut self) -> Result<Vec<Extent>, Error> {
        self.ask(self.client, format_args!("extents"), |reply, _| match reply {
            Reply::Extents(extents) => Some(extents),
            _ => None,
        })
    }

    /// Installs a policy.
    pub fn set_policy(&mut self, policy: Policy) -> Result<(), Error> {
        self.ask(self.client, format_args!("policy {}", policy.words()), done)
    }

    /// Takes a policy away again.
    pub fn unset_policy(&mut self, kind: PolicyKind) -> Result<(), Error> {
        self.ask(self.client, format_args!("unpolicy {}", kind.word()), done)
    }

    /// Gives the log so many containers.
    pub fn size(&mut self, containers: u32) -> Result<u32, Error> {
        self.ask(self.client, format_args!("size {containers}"), |reply, _| match reply {
            Reply::Containers(number) => Some(number),
            _ => None,
        })
    }

    /// Opens the log again, as after a crash: what isn't flushed is gone, and so are all areas and cursors.
    pub fn reopen(&mut self) -> Result<Lsn, Error> {
        self.ask(self.client, format_args!("reopen"), flushed)
    }

    // Appending.

    /// Appends a record, and gives its LSN.
    pub fn append(&mut self, area: Area, draft: &Draft<'_>) -> Result<Lsn, Error> {
        let ticket = self.send_append(area, draft)?;
        self.answer(ticket)
    }

    /// As [`Log::append`], without waiting for the reply.
    pub fn send_append(&mut self, area: Area, draft: &Draft<'_>) -> Result<Ticket<Lsn>, Error> {
        let has_flush = draft.flush && self.number.is_some();
        self.begin(area, "append");
        self.add_data(draft.data);
        self.add(format_args!(" {} {}", draft.previous, draft.undo_next));
        let flush = draft.flush && !has_flush;
        for (asked, option) in [(draft.reserved, " reserved"), (draft.seal, " seal"), (flush, " flush"), (!draft.hold.is_empty(), " hold")]
        {
            if asked {
                self.line.push_str(option);
            }
        }
        self.add_numbers(draft.hold);
        if has_flush {
            self.finish_with_flush(area)
        } else {
            self.finish(area, placed)
        }
    }

    /// Brings all records to the disk. Every record below the LSN that it gives is stable.
    pub fn flush(&mut self, area: Area) -> Result<Lsn, Error> {
        let ticket = self.send_flush(area)?;
        self.answer(ticket)
    }

    /// As [`Log::flush`], without waiting for the reply.
    pub fn send_flush(&mut self, area: Area) -> Result<Ticket<Lsn>, Error> {
        self.begin(area, "flush");
        self.finish(area, flushed)
    }

    /// As [`Log::flush`], unless the record at the LSN is stable already.
    pub fn flush_to(&mut self, area: Area, lsn: Lsn) -> Result<Lsn, Error> {
        let ticket = self.send_flush_to(area, lsn)?;
        self.answer(ticket)
    }

    /// As [`Log::flush_to`], without waiting for the reply.
    pub fn send_flush_to(&mut self, area: Area, lsn: Lsn) -> Result<Ticket<Lsn>, Error> {
        self.begin(area, "flushto");
        self.add(format_args!(" {lsn}"));
        self.finish(area, flushed)
    }

    /// Appends a restart area, flushes, and moves the stream's base there, unless it is null. `reserved` takes its sectors from what the area
    /// holds.
    pub fn restart(&mut self, area: Area, data: &[u8], base: Lsn, reserved: bool) -> Result<Lsn, Error> {
        self.begin(area, "restart");
        self.add_data(data);
        self.add(format_args!(" {base}{}", if reserved { " reserved" } else { "" }));
        let ticket = self.finish(area, placed)?;
        self.answer(ticket)
    }

    /// Flushes, and moves the stream's base: records below it are dead.
    pub fn advance(&mut self, area: Area, base: Lsn) -> Result<Lsn, Error> {
        self.begin(area, "advance");
        self.add(format_args!(" {base}"));
        let ticket = self.finish(area, |reply, _| match reply {
            Reply::Base(lsn) => Some(lsn),
            _ => None,
        })?;
        self.answer(ticket)
    }

    // Room.

    /// Holds sectors for records of these lengths, 1 to 16 of them. Gives the sectors that the area now holds.
    pub fn reserve(&mut self, area: Area, lengths: &[u32]) -> Result<u32, Error> {
        self.with_numbers(area, "reserve", lengths, held)
    }

    /// Gives up sectors that the area holds.
    pub fn release(&mut self, area: Area, sectors: u32) -> Result<u32, Error> {
        self.with_numbers(area, "release", &[sectors], held)
    }

    /// How many sectors records of these lengths would need.
    pub fn align(&mut self, area: Area, lengths: &[u32]) -> Result<u32, Error> {
        self.with_numbers(area, "align", lengths, |reply, _| match reply {
            Reply::Sectors(number) => Some(number),
            _ => None,
        })
    }

    /// Ends the area, with what it holds and its cursors.
    pub fn drop_area(&mut self, area: Area) -> Result<(), Error> {
        self.with_numbers(area, "drop", &[], done)
    }

    // Reading.

    /// A cursor at the record of this LSN, and that record.
    pub fn read(&mut self, area: Area, lsn: Lsn, mode: Mode) -> Result<(Cursor, Record), Error> {
        let ticket = self.send_read(area, lsn, mode)?;
        self.answer(ticket)
    }

    /// As [`Log::read`], without waiting for the reply.
    pub fn send_read(&mut self, area: Area, lsn: Lsn, mode: Mode) -> Result<Ticket<(Cursor, Record)>, Error> {
        self.begin(area, "read");
        self.add(format_args!(" {lsn} {}", mode.word()));
        self.finish(area, found)
    }

    /// The record that the cursor comes to. At an end the cursor stays where it is.
    pub fn next(&mut self, cursor: Cursor) -> Result<Record, Error> {
        let ticket = self.send_next(cursor)?;
        self.answer(ticket)
    }

    /// As [`Log::next`], without waiting for the reply.
    pub fn send_next(&mut self, cursor: Cursor) -> Result<Ticket<Record>, Error> {
        self.begin(cursor.area, "next");
        self.add_numbers(&[cursor.number]);
        self.finish(cursor.area, next)
    }

    /// Ends a cursor, so that its number is free.
    pub fn end(&mut self, cursor: Cursor) -> Result<(), Error> {
        self.with_numbers(cursor.area, "end", &[cursor.number], done)
    }

    /// A cursor at the stream's newest restart area, and that restart area.
    pub fn read_restart(&mut self, area: Area) -> Result<(Cursor, Record), Error> {
        self.with_numbers(area, "readrestart", &[], found)
    }

    /// The restart area before the cursor's.
    pub fn previous_restart(&mut self, cursor: Cursor) -> Result<Record, Error> {
        self.with_numbers(cursor.area, "prevrestart", &[cursor.number], next)
    }

    /// The record of this LSN and those to which a cursor goes from it, up to the end.
    pub fn records(&mut self, area: Area, lsn: Lsn, mode: Mode) -> Result<Records<'_>, Error> {
        let walk = self.walk(area, lsn, mode)?;
        Ok(Records { log: self, walk })
    }

    /// The restart areas of the stream, newest first, at least one: [`Refusal::NoRestart`] if there is none.
    pub fn restarts(&mut self, area: Area) -> Result<Records<'_>, Error> {
        let walk = self.walk_restarts(area)?;
        Ok(Records { log: self, walk })
    }

    /// As [`Log::records`], without a loan of the log.
    pub fn walk(&mut self, area: Area, lsn: Lsn, mode: Mode) -> Result<Walk, Error> {
        Ok(Walk::new(self.read(area, lsn, mode)?, Log::next))
    }

    /// As [`Log::restarts`], without a loan of the log.
    pub fn walk_restarts(&mut self, area: Area) -> Result<Walk, Error> {
        Ok(Walk::new(self.read_restart(area)?, Log::previous_restart))
    }

    // Lines and replies.

    /// What was answered to a line, waiting for it if need be.
    pub fn answer<T>(&mut self, ticket: Ticket<T>) -> Result<T, Error> {
        let answer = self.answer_in(&ticket.slot, ticket.area, ticket.take);
        let Some(flush) = &ticket.flush else { return answer };
        let flushed = self.answer_in(flush, ticket.area, flushed);
        match (&answer, &flushed) {
            (Err(Error::Refused(_)), Ok(_) | Err(Error::Refused(_))) => answer,
            _ => flushed.and(answer),
        }
    }

    fn answer_in<T>(&mut self, slot: &Slot, area: Area, take: fn(Reply, Area) -> Option<T>) -> Result<T, Error> {
        self.pipe.wait(slot)?;
        let line = slot.get().map_or("", String::as_str);
        match answer_of(line, area.client) {
            Some(Err(refusal)) => Err(refusal.into()),
            Some(Ok(reply)) => take(reply, area).ok_or_else(|| self.unknown(line)),
            None => Err(self.unknown(line)),
        }
    }

    /// Writes the lines that were gathered. Waiting for an answer does so too, and so does every 64 KiB.
    pub fn push(&mut self) -> Result<(), Error> {
        self.pipe.push()
    }

    /// How many lines have no reply yet.
    pub fn under_way(&self) -> usize {
        self.pipe.under_way()
    }

    fn unknown(&mut self, line: &str) -> Error {
        self.pipe.fail(Error::UnknownReply(line.to_owned()))
    }

    /// Waits until the log is open: an empty line is answered as a bad one, whatever the log is like.
    fn meet(&mut self) -> Result<(), Error> {
        self.line.clear();
        let ticket = self.finish(nowhere(0), |_, _| None::<()>)?;
        match self.answer(ticket) {
            Err(Error::Refused(Refusal::BadLine { at: 0 })) => Ok(()),
            Err(Error::Refused(refusal)) => Err(self.unknown(&refusal.to_string())),
            answer => answer,
        }
    }

    fn ask<T>(&mut self, client: u8, words: std::fmt::Arguments<'_>, take: fn(Reply, Area) -> Option<T>) -> Result<T, Error> {
        self.line.clear();
        self.add(format_args!("{client} {words}"));
        let ticket = self.finish(nowhere(client), take)?;
        self.answer(ticket)
    }

    fn with_numbers<T>(&mut self, area: Area, verb: &str, numbers: &[u32], take: fn(Reply, Area) -> Option<T>) -> Result<T, Error> {
        self.begin(area, verb);
        self.add_numbers(numbers);
        let ticket = self.finish(area, take)?;
        self.answer(ticket)
    }

    fn begin(&mut self, area: Area, verb: &str) {
        self.line.clear();
        self.add(format_args!("{} {verb} {}", area.client, area.number));
    }

    fn add(&mut self, words: std::fmt::Arguments<'_>) {
        // (writing to a string can't fail)
        let _ = self.line.write_fmt(words);
    }

    fn add_numbers(&mut self, numbers: &[u32]) {
        for number in numbers {
            self.add(format_args!(" {number}"));
        }
    }

    fn add_data(&mut self, data: &[u8]) {
        const DIGITS: [char; 16] = ['0', '1', '2', '3', '4', '5', '6', '7', '8', '9', 'a', 'b', 'c', 'd', 'e', 'f'];
        self.line.push_str(if data.is_empty() { " -" } else { " " });
        for byte in data {
            self.line.extend([DIGITS[usize::from(byte >> 4)], DIGITS[usize::from(byte & 15)]]);
        }
    }

    fn finish<T>(&mut self, area: Area, take: fn(Reply, Area) -> Option<T>) -> Result<Ticket<T>, Error> {
        self.look_at_line(area)?;
        let slot = self.pipe.send(self.line.as_bytes())?;
        Ok(Ticket { slot, flush: None, area, take })
    }

    /// Sends an append and a flush. Connections that send both at about the same time share a sync, as one line that does both never does.
    fn finish_with_flush(&mut self, area: Area) -> Result<Ticket<Lsn>, Error> {
        self.look_at_line(area)?;
        let slot = self.pipe.gather(self.line.as_bytes())?;
        self.begin(area, "flush");
        let flush = self.pipe.send(self.line.as_bytes())?;
        Ok(Ticket { slot, flush: Some(flush), area, take: placed })
    }

    /// Whether the line may be sent.
    fn look_at_line(&self, area: Area) -> Result<(), Error> {
        if self.line.len() > LONGEST_LINE {
            return Err(Error::LineTooLong(self.line.len()));
        }
        match self.number {
            Some(number) if number != area.client => Err(Error::OtherClient(area.client)),
            _ => Ok(()),
        }
    }
}

/// The place of a line that names no area.
fn nowhere(client: u8) -> Area {
    Area { client, number: 0, stream: 0 }
}

fn done(reply: Reply, _: Area) -> Option<()> {
    matches!(reply, Reply::Done).then_some(())
}

fn held(reply: Reply, _: Area) -> Option<u32> {
    match reply {
        Reply::Held(number) => Some(number),
        _ => None,
    }
}

fn placed(reply: Reply, _: Area) -> Option<Lsn> {
    match reply {
        Reply::Placed(lsn) => Some(lsn),
        _ => None,
    }
}

fn flushed(reply: Reply, _: Area) -> Option<Lsn> {
    match reply {
        Reply::Flushed(lsn) => Some(lsn),
        _ => None,
    }
}

fn found(reply: Reply, area: Area) -> Option<(Cursor, Record)> {
    match reply {
        Reply::Found(number, record) => Some((Cursor { area, number }, record)),
        _ => None,
    }
}

fn next(reply: Reply, _: Area) -> Option<Record> {
    match reply {
        Reply::Next(record) => Some(record),
        _ => None,
    }
}

/// The sizes of a log that is made.
#[derive(Clone, Copy, Debug)]
pub struct Sizes {
    /// The sectors of the largest block, 1 to 128.
    pub block_sectors: u32,
    /// The sectors of a container, twice those of the largest block to 16,384.
    pub container_sectors: u32,
    /// The containers, 1 to 256.
    pub containers: u32,
    /// Whether only a single stream can be opened in it.
    pub dedicated: bool,
}

/// Makes a log in a folder. If a log is there already, that is [`End::LogExists`].
pub fn format(folder: impl AsRef<Path>, sizes: &Sizes, program: impl AsRef<OsStr>) -> Result<(), Error> {
    let mut command = Command::new(program);
    command.arg(folder.as_ref()).arg("format");
    command.args(["--block-sectors", &sizes.block_sectors.to_string()]);
    command.args(["--container-sectors", &sizes.container_sectors.to_string()]);
    command.args(["--containers", &sizes.containers.to_string()]);
    if sizes.dedicated {
        command.arg("--dedicated");
    }
    let (program, errors) = program::start_watched(command.stdin(Stdio::null()), Errors::Own).map_err(Error::System)?;
    let ran = program.wait_with_output().map_err(Error::System)?;
    let said = String::from_utf8_lossy(&ran.stdout);
    let said = said.strip_suffix('\n').unwrap_or(&said);
    let end = match (ran.status.code(), said) {
        (Some(0), "formatted") => return Ok(()),
        (Some(code), "") if code != 0 => program::end_with(code),
        (Some(code), _) => match end_of(said) {
            Some((end, status)) if status == code => end,
            _ => return Err(Error::UnknownReply(said.to_owned())),
        },
        (None, _) => End::Signal(std::os::unix::process::ExitStatusExt::signal(&ran.status).unwrap_or(0)),
    };
    Err(Error::Ended(Ending { end: errors.end(end, ran.status.code()), unanswered: 0 }))
}
