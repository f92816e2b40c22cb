//! What may go wrong: refusals with their fields, and the ends of the program.
use crate::values::Lsn;
use std::fmt;
use std::io;

/// Why a call wasn't done.
#[derive(Debug)]
#[non_exhaustive]
pub enum Error {
    /// The log refused the call. Except after [`Refusal::DiskFault`] and [`Refusal::Damaged`] it is as it was; after these two it is broken until
    /// the next start.
    Refused(Refusal),
    /// The program, or the service of a connection, has ended or was killed.
    Ended(Ending),
    /// The program wrote a line that the language doesn't have. What it means is not guessed; the program was killed.
    UnknownReply(String),
    /// A call of the system failed.
    System(io::Error),
    /// The line would have more than 131,072 bytes, which no record of a log needs. Nothing was sent.
    LineTooLong(usize),
    /// A name isn't one word. Nothing was sent.
    NotAWord(String),
    /// The ticket is one of another log.
    OtherTicket,
    /// The call is another client's than the connection's, which [`Log::number`](crate::Log::number) tells. Nothing was sent.
    OtherClient(u8),
    /// Nobody serves there, or the service ended before it gave a number.
    NoService,
    /// The service gave no number in time: all that it has are taken.
    NoFreeNumber,
}

/// Why the log refused a call, with the fields that it told.
#[derive(Clone, Copy, Debug, PartialEq, Eq)]
#[non_exhaustive]
pub enum Refusal {
    /// The program found no memory.
    NoMemory,
    /// The disk failed in this call. The program's standard error says which file and how.
    DiskFault,
    /// An earlier call was answered `DiskFault` or `Damaged`.
    Broken,
    /// A log of one container takes no records.
    NotEnoughContainers {
        /// The containers that it has.
        have: u32,
    },
    /// The free sectors are fewer than the reserved ones and those that the call needs.
    Full {
        /// The free sectors.
        free: u32,
        /// The sectors that all areas hold.
        reserved: u32,
        /// The sectors that the call needs.
        need: u32,
    },
    /// The area holds fewer sectors than the call takes from it.
    ReservationShort {
        /// The sectors that the area holds.
        held: u32,
        /// The sectors that the call takes.
        need: u32,
    },
    /// A length is above the area's largest, or an area's largest above the log's longest record.
    RecordTooLong {
        /// The length.
        length: u32,
        /// The longest one that is allowed.
        most: u32,
    },
    /// The link is neither null, nor below the stream's base, nor a live record's.
    LinkInvalid {
        /// The link.
        lsn: Lsn,
    },
    /// No stream has the number.
    NoSuchStream,
    /// The client has no area of the number.
    NoSuchArea,
    /// Bytes on the disk aren't those that a log has. Container 0 is the base file.
    Damaged {
        /// The id of the container.
        container: u32,
        /// The offset of the block, in bytes.
        offset: u32,
        /// The byte of the block.
        at: u32,
    },
    /// The area has no cursor of the number and kind.
    NoSuchCursor,
    /// The log has as many streams as it may have.
    StreamLimit {
        /// How many it has.
        count: u32,
    },
    /// The client has as many areas as it may have.
    AreaLimit {
        /// How many the client has.
        count: u32,
    },
    /// The area has as many cursors as it was made for.
    CursorLimit {
        /// How many cursors are open.
        open: u32,
    },
    /// Byte `at` of the name isn't a letter, a digit, `_`, `-` or `.`, or the name is too long.
    NameInvalid {
        /// The byte of the name, from 0.
        at: u32,
    },
    /// No live record of the stream has the LSN; for `flush_to`, no record of the log lies there yet.
    RecordNonexistent {
        /// The LSN that was asked for.
        lsn: Lsn,
    },
    /// No record of the stream follows.
    EndOfLog,
    /// The link of the cursor's record names no live record.
    StartOfLog,
    /// There is no restart area, or none before the cursor's.
    NoRestart,
    /// The new base is neither a live record's LSN nor one above the last one's.
    TailInvalid {
        /// The base that was asked for.
        lsn: Lsn,
        /// The stream's base.
        base: Lsn,
        /// The stream's last live record, or null.
        last: Lsn,
    },
    /// The new tail is below the old one, or above what is on the disk.
    ArchiveTailInvalid {
        /// The tail that was asked for.
        lsn: Lsn,
        /// The archive tail.
        tail: Lsn,
        /// All records below it are on the disk.
        flushed: Lsn,
    },
    /// Archiving is off.
    Ephemeral,
    /// Fewer containers were asked for than are needed.
    CantShrink {
        /// The containers that are in use.
        active: u32,
        /// The fewest that are allowed.
        need: u32,
    },
    /// More containers were asked for than the policies or the log allow.
    ContainerLimit {
        /// The most that are allowed.
        limit: u32,
    },
    /// The value is outside its range.
    PolicyConflict {
        /// The least value.
        least: u32,
        /// The greatest value.
        most: u32,
    },
    /// The policy isn't there.
    PolicyNotInstalled,
    /// The language has no such line: it goes wrong at byte `at`, as at a client 0 or a cursor 17.
    BadLine {
        /// The byte of the line, from 0.
        at: u32,
    },
    /// The log is dedicated and has its one stream already.
    Dedicated,
}

/// The end of the program. Of the lines without a reply a first part may have been done.
#[derive(Clone, Copy, Debug, PartialEq, Eq)]
pub struct Ending {
    /// How it ended.
    pub end: End,
    /// The lines that have no reply.
    pub unanswered: usize,
}

/// How the program ended.
#[derive(Clone, Copy, Debug, PartialEq, Eq)]
#[non_exhaustive]
pub enum End {
    /// With status 0.
    Well,
    /// It has no such command or option (1).
    NoCommand,
    /// It couldn't read its input (2).
    InputFailed,
    /// It couldn't write its replies (3).
    OutputFailed,
    /// The disk failed before the log was open, or while it was made; standard error says in which call (4).
    DiskFailed,
    /// Another process had the folder (4).
    Locked,
    /// The folder, or a file of it, may not be read or written; standard error says which (4).
    NoPermission,
    /// There was no such folder (6), or none that the log's folder would be made in (4).
    NoFolder,
    /// It found no memory (5).
    NoMemory,
    /// The folder has no log: no base copy counts, or bytes at a place aren't a log's (6).
    NotALog(Option<Place>),
    /// It has taken a line that is too long, or as many bytes of input as it may: start it again (7).
    InputTooLong,
    /// A log is there already (8).
    LogExists,
    /// With another status; 70 is that of `./clfs` if it couldn't bring the program up to date.
    Status(i32),
    /// A signal ended it.
    Signal(i32),
    /// The service of a connection has ended, or has ended the visit. Connect again: nothing is done anew, and areas are to be made again.
    ServiceEnded,
}

/// A place in the files of a log. Container 0 is the base file.
#[derive(Clone, Copy, Debug, PartialEq, Eq)]
pub struct Place {
    /// The id of the container.
    pub container: u32,
    /// The offset of the block.
    pub offset: u32,
    /// The byte of the block.
    pub at: u32,
}

impl Error {
    /// The same error once more, for the calls after one that made the handle useless.
    pub(crate) fn again(&self) -> Error {
        match self {
            Error::Refused(refusal) => Error::Refused(*refusal),
            Error::Ended(ending) => Error::Ended(*ending),
            Error::UnknownReply(line) => Error::UnknownReply(line.clone()),
            Error::System(error) => Error::System(io::Error::new(error.kind(), error.to_string())),
            Error::LineTooLong(size) => Error::LineTooLong(*size),
            Error::NotAWord(name) => Error::NotAWord(name.clone()),
            Error::OtherTicket => Error::OtherTicket,
            Error::OtherClient(client) => Error::OtherClient(*client),
            Error::NoService => Error::NoService,
            Error::NoFreeNumber => Error::NoFreeNumber,
        }
    }

    /// The refusal, if it is one.
    pub fn refusal(&self) -> Option<Refusal> {
        match self {
            Error::Refused(refusal) => Some(*refusal),
            _ => None,
        }
    }
}

impl fmt::Display for Error {
    fn fmt(&self, f: &mut fmt::Formatter<'_>) -> fmt::Result {
        match self {
            Error::Refused(refusal) => write!(f, "refused: {refusal}"),
            Error::Ended(ending) => write!(f, "{ending}"),
            Error::UnknownReply(line) => write!(f, "unknown reply: {line}"),
            Error::System(error) => write!(f, "the system: {error}"),
            Error::LineTooLong(size) => write!(f, "a line of {size} bytes is too long"),
            Error::NotAWord(name) => write!(f, "a name is one word: {name:?}"),
            Error::OtherTicket => f.write_str("the ticket is one of another log"),
            Error::OtherClient(client) => write!(f, "the connection isn't that of client {client}"),
            Error::NoService => f.write_str("nobody serves there"),
            Error::NoFreeNumber => f.write_str("the service has given no number in time"),
        }
    }
}

impl std::error::Error for Error {
    fn source(&self) -> Option<&(dyn std::error::Error + 'static)> {
        match self {
            Error::System(error) => Some(error),
            _ => None,
        }
    }
}

impl From<Refusal> for Error {
    fn from(refusal: Refusal) -> Error {
        Error::Refused(refusal)
    }
}

impl fmt::Display for Refusal {
    fn fmt(&self, f: &mut fmt::Formatter<'_>) -> fmt::Result {
        match self {
            Refusal::NoMemory => f.write_str("the program found no memory"),
            Refusal::DiskFault => f.write_str("the disk failed"),
            Refusal::Broken => f.write_str("an earlier call broke the log"),
            Refusal::NotEnoughContainers { have } => write!(f, "{have} containers are not enough"),
            Refusal::Full { free, reserved, need } => {
                write!(f, "{free} sectors are free, {reserved} reserved and {need} needed")
            }
            Refusal::ReservationShort { held, need } => write!(f, "the area holds {held} sectors, and {need} are needed"),
            Refusal::RecordTooLong { length, most } => write!(f, "{length} bytes are more than {most}"),
            Refusal::LinkInvalid { lsn } => write!(f, "{lsn} is no record to link to"),
            Refusal::NoSuchStream => f.write_str("no stream has the number"),
            Refusal::NoSuchArea => f.write_str("the client has no such area"),
            Refusal::Damaged { container, offset, at } => {
                write!(f, "damage in container {container}, offset {offset}, byte {at}")
            }
            Refusal::NoSuchCursor => f.write_str("the area has no such cursor"),
            Refusal::StreamLimit { count } => write!(f, "the log has {count} streams already"),
            Refusal::AreaLimit { count } => write!(f, "the client has {count} areas already"),
            Refusal::CursorLimit { open } => write!(f, "the area has {open} cursors already"),
            Refusal::NameInvalid { at } => write!(f, "byte {at} of the name is wrong"),
            Refusal::RecordNonexistent { lsn } => write!(f, "there is no record at {lsn}"),
            Refusal::EndOfLog => f.write_str("the end of the log"),
            Refusal::StartOfLog => f.write_str("the start of the log"),
            Refusal::NoRestart => f.write_str("no restart area"),
            Refusal::TailInvalid { lsn, base, last } => {
                write!(f, "{lsn} is no new base; the base is {base}, the last record {last}")
            }
            Refusal::ArchiveTailInvalid { lsn, tail, flushed } => write!(f, "the archive tail {lsn} isn't in {tail} to {flushed}"),
            Refusal::Ephemeral => f.write_str("archiving is off"),
            Refusal::CantShrink { active, need } => write!(f, "{need} containers are needed, and {active} are in use"),
            Refusal::ContainerLimit { limit } => write!(f, "at most {limit} containers are allowed"),
            Refusal::PolicyConflict { least, most } => write!(f, "the value is outside {least} to {most}"),
            Refusal::PolicyNotInstalled => f.write_str("no such policy is installed"),
            Refusal::BadLine { at } => write!(f, "byte {at} of the line is wrong"),
            Refusal::Dedicated => f.write_str("the log is dedicated and has its stream"),
        }
    }
}

impl std::error::Error for Refusal {}

impl fmt::Display for Ending {
    fn fmt(&self, f: &mut fmt::Formatter<'_>) -> fmt::Result {
        write!(f, "{} (lines without a reply: {})", self.end, self.unanswered)
    }
}

impl fmt::Display for End {
    fn fmt(&self, f: &mut fmt::Formatter<'_>) -> fmt::Result {
        match self {
            End::Well => f.write_str("the program ended"),
            End::NoCommand => f.write_str("the program has no such command or option"),
            End::InputFailed => f.write_str("the program couldn't read its input"),
            End::OutputFailed => f.write_str("the program couldn't write its replies"),
            End::DiskFailed => f.write_str("the disk failed"),
            End::Locked => f.write_str("locked: another process has the folder"),
            End::NoPermission => f.write_str("no permission for the folder or a file of it"),
            End::NoFolder => f.write_str("there is no such folder"),
            End::NoMemory => f.write_str("the program found no memory"),
            End::NotALog(None) => f.write_str("not a log: no open slot"),
            End::NotALog(Some(place)) => {
                write!(f, "not a log: container {} offset {} byte {}", place.container, place.offset, place.at)
            }
            End::InputTooLong => f.write_str("the program has taken as many bytes of input as it may"),
            End::LogExists => f.write_str("a log is there"),
            End::Status(status) => write!(f, "the program ended with status {status}"),
            End::Signal(signal) => write!(f, "the program was ended by signal {signal}"),
            End::ServiceEnded => f.write_str("the service has ended"),
        }
    }
}
