//! LSNs, records, and the other values of calls and replies.
use std::fmt;
use std::str::FromStr;

/// Where a record lies. Later records have greater LSNs.
#[derive(Clone, Copy, Debug, Default, PartialEq, Eq, PartialOrd, Ord, Hash)]
pub struct Lsn(u64);

impl Lsn {
    /// The LSN that names no record.
    pub const NULL: Lsn = Lsn(0);

    /// The LSN of this number, as [`Lsn::number`] gave it.
    pub fn from_number(number: u64) -> Lsn {
        Lsn(number)
    }

    /// `container * 2^32 + offset + sequence`.
    pub fn number(self) -> u64 {
        self.0
    }

    /// The id of the container.
    pub fn container(self) -> u32 {
        (self.0 >> 32) as u32
    }

    /// The offset of the record's block in its container, in bytes.
    pub fn offset(self) -> u32 {
        self.0 as u32 & !511
    }

    /// The number of the record in its block, from 0.
    pub fn sequence(self) -> u32 {
        self.0 as u32 & 511
    }

    /// Whether it names no record.
    pub fn is_null(self) -> bool {
        self == Lsn::NULL
    }

    /// The LSN above this one and below that of each later record: a base there leaves this record dead.
    pub fn after(self) -> Lsn {
        Lsn(self.0 + 1)
    }
}

impl fmt::Display for Lsn {
    fn fmt(&self, f: &mut fmt::Formatter<'_>) -> fmt::Result {
        write!(f, "{:x}:{:x}:{:x}", self.container(), self.offset(), self.sequence())
    }
}

/// A text that is no LSN.
#[derive(Clone, Copy, Debug, PartialEq, Eq)]
pub struct NoLsn;

impl fmt::Display for NoLsn {
    fn fmt(&self, f: &mut fmt::Formatter<'_>) -> fmt::Result {
        f.write_str("the text is no LSN")
    }
}

impl std::error::Error for NoLsn {}

impl FromStr for Lsn {
    type Err = NoLsn;

    fn from_str(text: &str) -> Result<Lsn, NoLsn> {
        let mut parts = text.split(':').map(hexadecimal);
        let mut part = || parts.next().flatten().ok_or(NoLsn);
        let (container, offset, sequence) = (part()?, part()?, part()?);
        if parts.next().is_some() || offset % 512 != 0 || sequence > 511 {
            return Err(NoLsn);
        }
        Ok(Lsn(u64::from(container) << 32 | u64::from(offset | sequence)))
    }
}

/// The number that a text is, in lower-case hexadecimal without leading zeros.
pub(crate) fn hexadecimal(text: &str) -> Option<u32> {
    let right = text.bytes().all(|byte| matches!(byte, b'0'..=b'9' | b'a'..=b'f'));
    let number = u32::from_str_radix(text, 16).ok()?;
    (right && (text == "0" || !text.starts_with('0'))).then_some(number)
}

/// The way that a cursor goes.
#[derive(Clone, Copy, Debug, PartialEq, Eq)]
pub enum Mode {
    /// Along the previous links.
    Previous,
    /// Along the undo-next links.
    UndoNext,
    /// Forward through the stream.
    Forward,
}

impl Mode {
    pub(crate) fn word(self) -> &'static str {
        match self {
            Mode::Previous => "previous",
            Mode::UndoNext => "undo",
            Mode::Forward => "forward",
        }
    }
}

/// What a record is.
#[derive(Clone, Copy, Debug, PartialEq, Eq)]
pub enum Kind {
    /// A client's data.
    Data,
    /// A restart area.
    Restart,
}

/// A record of a stream.
#[derive(Clone, Debug, PartialEq, Eq)]
pub struct Record {
    /// Where it lies.
    pub lsn: Lsn,
    /// What it is.
    pub kind: Kind,
    /// Its previous link.
    pub previous: Lsn,
    /// Its undo-next link.
    pub undo_next: Lsn,
    /// The new base that a restart area carries.
    pub base: Lsn,
    /// Its data.
    pub data: Vec<u8>,
}

/// A record to be appended.
#[derive(Clone, Copy, Debug, Default)]
pub struct Draft<'a> {
    /// Its data.
    pub data: &'a [u8],
    /// An earlier record of the stream, or null.
    pub previous: Lsn,
    /// The record that is to be undone after this one, or null.
    pub undo_next: Lsn,
    /// Takes its sectors from what the area holds.
    pub reserved: bool,
    /// Lets no further record into its block.
    pub seal: bool,
    /// Brings the log to the disk before the reply.
    pub flush: bool,
    /// Holds sectors for up to 16 later records of these lengths.
    pub hold: &'a [u32],
}

impl<'a> Draft<'a> {
    /// A record with this data, without links and options.
    pub fn new(data: &'a [u8]) -> Draft<'a> {
        Draft { data, ..Draft::default() }
    }
}

/// An area of a client on a stream. `reopen` and the end of the program end all areas.
#[derive(Clone, Copy, Debug, PartialEq, Eq)]
pub struct Area {
    /// The client, 1 to 64.
    pub client: u8,
    /// The number of the area among the client's, 1 to 16.
    pub number: u32,
    /// The stream.
    pub stream: u32,
}

/// A cursor of an area, over records or over restart areas.
#[derive(Clone, Copy, Debug, PartialEq, Eq)]
pub struct Cursor {
    /// The area.
    pub area: Area,
    /// The number of the cursor among the area's, 1 to 16.
    pub number: u32,
}

/// Bytes of a container that are to be archived.
#[derive(Clone, Copy, Debug, PartialEq, Eq)]
pub struct Extent {
    /// The id of the container.
    pub container: u32,
    /// The first byte.
    pub low: u32,
    /// The end.
    pub high: u32,
}

/// A rule for the size of the log, with its value.
#[derive(Clone, Copy, Debug, PartialEq, Eq)]
#[non_exhaustive]
pub enum Policy {
    /// The most containers.
    Maximum(u16),
    /// The fewest containers.
    Minimum(u16),
    /// By how many containers the log grows.
    Growth(u16),
    /// That the log grows by itself.
    Automatic,
}

/// A kind of rule for the size of the log.
#[derive(Clone, Copy, Debug, PartialEq, Eq)]
#[non_exhaustive]
pub enum PolicyKind {
    /// The most containers.
    Maximum,
    /// The fewest containers.
    Minimum,
    /// By how many containers the log grows.
    Growth,
    /// That the log grows by itself.
    Automatic,
}

impl PolicyKind {
    pub(crate) fn word(self) -> &'static str {
        match self {
            PolicyKind::Maximum => "max",
            PolicyKind::Minimum => "min",
            PolicyKind::Growth => "growth",
            PolicyKind::Automatic => "auto",
        }
    }
}

impl Policy {
    pub(crate) fn words(self) -> String {
        match self {
            Policy::Maximum(value) => format!("max {value}"),
            Policy::Minimum(value) => format!("min {value}"),
            Policy::Growth(value) => format!("growth {value}"),
            Policy::Automatic => "auto".to_owned(),
        }
    }
}

/// What the log and one of its streams are like.
#[derive(Clone, Copy, Debug, PartialEq, Eq)]
pub struct Info {
    /// The containers of the log.
    pub containers: u32,
    /// Those of them that aren't in use.
    pub free_containers: u32,
    /// The sectors of a container.
    pub container_sectors: u32,
    /// The free sectors.
    pub free_sectors: u32,
    /// The sectors that all areas hold.
    pub reserved: u32,
    /// The base of the stream.
    pub base: Lsn,
    /// The stream's last live record, or null.
    pub last: Lsn,
    /// All records below it are on the disk.
    pub flushed: Lsn,
    /// The stream's newest restart area, or null.
    pub restart: Lsn,
    /// The archive tail, if archiving is on.
    pub archive: Option<Lsn>,
}
