//! Replies, read strictly: what the language doesn't have is None, and never guessed.
use crate::error::{End, Place, Refusal};
use crate::values::{hexadecimal, Extent, Info, Kind, Lsn, Record};

/// What a line of the output says after the client's number, if the call was done.
pub(crate) enum Reply {
    Stream(u32),
    Area(u32),
    Done,
    Held(u32),
    Sectors(u32),
    Containers(u32),
    Placed(Lsn),
    Flushed(Lsn),
    Base(Lsn),
    Tail(Lsn),
    Found(u32, Record),
    Next(Record),
    Extents(Vec<Extent>),
    Info(Info),
}

/// The answer that a line gives to one of this client.
pub(crate) fn answer_of(line: &str, client: u8) -> Option<Result<Reply, Refusal>> {
    let (from, text) = line.split_once(' ')?;
    let from = decimal(from)?;
    let mut words = Words(text.split(' '));
    match text.strip_prefix("refused ") {
        Some(text) => {
            let mut words = Words(text.split(' '));
            let refusal = refusal_of(&mut words)?;
            let to = if matches!(refusal, Refusal::BadLine { .. }) { 0 } else { client };
            (words.is_over() && from == u32::from(to)).then_some(Err(refusal))
        }
        None => {
            let reply = reply_of(&mut words)?;
            (words.is_over() && from == u32::from(client)).then_some(Ok(reply))
        }
    }
}

struct Words<'a>(std::str::Split<'a, char>);

impl<'a> Words<'a> {
    fn word(&mut self) -> Option<&'a str> {
        self.0.next()
    }

    fn is_over(&mut self) -> bool {
        self.word().is_none()
    }

    fn text(&mut self, wanted: &str) -> Option<()> {
        (self.word()? == wanted).then_some(())
    }

    fn number(&mut self) -> Option<u32> {
        decimal(self.word()?)
    }

    fn lsn(&mut self) -> Option<Lsn> {
        self.word()?.parse().ok()
    }
}

fn decimal(word: &str) -> Option<u32> {
    let right = word.bytes().all(|byte| byte.is_ascii_digit()) && (word == "0" || !word.starts_with('0'));
    word.parse().ok().filter(|_| right)
}

fn data_of(word: &str) -> Option<Vec<u8>> {
    fn digit(byte: u8) -> Option<u8> {
        match byte {
            b'0'..=b'9' => Some(byte - b'0'),
            b'a'..=b'f' => Some(byte - b'a' + 10),
            _ => None,
        }
    }
    match word.as_bytes() {
        [] => None,
        b"-" => Some(Vec::new()),
        digits if digits.len() % 2 != 0 => None,
        digits => digits.chunks_exact(2).map(|pair| Some(digit(pair[0])? << 4 | digit(pair[1])?)).collect(),
    }
}

fn record_of(words: &mut Words<'_>) -> Option<Record> {
    let lsn = words.lsn()?;
    let kind = match words.word()? {
        "data" => Kind::Data,
        "restart" => Kind::Restart,
        _ => return None,
    };
    Some(Record { lsn, kind, previous: words.lsn()?, undo_next: words.lsn()?, base: words.lsn()?, data: data_of(words.word()?)? })
}

fn extent_of(word: &str) -> Option<Extent> {
    let (container, span) = word.split_once(':')?;
    let (low, high) = span.split_once('-')?;
    Some(Extent { container: hexadecimal(container)?, low: hexadecimal(low)?, high: hexadecimal(high)? })
}

fn info_of(words: &mut Words<'_>) -> Option<Info> {
    fn number(words: &mut Words<'_>, name: &str) -> Option<u32> {
        words.text(name)?;
        words.number()
    }
    fn lsn(words: &mut Words<'_>, name: &str) -> Option<Lsn> {
        words.text(name)?;
        words.lsn()
    }
    Some(Info {
        containers: number(words, "containers")?,
        free_containers: number(words, "free")?,
        container_sectors: number(words, "size")?,
        free_sectors: number(words, "sectors")?,
        reserved: number(words, "reserved")?,
        base: lsn(words, "base")?,
        last: lsn(words, "last")?,
        flushed: lsn(words, "flushed")?,
        restart: lsn(words, "restart")?,
        archive: {
            words.text("archive")?;
            match words.word()? {
                "off" => None,
                tail => Some(tail.parse().ok()?),
            }
        },
    })
}

fn reply_of(words: &mut Words<'_>) -> Option<Reply> {
    Some(match words.word()? {
        "stream" => Reply::Stream(words.number()?),
        "area" => Reply::Area(words.number()?),
        "ok" => Reply::Done,
        "held" => Reply::Held(words.number()?),
        "sectors" => Reply::Sectors(words.number()?),
        "containers" => Reply::Containers(words.number()?),
        "lsn" => Reply::Placed(words.lsn()?),
        "flushed" => Reply::Flushed(words.lsn()?),
        "base" => Reply::Base(words.lsn()?),
        "tail" => Reply::Tail(words.lsn()?),
        "record" => Reply::Next(record_of(words)?),
        "cursor" => {
            let cursor = words.number()?;
            words.text("record")?;
            Reply::Found(cursor, record_of(words)?)
        }
        "extents" => {
            let count = words.number()?;
            Reply::Extents((0..count).map(|_| extent_of(words.word()?)).collect::<Option<_>>()?)
        }
        "info" => Reply::Info(info_of(words)?),
        _ => return None,
    })
}

/// The refusal that the words tell, after the word `refused`.
fn refusal_of(words: &mut Words<'_>) -> Option<Refusal> {
    let (number, name) = (words.number()?, words.word()?);
    Some(match (number, name) {
        (1, "NoMemory") => Refusal::NoMemory,
        (2, "DiskFault") => Refusal::DiskFault,
        (3, "Broken") => Refusal::Broken,
        (4, "NotEnoughContainers") => Refusal::NotEnoughContainers { have: words.number()? },
        (5, "Full") => Refusal::Full { free: words.number()?, reserved: words.number()?, need: words.number()? },
        (6, "ReservationShort") => Refusal::ReservationShort { held: words.number()?, need: words.number()? },
        (7, "RecordTooLong") => Refusal::RecordTooLong { length: words.number()?, most: words.number()? },
        (8, "LinkInvalid") => Refusal::LinkInvalid { lsn: words.lsn()? },
        (9, "NoSuchStream") => Refusal::NoSuchStream,
        (10, "NoSuchArea") => Refusal::NoSuchArea,
        (11, "Damaged") => Refusal::Damaged { container: words.number()?, offset: words.number()?, at: words.number()? },
        (12, "NoSuchCursor") => Refusal::NoSuchCursor,
        (13, "StreamLimit") => Refusal::StreamLimit { count: words.number()? },
        (14, "AreaLimit") => Refusal::AreaLimit { count: words.number()? },
        (15, "CursorLimit") => Refusal::CursorLimit { open: words.number()? },
        (16, "NameInvalid") => Refusal::NameInvalid { at: words.number()? },
        (17, "RecordNonexistent") => Refusal::RecordNonexistent { lsn: words.lsn()? },
        (18, "EndOfLog") => Refusal::EndOfLog,
        (19, "StartOfLog") => Refusal::StartOfLog,
        (20, "NoRestart") => Refusal::NoRestart,
        (21, "TailInvalid") => Refusal::TailInvalid { lsn: words.lsn()?, base: words.lsn()?, last: words.lsn()? },
        (22, "ArchiveTailInvalid") => Refusal::ArchiveTailInvalid { lsn: words.lsn()?, tail: words.lsn()?, flushed: words.lsn()? },
        (23, "Ephemeral") => Refusal::Ephemeral,
        (24, "CantShrink") => Refusal::CantShrink { active: words.number()?, need: words.number()? },
        (25, "ContainerLimit") => Refusal::ContainerLimit { limit: words.number()? },
        (26, "PolicyConflict") => Refusal::PolicyConflict { least: words.number()?, most: words.number()? },
        (27, "PolicyNotInstalled") => Refusal::PolicyNotInstalled,
        (28, "BadLine") => Refusal::BadLine { at: words.number()? },
        (29, "Dedicated") => Refusal::Dedicated,
        _ => return None,
    })
}

fn place_of(said: &str) -> Option<Place> {
    let mut words = Words(said.strip_prefix("not a log: ")?.split(' '));
    words.text("container")?;
    let container = words.number()?;
    words.text("offset")?;
    let offset = words.number()?;
    words.text("byte")?;
    let at = words.number()?;
    words.is_over().then_some(Place { container, offset, at })
}

/// The end that the program tells by this line, with the status that comes after it; None if it tells none.
pub(crate) fn end_of(said: &str) -> Option<(End, i32)> {
    Some(match said {
        "disk fault" => (End::DiskFailed, 4),
        "not a log: no open slot" => (End::NotALog(None), 6),
        "input too long" => (End::InputTooLong, 7),
        "a log is there" => (End::LogExists, 8),
        _ if said.starts_with("usage: clfs ") => (End::NoCommand, 1),
        _ => (End::NotALog(Some(place_of(said)?)), 6),
    })
}
