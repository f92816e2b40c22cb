//! Checkpoints, and how a store begins from the newest one.
//!
//! A checkpoint is a mark, a copy of all entries in parts, each linked to the one before, and a restart area that names both. The copy is taken
//! with the mark, while no change is under way, and written while changes go on. With the restart area the base moves to the mark, so there is room
//! again. One that a crash cuts short has no restart area, and counts for nothing. Its sectors are held in advance, so a full log doesn't stop it.
use crate::entries::Entries;
use clfs::{Area, Draft, Error, Log, Lsn, Mode, Refusal};
use std::path::Path;
use std::time::Duration;

pub const STREAM: &str = "kv";
/// No record is longer, in bytes.
pub const LONGEST: u32 = 3000;
/// A copy has at most so many parts of seven sectors. The log should be some times larger, and than what is written until a checkpoint is due.
pub const PARTS: u32 = 64;

/// A connection of its own for checkpoints, which holds the sectors of the next one.
pub struct Checkpoints {
    log: Log,
    area: Area,
}

impl Checkpoints {
    pub fn connect(place: &Path) -> Result<Checkpoints, Error> {
        let mut log = Log::connect(place, Duration::from_secs(10))?;
        let stream = log.open(log.number(), STREAM)?;
        let area = log.area(log.number(), stream, LONGEST, 2)?;
        let mut checkpoints = Checkpoints { log, area };
        checkpoints.hold()?;
        Ok(checkpoints)
    }

    /// Holds what is lacking of the sectors of all parts, and of three records more.
    fn hold(&mut self) -> Result<(), Error> {
        let (most, mut held) = ((PARTS + 3) * self.log.align(self.area, &[LONGEST])?, 0);
        while held <= most {
            held = self.log.reserve(self.area, &[LONGEST])?;
        }
        self.log.release(self.area, held - most).map(|_| ())
    }

    /// Whether so many sectors were written since the last one.
    pub fn is_due(&mut self, sectors: u64) -> Result<bool, Error> {
        let info = self.log.info(self.area.stream)?;
        let sector = |lsn: Lsn| u64::from(lsn.container()) * u64::from(info.container_sectors) + u64::from(lsn.offset()) / 512;
        Ok(sector(info.last) > sector(info.base) + sectors)
    }

    /// Appends a record of a checkpoint, or the first one of a run.
    pub fn append(&mut self, text: &str, previous: Lsn) -> Result<Lsn, Error> {
        self.log.append(self.area, &Draft { previous, reserved: true, ..Draft::new(text.as_bytes()) })
    }

    /// Writes the copy that was taken at the mark, and moves the base there.
    pub fn write(&mut self, run: Lsn, mark: Lsn, parts: &[String]) -> Result<(), Error> {
        let last = parts.iter().try_fold(Lsn::NULL, |last, part| self.append(part, last))?;
        self.log.restart(self.area, format!("{run} {mark} {last}").as_bytes(), mark, true)?;
        self.hold()
    }

    /// All entries of the log.
    pub fn recover(&mut self) -> Result<Entries, Error> {
        let mut entries = Entries::default();
        let (cursor, newest) = match self.log.read_restart(self.area) {
            Err(Error::Refused(Refusal::NoRestart)) => return Ok(entries),
            found => found?,
        };
        self.log.end(cursor)?;
        let names = String::from_utf8_lossy(&newest.data).into_owned();
        let lsns: Vec<Lsn> = names.split(' ').map(|name| name.parse().expect("an LSN in a restart area")).collect();
        let (run, mark, last) = (lsns[0], lsns[1], lsns[2]);
        for part in self.log.records(self.area, last, Mode::Previous)? {
            entries.restore(&part?);
        }
        for record in self.log.records(self.area, mark, Mode::Forward)? {
            let record = record?;
            if record.previous == run {
                entries.redo(&record);
            }
        }
        Ok(entries)
    }
}
