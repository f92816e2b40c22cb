//! Records that a cursor gives, one after another.
use crate::error::{Error, Refusal};
use crate::values::{Cursor, Record};
use crate::Log;

/// Records that a cursor gives, up to the end. It doesn't borrow the log, which may be used between two of them, as by an undo:
///
/// ```no_run
/// # fn undo(log: &mut clfs::Log, area: clfs::Area, mut last: clfs::Lsn) -> Result<(), clfs::Error> {
/// let mut records = log.walk(area, last, clfs::Mode::UndoNext)?;
/// while let Some(record) = records.next(log)? {
///     let compensation = clfs::Draft { previous: last, undo_next: record.undo_next, ..clfs::Draft::new(b"undone") };
///     last = log.append(area, &compensation)?;
/// }
/// # Ok(())
/// # }
/// ```
///
/// The cursor ends after the last record, or by [`Walk::end`]; if it is let go before, its number is taken as long as there is the area. Each
/// call gets the log that made it.
#[derive(Debug)]
#[must_use]
pub struct Walk {
    cursor: Option<Cursor>,
    first: Option<Record>,
    next: fn(&mut Log, Cursor) -> Result<Record, Error>,
}

impl Walk {
    /// The walk of a cursor that was just made, at its first record.
    pub(crate) fn new((cursor, first): (Cursor, Record), next: fn(&mut Log, Cursor) -> Result<Record, Error>) -> Walk {
        Walk { cursor: Some(cursor), first: Some(first), next }
    }

    /// The next record, or None after the last one.
    pub fn next(&mut self, log: &mut Log) -> Result<Option<Record>, Error> {
        if self.first.is_some() {
            return Ok(self.first.take());
        }
        let Some(cursor) = self.cursor else { return Ok(None) };
        match (self.next)(log, cursor) {
            Err(Error::Refused(Refusal::EndOfLog | Refusal::StartOfLog | Refusal::NoRestart)) => {
                self.end(log)?;
                Ok(None)
            }
            record => record.map(Some),
        }
    }

    /// Ends the cursor, so that its number is free. After that there is no next record.
    pub fn end(&mut self, log: &mut Log) -> Result<(), Error> {
        self.first = None;
        match self.cursor.take() {
            Some(cursor) => log.end(cursor),
            None => Ok(()),
        }
    }
}

/// As [`Walk`], as an iterator, which borrows the log. Letting it go ends the cursor.
#[derive(Debug)]
pub struct Records<'a> {
    pub(crate) log: &'a mut Log,
    pub(crate) walk: Walk,
}

impl Iterator for Records<'_> {
    type Item = Result<Record, Error>;

    fn next(&mut self) -> Option<Result<Record, Error>> {
        self.walk.next(self.log).transpose()
    }
}

impl Drop for Records<'_> {
    fn drop(&mut self) {
        // (a program that has ended has no cursors)
        let _ = self.walk.end(self.log);
    }
}
