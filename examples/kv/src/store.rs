//! The store, whose entries are in memory and in the log.
//!
//! Each change is a record that is on the disk before the entry changes in memory, so nobody reads what a crash could take. Each thread appends and
//! flushes over a connection of its own, and flushes of several threads may be one. Of two changes of a key the later record counts.
//!
//! A store that was killed may leave lines in its pipes, which the service does when the next one has begun. So each start, a run of the store,
//! has a first record to which its changes link, and after a checkpoint only changes of its run count. Only one store may be there at a time.
//!
//! To archive, send `archive on` once; then room is free again only after `clfs FOLDER archive`, with the service stopped.
use crate::checkpoint::{Checkpoints, LONGEST, PARTS, STREAM};
use crate::entries::Entries;
use clfs::{Area, Draft, Error, Lsn, Pool, Refusal};
use std::path::{Path, PathBuf};
use std::sync::{Mutex, MutexGuard, PoisonError, RwLock};
use std::{thread, time::Duration};

/// The connections of all threads; one more makes checkpoints.
const CONNECTIONS: usize = 8;
/// No more is put once a copy has so many bytes. Two parts that follow each other have more than LONGEST together.
const MOST: usize = (PARTS as usize / 2 - CONNECTIONS) * LONGEST as usize;

/// A store, for any number of threads.
pub struct Store {
    place: PathBuf,
    pool: Pool<Area>,
    run: Lsn,
    entries: Mutex<Entries>,
    /// Shared from the append of a change until its entry has changed; alone while a copy is taken.
    changing: RwLock<()>,
}

impl Store {
    /// Begins with what the log has, and with a checkpoint.
    pub fn open(place: &Path) -> Result<Store, Error> {
        let mut checkpoints = Checkpoints::connect(place)?;
        let pool = Pool::new(place, CONNECTIONS, |log| {
            let stream = log.open(log.number(), STREAM)?;
            log.area(log.number(), stream, LONGEST, 1)
        });
        let entries = Mutex::new(checkpoints.recover()?);
        let run = checkpoints.append("run", Lsn::NULL)?;
        let store = Store { place: place.to_owned(), pool, run, entries, changing: RwLock::new(()) };
        store.checkpoint(&mut checkpoints)?;
        Ok(store)
    }

    /// The key's value, which is on the disk.
    pub fn get(&self, key: &str) -> Option<String> {
        self.entries().get(key).map(str::to_owned)
    }

    /// Gives the key, a word, a value, a line, or none: that is on the disk when this returns. After an error it may be there when the store starts
    /// again. False if there is no room for it.
    pub fn change(&self, key: &str, value: Option<&str>) -> Result<bool, Error> {
        let record = value.map_or_else(|| format!("delete {key}"), |value| format!("put {key} {value}"));
        let _shared = self.changing.read().unwrap_or_else(PoisonError::into_inner);
        let mut log = self.pool.lend()?;
        let area = *log.prepared();
        if record.len() > LONGEST as usize - 10 || value.is_some() && self.entries().bytes() > MOST {
            return Ok(false);
        }
        let lsn = log.append(area, &Draft { previous: self.run, flush: true, ..Draft::new(record.as_bytes()) })?;
        self.entries().set(lsn, key, value);
        Ok(true)
    }

    /// Makes a checkpoint after so many sectors, over a new connection if one ended, for as long as the service does calls.
    pub fn keep_checkpoints(&self, sectors: u64) -> Error {
        let mut connected = None;
        loop {
            thread::sleep(Duration::from_millis(20));
            connected = match self.checkpoint_if_due(connected, sectors) {
                Ok(checkpoints) => Some(checkpoints),
                Err(error @ Error::Refused(Refusal::DiskFault | Refusal::Damaged { .. } | Refusal::Broken)) => return error,
                Err(_) => None,
            };
        }
    }

    fn checkpoint_if_due(&self, connected: Option<Checkpoints>, sectors: u64) -> Result<Checkpoints, Error> {
        let mut checkpoints = connected.map_or_else(|| Checkpoints::connect(&self.place), Ok)?;
        if checkpoints.is_due(sectors)? {
            self.checkpoint(&mut checkpoints)?;
        }
        Ok(checkpoints)
    }

    fn checkpoint(&self, checkpoints: &mut Checkpoints) -> Result<(), Error> {
        let alone = self.changing.write().unwrap_or_else(PoisonError::into_inner);
        let mark = checkpoints.append("mark", Lsn::NULL)?;
        let parts = self.entries().copy(LONGEST as usize);
        drop(alone);
        checkpoints.write(self.run, mark, &parts)
    }

    fn entries(&self) -> MutexGuard<'_, Entries> {
        self.entries.lock().unwrap_or_else(PoisonError::into_inner)
    }
}
