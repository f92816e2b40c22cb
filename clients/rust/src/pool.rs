//! Connections for threads.
use crate::{Error, Log};
use std::fmt;
use std::ops::{Deref, DerefMut};
use std::path::{Path, PathBuf};
use std::sync::{Condvar, Mutex, MutexGuard, PoisonError};
use std::time::Duration;

/// How long a pool waits for a number of the service, if nothing else is said.
const TIMEOUT: Duration = Duration::from_secs(10);

/// Connections to a service for threads, some at a time, and with each what was prepared of it once, as its areas:
///
/// ```no_run
/// # fn main() -> Result<(), clfs::Error> {
/// let pool = clfs::Pool::new("place", 8, |log| {
///     let stream = log.open(log.number(), "orders")?;
///     log.area(log.number(), stream, 1000, 4)
/// });
/// let mut log = pool.lend()?;
/// let orders = *log.prepared();
/// log.append(orders, &clfs::Draft { flush: true, ..clfs::Draft::new(b"commit") })?;
/// # Ok(())
/// # }
/// ```
///
/// A connection whose service has ended isn't lent again: the next [`Pool::lend`] connects anew. What was under way then is told to who had it, as
/// ever; the pool does nothing again. Letting the pool go closes its connections.
pub struct Pool<T> {
    place: PathBuf,
    size: usize,
    timeout: Option<Duration>,
    prepare: Box<Prepare<T>>,
    state: Mutex<State<T>>,
    given_back: Condvar,
}

type Prepare<T> = dyn Fn(&mut Log) -> Result<T, Error> + Send + Sync;

struct State<T> {
    idle: Vec<(Log, T)>,
    lent: usize,
}

impl<T> Pool<T> {
    /// At most so many connections by the door in a folder. Each is made when it is wanted first, and `prepare` then makes what goes with it.
    pub fn new(place: impl AsRef<Path>, size: usize, prepare: impl Fn(&mut Log) -> Result<T, Error> + Send + Sync + 'static) -> Pool<T> {
        Pool {
            place: place.as_ref().to_owned(),
            size,
            timeout: Some(TIMEOUT),
            prepare: Box::new(prepare),
            state: Mutex::new(State { idle: Vec::new(), lent: 0 }),
            given_back: Condvar::new(),
        }
    }

    /// How long a new connection waits for its number, without a limit if it is None; 10 seconds if this isn't said.
    pub fn timeout(mut self, timeout: impl Into<Option<Duration>>) -> Pool<T> {
        self.timeout = timeout.into();
        self
    }

    /// Lends a connection. Waits while all are lent.
    pub fn lend(&self) -> Result<Lent<'_, T>, Error> {
        let mut state = self.state();
        while state.lent >= self.size {
            state = self.given_back.wait(state).unwrap_or_else(PoisonError::into_inner);
        }
        state.lent += 1;
        let idle = state.idle.pop();
        drop(state);
        // (from here on it counts as lent, until this is let go)
        let mut lent = Lent { pool: self, connection: idle };
        if lent.connection.is_none() {
            let mut log = Log::connect(&self.place, self.timeout)?;
            let prepared = (self.prepare)(&mut log)?;
            lent.connection = Some((log, prepared));
        }
        Ok(lent)
    }

    fn state(&self) -> MutexGuard<'_, State<T>> {
        self.state.lock().unwrap_or_else(PoisonError::into_inner)
    }
}

impl<T> fmt::Debug for Pool<T> {
    fn fmt(&self, f: &mut fmt::Formatter<'_>) -> fmt::Result {
        let lent = self.state().lent;
        f.debug_struct("Pool").field("place", &self.place).field("size", &self.size).field("lent", &lent).finish_non_exhaustive()
    }
}

/// A connection that a [`Pool`] has lent. It is used as the [`Log`] that it is, and given back when it is let go.
pub struct Lent<'a, T> {
    pool: &'a Pool<T>,
    connection: Option<(Log, T)>,
}

impl<T> Lent<'_, T> {
    /// What was prepared of the connection.
    pub fn prepared(&self) -> &T {
        &self.connection().1
    }

    /// As [`Lent::prepared`], to be changed.
    pub fn prepared_mut(&mut self) -> &mut T {
        &mut self.connection_mut().1
    }

    fn connection(&self) -> &(Log, T) {
        self.connection.as_ref().expect("a connection that is lent is there")
    }

    fn connection_mut(&mut self) -> &mut (Log, T) {
        self.connection.as_mut().expect("a connection that is lent is there")
    }
}

impl<T> Deref for Lent<'_, T> {
    type Target = Log;

    fn deref(&self) -> &Log {
        &self.connection().0
    }
}

impl<T> DerefMut for Lent<'_, T> {
    fn deref_mut(&mut self) -> &mut Log {
        &mut self.connection_mut().0
    }
}

impl<T: fmt::Debug> fmt::Debug for Lent<'_, T> {
    fn fmt(&self, f: &mut fmt::Formatter<'_>) -> fmt::Result {
        f.debug_struct("Lent").field("connection", &self.connection).finish_non_exhaustive()
    }
}

impl<T> Drop for Lent<'_, T> {
    fn drop(&mut self) {
        let useful = self.connection.take().filter(|(log, _)| !log.is_over());
        let mut state = self.pool.state();
        state.lent -= 1;
        state.idle.extend(useful);
        drop(state);
        self.pool.given_back.notify_one();
    }
}
