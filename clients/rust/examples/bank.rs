//! A bank whose money is moved at random while its log is killed at random: cargo run --example bank -- [PROGRAM [KILLS [PLACE]]]
//!
//! With PLACE, a folder, the bank comes to a service by the door that is made there, and either the service is killed, or the visit ends at some step, as
//! if the bank's program had died.
//!
//! A transfer takes money from one account and gives it to another, each by a record `move ACCOUNT AMOUNT`. The records of a transfer are linked:
//! `previous` names its record before, and `undo_next` the record that is to be undone after this one. It ends with `commit`, which is flushed,
//! or is undone: by reading back along `undo_next`, with a record `back ACCOUNT AMOUNT` for each `move`, and `undone` at the end. A `back` names
//! in `undo_next` what is still to be undone after it, so an undo that was cut short goes on where it was. The room for these records is held
//! from the `move` on, and a commit takes that of `undone`, so neither is ever refused because the log is full.
//!
//! A restart area has all balances; what is before it isn't needed any more, so the log goes round in its four containers. After a start the
//! newest restart area is read and then each record after it, forward; transfers without an end are undone.
use clfs::{Area, Draft, End, Ending, Error, Kind, Log, Lsn, Mode, Options, Record, Refusal, Sizes};
use std::collections::hash_map::RandomState;
use std::collections::HashSet;
use std::hash::{BuildHasher, Hasher};
use std::io::{self, Read};
use std::path::{Path, PathBuf};
use std::process::{Child, Command, Stdio};
use std::time::{Duration, Instant};

const ACCOUNTS: usize = 100;
const MONEY: i64 = 1000;
const AT_ONCE: usize = 3;
const STEPS: usize = 3;
/// No record of a transfer is longer.
const A_RECORD: u32 = 40;
/// So long a connection waits for its number.
const PATIENCE: Duration = Duration::from_secs(10);

/// The balances, and the log from which they come again after a crash.
struct Bank<'a> {
    log: &'a mut Log,
    area: Area,
    balances: Vec<i64>,
}

/// A record of a transfer.
enum Entry {
    Move { account: usize, amount: i64 },
    Back { account: usize, amount: i64 },
    End,
}

impl Entry {
    fn of(record: &Record) -> Entry {
        let text = String::from_utf8_lossy(&record.data);
        let mut words = text.split(' ');
        let word = words.next();
        let account = words.next().and_then(|word| word.parse().ok()).unwrap_or(0);
        let amount = words.next().and_then(|word| word.parse().ok()).unwrap_or(0);
        match word {
            Some("move") => Entry::Move { account, amount },
            Some("back") => Entry::Back { account, amount },
            _ => Entry::End,
        }
    }
}

impl Bank<'_> {
    fn open(log: &mut Log) -> Result<Bank<'_>, Error> {
        let stream = log.open(log.number(), "bank")?;
        let area = log.area(log.number(), stream, 1000, 2)?;
        let mut bank = Bank { log, area, balances: vec![MONEY; ACCOUNTS] };
        bank.recover()?;
        Ok(bank)
    }

    /// Goes on with the transfer whose last record is `last`, null for a new one, and gives its new last record.
    fn change(&mut self, last: Lsn, account: usize, amount: i64) -> Result<Lsn, Error> {
        let hold = if last.is_null() { &[A_RECORD, A_RECORD][..] } else { &[A_RECORD] };
        let data = format!("move {account} {amount}");
        let lsn = self.log.append(self.area, &Draft { previous: last, undo_next: last, hold, ..Draft::new(data.as_bytes()) })?;
        self.balances[account] += amount;
        Ok(lsn)
    }

    /// Ends a transfer of so many moves, in the sector held for its end. It is safe once this returns.
    fn commit(&mut self, last: Lsn, moves: u32) -> Result<(), Error> {
        self.log.append(self.area, &Draft { previous: last, reserved: true, flush: true, ..Draft::new(b"commit") })?;
        self.log.release(self.area, moves)?;
        Ok(())
    }

    /// Takes a transfer back and ends it.
    fn undo(&mut self, mut last: Lsn, reserved: bool) -> Result<(), Error> {
        let records = self.log.records(self.area, last, Mode::UndoNext)?.collect::<Result<Vec<_>, _>>()?;
        for record in records {
            if let Entry::Move { account, amount } = Entry::of(&record) {
                self.balances[account] -= amount;
                let data = format!("back {account} {}", -amount);
                let draft = Draft { previous: last, undo_next: record.undo_next, reserved, ..Draft::new(data.as_bytes()) };
                last = self.log.append(self.area, &draft)?;
            }
        }
        self.log.append(self.area, &Draft { previous: last, reserved, ..Draft::new(b"undone") })?;
        Ok(())
    }

    /// Writes down the balances, while no transfer is under way. No record before is needed any more.
    fn checkpoint(&mut self) -> Result<(), Error> {
        let last = self.log.info(self.area.stream)?.last;
        let text = self.balances.iter().map(i64::to_string).collect::<Vec<_>>().join(" ");
        let base = if last.is_null() { Lsn::NULL } else { last.after() };
        self.log.restart(self.area, text.as_bytes(), base, false)?;
        Ok(())
    }

    /// Brings the balances to what the log says.
    fn recover(&mut self) -> Result<(), Error> {
        let newest = match self.log.read_restart(self.area) {
            Err(Error::Refused(Refusal::NoRestart)) => return self.checkpoint(),
            found => found?,
        };
        self.log.end(newest.0)?;
        let text = String::from_utf8_lossy(&newest.1.data).into_owned();
        self.balances = text.split(' ').map(|word| word.parse().expect("a balance")).collect();
        for last in self.redo(newest.1.lsn)? {
            // Nothing is held after a start, but the room that was held is still free.
            self.undo(last, false)?;
        }
        self.checkpoint()
    }

    /// Does again what stands after the restart area, and gives the last records of the transfers without an end.
    fn redo(&mut self, start: Lsn) -> Result<HashSet<Lsn>, Error> {
        let mut unfinished = HashSet::new();
        for record in self.log.records(self.area, start, Mode::Forward)? {
            let record = record?;
            if record.kind == Kind::Restart {
                continue;
            }
            unfinished.remove(&record.previous);
            if let Entry::Move { account, amount } | Entry::Back { account, amount } = Entry::of(&record) {
                self.balances[account] += amount;
                unfinished.insert(record.lsn);
            }
        }
        Ok(unfinished)
    }
}

/// Numbers that differ in each run.
fn random_below(limit: usize) -> usize {
    (RandomState::new().build_hasher().finish() % limit as u64) as usize
}

/// A transfer under way, one step at a time.
struct Transfer {
    giver: usize,
    taker: usize,
    amount: i64,
    last: Lsn,
    steps: usize,
    gives_up: bool,
    committing: bool,
    committed: bool,
}

impl Transfer {
    fn new() -> Transfer {
        let giver = random_below(ACCOUNTS);
        Transfer {
            giver,
            taker: (giver + 1 + random_below(ACCOUNTS - 1)) % ACCOUNTS,
            amount: 1 + random_below(100) as i64,
            last: Lsn::NULL,
            steps: 0,
            gives_up: random_below(5) == 0,
            committing: false,
            committed: false,
        }
    }

    fn step(&mut self, bank: &mut Bank<'_>) -> Result<(), Error> {
        self.steps += 1;
        match self.steps {
            1 => self.last = bank.change(self.last, self.giver, -self.amount)?,
            2 => self.last = bank.change(self.last, self.taker, self.amount)?,
            _ if self.gives_up => bank.undo(self.last, true)?,
            _ => {
                self.committing = true;
                bank.commit(self.last, 2)?;
                self.committed = true;
            }
        }
        Ok(())
    }

    fn apply(&self, balances: &mut [i64]) {
        balances[self.giver] -= self.amount;
        balances[self.taker] += self.amount;
    }
}

/// A service, by the door in a place.
struct Service {
    place: PathBuf,
    program: Child,
}

impl Service {
    /// Starts one over the log, and waits until it is ready.
    fn start(program: &str, folder: &Path, place: &Path) -> io::Result<Service> {
        let mut command = Command::new(program);
        command.arg(folder).arg("share").arg("--door").arg(place).args(["--clients", "1"]);
        let mut program = command.stdout(Stdio::piped()).spawn()?;
        let said = program.stdout.take().map(|mut output| output.read_exact(&mut [0; 6]));
        said.expect("the output is a pipe")?;
        Ok(Service { place: place.to_owned(), program })
    }
}

impl Drop for Service {
    fn drop(&mut self) {
        let _ = self.program.kill();
        let _ = self.program.wait();
    }
}

fn make_door(place: &Path) -> io::Result<()> {
    std::fs::create_dir_all(place)?;
    Command::new("mkfifo").args(["-m", "600"]).arg(place.join("door")).status().map(drop)
}

/// Runs banks on one folder, and knows what each has to find there.
struct Trial {
    folder: PathBuf,
    program: String,
    service: Option<Service>,
    known: Vec<i64>,
    transfers: Vec<Transfer>,
    starts: usize,
    committed: usize,
    /// After as many steps the visit ends.
    steps_left: usize,
}

impl Trial {
    /// The money is all there, and so is each transfer whose commit was answered. One whose commit wasn't may be there.
    fn look_at(&mut self, balances: &[i64]) {
        self.starts += 1;
        assert_eq!(balances.iter().sum::<i64>(), ACCOUNTS as i64 * MONEY, "the sum is wrong");
        let unsure = self.transfers.iter().filter(|transfer| transfer.committing && !transfer.committed);
        let with = |transfer: &Transfer| {
            let mut known = self.known.clone();
            transfer.apply(&mut known);
            known
        };
        assert!(balances == self.known || unsure.map(with).any(|known| balances == known), "a transfer is lost");
        self.known = balances.to_vec();
        self.transfers.clear();
    }

    /// Three transfers at a time, which take turns at random; five times.
    fn transfer_money(&mut self, bank: &mut Bank<'_>) -> Result<(), Error> {
        for _ in 0..5 {
            self.transfers = (0..AT_ONCE).map(|_| Transfer::new()).collect();
            while self.transfers.iter().any(|transfer| transfer.steps < STEPS) {
                let transfer = &mut self.transfers[random_below(AT_ONCE)];
                if transfer.steps < STEPS {
                    self.steps_left -= 1;
                    if self.steps_left == 0 {
                        bank.log.kill()?;
                    }
                    transfer.step(bank)?;
                    if transfer.committed {
                        transfer.apply(&mut self.known);
                        self.committed += 1;
                    }
                }
            }
        }
        bank.checkpoint()
    }

    /// A log, by a program of its own or by the service.
    fn start(&self) -> Result<Log, Error> {
        match &self.service {
            Some(service) => Log::connect(&service.place, PATIENCE),
            None => Options::with_program(&self.folder, &self.program).start(),
        }
    }

    /// Opens the bank and moves money: once, or for as long as there is a log.
    fn run(&mut self, log: &mut Log, endless: bool) -> Result<(), Error> {
        let mut bank = Bank::open(log)?;
        self.look_at(&bank.balances);
        loop {
            self.transfer_money(&mut bank)?;
            if !endless {
                return Ok(());
            }
        }
    }

    /// Until a kill at some moment within this time, be it while the bank is opened, moves money, or undoes.
    fn run_until_killed(&mut self, within: Duration) -> Result<(), Error> {
        let mut log = self.start()?;
        if self.service.is_some() && random_below(2) == 0 {
            return self.run_until_step(&mut log);
        }
        let process = self.service.as_ref().map_or(log.id(), |service| service.program.id());
        let after = within.mul_f64(random_below(1000) as f64 / 1000.0);
        let killer = std::thread::spawn(move || {
            std::thread::sleep(after);
            Command::new("sh").args(["-c", &format!("kill -9 {process}")]).status()
        });
        self.steps_left = usize::MAX;
        let ended = self.run(&mut log, true);
        killer.join().expect("the killer").map_err(Error::System)?;
        match (ended, self.service.take()) {
            (Err(Error::Ended(Ending { end: End::Signal(9), .. })), None) => Ok(()),
            (Err(Error::Ended(Ending { end: End::ServiceEnded, .. })), Some(mut killed)) => {
                killed.program.wait().map_err(Error::System)?;
                self.service = Some(Service::start(&self.program, &self.folder, &killed.place).map_err(Error::System)?);
                Ok(())
            }
            (ended, _) => ended,
        }
    }

    /// Until the visit ends at some step. The next one begins once this has ended: until then lines of it may still be done.
    fn run_until_step(&mut self, log: &mut Log) -> Result<(), Error> {
        self.steps_left = 1 + random_below(5 * AT_ONCE * STEPS);
        match self.run(log, true) {
            Err(Error::Ended(Ending { end: End::Well, .. })) => Ok(()),
            ended => ended,
        }
    }
}

fn trial(folder: &Path, program: String, kills: usize, place: Option<&Path>) -> Result<(), Error> {
    let sizes = Sizes { block_sectors: 8, container_sectors: 64, containers: 4, dedicated: false };
    clfs::format(folder, &sizes, &program)?;
    let service = match place {
        Some(place) => {
            make_door(place).map_err(Error::System)?;
            Some(Service::start(&program, folder, place).map_err(Error::System)?)
        }
        None => None,
    };
    let known = vec![MONEY; ACCOUNTS];
    let mut trial = Trial {
        folder: folder.to_owned(),
        program,
        service,
        known,
        transfers: Vec::new(),
        starts: 0,
        committed: 0,
        steps_left: usize::MAX,
    };
    let began = Instant::now();
    let mut log = trial.start()?;
    trial.run(&mut log, false)?;
    log.close()?;
    let within = began.elapsed();
    for _ in 0..kills {
        trial.run_until_killed(within)?;
    }
    let over = if place.is_some() { " over a service" } else { "" };
    println!("killed {kills} times{over}; {} transfers, and the sum was right after each of {} starts", trial.committed, trial.starts);
    Ok(())
}

fn main() -> Result<(), Box<dyn std::error::Error>> {
    let mut words = std::env::args().skip(1);
    let program = words.next().unwrap_or("clfs".to_owned());
    let kills = words.next().map_or(Ok(100), |word| word.parse())?;
    let place = words.next().map(PathBuf::from);
    let folder = std::env::temp_dir().join(format!("clfs-bank-{}", std::process::id()));
    let done = trial(&folder, program, kills, place.as_deref());
    std::fs::remove_dir_all(&folder)?;
    Ok(done?)
}
