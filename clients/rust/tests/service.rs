//! Tests of connections to a service of the program that CLFS names: CLFS=PATH cargo test --test service
mod common;

use clfs::{Area, Draft, End, Ending, Error, Log, Lsn, Mode, Options, Pool, Refusal, Sizes};
use common::{ending, program, refusal, Room};
use std::fs::{self, File, OpenOptions};
use std::io::{Read, Write};
use std::os::unix::fs::{FileTypeExt, PermissionsExt};
use std::path::{Path, PathBuf};
use std::process::{Child, Command, Stdio};
use std::thread;
use std::time::{Duration, Instant};

const A_WHILE: Duration = Duration::from_secs(10);
const SHORT: Duration = Duration::from_millis(300);

/// A service that is ready. It is killed when it is let go.
struct Service {
    program: Child,
    door: PathBuf,
}

impl Service {
    /// Waits until those that are inside have left.
    fn stop(mut self) {
        self.send_stop();
        assert!(self.program.wait().unwrap().success());
    }

    fn send_stop(&self) {
        OpenOptions::new().write(true).open(&self.door).unwrap().write_all(b"stop\n").unwrap();
    }

    fn kill(mut self) {
        self.program.kill().unwrap();
        self.program.wait().unwrap();
    }
}

impl Drop for Service {
    fn drop(&mut self) {
        let _ = self.program.kill();
        let _ = self.program.wait();
    }
}

fn make_pipe(path: &Path) {
    assert!(Command::new("mkfifo").arg("-m").arg("600").arg(path).status().unwrap().success());
}

impl Room {
    fn place(&self) -> PathBuf {
        self.0.join("place")
    }

    /// A service over the log, which is made if it isn't there.
    fn serve(&self, clients: u32) -> Service {
        let door = self.place().join("door");
        if !self.log().exists() {
            self.format(2, 64, 4);
        }
        if !door.exists() {
            fs::create_dir_all(self.place()).unwrap();
            make_pipe(&door);
        }
        let mut command = Command::new(program());
        command.arg(self.log()).arg("share").arg("--door").arg(self.place()).arg("--clients").arg(clients.to_string());
        let mut program = command.stdout(Stdio::piped()).spawn().unwrap();
        let mut said = [0; 6];
        program.stdout.take().unwrap().read_exact(&mut said).unwrap();
        assert_eq!(&said, b"ready\n");
        Service { program, door }
    }

    fn come(&self) -> Log {
        Log::connect(self.place(), A_WHILE).unwrap()
    }

    /// The names in the place.
    fn names(&self) -> Vec<String> {
        fs::read_dir(self.place()).unwrap().map(|entry| entry.unwrap().file_name().into_string().unwrap()).collect()
    }

    /// The data of the stream `orders`, read by a program of its own.
    fn records(&self) -> Vec<String> {
        let mut log = self.start();
        let area = area_of(&mut log, 500).unwrap();
        let first = "1:0:0".parse().unwrap();
        let records = match log.records(area, first, Mode::Forward) {
            Ok(records) => records.map(|record| String::from_utf8(record.unwrap().data).unwrap()).collect(),
            Err(Error::Refused(Refusal::RecordNonexistent { .. })) => Vec::new(),
            Err(error) => panic!("{error}"),
        };
        records
    }
}

fn area_of(log: &mut Log, largest: u32) -> Result<Area, Error> {
    let stream = log.open(log.number(), "orders")?;
    log.area(log.number(), stream, largest, 1)
}

fn flushed(text: &str) -> Draft<'_> {
    Draft { flush: true, ..Draft::new(text.as_bytes()) }
}

#[test]
fn one_visit_after_the_other() {
    let room = Room::new();
    let service = room.serve(4);
    for text in ["0", "1", "2"] {
        let mut log = room.come();
        assert!((1..=4).contains(&log.number()) && log.id() == 0);
        let area = area_of(&mut log, 500).unwrap();
        assert_eq!((area.client, area.number), (log.number(), 1), "a visit begins without areas");
        log.append(area, &flushed(text)).unwrap();
        log.close().unwrap();
    }
    assert_eq!(room.names(), ["door"]);
    service.stop();
    assert_eq!(room.records(), ["0", "1", "2"]);
}

#[test]
fn the_number_is_the_connections() {
    let room = Room::new();
    let service = room.serve(4);
    let mut log = room.come();
    let (own, other) = (log.number(), log.number() + 1);
    let area = area_of(&mut log, 500).unwrap();
    assert_eq!(log.info(area.stream).unwrap().containers, 4);
    assert!(matches!(log.open(other, "orders"), Err(Error::OtherClient(client)) if client == other));
    assert!(matches!(log.append(Area { client: other, ..area }, &flushed("never")), Err(Error::OtherClient(_))));
    log.set_client(other);
    assert!(matches!(log.info(area.stream), Err(Error::OtherClient(_))));
    log.set_client(own);
    assert_eq!((log.info(area.stream).unwrap().containers, log.under_way()), (4, 0));
    log.close().unwrap();
    service.stop();
    assert!(room.records().is_empty());
}

#[test]
fn several_at_a_time() {
    let room = Room::new();
    let service = room.serve(3);
    let mut logs: Vec<Log> = (0..3).map(|_| room.come()).collect();
    let mut numbers: Vec<u8> = logs.iter().map(Log::number).collect();
    numbers.sort_unstable();
    assert_eq!(numbers, [1, 2, 3]);
    let mut tickets = Vec::new();
    for log in &mut logs {
        let area = area_of(log, 500).unwrap();
        tickets.push((0..10).map(|_| log.send_append(area, &flushed("x")).unwrap()).collect::<Vec<_>>());
        assert_eq!(log.under_way(), 20);
        log.push().unwrap();
    }
    let mut lsns: Vec<Lsn> = Vec::new();
    for (log, tickets) in logs.iter_mut().zip(tickets) {
        lsns.extend(tickets.into_iter().map(|ticket| log.answer(ticket).unwrap()));
        assert_eq!(log.under_way(), 0);
    }
    lsns.sort_unstable();
    lsns.dedup();
    assert_eq!(lsns.len(), 30);
    drop(logs);
    service.stop();
    assert_eq!(room.records().len(), 30);
}

#[test]
fn no_service() {
    let room = Room::new();
    let door = room.place().join("door");
    let none = |timeout| matches!(Log::connect(room.place(), timeout), Err(Error::NoService));
    assert!(none(Some(A_WHILE)));
    fs::create_dir(room.place()).unwrap();
    assert!(none(Some(A_WHILE)));
    fs::write(&door, "a file").unwrap();
    assert!(none(Some(A_WHILE)));
    assert_eq!(fs::read(&door).unwrap(), b"a file");
    fs::remove_file(&door).unwrap();
    make_pipe(&door);
    assert!(none(Some(A_WHILE)) && none(None));
    assert_eq!(room.names(), ["door"]);
}

#[test]
fn no_free_number() {
    let room = Room::new();
    let service = room.serve(1);
    let log = room.come();
    let began = Instant::now();
    assert!(matches!(Log::connect(room.place(), SHORT), Err(Error::NoFreeNumber)));
    assert!(began.elapsed() >= SHORT && began.elapsed() < A_WHILE);
    assert_eq!(room.names(), ["door"]);
    log.close().unwrap();
    room.come().close().unwrap();
    assert_eq!(room.names(), ["door"]);
    service.stop();
}

#[test]
fn one_that_waits_comes_in() {
    let room = Room::new();
    let service = room.serve(1);
    let log = room.come();
    thread::scope(|scope| {
        let second = scope.spawn(|| room.come().close());
        thread::sleep(SHORT);
        assert!(!second.is_finished());
        log.close().unwrap();
        second.join().unwrap().unwrap();
    });
    service.stop();
}

#[test]
fn the_rights_of_the_door() {
    let room = Room::new();
    let door = room.place().join("door");
    fs::create_dir(room.place()).unwrap();
    make_pipe(&door);
    fs::set_permissions(&door, fs::Permissions::from_mode(0o660)).unwrap();
    let _reader = OpenOptions::new().read(true).write(true).open(&door).unwrap();
    thread::scope(|scope| {
        let waits = scope.spawn(|| Log::connect(room.place(), SHORT));
        thread::sleep(SHORT / 2);
        let entries: Vec<_> = fs::read_dir(room.place()).unwrap().map(|entry| entry.unwrap().metadata().unwrap()).collect();
        assert!(entries.iter().all(|entry| entry.file_type().is_fifo() && entry.permissions().mode() & 0o777 == 0o660));
        assert_eq!(entries.len(), 3);
        assert!(matches!(waits.join().unwrap(), Err(Error::NoFreeNumber)));
    });
    assert_eq!(room.names(), ["door"]);
}

#[test]
fn an_append_that_is_refused() {
    let room = Room::new();
    let service = room.serve(2);
    let mut log = room.come();
    let area = area_of(&mut log, 10).unwrap();
    let waits = log.append(area, &Draft::new(b"waits")).unwrap();
    assert!(log.info(area.stream).unwrap().flushed <= waits);
    assert_eq!(refusal(log.append(area, &flushed("more than ten bytes"))), Refusal::RecordTooLong { length: 19, most: 10 });
    assert!(log.info(area.stream).unwrap().flushed > waits, "the flush after it was made");
    assert_eq!(refusal(log.append(Area { number: 2, ..area }, &flushed(""))), Refusal::NoSuchArea);
    assert!(matches!(log.append(area, &flushed(&"x".repeat(70_000))), Err(Error::LineTooLong(_))));
    assert_eq!(log.under_way(), 0);
    assert!(log.append(area, &flushed("fits")).unwrap() > waits);
    log.close().unwrap();
    service.stop();
}

/// Lines and replies fill both pipes: who only writes, or only reads, waits for ever.
#[test]
fn both_pipes_full() {
    let room = Room::new();
    room.format(128, 1024, 4);
    let service = room.serve(1);
    let mut log = room.come();
    let stream = log.open(log.number(), "orders").unwrap();
    let area = log.area(log.number(), stream, 64000, 16).unwrap();
    let data: Vec<u8> = (0..30000_u32).map(|at| ((at * at) >> 5) as u8).collect();
    let first = log.append(area, &Draft::new(&data)).unwrap();
    let reads: Vec<_> = (0..8).map(|_| log.send_read(area, first, Mode::Forward).unwrap()).collect();
    let appends: Vec<_> = (0..8).map(|_| log.send_append(area, &Draft { flush: true, ..Draft::new(&data) }).unwrap()).collect();
    for ticket in reads {
        assert!(log.answer(ticket).unwrap().1.data == data);
    }
    for ticket in appends {
        assert!(log.answer(ticket).unwrap() > first);
    }
    log.close().unwrap();
    service.stop();
}

#[test]
fn a_service_that_is_killed() {
    let room = Room::new();
    let service = room.serve(1);
    let mut log = room.come();
    let area = area_of(&mut log, 500).unwrap();
    log.append(area, &flushed("told")).unwrap();
    thread::scope(|scope| {
        let waits = scope.spawn(|| Log::connect(room.place(), 2 * A_WHILE));
        thread::sleep(SHORT);
        assert!(!waits.is_finished());
        let killed = Instant::now();
        service.kill();
        assert!(matches!(waits.join().unwrap(), Err(Error::NoService)));
        assert!(killed.elapsed() < Duration::from_secs(1), "one that waits knows within a second");
    });
    assert!(!log.is_over());
    assert_eq!(ending(log.append(area, &flushed("never"))), Ending { end: End::ServiceEnded, unanswered: 2 });
    assert!(log.is_over());
    assert_eq!(ending(log.flush(area)).end, End::ServiceEnded);
    assert_eq!(ending(log.close()).end, End::ServiceEnded);
    assert!(matches!(Log::connect(room.place(), A_WHILE), Err(Error::NoService)));
    let service = room.serve(1);
    let mut log = room.come();
    let area = area_of(&mut log, 500).unwrap();
    assert_eq!(area.number, 1);
    let ticket = log.send_append(area, &flushed("never")).unwrap();
    service.kill();
    assert_eq!(ending(log.close()), Ending { end: End::ServiceEnded, unanswered: 2 });
    drop(ticket);
    assert_eq!(room.records(), ["told"]);
}

#[test]
fn a_visit_that_is_killed() {
    let room = Room::new();
    let service = room.serve(1);
    let mut log = room.come();
    let area = area_of(&mut log, 500).unwrap();
    log.append(area, &flushed("told")).unwrap();
    log.kill().unwrap();
    assert_eq!(ending(log.append(area, &flushed("never"))).end, End::Well);
    assert!(log.is_over() && log.close().is_err());
    let mut log = room.come();
    assert_eq!(area_of(&mut log, 500).unwrap().number, 1);
    log.close().unwrap();
    service.stop();
    assert_eq!(room.records(), ["told"]);
}

#[test]
fn a_stop_waits_for_those_inside() {
    let room = Room::new();
    let mut service = room.serve(4);
    let mut log = room.come();
    service.send_stop();
    thread::sleep(SHORT);
    assert!(service.program.try_wait().unwrap().is_none());
    let area = area_of(&mut log, 500).unwrap();
    log.append(area, &flushed("after the stop")).unwrap();
    log.close().unwrap();
    assert!(service.program.wait().unwrap().success());
    assert_eq!(room.records(), ["after the stop"]);
}

#[test]
fn pairs() {
    let room = Room::new();
    room.format(2, 64, 4);
    let paths = ["in1", "out1", "in2", "out2"].map(|name| room.0.join(name));
    for path in &paths {
        make_pipe(path);
    }
    assert!(matches!(Log::attach(1, &paths[0], &paths[1], SHORT), Err(Error::NoService)));
    assert!(matches!(Log::attach(1, &paths[0], room.0.join("none"), SHORT), Err(Error::System(_))));
    let mut share = Command::new(program()).arg(room.log()).arg("share").args(&paths).spawn().unwrap();
    let mut logs = [1, 2].map(|number| {
        let at = usize::from(2 * (number - 1));
        Log::attach(number, &paths[at], &paths[at + 1], A_WHILE).unwrap()
    });
    for (log, number) in logs.iter_mut().zip(1..) {
        assert_eq!(log.number(), number);
        let area = area_of(log, 500).unwrap();
        log.append(area, &flushed(&number.to_string())).unwrap();
    }
    for log in logs {
        log.close().unwrap();
    }
    assert!(share.wait().unwrap().success());
    assert_eq!(room.records(), ["1", "2"]);
}

/// Nothing but pipes is opened, and a file stays as it is.
#[test]
fn what_is_no_pipe() {
    let room = Room::new();
    let [input, output, file] = ["in", "out", "file"].map(|name| room.0.join(name));
    make_pipe(&input);
    make_pipe(&output);
    fs::write(&file, "precious").unwrap();
    for (lines, replies) in [(&file, &output), (&input, &file), (&file, &file)] {
        assert!(matches!(Log::attach(1, lines, replies, SHORT), Err(Error::NoService)));
        assert_eq!(fs::read(&file).unwrap(), b"precious");
    }
}

/// What is under way at a pair of pipes that this thread serves: what it says to the empty line and then is given, and what came after that line.
fn serve_pair<T>(says: &str, meanwhile: impl FnOnce(Result<Log, Error>) -> T) -> (T, String) {
    let room = Room::new();
    let (input, output) = (room.0.join("in"), room.0.join("out"));
    make_pipe(&input);
    make_pipe(&output);
    thread::scope(|scope| {
        let server = scope.spawn(|| {
            let (mut from, mut to) = (File::open(&input).unwrap(), OpenOptions::new().write(true).open(&output).unwrap());
            let mut bytes = [0; 256];
            assert_eq!((from.read(&mut bytes[..1]).unwrap(), bytes[0]), (1, b'\n'));
            to.write_all(says.as_bytes()).unwrap();
            let size = from.read(&mut bytes).unwrap();
            String::from_utf8(bytes[..size].to_vec()).unwrap()
        });
        let told = meanwhile(Log::attach(7, &input, &output, A_WHILE));
        (told, server.join().unwrap())
    })
}

/// An append with its flush is two lines, which are written at once.
#[test]
fn what_is_written_and_said() {
    let append = |log: Result<Log, Error>| log.unwrap().append(Area { client: 7, number: 1, stream: 1 }, &flushed("x"));
    let lines = "7 append 1 78 0:0:0 0:0:0\n7 flush 1\n".to_owned();
    let (answer, written) = serve_pair("0 refused 28 BadLine 0\n7 lsn 1:0:0\n7 flushed 1:200:0\n", append);
    assert_eq!((answer.unwrap(), written), ("1:0:0".parse().unwrap(), lines.clone()));
    let (answer, written) = serve_pair("0 refused 28 BadLine 0\n7 lsn 1:0:0\n7 refused 2 DiskFault\n", append);
    assert_eq!((refusal(answer), written), (Refusal::DiskFault, lines.clone()));
    let (answer, written) = serve_pair("0 refused 28 BadLine 0\n7 refused 10 NoSuchArea\n7 refused 2 DiskFault\n", append);
    assert_eq!((refusal(answer), written), (Refusal::NoSuchArea, lines.clone()));
    let (answer, written) = serve_pair("0 refused 28 BadLine 0\n7 lsn 1:0:0\n", append);
    assert_eq!((ending(answer), written), (Ending { end: End::ServiceEnded, unanswered: 1 }, lines.clone()));
    let (answer, written) = serve_pair("0 refused 28 BadLine 0\n7 lsn 1:0:0\n7 lsn 1:0:0\n", append);
    assert!(matches!(answer, Err(Error::UnknownReply(_))) && written == lines);
    let (answer, _) = serve_pair("a door of another kind\n", |log| log);
    assert!(matches!(answer, Err(Error::UnknownReply(said)) if said == "a door of another kind"));
}

#[test]
fn a_pool_for_threads() {
    let room = Room::new();
    let service = room.serve(3);
    let pool = Pool::new(room.place(), 3, |log| area_of(log, 500));
    thread::scope(|scope| {
        for number in 0..8 {
            let pool = &pool;
            scope.spawn(move || {
                for count in 0..20 {
                    let mut log = pool.lend().unwrap();
                    let orders = *log.prepared();
                    log.append(orders, &flushed(&format!("{number} {count}"))).unwrap();
                }
            });
        }
    });
    drop(pool);
    service.stop();
    let mut records = room.records();
    records.sort();
    let mut wanted: Vec<String> = (0..8).flat_map(|number| (0..20).map(move |count| format!("{number} {count}"))).collect();
    wanted.sort();
    assert_eq!(records, wanted);
}

#[test]
fn a_pool_after_a_service_that_was_killed() {
    let room = Room::new();
    let service = room.serve(2);
    let pool = Pool::new(room.place(), 1, |log| area_of(log, 500)).timeout(A_WHILE);
    let append = |text: &str| {
        let mut log = pool.lend()?;
        let orders = *log.prepared();
        log.append(orders, &flushed(text))
    };
    append("before").unwrap();
    service.kill();
    assert_eq!(ending(append("meanwhile")).end, End::ServiceEnded);
    assert!(matches!(append("meanwhile"), Err(Error::NoService)));
    let service = room.serve(2);
    append("after").unwrap();
    drop(pool);
    service.stop();
    assert_eq!(room.records(), ["before", "after"]);
}

#[test]
fn a_pool_whose_preparation_fails() {
    let room = Room::new();
    let service = room.serve(1);
    let pool = Pool::new(room.place(), 1, |log: &mut Log| log.area(log.number(), 9, 500, 1));
    assert_eq!(refusal(pool.lend().map(drop)), Refusal::NoSuchStream);
    assert_eq!(refusal(pool.lend().map(drop)), Refusal::NoSuchStream);
    room.come().close().unwrap();
    service.stop();
}

/// A connection beside a program of one's own: both have the same calls.
#[test]
fn a_program_has_its_numbers_as_ever() {
    let room = Room::new();
    clfs::format(room.log(), &Sizes { block_sectors: 2, container_sectors: 64, containers: 4, dedicated: false }, program()).unwrap();
    let mut log = Options::with_program(room.log(), program()).start().unwrap();
    assert_eq!(log.number(), 1);
    log.set_client(9);
    let area = area_of(&mut log, 500).unwrap();
    assert_eq!((log.number(), area.client, log.under_way()), (9, 9, 0));
    let ticket = log.send_append(area, &flushed("one line")).unwrap();
    assert_eq!(log.under_way(), 1);
    log.answer(ticket).unwrap();
    log.close().unwrap();
}
