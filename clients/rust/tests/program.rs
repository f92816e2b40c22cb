//! Tests on the program that CLFS names, and on programs of the shell in its place: CLFS=PATH cargo test
mod common;

use clfs::{
    Area, Draft, End, Ending, Error, Errors, Extent, Info, Kind, Log, Lsn, Mode, Options, Place, Policy, PolicyKind, Record, Refusal, Sizes,
};
use common::{ending, program, refusal, Room};
use std::fs;
use std::io::{Read, Seek, SeekFrom, Write};
use std::os::unix::fs::PermissionsExt;
use std::os::unix::net::UnixStream;
use std::path::Path;

impl Room {
    /// A call on a program of the shell that does what the text says.
    fn with_shell<T>(&self, text: &str, call: impl Fn(&Path) -> Result<T, Error>) -> Result<T, Error> {
        let path = self.0.join("program");
        fs::write(&path, format!("#!/bin/sh\n{text}")).unwrap();
        fs::set_permissions(&path, fs::Permissions::from_mode(0o700)).unwrap();
        // (another test's thread may be starting a program, which then has this one's file open for a moment)
        loop {
            match call(&path) {
                Err(Error::System(error)) if error.raw_os_error() == Some(26) => std::thread::yield_now(),
                answer => return answer,
            }
        }
    }

    /// A log whose program, one of the shell, has answered the line by which a start waits, and then does what the text says.
    fn start_shell(&self, text: &str) -> Log {
        let text = format!("read line\necho '0 refused 28 BadLine 0'\n{text}");
        self.with_shell(&text, |path| Options::with_program(&self.0, path).start()).unwrap()
    }

    fn start_answering(&self, reply: &str) -> Log {
        self.start_shell(&format!("read line\necho '{reply}'\nread line\nexit 0\n"))
    }
}

fn lsn(text: &str) -> Lsn {
    text.parse().unwrap()
}

#[test]
fn the_example_of_the_manual() -> Result<(), Error> {
    let room = Room::new();
    room.format(2, 8, 2);
    let mut log = room.start();
    assert_eq!(log.open(1, "orders")?, 1);
    let area = log.area(1, 1, 960, 4)?;
    assert_eq!(area, Area { client: 1, number: 1, stream: 1 });
    let first = log.append(area, &Draft::new(b"hello"))?;
    let second = log.append(area, &Draft { previous: first, undo_next: first, flush: true, ..Draft::new(b"world") })?;
    assert_eq!((first, second), (lsn("1:0:0"), lsn("1:0:1")));
    let (cursor, record) = log.read(area, second, Mode::Previous)?;
    let wanted = Record { lsn: second, kind: Kind::Data, previous: first, undo_next: first, base: Lsn::NULL, data: b"world".to_vec() };
    assert_eq!(record, wanted);
    assert_eq!(log.next(cursor)?.data, b"hello");
    assert_eq!(refusal(log.next(cursor)), Refusal::StartOfLog);
    log.end(cursor)?;
    assert_eq!(log.reserve(area, &[100, 200])?, 2);
    let third = log.append(area, &Draft { reserved: true, ..Draft::new(b"\xaa") })?;
    log.append(area, &Draft { seal: true, hold: &[300], ..Draft::new(b"\xbb") })?;
    assert_eq!(log.release(area, 1)?, 1);
    assert_eq!(log.align(area, &[456, 457])?, 3);
    assert_eq!(log.flush(area)?, lsn("1:400:0"));
    assert_eq!(log.flush_to(area, second)?, lsn("1:400:0"));
    assert_eq!(log.restart(area, b"\x01\x02", Lsn::NULL, false)?, lsn("1:400:0"));
    assert_eq!(log.restart(area, b"\x03\x04", second, true)?, lsn("1:600:0"));
    let (newest, record) = log.read_restart(area)?;
    assert_eq!((record.kind, record.base, record.data), (Kind::Restart, second, b"\x03\x04".to_vec()));
    assert_eq!(log.previous_restart(newest)?.data, b"\x01\x02");
    assert_eq!(refusal(log.previous_restart(newest)), Refusal::NoRestart);
    assert_eq!(log.restarts(area)?.map(|record| record.unwrap().data.len()).collect::<Vec<_>>(), [2, 2]);
    assert_eq!(log.advance(area, third)?, third);
    log.archive(true)?;
    assert_eq!(log.tail(third)?, third);
    assert_eq!(log.extents()?, [Extent { container: 1, low: 0x200, high: 0x800 }]);
    log.set_policy(Policy::Maximum(4))?;
    log.set_policy(Policy::Growth(1))?;
    log.set_policy(Policy::Automatic)?;
    assert_eq!(log.size(3)?, 3);
    log.unset_policy(PolicyKind::Maximum)?;
    assert_eq!(log.info(1)?.archive, Some(third));
    log.archive(false)?;
    let wanted = Info {
        containers: 3,
        free_containers: 2,
        container_sectors: 8,
        free_sectors: 17,
        reserved: 0,
        base: third,
        last: lsn("1:600:0"),
        flushed: lsn("1:800:0"),
        restart: lsn("1:600:0"),
        archive: None,
    };
    assert_eq!(log.info(1)?, wanted);
    log.drop_area(area)?;
    assert_eq!(log.reopen()?, lsn("1:800:0"));
    assert_eq!(refusal(log.flush(area)), Refusal::NoSuchArea);
    assert_eq!(refusal(log.area(65, 1, 960, 1)), Refusal::BadLine { at: 0 });
    log.close()
}

#[test]
fn records_end_their_cursor() -> Result<(), Error> {
    let room = Room::new();
    room.format(2, 8, 2);
    let mut log = room.start();
    let stream = log.open(1, "orders")?;
    let area = log.area(1, stream, 960, 1)?;
    let first = log.append(area, &Draft::new(b""))?;
    log.append(area, &Draft::new(&[7; 900]))?;
    for _ in 0..3 {
        assert!(log.records(area, first, Mode::Forward)?.next().unwrap()?.data.is_empty());
    }
    let lengths = log.records(area, first, Mode::Forward)?.map(|record| record.unwrap().data.len());
    assert_eq!(lengths.collect::<Vec<_>>(), [0, 900]);
    log.close()
}

#[test]
fn a_walk_lets_the_log_be_used() -> Result<(), Error> {
    let room = Room::new();
    room.format(2, 8, 2);
    let mut log = room.start();
    let stream = log.open(1, "orders")?;
    let area = log.area(1, stream, 960, 1)?;
    let first = log.append(area, &Draft::new(b"one"))?;
    let last = log.append(area, &Draft { undo_next: first, ..Draft::new(b"two") })?;
    for _ in 0..3 {
        let mut walk = log.walk(area, last, Mode::UndoNext)?;
        assert_eq!(walk.next(&mut log)?.map(|record| record.lsn), Some(last));
        log.append(area, &Draft::new(b"between"))?;
        assert_eq!(walk.next(&mut log)?.map(|record| record.lsn), Some(first));
        log.flush(area)?;
        assert_eq!((walk.next(&mut log)?, walk.next(&mut log)?), (None, None));
        let mut walk = log.walk(area, last, Mode::Forward)?;
        walk.end(&mut log)?;
        assert_eq!(walk.next(&mut log)?, None);
    }
    assert_eq!(refusal(log.walk_restarts(area)), Refusal::NoRestart);
    log.restart(area, b"all", Lsn::NULL, false)?;
    let mut walk = log.walk_restarts(area)?;
    assert_eq!(walk.next(&mut log)?.unwrap().data, b"all");
    assert_eq!(walk.next(&mut log)?, None);
    log.close()
}

#[test]
fn the_number_of_the_client() -> Result<(), Error> {
    let room = Room::new();
    room.format(2, 8, 2);
    let mut log = room.start();
    log.open(2, "orders")?;
    log.set_client(64);
    assert_eq!(log.info(1)?.containers, 2);
    log.archive(true)?;
    assert_eq!(log.tail(lsn("1:0:0"))?, lsn("1:0:0"));
    assert_eq!(log.extents()?, []);
    log.set_policy(Policy::Maximum(4))?;
    log.unset_policy(PolicyKind::Maximum)?;
    assert_eq!(log.size(3)?, 3);
    log.set_client(65);
    let bad = Refusal::BadLine { at: 0 };
    assert_eq!((refusal(log.info(1)), refusal(log.archive(true)), refusal(log.tail(Lsn::NULL))), (bad, bad, bad));
    assert_eq!((refusal(log.extents()), refusal(log.set_policy(Policy::Automatic)), refusal(log.size(3))), (bad, bad, bad));
    assert_eq!((refusal(log.unset_policy(PolicyKind::Maximum)), refusal(log.reopen())), (bad, bad));
    log.close()
}

#[test]
fn buffers() -> Result<(), Error> {
    let room = Room::new();
    room.format(2, 8, 2);
    let options = || Options::with_program(room.log(), program()).stderr(Errors::Nowhere);
    options().write_buffers(1).read_buffers(4096).start()?.close()?;
    assert_eq!(ending(options().read_buffers(4097).start()).end, End::NoCommand);
    assert_eq!(ending(options().write_buffers(65).start()).end, End::NoCommand);
    Ok(())
}

#[test]
fn refusals_and_what_cannot_be_said() -> Result<(), Error> {
    let room = Room::new();
    room.format(2, 8, 2);
    let mut log = room.start();
    let stream = log.open(1, "orders")?;
    let area = log.area(1, stream, 960, 1)?;
    assert_eq!(refusal(log.append(area, &Draft::new(&[0; 961]))), Refusal::RecordTooLong { length: 961, most: 960 });
    let far = lsn("9:0:0");
    assert_eq!(refusal(log.append(area, &Draft { previous: far, ..Draft::new(b"") })), Refusal::LinkInvalid { lsn: far });
    let full = (0..20).find_map(|_| log.append(area, &Draft::new(&[0; 960])).err()).unwrap();
    assert_eq!(full.refusal(), Some(Refusal::Full { free: 1, reserved: 0, need: 2 }));
    assert!(matches!(log.append(area, &Draft::new(&[0; 65530])), Err(Error::LineTooLong(_))));
    for name in ["", "two words", "a\n1 reopen", "a\r"] {
        assert!(matches!(log.open(1, name), Err(Error::NotAWord(_))));
    }
    assert_eq!(refusal(log.open(1, "ordérs")), Refusal::NameInvalid { at: 3 });
    log.flush(area)?;
    log.close()
}

#[test]
fn many_lines_under_way() -> Result<(), Error> {
    let room = Room::new();
    room.format(128, 1024, 4);
    let mut log = room.start();
    let stream = log.open(1, "orders")?;
    let area = log.area(1, stream, 100, 1)?;
    let tickets =
        (0..1000).map(|number: u32| log.send_append(area, &Draft::new(number.to_string().as_bytes()))).collect::<Result<Vec<_>, _>>()?;
    assert!(log.under_way() > 0);
    let stable = log.flush(area)?;
    assert_eq!(log.under_way(), 0);
    let lsns = tickets.into_iter().map(|ticket| log.answer(ticket)).collect::<Result<Vec<_>, _>>()?;
    assert!(lsns.windows(2).all(|pair| pair[0] < pair[1]) && lsns[999] < stable);
    assert_eq!(log.read(area, lsns[999], Mode::Forward)?.1.data, b"999");
    log.close()
}

/// The program's replies fill its output while the lines fill its input: who only writes, or only reads, waits for ever.
#[test]
fn both_pipes_full() -> Result<(), Error> {
    let room = Room::new();
    room.format(128, 1024, 4);
    let mut log = room.start();
    let stream = log.open(1, "orders")?;
    let area = log.area(1, stream, 64000, 16)?;
    let data: Vec<u8> = (0..30000_u32).map(|at| ((at * at) >> 5) as u8).collect();
    let first = log.append(area, &Draft::new(&data))?;
    let reads = (0..8).map(|_| log.send_read(area, first, Mode::Forward)).collect::<Result<Vec<_>, _>>()?;
    let appends = (0..8).map(|_| log.send_append(area, &Draft::new(&data))).collect::<Result<Vec<_>, _>>()?;
    for ticket in reads {
        assert!(log.answer(ticket)?.1.data == data);
    }
    for ticket in appends {
        assert!(log.answer(ticket)? > first);
    }
    log.close()
}

#[test]
fn a_killed_program_is_told() {
    let room = Room::new();
    room.format(2, 8, 2);
    let mut log = room.start();
    let stream = log.open(1, "orders").unwrap();
    let area = log.area(1, stream, 960, 1).unwrap();
    let tickets = [log.send_flush(area).unwrap(), log.send_flush(area).unwrap()];
    log.kill().unwrap();
    for ticket in tickets {
        assert_eq!(ending(log.answer(ticket)), Ending { end: End::Signal(9), unanswered: 2 });
    }
    assert_eq!(ending(log.flush(area)).end, End::Signal(9));
    assert_eq!(ending(log.close()).end, End::Signal(9));
    let mut log = room.start();
    log.kill().unwrap();
    assert_eq!(ending(log.close()).end, End::Signal(9));
}

#[test]
fn what_starting_and_formatting_tell() {
    let room = Room::new();
    let start = || Options::with_program(room.log(), program()).write_buffers(64).stderr(Errors::Nowhere).start();
    assert_eq!(ending(start()).end, End::NoFolder);
    fs::create_dir(room.log()).unwrap();
    assert_eq!(ending(start()).end, End::NotALog(None));
    assert!(matches!(Options::with_program(room.log(), "./none").start(), Err(Error::System(_))));
    room.format(2, 8, 2);
    let sizes = Sizes { block_sectors: 2, container_sectors: 8, containers: 2, dedicated: true };
    assert_eq!(ending(clfs::format(room.log(), &sizes, program())).end, End::LogExists);
    assert_eq!(ending(clfs::format(room.log(), &Sizes { containers: 257, ..sizes }, program())).end, End::NoCommand);
    let mut log = start().unwrap();
    assert_eq!(ending(start()).end, End::Locked);
    assert_eq!(ending(clfs::format(room.log(), &sizes, program())).end, End::Locked);
    let stream = log.open(1, "orders").unwrap();
    let area = log.area(1, stream, 960, 1).unwrap();
    log.append(area, &Draft { flush: true, ..Draft::new(b"hello") }).unwrap();
    drop(log);
    spoil(&room.log().join("c1"));
    assert!(matches!(ending(start()).end, End::NotALog(Some(Place { container: 1, offset: 0, .. }))));
    let dedicated = room.0.join("dedicated");
    clfs::format(&dedicated, &sizes, program()).unwrap();
    let mut log = Options::with_program(&dedicated, program()).start().unwrap();
    log.open(1, "one").unwrap();
    assert_eq!(refusal(log.open(1, "two")), Refusal::Dedicated);
}

fn spoil(file: &Path) {
    let mut file = fs::OpenOptions::new().write(true).open(file).unwrap();
    file.seek(SeekFrom::Start(20)).unwrap();
    file.write_all(&[255]).unwrap();
}

#[test]
fn each_refusal() {
    let room = Room::new();
    let place = lsn("1:200:3");
    let replies = [
        ("1 NoMemory", Refusal::NoMemory),
        ("2 DiskFault", Refusal::DiskFault),
        ("3 Broken", Refusal::Broken),
        ("4 NotEnoughContainers 7", Refusal::NotEnoughContainers { have: 7 }),
        ("5 Full 7 8 9", Refusal::Full { free: 7, reserved: 8, need: 9 }),
        ("6 ReservationShort 7 8", Refusal::ReservationShort { held: 7, need: 8 }),
        ("7 RecordTooLong 7 8", Refusal::RecordTooLong { length: 7, most: 8 }),
        ("8 LinkInvalid 1:200:3", Refusal::LinkInvalid { lsn: place }),
        ("9 NoSuchStream", Refusal::NoSuchStream),
        ("10 NoSuchArea", Refusal::NoSuchArea),
        ("11 Damaged 7 8 9", Refusal::Damaged { container: 7, offset: 8, at: 9 }),
        ("12 NoSuchCursor", Refusal::NoSuchCursor),
        ("13 StreamLimit 7", Refusal::StreamLimit { count: 7 }),
        ("14 AreaLimit 7", Refusal::AreaLimit { count: 7 }),
        ("15 CursorLimit 7", Refusal::CursorLimit { open: 7 }),
        ("16 NameInvalid 7", Refusal::NameInvalid { at: 7 }),
        ("17 RecordNonexistent 1:200:3", Refusal::RecordNonexistent { lsn: place }),
        ("18 EndOfLog", Refusal::EndOfLog),
        ("19 StartOfLog", Refusal::StartOfLog),
        ("20 NoRestart", Refusal::NoRestart),
        ("21 TailInvalid 1:200:3 1:200:4 0:0:0", Refusal::TailInvalid { lsn: place, base: place.after(), last: Lsn::NULL }),
        (
            "22 ArchiveTailInvalid 1:200:3 0:0:0 1:200:4",
            Refusal::ArchiveTailInvalid { lsn: place, tail: Lsn::NULL, flushed: place.after() },
        ),
        ("23 Ephemeral", Refusal::Ephemeral),
        ("24 CantShrink 7 8", Refusal::CantShrink { active: 7, need: 8 }),
        ("25 ContainerLimit 7", Refusal::ContainerLimit { limit: 7 }),
        ("26 PolicyConflict 7 8", Refusal::PolicyConflict { least: 7, most: 8 }),
        ("27 PolicyNotInstalled", Refusal::PolicyNotInstalled),
        ("28 BadLine 7", Refusal::BadLine { at: 7 }),
        ("29 Dedicated", Refusal::Dedicated),
    ];
    for (reply, wanted) in replies {
        let client = u8::from(!reply.starts_with("28"));
        let mut log = room.start_answering(&format!("{client} refused {reply}"));
        assert_eq!(refusal(log.reopen()), wanted);
        log.close().unwrap();
    }
}

const UNKNOWN: &str = "\
1 flushed
1 flushed 1:0:0 1
1 flushed 01:0:0
1 flushed 1:100:0
1 flushed 1:0:200
1 flushed 1:0:A
1 flushed +1:0:0
1 flushed 100000000:0:0
1  flushed 1:0:0
2 flushed 1:0:0
0 flushed 1:0:0
1 lsn 1:0:0
1 ok
1
flushed 1:0:0
1 refused
1 refused 3
1 refused 3 Full 1 2 3
1 refused 5 Full 1 2
1 refused 5 Full 1 2 3 4
1 refused 5 Full 1 2 03
1 refused 5 Full 1 2 -3
1 refused 5 Full 1 2 4294967296
1 refused 8 LinkInvalid 5
1 refused 30 Tired
1 refused 28 BadLine 0
0 refused 3 Broken
2 refused 3 Broken
not a log";

const UNKNOWN_RECORDS: &str = "\
1 cursor 1
1 cursor record 1:0:0 data 0:0:0 0:0:0 0:0:0 61
1 cursor 1 record 1:0:0 note 0:0:0 0:0:0 0:0:0 61
1 cursor 1 record 1:0:0 data 0:0:0 0:0:0 61
1 cursor 1 record 1:0:0 data 0:0:0 0:0:0 0:0:0 6
1 cursor 1 record 1:0:0 data 0:0:0 0:0:0 0:0:0 6g
1 cursor 1 record 1:0:0 data 0:0:0 0:0:0 0:0:0 6A
1 cursor 1 record 1:0:0 data 0:0:0 0:0:0 0:0:0 61 61";

const UNKNOWN_LISTS: &str = "\
1 extents
1 extents 1
1 extents 2 1:0-200
1 extents 0 1:0-200
1 extents 1 1:0
1 extents 1 1:0-0200
1 extents 1 1-0:200
1 extents 1 -1:0-200
1 extents 1 1:0--200
1 extents 1 1:0-100000000";

#[test]
fn replies_that_the_language_does_not_have() {
    let room = Room::new();
    let area = Area { client: 1, number: 1, stream: 1 };
    for reply in UNKNOWN.lines().chain([""]) {
        let mut log = room.start_answering(reply);
        for _ in 0..2 {
            assert!(matches!(log.reopen(), Err(Error::UnknownReply(line)) if line == reply));
        }
    }
    for reply in UNKNOWN_RECORDS.lines() {
        let mut log = room.start_answering(reply);
        assert!(matches!(log.read(area, Lsn::NULL, Mode::Forward), Err(Error::UnknownReply(_))), "{reply}");
    }
    for reply in UNKNOWN_LISTS.lines() {
        assert!(matches!(room.start_answering(reply).extents(), Err(Error::UnknownReply(_))), "{reply}");
    }
}

#[test]
fn a_ticket_of_another_log() {
    let room = Room::new();
    room.format(2, 8, 2);
    let mut log = room.start();
    let area = Area { client: 1, number: 1, stream: 1 };
    let mut other = room.start_answering("1 refused 10 NoSuchArea");
    let ticket = log.send_flush(area).unwrap();
    assert!(matches!(other.answer(ticket), Err(Error::OtherTicket)));
    assert_eq!(refusal(log.flush(area)), Refusal::NoSuchArea);
    assert_eq!(refusal(other.flush(area)), Refusal::NoSuchArea);
}

#[test]
fn each_end() {
    let room = Room::new();
    let ends = [
        ("exit 0", End::Well),
        ("exit 2", End::InputFailed),
        ("exit 3", End::OutputFailed),
        ("exit 5", End::NoMemory),
        ("exit 70", End::Status(70)),
        ("echo 'input too long'\nexit 7", End::InputTooLong),
        ("printf '1 flushed 1:0'\nexit 3", End::OutputFailed),
    ];
    for (text, end) in ends {
        let mut log = room.start_shell(&format!("read line\n{text}\n"));
        assert_eq!(ending(log.reopen()), Ending { end, unanswered: 1 });
    }
    let mut log = room.start_shell("read line\necho 'input too long'\nexit 0\n");
    assert!(matches!(log.reopen(), Err(Error::UnknownReply(_))));
}

#[test]
fn causes_on_standard_error() {
    let room = Room::new();
    let locked = "echo 'clfs: locked: log: another process has the folder' >&2\n";
    let none = "echo 'clfs: no folder: log: it is not there' >&2\n";
    let denied = "echo 'clfs: no permission: log/c1: open: denied' >&2\n";
    let pieces = "printf 'building\nclfs: loc' >&2\nsleep 0.1\necho 'ked: log' >&2\necho more >&2\n";
    let orphan = format!("sleep 3 >/dev/null &\nhead -c 20000 /dev/zero >&2\necho >&2\n{locked}");
    let (fault, nothing) = ("echo 'disk fault'\nexit 4\n", "echo 'not a log: no open slot'\nexit 6\n");
    let ends = [
        (locked, fault, End::Locked),
        (locked, "exit 4\n", End::Locked),
        (pieces, fault, End::Locked),
        (&orphan, fault, End::Locked),
        (denied, fault, End::NoPermission),
        (none, nothing, End::NoFolder),
        (none, fault, End::NoFolder),
        ("echo 'clfs: log/c1: read: clfs: locked: x' >&2\n", fault, End::DiskFailed),
        (locked, nothing, End::NotALog(None)),
        (locked, "exit 5\n", End::NoMemory),
        (locked, "kill -9 $$\n", End::Signal(9)),
    ];
    for (errors, text, end) in ends {
        let start = |path: &Path| Options::with_program(&room.0, path).stderr(Errors::Nowhere).start();
        let unanswered = 1;
        assert_eq!(ending(room.with_shell(&format!("{errors}{text}"), start)), Ending { end, unanswered }, "{errors}{text}");
    }
    let sizes = Sizes { block_sectors: 2, container_sectors: 8, containers: 2, dedicated: false };
    let format = |path: &Path| clfs::format(&room.0, &sizes, path);
    assert_eq!(ending(room.with_shell(&format!("{locked}{fault}"), format)).end, End::Locked);
}

/// A program that writes more to its standard error than pipes hold is served, though nobody reads there, or can.
#[test]
fn standard_error_that_nobody_reads() {
    let room = Room::new();
    let noise = "head -c 300000 /dev/zero >&2\n";
    let text =
        format!("read line\n{noise}echo '0 refused 28 BadLine 0'\nread line\n{noise}echo '1 flushed 1:0:0'\nread line\nexec >&-\n{noise}");
    for closed in [false, true] {
        let start = |path: &Path| {
            let (to, other) = UnixStream::pair().unwrap();
            let log = Options::with_program(&room.0, path).stderr(Errors::To(to.into())).start()?;
            Ok((log, if closed { None } else { Some(other) }))
        };
        let (mut log, _other) = room.with_shell(&text, start).unwrap();
        assert_eq!(log.reopen().unwrap(), lsn("1:0:0"));
        log.close().unwrap();
    }
}

#[test]
fn standard_error_goes_on() {
    let room = Room::new();
    let start = |path: &Path| {
        let (to, other) = UnixStream::pair().unwrap();
        Ok((Options::with_program(&room.0, path).stderr(Errors::To(to.into())).start()?, other))
    };
    let text = "read line\necho one >&2\necho '0 refused 28 BadLine 0'\nread line\necho two >&2\n";
    let (log, mut other) = room.with_shell(text, start).unwrap();
    log.close().unwrap();
    let mut told = String::new();
    other.read_to_string(&mut told).unwrap();
    assert_eq!(told, "one\ntwo\n");
}
