//! An undo, which appends to the log while it reads it back: cargo run --example undo -- [PROGRAM]
//!
//! Three records are linked by `undo_next`. They are undone from the last one on, each by a record that names in `undo_next` what is to be undone
//! after it. So an undo that was cut short goes on where it was, if it reads from the last record on again.
use clfs::{Area, Draft, Error, Log, Lsn, Mode, Options, Sizes};
use std::path::Path;

/// Undoes from this record on, but at most so many records, as if a crash had cut it short. Gives the last record that it wrote.
fn undo(log: &mut Log, area: Area, mut last: Lsn, most: usize) -> Result<Lsn, Error> {
    let mut records = log.walk(area, last, Mode::UndoNext)?;
    let mut undone = 0;
    while let Some(record) = records.next(log)? {
        if record.data.starts_with(b"undo ") {
            continue;
        }
        if undone == most {
            records.end(log)?;
            break;
        }
        let data = [b"undo ", record.data.as_slice()].concat();
        last = log.append(area, &Draft { previous: last, undo_next: record.undo_next, ..Draft::new(&data) })?;
        undone += 1;
    }
    Ok(last)
}

fn run(folder: &Path, program: &str) -> Result<Vec<String>, Error> {
    clfs::format(folder, &Sizes { block_sectors: 8, container_sectors: 64, containers: 4, dedicated: false }, program)?;
    let mut log = Options::with_program(folder, program).start()?;
    let stream = log.open(1, "orders")?;
    let area = log.area(1, stream, 1000, 1)?;
    let first = log.append(area, &Draft::new(b"one"))?;
    let mut last = first;
    for data in [b"two", b"six"] {
        last = log.append(area, &Draft { previous: last, undo_next: last, ..Draft::new(data) })?;
    }
    for most in [1, 1, 8, 8] {
        last = undo(&mut log, area, last, most)?;
    }
    log.flush(area)?;
    let texts: Result<Vec<String>, Error> =
        log.records(area, first, Mode::Forward)?.map(|record| Ok(String::from_utf8_lossy(&record?.data).into_owned())).collect();
    log.close()?;
    texts
}

fn main() -> Result<(), Box<dyn std::error::Error>> {
    let program = std::env::args().nth(1).unwrap_or("clfs".to_owned());
    let folder = std::env::temp_dir().join(format!("clfs-undo-{}", std::process::id()));
    let texts = run(&folder, &program);
    std::fs::remove_dir_all(&folder)?;
    let texts = texts?;
    println!("{}", texts.join(", "));
    assert_eq!(texts, ["one", "two", "six", "undo six", "undo two", "undo one"]);
    Ok(())
}
