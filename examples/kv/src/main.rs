//! A durable key-value store, by a thread for each program at its socket: kv PLACE SOCKET SECTORS
//!
//! In PLACE is the door of `clfs FOLDER share --door PLACE --clients 9`; after SECTORS, as 500, a checkpoint is due. Lines are `put KEY VALUE`, `delete KEY` and `get KEY`, replies `ok`, once
//! the change is on the disk, `value VALUE`, `none`, and `error WHY`; a change that got an error may be there after the next start.
mod checkpoint;
mod entries;
mod store;

use std::io::{self, BufRead, BufReader, Write};
use std::os::unix::net::{UnixListener, UnixStream};
use std::sync::Arc;
use std::{env, fs, process, thread};
use store::Store;

fn answer(store: &Store, line: &str) -> Result<String, clfs::Error> {
    let reply = match line.splitn(3, ' ').collect::<Vec<_>>()[..] {
        ["get", key] => return Ok(store.get(key).map_or_else(|| "none".to_owned(), |value| format!("value {value}"))),
        ["put", key, value] if !key.is_empty() => store.change(key, Some(value))?,
        ["delete", key] if !key.is_empty() => store.change(key, None)?,
        _ => return Ok("error no such line".to_owned()),
    };
    Ok(if reply { "ok" } else { "error no room" }.to_owned())
}

/// Answers the lines of a program until it leaves.
fn serve(store: &Store, program: UnixStream) -> io::Result<()> {
    let mut replies = program.try_clone()?;
    for line in BufReader::new(program).lines() {
        let reply = answer(store, &line?).unwrap_or_else(|error| format!("error {error}"));
        replies.write_all(format!("{reply}\n").as_bytes())?;
    }
    Ok(())
}

fn main() -> Result<(), Box<dyn std::error::Error>> {
    let words: Vec<String> = env::args().skip(1).collect();
    let [place, socket, sectors] = &words[..] else { return Err("usage: kv PLACE SOCKET SECTORS".into()) };
    let (store, sectors) = (Arc::new(Store::open(place.as_ref())?), sectors.parse()?);
    let checkpoints = Arc::clone(&store);
    thread::spawn(move || {
        eprintln!("kv: {}", checkpoints.keep_checkpoints(sectors));
        process::exit(1);
    });
    let _ = fs::remove_file(socket);
    let listener = UnixListener::bind(socket)?;
    println!("ready");
    for program in listener.incoming() {
        let (store, program) = (Arc::clone(&store), program?);
        thread::spawn(move || serve(&store, program));
    }
    Ok(())
}
