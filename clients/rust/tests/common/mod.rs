//! What the tests share: rooms with a log of the program that CLFS names.
use clfs::{Ending, Error, Log, Options, Refusal, Sizes};
use std::fs;
use std::path::PathBuf;
use std::sync::atomic::{AtomicU32, Ordering};
use std::sync::Once;
use std::time::Duration;

/// A folder that ends with the test.
pub struct Room(pub PathBuf);

impl Room {
    pub fn new() -> Room {
        static COUNT: AtomicU32 = AtomicU32::new(0);
        static WATCH: Once = Once::new();
        WATCH.call_once(|| {
            std::thread::spawn(|| {
                std::thread::sleep(Duration::from_secs(120));
                eprintln!("a test hangs");
                std::process::exit(1);
            });
        });
        let name = format!("clfs-test-{}-{}", std::process::id(), COUNT.fetch_add(1, Ordering::SeqCst));
        let path = std::env::temp_dir().join(name);
        fs::create_dir(&path).unwrap();
        Room(path)
    }

    pub fn log(&self) -> PathBuf {
        self.0.join("log")
    }

    pub fn format(&self, block_sectors: u32, container_sectors: u32, containers: u32) {
        let sizes = Sizes { block_sectors, container_sectors, containers, dedicated: false };
        clfs::format(self.log(), &sizes, program()).unwrap();
    }

    pub fn start(&self) -> Log {
        Options::with_program(self.log(), program()).start().unwrap()
    }
}

impl Drop for Room {
    fn drop(&mut self) {
        let _ = fs::remove_dir_all(&self.0);
    }
}

pub fn program() -> String {
    std::env::var("CLFS").unwrap_or("clfs".to_owned())
}

pub fn refusal<T: std::fmt::Debug>(answer: Result<T, Error>) -> Refusal {
    answer.unwrap_err().refusal().unwrap()
}

pub fn ending<T>(answer: Result<T, Error>) -> Ending {
    match answer {
        Err(Error::Ended(ending)) => ending,
        Err(error) => panic!("no ending: {error}"),
        Ok(_) => panic!("it was answered"),
    }
}
