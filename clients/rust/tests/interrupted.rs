//! A write that a signal interrupts while it waits. The socket to the program is made so small that a line doesn't go in at once; since that needs
//! calls of the system that the standard library doesn't have, and all sockets of the process are taken, this is a test by itself.
use clfs::Options;
use std::ffi::c_void;
use std::fs;
use std::os::unix::fs::PermissionsExt;
use std::time::Duration;

extern "C" {
    fn signal(number: i32, handler: extern "C" fn(i32)) -> usize;
    fn siginterrupt(number: i32, on: i32) -> i32;
    fn pthread_self() -> usize;
    fn pthread_kill(thread: usize, number: i32) -> i32;
    fn setsockopt(descriptor: i32, level: i32, name: i32, value: *const c_void, size: u32) -> i32;
    fn fcntl(descriptor: i32, command: i32, ...) -> i32;
}

const SIGUSR1: i32 = 10;
const SOL_SOCKET: i32 = 1;
const SO_SNDBUF: i32 = 7;
const F_GETFL: i32 = 3;
const O_NONBLOCK: i32 = 0o4000;

extern "C" fn nothing(_: i32) {}

/// The sockets of this process.
fn sockets() -> Vec<i32> {
    let entries = fs::read_dir("/proc/self/fd").unwrap().map(|entry| entry.unwrap());
    let is_socket = |entry: &fs::DirEntry| fs::read_link(entry.path()).is_ok_and(|to| to.to_string_lossy().starts_with("socket:"));
    entries.filter(is_socket).map(|entry| entry.file_name().to_str().unwrap().parse().unwrap()).collect()
}

#[test]
fn an_interrupted_write_leaves_the_input_as_it_was() {
    let folder = std::env::temp_dir().join(format!("clfs-interrupted-{}", std::process::id()));
    fs::create_dir(&folder).unwrap();
    let path = folder.join("program");
    let text = "#!/bin/sh\nread line\necho '0 refused 28 BadLine 0'\nsleep 1\nread line\necho '1 stream 1'\nread line\nexit 0\n";
    fs::write(&path, text).unwrap();
    fs::set_permissions(&path, fs::Permissions::from_mode(0o700)).unwrap();
    let others = sockets();
    let mut log = Options::with_program(&folder, &path).start().unwrap();
    let own = sockets().into_iter().find(|socket| !others.contains(socket)).unwrap();
    let small: i32 = 1;
    // SAFETY: the calls get what they ask for, and the handler does nothing.
    let thread = unsafe {
        assert_eq!(setsockopt(own, SOL_SOCKET, SO_SNDBUF, std::ptr::addr_of!(small).cast(), 4), 0);
        signal(SIGUSR1, nothing);
        siginterrupt(SIGUSR1, 1);
        pthread_self()
    };
    let interrupter = std::thread::spawn(move || {
        for _ in 0..3 {
            std::thread::sleep(Duration::from_millis(200));
            // SAFETY: the thread waits for this one below.
            unsafe { pthread_kill(thread, SIGUSR1) };
        }
    });
    assert_eq!(log.open(1, &"a".repeat(100_000)).unwrap(), 1);
    interrupter.join().unwrap();
    // SAFETY: the descriptor is open.
    assert_ne!(unsafe { fcntl(own, F_GETFL) } & O_NONBLOCK, 0);
    log.close().unwrap();
    fs::remove_dir_all(&folder).unwrap();
}
