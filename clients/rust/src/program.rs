//! A program of one's own, with the socket to its input and the pipes from its output and its standard error.
use crate::error::{End, Error};
use crate::pipe::Peer;
use crate::stderr::{Errors, Watch};
use std::io::{self, ErrorKind, Read, Write};
use std::net::Shutdown;
use std::os::fd::OwnedFd;
use std::os::unix::net::UnixStream;
use std::os::unix::process::{CommandExt, ExitStatusExt};
use std::process::{Child, ChildStdout, Command, Stdio};

pub(crate) struct Program {
    child: Child,
    input: UnixStream,
    output: ChildStdout,
    errors: Watch,
}

impl Program {
    /// Starts the program, in a process group of its own, so that no signal of this process's terminal reaches it.
    pub(crate) fn start(mut command: Command, errors: Errors) -> io::Result<Program> {
        let (input, other) = UnixStream::pair()?;
        input.set_nonblocking(true)?;
        command.stdin(Stdio::from(OwnedFd::from(other))).process_group(0);
        let (mut child, errors) = start_watched(&mut command, errors)?;
        // (it keeps the other end of the input)
        drop(command);
        let output = child.stdout.take().ok_or(ErrorKind::BrokenPipe)?;
        Ok(Program { child, input, output, errors })
    }
}

impl Peer for Program {
    fn id(&self) -> u32 {
        self.child.id()
    }

    fn write(&mut self, bytes: &[u8]) -> io::Result<usize> {
        self.input.write(bytes)
    }

    fn write_waiting(&mut self, bytes: &[u8]) -> io::Result<usize> {
        let written = self.input.set_nonblocking(false).and_then(|()| self.input.write(bytes));
        // (whatever came of the write, as after a signal: no later one may wait)
        self.input.set_nonblocking(true).and(written)
    }

    fn read(&mut self, piece: &mut [u8]) -> io::Result<usize> {
        self.output.read(piece)
    }

    fn end_input(&mut self) {
        let _ = self.input.shutdown(Shutdown::Write);
    }

    fn kill(&mut self) -> io::Result<()> {
        self.child.kill()
    }

    fn end(&mut self, last: Option<(End, i32)>, _: usize) -> Result<End, Error> {
        let status = self.child.wait().map_err(Error::System)?;
        let code = status.code();
        let end = match (last, code) {
            (Some((end, status)), Some(code)) if status == code => end,
            (Some((end, _)), _) => return Err(Error::UnknownReply(end.to_string())),
            (None, Some(code)) => end_with(code),
            (None, None) => End::Signal(status.signal().unwrap_or(0)),
        };
        Ok(self.errors.end(end, code))
    }

    fn release(&mut self) {
        let _ = self.child.kill();
        let _ = self.child.wait();
    }
}

/// Starts a program whose output is a pipe and whose standard error is watched.
pub(crate) fn start_watched(command: &mut Command, errors: Errors) -> io::Result<(Child, Watch)> {
    let mut program = command.stdout(Stdio::piped()).stderr(Stdio::piped()).spawn()?;
    let from = program.stderr.take().ok_or(ErrorKind::BrokenPipe)?;
    match Watch::start(from, errors) {
        Ok(watch) => Ok((program, watch)),
        Err(error) => {
            // (it serves nobody)
            let _ = program.kill();
            let _ = program.wait();
            Err(error)
        }
    }
}

/// The end with this status, if no last words told more.
pub(crate) fn end_with(code: i32) -> End {
    match code {
        0 => End::Well,
        2 => End::InputFailed,
        3 => End::OutputFailed,
        5 => End::NoMemory,
        _ => End::Status(code),
    }
}
