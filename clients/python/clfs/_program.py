"""The program, with the pipes to its input and from its output and its standard error.

Standard error is read here, since nothing but its text tells a folder that another process has from a disk that failed. What was read goes on to
where the caller wants it. A descriptor there that takes nothing for a second loses what comes until it takes something again, so this side waits
neither for itself nor for a program that waits for it. The input is a socket, since its end can be told to the program though a child of this
process has a copy of it.
"""

from __future__ import annotations

import contextlib
import fcntl
import io
import os
import select
import socket
import subprocess
import time
from typing import Any, List, Optional, Type

from . import replies
from .replies import ClfsError, Ended, Locked, NoFolder, NoPermission, TimedOut

_BEGINNINGS = {b"clfs: locked: ": Locked, b"clfs: no folder: ": NoFolder, b"clfs: no permission: ": NoPermission}
# As many bytes as any of these may have.
_BEGINNING = 24
# As much as a pipe that has room takes at once, and more of such pieces than a pipe holds.
_PIECE = 4096
_MOST_PIECES = 64


def deadline_after(seconds: Optional[float]) -> Optional[float]:
    return None if seconds is None else time.monotonic() + seconds


def seconds_to(deadline: Optional[float]) -> Optional[float]:
    return None if deadline is None else max(0.0, deadline - time.monotonic())


class Program:
    """A program that was started. It gets no signals of this process's terminal."""

    def __init__(self, words: List[str], stderr: Any) -> None:
        self.cause: Optional[Type[Ended]] = None
        self._begun = b""
        self._pass_to = _copy_of(stderr)
        self._is_stuck = False
        self._input, theirs = socket.socketpair()
        try:
            with theirs:
                pipe = subprocess.PIPE
                self._process = subprocess.Popen(words, stdin=theirs, stdout=pipe, stderr=pipe, bufsize=0, start_new_session=True)
        except BaseException:
            self._close_ours()
            raise
        self._input.setblocking(False)
        self._output: int = self._process.stdout.fileno()  # type: ignore[union-attr]
        self._errors: int = self._process.stderr.fileno()  # type: ignore[union-attr]
        self._for_errors, self._for_output, self._for_both = select.poll(), select.poll(), select.poll()
        for poll in (self._for_errors, self._for_output, self._for_both):
            poll.register(self._errors, select.POLLIN)
        for poll in (self._for_output, self._for_both):
            poll.register(self._output, select.POLLIN)
        self._for_both.register(self._input, select.POLLOUT)

    @property
    def pid(self) -> int:
        return self._process.pid

    def write(self, lines: bytearray) -> int:
        """Writes as much as there is room for, and gives how much. Raises BlockingIOError if there is none."""
        return self._input.send(lines, socket.MSG_NOSIGNAL)

    def end_input(self) -> None:
        with contextlib.suppress(OSError):
            self._input.shutdown(socket.SHUT_WR)

    def wait(self, for_room: bool, deadline: Optional[float]) -> bool:
        """Waits for output, or also for room in the input. Whether there is output, whose end counts as output."""
        poll = self._for_both if for_room else self._for_output
        while True:
            seconds = seconds_to(deadline)
            ready = [descriptor for descriptor, _ in poll.poll(None if seconds is None else seconds * 1000)]
            if self._errors in ready:
                ready.remove(self._errors)
                self._take_errors()
            if ready:
                return self._output in ready
            if seconds == 0:
                raise TimedOut("the program has said nothing in time, and was killed")

    def read(self, size: int) -> bytes:
        return os.read(self._output, size)

    def kill(self) -> None:
        self._process.kill()

    def reap(self, deadline: Optional[float]) -> int:
        """Waits for the end of the program, and no longer, as a child of its may keep its standard error. Gives what `Popen.returncode` is."""
        while self._errors >= 0 and self._process.poll() is None:
            if self._for_errors.poll(10):
                self._take_errors()
            if seconds_to(deadline) == 0:
                raise TimedOut("the program hasn't ended in time, and was killed")
        try:
            code = self._process.wait(seconds_to(deadline))
        except subprocess.TimeoutExpired:
            raise TimedOut("the program hasn't ended in time, and was killed") from None
        for _ in range(_MOST_PIECES):
            if self._for_errors.poll(0):
                self._take_errors()
        return code

    def wait_for_end(self, deadline: Optional[float]) -> int:
        """As `reap`, of a program whose standard error another thread reads."""
        try:
            return self._process.wait(seconds_to(deadline))
        except subprocess.TimeoutExpired:
            raise TimedOut("the program hasn't ended in time") from None

    def pass_errors(self) -> None:
        """Reads standard error up to its end, for a thread that does nothing else."""
        with contextlib.suppress(OSError, ValueError):
            while self._errors >= 0:
                self._take_errors()

    def release(self, seconds: Optional[float]) -> None:
        """Lets go of the program and of its pipes. A program that hasn't ended yet serves nobody any more."""
        self._process.kill()
        self._close_ours()
        with contextlib.suppress(subprocess.TimeoutExpired):
            self._process.wait(seconds)

    def has_ended(self) -> bool:
        return self._process.poll() is not None

    def ending(self, said: Optional[str], unanswered: int, deadline: Optional[float]) -> Optional[Ended]:
        """How it has ended, after the end of its output and these last words. None if they don't go with its status."""
        code = self.reap(deadline)
        if said is not None and replies.status_of(said) != code:
            return None
        return replies.ended(code, said, unanswered, self.cause)

    def ends_well(self, failure: ClfsError) -> bool:
        """Whether this is the end of a program that was done."""
        return isinstance(failure, Ended) and failure.status == 0 and failure.unanswered == 0

    def leave(self) -> None:
        """Lets go of the pipes alone, in a child that was forked: the program is that of another process."""
        self._close_ours()
        self._process.returncode = 0

    def _take_errors(self) -> None:
        """Handles a piece of standard error, or its end."""
        piece = os.read(self._errors, _PIECE)
        if not piece:
            for poll in (self._for_errors, self._for_output, self._for_both):
                poll.unregister(self._errors)
            self._errors = -1
        lines = (self._begun + piece).split(b"\n")
        self._begun = lines[-1][:_BEGINNING]
        for line in lines:
            for beginning, cause in _BEGINNINGS.items():
                if line.startswith(beginning):
                    self.cause = cause
        self._pass_on(piece)

    def _pass_on(self, piece: bytes) -> None:
        """Passes a piece on, as far as it is taken."""
        if self._pass_to is None:
            return
        target = select.poll()
        target.register(self._pass_to, select.POLLOUT)
        while piece:
            takes = [event for _, event in target.poll(0 if self._is_stuck else 1000)] == [select.POLLOUT]
            try:
                written = self._pass_to.write(piece) if takes else None
            except OSError:
                written = None
            self._is_stuck = written is None
            piece = piece[written:] if written else b""

    def _close_ours(self) -> None:
        process = getattr(self, "_process", None)
        for pipe in (self._input, self._pass_to, process and process.stdout, process and process.stderr):
            if pipe is not None:
                with contextlib.suppress(OSError):
                    pipe.close()


def _copy_of(stderr: Any) -> Optional[io.FileIO]:
    """A copy of the descriptor to which standard error goes on; None is this process's standard error, if it has one."""
    if stderr is subprocess.DEVNULL:
        return None
    descriptor = 2 if stderr is None else stderr if isinstance(stderr, int) else stderr.fileno()
    if descriptor < 0:
        raise ValueError("the program's standard error goes to a file or a descriptor, or to subprocess.DEVNULL")
    try:
        return io.FileIO(fcntl.fcntl(descriptor, fcntl.F_DUPFD_CLOEXEC, 3), "wb")
    except OSError:
        if stderr is None:
            return None
        raise
