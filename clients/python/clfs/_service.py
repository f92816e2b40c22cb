"""A service: the program that shares a log among the programs that come to a door.

It ends when it is told to and all have left, so who has the door may end it. A service that this process leaves alone goes on, also after this
process: `stop` ends it, here or by the door.
"""

from __future__ import annotations

import contextlib
import os
import threading
import weakref
from typing import Any, Optional, Union

from . import replies
from ._connection import FORKED, ring_stop
from ._program import Program, deadline_after
from .replies import Ended, OtherProcess, UnknownReply

Path = Union[str, "os.PathLike[str]"]


class Service:
    """`clfs FOLDER share --door PLACE`, started here, and ready for `connect`.

    `place` is a folder, which is made if it isn't there, and so is its door, for this user alone. Who may write to the door may use the log and
    stop the service: make both before for others. Up to `clients` programs, at most 64, are there at a time, and others wait at the door.

    The start raises what that of a `Log` does, and `Ended` with status 18 if the door can't be opened; it may take `timeout` seconds, without a
    limit if it is None. What the program writes to its standard error goes on to where this process writes its own, or to `stderr`. Leaving the
    `with` block stops the service, which waits until all have left, and kills it after an exception.
    """

    def __init__(
        self,
        folder: Path,
        place: Path,
        *,
        clients: int,
        program: Path = "clfs",
        write_buffers: Optional[int] = None,
        timeout: Optional[float] = None,
        stderr: Any = None,
    ) -> None:
        self.place = os.fspath(place)
        words = [os.fspath(program), os.fspath(folder), "share", "--door", self.place, "--clients", str(clients)]
        if write_buffers is not None:
            words += ["--write-buffers", str(write_buffers)]
        _make_door(self.place)
        self._end: Optional[Ended] = None
        self._is_forked = False
        self._program = Program(words, stderr)
        _services.add(self)
        try:
            self._wait_until_ready(deadline_after(timeout))
        except BaseException:
            self._program.release(timeout)
            raise
        self._errors = threading.Thread(target=self._program.pass_errors, name="clfs service", daemon=True)
        self._errors.start()

    def __enter__(self) -> Service:
        return self

    def __exit__(self, kind: Any, error: Any, trace: Any) -> None:
        if self._is_forked:
            return
        if error is None:
            self.stop()
        else:
            self.kill()

    @property
    def pid(self) -> int:
        """The process of the program."""
        return self._program.pid

    def stop(self, timeout: Optional[float] = None) -> None:
        """Lets no more in, and waits until all have left. Those who wait at the door learn that there is no service.

        Raises `Ended` if the service ended otherwise, and `TimedOut` if it hasn't ended in so many seconds: then it goes on until it does, or is
        killed. A connection of this process keeps it, too.
        """
        self._check()
        deadline = deadline_after(timeout)
        if self._end is None:
            ring_stop(self.place, deadline)
            self._take_end(deadline)
        if self._end is not None and self._end.status != 0:
            raise self._end.with_traceback(None)

    def kill(self) -> None:
        """Ends the service at once, as a crash would. What was flushed is there."""
        self._check()
        if self._end is None:
            self._program.kill()
            self._take_end(None)

    def _check(self) -> None:
        if self._is_forked:
            raise OtherProcess(FORKED)

    def _wait_until_ready(self, deadline: Optional[float]) -> None:
        said = b""
        while not said.endswith(b"\n"):
            self._program.wait(False, deadline)
            piece = self._program.read(1 << 16)
            if not piece:
                break
            said += piece
        if said == b"ready\n":
            return
        text = said.decode("ascii", "backslashreplace").rstrip("\n")
        if text and replies.status_of(text) is None:
            raise UnknownReply(text)
        raise self._program.ending(text or None, 0, deadline) or UnknownReply(text)

    def _take_end(self, deadline: Optional[float]) -> None:
        code = self._program.wait_for_end(deadline)
        # (a child of the program may keep its standard error)
        self._errors.join(1)
        self._end = replies.ended(code, None, 0, self._program.cause)
        self._program.release(None)

    def _leave(self) -> None:
        self._is_forked = True
        self._program.leave()


# The services, for a child that is forked.
_services: weakref.WeakSet[Service] = weakref.WeakSet()


def _leave_all() -> None:
    for service in list(_services):
        service._leave()


os.register_at_fork(after_in_child=_leave_all)


def _make_door(place: str) -> None:
    os.makedirs(place, exist_ok=True)
    with contextlib.suppress(FileExistsError):
        os.mkfifo(os.path.join(place, "door"), 0o600)
