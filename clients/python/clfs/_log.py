"""The handle on a log: its lines and their replies, with areas and cursors. What serves the lines is a program of its own or a service."""

from __future__ import annotations

import contextlib
import os
import threading
import weakref
from collections import deque
from typing import Any, Callable, Deque, Generic, Iterator, List, Optional, Sequence, Tuple, Type, TypeVar, Union

from . import _connection, replies
from ._connection import FORKED, MOST_CLIENTS, Connection
from ._program import Program, deadline_after
from .replies import *

T = TypeVar("T")
Data = Union[bytes, bytearray, memoryview]
Path = Union[str, "os.PathLike[str]"]

# The longest line that the program takes, without its line feed.
LONGEST_LINE = 131_072

# Words for `serve` that each start of this client passes: a run may take any number of bytes.
SERVE_OPTIONS: Tuple[str, ...] = ("--endless",)


class Pending(Generic[T]):
    """A line under way, or answered."""

    def __init__(self, log: Log, client: int, take: Callable[[List[str]], T]) -> None:
        self._log = log
        self._client = client
        self._take = take
        self._answer: Optional[T] = None
        self._error: Optional[ClfsError] = None
        self.done = False

    def result(self, timeout: Optional[float] = None) -> T:
        """What was answered, waiting for it if need be, or the error that came in its place. `timeout` is the log's if it is left out."""
        if not self.done:
            with _Turn(self._log, timeout):
                while not self.done:
                    self._log._wait_for(self)
        if self._error is not None:
            raise self._error.with_traceback(None)
        return self._answer  # type: ignore[return-value]

    def _settle(self, line: str) -> None:
        """Takes the reply, or raises ValueError if it is none to this line."""
        client, *words = line.split(" ")
        if words[:1] == ["refused"]:
            refusal = replies.refused_of(words[1:])
            if replies.number_of(client) != (0 if isinstance(refusal, BadLine) else self._client):
                raise ValueError(line)
            self._error = refusal
        else:
            if replies.number_of(client) != self._client or not words:
                raise ValueError(line)
            self._answer = self._take(words)
        self.done = True

    def _fail(self, error: ClfsError) -> None:
        self._error = error
        self.done = True


class _Flushed(Pending[Lsn]):
    """An append and the flush after it, which are two lines. It is answered with the second one; of two refusals the first one counts."""

    def __init__(self, append: Pending[Lsn]) -> None:
        super().__init__(append._log, append._client, replies.flushed_of)
        self._append = append

    def _settle(self, line: str) -> None:
        super()._settle(line)
        self._error = self._append._error or self._error
        self._answer = self._append._answer


class _Turn:
    """A call's use of a log: no other thread's call is served meanwhile, and the call's time runs."""

    __slots__ = ("_log", "_seconds")

    def __init__(self, log: Log, seconds: Optional[float]) -> None:
        self._log = log
        self._seconds = log.timeout if seconds is None else seconds

    def __enter__(self) -> None:
        log, seconds = self._log, self._seconds
        deadline = None if seconds is None else deadline_after(seconds)
        if not log._lock.acquire(timeout=-1 if seconds is None else seconds):
            raise TimedOut("another thread's call was served all the time")
        if log._taken:
            log._lock.release()
            raise InUse("the call that was interrupted uses the handle")
        log._deadline = deadline
        log._taken = True

    def __exit__(self, kind: Any, error: Any, trace: Any) -> None:
        self._log._taken = False
        self._log._lock.release()


class Log:
    """A program that serves the log in a folder, or a connection (`connect`). The start raises an `Ended` if no log can be opened, as `NotALog`,
    `NoFolder`, `Locked`, `NoPermission` or `DiskFailed`, and `OSError` if no program starts.

    The program is looked for as the system does it. What it writes to its standard error is read here and goes on, while a call waits, to where
    this process writes its own, or to `stderr`: a file, a descriptor, or `subprocess.DEVNULL`. The program gets no signals of this process's
    terminal, and ends when the handle is closed or this process ends. `timeout` is how many seconds the start and each call may wait, without a
    limit if it is None; it may be set anew. In a child that this process forks the handle is of no use, and its descriptors are closed.

    `client` in the calls is which of 64 clients calls, 1 if it is left out. A connection is one client, whose `number` it is: another one raises
    ValueError, and nothing is sent.
    """

    def __init__(
        self,
        folder: Path,
        *,
        program: Path = "clfs",
        write_buffers: Optional[int] = None,
        read_buffers: Optional[int] = None,
        timeout: Optional[float] = None,
        stderr: Any = None,
    ) -> None:
        words = [os.fspath(program), os.fspath(folder), "serve", *SERVE_OPTIONS]
        if write_buffers is not None:
            words += ["--write-buffers", str(write_buffers)]
        if read_buffers is not None:
            words += ["--read-buffers", str(read_buffers)]
        self._begin(Program(words, stderr), 1, timeout)
        try:
            self._meet()
        except BaseException:
            self._peer.release(self.timeout)
            raise

    @classmethod
    def _of_connection(cls, connection: Connection) -> Log:
        log = cls.__new__(cls)
        log._begin(connection, connection.number, None)
        return log

    def _begin(self, peer: Union[Program, Connection], number: int, timeout: Optional[float]) -> None:
        self.timeout = timeout
        self.number = number
        """The client's number, if none is named."""
        self._peer = peer
        self._lock = threading.RLock()
        self._taken = False
        self._deadline: Optional[float] = None
        self._waiting: Deque[Pending[Any]] = deque()
        self._outgoing = bytearray()
        self._begun = b""
        self._failure: Optional[ClfsError] = None
        _handles.add(self)

    def __enter__(self) -> Log:
        return self

    def __exit__(self, kind: Any, error: Any, trace: Any) -> None:
        with contextlib.suppress(ClfsError) if error is not None else contextlib.nullcontext():
            self.close()

    @property
    def pid(self) -> Optional[int]:
        """The process of the program; None of a connection."""
        return self._peer.pid

    @property
    def is_connection(self) -> bool:
        """Whether a service serves it, so that it is one client alone."""
        return isinstance(self._peer, Connection)

    @property
    def is_over(self) -> bool:
        """Whether nothing can be called any more, since it was closed, or its program or service has ended. Nothing is sent to find out."""
        return self._failure is not None or self._peer.has_ended()

    @property
    def under_way(self) -> int:
        """How many lines have no reply yet."""
        return len(self._waiting)

    # Streams, areas, and the whole log.

    def open(self, name: str, *, client: Optional[int] = None) -> int:
        """The number of the stream of this name, which is made if it isn't there."""
        return self.send(client, f"open {_word(name)}", replies.value_of("stream", replies.number_of)).result()

    def area(self, stream: Union[int, str], *, largest: int, reads: int = 4, client: Optional[int] = None) -> Area:
        """A new area on a stream, by its number or name, for records of at most `largest` bytes and with `reads` cursors."""
        number = self.open(stream, client=client) if isinstance(stream, str) else stream
        words = f"area {number} {largest} {reads}"
        return Area(self, self._own(client), self.send(client, words, replies.value_of("area", replies.number_of)).result(), number)

    def info(self, stream: int, *, client: Optional[int] = None) -> Info:
        """What the log and the stream of this number are like."""
        return self.send(client, f"info {stream}", replies.info_of).result()

    def archive(self, on: bool, *, client: Optional[int] = None) -> None:
        """Turns archiving on or off."""
        self.send(client, "archive on" if on else "archive off", replies.ok_of).result()

    def tail(self, lsn: int, *, client: Optional[int] = None) -> Lsn:
        """Says that everything below the LSN is archived."""
        return self.send(client, f"tail {replies.lsn_text(lsn)}", replies.value_of("tail", Lsn.parse)).result()

    def extents(self, *, client: Optional[int] = None) -> List[Extent]:
        """What is to be archived."""
        return self.send(client, "extents", replies.extents_of).result()

    def policy(self, policy: Policy, value: Optional[int] = None, *, client: Optional[int] = None) -> None:
        """Installs a policy: with its value, except for `AUTOMATIC`."""
        words = f"policy {policy.value}" + ("" if value is None else f" {value}")
        self.send(client, words, replies.ok_of).result()

    def unpolicy(self, policy: Policy, *, client: Optional[int] = None) -> None:
        """Takes a policy away again."""
        self.send(client, f"unpolicy {policy.value}", replies.ok_of).result()

    def size(self, containers: int, *, client: Optional[int] = None) -> int:
        """Gives the log so many containers."""
        return self.send(client, f"size {containers}", replies.value_of("containers", replies.number_of)).result()

    def reopen(self, *, client: Optional[int] = None) -> Lsn:
        """Opens the log again, as after a crash: what isn't flushed is gone, and so are all areas and cursors."""
        return self.send(client, "reopen", replies.flushed_of).result()

    # Lines and replies.

    def send(self, client: Optional[int], words: str, take: Callable[[List[str]], T] = replies.words_of) -> Pending[T]:  # type: ignore[assignment]
        """Sends any line of the language. `take` makes the answer of the reply's words after the client's number, or raises ValueError."""
        pending = Pending(self, self._own(client), take)
        self._send((words, pending))
        return pending

    def _send_append(self, client: int, words: str, options: List[str], area: int) -> Pending[Lsn]:
        """Sends an append. Over a connection its flush is a line of its own, as flushes that wait together share a sync."""
        append = Pending(self, self._own(client), replies.lsn_of)
        if "flush" not in options or not self.is_connection:
            self._send((" ".join([words, *options]), append))
            return append
        both = _Flushed(append)
        self._send((" ".join([words, *(option for option in options if option != "flush")]), append), (f"flush {area}", both))
        return both

    def _own(self, client: Optional[int]) -> int:
        """The number of the client that is meant."""
        if client is None:
            return self.number
        if self.is_connection and client != self.number:
            raise ValueError(f"client {client} over the connection of client {self.number}")
        return client

    def _send(self, *lines: Tuple[str, Pending[Any]]) -> None:
        """Sends lines in one piece: all of them or none."""
        encoded = [f"{pending._client} {words}".encode() for words, pending in lines]
        if any(b"\n" in line for line in encoded):
            raise ValueError("a line feed in a line")
        with _Turn(self, None):
            self._check()
            longest = max(map(len, encoded))
            if longest > LONGEST_LINE:
                raise LineTooLong(f"a line of {longest} bytes")
            self._put(b"\n".join(encoded), *(pending for _, pending in lines))

    def push(self) -> None:
        """Writes the lines that were gathered. Waiting for a result does so too, and so does every 64 KiB."""
        with _Turn(self, None):
            self._push()

    def close(self) -> None:
        """Ends the input, takes the replies under way, and waits for the end of the program, which raises `Ended` if its status isn't 0.

        What isn't flushed is gone. Closing a connection waits for the end of the visit, and it is done also when the service has ended: only the
        calls whose lines it hasn't answered tell so. In a process that was forked this does nothing.
        """
        with _Turn(self, None):
            told = self._failure
            if isinstance(told, OtherProcess):
                return
            try:
                self._push()
                self._peer.end_input()
                while self._failure is None:
                    self._read()
            finally:
                failure, self._failure = self._failure, Closed("the handle was closed")
                self._peer.release(self.timeout)
            if told is None and not (failure and self._peer.ends_well(failure)):
                raise failure or self._failure

    def kill(self) -> None:
        """Kills the program, as a crash would, or ends the connection, also while another thread's call is served. The next call tells so."""
        if isinstance(self._failure, OtherProcess):
            raise self._failure.with_traceback(None)
        self._peer.kill()

    def _meet(self) -> None:
        """Waits until the log is open: an empty line is answered as a bad one, whatever the log is like."""
        with contextlib.suppress(BadLine):
            met = Pending(self, 0, replies.nothing)
            self._put(b"", met)
            met.result()

    def _check(self) -> None:
        if self._failure is not None:
            raise self._failure.with_traceback(None)

    def _put(self, lines: bytes, *pending: Pending[Any]) -> None:
        self._outgoing += lines
        self._outgoing += b"\n"
        self._waiting.extend(pending)
        if len(self._outgoing) >= 1 << 16:
            self._push()

    def _push(self) -> None:
        while self._outgoing and self._failure is None:
            try:
                sent = self._peer.write(self._outgoing)
            except BlockingIOError:
                sent = 0
            except (BrokenPipeError, ConnectionResetError):
                # The program has ended. What it said before is still to be read.
                sent = len(self._outgoing)
            del self._outgoing[:sent]
            # (output is read meanwhile, so the program never waits for room itself)
            if sent == 0 and self._wait(for_room=True):
                self._read()

    def _wait_for(self, pending: Pending[Any]) -> None:
        """Writes all lines, and waits for some further output unless the reply came meanwhile."""
        self._push()
        if not pending.done:
            self._read()

    def _wait(self, for_room: bool) -> bool:
        """As the program's `wait`, up to the end of the call's time, which is the end of the handle."""
        try:
            return self._peer.wait(for_room, self._deadline)
        except TimedOut as error:
            self._give_up(error)
            raise

    def _take_end(self, said: Optional[str]) -> bool:
        """Waits for the end. False if it isn't one after these last words."""
        try:
            end = self._peer.ending(said, len(self._waiting), self._deadline)
        except TimedOut as error:
            self._give_up(error)
            raise
        if end is not None:
            self._fail(end)
        return end is not None

    def _give_up(self, error: TimedOut) -> None:
        self._peer.kill()
        self._fail(error)

    def _read(self) -> None:
        """Takes the output that is there, or waits for some. The end of it is the end of the program."""
        self._wait(for_room=False)
        piece = self._peer.read(1 << 16)
        if not piece:
            self._take_end(None)
            return
        *lines, self._begun = (self._begun + piece).split(b"\n")
        for line in lines:
            if self._failure is None:
                self._settle(line)

    def _settle(self, line: bytes) -> None:
        """Answers the first line under way, or finds out why the program said something else."""
        try:
            self._waiting[0]._settle(line.decode("ascii"))
        except (ValueError, IndexError):
            self._stop(line.decode("ascii", "backslashreplace"))
        else:
            self._waiting.popleft()

    def _stop(self, said: str) -> None:
        """The program wrote a line that is no reply: the last one before its end, or one that nobody knows."""
        if replies.status_of(said) is not None and not self._rest() and self._take_end(said):
            return
        self._peer.kill()
        self._fail(UnknownReply(said))

    def _rest(self) -> bool:
        """Whether the program writes anything more."""
        self._wait(for_room=False)
        return bool(self._peer.read(1))

    def _fail(self, error: ClfsError) -> None:
        self._failure = error
        for pending in self._waiting:
            pending._fail(error)
        self._waiting.clear()

    def _leave(self) -> None:
        """Takes the handle from a child that was forked, perhaps while a thread that the child hasn't was in a call."""
        self._lock = threading.RLock()
        self._taken = False
        self._peer.leave()
        self._fail(OtherProcess(FORKED))


# The handles, for a child that is forked.
_handles: weakref.WeakSet[Log] = weakref.WeakSet()


def _leave_all() -> None:
    for log in list(_handles):
        log._leave()


os.register_at_fork(after_in_child=_leave_all)


class Area:
    """An area of a client on a stream: what it appends goes to the stream, and it reads that stream's records alone.

    `reopen` and the end of the program end all areas.
    """

    def __init__(self, log: Log, client: int, number: int, stream: int) -> None:
        self._log = log
        self.client = client
        self.number = number
        self.stream = stream

    # Appending.

    def append(
        self,
        data: Data,
        previous: int = NULL,
        undo_next: int = NULL,
        *,
        reserved: bool = False,
        seal: bool = False,
        flush: bool = False,
        hold: Sequence[int] = (),
    ) -> Lsn:
        """Appends a record, and gives its LSN. Links name earlier records of the stream.

        `reserved` takes its sectors from what the area holds; `seal` lets no further record into its block; `flush` brings the log to the disk
        before the reply; `hold` holds sectors for up to 16 later records of these lengths. Over a connection the flush is a line of its own, so
        the log is flushed also if the append is refused.
        """
        return self.send_append(data, previous, undo_next, reserved=reserved, seal=seal, flush=flush, hold=hold).result()

    def send_append(
        self,
        data: Data,
        previous: int = NULL,
        undo_next: int = NULL,
        *,
        reserved: bool = False,
        seal: bool = False,
        flush: bool = False,
        hold: Sequence[int] = (),
    ) -> Pending[Lsn]:
        """As `append`, without waiting for the reply."""
        words = f"append {self.number} {data.hex() or '-'} {replies.lsn_text(previous)} {replies.lsn_text(undo_next)}"
        options = ["reserved"] * reserved + ["seal"] * seal + ["flush"] * flush
        if hold:
            options += ["hold", *map(str, hold)]
        return self._log._send_append(self.client, words, options, self.number)

    def flush(self) -> Lsn:
        """Brings all records to the disk. Every record below the LSN that it gives is stable."""
        return self.send_flush().result()

    def send_flush(self) -> Pending[Lsn]:
        """As `flush`, without waiting for the reply."""
        return self._send("flush", replies.flushed_of)

    def flush_to(self, lsn: int) -> Lsn:
        """As `flush`, unless the record at the LSN is stable already."""
        return self._send("flushto", replies.flushed_of, replies.lsn_text(lsn)).result()

    def restart(self, data: Data, base: int = NULL, *, reserved: bool = False) -> Lsn:
        """Appends a restart area, flushes, and moves the stream's base there, unless it is null."""
        words = [data.hex() or "-", replies.lsn_text(base)] + ["reserved"] * reserved
        return self._send("restart", replies.lsn_of, *words).result()

    def advance(self, base: int) -> Lsn:
        """Flushes, and moves the stream's base: records below it are dead."""
        return self._send("advance", replies.value_of("base", Lsn.parse), replies.lsn_text(base)).result()

    # Room.

    def reserve(self, *lengths: int) -> int:
        """Holds sectors for records of these lengths, 1 to 16 of them. Gives the sectors that the area now holds."""
        return self._send("reserve", replies.held_of, *lengths).result()

    def release(self, sectors: int) -> int:
        """Gives up sectors that the area holds."""
        return self._send("release", replies.held_of, sectors).result()

    def align(self, *lengths: int) -> int:
        """How many sectors records of these lengths would need."""
        return self._send("align", replies.value_of("sectors", replies.number_of), *lengths).result()

    def drop(self) -> None:
        """Ends the area, with what it holds and its cursors."""
        self._send("drop", replies.ok_of).result()

    # Reading.

    def read(self, lsn: int, mode: Mode = Mode.FORWARD) -> Cursor:
        """A cursor at the record of this LSN."""
        return Cursor(self, *self.send_read(lsn, mode).result())

    def send_read(self, lsn: int, mode: Mode = Mode.FORWARD) -> Pending[Tuple[int, Record]]:
        """As `read`, without waiting: gives the number of the new cursor and the record."""
        return self._send("read", replies.found_of, replies.lsn_text(lsn), mode.value)

    def record(self, lsn: int) -> Record:
        """The record of this LSN."""
        with self.read(lsn) as cursor:
            return cursor.record

    def records(self, lsn: int, mode: Mode = Mode.FORWARD) -> Iterator[Record]:
        """The record of this LSN and those to which a cursor goes from it, up to the end."""
        return _all(self.read(lsn, mode), EndOfLog if mode is Mode.FORWARD else StartOfLog)

    def read_restart(self) -> RestartCursor:
        """A cursor at the stream's newest restart area."""
        return RestartCursor(self, *self._send("readrestart", replies.found_of).result())

    def restarts(self) -> Iterator[Record]:
        """The restart areas of the stream, newest first."""
        try:
            cursor = self.read_restart()
        except NoRestart:
            return iter(())
        return _all(cursor, NoRestart)

    def _send(self, verb: str, take: Callable[[List[str]], T], *words: Union[int, str]) -> Pending[T]:
        return self._log.send(self.client, " ".join(map(str, (verb, self.number, *words))), take)


class Cursor:
    """A cursor over records. `record` is the one that it gave last. Leaving its `with` block ends it."""

    _NEXT = "next"

    def __init__(self, area: Area, number: int, record: Record) -> None:
        self._area = area
        self.number = number
        self.record = record

    def __enter__(self) -> Cursor:
        return self

    def __exit__(self, kind: Any, error: Any, trace: Any) -> None:
        with contextlib.suppress(ClfsError) if error is not None else contextlib.nullcontext():
            self.end()

    def next(self) -> Record:
        """Goes to the next record, or raises `EndOfLog` (forward) or `StartOfLog` (along links) and stays where it is."""
        self.record = self.send_next().result()
        return self.record

    def send_next(self) -> Pending[Record]:
        """Goes on without waiting for the reply; `record` isn't changed by it."""
        return self._area._send(self._NEXT, replies.record_of, self.number)

    def end(self) -> None:
        """Ends the cursor, so that its number is free."""
        self._area._send("end", replies.ok_of, self.number).result()


class RestartCursor(Cursor):
    """A cursor over restart areas. `next` goes to the one before, or raises `NoRestart`."""

    _NEXT = "prevrestart"


def _all(cursor: Cursor, end: Type[Refused]) -> Iterator[Record]:
    """What the cursor gives, up to this refusal."""
    try:
        yield cursor.record
        while True:
            try:
                yield cursor.next()
            except end:
                return
    finally:
        # (the loop may be left when the handle is over, or by the garbage collector in the middle of a call)
        with contextlib.suppress(Ended, Closed, TimedOut, OtherProcess, InUse):
            cursor.end()


def _word(name: str) -> str:
    """A name as a word of a line; which words are legal names, the log decides."""
    if not name or name.split() != [name]:
        raise ValueError(f"a name is one word: {name!r}")
    return name


def connect(place: Path, timeout: Optional[float] = 10) -> Log:
    """Comes to the service whose door is in a folder (`clfs FOLDER share --door PLACE`), as a client that has no area yet.

    Raises `NoService` if nobody serves there, and `NoFreeNumber` if all numbers are taken for so many seconds; None waits without a limit. The
    handle's own `timeout`, of its calls, is None. Its end deletes the areas that it made.
    """
    return Log._of_connection(_connection.visit(os.fspath(place), timeout))


def attach(number: int, lines: Path, replies: Path, timeout: Optional[float] = 10) -> Log:
    """Takes the pair of pipes of the client of this number, 1 to 64, of a service (`clfs FOLDER share IN OUT ..`).

    Raises `NoService` if nobody serves it within so many seconds; None waits without a limit. A pair is for one program.
    """
    if not 1 <= number <= MOST_CLIENTS:
        raise ValueError(f"a client's number is 1 to {MOST_CLIENTS}: {number}")
    return Log._of_connection(_connection.pair(number, os.fspath(lines), os.fspath(replies), timeout))


def format(
    folder: Path,
    *,
    block_sectors: int,
    container_sectors: int,
    containers: int,
    dedicated: bool = False,
    program: Path = "clfs",
    timeout: Optional[float] = None,
    stderr: Any = None,
) -> None:
    """Makes a log in a folder. Raises `LogExists` if one is there, and another `Ended` if it can't be made."""
    words = [os.fspath(program), os.fspath(folder), "format", "--block-sectors", str(block_sectors)]
    words += ["--container-sectors", str(container_sectors), "--containers", str(containers)]
    words += ["--dedicated"] * dedicated
    made = Program(words, stderr)
    deadline = deadline_after(timeout)
    output = b""
    try:
        made.end_input()
        while made.wait(False, deadline) and (piece := made.read(1 << 16)):
            output += piece
        code = made.reap(deadline)
    finally:
        made.release(timeout)
    said = output.decode("ascii", "backslashreplace").rstrip("\n")
    if (code, said) == (0, "formatted"):
        return
    if code == 0 or (said and replies.status_of(said) != code):
        raise UnknownReply(said)
    raise replies.ended(code, said or None, 0, made.cause)
