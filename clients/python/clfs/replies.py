"""What the program answers: LSNs, records and other values, why a call may fail, and how a reply is read.

A reply is read strictly: what the language doesn't have raises ValueError, and the handle makes an `UnknownReply` of it.
"""

from __future__ import annotations

import dataclasses
import enum
import re
from dataclasses import dataclass
from typing import Any, Callable, ClassVar, Dict, List, Optional, Sequence, Tuple, Type, TypeVar

__all__ = [
    "ClfsError", "LineTooLong", "UnknownReply", "Closed", "OtherProcess", "InUse", "TimedOut", "NoService", "NoFreeNumber", "Ended",
    "ServiceEnded", "DiskFailed", "Locked", "NoPermission", "InputTooLong", "LogExists", "NotALog", "NoFolder", "Lsn", "NULL",
    "Mode", "Kind", "Policy", "Record", "Extent", "Info", "NoMemory", "DiskFault", "Broken", "NotEnoughContainers", "Full",
    "ReservationShort", "RecordTooLong", "LinkInvalid", "NoSuchStream", "NoSuchArea", "Damaged", "NoSuchCursor", "StreamLimit", "AreaLimit",
    "CursorLimit", "NameInvalid", "RecordNonexistent", "EndOfLog", "StartOfLog", "NoRestart", "TailInvalid", "ArchiveTailInvalid",
    "Ephemeral", "CantShrink", "ContainerLimit", "PolicyConflict", "PolicyNotInstalled", "BadLine", "Dedicated", "Refused",
]

T = TypeVar("T")


class Lsn(int):
    """Where a record lies. Later records have greater LSNs. As a number it is `container * 2**32 + offset + sequence`."""

    _FORM = re.compile(r"(0|[1-9a-f][0-9a-f]{0,7}):(0|[1-9a-f][0-9a-f]{0,7}):(0|[1-9a-f][0-9a-f]{0,2})")

    @classmethod
    def parse(cls, text: str) -> Lsn:
        """The LSN that a text like `1:400:0` is, or `ValueError`."""
        form = cls._FORM.fullmatch(text)
        if not form:
            raise ValueError(f"no LSN: {text!r}")
        container, offset, sequence = (int(part, 16) for part in form.groups())
        if offset % 512 or sequence > 511:
            raise ValueError(f"no LSN: {text!r}")
        return cls(container << 32 | offset | sequence)

    @property
    def container(self) -> int:
        return self >> 32

    @property
    def offset(self) -> int:
        """The offset of the record's block in its container, in bytes."""
        return self & 0xFFFFFE00

    @property
    def sequence(self) -> int:
        """The number of the record in its block, from 0."""
        return self & 0x1FF

    def after(self) -> Lsn:
        """The LSN above this one and below that of each later record: a base there leaves this record dead."""
        return Lsn(self + 1)

    def __str__(self) -> str:
        return lsn_text(self)

    def __repr__(self) -> str:
        return f"Lsn.parse('{self}')"


def lsn_text(lsn: int) -> str:
    return f"{lsn >> 32:x}:{lsn & 0xFFFFFE00:x}:{lsn & 0x1FF:x}"


NULL = Lsn(0)
"""The LSN that names no record."""


class Mode(enum.Enum):
    """The way that a cursor goes."""

    PREVIOUS = "previous"
    UNDO_NEXT = "undo"
    FORWARD = "forward"


class Kind(enum.Enum):
    """What a record is."""

    DATA = "data"
    RESTART = "restart"


class Policy(enum.Enum):
    """A rule for the size of the log."""

    MAXIMUM = "max"
    MINIMUM = "min"
    GROWTH = "growth"
    AUTOMATIC = "auto"


@dataclass(frozen=True)
class Record:
    """A record of a stream. `base` is the new base that a restart area carries."""

    lsn: Lsn
    kind: Kind
    previous: Lsn
    undo_next: Lsn
    base: Lsn
    data: bytes


@dataclass(frozen=True)
class Extent:
    """Bytes `low` to `high` of a container, which are to be archived."""

    container: int
    low: int
    high: int


@dataclass(frozen=True)
class Info:
    """What the log and one of its streams are like. `archive` is the archive tail, or None if archiving is off."""

    containers: int
    free_containers: int
    container_sectors: int
    free_sectors: int
    reserved: int
    base: Lsn
    last: Lsn
    flushed: Lsn
    restart: Lsn
    archive: Optional[Lsn]


# What may go wrong.


class ClfsError(Exception):
    """What may go wrong with a log."""


class LineTooLong(ClfsError):
    """The line would have more than 131,072 bytes, which no record of a log needs. Nothing was sent."""


class UnknownReply(ClfsError):
    """The program wrote a line that the language doesn't have. What it means is not guessed; the program was killed."""


class Closed(ClfsError):
    """The handle was closed."""


class OtherProcess(ClfsError):
    """The handle is that of the process from which this one was forked. It is of no use here, and goes on there."""


class InUse(ClfsError):
    """A signal's handler made a call on the log while the call that it interrupted wasn't done. Nothing was sent."""


class TimedOut(ClfsError):
    """The time of the call is over.

    If the program didn't answer in it, the program was killed (of a service, the connection was ended), and the handle is of no use: of the lines without a reply a first part may have
    been done. If another thread's call was served all the time, the program goes on and so does the handle: the line may still be sent and done, and
    `kill` ends both.
    """


class NoService(ClfsError):
    """Nobody serves there: there is no door or pipe, nobody reads it, or the service has ended before it let this program in."""


class NoFreeNumber(ClfsError):
    """The service let this program in by no number in time, as all were taken. Nothing is left of the attempt."""


@dataclass(eq=False)
class Ended(ClfsError):
    """The program has ended: with `status`, or by `signal` if the status is None. A connection that `kill` ended has neither.

    `unanswered` lines have no reply. Of these a first part may have been done, and none that was to be flushed is known to be.
    """

    status: Optional[int]
    signal: Optional[int]
    unanswered: int

    def __str__(self) -> str:
        return f"{self._cause()} (lines without a reply: {self.unanswered})"

    def _cause(self) -> str:
        if self.signal is not None:
            return f"the program was ended by signal {self.signal}"
        if self.status is None:
            return "this side has ended the connection"
        said = _STATUSES.get(self.status or 0)
        return f"the program ended with status {self.status}" + (f": {said}" if said else "")


class ServiceEnded(Ended):
    """The service has gone, or it sent this program away. `status` and `signal` are None. Connect again: nothing is done anew, and areas are to
    be made again."""

    def _cause(self) -> str:
        return "the service has ended"


class DiskFailed(Ended):
    """The disk failed before the log was open, or while it was made. The program's standard error says in which call."""


class Locked(DiskFailed):
    """Another process has the folder."""

    def _cause(self) -> str:
        return "locked: another process has the folder"


class NoPermission(DiskFailed):
    """The folder, or a file of it, may not be read or written. The program's standard error says which."""

    def _cause(self) -> str:
        return "no permission for the folder or a file of it"


class InputTooLong(Ended):
    """This run of the program has taken a line that is too long, or as many bytes as it may. Start it again: what was flushed is there."""


class LogExists(Ended):
    """A log is there already; `format` has changed nothing."""


@dataclass(eq=False)
class NotALog(Ended):
    """The folder has no log: no base copy counts, or the bytes at `place` (container, offset, byte) aren't a log's."""

    place: Optional[Tuple[int, int, int]]

    def _cause(self) -> str:
        if self.place is None:
            return "not a log: no open slot"
        return "not a log: container {} offset {} byte {}".format(*self.place)


class NoFolder(NotALog):
    """There is no such folder; for `format`, there is no folder that it would lie in."""

    def _cause(self) -> str:
        return "there is no such folder"


_STATUSES: Dict[int, str] = {
    1: "it has no such command or option",
    2: "it couldn't read its input",
    3: "it couldn't write its replies",
    4: "the disk failed",
    5: "it found no memory",
    6: "the folder has no log",
    7: "it has taken as many bytes of input as it may",
    8: "a log is there",
    18: "no program could come",
    70: "./clfs couldn't bring the program up to date",
}


_REFUSALS: Dict[int, Type[Refused]] = {}


class Refused(ClfsError):
    """The log refused the call. Except after `DiskFault` and `Damaged` it is as it was; after these two it is broken until the next start."""

    number: ClassVar[int]

    def __init_subclass__(cls, number: int) -> None:
        cls.number = number
        _REFUSALS[number] = dataclass(eq=False)(cls)

    def __str__(self) -> str:
        fields = ", ".join(f"{name} {getattr(self, name)}" for name, _ in _fields_of(type(self)))
        return f"refused {self.number} {type(self).__name__}" + (f": {fields}" if fields else "")


class NoMemory(Refused, number=1):
    """The program found no memory."""


class DiskFault(Refused, number=2):
    """The disk failed in this call. Its standard error says which file and how. Close, mend, and start again."""


class Broken(Refused, number=3):
    """An earlier call was answered `DiskFault` or `Damaged`."""


class NotEnoughContainers(Refused, number=4):
    """A log of one container takes no records."""

    have: int


class Full(Refused, number=5):
    """The free sectors are fewer than the reserved ones and those that the call needs."""

    free: int
    reserved: int
    need: int


class ReservationShort(Refused, number=6):
    """The area holds fewer sectors than the call takes from it."""

    held: int
    need: int


class RecordTooLong(Refused, number=7):
    """A length is above the area's largest, or an area's largest above the log's longest record."""

    length: int
    most: int


class LinkInvalid(Refused, number=8):
    """The link is neither null, nor below the stream's base, nor a live record's."""

    lsn: Lsn


class NoSuchStream(Refused, number=9):
    """No stream has the number."""


class NoSuchArea(Refused, number=10):
    """The client has no area of the number."""


class Damaged(Refused, number=11):
    """Bytes on the disk aren't those that a log has. Container 0 is the base file."""

    container: int
    offset: int
    at: int


class NoSuchCursor(Refused, number=12):
    """The area has no cursor of the number and kind."""


class StreamLimit(Refused, number=13):
    """The log has as many streams as it may have."""

    count: int


class AreaLimit(Refused, number=14):
    """The client has as many areas as it may have."""

    count: int


class CursorLimit(Refused, number=15):
    """The area has as many cursors as it was made for."""

    open: int


class NameInvalid(Refused, number=16):
    """Byte `at` of the name isn't a letter, a digit, `_`, `-` or `.`, or the name is too long."""

    at: int


class RecordNonexistent(Refused, number=17):
    """No live record of the stream has the LSN; for `flush_to`, no record of the log lies there yet."""

    lsn: Lsn


class EndOfLog(Refused, number=18):
    """No record of the stream follows."""


class StartOfLog(Refused, number=19):
    """The link of the cursor's record names no live record."""


class NoRestart(Refused, number=20):
    """There is no restart area, or none before the cursor's."""


class TailInvalid(Refused, number=21):
    """The new base is neither a live record's LSN nor one above the last one's."""

    lsn: Lsn
    base: Lsn
    last: Lsn


class ArchiveTailInvalid(Refused, number=22):
    """The new tail is below the old one, or above what is on the disk."""

    lsn: Lsn
    tail: Lsn
    flushed: Lsn


class Ephemeral(Refused, number=23):
    """Archiving is off."""


class CantShrink(Refused, number=24):
    """Fewer containers were asked for than are needed."""

    active: int
    need: int


class ContainerLimit(Refused, number=25):
    """More containers were asked for than the policies or the log allow."""

    limit: int


class PolicyConflict(Refused, number=26):
    """The value is outside its range."""

    least: int
    most: int


class PolicyNotInstalled(Refused, number=27):
    """The policy isn't there."""


class BadLine(Refused, number=28):
    """The language has no such line: it goes wrong at byte `at`, as at a client 0 or an area 17."""

    at: int


class Dedicated(Refused, number=29):
    """The log is dedicated and has its one stream already."""


# Reading replies. Each of these raises ValueError if the words aren't what the language has at this place.


def number_of(word: str) -> int:
    number = int(word)
    if str(number) != word or not 0 <= number < 1 << 32:
        raise ValueError(word)
    return number


def _hexadecimal(word: str) -> int:
    number = int(word, 16)
    if f"{number:x}" != word or not 0 <= number < 1 << 32:
        raise ValueError(word)
    return number


def _data(word: str) -> bytes:
    data = b"" if word == "-" else bytes.fromhex(word)
    if (data.hex() or "-") != word:
        raise ValueError(word)
    return data


def record_of(words: Sequence[str]) -> Record:
    name, lsn, kind, previous, undo_next, base, data = words
    if name != "record":
        raise ValueError(name)
    return Record(Lsn.parse(lsn), Kind(kind), Lsn.parse(previous), Lsn.parse(undo_next), Lsn.parse(base), _data(data))


def found_of(words: Sequence[str]) -> Tuple[int, Record]:
    if words[0] != "cursor":
        raise ValueError(words[0])
    return number_of(words[1]), record_of(words[2:])


def ok_of(words: Sequence[str]) -> None:
    if words != ["ok"]:
        raise ValueError(words)


def value_of(name: str, read: Callable[[str], T]) -> Callable[[List[str]], T]:
    """Reads a reply that is this name and one value."""

    def take(words: List[str]) -> T:
        first, word = words
        if first != name:
            raise ValueError(first)
        return read(word)

    return take


def _extent(word: str) -> Extent:
    container, _, span = word.partition(":")
    low, _, high = span.partition("-")
    return Extent(_hexadecimal(container), _hexadecimal(low), _hexadecimal(high))


def extents_of(words: Sequence[str]) -> List[Extent]:
    if words[0] != "extents" or number_of(words[1]) != len(words) - 2:
        raise ValueError(words)
    return [_extent(word) for word in words[2:]]


_INFO_NAMES = ["containers", "free", "size", "sectors", "reserved", "base", "last", "flushed", "restart", "archive"]


def info_of(words: Sequence[str]) -> Info:
    names, values = words[1::2], words[2::2]
    if words[0] != "info" or names != _INFO_NAMES or len(values) != len(names):
        raise ValueError(words)
    archive = None if values[9] == "off" else Lsn.parse(values[9])
    return Info(*map(number_of, values[:5]), *map(Lsn.parse, values[5:9]), archive)  # type: ignore[arg-type]


def words_of(words: List[str]) -> List[str]:
    return words


def nothing(words: List[str]) -> None:
    raise ValueError(words)


lsn_of = value_of("lsn", Lsn.parse)
flushed_of = value_of("flushed", Lsn.parse)
held_of = value_of("held", number_of)


def _fields_of(cls: Type[Refused]) -> List[Tuple[str, Callable[[str], Any]]]:
    readers: Dict[str, Callable[[str], Any]] = {"int": number_of, "Lsn": Lsn.parse}
    return [(field.name, readers[str(field.type)]) for field in dataclasses.fields(cls)]  # type: ignore[arg-type]


def refused_of(words: Sequence[str]) -> Refused:
    """The refusal that the words tell, after the word `refused`."""
    cls = _REFUSALS.get(number_of(words[0]))
    if cls is None or words[1] != cls.__name__:
        raise ValueError(words)
    fields = _fields_of(cls)
    if len(words) != 2 + len(fields):
        raise ValueError(words)
    return cls(*(read(word) for (_, read), word in zip(fields, words[2:])))


_PLACE = re.compile(r"not a log: container (\d+) offset (\d+) byte (\d+)")
_LAST_WORDS = {"disk fault": 4, "not a log: no open slot": 6, "input too long": 7, "a log is there": 8}


def status_of(said: str) -> Optional[int]:
    """The status with which the program ends after this line, or None if it isn't such a line."""
    if said.startswith("usage: clfs "):
        return 1
    return 6 if _PLACE.fullmatch(said) else _LAST_WORDS.get(said)


def ended(code: int, said: Optional[str], unanswered: int, cause: Optional[Type[Ended]]) -> Ended:
    """The end of a program with this exit code, after these last words, and with this cause on standard error."""
    status, signal = (code, None) if code >= 0 else (None, -code)
    if cause is NoFolder and code in (4, 6):
        return NoFolder(status, signal, unanswered, None)
    if cause is not None and code == 4:
        return cause(status, signal, unanswered)
    if said is None:
        return Ended(status, signal, unanswered)
    if code == 6:
        place = _PLACE.fullmatch(said)
        return NotALog(status, signal, unanswered, tuple(map(int, place.groups())) if place else None)  # type: ignore[arg-type]
    return {4: DiskFailed, 7: InputTooLong, 8: LogExists}.get(code, Ended)(status, signal, unanswered)
