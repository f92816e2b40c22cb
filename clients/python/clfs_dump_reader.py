"""Reads what `clfs FOLDER dump` prints, of a folder, of a file or of standard input.

The reading is strict: a line that no dump has raises `NotADump` with its number. A dump without its last line, which says `end` or `damage`, was cut short
and is none either. What is told of records is kept in columns, since a log may have millions of them.
"""

from __future__ import annotations

import contextlib
import os
import re
import subprocess
import sys
import time
from array import array
from dataclasses import dataclass, field
from typing import Callable, Dict, Iterable, Iterator, List, Optional, Set, TextIO

from clfs.replies import Lsn

SECTOR = 512
PROGRAM = "clfs"
MARK = "unsynced"
"""The file in a log's folder that says that a sync failed."""

_SEQUENCE = 0x1FF
_KINDS = {"data": 0, "restart": 1}
_ENCODING = "utf-8"
_ERRORS = "backslashreplace"


class CannotTell(Exception):
    """What was asked can't be told. The text says why."""


class NotADump(CannotTell):
    """The text isn't that of a whole dump."""


@dataclass(frozen=True)
class Stream:
    number: int
    base: Lsn
    """That of the base copy. A restart area may have moved the base further."""
    name: str


@dataclass(frozen=True)
class Container:
    number: int
    file: int


@dataclass(frozen=True)
class Damage:
    """The first wrong byte."""

    container: int
    offset: int
    byte: int


@dataclass
class Head:
    """The line `log`."""

    block_sectors: int
    container_sectors: int
    containers: int
    archive_tail: Optional[Lsn]
    version: int


@dataclass
class Blocks:
    """A column for each value; the blocks are in the order of their LSNs."""

    lsn: array = field(default_factory=lambda: array("Q"))
    sectors: array = field(default_factory=lambda: array("B"))
    records: array = field(default_factory=lambda: array("H"))
    used: array = field(default_factory=lambda: array("L"))


@dataclass
class Records:
    """A column for each value; the records are in the order of their LSNs. `data` is hexadecimal, and None where the dump doesn't tell it."""

    lsn: array = field(default_factory=lambda: array("Q"))
    stream: array = field(default_factory=lambda: array("B"))
    is_restart: array = field(default_factory=lambda: array("B"))
    previous: array = field(default_factory=lambda: array("Q"))
    undo_next: array = field(default_factory=lambda: array("Q"))
    new_base: array = field(default_factory=lambda: array("Q"))
    data: List[Optional[str]] = field(default_factory=list)


@dataclass
class Dump:
    """A log, as far as a dump tells it. Just one of `end` and `damage` is there."""

    head: Head
    streams: List[Stream] = field(default_factory=list)
    containers: List[Container] = field(default_factory=list)
    blocks: Blocks = field(default_factory=Blocks)
    records: Records = field(default_factory=Records)
    end: Optional[Lsn] = None
    damage: Optional[Damage] = None

    def leaves_out(self) -> bool:
        """Whether blocks or records are missing, as after `--from`, `--to` and `--stream`. In each container the blocks lie without a gap from its start
        on, and only at its end may there be less room than a block needs."""
        position, place = 0, self.containers[0].number if self.containers else 0
        for lsn, sectors in zip(self.blocks.lsn, self.blocks.sectors):
            container, offset = lsn >> 32, lsn & 0xFFFFFFFF
            if container == place + 1 and self._is_full(position):
                position, place = 0, container
            if (container, offset) != (place, position):
                return True
            position += sectors * SECTOR
        return self._stops_before(place, position) or self._has_fewer_records()

    def _is_full(self, position: int) -> bool:
        return self.head.container_sectors * SECTOR - position < self.head.block_sectors * SECTOR

    def _stops_before(self, place: int, position: int) -> bool:
        """Whether blocks are missing between this place, after the last block, and the last line."""
        if self.end is not None:
            container, offset = self.end.container, self.end.offset
        elif self.damage is not None:
            container, offset = self.damage.container, self.damage.offset
        else:
            return True
        # A damaged block whose head is right has its line before that of the damage.
        ends = {(place, position)} | ({(place + 1, 0)} if self._is_full(position) else set())
        last = (self.blocks.lsn[-1] >> 32, self.blocks.lsn[-1] & 0xFFFFFFFF) if self.blocks.lsn else None
        return (container, offset) not in ends and (self.damage is None or (container, offset) != last)

    def _has_fewer_records(self) -> bool:
        expected = sum(self.blocks.records)
        if self.damage is not None and self.blocks.lsn:
            # Of the last block those before the wrong byte are told.
            expected -= self.blocks.records[-1]
        return len(self.records.lsn) < expected


class _Reader:
    """Takes the lines after the first one by one."""

    def __init__(self, dump: Dump) -> None:
        self.dump = dump
        self._numbers: Set[int] = set()
        self._takes: Dict[str, Callable[[List[str]], None]] = {
            "record": self._record,
            "block": self._block,
            "container": self._container,
            "stream": self._stream,
            "end": self._end,
            "damage": self._damage,
        }

    @property
    def is_over(self) -> bool:
        return self.dump.end is not None or self.dump.damage is not None

    def take(self, line: str) -> None:
        """Raises an error of a value or an index if it is no line of a dump at this place."""
        kind, *words = line.split(" ", 7)
        if self.is_over:
            raise ValueError(line)
        self._takes[kind](words)

    def _record(self, words: List[str]) -> None:
        lsn, number, kind, previous, undo_next, new_base = words[:6]
        records, place = self.dump.records, _lsn(lsn)
        # It lies in the block above, behind the record above.
        _require(place & ~_SEQUENCE == self.dump.blocks.lsn[-1] and int(number) in self._numbers)
        _require(not records.lsn or place > records.lsn[-1])
        records.lsn.append(place)
        records.stream.append(int(number))
        records.is_restart.append(_KINDS[kind])
        records.previous.append(_lsn(previous))
        records.undo_next.append(_lsn(undo_next))
        records.new_base.append(_lsn(new_base))
        records.data.append(_hexadecimal(words[6]) if len(words) > 6 else None)

    def _block(self, words: List[str]) -> None:
        lsn, sectors, records, used = [words[0], *_named(words[1:], "sectors", "records", "used")]
        blocks, place = self.dump.blocks, Lsn.parse(lsn)
        _require(place.container == self.dump.containers[-1].number and place.sequence == 0 and int(sectors) > 0 and int(records) > 0)
        _require(place.offset // SECTOR + int(sectors) <= self.dump.head.container_sectors)
        _require(not blocks.lsn or place >= blocks.lsn[-1] + blocks.sectors[-1] * SECTOR)
        blocks.lsn.append(place)
        blocks.sectors.append(int(sectors))
        blocks.records.append(int(records))
        blocks.used.append(int(used))

    def _container(self, words: List[str]) -> None:
        number, file = [words[0], *_named(words[1:], "file")]
        containers = self.dump.containers
        _require(not containers or int(number) == containers[-1].number + 1)
        _require(len(containers) < self.dump.head.containers)
        containers.append(Container(int(number), int(file)))

    def _stream(self, words: List[str]) -> None:
        number, base, name = [words[0], *_named(words[1:3], "base"), *words[3:]]
        _require(int(number) not in self._numbers)
        self._numbers.add(int(number))
        self.dump.streams.append(Stream(int(number), Lsn.parse(base), name))

    def _end(self, words: List[str]) -> None:
        (end,) = words
        self._ends(Lsn.parse(end))
        self.dump.end = Lsn.parse(end)

    def _ends(self, lsn: Lsn) -> None:
        containers, blocks = self.dump.containers, self.dump.blocks
        _require(containers[0].number <= lsn.container <= containers[-1].number and (not blocks.lsn or lsn > blocks.lsn[-1]))

    def _damage(self, words: List[str]) -> None:
        self.dump.damage = Damage(*map(int, _named(words, "container", "offset", "byte")))


def _require(is_so: bool) -> None:
    if not is_so:
        raise ValueError


def _named(words: List[str], *names: str) -> List[str]:
    """The values of words that are a name and a value in turn, or ValueError."""
    if words[::2] != list(names) or len(words) != 2 * len(names):
        raise ValueError(words)
    return words[1::2]


def _head(line: str) -> Head:
    kind, *words = line.split(" ")
    if kind != "log":
        raise ValueError(line)
    names = ("block", "container", "containers", "files", "listed", "streams", "archive", "version", "slot", "turn")
    block, container, containers, _, _, _, archive, version, _, _ = _named(words, *names)
    tail = None if archive == "off" else Lsn.parse(archive)
    _require(1 <= int(block) <= 128 and 2 * int(block) <= int(container) <= 16384 and 1 <= int(containers) <= 256)
    return Head(int(block), int(container), int(containers), tail, int(version))


def _lsn(text: str) -> int:
    """As `Lsn.parse`, and much quicker."""
    if text == "0:0:0":
        return 0
    container, offset, sequence = text.split(":")
    return int(container, 16) << 32 | int(offset, 16) | int(sequence, 16)


def _hexadecimal(data: str) -> str:
    """Data as hexadecimal digits, whichever form the dump has them in."""
    if data == "-":
        return ""
    if not data.startswith('"'):
        bytes.fromhex(data)
        return data
    if len(data) < 2 or not data.endswith('"'):
        raise ValueError(data)
    plain = re.sub(r'\\(?:x([0-9a-f]{2})|(["\\]))', lambda form: chr(int(form[1], 16)) if form[1] else form[2], data[1:-1])
    return plain.encode("latin-1").hex()


def parse(lines: Iterable[str]) -> Dump:
    """The log of a dump's lines."""
    reader: Optional[_Reader] = None
    number = 0
    for number, line in enumerate(lines, 1):
        line = line.rstrip("\n")
        try:
            if reader is None:
                reader = _Reader(Dump(_head(line)))
            else:
                reader.take(line)
        except (ValueError, KeyError, IndexError, OverflowError):
            raise NotADump(f"line {number} is none of a dump: {line[:80]!r}") from None
    if reader is None or not reader.is_over:
        raise NotADump(f"the dump was cut short after line {number}" if number else "there is no line of a dump")
    return reader.dump


@dataclass(frozen=True)
class Source:
    """Where a dump comes from: a log's folder, a file, or `-`, which is standard input."""

    place: str
    program: str = PROGRAM

    @property
    def is_folder(self) -> bool:
        return os.path.isdir(self.place)

    def has_mark(self) -> Optional[bool]:
        """Whether a sync had failed in the folder. The program takes the mark away at its next start, so this is asked before `read`."""
        return os.path.lexists(os.path.join(self.place, MARK)) if self.is_folder else None

    def read(self, data: str = "none") -> Dump:
        """The log. `data` is how the program is asked to print data."""
        if self.is_folder:
            return self._run(data)
        if self.place == "-":
            return parse(_told(sys.stdin))
        try:
            with open(self.place, encoding=_ENCODING, errors=_ERRORS) as file:
                return parse(_told(file))
        except OSError as error:
            raise CannotTell(f"{self.place}: {error.strerror}") from None

    def _run(self, data: str) -> Dump:
        words = [self.program, self.place, "dump", "--data", data]
        try:
            program = subprocess.Popen(words, stdin=subprocess.DEVNULL, stdout=subprocess.PIPE, encoding=_ENCODING, errors=_ERRORS)
        except OSError as error:
            raise CannotTell(f"the program {self.program} doesn't start: {error.strerror}") from None
        with program:
            assert program.stdout is not None
            try:
                dump = parse(_told(program.stdout))
            except NotADump as error:
                # What the program says in place of a dump its status says too, and standard error says why.
                program.stdout.read()
                raise CannotTell(_CAUSES.get(program.wait(), f"the program ended with {program.returncode}: {error}")) from None
        if program.returncode not in (0, 6):
            raise CannotTell(_CAUSES.get(program.returncode, f"the program ended with {program.returncode}"))
        return dump


_CAUSES = {
    3: "the program couldn't write all of the dump",
    4: "the log can't be read: another process has the folder, or the disk failed",
    5: "the program ran out of memory",
    6: "there is no log in the folder",
}


def _told(lines: TextIO) -> Iterator[str]:
    """The lines. If they take more than a second, a line on a terminal says how many were read."""
    if not sys.stderr.isatty():
        yield from lines
        return
    next_time, shown = time.monotonic() + 1, False
    for number, line in enumerate(lines, 1):
        if number % 256 == 0 and time.monotonic() > next_time:
            next_time, shown = time.monotonic() + 0.2, True
            sys.stderr.write(f"\rclfs_look: read {number} lines")
        yield line
    if shown:
        with contextlib.suppress(OSError):
            sys.stderr.write("\r\x1b[K")
