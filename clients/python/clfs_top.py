"""Follows a log that programs have: how full it is, how fast it goes on, and who keeps it full, again and again.

On a terminal it is one screen, which `q` or Ctrl-C ends. Else, or if lines are wanted, each look is a line. How many records were appended and how many flushes
made no line tells; how far the last record and what is on the disk went is told, in bytes of the log.
"""

from __future__ import annotations

import os
import select
import shutil
import sys
import termios
import time
import tty
from dataclasses import dataclass
from typing import Any, Iterator, List, Optional

from clfs.replies import Lsn
from clfs_online import Asked
from clfs_status import Status, first_to_free, size, text_of

_OTHER_SCREEN, _FIRST_SCREEN = "\x1b[?1049h\x1b[?25l", "\x1b[?25h\x1b[?1049l"
_HOME, _REST_OF_LINE, _REST_OF_SCREEN = "\x1b[H", "\x1b[K", "\x1b[J"


@dataclass(frozen=True)
class Moment:
    """What was told at a time, in seconds."""

    time: float
    status: Status

    @property
    def written(self) -> Lsn:
        """Where the last record lies, or what is on the disk ends."""
        return max([self.status.flushed or Lsn(0), *(stream.last for stream in self.status.streams)])


@dataclass(frozen=True)
class Rates:
    """Bytes of the log a second."""

    appended: float
    flushed: float

    def __str__(self) -> str:
        return f"{size(round(self.appended))}/s appended, {size(round(self.flushed))}/s flushed"


def _bytes_between(before: Lsn, after: Lsn, status: Status) -> int:
    return max(0, (after.container - before.container) * status.container_bytes + after.offset - before.offset)


def rates(before: Optional[Moment], now: Moment) -> Optional[Rates]:
    """How fast the log went on between two looks."""
    if before is None or now.time <= before.time:
        return None
    seconds, status = now.time - before.time, now.status
    appended = _bytes_between(before.written, now.written, status)
    flushed = _bytes_between(before.status.flushed or Lsn(0), status.flushed or Lsn(0), status)
    return Rates(appended / seconds, flushed / seconds)


def _keeper(status: Status) -> str:
    """Who keeps the log full: the oldest holders, up to the first with which more is free."""
    index = first_to_free(status)
    if index is None:
        return "nothing to free"
    keeping = status.holders[: index + 1]
    names = " and ".join("archiving" if holder.number is None else f"stream {holder.number}" for holder in keeping)
    return f"kept by {names} from {keeping[0].start}"


def line_of(now: Moment, since: Optional[Rates]) -> str:
    """A look as one line."""
    status = now.status
    assert status.free is not None
    clock = time.strftime("%H:%M:%S", time.localtime(now.time))
    going = "-" if since is None else str(since)
    free = f"{status.free.containers} of {status.containers} containers and {size(status.free.bytes)} free, {size(status.reserved or 0)} reserved"
    return f"{clock} {status.percent} % full; {free}; {going}; {_keeper(status)}\n"


class Keys:
    """The keys of a terminal, each as soon as it is pressed; none if standard input is none."""

    def __init__(self) -> None:
        self._settings: Optional[List[Any]] = None

    def __enter__(self) -> Keys:
        if sys.stdin is not None and sys.stdin.isatty():
            self._settings = termios.tcgetattr(sys.stdin)
            tty.setcbreak(sys.stdin)
        return self

    def __exit__(self, kind: Any, error: Any, trace: Any) -> None:
        if self._settings is not None:
            termios.tcsetattr(sys.stdin, termios.TCSADRAIN, self._settings)

    def is_ended(self, seconds: float) -> bool:
        """Waits for so long, or until a key was pressed; whether it was `q`, or the terminal is gone."""
        if self._settings is None:
            time.sleep(seconds)
            return False
        ready, _, _ = select.select([sys.stdin], [], [], seconds)
        return bool(ready) and os.read(sys.stdin.fileno(), 1) in (b"q", b"Q", b"")


def _moments(log: Asked) -> Iterator[Moment]:
    while True:
        yield Moment(time.time(), log.status())


def _follow_lines(log: Asked, every: float) -> None:
    before = None
    for now in _moments(log):
        sys.stdout.write(line_of(now, rates(before, now)))
        sys.stdout.flush()
        before = now
        time.sleep(every)


def _screen(now: Moment, since: Optional[Rates], every: float) -> str:
    """The screen, cut to the terminal's size."""
    columns, rows = shutil.get_terminal_size()
    clock = time.strftime("%H:%M:%S", time.localtime(now.time))
    head = [f"{clock}, every {every:g} s; q ends.", "" if since is None else f"{since}.", ""]
    lines = [*head, *text_of(now.status).splitlines()][: rows - 1]
    return _HOME + "".join(f"{line[:columns]}{_REST_OF_LINE}\n" for line in lines) + _REST_OF_SCREEN


def _follow_screen(log: Asked, every: float) -> None:
    before = None
    with Keys() as keys:
        for now in _moments(log):
            sys.stdout.write(_screen(now, rates(before, now), every))
            sys.stdout.flush()
            before = now
            if keys.is_ended(every):
                break


def follow(place: str, every: float, lines: bool, seconds: float) -> None:
    """Follows the log that is served at a place, until a key or Ctrl-C ends it. Raises `CannotTell` once it can't be asked any more."""
    with Asked(place, seconds) as log:
        if lines or not sys.stdout.isatty():
            _follow_lines(log, every)
            return
        sys.stdout.write(_OTHER_SCREEN)
        try:
            _follow_screen(log, every)
        finally:
            sys.stdout.write(_FIRST_SCREEN)
            sys.stdout.flush()
