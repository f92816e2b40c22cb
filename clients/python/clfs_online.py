"""How full a log is that programs have, and who keeps it so, as a connection tells it.

`info` is asked for each stream, from number 1 up to the first that isn't there, and nothing in the log changes. No line tells names, records or policies. Nor
does one tell the least live record of a stream: it is at or above the stream's base and lies in a container in use. So a stream is said to hold the log
from its base on, or from the first container in use if that is above, and what is free once it has moved is at least what is told.
"""

from __future__ import annotations

import contextlib
from dataclasses import dataclass
from typing import Any, Iterator, List, Optional, Tuple

import clfs
from clfs.replies import ClfsError, Info, Lsn, NoSuchStream, RecordTooLong
from clfs_dump_reader import SECTOR, CannotTell
from clfs_status import Holder, Space, Status, StreamStatus

PATIENCE = 10.0
"""As many seconds a connection waits for a number, and for each reply, if nothing else is said."""

_ROUNDS = 8
_ABOVE_ALL_RECORDS = 0xFFFFFFFF
# What a block has beside the bytes of one record that fills it, and the bytes of a sector that aren't its address.
_BESIDE_RECORD = 48
_PAYLOAD = 504


class Asked:
    """A log that is asked by a connection, which the end of the `with` block closes. What goes wrong with the connection is a `CannotTell`."""

    def __init__(self, place: str, seconds: float) -> None:
        self._place = place
        self._block_sectors: Optional[int] = None
        with self._asking():
            self._log = clfs.connect(place, timeout=seconds)

    def __enter__(self) -> Asked:
        return self

    def __exit__(self, kind: Any, error: Any, trace: Any) -> None:
        with contextlib.suppress(ClfsError, OSError):
            self._log.close()

    def status(self) -> Status:
        """Raises `CannotTell` also if the log has no stream, without which `info` tells nothing."""
        with self._asking():
            infos = self._infos()
            if self._block_sectors is None:
                self._block_sectors = self._ask_block_sectors()
        return _status_of(infos, self._block_sectors, self._place)

    @contextlib.contextmanager
    def _asking(self) -> Iterator[None]:
        try:
            yield
        except (ClfsError, OSError) as error:
            raise CannotTell(f"{self._place}: {error}") from None

    def _infos(self) -> List[Info]:
        """The replies on all streams. Others may append in between, so it is asked again if that was seen."""
        infos: List[Info] = []
        for _ in range(_ROUNDS):
            infos = list(self._ask_all())
            if not infos:
                raise CannotTell(f"{self._place}: the log has no stream, and of such a log a connection tells nothing")
            if _spread(infos[0]) == _spread(infos[-1]):
                break
        return infos

    def _ask_all(self) -> Iterator[Info]:
        number = 1
        with contextlib.suppress(NoSuchStream):
            while True:
                yield self._log.info(number)
                number += 1

    def _ask_block_sectors(self) -> int:
        """As many sectors as the largest block has. No line tells them, but an area for records that no block takes is refused, and the refusal does."""
        try:
            self._log.area(1, largest=_ABOVE_ALL_RECORDS, reads=1).drop()
        except RecordTooLong as refusal:
            return (refusal.most + _BESIDE_RECORD) // _PAYLOAD
        raise CannotTell(f"{self._place}: the service takes records of any length, so it isn't one that is known here")


def _spread(info: Info) -> Tuple[int, int, int]:
    """What changes if the log goes on to another container, or a container becomes free."""
    return info.containers, info.free_containers, info.flushed.container


@dataclass(frozen=True)
class _Places:
    """The containers of a log, and what is free if it needs all from some LSN on."""

    infos: List[Info]
    block_sectors: int

    @property
    def info(self) -> Info:
        """The newest reply."""
        return self.infos[-1]

    @property
    def usable(self) -> int:
        """The sectors of a container that can surely be used: at its end so much may have to be skipped."""
        return self.info.container_sectors - self.block_sectors + 1

    @property
    def last_container(self) -> int:
        """The one in which the log goes on: what is on the disk ends there, or a live record that isn't flushed lies in it."""
        return max(lsn.container for info in self.infos for lsn in (info.flushed, info.last))

    @property
    def first_container(self) -> int:
        """The first one in use."""
        return self.last_container - (self.info.containers - self.info.free_containers) + 1

    def start(self, base: Lsn) -> Lsn:
        """No live record of a stream with this base lies below."""
        return max(base, Lsn(self.first_container << 32))

    def free(self, hold: Optional[Lsn]) -> Space:
        """What is free if the log needs what lies from there on, or nothing."""
        more = (self.last_container if hold is None else hold.container) - self.first_container
        return Space(self.info.free_containers + more, (self.info.free_sectors + more * self.usable) * SECTOR)

    def to_flushed(self, lsn: Lsn) -> int:
        """The bytes from there to the end of what is on the disk."""
        end = self.info.flushed
        distance = (end.container - lsn.container) * self.info.container_sectors * SECTOR + end.offset - lsn.offset
        return max(0, distance)


def _holders(places: _Places) -> List[Holder]:
    found: List[Tuple[Lsn, Optional[int]]] = [(places.start(info.base), number) for number, info in enumerate(places.infos, 1) if info.last]
    tail = places.info.archive
    if tail is not None:
        found.append((tail, None))
    found.sort(key=lambda holder: holder[0])
    nexts: List[Optional[Lsn]] = [start for start, _ in found[1:]]
    return [
        Holder("archiving" if number is None else None, number, start, None, places.to_flushed(start), places.free(then))
        for (start, number), then in zip(found, [*nexts, None])
    ]


def _status_of(infos: List[Info], block_sectors: int, place: str) -> Status:
    places = _Places(infos, block_sectors)
    info = places.info
    return Status(
        log=place,
        online=True,
        program=None,
        unsynced=None,
        version=None,
        containers=info.containers,
        container_bytes=info.container_sectors * SECTOR,
        block_bytes=block_sectors * SECTOR,
        room=info.containers * places.usable * SECTOR,
        end=None,
        flushed=info.flushed,
        damage=None,
        free=Space(info.free_containers, info.free_sectors * SECTOR),
        reserved=info.reserved * SECTOR,
        archive_tail=info.archive,
        archive_behind=None if info.archive is None else places.to_flushed(info.archive),
        streams=[StreamStatus(number, None, info.base, info.last) for number, info in enumerate(infos, 1)],
        holders=_holders(places),
    )
