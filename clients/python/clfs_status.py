"""How full a log is, and who keeps it so; as text, as JSON and for Prometheus. `status_of` tells it from a dump, `clfs_online` from a connection.

The log needs everything from its hold on, which is the least live record of all streams or, with archiving on, the archive tail if that is less. The
containers from the hold's on are in use, the others are free. So the holders are listed with the oldest first, and each with what is free once it and all above
it have moved: a stream by a base above its last record, archiving by a tail at the end of the log.
"""

from __future__ import annotations

import json
from array import array
from bisect import bisect_left, bisect_right
from dataclasses import asdict, dataclass
from typing import Any, Dict, Iterable, List, Optional, Sequence, Tuple

from clfs_dump_reader import SECTOR, CannotTell, Damage, Dump
from clfs.replies import NULL, Lsn

FORM = 1
"""The form of the JSON. It rises if a member changes its meaning or goes."""
MOST_ROWS = 10
"""As many rows a table for people has, so that all is one screen."""


@dataclass(frozen=True)
class Space:
    """Containers, and bytes for further records. What areas have reserved counts as free: it isn't on the disk."""

    containers: int
    bytes: int


@dataclass(frozen=True)
class StreamStatus:
    number: int
    name: Optional[str]
    base: Lsn
    last: Lsn
    """Its last record; null if there is none. A dump also tells one below the base, a connection doesn't."""
    records: Optional[int] = None
    live_records: Optional[int] = None
    live_bytes: Optional[int] = None
    """What the blocks take in which it has live records."""


@dataclass(frozen=True)
class Holder:
    """A stream with live records, or archiving, whose number and live records are None."""

    name: Optional[str]
    number: Optional[int]
    start: Lsn
    """Its least live record, or the archive tail. Online no record of the stream below it is needed, and the least live one may lie above."""
    live_records: Optional[int]
    bytes: Optional[int]
    """From there to the end of the log, online to the end of what is on the disk."""
    free_then: Optional[Space]
    """What is free once this holder and all older ones have moved; online at least so much."""


@dataclass(frozen=True)
class Status:
    """What a dump or a connection tells of a log. What depends on its end is None where the log is damaged."""

    log: str
    online: bool
    program: Optional[str]
    unsynced: Optional[bool]
    version: Optional[int]
    containers: int
    container_bytes: int
    block_bytes: int
    room: int
    """Bytes for records in an empty log of this size."""
    end: Optional[Lsn]
    flushed: Optional[Lsn]
    """Below it everything is on the disk: the end, in a log that no program has."""
    damage: Optional[Damage]
    free: Optional[Space]
    reserved: Optional[int]
    """Bytes that areas have reserved."""
    archive_tail: Optional[Lsn]
    archive_behind: Optional[int]
    streams: List[StreamStatus]
    holders: List[Holder]

    @property
    def percent(self) -> Optional[int]:
        """How full it is, in whole percents below: 100 only if there is no room."""
        return None if self.free is None else 100 * (self.room - self.free.bytes) // self.room


class _Places:
    """Distances in a log, and what is free if it needs all from some LSN on."""

    def __init__(self, dump: Dump) -> None:
        self._head = dump.head
        self._end = dump.end
        self._container_bytes = dump.head.container_sectors * SECTOR
        # (at the end of each container so much may have to be skipped)
        self._usable = (dump.head.container_sectors - dump.head.block_sectors + 1) * SECTOR

    @property
    def room(self) -> int:
        return self._head.containers * self._usable

    def to_end(self, lsn: Lsn) -> Optional[int]:
        end = self._end
        return None if end is None else (end.container - lsn.container) * self._container_bytes + end.offset - lsn.offset

    def free(self, hold: Optional[Lsn]) -> Optional[Space]:
        """What is free if the log needs what lies from there on, or nothing."""
        end = self._end
        if end is None:
            return None
        containers = self._head.containers - (end.container - (hold or end).container + 1)
        here = self._usable - end.offset
        return Space(containers, max(0, here) + max(0, containers) * self._usable)


def bases(dump: Dump) -> Dict[int, Lsn]:
    """The bases as they are now: the greatest of that of the base copy and those of restart areas."""
    found = {stream.number: stream.base for stream in dump.streams}
    records = dump.records
    for is_restart, number, new_base in zip(records.is_restart, records.stream, records.new_base):
        if is_restart and new_base > found[number]:
            found[number] = Lsn(new_base)
    return found


def _by_stream(dump: Dump) -> Dict[int, array]:
    """The LSNs of the records of each stream."""
    found: Dict[int, array] = {stream.number: array("Q") for stream in dump.streams}
    for number, lsn in zip(dump.records.stream, dump.records.lsn):
        found[number].append(lsn)
    return found


def _bytes_of(dump: Dump, lsns: Sequence[int]) -> int:
    """What the blocks take in which these records lie."""
    total, above = 0, 0
    for lsn in lsns:
        if lsn >= above:
            block = bisect_right(dump.blocks.lsn, lsn) - 1
            total += dump.blocks.sectors[block] * SECTOR
            above = dump.blocks.lsn[block + 1] if block + 1 < len(dump.blocks.lsn) else 1 << 64
    return total


def _streams(dump: Dump) -> Tuple[List[StreamStatus], Dict[int, Lsn]]:
    """Each stream, and the least live record of each that has one."""
    now, records = bases(dump), _by_stream(dump)
    streams, oldest = [], {}
    for stream in dump.streams:
        lsns, base = records[stream.number], now[stream.number]
        live = lsns[bisect_left(lsns, base):]
        if live:
            oldest[stream.number] = Lsn(live[0])
        last = Lsn(lsns[-1]) if lsns else NULL
        streams.append(StreamStatus(stream.number, stream.name, base, last, len(lsns), len(live), _bytes_of(dump, live)))
    return streams, oldest


def _holders(dump: Dump, streams: List[StreamStatus], oldest: Dict[int, Lsn]) -> List[Holder]:
    places = _Places(dump)
    found: List[Tuple[Lsn, str, Optional[int], Optional[int]]] = [
        (oldest[stream.number], stream.name, stream.number, stream.live_records) for stream in streams if stream.number in oldest
    ]
    if dump.head.archive_tail is not None:
        found.append((dump.head.archive_tail, "archiving", None, None))
    found.sort(key=lambda holder: holder[0])
    holders = []
    for index, (start, name, number, live) in enumerate(found):
        hold = found[index + 1][0] if index + 1 < len(found) else None
        holders.append(Holder(name, number, start, live, places.to_end(start), places.free(hold)))
    return holders


def status_of(dump: Dump, log: str, program: Optional[str] = None, unsynced: Optional[bool] = None) -> Status:
    """What the dump tells. Raises `CannotTell` if it leaves records out, since each of them might hold the log."""
    if dump.leaves_out():
        raise CannotTell("the dump leaves records out, so nothing can be told of the space: make one without --from, --to and --stream")
    head, places = dump.head, _Places(dump)
    streams, oldest = _streams(dump)
    holders = _holders(dump, streams, oldest)
    tail = head.archive_tail
    return Status(
        log=log,
        online=False,
        program=program,
        unsynced=unsynced,
        version=head.version,
        containers=head.containers,
        container_bytes=head.container_sectors * SECTOR,
        block_bytes=head.block_sectors * SECTOR,
        room=places.room,
        end=dump.end,
        flushed=dump.end,
        damage=dump.damage,
        free=places.free(holders[0].start if holders else None),
        reserved=None,
        archive_tail=tail,
        archive_behind=None if tail is None else places.to_end(tail),
        streams=streams,
        holders=holders,
    )


def as_members(status: Status) -> Dict[str, Any]:
    """The members of the JSON: those of `Status`, with LSNs as text, and two more."""

    def plain(value: Any) -> Any:
        if isinstance(value, Lsn):
            return str(value)
        if isinstance(value, dict):
            return {name: plain(member) for name, member in value.items()}
        return [plain(member) for member in value] if isinstance(value, list) else value

    return {"form": FORM, "percent": status.percent, **plain(asdict(status))}


def json_of(status: Status) -> str:
    return json.dumps(as_members(status), indent=2) + "\n"


# For people.


def size(number: int) -> str:
    """A number of bytes, for people."""
    for unit, name in ((1 << 30, "GiB"), (1 << 20, "MiB"), (1 << 10, "KiB")):
        if number >= unit:
            return f"{number / unit:.1f} {name}".replace(".0 ", " ")
    return f"{number} B"


def count(number: int, thing: str) -> str:
    return f"{number:,} {thing}" if number == 1 else f"{number:,} {thing}s"


def _called(holder: Holder) -> str:
    return "archiving" if holder.number is None else f"stream {holder.name or holder.number}"


def _listed(names: Sequence[str]) -> str:
    if len(names) > 4:
        names = [*names[:3], f"{len(names) - 3} others"]
    return names[0] if len(names) == 1 else ", ".join(names[:-1]) + " and " + names[-1]


def _moved(holders: Sequence[Holder]) -> str:
    return "it moves" if len(holders) == 1 else "all of these move"


def first_to_free(status: Status) -> Optional[int]:
    """The index of the first holder with which more is free once it and all older ones have moved, or None."""
    for index, holder in enumerate(status.holders):
        if holder.free_then is not None and status.free is not None and holder.free_then.containers > status.free.containers:
            return index
    return None


def _who_keeps(status: Status) -> List[str]:
    """Two lines: who keeps the log as full as it is, and what frees how much."""
    if not status.holders:
        return ["Kept by nobody: no stream has a live record, and archiving is off.", "Nothing more can be freed."]
    everyone = _listed([_called(holder) for holder in status.holders])
    if status.free is None:
        return [f"Kept, before the damage, by {everyone}.", f"What is freed when {_moved(status.holders)} isn't known."]
    index = first_to_free(status)
    if index is None:
        why = "all that is kept lies in the container where the log goes on"
        return [f"Kept by {everyone}.", f"Nothing is freed when {_moved(status.holders)}: {why}."]
    keeping = status.holders[: index + 1]
    then = keeping[-1].free_then
    assert then is not None
    who = _listed([f"{_called(holder)} from {holder.start}" for holder in keeping])
    more = then.containers - status.free.containers
    least = "at least " * status.online
    return [f"Kept by {who}.", f"When {_moved(keeping)}, {least}{count(more, 'container')} more, {then.containers} in all, and {size(then.bytes)} are free."]


def _first_line(status: Status) -> str:
    shape = f"{count(status.containers, 'container')} of {size(status.container_bytes)}"
    if status.damage is not None:
        wrong = status.damage
        return f"{status.log}: DAMAGED at container {wrong.container}, offset {wrong.offset}, byte {wrong.byte}; {shape}; free room isn't known."
    assert status.free is not None
    free = status.free
    reserved = f", {size(status.reserved)} of it reserved" if status.reserved else ""
    return f"{status.log}: {status.percent} % full: {free.containers} of {shape} free, room for {size(free.bytes)} of {size(status.room)}{reserved}."


def _table(rows: List[Tuple[str, ...]], numbers: Iterable[int]) -> List[str]:
    """Lines of columns, of which these are flush right. Of many rows the first ones."""
    left_out = max(0, len(rows) - 1 - MOST_ROWS)
    rows = rows[: MOST_ROWS + 1]
    widths = [max(len(row[column]) for row in rows) for column in range(len(rows[0]))]
    right = set(numbers)
    lines = []
    for row in rows:
        cells = [cell.rjust(width) if column in right else cell.ljust(width) for column, (cell, width) in enumerate(zip(row, widths))]
        lines.append("  " + "  ".join(cells).rstrip())
    return lines + [f"  and {left_out} more, which --json tells"] * (left_out > 0)


def _holder_rows(status: Status) -> List[Tuple[str, ...]]:
    then = "free when it and those above have moved" + ", at least" * status.online
    rows: List[Tuple[str, ...]] = [("held by", "from", "live records", "to the end", then)]
    free = status.free
    for holder in status.holders:
        live = _known(holder.live_records)
        then = "-" if holder.free_then is None else "no more"
        if holder.free_then is not None and holder.free_then != free:
            then = f"{count(holder.free_then.containers, 'container')}, {size(holder.free_then.bytes)}"
        free = holder.free_then
        rows.append((_called(holder), str(holder.start), live, "-" if holder.bytes is None else size(holder.bytes), then))
    return rows


def _known(number: Optional[int]) -> str:
    return "-" if number is None else f"{number:,}"


def _stream_rows(status: Status) -> List[Tuple[str, ...]]:
    rows: List[Tuple[str, ...]] = [("stream", "number", "base", "last", "records", "live", "in blocks of")]
    for stream in status.streams:
        numbers = (_known(stream.records), _known(stream.live_records), "-" if stream.live_bytes is None else size(stream.live_bytes))
        rows.append((stream.name or "-", str(stream.number), str(stream.base), str(stream.last), *numbers))
    return rows


def _facts(status: Status) -> List[str]:
    lines = []
    if status.archive_tail is None:
        lines.append("Archiving is off.")
    else:
        behind = "" if status.archive_behind is None else f", {size(status.archive_behind)} behind"
        lines.append(f"Archiving is on, its tail at {status.archive_tail}{behind}.")
    if status.end is not None:
        lines.append(f"The log goes on at {status.end}. Blocks have up to {size(status.block_bytes)}. Its form is version {status.version}.")
    elif status.online:
        lines.append(f"All below {status.flushed} is on the disk. Blocks have up to {size(status.block_bytes)}.")
    if status.program is not None:
        lines.append(f"Read by {status.program}.")
    if status.unsynced:
        lines.append("A SYNC HAD FAILED: the mark `unsynced` was there, and the program has copied the log's files.")
    lines.append(_not_told(status))
    return lines


def _not_told(status: Status) -> str:
    if status.online:
        return "A connection doesn't tell names, records, policies, nor whose areas have reserved how much: that counts as free here."
    return "A dump doesn't tell policies, nor what areas have reserved: that counts as free here."


def first_lines(status: Status) -> List[str]:
    """Three lines: how full the log is, who keeps it so, and what frees how much."""
    return [_first_line(status), *_who_keeps(status)]


def text_of(status: Status) -> str:
    """One screen."""
    lines = [*first_lines(status), ""]
    if status.holders:
        lines += [*_table(_holder_rows(status), (2, 3)), "  A stream moves by `advance` or `restart`, archiving by `archive` or `tail`.", ""]
    if status.streams:
        lines += [*_table(_stream_rows(status), (1, 4, 5, 6)), ""]
    return "\n".join(lines + _facts(status)) + "\n"


# For Prometheus.


def _quoted(text: str) -> str:
    escaped = text.replace("\\", "\\\\").replace('"', '\\"').replace("\n", "\\n")
    return f'"{escaped}"'


def prometheus_of(status: Status) -> str:
    """Gauges in the text form of Prometheus, each with the label `log`. What isn't known has no line."""
    lines: List[str] = []

    def gauge(name: str, meaning: str, values: Iterable[Tuple[Optional[str], Optional[int]]], label: str = "") -> None:
        told = [(of, value) for of, value in values if value is not None]
        if told:
            lines.extend([f"# HELP clfs_{name} {meaning}", f"# TYPE clfs_{name} gauge"])
        for of, value in told:
            more = "" if of is None else f",{label}={_quoted(of)}"
            lines.append(f"clfs_{name}{{log={_quoted(status.log)}{more}}} {value}")

    free = status.free
    gauge("damaged", "Whether the log has a wrong byte.", [(None, None if status.online else int(status.damage is not None))])
    gauge("unsynced", "Whether a sync had failed before this look.", [(None, None if status.unsynced is None else int(status.unsynced))])
    gauge("containers", "Containers of the log.", [(None, status.containers)])
    gauge("free_containers", "Containers that aren't in use.", [(None, free and free.containers)])
    gauge("room_bytes", "Bytes for records in an empty log of this size.", [(None, status.room)])
    gauge("free_bytes", "Bytes for further records.", [(None, free and free.bytes)])
    gauge("reserved_bytes", "Bytes of these that areas have reserved.", [(None, status.reserved)])
    gauge("archive_behind_bytes", "Bytes from the archive tail to the end.", [(None, status.archive_behind)])
    gauge("live_records", "Live records of a stream.", [(stream.name, stream.live_records) for stream in status.streams], "stream")
    held = [("" if holder.number is None else holder.name or str(holder.number), holder.bytes) for holder in status.holders]
    gauge("held_bytes", "Bytes from what a stream, or archiving, whose name is empty, needs first to the end.", held, "stream")
    return "\n".join(lines) + "\n"
