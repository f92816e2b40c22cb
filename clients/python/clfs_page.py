"""Makes one page of a log's dump: an HTML file that needs nothing else, neither a network nor a server.

The page is `clfs_page.html` with `clfs_page.css` and three scripts, which lie beside this file, and the log as JSON. An LSN is a number there: the index of
its container among those that the log lists, 14 bits of its sector and 9 of its sequence. A link is 0 for none, the index of its record plus 1, or the LSN
as text if the record isn't in the dump.
"""

from __future__ import annotations

import html
import json
import re
from array import array
from bisect import bisect_left
from pathlib import Path
from typing import Any, Callable, Dict, List, Optional, Union

from clfs_dump_reader import SECTOR, CannotTell, Dump
from clfs.replies import Lsn
from clfs_status import Status, as_members, bases, first_lines

MOST_BYTES = 1024
"""As many bytes of each record are in the page, unless it is asked for more."""

_PARTS = Path(__file__).resolve().parent
_PAGE, _STYLE, _SCRIPTS = "clfs_page.html", "clfs_page.css", ("clfs_page_log.js", "clfs_page_lanes.js", "clfs_page.js")


def _numbers(dump: Dump) -> Callable[[int], int]:
    """The number that stands for the LSN of a block or a record."""
    slots = {container.number: index for index, container in enumerate(dump.containers)}

    def number(lsn: int) -> int:
        return slots[lsn >> 32] << 23 | (lsn & 0xFFFFFFFF) // SECTOR << 9 | lsn & 0x1FF

    return number


def _links(dump: Dump, links: array) -> List[Union[int, str]]:
    lsns = dump.records.lsn

    def link(lsn: int) -> Union[int, str]:
        if lsn == 0:
            return 0
        index = bisect_left(lsns, lsn)
        return index + 1 if index < len(lsns) and lsns[index] == lsn else str(Lsn(lsn))

    return [link(lsn) for lsn in links]


def _records(dump: Dump, most_bytes: int) -> Dict[str, Any]:
    records, number = dump.records, _numbers(dump)
    restarts = [index for index, is_restart in enumerate(records.is_restart) if is_restart]
    members = {
        "place": [number(lsn) for lsn in records.lsn],
        "stream": list(records.stream),
        "previous": _links(dump, records.previous),
        "undo": _links(dump, records.undo_next),
        "restarts": {index: str(Lsn(records.new_base[index])) for index in restarts},
    }
    if any(data is not None for data in records.data):
        members["data"] = [(data or "")[: 2 * most_bytes] for data in records.data]
        members["lengths"] = {index: len(data) // 2 for index, data in enumerate(records.data) if data and len(data) > 2 * most_bytes}
    return members


def _blocks(dump: Dump) -> Dict[str, Any]:
    blocks, number = dump.blocks, _numbers(dump)
    return {
        "place": [number(lsn) for lsn in blocks.lsn],
        "sectors": list(blocks.sectors),
        "records": list(blocks.records),
        "used": list(blocks.used),
    }


def log_of(dump: Dump, name: str, status: Optional[Status], missing: str, most_bytes: int) -> Dict[str, Any]:
    """What the page knows. `missing` says why there is no status."""
    head, now = dump.head, bases(dump)
    return {
        "name": name,
        "containers": head.containers,
        "containerSectors": head.container_sectors,
        "blockSectors": head.block_sectors,
        "version": head.version,
        "listed": [[container.number, container.file] for container in dump.containers],
        "streams": [{"number": stream.number, "name": stream.name, "base": str(now[stream.number])} for stream in dump.streams],
        "tail": None if head.archive_tail is None else str(head.archive_tail),
        "end": None if dump.end is None else str(dump.end),
        "damage": None if dump.damage is None else vars(dump.damage),
        "status": None if status is None else as_members(status),
        "lines": [missing] if status is None else first_lines(status),
        "blocks": _blocks(dump),
        "records": _records(dump, most_bytes),
    }


def page_of(log: Dict[str, Any]) -> str:
    """The page. Within JSON a `<` may stand as an escape, so no text of the log ends the script."""
    try:
        page, style, *scripts = ((_PARTS / name).read_text("utf-8") for name in (_PAGE, _STYLE, *_SCRIPTS))
    except OSError as error:
        raise CannotTell(f"{error.filename}: {error.strerror}") from None
    data = json.dumps(log, separators=(",", ":")).replace("<", "\\u003c")
    texts = {"TITLE": html.escape(log["name"]), "STYLE": style, "SCRIPT": "\n".join(scripts), "LOG": data}
    return re.sub("@([A-Z]+)@", lambda mark: texts[mark[1]], page)
