#!/usr/bin/env python3
"""Looks into a log: how full it is, who keeps it so, and a page of all that is in it.

    python3 clfs_look.py status FOLDER
    python3 clfs_look.py page FOLDER > log.html
    python3 clfs_look.py status --door PLACE
    python3 clfs_look.py top PLACE

FOLDER is that of a log that no program has open. In its place there may stand a file that `clfs FOLDER dump` wrote, also on another machine, or `-` for
standard input. For a folder the program is run: the one that `--program` names, else the one in the variable CLFS, else `clfs`. PLACE is the folder with
the door of a service (`clfs FOLDER share --door PLACE`): a connection asks it, which takes one of its numbers meanwhile.
"""

from __future__ import annotations

import argparse
import contextlib
import os
import subprocess
import sys
from typing import Any, List, Optional

from clfs_dump_reader import PROGRAM, CannotTell, Source
from clfs_online import PATIENCE, Asked
from clfs_page import MOST_BYTES, log_of, page_of
from clfs_status import Status, json_of, prometheus_of, status_of, text_of
from clfs_top import follow

FOLDER = "a log's folder, a file with its dump, or - for a dump on standard input"
PLACE = "the folder with the door of the service that has the log"

TOLD, AT_OR_ABOVE, NOT_TOLD, NOT_WRITTEN = 0, 1, 2, 3

STATUSES = """The status is 0, or with --warn 1 if the log is as full or fuller; 2 if something can't be told, as with a damaged log, a folder
that another process has, a door at which nobody serves, or words that aren't these; and 3 if the output can't be written."""

FORMS = """The object of --json; LSNs are texts, sizes bytes, and what isn't known is null; members may be added:

  form                        1; rises if a member changes or goes
  log, program, version       the folder, file or place; the program's and the format's version
  online                      told by a connection
  unsynced                    the mark of a failed sync was there
  percent                     how full, rounded down
  containers, container_bytes, block_bytes
  room, free                  bytes for records in an empty log; free containers and bytes
  reserved                    bytes of the free ones that areas have reserved
  end, damage                 where the log goes on; container, offset and byte of the first wrong byte
  flushed                     all below is on the disk
  archive_tail, archive_behind
                              the tail, and bytes from there on
  streams                     number, name, base, last (a dead one too), records, live_records, live_bytes (of blocks)
  holders                     name, number, start, live_records, bytes, free_then

A log without a stream tells nothing by a connection. By one program, version, unsynced, end, damage, names and counts of records are null, and by a dump
reserved is. By a connection bytes go up to flushed, a stream's last is a live record, a holder's start is at or below its least live record, and free_then is
the least that is free.

The gauges of --prometheus, each with the label `log`: clfs_damaged, clfs_unsynced, clfs_containers, clfs_free_containers, clfs_room_bytes,
clfs_free_bytes, clfs_reserved_bytes, clfs_archive_behind_bytes, for each stream clfs_live_records, and for each holder clfs_held_bytes. The label `stream`
is the name, by a connection the number, and empty for archiving.

"""


def percent(word: str) -> int:
    value = int(word)
    if not 0 <= value <= 100:
        raise ValueError(word)
    return value


def number(word: str) -> int:
    value = int(word)
    if value < 0:
        raise ValueError(word)
    return value


def seconds(word: str) -> float:
    value = float(word)
    if not 0.01 <= value <= 86_400:
        raise ValueError(word)
    return value


def words() -> argparse.ArgumentParser:
    parser = argparse.ArgumentParser(description=__doc__, epilog=STATUSES, formatter_class=argparse.RawDescriptionHelpFormatter)
    commands = parser.add_subparsers(dest="command", required=True, metavar="status, page or top")
    program = argparse.ArgumentParser(add_help=False)
    program.add_argument("--program", default=os.environ.get("CLFS") or PROGRAM, help="the program that reads a folder")
    timeout = argparse.ArgumentParser(add_help=False)
    timeout.add_argument("--timeout", type=seconds, default=PATIENCE, metavar="SECONDS", help=f"how long the service is waited for, {PATIENCE:g} if left out")
    add_status(commands, [program, timeout])
    about = "a page of all that is in a log, one HTML file that needs no network"
    page = commands.add_parser("page", parents=[program], description=about, help=about, epilog=STATUSES)
    page.add_argument("place", metavar="FOLDER", help=FOLDER)
    page.add_argument("--bytes", type=number, default=MOST_BYTES, metavar="N", help=f"as many bytes of each record are in it, {MOST_BYTES} if N is left out")
    page.set_defaults(do=make_page)
    about = "follows a log that is served: how full it is, how fast it goes on, and who keeps it full"
    top = commands.add_parser("top", parents=[timeout], description=about, help=about, epilog=STATUSES)
    top.add_argument("place", metavar="PLACE", help=PLACE)
    top.add_argument("--every", type=seconds, default=1.0, metavar="SECONDS", help="from one look to the next, 1 if left out")
    top.add_argument("--lines", action="store_true", help="a line each time, as also where standard output is no terminal")
    top.set_defaults(do=follow_log)
    return parser


def add_status(commands: Any, parents: List[argparse.ArgumentParser]) -> None:
    about = "how full a log is, and who keeps it so"
    status = commands.add_parser("status", parents=parents, description=about, help=about, epilog=FORMS + STATUSES, formatter_class=argparse.RawDescriptionHelpFormatter)
    places = status.add_mutually_exclusive_group(required=True)
    places.add_argument("place", nargs="?", metavar="FOLDER", help=FOLDER)
    places.add_argument("--door", metavar="PLACE", help=PLACE)
    forms = status.add_mutually_exclusive_group()
    forms.add_argument("--json", dest="form", action="store_const", const=json_of, help="as one JSON object")
    forms.add_argument("--prometheus", dest="form", action="store_const", const=prometheus_of, help="as gauges for Prometheus")
    status.add_argument("--warn", type=percent, metavar="PERCENT", help="status 1 if the log is as full or fuller")
    status.set_defaults(form=text_of, do=tell_status)


def version_of(program: str) -> Optional[str]:
    """What the program says of its version, if it says so in time."""
    try:
        said = subprocess.run([program, "--version"], stdin=subprocess.DEVNULL, capture_output=True, timeout=20)
    except (OSError, subprocess.SubprocessError):
        return None
    return said.stdout.decode("ascii", "backslashreplace").strip() if said.returncode == 0 else None


class Look:
    """A log that was read, with what the folder and the program tell beside its dump."""

    def __init__(self, asked: argparse.Namespace, data: str) -> None:
        source = Source(asked.place, asked.program)
        self.name = "standard input" if source.place == "-" else source.place
        self._mark = source.has_mark()
        self.dump = source.read(data)
        self._version = version_of(source.program) if source.is_folder else None

    def status(self) -> Status:
        return status_of(self.dump, self.name, self._version, self._mark)


def status_asked(asked: argparse.Namespace) -> Status:
    if asked.door is None:
        return Look(asked, "none").status()
    with Asked(asked.door, asked.timeout) as log:
        return log.status()


def tell_status(asked: argparse.Namespace) -> int:
    status = status_asked(asked)
    sys.stdout.write(asked.form(status))
    if status.percent is None:
        return NOT_TOLD
    return AT_OR_ABOVE if asked.warn is not None and status.percent >= asked.warn else TOLD


def make_page(asked: argparse.Namespace) -> int:
    """A part of a log has a page too, which then says why nothing is told of the space."""
    look = Look(asked, "hex" if asked.bytes else "none")
    try:
        status, missing = look.status(), ""
    except CannotTell as cause:
        status, missing = None, f"{look.name}: {cause}. Bases may have moved further than this page knows."
    sys.stdout.write(page_of(log_of(look.dump, look.name, status, missing, asked.bytes)))
    return TOLD


def follow_log(asked: argparse.Namespace) -> int:
    with contextlib.suppress(KeyboardInterrupt):
        follow(asked.place, asked.every, asked.lines, asked.timeout)
    return TOLD


def main() -> int:
    asked = words().parse_args()
    try:
        status: int = asked.do(asked)
        sys.stdout.flush()
    except CannotTell as cause:
        sys.stderr.write(f"clfs_look: {cause}\n")
        return NOT_TOLD
    except OSError as cause:
        sys.stderr.write(f"clfs_look: standard output can't be written: {cause.strerror}\n")
        # (the interpreter would try it again)
        os.dup2(os.open(os.devnull, os.O_WRONLY), 1)
        return NOT_WRITTEN
    return status


if __name__ == "__main__":
    sys.exit(main())
