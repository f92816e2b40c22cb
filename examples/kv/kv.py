"""A durable key-value store, by a thread for each program at its socket: python3 kv.py PLACE SOCKET SECTORS (with PYTHONPATH=clients/python)

In PLACE is the door of `clfs FOLDER share --door PLACE --clients 9`; after SECTORS, as 500, a checkpoint is due. Lines are `put KEY VALUE`, `delete KEY` and `get KEY`, replies `ok`, once the
change is on the disk, `value VALUE`, `none`, and `error WHY`; a change that got an error may be there after the next start.

Each change is a record that is on the disk before its entry changes in memory, so nobody reads what a crash could take. Each thread appends and flushes over
a connection of its own, and flushes of several threads may be one. Of two changes of a key the later record counts.

A checkpoint is a mark, a copy of all entries in parts, each linked to the one before, and a restart area that names both. The copy is taken with the mark,
while no change is under way, and written while changes go on. With the restart area the base moves to the mark, so there is room again. One that a crash
cuts short has no restart area, and counts for nothing. Its sectors are held in advance, so a full log doesn't stop it.

A store that was killed may leave lines in its pipes, which the service does when the next one has begun. So each start, a run of the store, has a first
record to which its changes link, and after a checkpoint only changes of its run count. Only one store may be there at a time.

To archive, call `archive(True)` once; then room is free again only after `clfs FOLDER archive`, with the service stopped."""
import contextlib
import os
import socketserver
import sys
import threading
import time

import clfs

STREAM = "kv"
# No record is longer, in bytes.
LONGEST = 3000
# A copy has at most so many parts of seven sectors. The log should be some times larger, and than what is written until a checkpoint is due.
PARTS = 64
# The connections of all threads; one more makes checkpoints.
CONNECTIONS = 8
# No more is put once a copy has so many bytes. Two parts that follow each other have more than LONGEST together.
MOST = (PARTS // 2 - CONNECTIONS) * LONGEST
# After these the service does no call any more.
FINAL = (clfs.DiskFault, clfs.Damaged, clfs.Broken)


class NoRoom(Exception):
    """The record is too long, or a checkpoint would be. Nothing was done."""


def line_of(key, value):
    return f"{key} {value}\n"


class Entries:
    """Each key with the LSN of its newest record and its value, None if it was deleted since the last copy."""

    def __init__(self):
        self.by_key, self.bytes, self.lock = {}, 0, threading.Lock()

    def get(self, key):
        return self.by_key.get(key, (clfs.NULL, None))[1]

    def set(self, lsn, key, value):
        """Gives the key a value or none, unless a later record did."""
        with self.lock:
            newest, old = self.by_key.get(key, (clfs.NULL, None))
            if newest <= lsn:
                self.by_key[key] = lsn, value
                self.bytes += sum(sign * len(line_of(key, one).encode()) for sign, one in ((1, value), (-1, old)) if one is not None)

    def redo(self, record):
        """Does what the record of a change says."""
        word, key, *value = record.data.decode().split(" ", 2)
        self.set(record.lsn, key, value[0] if word == "put" else None)

    def restore(self, part):
        for line in part.decode().split("\n")[:-1]:
            self.set(clfs.NULL, *line.split(" ", 1))

    def copy(self):
        """A copy, in parts. Forgets the keys that were deleted, so no change may be under way."""
        self.by_key = {key: entry for key, entry in self.by_key.items() if entry[1] is not None}
        parts = [b""]
        for key, (_, value) in self.by_key.items():
            line = line_of(key, value).encode()
            if len(parts[-1]) + len(line) > LONGEST:
                parts.append(b"")
            parts[-1] += line
        return parts


class Checkpoints:
    """A connection of its own for checkpoints, which holds the sectors of the next one."""

    def __init__(self, place):
        self.log = clfs.connect(place)
        self.area = self.log.area(STREAM, largest=LONGEST, reads=2)
        self.hold()

    def hold(self):
        """Holds what is lacking of the sectors of all parts, and of three records more."""
        most, held = (PARTS + 3) * self.area.align(LONGEST), 0
        while held <= most:
            held = self.area.reserve(LONGEST)
        self.area.release(held - most)

    def is_due(self, sectors):
        """Whether so many sectors were written since the last one."""
        info = self.log.info(self.area.stream)
        last, base = (lsn.container * info.container_sectors + lsn.offset // 512 for lsn in (info.last, info.base))
        return last > base + sectors

    def append(self, data, previous=clfs.NULL):
        """Appends a record of a checkpoint, or the first one of a run."""
        return self.area.append(data, previous, reserved=True)

    def write(self, run, mark, parts):
        """Writes the copy that was taken at the mark, and moves the base there."""
        last = clfs.NULL
        for part in parts:
            last = self.append(part, last)
        self.area.restart(f"{run} {mark} {last}".encode(), base=mark, reserved=True)
        self.hold()

    def recover(self):
        """All entries of the log."""
        entries = Entries()
        newest = next(self.area.restarts(), None)
        if newest is None:
            return entries
        run, mark, last = map(clfs.Lsn.parse, newest.data.decode().split())
        for part in self.area.records(last, clfs.Mode.PREVIOUS):
            entries.restore(part.data)
        for record in self.area.records(mark):
            if record.previous == run:
                entries.redo(record)
        return entries

    def close(self):
        with contextlib.suppress(clfs.ClfsError):
            self.log.close()


class Changes:
    """How many changes are under way, from the append to the change of the entry. While a copy is taken there are none."""

    def __init__(self):
        self.count, self.is_copying, self.changed = 0, False, threading.Condition()

    @contextlib.contextmanager
    def one(self):
        with self.changed:
            self.changed.wait_for(lambda: not self.is_copying)
            self.count += 1
        try:
            yield
        finally:
            with self.changed:
                self.count -= 1
                self.changed.notify_all()

    @contextlib.contextmanager
    def none(self):
        with self.changed:
            self.is_copying = True
            self.changed.wait_for(lambda: self.count == 0)
        try:
            yield
        finally:
            with self.changed:
                self.is_copying = False
                self.changed.notify_all()


class Store:
    """A store, for any number of threads. It begins with what the log has, and with a checkpoint."""

    def __init__(self, place):
        self.place, self.changes = place, Changes()
        self.pool = clfs.Pool(place, size=CONNECTIONS, prepare=lambda log: log.area(STREAM, largest=LONGEST))
        self.checkpoints = Checkpoints(place)
        self.entries = self.checkpoints.recover()
        self.run = self.checkpoints.append(b"run")
        self.checkpoint()

    def change(self, key, value=None):
        """Gives the key a value, or none: that is on the disk when this returns. After an error it may be there when the store starts again."""
        record = (f"delete {key}" if value is None else f"put {key} {value}").encode()
        with self.changes.one(), self.pool.lend() as area:
            if len(record) > LONGEST - 10 or value is not None and self.entries.bytes > MOST:
                raise NoRoom("no room")
            self.entries.set(area.append(record, self.run, flush=True), key, value)

    def checkpoint(self):
        with self.changes.none():
            mark = self.checkpoints.append(b"mark")
            parts = self.entries.copy()
        self.checkpoints.write(self.run, mark, parts)

    def keep_checkpoints(self, sectors):
        """Makes a checkpoint after so many sectors, over a new connection if one ended, for as long as the service does calls."""
        while True:
            time.sleep(0.02)
            try:
                if self.checkpoints.log.is_over:
                    self.checkpoints = Checkpoints(self.place)
                if self.checkpoints.is_due(sectors):
                    self.checkpoint()
            except FINAL:
                raise
            except clfs.ClfsError:
                self.checkpoints.close()


class Program(socketserver.StreamRequestHandler):
    """A program that asks the store."""

    def handle(self):
        for line in self.rfile:
            try:
                reply = self.answer(line.decode().rstrip("\n"))
            except (clfs.ClfsError, NoRoom, UnicodeDecodeError) as error:
                reply = f"error {error}"
            self.wfile.write(f"{reply}\n".encode())

    def answer(self, line):
        word, key, value = (*line.split(" ", 2), "", "")[:3]
        if word == "get":
            found = self.server.store.entries.get(key)
            return "none" if found is None else f"value {found}"
        if not key or word not in ("put", "delete"):
            return "error no such line"
        self.server.store.change(key, value if word == "put" else None)
        return "ok"


class Server(socketserver.ThreadingUnixStreamServer):
    daemon_threads, request_queue_size = True, 64


def main(place, path, sectors):
    store = Store(place)
    with contextlib.suppress(FileNotFoundError):
        os.unlink(path)
    with Server(path, Program) as server:
        server.store = store
        threading.Thread(target=server.serve_forever, daemon=True).start()
        print("ready", flush=True)
        store.keep_checkpoints(int(sectors))


if __name__ == "__main__":
    if len(sys.argv) != 4:
        sys.exit(__doc__)
    main(*sys.argv[1:])
