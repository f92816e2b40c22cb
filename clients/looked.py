"""What the tests of clfs_look.py share: logs, and what it says of them."""
import json
import os
import pathlib
import random
import re
import subprocess
import sys
import tempfile
import unittest

HERE = pathlib.Path(__file__).resolve().parent
LOOK = HERE / "python" / "clfs_look.py"
sys.path.insert(0, str(HERE / "python"))
import clfs

PROGRAM = ""
"""The program, which the tests set before they begin."""


def look(*words, given=None, program=None):
    """Runs clfs_look.py: its status, standard output and standard error."""
    done = subprocess.run([sys.executable, LOOK, *words], input=given, capture_output=True, timeout=100, text=True,
                          env={**os.environ, "CLFS": str(program or PROGRAM), "PYTHONDONTWRITEBYTECODE": "1"})
    return done.returncode, done.stdout, done.stderr


def dump(folder, *words):
    return subprocess.run([PROGRAM, folder, "dump", *words], capture_output=True, timeout=100, text=True).stdout


def members(folder):
    """The members of the JSON."""
    status, out, errors = look("status", folder, "--json")
    assert status == 0, errors
    return json.loads(out)


def work(log, steps=420):
    """An example: orders whose records are linked, several at a time, an audit that never moves its base, a table with restart areas, archiving."""
    chance = random.Random(7)
    orders, audit, table = (log.area(name, largest=900, reads=2) for name in ("orders", "audit", "table"))
    log.archive(True)
    chains = [[clfs.NULL] for _ in range(5)]
    for step in range(steps):
        # The first one goes on slowly, so its links are long.
        chain = chance.choices(chains, [1, 9, 9, 9, 9])[0]
        text = b"order %d, %d pieces of %d" % (step, chance.randrange(1, 90), chance.randrange(9000))
        chain.append(orders.append(text + b"." * chance.randrange(600), chain[-1], chain[-2] if len(chain) > 2 else clfs.NULL))
        if len(chain) == 6 and chain is not chains[0]:
            chain[1:] = []
        if step > 60 and step % 9 == 0:
            audit.append(b"audit " + bytes(chance.randrange(256) for _ in range(chance.randrange(60, 400))))
        if step % 4 == 0:
            table.append(b"row %d = %d" % (step % 50, chance.randrange(1000)))
        if step % 110 == 109:
            orders.advance(log.info(orders.stream).last)
            log.tail(table.flush() if step < 300 else log.info(1).archive)
            table.restart(b"all rows " + b"x" * 300, log.info(table.stream).last)
            chains = [[clfs.NULL] for _ in range(5)]
    orders.flush()


class Folder(unittest.TestCase):
    """A test with a folder of its own."""

    def setUp(self):
        room = tempfile.TemporaryDirectory(prefix="clfs_look_")
        self.addCleanup(room.cleanup)
        self.room = pathlib.Path(room.name)

    def make(self, name="log", block_sectors=2, container_sectors=8, containers=4, **more):
        folder = self.room / name
        clfs.format(folder, block_sectors=block_sectors, container_sectors=container_sectors, containers=containers, program=PROGRAM, **more)
        return folder

    def example(self, name="log"):
        folder = self.make(name, block_sectors=8, container_sectors=64, containers=12)
        with clfs.Log(folder, program=PROGRAM) as log:
            work(log)
        return folder

    def gauges(self, *place):
        lines = look("status", *place, "--prometheus")[1].splitlines()
        for line in lines:
            self.assertRegex(line, r'^(# (HELP|TYPE) clfs_\w+ \S.*|clfs_\w+\{log="[^"]*"(,stream="[\w.-]*")?\} \d+)$')
        return lines

    def write(self, name, text):
        (self.room / name).write_text(text)
        return self.room / name
