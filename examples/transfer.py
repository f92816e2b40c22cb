#!/usr/bin/env python3
"""Moves amounts between the cells of a table while the program is killed at random, and adds the cells up after each start.

python3 examples/transfer.py FOLDER [STARTS]    the log in FOLDER is there already; there are 20 starts unless STARTS says another number"""
import os
import random
import subprocess
import sys
import threading

PROGRAM = os.environ.get("CLFS", "./clfs")
CELLS = 32
TOTAL = 1000


class Killed(Exception):
    """The program ended before its reply was whole."""


class Table:
    """A run of the program, which is killed after a while."""

    def __init__(self, folder):
        self.program = subprocess.Popen([PROGRAM, folder, "txn"], stdin=subprocess.PIPE, stdout=subprocess.PIPE, text=True, bufsize=1)
        self.killer = threading.Timer(random.uniform(0, 0.2), self.program.kill)
        self.killer.start()

    def ask(self, line):
        """The words of the reply to a line."""
        try:
            print(line, file=self.program.stdin, flush=True)
        except BrokenPipeError:
            raise Killed from None
        reply = self.program.stdout.readline()
        if not reply.endswith("\n"):
            raise Killed
        return reply.split()

    def done(self, line):
        """Asks for what the log has room for."""
        reply = self.ask(line)
        if reply != ["ok"]:
            sys.exit(f"{line}: {' '.join(reply)}")

    def begin(self):
        """The number of a transaction of two sets. If the log is full a checkpoint gives room."""
        reply = self.ask("begin 2")
        if reply[:3] == ["refused", "5", "Full"]:
            self.done("checkpoint")
            reply = self.ask("begin 2")
        if reply[0] != "txn":
            sys.exit(f"begin 2: {' '.join(reply)}")
        return reply[1]

    def cells(self):
        return [int(self.ask(f"get {cell}")[1]) for cell in range(CELLS)]

    def end(self):
        self.killer.join()
        try:
            self.program.stdin.close()
        except BrokenPipeError:
            pass
        self.program.stdout.close()
        self.program.wait()


class Bank:
    """What the cells are by all commits that were answered, and by the one that wasn't."""

    def __init__(self):
        self.known = None
        self.under_way = None
        self.commits = 0

    def start(self, table):
        """Reads the cells, and compares them with what was committed."""
        cells = table.cells()
        if sum(cells) not in (0, TOTAL):
            sys.exit(f"the cells add up to {sum(cells)}: {cells}")
        if self.known is not None and cells not in (self.known, self.under_way):
            sys.exit(f"the cells are {cells}, and were {self.known} or {self.under_way}")
        self.known, self.under_way = cells, None

    def commit(self, table, txn, cells):
        self.under_way = cells
        table.done(f"commit {txn}")
        self.known, self.under_way = cells, None
        self.commits += 1

    def pay_in(self, table):
        txn = table.begin()
        table.done(f"set {txn} 0 {TOTAL}")
        self.commit(table, txn, [TOTAL] + [0] * (CELLS - 1))

    def move(self, table):
        """Moves an amount from one cell to another; one in eight times all of it is taken back."""
        giver = random.choice([cell for cell in range(CELLS) if self.known[cell] > 0])
        taker = random.choice([cell for cell in range(CELLS) if cell != giver])
        amount = random.randint(1, self.known[giver])
        cells = list(self.known)
        cells[giver] -= amount
        cells[taker] += amount
        txn = table.begin()
        table.done(f"set {txn} {giver} {cells[giver]}")
        table.done(f"set {txn} {taker} {cells[taker]}")
        if random.randrange(8) == 0:
            table.done(f"rollback {txn}")
        else:
            self.commit(table, txn, cells)


def run(folder, starts):
    bank = Bank()
    for _ in range(starts):
        table = Table(folder)
        try:
            bank.start(table)
            if sum(bank.known) == 0:
                bank.pay_in(table)
            while True:
                bank.move(table)
        except Killed:
            table.end()
    print(f"{starts} starts, {bank.commits} commits: the cells add up to {sum(bank.known or [])}")


if __name__ == "__main__":
    if len(sys.argv) not in (2, 3):
        sys.exit(__doc__)
    run(sys.argv[1], int(sys.argv[2]) if len(sys.argv) == 3 else 20)
