"""A bank whose money is moved at random while its log is killed at random: python3 bank.py [PROGRAM [KILLS]]

A transfer takes money from one account and gives it to another, each by a record `move ACCOUNT AMOUNT`. The records of a transfer are linked:
`previous` names its record before, and `undo_next` the record that is to be undone after this one. It ends with `commit`, which is flushed, or
is undone: by reading back along `undo_next`, with a record `back ACCOUNT AMOUNT` for each `move`, and `undone` at the end. A `back` names in
`undo_next` what is still to be undone after it, so an undo that was cut short goes on where it was. The room for these records is held from the
`move` on, and a commit takes that of `undone`, so neither is ever refused because the log is full.

A restart area has all balances; what is before it isn't needed any more, so the log goes round in its four containers. After a start the
newest restart area is read and then each record after it, forward; transfers without an end are undone.
"""

import random
import signal
import sys
import tempfile
import threading
import time

import clfs
from clfs import Mode

ACCOUNTS, MONEY = 100, 1000
A_RECORD = 40
"""No record of a transfer is longer."""


class Bank:
    """The balances, and the log from which they come again after a crash."""

    def __init__(self, log):
        self.log = log
        self.area = log.area("bank", largest=1000, reads=2)
        self.recover()

    def move(self, last, account, amount):
        """Goes on with the transfer whose last record is `last`, null for a new one, and gives its new last record."""
        holds = [A_RECORD] if last else [A_RECORD, A_RECORD]
        lsn = self.area.append(b"move %d %d" % (account, amount), last, last, hold=holds)
        self.balances[account] += amount
        return lsn

    def commit(self, last, moves):
        """Ends a transfer of so many moves, in the sector held for its end. It is safe once this returns."""
        self.area.append(b"commit", previous=last, reserved=True, flush=True)
        self.area.release(moves)

    def undo(self, last, reserved=True):
        """Takes a transfer back and ends it."""
        for record in self.area.records(last, Mode.UNDO_NEXT):
            word, account, amount = record.data.split()
            if word == b"move":
                self.balances[int(account)] -= int(amount)
                back = b"back %d %d" % (int(account), -int(amount))
                last = self.area.append(back, last, record.undo_next, reserved=reserved)
        self.area.append(b"undone", previous=last, reserved=reserved)

    def checkpoint(self):
        """Writes down the balances, while no transfer is under way. No record before is needed any more."""
        last = self.log.info(self.area.stream).last
        self.area.restart(b" ".join(b"%d" % balance for balance in self.balances), last.after() if last else clfs.NULL)

    def recover(self):
        """Brings the balances to what the log says."""
        newest = next(self.area.restarts(), None)
        if newest is None:
            self.balances = [MONEY] * ACCOUNTS
        else:
            self.balances = [int(word) for word in newest.data.split()]
            for last in self.redo(newest.lsn):
                # Nothing is held after a start, but the room that was held is still free.
                self.undo(last, reserved=False)
        self.checkpoint()

    def redo(self, start):
        """Does again what stands after the restart area, and gives the last records of the transfers without an end."""
        unfinished = set()
        for record in self.area.records(start):
            if record.kind is clfs.Kind.RESTART:
                continue
            unfinished.discard(record.previous)
            word, *rest = record.data.split()
            if word in (b"move", b"back"):
                self.balances[int(rest[0])] += int(rest[1])
                unfinished.add(record.lsn)
        return unfinished


class Transfer:
    """A transfer under way, one step at a time."""

    def __init__(self):
        self.giver, self.taker = random.sample(range(ACCOUNTS), 2)
        self.amount = random.randint(1, 100)
        self.last = clfs.NULL
        self.steps = iter([self.take, self.give, random.choices([self.commit, self.undo], [4, 1])[0]])
        self.committing = self.committed = False

    def take(self, bank):
        self.last = bank.move(self.last, self.giver, -self.amount)

    def give(self, bank):
        self.last = bank.move(self.last, self.taker, self.amount)

    def commit(self, bank):
        self.committing = True
        bank.commit(self.last, moves=2)
        self.committed = True

    def undo(self, bank):
        bank.undo(self.last)

    def applied(self, balances):
        balances = list(balances)
        balances[self.giver] -= self.amount
        balances[self.taker] += self.amount
        return balances


class Trial:
    """Runs banks on one folder, and knows what each has to find there."""

    def __init__(self, folder, program):
        self.folder, self.program = folder, program
        self.known = [MONEY] * ACCOUNTS
        self.transfers = []
        self.starts = self.committed = 0

    def run(self):
        """Once, without a kill. Gives how long it took."""
        began = time.monotonic()
        with clfs.Log(self.folder, program=self.program) as log:
            self.transfer_money(self.open(log))
        return time.monotonic() - began

    def run_until_killed(self, within):
        """Until a kill at some moment within so many seconds, be it while the bank is opened, while it moves money, or while it undoes."""
        with clfs.Log(self.folder, program=self.program) as log:
            killer = threading.Timer(random.uniform(0, within), log.kill)
            killer.start()
            try:
                bank = self.open(log)
                while True:
                    self.transfer_money(bank)
                    bank.checkpoint()
            except clfs.Ended as ended:
                assert ended.signal == signal.SIGKILL, ended
            finally:
                killer.join()

    def open(self, log):
        bank = Bank(log)
        self.look_at(bank.balances)
        return bank

    def look_at(self, balances):
        """The money is all there, and so is each transfer whose commit was answered. One whose commit wasn't may be there."""
        self.starts += 1
        assert sum(balances) == ACCOUNTS * MONEY, sum(balances)
        unsure = [transfer for transfer in self.transfers if transfer.committing and not transfer.committed]
        assert balances in [self.known] + [transfer.applied(self.known) for transfer in unsure], "a transfer is lost"
        self.known, self.transfers = list(balances), []

    def transfer(self):
        return Transfer()

    def transfer_money(self, bank):
        """Three transfers at a time, which take turns at random; five times."""
        for _ in range(5):
            self.transfers = [self.transfer() for _ in range(3)]
            for transfer in random.sample(self.transfers * 3, 9):
                next(transfer.steps)(bank)
                if transfer.committed and transfer.last:
                    self.known, transfer.last = transfer.applied(self.known), clfs.NULL
                    self.committed += 1


def main(program="clfs", kills="100"):
    with tempfile.TemporaryDirectory() as folder:
        clfs.format(folder, block_sectors=8, container_sectors=64, containers=4, program=program)
        trial = Trial(folder, program)
        within = trial.run()
        for _ in range(int(kills)):
            trial.run_until_killed(within)
        print(f"killed {kills} times; {trial.committed} transfers, and the sum was right after each of {trial.starts} starts")


if __name__ == "__main__":
    main(*sys.argv[1:])
