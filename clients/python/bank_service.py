"""The bank of bank.py over a service, while banks and the service are killed at random: python3 bank_service.py [PROGRAM [KILLS]]

Each bank is a process of its own that comes by the door, one after the other. It tells this process through a pipe what it found, and each commit
before its line is sent and after it was answered. So what a bank knew when it was killed is known here, and the next one has to find it.
"""

import contextlib
import json
import os
import random
import signal
import subprocess
import sys
import tempfile
import threading
import time
import traceback

import clfs
from bank import Transfer, Trial

PATIENCE = 60
"""So many seconds a bank waits for its number, until the visit before has ended."""
LONGEST = 0.5
"""A kill comes within so many seconds, however slow the disk is."""


class ToldTransfer(Transfer):
    """A transfer whose commit is told."""

    def __init__(self, tell):
        super().__init__()
        self.tell = tell

    def commit(self, bank):
        self.tell("committing", [self.giver, self.taker, self.amount])
        super().commit(bank)
        self.tell("committed", None)


class ToldTrial(Trial):
    """A bank in a process of its own. What it tells is so short that a pipe takes it whole."""

    def __init__(self, trial, told):
        super().__init__(trial.folder, trial.program)
        self.known, self.transfers = trial.known, trial.transfers
        self.place, self.told = trial.place, told

    def tell(self, what, value):
        os.write(self.told, json.dumps([what, value]).encode() + b"\n")

    def transfer(self):
        return ToldTransfer(self.tell)

    def look_at(self, balances):
        super().look_at(balances)
        self.tell("found", balances)

    def visit(self, is_endless):
        """Comes, and moves money: once, or until the service has ended."""
        with clfs.connect(self.place, PATIENCE) as log:
            bank = self.open(log)
            self.transfer_money(bank)
            while is_endless:
                bank.checkpoint()
                self.transfer_money(bank)


class ServiceTrial(Trial):
    """Banks that come to a service, one after the other."""

    def __init__(self, room, program):
        super().__init__(f"{room}/log", program)
        self.place = f"{room}/place"
        self.kills = {"bank": 0, "service": 0}
        self.serve()

    def serve(self):
        # (it says of each bank that it was killed before the service opened its pipes)
        self.service = clfs.Service(self.folder, self.place, clients=1, program=self.program, stderr=subprocess.DEVNULL)

    def run(self):
        """Once, without a kill. Gives how long it took."""
        began = time.monotonic()
        status = self.take_in(*self.begin(is_endless=False))
        assert status == 0, status
        return time.monotonic() - began

    def run_until_killed(self, within):
        """Until a kill of the bank or of the service, be it while the bank comes, is opened, moves money, or undoes."""
        victim = random.choice(["bank", "service"])
        bank, told = self.begin(is_endless=True)
        kill = self.service.kill if victim == "service" else lambda: os.kill(bank, signal.SIGKILL)
        killer = threading.Timer(random.uniform(0, 2 * min(within, LONGEST)), kill)
        killer.start()
        status = self.take_in(bank, told)
        killer.join()
        assert status == (0 if victim == "service" else -signal.SIGKILL), (victim, status)
        self.kills[victim] += 1
        if victim == "service":
            self.serve()

    def close(self):
        self.service.kill()

    def begin(self, is_endless):
        """Starts a bank. Gives its process and the pipe of what it tells."""
        told, tells = os.pipe()
        bank = os.fork()
        if bank == 0:
            os._exit(self.bank(tells, is_endless))
        os.close(tells)
        return bank, told

    def bank(self, tells, is_endless):
        """What a bank's process does. It ends well if it was told that the service has ended."""
        random.seed()
        signal.alarm(2 * PATIENCE)
        try:
            ToldTrial(self, tells).visit(is_endless)
        except (clfs.NoService, clfs.ServiceEnded):
            return 0 if is_endless else 2
        except BaseException:
            traceback.print_exc()
            return 1
        return 0

    def take_in(self, bank, told):
        """Takes in what a bank tells, up to its end, and gives its status."""
        with open(told, "rb") as lines:
            for line in lines:
                what, value = json.loads(line)
                if what == "found":
                    self.starts += 1
                    self.known, self.transfers = value, []
                elif what == "committing":
                    self.transfers = [Told(*value)]
                else:
                    self.committed += 1
                    self.known, self.transfers = self.transfers[0].applied(self.known), []
        return os.waitstatus_to_exitcode(os.waitpid(bank, 0)[1])


class Told(Transfer):
    """A transfer whose commit a bank has sent and not seen answered, as far as it is known here."""

    def __init__(self, giver, taker, amount):
        super().__init__()
        self.giver, self.taker, self.amount = giver, taker, amount
        self.committing = True


def main(program="clfs", kills="100"):
    with tempfile.TemporaryDirectory() as room:
        clfs.format(f"{room}/log", block_sectors=8, container_sectors=64, containers=4, program=program)
        trial = ServiceTrial(room, program)
        with contextlib.closing(trial):
            within = trial.run()
            for _ in range(int(kills)):
                trial.run_until_killed(within)
            trial.run()
        killed = f"{trial.kills['bank']} banks and {trial.kills['service']} services"
        print(f"killed {killed}; {trial.committed} transfers, and the sum was right after each of {trial.starts} starts")


if __name__ == "__main__":
    main(*sys.argv[1:])
