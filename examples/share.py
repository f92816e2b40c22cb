#!/usr/bin/env python3
"""Eight programs share one log. In each round one of them is killed, and then `share` itself, and `serve` has to find each record of whose flush a
program was told.

python3 examples/share.py FOLDER [ROUNDS]    the log in FOLDER is there already; there are 20 rounds unless ROUNDS says another number"""
import multiprocessing
import os
import random
import subprocess
import sys
import tempfile
import time

PROGRAM = os.environ.get("CLFS", "./clfs")
CLIENTS = range(1, 9)


class Ended(Exception):
    """The log gives no more replies."""


def be_client(number, start, into, out, told):
    """One of the programs: it appends records, flushes each, and notes down those of whose flush it was told."""
    with open(into, "w", buffering=1) as lines, open(out) as replies, open(told, "w", buffering=1) as notes:

        def ask(line):
            print(f"{number} {line}", file=lines)
            reply = replies.readline()
            if not reply.endswith("\n"):
                raise Ended
            words = reply.split()
            if words[1] == "refused":
                raise Ended
            return words

        try:
            stream = ask(f"open s{number}")[2]
            ask(f"area {stream} 16 1")
            count = 0
            while True:
                data = f"{start:06x}{number:02x}{count:08x}"
                lsn = ask(f"append 1 {data} 0:0:0 0:0:0")[2]
                ask("flush 1")
                print(lsn, data, file=notes)
                count += 1
        except (Ended, BrokenPipeError):
            # What stands in a pipe that is gone is not to be written again.
            os._exit(0)


class Round:
    """A run of `share` with its programs."""

    def __init__(self, folder, start, place):
        self.told = {number: f"{place}/told{number}" for number in CLIENTS}
        paths = []
        for number in CLIENTS:
            pair = [f"{place}/in{number}", f"{place}/out{number}"]
            for path in pair:
                os.mkfifo(path)
            paths += pair
        # That a program was killed is told here too.
        self.errors = open(f"{place}/errors", "w+")
        self.share = subprocess.Popen([PROGRAM, folder, "share", *paths], stdin=subprocess.DEVNULL, stderr=self.errors)
        self.programs = []
        for number in CLIENTS:
            words = (number, start, *paths[2 * number - 2 : 2 * number], self.told[number])
            self.programs.append(multiprocessing.Process(target=be_client, args=words))
            self.programs[-1].start()

    def kill(self):
        """Kills a program, and then `share`, each after a while, once a first record was flushed."""
        while not any(self.notes(number) for number in CLIENTS):
            if self.share.poll() is not None:
                self.end_programs(0)
                self.errors.seek(0)
                sys.exit(f"share ended with status {self.share.returncode}: {self.errors.read()}")
            time.sleep(0.01)
        time.sleep(random.uniform(0, 0.5))
        random.choice(self.programs).kill()
        time.sleep(random.uniform(0, 0.5))
        self.share.kill()
        self.share.wait()
        self.errors.close()
        self.end_programs(2)

    def end_programs(self, seconds):
        """Waits so many seconds for each program. One that is still there waits for somebody to open its pipe."""
        for program in self.programs:
            program.join(seconds)
            program.kill()
            program.join()

    def notes(self, number):
        """The LSNs and data of the records of whose flush the program was told, but for a note that it hadn't ended."""
        try:
            with open(self.told[number]) as notes:
                return [line.split() for line in notes if line.endswith("\n")]
        except FileNotFoundError:
            return []


def replies_of(folder, lines):
    done = subprocess.run([PROGRAM, folder, "serve"], input="\n".join(lines) + "\n", capture_output=True, text=True)
    if done.returncode != 0:
        sys.exit(f"serve ended with status {done.returncode}: {done.stderr}")
    return done.stdout.splitlines()


def check(folder, told):
    """Reads each record that a program was told of, and moves the bases so that the log has room again."""
    found = 0
    for number, notes in told.items():
        stream = replies_of(folder, [f"1 open s{number}"])[0].split()[2]
        lines = [f"1 open s{number}", f"1 area {stream} 16 1"]
        for lsn, _ in notes:
            lines += [f"1 read 1 {lsn} forward", "1 end 1 1"]
        if notes:
            lines.append(f"1 advance 1 {notes[-1][0]}")
        replies = replies_of(folder, lines)
        for (lsn, data), reply in zip(notes, replies[2::2]):
            words = reply.split()
            if words[1:5] != ["cursor", "1", "record", lsn] or words[-1] != data:
                sys.exit(f"the record {lsn} of client {number} was flushed, and the reply is: {reply}")
            found += 1
    return found


def run(folder, rounds):
    found = 0
    for start in range(rounds):
        with tempfile.TemporaryDirectory() as place:
            one = Round(folder, start, place)
            one.kill()
            found += check(folder, {number: one.notes(number) for number in CLIENTS})
    print(f"{rounds} rounds: all {found} records of whose flush a program was told are there")


if __name__ == "__main__":
    if len(sys.argv) not in (2, 3):
        sys.exit(__doc__)
    run(sys.argv[1], int(sys.argv[2]) if len(sys.argv) == 3 else 20)
