"""Tells how far the program's proof is: proof.py wait|bar|lines|status TOP OUT KIT CRATE ..

TOP has the sources, OUT is the program's folder `out` in the checkout, KIT is the line of the kit's version, and the crates are those that the program is
made of.

  wait     prints how long it takes to prove what no start of this checkout has proved
  bar      reads the gate's lines, passes them on, shows on standard error how far it is, and notes each crate that is proved
  lines    does the same, and says how far it is by a line for each crate
  status   prints how many crates a start of this checkout has proved as they stand"""
import hashlib
import math
import os
import pathlib
import re
import select
import sys
import time

PROVED = re.compile(r"rt: (\S+) (proved|is kept: .*)")
WAITS = re.compile(r"rt: ([^:]*): another run on this machine is proving the same")
BAR = 30


class Crates:
    """The program's crates, with what each stands on and how long it takes to prove."""

    def __init__(self, top, kit, names):
        self.top, self.kit, self.names = pathlib.Path(top), kit, names
        lines = [line.split("#")[0].partition(":") for line in (self.top / "crates.txt").read_text().split("\n")]
        self.lines = {words[0].split()[0]: words for words in lines if words[0].split()}
        self.below = {name: [it for it in self.lines[name][2].split() if it in names] for name in names}

    def sums(self):
        """A sum for each crate of all that its proof reads: the kit, its files, and the crates that it stands on."""
        tool = self.kit.encode() + (self.top / "HANDLES").read_bytes()
        sums = {}
        for name in self.names:
            made = hashlib.sha256(tool + "".join(self.lines[name]).encode())
            for path in sorted(self.sources(self.top / "crates" / name)):
                made.update(f"{path.relative_to(self.top)}\n".encode() + hashlib.sha256(path.read_bytes()).digest())
            made.update("".join(sums[it] for it in self.below[name]).encode())
            sums[name] = made.hexdigest()
        return sums

    def sources(self, folder):
        for path in folder.iterdir():
            if path.is_dir() and path.name != "out":
                yield from self.sources(path)
            elif path.suffix in (".rt", ".antt"):
                yield path

    def minutes(self):
        """How many minutes of a processor each crate takes, by start/times.txt; a minute where that has none."""
        times = pathlib.Path(__file__).resolve().parent / "times.txt"
        lines = [line.split("#")[0].split() for line in times.read_text().split("\n")] if times.exists() else []
        table = {line[0]: float(line[1]) for line in lines if line}
        return {name: table.get(name, 1.0) for name in self.names}

    def planned(self, left, minutes):
        """How many minutes by the clock the crates that are left would take, if each took so many of a processor.

        A crate waits for those below it. Those that don't wait share the processors, and one that has two gets done half as fast again."""
        left, gone = {name: minutes[name] for name in left}, 0.0
        processors = len(os.sched_getaffinity(0))
        while left:
            ready = [name for name in left if not any(it in left for it in self.below[name])]
            at_once = ready[:processors]
            speed = 1 + math.log2(processors / len(at_once)) / 2
            step = min(left[name] for name in at_once)
            gone += step / speed
            for name in at_once:
                left[name] -= step
                if left[name] <= 0:
                    del left[name]
        return gone


class Notes:
    """What earlier starts of the checkout left in its folder `out`."""

    def __init__(self, out):
        self.out = pathlib.Path(out)

    def read(self, name):
        path = self.out / name
        return path.read_text() if path.is_file() else ""

    def proved(self, crates):
        """The crates that were proved as they stand."""
        noted = {tuple(line.split()) for line in self.read("proved").split("\n")}
        return [name for name, made in crates.sums().items() if (name, made) in noted]

    def pace(self):
        """How many minutes one of the plan's took when all was proved last."""
        return float(self.read("pace") or 1)


def in_minutes(minutes):
    return "a minute or two" if minutes <= 2 else f"some {math.ceil(minutes)} minutes"


class Following:
    """What the gate has said so far."""

    def __init__(self, crates, notes, minutes, is_bar):
        self.crates, self.notes, self.minutes = crates, notes, minutes
        self.start = self.last = time.monotonic()
        self.left, self.new, self.count, self.pace = list(crates.names), 0.0, 0, notes.pace()
        self.planned = self.planned_left = crates.planned(self.left, minutes)
        self.sums, self.is_bar = crates.sums(), is_bar
        (notes.out / "proved").touch()

    def gone(self):
        return (time.monotonic() - self.start) / 60

    def take(self, line):
        """Takes a line of the gate, and says what is new."""
        found = PROVED.fullmatch(line)
        if found and found[1] in self.left:
            self.left.remove(found[1])
            self.last = time.monotonic()
            before, self.planned_left = self.planned_left, self.crates.planned(self.left, self.minutes)
            if found[2] == "proved":
                self.new += before - self.planned_left
            with open(self.notes.out / "proved", "a") as noted:
                noted.write(f"{found[1]} {self.sums[found[1]]}\n")
            self.tell(f"the last was {found[1]}")
        elif WAITS.match(line):
            self.tell(f"{WAITS.match(line)[1]} is being proved by another command on this machine")

    def own_pace(self):
        """The pace of earlier starts counts as a tenth of the way."""
        known = self.planned / 10
        return (self.pace * known + (self.last - self.start) / 60) / (known + self.new)

    def minutes_left(self):
        return max(1.0, self.own_pace() * self.planned_left - (time.monotonic() - self.last) / 60)

    def tell(self, more=""):
        total = len(self.crates.names)
        done = total - len(self.left)
        text = f"{done} of {total} crates are proved after {int(self.gone())} minutes, {in_minutes(self.minutes_left())} are left"
        (self.notes.out / "under_way").write_text(text + "\n")
        if self.is_bar:
            full = round(BAR * (1 - self.planned_left / self.planned))
            print(f"\r\033[Kclfs: [{'#' * full}{'.' * (BAR - full)}] {text}", end="", file=sys.stderr, flush=True)
        elif more:
            print(f"clfs: {text}; {more}", file=sys.stderr, flush=True)

    def end(self):
        if not self.left and self.new > 0:
            (self.notes.out / "pace").write_text(f"{self.gone() / self.new:.3f}\n")
        (self.notes.out / "under_way").unlink(missing_ok=True)


def follow(following):
    rest = b""
    following.tell()
    while True:
        if not select.select([0], [], [], 1 if following.is_bar else 60)[0]:
            following.tell()
            continue
        some = os.read(0, 65536)
        sys.stdout.buffer.write(some)
        sys.stdout.buffer.flush()
        *lines, rest = (rest + some).split(b"\n")
        for line in lines:
            following.take(line.decode(errors="replace"))
        if not some:
            following.end()
            return


def main(verb, top, out, kit, *names):
    crates, notes = Crates(top, kit, list(names)), Notes(out)
    if verb in ("bar", "lines"):
        follow(Following(crates, notes, crates.minutes(), verb == "bar"))
        return
    proved = notes.proved(crates)
    left = [name for name in names if name not in proved]
    if verb == "wait":
        print(in_minutes(notes.pace() * crates.planned(left, crates.minutes())))
    else:
        print(f"{len(proved)} of {len(names)} crates are proved as they stand" + (f"; the first that isn't is {left[0]}" if left else ""))


if __name__ == "__main__":
    main(*sys.argv[1:])
