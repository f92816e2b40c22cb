"""Does what the pages show: the commands of the shell with what they write, typed lines with their replies, and programs with what they print.

Each page has a folder of its own, where its blocks are done in the page's order. docs/check says how they are written."""
import os
import pathlib
import re
import shlex
import shutil
import signal
import subprocess
import sys
import tempfile
import time

from checks.pages import Page

PAGES = ["README.md", "docs/RECIPES.md", "docs/SCRIPT.md", "docs/RUNNING.md", "clients/README.md"]
BUILD = "examples/c/build "
SECONDS = 240
GOES_ON, BY_HAND = "goes on", "by hand"
# A mark stands at the end of a parenthesis in the paragraph above, alone or after other words.
MARKED = r"\((?:[^()]*[,;] )?{}\)"
LANGUAGES = {"python": "#> ", "c": "//> ", "rust": "//> "}

# What differs from run to run: a number above zero in place of the one that is shown.
COUNTED = [
    re.compile(r"(\d+ starts, )[1-9]\d*( commits: the cells add up to 1000)"),
    re.compile(r"(\d+ rounds: all )[1-9]\d*( records of whose flush a program was told are there)"),
]

# In place of ./clfs: the program, as the launcher would run it.
STAND_IN = """#!/bin/sh
case ${1-} in
--unproved) shift ;;
--install) exec cp -- %s "$2" ;;
esac
exec %s "$@"
"""


def is_marked(part, mark):
    """Whether the paragraph just above a part has a mark."""
    return re.search(MARKED.format(mark), part.above) is not None


def steps(block):
    """Each command of a block, with the lines below it."""
    found = []
    for line in block:
        if line.startswith("$ "):
            found.append((line[2:], []))
        else:
            found[-1][1].append(line)
    return found


def rows(lines):
    """The lines that are sent, and their replies; a line that has no reply beside it is both."""
    pairs = [re.split(r"  +", line, maxsplit=1) for line in lines]
    return [pair[0] for pair in pairs], [pair[-1] for pair in pairs]


def is_typed(command):
    return re.search(r" (serve|txn|race)( --\S+( \d+)?)*$", command) is not None and "|" not in command and "<" not in command


def steady(command, lines):
    """The lines of which each run has the same. The replies of a race may come in any order; what stands before them is of no client."""
    for pattern in COUNTED:
        lines = [pattern.sub(r"\1N\2", line) for line in lines]
    if command.endswith(" race"):
        lines = sorted(lines, key=lambda line: "" if line.startswith("0 ") else line)
    return lines


def kind_of(part):
    """What a part of a page is: `shell`, `lines` of a program that shares a log, a language, or nothing that is done."""
    if part.kind == "block" and part.lines[0].startswith("$ "):
        return "shell"
    if part.kind == "block" and re.match(r"\d+ [a-z]", part.lines[0]):
        return "lines"
    language = part.info.split()[0] if part.kind == "fence" and part.info else ""
    return language if language in LANGUAGES and "`crates/" not in part.above else None


class Shared:
    """A `share` that a transcript has started in the background, with the ends of its clients' pipes that were opened."""

    def __init__(self, command, folder, group, output):
        words = shlex.split(command.removesuffix("&"))
        self.paths = [os.path.join(folder, path) for path in words[words.index("share") + 1 :]]
        self.group, self.output, self.ends = group, output, {}

    def ask(self, client, line):
        if client not in self.ends:
            into, out = self.paths[2 * client - 2 : 2 * client]
            self.ends[client] = open(into, "w", buffering=1), open(out)
        lines, replies = self.ends[client]
        print(line, file=lines)
        return replies.readline().removesuffix("\n")

    def end(self):
        """Closes the pipes, and waits until it has ended. What it wrote, which should be nothing."""
        for lines, replies in self.ends.values():
            lines.close()
            replies.close()
        while is_there(self.group):
            time.sleep(0.01)
        self.output.seek(0)
        return self.output.read().split("\n")[:-1]


def is_there(group):
    try:
        os.killpg(group, 0)
    except ProcessLookupError:
        return False
    return True


class Folder:
    """The folder of a page, with what stands in it in place of the checkout."""

    def __init__(self, top, room, name, program):
        self.top, self.program = top, os.path.abspath(program)
        self.path = pathlib.Path(room, name.replace("/", "_"), "clone")
        beside = self.path.parent / "on_path"
        self.path.mkdir(parents=True)
        beside.mkdir()
        quoted = shlex.quote(self.program)
        (self.path / "clfs").write_text(STAND_IN % (quoted, quoted))
        (self.path / "clfs").chmod(0o755)
        (beside / "clfs").symlink_to(self.program)
        for folder in "examples", "clients", "include":
            (self.path / folder).symlink_to(top / folder)
        own = {"PATH": f"{beside}:{os.environ['PATH']}", "PYTHONPATH": str(top / "clients/python"), "PYTHONDONTWRITEBYTECODE": "1"}
        self.environment = {**os.environ, **own, "CLFS": self.program}
        self.groups = []

    def run(self, words, typed=()):
        """What a command writes, and the group of its processes."""
        output = tempfile.TemporaryFile("w+")
        with tempfile.TemporaryFile("w+") as lines:
            lines.writelines(f"{line}\n" for line in typed)
            lines.seek(0)
            ran = subprocess.Popen(words, cwd=self.path, stdin=lines, stdout=output, stderr=output, env=self.environment, start_new_session=True)
        self.groups.append(ran.pid)
        ran.wait()
        return output, ran.pid

    def lines(self, words, typed=()):
        output, _ = self.run(words, typed)
        output.seek(0)
        return output.read().split("\n")[:-1]

    def end(self):
        for group in filter(is_there, self.groups):
            os.killpg(group, signal.SIGKILL)


def compiled(folder, language, source):
    """The words that run a program of this language, or nothing if its compiler isn't there."""
    place = folder.path.parent / f"example.{ {'python': 'py', 'c': 'c', 'rust': 'rs'}[language]}"
    place.write_text(source)
    if language == "python":
        return [sys.executable, str(place)]
    made, clients = place.with_suffix(""), folder.top / "clients"
    if language == "c":
        compiler = next(filter(shutil.which, ("cc", "gcc", "clang")), None)
        parts = [str(clients / "c" / name) for name in ("clfs.c", "clfs_reply.c", "clfs_program.c", "clfs_connection.c")]
        words = [[compiler, "-std=c11", "-D_GNU_SOURCE", "-I", str(clients / "c"), "-o", str(made), str(place), *parts, "-pthread"]]
    else:
        compiler, library = shutil.which("rustc"), place.parent / "libclfs.rlib"
        rust = [compiler, "--edition", "2021", "-A", "warnings"]
        words = [[*rust, "--crate-type", "rlib", "--crate-name", "clfs", "-o", str(library), str(clients / "rust/src/lib.rs")]]
        words.append([*rust, "--extern", f"clfs={library}", "-o", str(made), str(place)])
    if not compiler:
        return None
    for command in words:
        ran = subprocess.run(command, capture_output=True, text=True)
        if ran.returncode:
            return ["printf", "%s\n", ran.stderr[:400]]
    return [str(made)]


class Transcripts:
    """The transcripts and programs of a page."""

    def __init__(self, page, folder, library):
        self.page, self.folder, self.library = page, folder, library
        self.shared, self.program = None, None
        self.count = self.by_hand = 0
        self.faults, self.left_out = [], []

    def fault(self, line, text):
        self.faults.append(f"{self.page.name}:{line}: {text}")

    def compare(self, line, command, came, wanted):
        self.count += len(wanted)
        came, wanted = steady(command, came), steady(command, wanted)
        if came != wanted:
            at = next((i for i, pair in enumerate(zip(came, wanted)) if pair[0] != pair[1]), min(len(came), len(wanted)))
            self.fault(line, f"{command}: wanted {wanted[at : at + 1]} as line {at + 1} of what it writes, and {came[at : at + 2]} came")

    def do(self, line, command, below):
        if command.startswith(BUILD):
            command = command.replace(BUILD, f"{BUILD}--library {shlex.quote(self.library)} ")
        typed, wanted = rows(below) if is_typed(command) else ([], below)
        output, group = self.folder.run(["sh", "-c", command], typed)
        if command.endswith("&"):
            self.shared = line, Shared(command, self.folder.path, group, output)
        else:
            output.seek(0)
            self.compare(line, command, output.read().split("\n")[:-1], wanted)

    def end_shared(self):
        if self.shared:
            line, shared = self.shared
            self.compare(line, "what share writes", shared.end(), [])
        self.shared = None

    def end_program(self):
        """Runs the program whose last part has come."""
        if self.program:
            language, line, lines = self.program
            self.program = None
            mark = LANGUAGES[language]
            words = compiled(self.folder, language, "\n".join(lines) + "\n")
            if not words:
                self.left_out.append(f"{self.page.name}:{line}: there is no compiler for {language}")
                return
            wanted = [it.strip()[len(mark) :] for it in lines if it.strip().startswith(mark)]
            self.compare(line, f"the program in {language}", self.folder.lines(words), wanted)

    def take_program(self, language, part):
        """Takes a program, or what goes on from the one above."""
        if not (self.program and self.program[0] == language and is_marked(part, GOES_ON)):
            self.end_program()
            self.program = language, part.line, []
        self.program[2].extend(part.lines)

    def do_shell(self, part):
        self.end_shared()
        if not self.library and any(command.startswith(BUILD) for command, _ in steps(part.lines)):
            self.left_out.append(f"{self.page.name}:{part.line}: no library for C was given")
            return
        for command, below in steps(part.lines):
            self.do(part.line, command, below)

    def do_lines(self, part):
        if self.shared:
            lines, wanted = rows(part.lines)
            client = int(lines[0].split()[0])
            self.compare(part.line, "the lines of a program", [self.shared[1].ask(client, line) for line in lines], wanted)

    def do_part(self, part):
        kind = kind_of(part)
        if kind is None:
            return
        if is_marked(part, BY_HAND):
            self.by_hand += 1
            return
        if kind in LANGUAGES:
            self.end_shared()
            self.take_program(kind, part)
            return
        self.end_program()
        if kind == "shell":
            self.do_shell(part)
        else:
            self.do_lines(part)

    def do_all(self):
        part = None
        try:
            for part in self.page.parts:
                signal.alarm(SECONDS)
                self.do_part(part)
            self.end_program()
            self.end_shared()
        except (OSError, ValueError) as error:
            self.fault(part.line, f"{error}")
        finally:
            signal.alarm(0)
            self.folder.end()


def give_up(_signal, _frame):
    raise TimeoutError("it takes too long")


NAME = re.compile(r"\.\./([\w.-]+)")


def folders_apart(page):
    """Blocks that use a folder of an earlier one and don't say that they go on, and those that say it and use none."""
    found, used = [], set()
    for part in page.parts:
        kind = kind_of(part)
        if kind in (None, "lines") or is_marked(part, BY_HAND):
            continue
        names = set(NAME.findall("\n".join(part.lines)))
        if names & used and not is_marked(part, GOES_ON):
            found.append(f"{page.name}:{part.line}: it uses {sorted(names & used)} of an earlier block and doesn't say ({GOES_ON})")
        used |= names
    return found


def check(top, names, program, library):
    """Does the pages of these names. Gives what failed, what was left out, and how many lines were compared and blocks left to be done by hand."""
    faults, left_out, count, by_hand = [], [], 0, 0
    signal.signal(signal.SIGALRM, give_up)
    with tempfile.TemporaryDirectory() as room:
        for name in names:
            page = Page(top, name)
            done = Transcripts(page, Folder(top, room, name, program), library)
            done.do_all()
            faults += done.faults
            left_out += done.left_out
            count, by_hand = count + done.count, by_hand + done.by_hand
    return faults, left_out, count, by_hand
