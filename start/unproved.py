"""Compiles the program without a proof, by the kit's `rt try`, and runs it: unproved.py CRATE WORD ..

CRATE is the program's folder, and the words are those of the command line, FOLDER COMMAND .. then COMMAND .., of which the last command may read standard
input. `rt try` gives the program no terminal and no pipe: it reads
all input first, writes the output when the program has ended, at most 1 MiB of it, and keeps no file. Named pipes, which a program opens by their paths,
are as they are. So `serve` is answered by `share`: each line goes to the pipe of the client that it names, and its reply is awaited before the next one."""
import contextlib
import fcntl
import os
import pathlib
import re
import select
import shutil
import signal
import subprocess
import sys
import tempfile
import threading
import time

CLIENTS = 64
LONGEST_LINE = 131_072
YEAR = 31_536_000
# What the kit says of a run that came to its end, and of several that all did.
ENDED = re.compile(rb"(?:case=\S+ )?run=ended status=(\d+) ")
ALL_ENDED = re.compile(rb"run=ended |cases=(\d+) ended=\1 ")
OF_THE_KIT = re.compile(rb"checked: |interpreter: |races: |case=|cases=|run=")
HEAD = re.compile(rb"== command-\d\d\n")
TOO_MUCH = b"program wrote more than"
# The forms of the options of `serve`, with the largest number that each takes, and whether `share` takes it. How many blocks are kept changes no reply.
OPTIONS = {"--write-buffers": (64, True), "--read-buffers": (4096, False), "--endless": (None, False)}
NO_COMMAND, READ_FAILED, WRITE_FAILED, DISK_FAILED, NO_MEMORY, TOO_LONG, NOT_RUN = 1, 2, 3, 4, 5, 7, 70


def say(text):
    print(f"clfs: {text}", file=sys.stderr, flush=True)


def paths_from_root(words):
    """The words with each path from the root, since the kit runs the program in another folder."""
    if len(words) < 2:
        return words
    named = [words[0] and os.path.join(os.getcwd(), words[0]), words[1]]
    is_value, only_paths = False, words[1] != "share"
    for word in words[2:]:
        is_path = words[1] == "share" and word != "" and not is_value and (only_paths or not re.match("-.", word))
        named.append(os.path.join(os.getcwd(), word) if is_path else word)
        is_value = not only_paths and word == "--write-buffers"
        only_paths = only_paths or word == "--"
    return named


def options_for_share(words):
    """The words after `serve` as `share` takes them, or None if `serve` would refuse them."""
    taken, seen, words = [], set(), list(words)
    if words[-1:] == ["--"]:
        words.pop()
    while words:
        name, is_joined, value = words.pop(0).partition("=")
        if name not in OPTIONS or name in seen:
            return None
        seen.add(name)
        largest, is_shared = OPTIONS[name]
        if largest is None and is_joined:
            return None
        if largest is not None:
            value = value if is_joined else (words.pop(0) if words else "")
            if not re.fullmatch("[1-9][0-9]{0,3}", value) or int(value) > largest:
                return None
        if is_shared:
            taken.append(f"{name}={value}")
    return taken


def commands_of(words):
    """The commands of the command line, each with the folder before it."""
    commands = [[]]
    for word in words[1:]:
        if word == "then":
            commands.append([])
        else:
            commands[-1].append(word)
    return [paths_from_root([*words[:1], *command]) for command in commands]


def write_cases(commands, room, given):
    """A folder with the commands as `rt try --cases` takes them, of which the last one is given these bytes."""
    cases = pathlib.Path(room, "cases")
    cases.mkdir()
    for number, words in enumerate(commands, 1):
        if any("\n" in word for word in words):
            say("no word of several commands may have a line feed")
            sys.exit(NOT_RUN)
        (cases / f"command-{number:02}").write_bytes(given if number == len(commands) else b"")
        (cases / f"command-{number:02}.args").write_text("".join(f"{word}\n" for word in words), errors="surrogateescape")
    return str(cases)


class Trial:
    """A run of `rt try`. What it says is gathered, since it is said at the end."""

    def __init__(self, crate, commands, room, is_read):
        """`is_read` says whether the last command gets standard input."""
        words, how = ["rt", "try", "--steps", "1", "--seconds", str(YEAR)], {}
        if len(commands) == 1:
            words += ["--", *commands[0]]
        else:
            words += ["--cases", write_cases(commands, room, sys.stdin.buffer.read() if is_read else b"")]
            how["stdout"] = subprocess.PIPE
        if len(commands) > 1 or not is_read:
            how["stdin"] = subprocess.DEVNULL
        # In a session of its own, so that a key that ends this process doesn't end the program before its pipes are closed.
        self.run = subprocess.Popen(words, cwd=crate, stderr=subprocess.PIPE, start_new_session=True, **how)
        self.said = []
        self.readers = [threading.Thread(target=lambda: self.said.extend(self.run.stderr), daemon=True)]
        if self.run.stdout:
            self.readers.append(threading.Thread(target=self.pass_on, daemon=True))
        for reader in self.readers:
            reader.start()

    def pass_on(self):
        """Writes what the commands wrote, without the kit's line before each."""
        for line in self.run.stdout:
            if not HEAD.fullmatch(line):
                write(line)

    def is_running(self):
        return self.run.poll() is None

    def stop(self):
        self.run.terminate()
        self.run.wait()

    def status(self):
        """Waits for the end, passes on what the program said on standard error, and gives the last command's status."""
        status = self.run.wait()
        for reader in self.readers:
            reader.join()
        have_ended = bool(self.said) and ALL_ENDED.match(self.said[-1])
        if not have_ended and any(TOO_MUCH in line for line in self.said):
            say("it has more than 1 MiB of output, which the kit doesn't give of a program that isn't proved: none is written, and it was ended")
            return NOT_RUN
        sys.stderr.buffer.writelines(line for line in self.said if not (have_ended and OF_THE_KIT.match(line)))
        sys.stderr.buffer.flush()
        if have_ended:
            return int([found[1] for found in map(ENDED.match, self.said) if found][-1])
        say(f"the program wasn't run to its end: 'rt try' ended with status {status}")
        return NOT_RUN


class Client:
    """Both ends of a client's pipes."""

    def __init__(self, into, out, trial):
        self.trial, self.rest = trial, b""
        # Before `share` opens it to write, which waits for a reader.
        self.out = os.open(out, os.O_RDONLY | os.O_NONBLOCK)
        self.into = self.when_read(into)

    def when_read(self, path):
        """Opens a pipe to write once the program has opened it to read; None if the program ends before."""
        while self.trial.is_running():
            with contextlib.suppress(OSError):
                end = os.open(path, os.O_WRONLY | os.O_NONBLOCK)
                fcntl.fcntl(end, fcntl.F_SETFL, 0)
                return end
            time.sleep(0.1)
        return None

    def ask(self, line):
        """The reply to a line; less than a line if the client is done."""
        try:
            while line:
                line = line[os.write(self.into, line) :]
        except BrokenPipeError:
            pass
        while b"\n" not in self.rest:
            if not select.select([self.out], [], [], 1)[0]:
                if self.trial.is_running():
                    continue
                break
            some = os.read(self.out, 65536)
            if not some:
                break
            self.rest += some
        reply, feed, self.rest = self.rest.partition(b"\n")
        return reply + feed


def client_of(line):
    """The client that a line names; 1 for a line that names none, as any client is told of that alike."""
    first = line.removesuffix(b"\n").removesuffix(b"\r").split(b" ", 1)[0]
    return int(first) if re.fullmatch(rb"[1-9][0-9]?", first) and int(first) <= CLIENTS else 1


def write(text):
    while text:
        text = text[os.write(1, text) :]


def answer(clients):
    """Answers each line of standard input. The status, if it isn't the program's own to say."""
    number = 0
    while True:
        try:
            line = sys.stdin.buffer.readline(LONGEST_LINE + 1)
        except OSError:
            return READ_FAILED
        if not line:
            return None
        number += 1
        try:
            if len(line) > LONGEST_LINE and not line.endswith(b"\n"):
                write(b"input too long\n")
                return TOO_LONG
            reply = clients[client_of(line) - 1].ask(line if line.endswith(b"\n") else line + b"\n")
            write(reply)
        except OSError:
            return WRITE_FAILED
        if not reply.endswith(b"\n"):
            return NO_MEMORY
        if re.fullmatch(rb"\d+ reopen\r?\n?", line) and reply.startswith(b"0 "):
            say(f"line {number}: a program that isn't proved takes no 'reopen': end the script and start again, which does the same")


def serve(crate, commands, options, room):
    """Runs the commands, answers a script by `share` in place of the last one, and gives the status that `serve` would."""
    pipes = [os.path.join(room, f"{kind}{number}") for number in range(1, CLIENTS + 1) for kind in ("in", "out")]
    for pipe in pipes:
        os.mkfifo(pipe, 0o600)
    share = [commands[-1][0], "share", *options, "--", *pipes]
    trial = Trial(crate, [*commands[:-1], share], room, is_read=False)
    try:
        clients = [Client(into, out, trial) for into, out in zip(pipes[::2], pipes[1::2])]
        own = None
        if clients[-1].into is not None:
            say("the program has opened the log and answers; nothing of it is proved")
            own = answer(clients)
        for client in clients:
            if client.into is not None:
                os.close(client.into)
        status = trial.status()
    finally:
        trial.stop()
    if clients[-1].into is None or status == NOT_RUN:
        return status
    # A fault that a line met is that line's reply; `share` tells it by its status besides.
    return own if own is not None else (0 if status == DISK_FAILED else status)


def end(number, _frame):
    sys.exit(128 + number)


def main(crate, *words):
    for number in signal.SIGTERM, signal.SIGHUP, signal.SIGINT:
        signal.signal(number, end)
    commands = commands_of(words)
    options = options_for_share(commands[-1][2:]) if commands[-1][1:2] == ["serve"] else None
    say("compiling, which takes a minute or two; nothing of this program is proved")
    room = os.path.realpath(tempfile.mkdtemp())
    try:
        if options is not None:
            return serve(crate, commands, options, room)
        trial = Trial(crate, commands, room, is_read=True)
        try:
            return trial.status()
        finally:
            trial.stop()
    finally:
        shutil.rmtree(room)


if __name__ == "__main__":
    sys.exit(main(*sys.argv[1:]))
