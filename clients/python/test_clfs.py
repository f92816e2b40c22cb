"""Tests of the Python client, on the program that CLFS names: CLFS=PATH python3 -m unittest test_clfs"""

import contextlib
import os
import pathlib
import random
import signal
import stat
import subprocess
import tempfile
import threading
import time
import unittest

import clfs
from clfs import Lsn, Mode, Policy

PROGRAM = os.environ.get("CLFS", "clfs")


class Folder(unittest.TestCase):
    """A test with a folder of its own. One that hangs is ended by an alarm."""

    def setUp(self):
        room = tempfile.TemporaryDirectory()
        self.addCleanup(room.cleanup)
        self.room = pathlib.Path(room.name)
        signal.alarm(120)
        self.addCleanup(signal.alarm, 0)

    def format(self, block_sectors=2, container_sectors=8, containers=2, **more):
        clfs.format(self.room / "log", block_sectors=block_sectors, container_sectors=container_sectors, containers=containers, program=PROGRAM, **more)

    def start(self, **more):
        return self.ending(clfs.Log(self.room / "log", program=PROGRAM, **more))

    def ending(self, log):
        """Ends the log with the test, however that ends."""

        def end():
            log.kill()
            with contextlib.suppress(clfs.ClfsError):
                log.close()

        self.addCleanup(end)
        return log

    def shell(self, text):
        """A program of the shell in place of clfs."""
        path = self.room / "program"
        path.write_text("#!/bin/sh\n" + text)
        path.chmod(stat.S_IRWXU)
        return path

    def program(self, text):
        """One that has answered the first line, by which a client waits for the opening."""
        return self.shell("read line\necho '0 refused 28 BadLine 0'\n" + text)

    def answering(self, reply):
        """A log whose program answers one line with this text."""
        (self.room / "reply").write_text(reply)
        path = self.program(f"read line\ncat '{self.room}/reply'\nread line\nexit 0\n")
        return self.ending(clfs.Log(self.room, program=path))


class OnTheProgram(Folder):
    def test_the_example_of_the_manual(self):
        self.format()
        with self.start() as log:
            self.assertEqual(log.open("orders"), 1)
            area = log.area("orders", largest=960, reads=4)
            self.assertEqual((area.number, area.stream), (1, 1))
            first = area.append(b"hello")
            second = area.append(b"world", first, first, flush=True)
            self.assertEqual((str(first), str(second)), ("1:0:0", "1:0:1"))
            cursor = area.read(second, Mode.PREVIOUS)
            self.assertEqual(cursor.record, clfs.Record(second, clfs.Kind.DATA, first, first, clfs.NULL, b"world"))
            self.assertEqual(cursor.next().data, b"hello")
            with self.assertRaises(clfs.StartOfLog):
                cursor.next()
            cursor.end()
            self.assertEqual(area.reserve(100, 200), 2)
            third = area.append(b"\xaa", reserved=True)
            area.append(b"\xbb", seal=True, hold=[300])
            self.assertEqual(area.release(1), 1)
            self.assertEqual(area.align(456, 457), 3)
            self.assertEqual(str(area.flush()), "1:400:0")
            self.assertEqual(str(area.flush_to(second)), "1:400:0")
            self.assertEqual(str(area.restart(b"\1\2")), "1:400:0")
            self.assertEqual(str(area.restart(b"\3\4", second, reserved=True)), "1:600:0")
            newest = area.read_restart()
            self.assertEqual((newest.record.data, newest.record.base), (b"\3\4", second))
            self.assertEqual(newest.next().data, b"\1\2")
            with self.assertRaises(clfs.NoRestart):
                newest.next()
            self.assertEqual(area.advance(third), third)
            log.archive(True)
            self.assertEqual(log.tail(third), third)
            self.assertEqual(log.extents(), [clfs.Extent(1, 0x200, 0x800)])
            log.policy(Policy.MAXIMUM, 4)
            log.policy(Policy.GROWTH, 1)
            log.policy(Policy.AUTOMATIC)
            self.assertEqual(log.size(3), 3)
            log.unpolicy(Policy.MAXIMUM)
            log.archive(False)
            restart = Lsn.parse("1:600:0")
            self.assertEqual(log.info(1), clfs.Info(3, 2, 8, 17, 0, third, restart, Lsn.parse("1:800:0"), restart, None))
            area.drop()
            self.assertEqual(str(log.reopen()), "1:800:0")
            with self.assertRaises(clfs.NoSuchArea):
                area.flush()
            with self.assertRaises(clfs.BadLine) as bad:
                log.send(1, "apend 1 aa").result()
            self.assertEqual(bad.exception.at, 2)
            with self.assertRaises(clfs.BadLine):
                log.area(1, largest=960, client=65)

    def test_what_was_flushed_is_there_again(self):
        self.format()
        with self.start() as log:
            area = log.area("orders", largest=960)
            kept = area.append(b"kept", flush=True)
            area.append(b"lost", previous=kept)
        with self.start() as log:
            area = log.area("orders", largest=960)
            self.assertEqual(log.info(area.stream).last, kept)
            self.assertEqual([record.data for record in area.records(kept)], [b"kept"])
            self.assertEqual(area.record(kept).data, b"kept")
            self.assertEqual(list(area.restarts()), [])

    def test_records_end_their_cursor_also_if_the_loop_is_left(self):
        self.format()
        with self.start() as log:
            area = log.area("orders", largest=960, reads=1)
            first = area.append(b"")
            area.append(b"x" * 900, first)
            for _ in range(3):
                for record in area.records(first):
                    break
            self.assertEqual([len(record.data) for record in area.records(first)], [0, 900])

    def test_fields_of_a_refusal(self):
        self.format()
        with self.start() as log:
            area = log.area("orders", largest=960, reads=1)
            with self.assertRaises(clfs.RecordTooLong) as refused:
                area.append(bytes(961))
            self.assertEqual((refused.exception.length, refused.exception.most), (961, 960))
            with self.assertRaises(clfs.Full) as refused:
                for _ in range(20):
                    area.append(bytes(960))
            self.assertEqual((refused.exception.free, refused.exception.reserved, refused.exception.need), (1, 0, 2))
            self.assertEqual(str(refused.exception), "refused 5 Full: free 1, reserved 0, need 2")
            with self.assertRaises(clfs.LinkInvalid) as refused:
                area.append(b"", previous=Lsn.parse("9:0:0"))
            self.assertEqual(str(refused.exception.lsn), "9:0:0")

    def test_many_lines_under_way(self):
        self.format(128, 1024, 4)
        with self.start() as log:
            area = log.area("orders", largest=64000, reads=16)
            sent = [area.send_append(b"%d" % number) for number in range(1000)]
            self.assertGreater(log.under_way, 0)
            lsns = [pending.result() for pending in sent]
            self.assertEqual(lsns, sorted(set(lsns)))
            reads = [log.send(1, f"read 1 {lsn} forward") for lsn in lsns[:17]]
            with self.assertRaises(clfs.CursorLimit):
                reads[16].result()
            self.assertEqual(bytes.fromhex(reads[15].result()[-1]), b"15")

    def test_both_pipes_full(self):
        """The program's replies fill its output while the lines fill its input: who only writes, or only reads, waits for ever."""
        self.format(128, 1024, 4)
        with self.start() as log:
            area = log.area("orders", largest=64000)
            data = random.Random(1).randbytes(30000)
            lsn = area.append(data)
            pending = [area.send_read(lsn) for _ in range(4)] + [area.send_append(data) for _ in range(8)]
            self.assertTrue(all(read.result()[1].data == data for read in pending[:4]))
            self.assertEqual(len({append.result() for append in pending[4:]}), 8)

    def test_a_killed_program_is_told(self):
        self.format()
        log = self.start()
        area = log.area("orders", largest=960)
        pending = [area.send_append(b"x") for _ in range(3)]
        log.kill()
        with self.assertRaises(clfs.Ended) as ended:
            pending[2].result()
            area.flush()
        self.assertEqual(ended.exception.signal, signal.SIGKILL)
        with self.assertRaises(clfs.Ended):
            area.flush()
        log.close()

    def test_a_kill_is_told_by_close(self):
        self.format()
        log = self.start()
        log.kill()
        with self.assertRaises(clfs.Ended):
            log.close()
        with self.assertRaises(clfs.Closed):
            log.info(1)

    def test_there_is_no_log(self):
        for cls in (clfs.NoFolder, clfs.NotALog):
            with self.assertRaises(clfs.NotALog) as ended:
                self.start(stderr=subprocess.DEVNULL)
            self.assertEqual((type(ended.exception), ended.exception.place), (cls, None))
            (self.room / "log").mkdir(exist_ok=True)
        with self.assertRaises(clfs.NoFolder):
            clfs.format(self.room / "none" / "log", block_sectors=2, container_sectors=8, containers=2, program=PROGRAM, stderr=subprocess.DEVNULL)

    def test_the_files_are_damaged(self):
        self.format()
        with self.start() as log:
            log.area("orders", largest=960).append(b"hello", flush=True)
        with open(self.room / "log" / "c1", "r+b") as file:
            file.seek(20)
            file.write(b"\xff")
        with self.assertRaises(clfs.NotALog) as ended:
            self.start()
        self.assertEqual(ended.exception.place[:2], (1, 0))

    def test_another_process_has_the_log(self):
        self.format()
        with self.start(), tempfile.TemporaryFile() as told:
            with self.assertRaises(clfs.Locked):
                self.start(stderr=told)
            told.seek(0)
            self.assertIn(b"another process has the folder", told.read())
            with self.assertRaises(clfs.Locked):
                self.format()

    def test_threads_are_served_one_after_another(self):
        self.format(128, 1024, 4)
        with self.start() as log:
            area = log.area("orders", largest=64000)
            lsns, errors = [], []

            def append(number):
                try:
                    last = clfs.NULL
                    for _ in range(25):
                        last = area.append(b"%d" % number * 20, last, flush=True)
                        lsns.append(last)
                except BaseException as error:
                    errors.append(error)

            threads = [threading.Thread(target=append, args=(number,)) for number in range(8)]
            for thread in threads:
                thread.start()
            for thread in threads:
                thread.join()
            self.assertEqual((errors, len(set(lsns))), ([], 200))

    def test_a_thread_that_waits_for_another_ones_call(self):
        """Its time ends before anything is sent, so the handle stays; a kill gets through."""
        self.format()
        with self.start() as log:
            os.kill(log.pid, signal.SIGSTOP)
            answers = []
            thread = threading.Thread(target=lambda: answers.append(log.open("orders")))
            thread.start()
            time.sleep(0.1)
            log.timeout = 0.1
            with self.assertRaises(clfs.TimedOut):
                log.open("more")
            os.kill(log.pid, signal.SIGCONT)
            thread.join()
            log.timeout = None
            self.assertEqual((answers, log.open("orders"), log.open("more")), ([1], 1, 2))
            os.kill(log.pid, signal.SIGSTOP)
            thread = threading.Thread(target=lambda: self.assertRaises(clfs.Ended, log.open, "orders"))
            thread.start()
            time.sleep(0.1)
            log.kill()
            thread.join()

    def test_a_call_that_takes_too_long(self):
        self.format()
        log = self.start(timeout=60)
        area = log.area("orders", largest=960)
        area.append(b"kept", flush=True)
        os.kill(log.pid, signal.SIGSTOP)
        pending = area.send_append(b"x")
        with self.assertRaises(clfs.TimedOut):
            pending.result(timeout=0.1)
        for call in (pending.result, area.flush, log.reopen):
            with self.assertRaises(clfs.TimedOut):
                call()
        # (the program was killed, and closing waits for its end, so its folder is free)
        log.close()
        with self.start() as again:
            self.assertEqual(again.area("orders", largest=960).record(Lsn.parse("1:0:0")).data, b"kept")

    def test_a_start_and_an_end_that_take_too_long(self):
        for call in (clfs.Log, lambda folder, **more: clfs.format(folder, block_sectors=2, container_sectors=8, containers=2, **more)):
            before = time.monotonic()
            with self.assertRaises(clfs.TimedOut):
                call(self.room, program=self.shell("exec sleep 20\n"), timeout=0.2)
            with self.assertRaises(clfs.TimedOut):
                call(self.room, program=self.shell("exec >&-\nexec sleep 20\n"), timeout=0.2)
            self.assertLess(time.monotonic() - before, 10)
        log = clfs.Log(self.room, program=self.program("exec sleep 20\n"), timeout=0.2)
        with self.assertRaises(clfs.TimedOut):
            log.close()

    def test_a_handler_of_a_signal_in_the_middle_of_a_call(self):
        self.format()
        with self.start() as log:
            told = []

            def handler(number, frame):
                with self.assertRaises(clfs.InUse):
                    log.open("more")
                told.append(number)
                os.kill(log.pid, signal.SIGCONT)

            self.addCleanup(signal.signal, signal.SIGUSR1, signal.signal(signal.SIGUSR1, handler))
            os.kill(log.pid, signal.SIGSTOP)
            threading.Timer(0.1, os.kill, (os.getpid(), signal.SIGUSR1)).start()
            self.assertEqual((log.open("orders"), told), (1, [signal.SIGUSR1]))
            thread = threading.Thread(target=log.open, args=("more",), daemon=True)
            thread.start()
            thread.join(20)
            self.assertFalse(thread.is_alive())

    def test_a_child_that_was_forked(self):
        """It can't use the handle and holds no end of its pipes; the parent goes on, and closing ends the program."""
        self.format()
        log = self.start(timeout=20)
        area = log.area("orders", largest=960)
        pending = area.send_append(b"x")
        before = set(os.listdir("/proc/self/fd"))
        read, write = os.pipe()
        child = os.fork()
        if child == 0:
            told = b"well"
            for call in (pending.result, area.flush, log.kill):
                try:
                    call()
                    told = b"answered"
                except clfs.OtherProcess:
                    pass
            log.close()
            with os.scandir("/proc/self/fd") as entries:
                left = len([entry for entry in entries]) - 3
            os.write(write, b"%s %d" % (told, left))
            time.sleep(20)
            os._exit(0)
        try:
            # input, output, standard error, and the copy of this process's standard error
            self.assertEqual(os.read(read, 100), b"well %d" % (len(before) - 1 - 4))
            self.assertEqual(str(pending.result()), "1:0:0")
            log.close()
        finally:
            os.kill(child, signal.SIGKILL)
            os.waitpid(child, 0)
            os.close(read)
            os.close(write)

    def test_a_child_that_keeps_the_pipes(self):
        """As one that was forked by other means than Python's."""
        self.format()
        log = self.start(timeout=20)
        copies = [os.dup(descriptor) for descriptor in (log._peer._input.fileno(), log._peer._output, log._peer._errors)]
        log.close()
        for copy in copies:
            os.close(copy)

    def test_the_clients_number(self):
        self.format()
        with self.start() as log:
            log.open("orders", client=2)
            self.assertEqual(log.info(1, client=2).containers, 2)
            log.archive(True, client=3)
            self.assertEqual((log.tail(Lsn.parse("1:0:0"), client=4), log.extents(client=5)), (Lsn.parse("1:0:0"), []))
            log.policy(Policy.MAXIMUM, 4, client=6)
            log.unpolicy(Policy.MAXIMUM, client=7)
            self.assertEqual(log.size(3, client=64), 3)
            for call in (
                lambda: log.info(1, client=65),
                lambda: log.archive(True, client=65),
                lambda: log.tail(clfs.NULL, client=65),
                lambda: log.extents(client=65),
                lambda: log.policy(Policy.AUTOMATIC, client=65),
                lambda: log.unpolicy(Policy.AUTOMATIC, client=65),
                lambda: log.size(2, client=65),
                lambda: log.reopen(client=65),
            ):
                with self.assertRaises(clfs.BadLine):
                    call()

    def test_buffers(self):
        self.format()
        self.start(write_buffers=64, read_buffers=4096).close()
        for buffers in ({"read_buffers": 4097}, {"write_buffers": 65}):
            with self.assertRaises(clfs.Ended) as ended:
                self.start(stderr=subprocess.DEVNULL, **buffers)
            self.assertEqual(ended.exception.status, 1)

    def test_format_says_why_not(self):
        self.format(dedicated=True)
        with self.assertRaises(clfs.LogExists):
            self.format()
        with self.assertRaises(clfs.Ended) as ended:
            self.format(containers=257)
        self.assertEqual(ended.exception.status, 1)
        with self.start() as log:
            log.open("one")
            with self.assertRaises(clfs.Dedicated):
                log.open("two")

    def test_an_input_that_is_too_long(self):
        self.format()
        log = self.start()
        before = log.send(1, "reopen")
        too_long = clfs.Pending(log, 1, clfs.replies.words_of)
        log._put(b"x" * 131_073, too_long)
        self.assertEqual(before.result(), ["flushed", "1:0:0"])
        with self.assertRaises(clfs.InputTooLong) as ended:
            too_long.result()
        self.assertEqual(ended.exception.unanswered, 1)

    def test_what_cannot_be_said(self):
        self.format()
        with self.start() as log:
            area = log.area("orders", largest=960)
            with self.assertRaises(clfs.LineTooLong):
                area.append(bytes(65530))
            for name in ("", "two words", "a\n1 reopen", "a\r"):
                with self.assertRaises(ValueError):
                    log.open(name)
            with self.assertRaises(ValueError):
                log.send(1, "info 1\n1 reopen")
            with self.assertRaises(clfs.NameInvalid) as refused:
                log.open("ordérs")
            self.assertEqual(refused.exception.at, 3)
            area.append(b"the area is still there")


class OnOtherPrograms(Folder):
    def test_each_refusal(self):
        fields = {"Lsn": (Lsn.parse("1:200:3"), "1:200:3"), "int": (7, "7")}
        for number in range(1, 30):
            cls = clfs.replies._REFUSALS[number]
            wanted = [fields[field.type] for field in clfs.replies.dataclasses.fields(cls)]
            client = 0 if cls is clfs.BadLine else 1
            log = self.answering(" ".join([f"{client} refused {number} {cls.__name__}", *(text for _, text in wanted)]) + "\n")
            with self.subTest(cls.__name__), self.assertRaises(cls) as refused:
                log.reopen()
            self.assertEqual([getattr(refused.exception, field.name) for field in clfs.replies.dataclasses.fields(cls)], [value for value, _ in wanted])
            log.close()

    def test_replies_that_the_language_does_not_have(self):
        for reply in UNKNOWN:
            log = self.answering(reply + "\n")
            with self.subTest(reply), self.assertRaises(clfs.UnknownReply):
                log.reopen()
            with self.assertRaises(clfs.UnknownReply):
                log.reopen()
        for reply in UNKNOWN_RECORDS:
            log = self.answering(reply + "\n")
            with self.subTest(reply), self.assertRaises(clfs.UnknownReply):
                clfs.Area(log, 1, 1, 1).read(0)
        for reply in UNKNOWN_LISTS:
            log = self.answering(reply + "\n")
            with self.subTest(reply), self.assertRaises(clfs.UnknownReply):
                log.extents()

    def test_a_reply_that_nobody_asked_for(self):
        log = self.answering("1 flushed 1:0:0\n1 flushed 1:0:0\n")
        log.reopen()
        with self.assertRaises(clfs.UnknownReply):
            log.reopen()

    def test_each_end(self):
        for status in (0, 1, 2, 3, 5, 70):
            log = self.ending(clfs.Log(self.room, program=self.program(f"read line\nexit {status}\n")))
            with self.subTest(status), self.assertRaises(clfs.Ended) as ended:
                log.reopen()
            self.assertEqual((ended.exception.status, ended.exception.signal, ended.exception.unanswered), (status, None, 1))
        for said, status, cls in (("disk fault", 4, clfs.DiskFailed), ("input too long", 7, clfs.InputTooLong), ("disk fault", 0, clfs.UnknownReply)):
            log = self.ending(clfs.Log(self.room, program=self.program(f"read line\necho '{said}'\nexit {status}\n")))
            with self.subTest(said), self.assertRaises(cls):
                log.reopen()

    def test_causes_on_standard_error(self):
        locked, folder = "echo 'clfs: locked: log: another process has the folder' >&2\n", "echo 'clfs: no folder: log: it is not there' >&2\n"
        fault, nothing = "echo 'disk fault'\nexit 4\n", "echo 'not a log: no open slot'\nexit 6\n"
        pieces = "printf 'building\nclfs: loc' >&2\nsleep 0.1\necho 'ked: log' >&2\necho more >&2\n"
        orphan = "sleep 3 >/dev/null &\nhead -c 20000 /dev/zero >&2\necho >&2\n"
        for text, cls in (
            (locked + fault, clfs.Locked),
            (locked + "exit 4\n", clfs.Locked),
            (pieces + fault, clfs.Locked),
            (orphan + locked + fault, clfs.Locked),
            ("echo 'clfs: no permission: log/c1: open: denied' >&2\n" + fault, clfs.NoPermission),
            (folder + nothing, clfs.NoFolder),
            (folder + fault, clfs.NoFolder),
            ("echo 'clfs: log/c1: read: clfs: locked: x' >&2\n" + fault, clfs.DiskFailed),
            (locked + nothing, clfs.NotALog),
            (locked + "exit 5\n", clfs.Ended),
            (locked + "kill -9 $$\n", clfs.Ended),
        ):
            with self.subTest(text), self.assertRaises(clfs.Ended) as ended:
                clfs.Log(self.room, program=self.shell(text), stderr=subprocess.DEVNULL)
            self.assertIs(type(ended.exception), cls)
        with self.assertRaises(clfs.Locked) as ended:
            clfs.format(self.room, block_sectors=2, container_sectors=8, containers=2, program=self.shell(locked + fault), stderr=subprocess.DEVNULL)
        self.assertEqual(str(ended.exception), "locked: another process has the folder (lines without a reply: 0)")

    def test_standard_error_that_nobody_reads(self):
        """A program that writes more to its standard error than pipes hold is served, though nobody reads there, or can."""
        noise = "head -c 300000 /dev/zero >&2\n"
        text = f"{noise}read line\n{noise}echo '1 flushed 1:0:0'\nread line\nexec >&-\n{noise}"
        for closed in (False, True):
            read, write = os.pipe()
            if closed:
                os.close(read)
            with self.subTest(closed), clfs.Log(self.room, program=self.program(text), stderr=write) as log:
                self.assertEqual(str(log.reopen()), "1:0:0")
            os.close(write)
            if not closed:
                os.close(read)

    def test_standard_error_goes_on(self):
        self.addCleanup(os.dup2, os.dup(2), 2)
        for own in (True, False):
            with tempfile.TemporaryFile() as told:
                if own:
                    os.dup2(told.fileno(), 2)
                log = clfs.Log(self.room, program=self.program("echo one >&2\nread line\necho two >&2\n"), stderr=None if own else told)
                log.close()
                told.seek(0)
                self.assertEqual(told.read(), b"one\ntwo\n")
        for wrong in (subprocess.PIPE, subprocess.STDOUT):
            with self.assertRaises(ValueError):
                clfs.Log(self.room, program=self.program(""), stderr=wrong)

    def test_half_a_reply(self):
        log = self.answering("1 flushed 1:0")
        pending = log.send(1, "reopen")
        log.push()
        time.sleep(0.2)
        log.kill()
        with self.assertRaises(clfs.Ended):
            pending.result()


UNKNOWN = """
1 flushed
1 flushed 1:0:0 1
1 flushed 01:0:0
1 flushed 1:100:0
1 flushed 1:0:200
1 flushed 1:0:A
1 flushed 100000000:0:0
1  flushed 1:0:0
2 flushed 1:0:0
0 flushed 1:0:0
1 lsn 1:0:0
1 ok
1
flushed 1:0:0
1 refused
1 refused 3
1 refused 3 Full 1 2 3
1 refused 5 Full 1 2
1 refused 5 Full 1 2 3 4
1 refused 5 Full 1 2 03
1 refused 5 Full 1 2 -3
1 refused 8 LinkInvalid 5
1 refused 30 Tired
1 refused 28 BadLine 0
0 refused 3 Broken
2 refused 3 Broken
not a log
""".split("\n")[:-1]

UNKNOWN_RECORDS = """
1 cursor 1
1 cursor record 1:0:0 data 0:0:0 0:0:0 0:0:0 61
1 cursor 1 record 1:0:0 note 0:0:0 0:0:0 0:0:0 61
1 cursor 1 record 1:0:0 data 0:0:0 0:0:0 61
1 cursor 1 record 1:0:0 data 0:0:0 0:0:0 0:0:0 6
1 cursor 1 record 1:0:0 data 0:0:0 0:0:0 0:0:0 6g
1 cursor 1 record 1:0:0 data 0:0:0 0:0:0 0:0:0 6A
1 cursor 1 record 1:0:0 data 0:0:0 0:0:0 0:0:0 61 61
""".split("\n")[1:-1]

UNKNOWN_LISTS = """
1 extents
1 extents 1
1 extents 2 1:0-200
1 extents 1 1:0
1 extents 1 1:0-0200
1 extents 1 1-0:200
1 extents 1 -1:0-200
1 extents 1 1:0--200
1 extents 1 1:0-100000000
""".split("\n")[1:-1]

if __name__ == "__main__":
    unittest.main()
