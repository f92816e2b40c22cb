"""Tests of connections to a service, on the program that CLFS names: CLFS=PATH python3 -m unittest test_service"""

import contextlib
import os
import signal
import stat
import subprocess
import sys
import threading
import time
import unittest

import clfs
from clfs import Lsn, Policy
from test_clfs import PROGRAM, Folder

FIRST = Lsn.parse("1:0:0")
# So long a test waits for what is to come, and so long to see that something doesn't.
A_WHILE, SHORT = 20, 0.3


class Room(Folder):
    """A test with a log and a place of its own."""

    def setUp(self):
        super().setUp()
        self.place = self.room / "place"
        self.door = self.place / "door"

    def serve(self, clients, **more):
        """A service over the log, which is made if it isn't there."""
        if not (self.room / "log").exists():
            self.format(2, 64, 4)
        service = clfs.Service(self.room / "log", self.place, clients=clients, program=PROGRAM, timeout=A_WHILE, **more)
        self.addCleanup(service.kill)
        return service

    def come(self, timeout=A_WHILE):
        return self.ending(clfs.connect(self.place, timeout))

    def names(self):
        return sorted(os.listdir(self.place))

    def records(self):
        """The data of the stream `orders`, read by a program of its own."""
        with self.start() as log:
            area = log.area("orders", largest=500)
            try:
                return [record.data for record in area.records(FIRST)]
            except clfs.RecordNonexistent:
                return []

    def in_child(self, work):
        """Runs this in a forked process, which ends with what it answers. It must be waited for by `status_of`."""
        child = os.fork()
        if child:
            self.addCleanup(self.end_child, child)
            return child
        status = 99
        try:
            signal.alarm(100)
            status = work()
        except BaseException:
            sys.excepthook(*sys.exc_info())
        finally:
            os._exit(status)

    def end_child(self, child):
        with contextlib.suppress(ChildProcessError, ProcessLookupError):
            os.kill(child, signal.SIGKILL)
            os.waitpid(child, 0)

    def status_of(self, child):
        return os.waitstatus_to_exitcode(os.waitpid(child, 0)[1])


def area_of(log, largest=500):
    return log.area("orders", largest=largest)


def descriptors():
    return set(os.listdir("/proc/self/fd"))


class OnAService(Room):
    def test_one_visit_after_the_other(self):
        before = descriptors()
        with self.serve(4):
            for data in (b"0", b"1", b"2"):
                with self.come() as log:
                    self.assertIn(log.number, range(1, 5))
                    self.assertEqual((log.pid, log.is_connection, log.timeout, log.is_over), (None, True, None, False))
                    area = area_of(log)
                    self.assertEqual((area.client, area.number), (log.number, 1))
                    area.append(data, flush=True)
                self.assertTrue(log.is_over)
                self.assertEqual(self.names(), ["door"])
        self.assertEqual(self.records(), [b"0", b"1", b"2"])
        self.assertEqual(len(descriptors()), len(before))

    def test_the_number_is_the_connections(self):
        with self.serve(4), self.come() as log:
            own, other = log.number, log.number + 1
            stream = log.open("orders")
            area = log.area(stream, largest=500, client=own)
            self.assertEqual((log.open("orders", client=own), area.client, log.info(stream).containers), (stream, own, 4))
            for call in (
                lambda: log.open("orders", client=other),
                lambda: log.area(stream, largest=500, client=other),
                lambda: log.info(stream, client=other),
                lambda: log.archive(True, client=other),
                lambda: log.tail(clfs.NULL, client=other),
                lambda: log.extents(client=other),
                lambda: log.policy(Policy.AUTOMATIC, client=other),
                lambda: log.unpolicy(Policy.AUTOMATIC, client=other),
                lambda: log.size(2, client=other),
                lambda: log.send(other, "info 1"),
                lambda: clfs.Area(log, other, 1, 1).append(b"never", flush=True),
                lambda: clfs.Area(log, 65, 1, 1).flush(),
            ):
                with self.assertRaises(ValueError):
                    call()
                self.assertEqual(log.under_way, 0)
            self.assertEqual(log.send(own, "info 1").result()[0], "info")
            with self.assertRaises(clfs.BadLine):
                log.reopen()
        self.assertEqual(self.records(), [])

    def test_a_program_has_its_numbers_as_ever(self):
        self.format()
        with self.start() as log:
            self.assertEqual((log.number, log.is_connection), (1, False))
            area = log.area("orders", largest=500, client=9)
            pending = area.send_append(b"one line", flush=True)
            self.assertEqual((area.client, log.under_way), (9, 1))
            pending.result()

    def test_several_at_a_time(self):
        with self.serve(3):
            logs = [self.come() for _ in range(3)]
            self.assertEqual(sorted(log.number for log in logs), [1, 2, 3])
            sent = []
            for log in logs:
                area = area_of(log)
                sent.append([area.send_append(b"x", flush=True) for _ in range(10)])
                self.assertEqual(log.under_way, 20)
                log.push()
            lsns = {pending.result() for of_one in sent for pending in of_one}
            self.assertEqual((len(lsns), [log.under_way for log in logs]), (30, [0, 0, 0]))
            for log in logs:
                log.close()
        self.assertEqual(len(self.records()), 30)

    def test_sixty_four_at_a_time(self):
        with self.serve(64):
            logs = [self.come() for _ in range(64)]
            self.assertEqual(sorted(log.number for log in logs), list(range(1, 65)))
            with self.assertRaises(clfs.NoFreeNumber):
                clfs.connect(self.place, SHORT)
            for log in logs:
                area_of(log).send_append(b"%d" % log.number, flush=True)
                log.push()
            for log in logs:
                log.close()
        self.assertEqual(sorted(map(int, self.records())), list(range(1, 65)))

    def test_no_service(self):
        def none(timeout=A_WHILE):
            began = time.monotonic()
            with self.assertRaises(clfs.NoService):
                clfs.connect(self.place, timeout)
            self.assertLess(time.monotonic() - began, 1)

        before = descriptors()
        none()
        self.place.mkdir()
        none()
        for content in (b"a file", b""):
            self.door.write_bytes(content)
            none()
            self.assertEqual(self.door.read_bytes(), content)
        self.door.unlink()
        self.door.mkdir()
        none()
        self.door.rmdir()
        os.mkfifo(self.door)
        none()
        none(None)
        self.assertEqual((self.names(), len(descriptors())), (["door"], len(before)))

    def test_no_free_number(self):
        with self.serve(1):
            log = self.come()
            before = descriptors()
            for timeout in (0, SHORT):
                began = time.monotonic()
                with self.assertRaises(clfs.NoFreeNumber):
                    clfs.connect(self.place, timeout)
                self.assertGreaterEqual(time.monotonic() - began, timeout)
                self.assertLess(time.monotonic() - began, timeout + 5)
                self.assertEqual((self.names(), len(descriptors())), (["door"], len(before)))
            log.close()
            self.come().close()
            self.assertEqual(self.names(), ["door"])

    def test_a_full_door(self):
        """So many names wait that the door takes no more."""
        self.place.mkdir()
        os.mkfifo(self.door)
        reader = os.open(self.door, os.O_RDWR | os.O_NONBLOCK)
        self.addCleanup(os.close, reader)
        with contextlib.suppress(BlockingIOError):
            while True:
                os.write(reader, b"name\n" * 100)
        with contextlib.suppress(BlockingIOError):
            while True:
                os.write(reader, b"\n")
        with self.assertRaises(clfs.NoFreeNumber):
            clfs.connect(self.place, SHORT)
        self.assertEqual(self.names(), ["door"])

    def test_one_that_waits_comes_in(self):
        with self.serve(1):
            log = self.come()
            came = []
            thread = threading.Thread(target=lambda: came.append(self.come()))
            thread.start()
            thread.join(SHORT)
            self.assertTrue(thread.is_alive())
            log.close()
            thread.join(A_WHILE)
            self.assertEqual([log.number for log in came], [1])
            came[0].close()

    def test_the_rights_of_the_door(self):
        self.place.mkdir()
        os.mkfifo(self.door)
        self.door.chmod(0o660)
        reader = os.open(self.door, os.O_RDWR | os.O_NONBLOCK)
        self.addCleanup(os.close, reader)
        self.addCleanup(os.umask, os.umask(0o777))
        thread = threading.Thread(target=lambda: self.assertRaises(clfs.NoFreeNumber, clfs.connect, self.place, 2 * SHORT))
        thread.start()
        time.sleep(SHORT)
        modes = [os.stat(self.place / name).st_mode for name in self.names()]
        thread.join()
        self.assertEqual(modes, [stat.S_IFIFO | 0o660] * 3)
        self.assertEqual(self.names(), ["door"])

    def test_the_door_that_is_made(self):
        """It is this user's alone, and one that was there stays as it is."""
        self.serve(1).stop()
        self.assertEqual(stat.S_IMODE(os.stat(self.door).st_mode), 0o600)
        self.door.chmod(0o620)
        self.serve(1).stop()
        self.assertEqual(stat.S_IMODE(os.stat(self.door).st_mode), 0o620)

    def test_programs_that_die(self):
        def work():
            area = area_of(clfs.connect(self.place, A_WHILE))
            area.append(b"told", flush=True)
            area.send_append(b"under way", flush=True)
            area._log.push()
            return 7

        with self.serve(1):
            self.assertEqual([self.status_of(self.in_child(work)) for _ in range(20)], [7] * 20)
            with self.come() as log:
                self.assertEqual(area_of(log).number, 1)
        self.assertEqual(self.records().count(b"told"), 20)

    def test_an_append_that_is_refused(self):
        with self.serve(2), self.come() as log:
            area = area_of(log, largest=10)
            waits = area.append(b"waits")
            self.assertLessEqual(log.info(area.stream).flushed, waits)
            with self.assertRaises(clfs.RecordTooLong) as refused:
                area.append(b"more than ten bytes", flush=True)
            self.assertEqual(refused.exception.length, 19)
            self.assertGreater(log.info(area.stream).flushed, waits)
            with self.assertRaises(clfs.NoSuchArea):
                clfs.Area(log, log.number, 2, area.stream).append(b"", flush=True)
            with self.assertRaises(clfs.LineTooLong):
                area.append(bytes(70_000), flush=True)
            self.assertEqual(log.under_way, 0)
            self.assertGreater(area.append(b"fits", seal=True, flush=True, hold=[5]), waits)
            self.assertGreater(area.append(b"held", reserved=True, flush=True), waits)

    def test_both_pipes_full(self):
        """Lines and replies fill both pipes: who only writes, or only reads, waits for ever."""
        self.format(128, 1024, 4)
        with self.serve(1), self.come() as log:
            area = log.area("orders", largest=64000, reads=16)
            data = os.urandom(30000)
            first = area.append(data)
            reads = [area.send_read(first) for _ in range(8)]
            appends = [area.send_append(data, flush=True) for _ in range(8)]
            self.assertTrue(all(read.result()[1].data == data for read in reads))
            self.assertTrue(all(append.result() > first for append in appends))

    def test_a_service_that_is_killed(self):
        service = self.serve(1)
        log = self.come()
        area = area_of(log)
        area.append(b"told", flush=True)
        told = []
        thread = threading.Thread(target=lambda: told.append(self.assertRaises(clfs.NoService, clfs.connect, self.place, A_WHILE)))
        thread.start()
        time.sleep(SHORT)
        self.assertTrue(thread.is_alive())
        began = time.monotonic()
        service.kill()
        thread.join(A_WHILE)
        self.assertLess(time.monotonic() - began, 1)
        self.assertTrue(log.is_over)
        with self.assertRaises(clfs.ServiceEnded) as ended:
            area.append(b"never", flush=True)
        self.assertEqual((ended.exception.status, ended.exception.signal, ended.exception.unanswered), (None, None, 2))
        self.assertEqual(str(ended.exception), "the service has ended (lines without a reply: 2)")
        with self.assertRaises(clfs.ServiceEnded):
            area.flush()
        log.close()
        with self.assertRaises(clfs.Closed):
            area.flush()
        with self.assertRaises(clfs.NoService):
            clfs.connect(self.place)
        service = self.serve(1)
        with self.come() as log:
            self.assertEqual(area_of(log).number, 1)
        service.stop()
        self.assertEqual(self.records(), [b"told"])

    def test_closing_after_a_service_that_is_killed(self):
        """It is done; what wasn't answered is told at its own result."""
        service = self.serve(1)
        log = self.come()
        area = area_of(log)
        os.kill(service.pid, signal.SIGSTOP)
        pending = area.send_append(b"never", flush=True)
        log.push()
        service.kill()
        log.close()
        with self.assertRaises(clfs.ServiceEnded) as ended:
            pending.result()
        self.assertEqual(ended.exception.unanswered, 2)
        log.close()
        self.assertEqual(self.records(), [])

    def test_a_visit_that_is_killed(self):
        with self.serve(1):
            log = self.come()
            area = area_of(log)
            area.append(b"told", flush=True)
            log.kill()
            log.kill()
            self.assertTrue(log.is_over)
            # (the visit ends though nobody closes the handle)
            with self.come() as again:
                self.assertEqual(area_of(again).number, 1)
            with self.assertRaises(clfs.Ended) as ended:
                area.append(b"never", flush=True)
            self.assertNotIsInstance(ended.exception, clfs.ServiceEnded)
            self.assertIn("this side has ended the connection", str(ended.exception))
            log.close()
            log = self.come()
            log.kill()
            log.close()
        self.assertEqual(self.records(), [b"told"])

    def test_a_kill_of_another_threads_call(self):
        service = self.serve(1)
        log = self.come()
        os.kill(service.pid, signal.SIGSTOP)
        thread = threading.Thread(target=lambda: self.assertRaises(clfs.Ended, log.open, "orders"))
        thread.start()
        time.sleep(SHORT)
        self.assertTrue(thread.is_alive())
        log.kill()
        thread.join(A_WHILE)
        self.assertFalse(thread.is_alive())
        log.close()

    def test_a_call_that_takes_too_long(self):
        service = self.serve(1)
        log = self.come()
        area = area_of(log)
        area.append(b"kept", flush=True)
        log.timeout = SHORT
        os.kill(service.pid, signal.SIGSTOP)
        for _ in range(2):
            with self.assertRaises(clfs.TimedOut):
                area.append(b"x", flush=True)
        log.close()
        os.kill(service.pid, signal.SIGCONT)
        with self.come() as again:
            self.assertEqual(area_of(again).record(FIRST).data, b"kept")

    def test_a_stop_waits_for_those_inside(self):
        service = self.serve(4)
        log = self.come()
        with self.assertRaises(clfs.TimedOut):
            service.stop(SHORT)
        area_of(log).append(b"after the stop", flush=True)
        log.close()
        service.stop(A_WHILE)
        service.stop()
        with self.assertRaises(clfs.NoService):
            clfs.connect(self.place)
        self.assertEqual(self.records(), [b"after the stop"])

    def test_no_signal_is_raised(self):
        """A write to a pipe that nobody reads raises a signal, by default deadly. A caller that wants it gets it for its own pipes alone."""
        raised = []
        for handler in (signal.SIG_DFL, lambda number, frame: raised.append(number)):
            service = self.serve(1)
            log = self.come()
            area = area_of(log)
            service.kill()
            before = signal.signal(signal.SIGPIPE, handler)
            try:
                with self.assertRaises(clfs.ServiceEnded):
                    area.append(b"never", flush=True)
                self.assertEqual((raised, signal.SIGPIPE in signal.sigpending()), ([], False))
            finally:
                signal.signal(signal.SIGPIPE, before)
            log.close()

    def test_what_is_left_open_is_told(self):
        with self.serve(1):
            with self.assertWarns(ResourceWarning):
                clfs.connect(self.place, A_WHILE)
            self.come().close()


class Forks(Room):
    def test_a_child_that_was_forked(self):
        """It can't use the connection and doesn't keep the visit."""
        with self.serve(1):
            log = self.come()
            area = area_of(log)
            pending = area.send_append(b"of the parent")
            held, holds = os.pipe()

            def work():
                os.close(holds)
                for call in (pending.result, area.flush, log.kill, lambda: log.open("orders")):
                    with self.assertRaises(clfs.OtherProcess):
                        call()
                log.close()
                os.read(held, 1)
                return 7

            child = self.in_child(work)
            area.flush()
            log.close()
            self.come().close()
            self.assertEqual(os.waitpid(child, os.WNOHANG), (0, 0))
            os.close(holds)
            os.close(held)
            self.assertEqual(self.status_of(child), 7)
        self.assertEqual(self.records(), [b"of the parent"])

    def test_a_fork_while_another_thread_waits_at_the_door(self):
        """The child keeps no pipe of the visit, so it ends with the parent's."""
        with self.serve(1):
            log = self.come()
            before = descriptors()
            came = []
            thread = threading.Thread(target=lambda: came.append(self.come()))
            thread.start()
            time.sleep(SHORT)
            self.assertGreater(len(descriptors()), len(before))
            child = self.in_child(lambda: time.sleep(A_WHILE) or len(descriptors()))
            log.close()
            thread.join(A_WHILE)
            came[0].close()
            self.come(timeout=5).close()
            self.end_child(child)

    def test_forks_while_other_threads_come_and_go(self):
        """No child has a descriptor of a connection, whatever its parent's threads are doing."""
        with self.serve(4):
            is_over = threading.Event()
            errors = []

            def come_and_go():
                try:
                    while not is_over.is_set():
                        with clfs.connect(self.place, A_WHILE) as log:
                            log.open("orders")
                except BaseException as error:
                    errors.append(error)

            pipes = f"{self.place}/"
            own = {descriptor for descriptor in descriptors()}

            def work():
                # (pipes alone: the door and those of visits, whose names are gone, and those by which a wait is ended)
                found = [os.readlink(f"/proc/self/fd/{one}") for one in descriptors() - own if os.path.exists(f"/proc/self/fd/{one}")]
                return 1 if any(target.startswith((pipes, "pipe:")) for target in found) else 7

            threads = [threading.Thread(target=come_and_go) for _ in range(4)]
            for thread in threads:
                thread.start()
            statuses = [self.status_of(self.in_child(work)) for _ in range(50)]
            is_over.set()
            for thread in threads:
                thread.join()
            self.assertEqual((statuses, errors), ([7] * 50, []))

    def test_a_handler_of_a_signal_that_forks_at_the_door(self):
        """Its child is told that the connection isn't its own, and leaves the pipes of its parent alone."""
        with self.serve(1):
            log = self.come()
            found = []

            def handler(number, frame):
                found.append(os.fork())
                if found[0] == 0:
                    signal.alarm(10)
                else:
                    log.close()

            self.addCleanup(signal.signal, signal.SIGUSR1, signal.signal(signal.SIGUSR1, handler))
            threading.Timer(SHORT, os.kill, (os.getpid(), signal.SIGUSR1)).start()
            try:
                came = clfs.connect(self.place, A_WHILE)
            except BaseException as error:
                os._exit(7 if found == [0] and isinstance(error, clfs.OtherProcess) else 1)
            if found == [0]:
                os._exit(2)
            came.close()
            self.assertEqual(self.status_of(found[0]), 7)
            self.come().close()

    def test_a_child_leaves_the_service_alone(self):
        with self.serve(1) as service:

            def work():
                for call in (service.stop, service.kill):
                    with self.assertRaises(clfs.OtherProcess):
                        call()
                service.__exit__(None, None, None)
                return 7

            self.assertEqual(self.status_of(self.in_child(work)), 7)
            self.come().close()


class Services(Room):
    def test_why_it_does_not_begin(self):
        with self.assertRaises(clfs.NoFolder):
            clfs.Service(self.room / "none", self.place, clients=1, program=PROGRAM, stderr=subprocess.DEVNULL)
        with self.serve(1):
            with self.assertRaises(clfs.Locked):
                self.serve(1, stderr=subprocess.DEVNULL)
            self.come().close()
        for clients in (0, 65):
            with self.assertRaises(clfs.Ended) as ended:
                self.serve(clients, stderr=subprocess.DEVNULL)
            self.assertEqual(ended.exception.status, 1)
        self.door.unlink()
        self.door.write_bytes(b"precious")
        with self.assertRaises(clfs.Ended) as ended:
            self.serve(1, stderr=subprocess.DEVNULL)
        self.assertEqual((ended.exception.status, self.door.read_bytes()), (18, b"precious"))
        self.assertIn("no program could come", str(ended.exception))

    def test_other_programs(self):
        before = descriptors()
        for text, error in (("echo what\n", clfs.UnknownReply), ("exec sleep 20\n", clfs.TimedOut), ("exit 3\n", clfs.Ended), ("echo disk fault\n", clfs.UnknownReply)):
            with self.subTest(text), self.assertRaises(error):
                clfs.Service(self.room, self.place, clients=1, program=self.shell(text), timeout=1)
        self.assertEqual(len(descriptors()), len(before))
        # One that ends otherwise than by a stop tells so.
        service = clfs.Service(self.room, self.place, clients=1, program=self.shell("echo ready\nexit 4\n"))
        with self.assertRaises(clfs.Ended) as ended:
            service.stop()
        self.assertEqual(ended.exception.status, 4)
        service.kill()

    def test_it_is_killed_after_an_exception(self):
        with self.assertRaises(KeyError):
            with self.serve(1) as service:
                log = self.come()
                raise KeyError
        with self.assertRaises(ProcessLookupError):
            os.kill(service.pid, 0)
        log.close()

    def test_standard_error_goes_on(self):
        """Also more of it than a pipe holds."""
        told = self.room / "told"
        with open(told, "wb") as file, self.serve(1, stderr=file):
            door = os.open(self.door, os.O_WRONLY)
            for _ in range(3000):
                os.write(door, b"no name\n")
            os.close(door)
            self.come().close()
        self.assertEqual(told.read_bytes().count(b"/door: a line is no name\n"), 3000)


class Pairs(Room):
    def make_pipes(self, *names):
        for name in names:
            os.mkfifo(self.room / name)
        return [self.room / name for name in names]

    def test_pairs(self):
        self.format(2, 64, 4)
        paths = self.make_pipes("in1", "out1", "in2", "out2")
        before = descriptors()
        with self.assertRaises(clfs.NoService):
            clfs.attach(1, paths[0], paths[1], SHORT)
        for at in (0, 1):
            with self.assertRaises(FileNotFoundError):
                clfs.attach(1, *[self.room / "none" if at == place else paths[place] for place in (0, 1)], SHORT)
        for number in (0, 65, -1):
            with self.assertRaises(ValueError):
                clfs.attach(number, paths[0], paths[1], SHORT)
        self.assertEqual(len(descriptors()), len(before))
        share = subprocess.Popen([PROGRAM, self.room / "log", "share", *paths])
        self.addCleanup(share.wait)
        self.addCleanup(share.kill)
        logs = [self.ending(clfs.attach(number, *paths[2 * number - 2 : 2 * number], timeout=A_WHILE)) for number in (1, 2)]
        for log in logs:
            area = area_of(log)
            self.assertEqual((area.client, log.number), (logs.index(log) + 1,) * 2)
            area.append(b"%d" % log.number, flush=True)
        for log in logs:
            log.close()
        self.assertEqual((share.wait(), self.records()), (0, [b"1", b"2"]))

    def test_what_is_no_pipe(self):
        lines, replies = self.make_pipes("in", "out")
        file = self.room / "file"
        file.write_bytes(b"precious")
        for pair in ((file, replies), (lines, file), (file, file)):
            with self.assertRaises(clfs.NoService):
                clfs.attach(1, *pair, timeout=SHORT)
        self.assertEqual(file.read_bytes(), b"precious")

    def test_a_service_that_ends_between_its_two_opens(self):
        """It has opened the pipe of the lines, and never that of the replies."""
        lines, replies = self.make_pipes("in", "out")
        reader = []
        thread = threading.Thread(target=lambda: reader.append(os.open(lines, os.O_RDONLY)))
        thread.start()
        threading.Timer(SHORT, lambda: os.close(reader[0])).start()
        began = time.monotonic()
        with self.assertRaises(clfs.NoService):
            clfs.attach(1, lines, replies, A_WHILE)
        self.assertLess(time.monotonic() - began, 5)
        thread.join()

    def serve_pair(self, says, call):
        """What a call answers at a pair of pipes whose service says this once the empty line has come, and which lines come then in one piece."""
        lines, replies = self.make_pipes("in", "out")
        got = []

        def work():
            with open(lines, "rb", buffering=0) as source, open(replies, "wb", buffering=0) as sink:
                got.append(source.read(1))
                sink.write(says)
                got.append(source.read(1 << 12))

        thread = threading.Thread(target=work)
        thread.start()
        try:
            return call(lines, replies), got
        finally:
            thread.join()
            lines.unlink()
            replies.unlink()

    def test_what_is_written_and_said(self):
        """An append with its flush is two lines in one write, and is answered with the second one."""

        def call(lines, replies):
            log = clfs.attach(7, lines, replies, A_WHILE)
            try:
                return clfs.Area(log, 7, 1, 1).append(b"x", flush=True)
            except clfs.ClfsError as error:
                return error
            finally:
                log.close()

        met, wanted = b"0 refused 28 BadLine 0\n", [b"\n", b"7 append 1 78 0:0:0 0:0:0\n7 flush 1\n"]
        answer, got = self.serve_pair(met + b"7 lsn 1:0:0\n7 flushed 1:200:0\n", call)
        self.assertEqual((answer, got), (FIRST, wanted))
        for says, error in (
            (b"7 lsn 1:0:0\n7 refused 2 DiskFault\n", clfs.DiskFault),
            (b"7 refused 10 NoSuchArea\n7 refused 2 DiskFault\n", clfs.NoSuchArea),
            (b"7 refused 10 NoSuchArea\n7 flushed 1:200:0\n", clfs.NoSuchArea),
            (b"7 lsn 1:0:0\n", clfs.ServiceEnded),
            (b"7 lsn 1:0:0\n7 lsn 1:0:0\n", clfs.UnknownReply),
            (b"7 lsn 1:0:0\n8 flushed 1:200:0\n", clfs.UnknownReply),
            (b"7 lsn 1:0:0\ndisk fault\n", clfs.UnknownReply),
            (b"7 lsn 1:0:0\ninput too long\n", clfs.InputTooLong),
        ):
            with self.subTest(says):
                answer, got = self.serve_pair(met + says, call)
                self.assertEqual((type(answer), got), (error, wanted))
                self.assertEqual(getattr(answer, "unanswered", 1), 1)

    def test_another_first_reply(self):
        for says in (b"a door of another kind\n", b"1 refused 28 BadLine 0\n", b"x" * 300, b"\xff\n"):

            def call(lines, replies):
                with self.assertRaises(clfs.UnknownReply):
                    clfs.attach(7, lines, replies, A_WHILE)

            with self.subTest(says):
                self.serve_pair(says, call)

    def test_another_greeting(self):
        """A door that somebody else reads."""
        for says in (b"client\n", b"0 client\n", b"65 client\n", b"01 client\n", b"1 client \n", b"1 ok\n"):
            self.place.mkdir(exist_ok=True)
            with contextlib.suppress(FileExistsError):
                os.mkfifo(self.door)
            door = os.open(self.door, os.O_RDWR)

            def work():
                name = os.read(door, 100).decode().rstrip("\n")
                with open(self.place / f"{name}.out", "wb", buffering=0) as sink:
                    sink.write(says)

            thread = threading.Thread(target=work)
            thread.start()
            with self.subTest(says), self.assertRaises(clfs.UnknownReply):
                clfs.connect(self.place, A_WHILE)
            thread.join()
            os.close(door)
            self.assertEqual(self.names(), ["door"])


class Pools(Room):
    def pool(self, size, **more):
        pool = clfs.Pool(self.place, size=size, timeout=A_WHILE, **more)
        self.addCleanup(pool.close)
        return pool

    def test_a_pool_for_threads(self):
        with self.serve(3):
            made = []

            def prepare(log):
                made.append(log.number)
                return area_of(log)

            with self.pool(3, prepare=prepare) as pool:

                def work(number):
                    for count in range(20):
                        with pool.lend() as orders:
                            orders.append(b"%d %d" % (number, count), flush=True)

                threads = [threading.Thread(target=work, args=(number,)) for number in range(8)]
                for thread in threads:
                    thread.start()
                for thread in threads:
                    thread.join()
            self.assertLessEqual(len(made), 3)
        self.assertEqual(sorted(self.records()), sorted(b"%d %d" % (number, count) for number in range(8) for count in range(20)))

    def test_at_most_so_many_are_lent(self):
        with self.serve(3), self.pool(2) as pool:
            with pool.lend() as first, pool.lend() as second:
                self.assertNotEqual(first.number, second.number)
                lent = []

                def work():
                    with pool.lend() as third:
                        lent.append(third)

                thread = threading.Thread(target=work)
                thread.start()
                thread.join(SHORT)
                self.assertTrue(thread.is_alive())
            thread.join(A_WHILE)
            self.assertIn(lent[0], (first, second))
        with self.assertRaises(ValueError):
            clfs.Pool(self.place, size=0)

    def test_after_a_service_that_was_killed(self):
        """Those that have ended are thrown away, also idle ones, and areas are made anew."""
        service = self.serve(4)
        pool = self.pool(2, prepare=area_of)
        with pool.lend() as first, pool.lend() as second:
            first.append(b"before", flush=True)
            service.kill()
            with self.assertRaises(clfs.ServiceEnded):
                second.append(b"meanwhile", flush=True)
        with self.assertRaises(clfs.NoService), pool.lend():
            self.fail("there is no service")
        service = self.serve(4)
        with pool.lend() as orders, pool.lend() as more:
            orders.append(b"after", flush=True)
        service.kill()
        service = self.serve(4)
        for _ in range(2):
            with pool.lend() as orders:
                orders.append(b"last", flush=True)
        self.assertTrue(first._log.is_over and more._log.is_over)
        pool.close()
        service.stop()
        self.assertEqual(self.records(), [b"before", b"after", b"last", b"last"])

    def test_a_preparation_that_fails(self):
        before = descriptors()
        with self.serve(1):
            pool = self.pool(1, prepare=lambda log: log.area(9, largest=500))
            for _ in range(3):
                with self.assertRaises(clfs.NoSuchStream), pool.lend():
                    self.fail("nothing was prepared")
            self.come().close()
        self.assertEqual(len(descriptors()), len(before))

    def test_a_block_that_fails(self):
        """Its connection is lent again, unless it may have been interrupted in a call."""
        with self.serve(2), self.pool(1) as pool:
            for error, is_same in ((KeyError, True), (KeyboardInterrupt, False)):
                with self.assertRaises(error), pool.lend() as log:
                    raise error
                with pool.lend() as again:
                    self.assertEqual(again is log, is_same)

    def test_a_pool_that_is_closed(self):
        with self.serve(1):
            pool = self.pool(1)
            with pool.lend() as log:
                told = []

                def work():
                    try:
                        with pool.lend():
                            told.append(None)
                    except clfs.Closed as error:
                        told.append(error)

                thread = threading.Thread(target=work)
                thread.start()
                time.sleep(SHORT)
                pool.close()
                thread.join(A_WHILE)
                self.assertIsInstance(told[0], clfs.Closed)
                log.open("orders")
            self.assertTrue(log.is_over)
            with self.assertRaises(clfs.Closed), pool.lend():
                self.fail("the pool is closed")

    def test_a_child_that_was_forked(self):
        """It has connections of its own, also while all of the parent's are lent."""
        with self.serve(2), self.pool(1, prepare=area_of) as pool:
            with pool.lend() as orders:

                def work():
                    with pool.lend() as own:
                        own.append(b"of the child", flush=True)
                    with self.assertRaises(clfs.OtherProcess):
                        orders.flush()
                    return 7

                self.assertEqual(self.status_of(self.in_child(work)), 7)
                orders.append(b"of the parent", flush=True)
        self.assertEqual(self.records(), [b"of the child", b"of the parent"])


if __name__ == "__main__":
    unittest.main()
