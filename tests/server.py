#!/usr/bin/env python3
"""Tests of `client/buncocedar/server.py`: with a program that misbehaves as told, and with the real one.

usage: tests/server.py [--program PATH]

Without --program the tests of the real program are left out, and that is said.
"""

import asyncio
import contextlib
import json
import os
import random
import signal
import socket
import stat
import subprocess
import sys
import tempfile
import threading
import time
import unittest
import unittest.mock

# It lets the others find the client of the checkout.
from support import BUNCO, PATIENCE, run_tests, until  # isort: skip

import buncocedar
import fake
from buncocedar import AsyncIndex, Index, InUse, copying
from buncocedar.beside import give_rights
from buncocedar.fileformat import HEAD, level_count
from buncocedar.links import server_path
from buncocedar.server import IDLE_SECONDS, LEVELS_KEPT, LINES_AHEAD, Server, Stopped, batches

FAKE = fake.installed()
MEMORY = "/dev/shm" if os.access("/dev/shm", os.W_OK) else None  # where a sync takes no time


class Case(unittest.TestCase):
    program = FAKE

    def setUp(self):
        if self.program is None:
            self.skipTest("no program")
        folder = tempfile.TemporaryDirectory(dir=MEMORY)
        self.addCleanup(folder.cleanup)
        self.folder = folder.name
        self.path = os.path.join(self.folder, "x.alta")
        self.socket = self.path + ".socket"

    def serve(self, files=None, **do):
        """A server of the index that listens, and may have no more files than this open at a time."""
        words = [sys.executable, BUNCO, "serve", self.path, "--create"]
        limited = ["sh", "-c", f'ulimit -n {files} && exec "$@"', "sh"] if files else []
        server = subprocess.Popen(
            limited + words,
            env={**os.environ, "BUNCOCEDAR_PROGRAM": self.program, "FAKE": json.dumps(do)},
            stderr=subprocess.PIPE,
            text=True,
        )
        self.addCleanup(self.end, server)
        self.assertIn("listening at", server.stderr.readline())
        return server

    def end(self, server):
        """Asks the server to end, and answers its status and what it said."""
        if server.poll() is None:
            server.send_signal(signal.SIGTERM)
        said = "" if server.stderr.closed else server.communicate(timeout=PATIENCE)[1]
        return server.wait(PATIENCE), said

    def index(self, **options):
        return Index(self.path, program=self.program, patience=PATIENCE, **options)

    def raw(self):
        """A connection that speaks the lines itself."""
        connection = socket.socket(socket.AF_UNIX)
        self.addCleanup(connection.close)
        connection.settimeout(PATIENCE)
        connection.connect(self.socket)
        return connection


class Lines(Case):
    def test_two_clients(self):
        server = self.serve()
        with self.index() as one, self.index() as other:
            self.assertEqual(one.add("a", "Red Fox", "the quick red fox"), 1)
            self.assertEqual(other.add("b", "", "fox"), 2)
            for index in (one, other):
                self.assertEqual(list(index.search("fox")), [(1, "a"), (2, "b")])
                self.assertEqual(index.count("red"), 1)
                self.assertEqual(list(index.search("zebra")), [])
                self.assertEqual(index.explain("fox"), '"fox"\nfound D Wfox\n  x1 <= x0')
                self.assertEqual(index.stats(), (2, 7, 3))
                self.assertIsNone(index.flush())
                self.assertIsNone(index.step(10))
                self.assertIsNone(index.merge())
            with self.assertRaises(buncocedar.NoSuchDocument):
                other.delete("zz")
            with self.assertRaises(buncocedar.QueryFault) as raised:
                one.search("fault 8 Paren )")
            self.assertEqual((raised.exception.place, raised.exception.cause), (8, "Paren"))
            with self.assertRaises(buncocedar.QueryFault):
                one.explain("fault 8 Paren )")
            self.assertEqual(other.delete("a"), 1)
            self.assertEqual(one.add_many((f"n{i}", "", "fox") for i in range(500)), (500, []))
            self.assertEqual(other.stats().documents, 501)
        self.assertEqual(self.end(server), (0, ""))
        self.assertFalse(os.path.exists(self.socket))
        with self.index() as index:
            self.assertEqual(index.stats().documents, 501)

    def test_large_answers(self):
        self.serve()
        with self.index() as index:
            self.assertEqual(index.add_many((f"n{i}", "", "x") for i in range(3500)), (3500, []))
            rows = index.search("x")
            self.assertEqual(next(rows), (1, "n0"))
            self.assertEqual(index.count("x"), 3500)
            self.assertEqual(len(list(rows)), 3499)
            # Where all cursors are taken, a search is answered at once.
            cursors = [index.cursor("x") for _ in range(64)]
            self.assertEqual(len(list(index.search("x"))), 3500)
            with self.assertRaises(buncocedar.TooManyCursors):
                index.cursor("x")
            cursors[0].close()
            self.assertEqual(len(list(index.search("x"))), 3500)

    def test_the_best_answers(self):
        self.serve()
        with self.index() as one, self.index() as other:
            one.add("a", "Red Fox", "the quick red fox")
            one.add("b", "", "fox")
            self.assertEqual(other.top("fox", 1), ([(1, "a", 5)], 2))
            with self.assertRaises(buncocedar.QueryFault):
                other.top("fault 8 Paren )", 1)

    def test_words_again(self):
        self.serve()
        with self.index() as one, self.index() as other:
            one.add("a", "Red Fox", "the quick red fox")
            one.add("b", "", "fox")
            self.assertEqual(list(other.dump()), [("a", "red fox", "the quick red fox"), ("b", "", "fox")])
            # Of one that reads none of its dump nobody has to wait.
            self.assertEqual(one.add_many((f"n{i}", "", "word " * 100) for i in range(3_000)), (3_000, []))
            slow = self.raw()
            slow.sendall(b"dump\n" * 3)
            self.assertEqual(len(list(other.dump())), 3_002)
            slow.shutdown(socket.SHUT_WR)
            lines = slow.makefile("rb").read().split(b"\n")
            self.assertEqual(lines[3_002::3_003], [b"dumped 3002"] * 3)
            # What is no dump is refused as by the program.
            wrong = self.raw()
            wrong.sendall(b"dump x\ndump " + b"x" * buncocedar.LINE_LIMIT + b"\ndump\n")
            wrong.shutdown(socket.SHUT_WR)
            self.assertEqual(wrong.makefile("rb").read().split(b"\n")[:3], [b"! bad line", b"! line too long", b"add a\tred fox\tthe quick red fox"])

    def test_cursors_are_of_their_client(self):
        self.serve()
        with self.index() as one, self.index() as other:
            one.add_many((name, "", "x") for name in "abc")
            cursor = one.cursor("x")
            stray = buncocedar.Cursor(other, cursor.number)
            for call in (lambda: stray.page(1), stray.close):
                with self.assertRaises(buncocedar.NoSuchCursor):
                    call()
            self.assertEqual(cursor.page(2), ([(1, "a"), (2, "b")], True))
            cursor.close()
            with self.assertRaises(buncocedar.NoSuchCursor):
                cursor.page(1)
            # They end with their client, and so do those of a search that is left.
            rows = other.search("x")
            next(rows)
            for _ in range(63):
                other.cursor("x")
            other.kill()
            cursors = []

            def opens():
                with contextlib.suppress(buncocedar.TooManyCursors):
                    cursors.append(one.cursor("x"))
                return len(cursors) == 64

            until(opens)

    def test_lines_as_they_may_come(self):
        self.serve()
        connection = self.raw()
        file = connection.makefile("rb")
        for line, reply in [
            (b"add a\t\tx", b"added 1"),
            (b"what", b"! unknown command"),
            (b"\xff", b"! not UTF-8"),
            (b"", b"! unknown command"),
            (b"search " + b"x" * 262_136, b"found 0"),
            (b"search " + b"x" * 262_137, b"! line too long"),
            (b"add b\t\t" + b"x" * 1_000_000, b"! line too long"),
            (b"count x", b"found 1"),
        ]:
            connection.sendall(line + b"\n")
            self.assertEqual(file.readline(), reply + b"\n")
        # A line that is broken off is none.
        connection.sendall(b"count x\nadd b\t\tx")
        connection.shutdown(socket.SHUT_WR)
        self.assertEqual(file.read(), b"found 1\n")
        with self.index() as index:
            self.assertEqual(index.stats().documents, 1)

    def test_lines_in_pieces(self):
        # However they are cut, the same lines come; of one that is too long no more is told than that.
        lines = [b"add a\t\tx", b"", b"count x", b"y" * 70_000, b"z" * 65_536, b"stats"]
        data = b"".join(line + b"\n" for line in lines) + b"broken off"
        for size in (997, 10_000, 65_536, len(data)):
            pieces = iter([data[at : at + size] for at in range(0, len(data), size)] + [b""])
            connection = unittest.mock.Mock(recv=lambda room: next(pieces))
            found = [line for lines in batches(connection) for line in lines]
            self.assertEqual([line[:65_536] for line in found], [line[:65_536] for line in lines])

    def test_many_lines_of_one_client(self):
        self.serve()
        connection = self.raw()
        changes = [b"add n%d\t\tx" % i if i % 3 else b"delete n%d" % (i - 1) for i in range(1, 300)]
        lines = changes[:100] + [b"count x", b"add n1\t\tx", b"open x"] + changes[100:] + [b"fetch 1 2", b"stats"]
        connection.sendall(b"\n".join(lines) + b"\n")
        connection.shutdown(socket.SHUT_WR)
        replies = connection.makefile("rb").read().split(b"\n")
        self.assertEqual(replies[100:103], [b"found 34", b"replaced 1 by 68", b"cursor 1"])
        self.assertEqual(replies[302:], [b"3 n4", b"5 n7", b"more", b"documents 101 words 101 next 202", b""])
        self.assertTrue(all(reply.startswith((b"added", b"deleted")) for reply in replies[:100] + replies[103:302]))

    def test_copies_that_are_none(self):
        # The file of this program is no index, and a copy goes into a file that comes with the line.
        self.serve()
        connection = self.raw()
        connection.sendall(b"copy\ncopy x\nfigures\n")
        lines = connection.makefile("rb")
        replies = [lines.readline() for _ in range(3)]
        self.assertEqual(replies, [b"! no file\n", b"! unknown command\n", b"figures clients 1 waiting 0 cursors 0\n"])
        with open(os.path.join(self.folder, "copy"), "wb") as file:
            socket.send_fds(connection, [b"copy\nstats\n"], [file.fileno()])
        connection.shutdown(socket.SHUT_WR)
        self.assertEqual(lines.read(), b"! copy it is no index: is this the right path?\ndocuments 0 words 0 next 1\n")

    def test_refusals_of_the_program(self):
        self.serve(say=[2, "! no numbers left"])
        with self.index() as index:
            with self.assertRaises(buncocedar.NoNumbersLeft):
                index.add("a", "", "")

    def test_scripts_find_it(self):
        os.mkdir(os.path.join(self.folder, "notes"))
        for name in "ab":
            with open(os.path.join(self.folder, "notes", name), "w") as file:
                file.write("The quick fox")
        server = self.serve()
        # The folder has the index and the server's socket besides, which are no documents.
        words = [self.folder]
        for script, arguments, status in [("folder", words, 0), ("find", ["fox"], 0), ("find", ["dog"], 1)]:
            done = subprocess.run(
                [sys.executable, BUNCO, script, self.path, *arguments],
                env={**os.environ, "BUNCOCEDAR_PROGRAM": "/nonexistent"},
                capture_output=True,
                timeout=PATIENCE,
            )
            self.assertEqual(done.returncode, status, done.stderr)
            self.assertNotIn(b"passed over", done.stderr)
        self.assertEqual(self.end(server)[0], 0)


class Ends(Case):
    def test_of_the_program(self):
        # Each client is told of the same end, and so is who started the server.
        server = self.serve(room=3)
        one, other, idle = self.index(), self.index(), self.index()
        one.add_many((name, "", "") for name in "abc")
        with self.assertRaises(buncocedar.Full) as raised:
            other.add("d", "", "")
        self.assertEqual((raised.exception.need, raised.exception.gap), (321, 123))
        for index in (one, idle):
            with self.assertRaises(buncocedar.Full):
                index.stats()
        # It ends by itself: a signal would meet it as it has put down its own handlers.
        said = server.communicate(timeout=PATIENCE)[1]
        self.assertEqual(server.returncode, 3)
        self.assertIn("alta: full, need 321, greatest gap 123 (status 8)", said)
        for index in (one, other, idle):
            index.close()

    def test_of_the_server(self):
        server = self.serve()
        index = self.index()
        index.add("a", "", "")
        self.assertEqual(self.end(server)[0], 0)
        with self.assertRaises(buncocedar.ServerEnded) as raised:
            index.stats()
        self.assertIsNone(raised.exception.status)
        index.close()
        with self.index() as again:
            self.assertEqual(again.stats().documents, 1)

    def test_of_a_client(self):
        self.serve()
        index = self.index()
        replies = [index.send_add(f"n{i}", "", "") for i in range(60)]
        replies[10].result()
        index.kill()
        answered = sum(reply.answered for reply in replies)
        self.assertGreaterEqual(answered, 11)
        with self.assertRaises(buncocedar.Ended):
            index.stats()
        with self.index() as other:
            # What is under way of it are the lines that the server is at.
            self.assertIn(other.stats().documents, range(answered, answered + LINES_AHEAD + 1))

    def test_interrupted_at_a_line_that_takes_long(self):
        mark = os.path.join(self.folder, "mark")
        server = self.serve(silent=1, mark=mark)
        connection = self.raw()
        connection.sendall(b"stats\n")
        until(lambda: os.path.exists(mark))
        server.send_signal(signal.SIGINT)
        time.sleep(0.2)

        def is_ended():
            # Two signals that wait at the same time are one for the system: then it takes another one.
            server.send_signal(signal.SIGINT)
            with contextlib.suppress(subprocess.TimeoutExpired):
                return server.wait(30) is not None

        until(is_ended)
        self.assertEqual(server.returncode, 3)
        server.communicate()
        self.assertIn(b"! ended -9", connection.makefile("rb").read())

    def test_of_a_fork_of_a_client(self):
        self.serve()
        with self.index() as index:
            index.add("a", "", "")
            child = os.fork()
            if child == 0:
                # As a block does that is left by `sys.exit`.
                index.kill()
                os._exit(0)
            self.assertEqual(os.waitpid(child, 0)[1], 0)
            self.assertEqual(index.stats().documents, 1)

    def idle(self, connection):
        """Lets the server look whether levels are to be joined, which it does when nobody has asked for a moment."""
        time.sleep(3 * IDLE_SECONDS)
        connection.sendall(b"stats\n")
        self.assertTrue(connection.recv(100).startswith(b"documents "))

    def test_many_that_do_not_ask(self):
        # There are more than the server may have files open. Who is connected goes on, and the others come in when some leave.
        server = self.serve(files=40)
        first, *others = [self.raw() for _ in range(60)]
        self.assertIn("no further client can be taken before one leaves: Too many open files", server.stderr.readline())
        self.idle(first)
        for connection in others[:-1]:
            connection.close()
        self.idle(others[-1])
        self.assertEqual(self.end(server)[0], 0)

    def test_another_file_at_its_place(self):
        server = self.serve()
        connection = self.raw()
        connection.sendall(b"add a\t\tx\n")
        self.assertEqual(connection.recv(100), b"added 1\n")
        os.rename(self.path, os.path.join(self.folder, "moved.alta"))
        self.idle(connection)
        os.mkdir(self.path)
        self.idle(connection)
        self.assertEqual(self.end(server), (0, ""))

    def test_another_socket_at_its_place(self):
        """A server that ends leaves what another one has put there since."""
        server = self.serve()
        os.remove(self.socket)
        with socket.socket(socket.AF_UNIX) as other:
            other.bind(self.socket)
            self.assertEqual(self.end(server), (0, ""))
            self.assertTrue(os.path.exists(self.socket))

    def test_nobody_waits_without_end(self):
        """For a server that is stopped, and for one whose queue is full."""
        server = self.serve()
        server.send_signal(signal.SIGSTOP)
        told = []
        try:
            with unittest.mock.patch.object(buncocedar.index, "SECONDS_FOR_A_SERVER", 0.1):
                with self.assertRaisesRegex(InUse, "does not answer"):
                    Index(self.path, program=self.program, patience=0.7, on_wait=told.append)
                self.assertEqual(len(told), 1)
                with self.assertRaisesRegex(InUse, "open in process [0-9]+ .* within 0.1 seconds: it is busy with a long line.*a longer wait may do"):
                    Index(self.path, program=self.program, patience=0)
                with unittest.mock.patch.multiple(copying, SECONDS_BETWEEN_LOOKS=0.1, SECONDS_TO_CONNECT=0.2), open(os.devnull, "wb") as file:
                    with self.assertRaisesRegex(copying.NotHad, f"{self.path}: its server does not answer: it is stopped"):
                        copying.copy_into(self.path, file)
                status = subprocess.run([sys.executable, BUNCO, "status", self.path, "--wait", "0.1"], capture_output=True, text=True, timeout=PATIENCE)
                self.assertEqual((status.returncode, "Traceback" in status.stderr), (3, False))
                waiting = []
                while len(waiting) < 1_000:
                    waiting.append(socket.socket(socket.AF_UNIX))
                    self.addCleanup(waiting[-1].close)
                    waiting[-1].setblocking(False)
                    try:
                        waiting[-1].connect(self.socket)
                    except BlockingIOError:
                        break
                with self.assertRaisesRegex(InUse, "takes no client"):
                    Index(self.path, program=self.program, patience=0.1)
        finally:
            server.send_signal(signal.SIGCONT)
        with self.index() as index:
            self.assertEqual(index.count("x"), 0)

    def test_a_copy_that_takes_long(self):
        """It is waited for as long as the server answers others."""
        open(self.path, "wb").close()
        told = []

        def serve(listener):
            copied = listener.accept()[0]
            told.append(copied.recv(100))
            for _ in range(3):
                with listener.accept()[0] as other:
                    told.append(other.recv(100))
                    other.sendall(b"figures clients 2 waiting 0 cursors 0\n")
            copied.sendall(b"copied 5 1")
            copied.sendall(b" 2\n")
            copied.close()

        with socket.socket(socket.AF_UNIX) as listener:
            listener.bind(self.socket)
            listener.listen()
            thread = threading.Thread(target=serve, args=[listener])
            thread.start()
            # The program works meanwhile.
            working = unittest.mock.patch.multiple(copying, SECONDS_BETWEEN_LOOKS=0.05, work_of=lambda number: time.monotonic())
            with working, open(os.devnull, "wb") as file:
                self.assertEqual(copying.copy_into(self.path, file, 0), copying.Copied(5, [1, 2]))
            thread.join(PATIENCE)
        self.assertEqual(told, [b"copy\n", *3 * [b"figures\n"]])

    def test_a_copy_under_a_program_that_is_stopped(self):
        """It is not waited for without end, though the server answers others."""
        mark = os.path.join(self.folder, "mark")
        server = self.serve(silent=1, mark=mark)
        self.raw().sendall(b"stats\n")
        until(lambda: os.path.exists(mark))
        with open(mark) as file:
            program = int(file.read())
        os.kill(program, signal.SIGSTOP)
        said = f"open in process {program} .*, stopped .kill -CONT {program} lets it go on.* makes no copy"
        with unittest.mock.patch.object(copying, "SECONDS_BETWEEN_LOOKS", 0.05), open(os.devnull, "wb") as file:
            with self.assertRaisesRegex(copying.NotHad, said):
                copying.copy_into(self.path, file, 0.2)
        os.kill(program, signal.SIGKILL)
        self.assertEqual(server.wait(PATIENCE), 3)

    def test_what_is_no_end(self):
        # A file that can't be read, and a program that is too old to join levels: the server goes on.
        many = os.path.join(self.folder, "many")
        count = LEVELS_KEPT + 1
        numbers = [1, 1, 0, 0, *(number for level in range(count) for number in (HEAD + 32 * level, 32))]
        with open(many, "wb") as file:
            file.write(b"\xa5\x01\0" + bytes([count]) + bytes(4) + b"".join(number.to_bytes(8, "big") for number in numbers))
            file.truncate(HEAD + 32 * count)
        for path, step in [(self.folder, None), (many, buncocedar.UnknownCommand("! unknown command"))]:
            handle = os.open(path, os.O_RDONLY)
            self.addCleanup(os.close, handle)
            index = unittest.mock.Mock(**{"step.side_effect": step})
            server = Server(index, unittest.mock.Mock(fileno=lambda: handle), None)
            self.assertEqual((server._tidy(), server.end, index.step.called), (False, None, step is not None))

    def test_the_end_comes_before_lines_that_wait(self):
        index = unittest.mock.Mock(path=self.path)
        server = Server(index, None, unittest.mock.Mock(**{"accept.side_effect": OSError}))
        waiting = [server.send(b"stats") for _ in range(3)]
        index.send_line.side_effect = lambda line: server.stop() or unittest.mock.Mock()
        server.run()
        server.close()
        self.assertEqual([future.exception() is None for future in waiting], [True, False, False])
        self.assertEqual({type(future.exception()) for future in waiting[1:]}, {Stopped})

    def test_threads_that_cannot_start(self):
        # Its client is told so by the end of the connection, and the others go on.
        ours, theirs = socket.socketpair()
        self.addCleanup(ours.close)
        ours.settimeout(PATIENCE)
        server = Server(None, None, unittest.mock.Mock())

        def accept():
            server._stopped = True
            return theirs

        server.listener.accept = accept
        with unittest.mock.patch.object(threading.Thread, "start", side_effect=RuntimeError):
            server._accept()
        self.assertEqual(ours.recv(1), b"")

    def test_where_it_cannot_listen(self):
        with self.index(create=True):
            pass
        with open(self.socket, "w") as file:
            file.write("my notes\n")
        words = [sys.executable, BUNCO, "serve"]
        environment = {**os.environ, "BUNCOCEDAR_PROGRAM": self.program}

        def refused(*more):
            done = subprocess.run([*words, *more], env=environment, capture_output=True, text=True, timeout=PATIENCE)
            self.assertEqual(done.returncode, 3)
            return done.stderr

        self.assertIn("no socket", refused(self.path))
        with open(self.socket) as file:
            self.assertEqual(file.read(), "my notes\n")
        os.remove(self.socket)
        self.assertIn("no such file", refused(os.path.join(self.folder, "none")))
        self.serve()
        self.assertIn("is open in", refused(self.path, "--wait", "0"))
        long = os.path.join(self.folder, "x" * 100)
        self.assertTrue(refused(long, "--create").startswith(f"server: {server_path(long)}: the server cannot listen: "))
        with Index(long, program=self.program) as index:
            self.assertEqual(index.stats().documents, 0)

    def test_who_may_ask(self):
        with self.index(create=True):
            pass
        os.chmod(self.path, 0o640)
        # Its group is another one than that of what its owner makes, where the test may give it such.
        with contextlib.suppress(OSError):
            os.chown(self.path, -1, max(os.getgroups(), default=0) + (os.geteuid() == 0))
        self.serve()
        found, like = os.stat(self.socket), os.stat(self.path)
        self.assertEqual((found.st_uid, found.st_gid, stat.S_IMODE(found.st_mode)), (like.st_uid, like.st_gid, 0o640))
        # What only leads to a server elsewhere is none of this index.
        other = os.path.join(self.folder, "other.alta")
        os.symlink(self.socket, other + ".socket")
        with Index(other, create=True, program=self.program) as index:
            index.add("a", "", "")
        with self.index() as index:
            self.assertEqual(index.stats().documents, 0)
        # A client that wants a program of its own does not get the server.
        with self.assertRaises(buncocedar.InUse):
            Index(self.path, program=self.program, patience=0, server=False)


class Tasks(Case):
    """An index from asyncio."""

    def run_tasks(self, work):
        async def run():
            async with await AsyncIndex.connect(self.path) as index:
                return await asyncio.wait_for(work(index), PATIENCE)

        return asyncio.run(run())

    def test_many_at_once(self):
        self.serve()

        async def work(index):
            added = await asyncio.gather(*(index.add(f"n{number}", "", f"fox {number}") for number in range(200)))
            self.assertEqual(sorted(added), list(range(1, 201)))
            rows, count, best, *others = await asyncio.gather(
                index.search("fox"), index.count("fox"), index.top("fox", 2), *(index.count(str(number)) for number in range(200))
            )
            self.assertEqual((len(rows), count, len(best.answers), others), (200, 200, 2, [1] * 200))
            cursor = await index.cursor("fox")
            page = await cursor.page(3)
            self.assertEqual((len(page.rows), page.more), (3, True))
            await cursor.close()
            with self.assertRaises(buncocedar.NoSuchCursor):
                await cursor.page(1)
            with self.assertRaises(buncocedar.QueryFault) as raised:
                await index.search("fault 3 Paren")
            self.assertEqual(raised.exception.place, 3)
            with self.assertRaises(buncocedar.NoSuchDocument):
                await index.delete("none")
            self.assertIn("found D", await index.explain("fox"))
            self.assertEqual(len(await index.dump()), 200)
            await index.flush()
            return await index.stats()

        self.assertEqual(self.run_tasks(work).documents, 200)

    def test_a_task_that_waits_no_longer(self):
        self.serve()

        async def work(index):
            task = asyncio.ensure_future(index.add("a", "", "fox"))
            await asyncio.sleep(0)
            task.cancel()
            return await index.count("fox")

        self.assertEqual(self.run_tasks(work), 1)

    def test_the_end_of_the_server(self):
        mark = os.path.join(self.folder, "mark")
        server = self.serve(silent=1, mark=mark)

        async def work(index):
            task = asyncio.ensure_future(index.count("fox"))
            while not os.path.exists(mark):
                await asyncio.sleep(0.01)
            server.kill()
            with self.assertRaises(buncocedar.ServerEnded):
                await task
            with self.assertRaises(buncocedar.ServerEnded):
                await index.stats()

        self.run_tasks(work)
        server.wait(PATIENCE)
        with self.assertRaises(buncocedar.ServerEnded):
            asyncio.run(AsyncIndex.connect(self.path))
        # The program that does not answer is ended by nobody else.
        with open(mark) as file:
            os.kill(int(file.read()), signal.SIGKILL)


class Rights(Case):
    def test_no_wider_than_those_of_the_file(self):
        # The rights of the file, whether its group is that of what is made, or can be given to it, and the rights that come of it.
        with open(self.path, "w"):
            pass
        own = os.stat(self.path)
        for mode, is_same, may_give, wanted in [
            (0o660, True, False, 0o660),
            (0o666, True, False, 0o666),
            (0o400, True, False, 0o600),
            (0o755, True, False, 0o644),
            (0o660, False, True, 0o660),
            (0o606, False, True, 0o606),
            (0o660, False, False, 0o600),
            (0o606, False, False, 0o600),
            (0o664, False, False, 0o604),
            (0o666, False, False, 0o606),
        ]:
            group = own.st_gid if is_same else own.st_gid + 1
            like = os.stat_result((stat.S_IFREG | mode, 0, 0, 1, own.st_uid, group, 0, 0, 0, 0))
            made = os.stat_result((own.st_mode, 0, 0, 1, own.st_uid, group if may_give else own.st_gid, 0, 0, 0, 0))
            given = [None] if may_give else PermissionError
            os.chmod(self.path, 0o600)
            with unittest.mock.patch("os.chown", side_effect=given), unittest.mock.patch("os.stat", return_value=made):
                give_rights(self.path, like)
            self.assertEqual(oct(os.stat(self.path).st_mode & 0o777), oct(wanted), (oct(mode), is_same, may_give))


class Together:
    """32 clients at once, and ends at any moment: over either program."""

    def test_many_clients_and_a_slow_one(self):
        server = self.serve()
        with self.index() as index:
            index.add_many((f"old{i:050}", "", "old") for i in range(3_000))
        # It asks for some megabytes, and reads none of them.
        slow = self.raw()
        slow.sendall(b"search old\n" * 5)
        faults = []

        def work(number):
            try:
                with self.index() as index:
                    if index.count("old") != 3_000:
                        faults.append("old")
                    for i in range(10):
                        index.add(f"c{number}-{i}", "", f"word{number}")
                        rows = list(index.search(f"word{number}"))
                        if [name for _, name in rows] != [f"c{number}-{j}" for j in range(i + 1)]:
                            faults.append(rows)
            except Exception as error:
                faults.append(error)

        threads = [threading.Thread(target=work, args=(number,)) for number in range(31)]
        for thread in threads:
            thread.start()
        for thread in threads:
            thread.join(PATIENCE)
        self.assertEqual(faults, [])
        self.assertFalse(any(thread.is_alive() for thread in threads))
        file = slow.makefile("rb")
        slow.shutdown(socket.SHUT_WR)
        lines = file.read().split(b"\n")
        self.assertEqual(len(lines), 5 * 3_001 + 1)
        self.assertEqual(lines[3_000::3_001], [b"found 3000"] * 5)
        self.assertEqual(self.end(server)[0], 0)
        with self.index() as index:
            self.assertEqual(index.stats().documents, 3_000 + 31 * 10)

    def stopped(self, number, seconds):
        """Ends a server by this signal while eight clients add, and compares what was answered with what is stored."""
        server = self.serve()
        sent = [[] for _ in range(8)]

        def work(replies, client):
            with contextlib.suppress(buncocedar.Error):
                index = self.index()
                for i in range(100_000):
                    replies.append(index.send_add(f"r{number}-{self.round}-{client}-{i}", "", "x"))

        self.round = getattr(self, "round", 0) + 1
        threads = [threading.Thread(target=work, args=(replies, client)) for client, replies in enumerate(sent)]
        for thread in threads:
            thread.start()
        # A client that comes when the server has ended would have the index for itself.
        until(lambda: all(sent) and any(len(replies) > 70 for replies in sent))
        time.sleep(seconds)
        server.send_signal(number)
        for thread in threads:
            thread.join(PATIENCE)
        server.communicate(timeout=PATIENCE)
        with self.index() as index:
            for client, replies in enumerate(sent):
                answered = [i for i, reply in enumerate(replies) if reply.answered and reply.error is None]
                self.assertEqual(answered, list(range(len(answered))))
                names = {name for _, name in index.search("NOT name:! OR name:!")}
                stored = {f"r{number}-{self.round}-{client}-{i}" for i in range(len(replies))} & names
                self.assertLessEqual({f"r{number}-{self.round}-{client}-{i}" for i in answered}, stored)
                # What was not answered is not done, save the lines that the server was at.
                self.assertLessEqual(len(stored), len(answered) + LINES_AHEAD)

    def test_stopped_at_any_moment(self):
        chance = random.Random(62)
        for number in (signal.SIGKILL, signal.SIGTERM, signal.SIGKILL, signal.SIGINT):
            self.stopped(number, chance.random() / 2)


class TogetherFake(Together, Case):
    pass


class TogetherReal(Together, Case):
    program = None

    def levels(self):
        with open(self.path, "rb") as file:
            return level_count(file)

    def test_levels_are_joined_while_nobody_asks(self):
        server = self.serve()
        with self.index() as index:
            for i in range(LEVELS_KEPT + 3):
                index.add(f"n{i}", "", f"x word{i}")
                index.flush()
            until(lambda: self.levels() <= LEVELS_KEPT)
            self.assertEqual(index.count("x"), LEVELS_KEPT + 3)
            self.assertEqual(len(list(index.search("x"))), LEVELS_KEPT + 3)
        self.assertEqual(self.end(server)[0], 0)

    def test_levels_are_counted(self):
        with self.index(create=True) as index:
            self.assertEqual(self.levels(), 0)
            for i in range(1, 4):
                index.add(f"n{i}", "", "x")
                index.flush()
                self.assertEqual(self.levels(), i)
            index.merge()
            self.assertEqual(self.levels(), 1)

    def test_copies_between_two_lines(self):
        self.serve()
        ours = self.index()
        ours.add_many((f"n{number}", "", f"fox {number}") for number in range(200))
        ours.flush()
        writing, stop = [], threading.Event()

        def write():
            with self.index() as index:
                while not stop.is_set():
                    writing.append(index.add(f"w{len(writing)}", "", "dog"))

        thread = threading.Thread(target=write)
        thread.start()
        until(lambda: writing)
        new = os.path.join(self.folder, "new.alta")
        try:
            for words in (["compact", self.path, new], ["check", self.path], ["status", self.path]):
                done = subprocess.run(
                    [sys.executable, BUNCO, *words],
                    env={**os.environ, "BUNCOCEDAR_PROGRAM": self.program},
                    capture_output=True,
                    text=True,
                    timeout=PATIENCE,
                )
                self.assertEqual(done.returncode, 0, done.stdout + done.stderr)
        finally:
            stop.set()
            thread.join()
        self.assertIn("clients", done.stdout)
        ours.close()
        with Index(new, program=self.program, server=False) as copy:
            self.assertEqual(copy.count("fox"), 200)
            self.assertLessEqual(copy.count("dog"), len(writing))
            self.assertEqual(copy.stats().documents, 200 + copy.count("dog"))

    def test_the_same_answers(self):
        self.serve()
        with self.index() as index:
            index.add("a", "Red Fox", "the quick red fox")
            index.add("b", "", "brown dog")
            self.assertEqual(list(index.search('"red fox" OR dog')), [(1, "a"), (2, "b")])
            self.assertEqual(index.explain("red AND fox").split("\n")[:2], ['"red" "fox"', "found D Wred Wfox"])
            with self.assertRaises(buncocedar.QueryFault) as raised:
                index.search("(fox")
            self.assertEqual((raised.exception.place, raised.exception.cause), (4, "Paren"))
            connection = self.raw()
            file = connection.makefile("rb")
            for line, reply in [
                (b"fetch 1 x", b"! bad line"),
                (b"fetch 1", b"! bad line"),
                (b"fetch 1 1", b"! no such cursor"),
                (b"fetch 01 1", b"! bad line"),
                (b"fetch +1 1", b"! bad line"),
                (b"fetch  1 1", b"! bad line"),
                (b"fetch " + b"9" * 5_000 + b" 1", b"! bad line"),
                (b"close 1", b"! no such cursor"),
                (b"search", b"! bad line"),
                (b"search ", b"! query 0 Empty"),
                (b"add a\xff\t\t", b"! not UTF-8"),
                (b"stats now", b"! bad line"),
            ]:
                index.cursor("fox")
                connection.sendall(line + b"\n")
                self.assertEqual(file.readline(), reply + b"\n", line)


def take_program(path):
    TogetherReal.program = path


if __name__ == "__main__":
    run_tests("server", take_program)
