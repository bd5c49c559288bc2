"""One index for many clients: a server behind a socket beside the index's file.

Each client speaks the lines of the program; `buncocedar.Index`, and what stands on it, finds the server by itself. One thread
owns the index, and has lines of all clients answered in the order in which they come: of each client one, or one page of a search,
or eight documents to be added or deleted. So neither a large search nor a client that reads slowly or sends much keeps the others
waiting. A thread for each client reads its lines and writes its replies. Two lines are the server's own: `copy` writes the index
without its free room into a file that comes with the line, between two lines of others, and `figures` says how many clients there are,
how many lines wait, and how many cursors are open. A dump is one line, behind which all wait; its lines wait
in a file, and not for the client that reads them. A client has cursors of its own, which end with it. While nobody asks, levels are
joined by steps, so that no add has to wait for a join.

An interrupt (SIGINT, SIGTERM) ends the server when the line that it is at is answered, a second one ends the program at once.
However it ends, what a client was answered is stored. The status is 0 where it was asked to end, and 3 where the index could
not be opened or the program has ended.
"""

# Lines go to the program eight at most before the first of them has its reply, so that it need not wait for a hand-over
# between two lines. Of one client only adds and deletes go ahead of their replies, eight at a time, since these hang on
# nothing that the server knows. So eight lines of a client at most may be done and not answered where the server is killed.
# One that sends much has eight lines in the queue at most, and one that does not read stops its own thread and no other. More
# lines ahead would make the others wait longer: where an add takes four milliseconds, eight of them are a thirtieth of a
# second.
#
# A search goes by a cursor, a page of a thousand rows at a time. Where all 64 are taken it is answered at once, and its rows
# are kept here. A `merge` is one line, and all wait for it. A dump waits in a file: a reply that is read slowly would keep
# the index for its reader alone.
#
# An idle server joins levels only where there are more than twelve. A step joins the two oldest levels alone, and writes the
# oldest, which is the largest, anew each time. Below the limit of sixteen it spares nothing; from there on the join has to be
# made at one of the next adds, and is made sooner.

import argparse
import contextlib
import errno
import itertools
import os
import queue
import re
import signal
import socket
import stat
import sys
import tempfile
import threading
import time
from collections import deque
from concurrent.futures import Future

from .beside import give_rights
from .errors import Ended, Error, Refused
from .copying import NO_COPY, write_packed
from .fileformat import Unusable, level_count, read_root
from .growth import Growth
from .index import Index
from .lines import LINE_LIMIT
from .links import FIGURES_LINE, server_path
from .shards.folder import is_folder_of_shards, shard_path, shards_in
from .terminal import waits, why

PAGE = 1_000  # rows of a search, at a time
PIECE = 1 << 16  # bytes of a dump, at a time
KEPT_IN_MEMORY = 1 << 20  # bytes of a dump that wait for their client
IDLE_SECONDS = 0.5  # without a line, before levels are joined
STEP_TERMS = 5_000  # of a join, between two looks for a line
LINES_AHEAD = 8  # of changes of one client, and of all lines that are given to the program before the first has its reply
BYTES_READ = 1 << 16  # of a client, at a time
LEVELS_KEPT = 12  # of the sixteen that an index may have
SECONDS_TO_LEAVE = 2  # that clients have to take their last replies when the server ends
STOPPED = 3
COPY = b"copy"  # with FIGURES_LINE the lines that are no lines of the program
FILES_AT_ONCE = 1  # that come with the lines that are read at a time

_ON_A_CURSOR = re.compile(rb"(fetch|close) (0|[1-9][0-9]{0,19})(?![0-9])")
_NO_CURSOR = b"65"  # a number that no cursor has


class Stopped(Exception):
    """The server ends, and takes no further line."""


class Input:
    """What comes from a client: bytes, and files beside them."""

    def __init__(self, connection):
        self._connection = connection
        self._files = deque()

    def recv(self, room):
        data, handles, _, _ = socket.recv_fds(self._connection, room, FILES_AT_ONCE)
        self._files += [os.fdopen(handle, "wb") for handle in handles]
        return data

    def file(self):
        """The first file that has come and was not asked for, or None."""
        return self._files.popleft() if self._files else None

    def close(self):
        while self._files:
            self._files.popleft().close()


class Session:
    """A client, whose lines are answered one after another."""

    def __init__(self, server, connection):
        self.server = server
        self.connection = connection
        self.input = Input(connection)
        self.cursors = set()
        self.thread = threading.Thread(target=self.run, daemon=True)

    def run(self):
        self.server.sessions.add(self)
        try:
            with self.connection:
                with contextlib.suppress(Ended, Stopped):
                    for lines in batches(self.input):
                        for piece in self.replies(lines):
                            self.say(piece)
                end = self.server.end
                if end is not None:
                    self.say([f"! ended {end.status} {end.line}"])
        except OSError:
            # The client has gone.
            pass
        finally:
            self.input.close()
            with contextlib.suppress(Ended, Stopped):
                for number in self.cursors:
                    self.ask(b"close %d" % number)
            self.server.sessions.discard(self)

    def say(self, lines):
        self.connection.sendall("".join(f"{line}\n" for line in lines).encode())

    def ask(self, line):
        return self.server.ask(line)

    def replies(self, lines):
        """The replies to lines that have come together, in pieces, each of some lines."""
        for are_changes, group in itertools.groupby(lines, is_change):
            while are_changes and (changes := list(itertools.islice(group, LINES_AHEAD))):
                yield from self.changes(changes)
            for line in group:
                yield from self.reply(line)

    def changes(self, lines):
        """The replies to some documents that are added or deleted, in one piece, or up to the end of the program."""
        given = []
        try:
            for future in [self.server.send(line) for line in lines]:
                given += future.result()
        finally:
            yield given

    def reply(self, line):
        """The reply to a line in pieces, each of some lines."""
        word, blank, query = line.partition(b" ")
        if word == b"search" and blank and len(line) <= LINE_LIMIT:
            yield from self.search(query)
        elif word == b"dump" and len(line) <= LINE_LIMIT:
            with self.ask(line) as file:
                while lines := file.readlines(PIECE):
                    yield [line.rstrip("\n") for line in lines]
        elif line == COPY:
            yield self.copy()
        elif line == FIGURES_LINE:
            yield [self.server.figures()]
        elif word == b"open":
            lines = self.ask(line)
            if lines[0].startswith("cursor "):
                self.cursors.add(int(lines[0].split(" ")[1]))
            yield lines
        else:
            lines = self.ask(self.of_its_own(line))
            if lines[0].startswith("closed "):
                self.cursors.discard(int(lines[0].split(" ")[1]))
            yield lines

    def copy(self):
        """The reply to `copy`: how many bytes the copy has, and where what its root names stands in the index."""
        file = self.input.file()
        if file is None:
            return ["! no file"]
        try:
            with file:
                size, places = self.server.between(lambda: copied(self.server.file, file))
        except (OSError, Unusable) as fault:
            return [f"{NO_COPY}{getattr(fault, 'strerror', None) or fault}"]
        return [f"copied {' '.join(map(str, [size, *places]))}"]

    def of_its_own(self, line):
        """The line as it is, and where it names a cursor of another client with a number that no cursor has."""
        named = _ON_A_CURSOR.match(line)
        if named is None or int(named[2]) in self.cursors:
            return line
        return named[1] + b" " + _NO_CURSOR + line[named.end() :]

    def search(self, query):
        """A search, by a cursor: the others are answered between its pages."""
        opened = self.ask(b"open " + query)
        if opened[0] == "! too many cursors":
            yield self.ask(b"search " + query)
        elif opened[0].startswith("! "):
            yield opened
        else:
            yield from self.rows(int(opened[0].split(" ")[1]))

    def rows(self, number):
        found = 0
        more = True
        try:
            while more:
                *rows, end = self.ask(b"fetch %d %d" % (number, PAGE))
                found += len(rows)
                more = end == "more"
                yield rows
        finally:
            self.ask(b"close %d" % number)
        yield [f"found {found}"]


def copied(source, target):
    """Copies an index without its free room, and answers the size of the copy and the places of its extents in the source."""
    root = read_root(source)
    write_packed(source, root, target)
    return target.tell(), [extent.place for extent in root.extents()]


def is_change(line):
    """Whether a line adds or deletes a document: its reply hangs on nothing that the server knows."""
    return line.startswith((b"add ", b"delete "))


def batches(connection):
    """The lines that a client sends, those together that have come together, without their ends.

    What stands behind the last end is none, and of a line too long only the front is kept, which is too long.
    """
    rest = b""
    while data := connection.recv(BYTES_READ):
        *lines, last = data.split(b"\n")
        if lines:
            lines[0] = rest + lines[0]
            rest = b""
            yield lines
        rest = (rest + last)[: LINE_LIMIT + 1]


class Server:
    """The owner of an index, and the clients of a listening socket. `file` is the index's file, open for reading."""

    def __init__(self, index, file, listener):
        """`listener` is a `Listener`."""
        self.index = index
        self.file = file
        self.listener = listener
        self.sessions = set()
        self.end = None  # how the program has ended
        self._jobs = queue.SimpleQueue()  # lines and work, each with the future of what it gives; None wakes the owner
        self._sent = deque()  # replies that are under way, each with its future
        self._is_to_end = False  # it takes no line from the queue any more
        self._stopped = False  # it takes none into the queue

    def ask(self, line):
        """The lines of the reply, to a dump in a file, when the owner has come to it: for the threads of clients."""
        return self.send(line).result()

    def send(self, line):
        """The future of a reply: for the threads of clients."""
        if self._stopped:
            raise Stopped
        future = Future()
        self._jobs.put((line, future))
        return future

    def between(self, work):
        """What this work gives, which is done between two lines, when none is under way: for the threads of clients."""
        return self.send(work).result()

    def figures(self):
        """The reply to `figures`."""
        sessions = list(self.sessions)
        cursors = sum(len(session.cursors) for session in sessions)
        return f"figures clients {len(sessions)} waiting {self._jobs.qsize()} cursors {cursors}"

    def stop(self):
        """Asks the server to end, before the lines that wait. A handler of a signal may do so too."""
        self._is_to_end = True
        self._jobs.put(None)

    def run(self):
        """Answers lines until the server is asked to end, or the program ends."""
        threading.Thread(target=self._accept, daemon=True).start()
        seconds = IDLE_SECONDS
        while self.end is None and not self._is_to_end:
            try:
                job = self._jobs.get(timeout=0 if self._sent else seconds)
            except queue.Empty:
                if self._sent:
                    self._settle()
                else:
                    seconds = 0 if self._tidy() else None
                continue
            if job is not None:
                self._do(*job)
            seconds = IDLE_SECONDS
        while self._sent:
            self._settle()

    def close(self):
        """Takes no further client or line, waits a moment for those that have a reply to take, and ends the program."""
        self._stopped = True
        # While the index is still held, since the next one to have it may listen there.
        self.listener.close()
        sessions = list(self.sessions)
        for session in sessions:
            with contextlib.suppress(OSError):
                session.connection.shutdown(socket.SHUT_RD)
        self._refuse_jobs()
        until = time.monotonic() + SECONDS_TO_LEAVE
        for session in sessions:
            session.thread.join(max(0, until - time.monotonic()))
        self.index.close()

    def _refuse_jobs(self):
        with contextlib.suppress(queue.Empty):
            while True:
                job = self._jobs.get_nowait()
                if job is not None:
                    job[1].set_exception(Stopped())

    def _accept(self):
        told = False
        while not self._stopped:
            try:
                connection = self.listener.accept()
            except OSError as error:
                # There are too many files, or the server ends.
                if error.errno in (errno.EMFILE, errno.ENFILE) and not told:
                    say(f"no further client can be taken before one leaves: {error.strerror}")
                    told = True
                time.sleep(0.1)
                continue
            told = False
            try:
                Session(self, connection).thread.start()
            except RuntimeError:
                # There are too many threads. The session and its thread hold each other, so nothing else would close it soon.
                connection.close()
                time.sleep(0.1)

    def _do(self, line, future):
        """Gives a line to the program, where few are under way, or the first of them has come."""
        while len(self._sent) >= (1 if callable(line) else LINES_AHEAD):
            self._settle()
        if callable(line):
            self._work(line, future)
            return
        try:
            self._sent.append((self.index.send_line(line), future))
        except Refused as refusal:
            future.set_result([refusal.reply])
        except Error as error:
            self._fail(error)
            future.set_exception(self.end)

    def _work(self, work, future):
        try:
            future.set_result(work())
        except (OSError, Unusable) as fault:
            future.set_exception(fault)

    def _settle(self):
        """Waits for the first reply that is under way, and hands it on."""
        reply, future = self._sent.popleft()
        try:
            future.set_result(spooled(reply) if reply.command == "dump" else reply.lines())
        except Error as error:
            self._fail(error)
            future.set_exception(self.end)
        except OSError as error:
            # The file of a dump could not be written: its client gets no more of it.
            future.set_exception(error)

    def _tidy(self):
        """Moves a join on where there are many levels, and tells whether there may be more to do."""
        try:
            if level_count(self.file) <= LEVELS_KEPT:
                return False
            self.index.step(STEP_TERMS)
        except (OSError, Refused):
            # No join is due now: the file can't be read, which is told to who asks for what it has, or the program is an older one.
            return False
        except Error as error:
            self._fail(error)
        return True

    def _fail(self, error):
        self.end = error if isinstance(error, Ended) else Ended(-signal.SIGKILL, str(error), self.index.path)


def spooled(reply):
    """The lines of a reply, in a file."""
    file = tempfile.SpooledTemporaryFile(KEPT_IN_MEMORY, "w+", encoding="utf-8", newline="\n")
    for line in reply.each_line():
        file.write(f"{line}\n")
    file.seek(0)
    return file


class Listener:
    """A socket that listens beside the index, for whoever may write the index's file. Only who has the index may make it."""

    def __init__(self, path):
        self.place = server_path(path)
        with contextlib.suppress(FileNotFoundError):
            if not stat.S_ISSOCK(os.lstat(self.place).st_mode):
                raise FileExistsError(errno.EEXIST, "no socket, and it stands where the server would listen", self.place)
            # A server that was killed has left it.
            os.unlink(self.place)
        self.socket = socket.socket(socket.AF_UNIX)
        mask = os.umask(0o177)
        try:
            self.socket.bind(self.place)
            give_rights(self.place, os.stat(path))
            self.made = os.lstat(self.place)
            self.socket.listen(128)
        except OSError as error:
            self.socket.close()
            raise OSError(error.errno, f"the server cannot listen: {error.strerror or error}", self.place) from None
        finally:
            os.umask(mask)

    def accept(self):
        """The next client. Raises `OSError` where none can be taken, or the socket is closed."""
        return self.socket.accept()[0]

    def close(self):
        """Takes no further client, and takes the socket's file away, where none of another server stands at its place."""
        with contextlib.suppress(OSError):
            if os.path.samestat(os.lstat(self.place), self.made):
                os.unlink(self.place)
        with contextlib.suppress(OSError):
            self.socket.shutdown(socket.SHUT_RDWR)
        self.socket.close()


def handle_signals(servers):
    """The first interrupt asks the servers to end, the next one ends the programs at once."""
    asked = []

    def take(number, frame):
        for server in servers:
            if asked:
                server.index.break_off()
            else:
                server.stop()
        asked.append(number)

    for number in (signal.SIGINT, signal.SIGTERM):
        signal.signal(number, take)


def say(text):
    print(f"server: {text}", file=sys.stderr, flush=True)


def opened(stack, path, options):
    """A server of the index at a path, which listens; the stack holds what it needs."""
    index = stack.enter_context(Index(path, options.create, patience=options.wait, on_wait=waits(say), server=False))
    # Opened once: later there may be too many files, or another one at the path.
    file = stack.enter_context(open(path, "rb"))
    server = Server(index, file, Listener(path))
    stack.callback(server.close)
    return server


def run_all(servers):
    """Runs servers until they are asked to end, or their programs do: one in this thread, several each in one of its own."""
    if len(servers) == 1:
        servers[0].run()
        return
    threads = [threading.Thread(target=server.run) for server in servers]
    for thread in threads:
        thread.start()
    for thread in threads:
        thread.join()


def serve(options):
    """Serves an index, or each shard of a folder of shards, until it is asked to end, and answers the exit status."""
    folder = options.index if is_folder_of_shards(options.index) else None
    paths = [options.index] if folder is None else [shard_path(folder, shard) for shard in shards_in(folder)]
    with contextlib.ExitStack() as stack:
        servers = [opened(stack, path, options) for path in paths]
        handle_signals(servers)
        if folder is None:
            Growth(options.index, say).put(0)
        say(f"listening for {len(paths)} shards in {folder}" if folder else f"listening at {server_path(options.index)}")
        run_all(servers)
    ends = [server.end for server in servers if server.end is not None]
    for end in ends:
        say(end)
    return STOPPED if ends else 0


def parser():
    """What the words of the command may be."""
    parser = argparse.ArgumentParser(
        prog="bunco serve", description=__doc__, formatter_class=argparse.RawDescriptionHelpFormatter
    )
    parser.add_argument("index", metavar="INDEX")
    parser.add_argument("--create", action="store_true", help="make the index where there is none")
    parser.add_argument("--wait", metavar="SECONDS", type=float, default=10.0, help="how long to wait for who has it open")
    return parser


def main(arguments=None):
    options = parser().parse_args(arguments)
    try:
        return serve(options)
    except (Error, OSError) as error:
        say(why(error))
        return STOPPED
