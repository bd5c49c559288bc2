"""What an index is behind: a program of its own behind pipes, or a server behind a socket. Both are used in the same way."""

from __future__ import annotations

import contextlib
import os
import select
import signal
import stat
import subprocess
import time

from .errors import InUse
from .texts import Regular

LOG = "buncocedar"  # the log of what a program says that is no reply and no end; without a handler it goes to standard error
SECONDS_TO_CONNECT = 10.0  # that a server has to take a client
FIGURES_LINE = b"figures"  # a line of the server's own: how many clients it has, and what waits
SECONDS_TO_END = 5  # that a program has to end, once it can read no more lines


def _installed_program() -> str | None:
    """The path of `alta` as it was installed with this package: where the same scheme, or `pip install --target`, puts commands."""
    import sysconfig

    site = os.path.realpath(os.path.dirname(os.path.dirname(os.path.abspath(__file__))))
    places = [os.path.join(site, "bin")]
    for scheme in sysconfig.get_scheme_names():
        paths = sysconfig.get_paths(scheme)
        if site in (os.path.realpath(paths["purelib"]), os.path.realpath(paths["platlib"])):
            places.append(paths["scripts"])
    found = (os.path.join(place, "alta") for place in places)
    return next((path for path in found if os.access(path, os.X_OK)), None)


def default_program() -> str:
    """The path of the program.

    It is what the variable BUNCOCEDAR_PROGRAM says, or `alta` of the checkout that this client is in, or `alta` as it was
    installed with this client, or else `alta` or `alta_cli` on the PATH. Where there is none it raises `FileNotFoundError`.
    """
    top = os.path.dirname(os.path.dirname(os.path.dirname(os.path.abspath(__file__))))
    checkout = os.path.join(top, "alta")
    if os.environ.get("BUNCOCEDAR_PROGRAM"):
        return os.environ["BUNCOCEDAR_PROGRAM"]
    if os.path.isdir(os.path.join(top, "crates")) and os.path.exists(checkout):
        return checkout
    import shutil

    found = _installed_program() or shutil.which("alta") or shutil.which("alta_cli")
    if found is None:
        raise FileNotFoundError(2, "the program is missing: install it, or set BUNCOCEDAR_PROGRAM to its path", "alta")
    return found


class Said:
    """What the program says on its standard error.

    Its status line is kept, with the line behind it that says why a call of the system failed. All else goes to the log
    `buncocedar`, as that the program is built.
    """

    status_line = Regular(
        "alta: (usage: .*|(disk|input|output) fault|out of memory|damaged at [0-9]+|no index|"
        "full, need [0-9]+, greatest gap [0-9]+|input too long|index exists|not empty, and no index)"
    )

    def __init__(self, file):
        self.file = file
        self.open = True
        self.line = ""
        self._rest = b""

    def take(self):
        """Takes what is there, and tells whether there may be more."""
        try:
            data = os.read(self.file, 1 << 16)
        except BlockingIOError:
            return False
        self.open = bool(data)
        *lines, self._rest = (self._rest + data).split(b"\n")
        for line in lines:
            self._hear(line.decode(errors="replace"))
        return self.open

    def take_all(self):
        while self.open and self.take():
            pass

    def _hear(self, line):
        if self.status_line.fullmatch(line):
            self.line = line
        elif self.line and line.startswith("alta: "):
            self.line += line[len("alta") :]
        else:
            import logging

            logging.getLogger(LOG).warning("%s", line)


def started(program, path, word, **options):
    """The program, in a session of its own, so that an interrupt from the terminal ends this client first."""
    return subprocess.Popen(
        [program, path, word],
        stdin=subprocess.PIPE,
        stdout=subprocess.PIPE,
        stderr=subprocess.PIPE,
        bufsize=0,
        start_new_session=True,
        # A file that grows past a limit is a fault that the program answers, and no signal.
        restore_signals=False,
        **options,
    )


def kill(process):
    """Ends the program, and what it has started where it is still being built."""
    if process.poll() is None:
        try:
            os.killpg(process.pid, signal.SIGKILL)
        except ProcessLookupError:
            pass


class Program:
    """The program of an index, behind its pipes: the files that lines go into, that replies and other words come out of."""

    def __init__(self, program, path, **options):
        self.process = started(program, path, "run", **options)
        pipes = (self.process.stdin, self.process.stdout, self.process.stderr)
        for pipe in pipes:
            os.set_blocking(pipe.fileno(), False)
        self.input, self.output, said = (pipe.fileno() for pipe in pipes)
        self.said = Said(said)

    def close_input(self):
        """Lets the program end, once it has answered what it was given."""
        self.input = None
        self.process.stdin.close()

    give_up_input = close_input

    def leave(self):
        """Lets go of the pipes in a process that was forked: the program is another one's."""
        for pipe in (self.process.stdin, self.process.stdout, self.process.stderr):
            pipe.close()
        self.process.returncode = 0

    def kill(self):
        kill(self.process)

    def takes(self, line):
        """Whether a line is not part of a reply."""
        return False

    def ended(self):
        """Waits for the end, and answers its status and the line of it."""
        self.close_input()
        status = self._status()
        if status is None:
            self.kill()
            status = self._status()
        self.said.take_all()
        self.process.stdout.close()
        self.process.stderr.close()
        # One that waits for its disk can't be killed before that answers.
        return -signal.SIGKILL if status is None else status, self.said.line

    def _status(self):
        try:
            return self.process.wait(SECONDS_TO_END)
        except subprocess.TimeoutExpired:
            return None


class Service:
    """The server of an index, behind a socket, which speaks as the program does; when that ends, it says so in a line."""

    said = None
    end_line = Regular("(?s)! ended (-?[0-9]+) (.*)")

    def __init__(self, connection):
        connection.setblocking(False)
        self.connection = connection
        self.input = self.output = connection.fileno()
        self.status = None, "the server of the index has ended"

    def close_input(self):
        """Lets the server end this connection, once it has answered what it was given."""
        self.input = None
        self.status = 0, ""
        self._shut("SHUT_WR")

    def give_up_input(self):
        self.input = None

    def leave(self):
        """Lets go of the connection in a process that was forked: it is another one's."""
        self.connection.close()

    def kill(self):
        self.status = -signal.SIGKILL, "the connection to the server was ended"
        self._shut("SHUT_RDWR")

    def _shut(self, which):
        import socket

        try:
            self.connection.shutdown(getattr(socket, which))
        except OSError:
            pass

    def takes(self, line):
        """Whether a line is not part of a reply."""
        told = self.end_line.fullmatch(line)
        if told:
            self.status = int(told[1]), told[2]
        return told is not None

    def ended(self):
        """The status and line of the program's end, where the server told it, or of the server's."""
        self.connection.close()
        return self.status


def server_path(path: str) -> str:
    """Where the server of an index listens: a socket beside its file."""
    return os.path.realpath(path) + ".socket"


def connected(path, seconds=SECONDS_TO_CONNECT):
    """A link to the server of the index, or None where none listens that its owner or this user has started.

    Raises `InUse` where one listens and takes no client for so many seconds.
    """
    place = server_path(path)
    until = time.monotonic() + seconds
    try:
        found = os.lstat(place)
        if not stat.S_ISSOCK(found.st_mode) or found.st_uid not in (os.geteuid(), os.stat(path).st_uid):
            return None
        while (connection := _connection(place)) is None:
            if time.monotonic() >= until:
                raise InUse(f"{path}: its server takes no client: too many wait for it already, or it is stopped")
            time.sleep(0.02)
        return Service(connection)
    except OSError:
        # None was started, or the path is too long for one, or it was killed and the socket's file is what it left.
        return None


def asked(path, line, seconds):
    """What the server of an index answers to a line of its own, in one line, which it gives also while it has others to do.

    None where no server listens. Raises `InUse` where it takes no client for so many seconds, or does not answer.
    """
    service = connected(path, seconds)
    if service is None:
        return None
    with service.connection as connection, connection.makefile("rb") as lines:
        connection.settimeout(seconds)
        try:
            connection.sendall(line + b"\n")
            return lines.readline()
        except ConnectionError:
            return b""
        except OSError:
            raise InUse(f"{path}: its server does not answer: it is stopped, or its machine is too busy") from None


def _connection(place):
    """A connection to a socket, None where its queue is full: one that waits would wait without end."""
    import socket

    connection = socket.socket(socket.AF_UNIX)
    connection.setblocking(False)
    try:
        connection.connect(place)
        return connection
    except BlockingIOError:
        connection.close()
        return None
    except OSError:
        connection.close()
        raise


def let_go(link, out, path, owner):
    """Ends the program of an index that nobody has any more, in the process that started it: what was sent it answers."""
    if os.getpid() != owner:
        return
    end = time.monotonic() + SECONDS_TO_END
    with contextlib.suppress(OSError):
        while time.monotonic() < end and _goes_on(link, out, end - time.monotonic()):
            pass
    link.ended()
    import warnings

    warnings.warn(f"the index {path} was not closed", ResourceWarning, stacklevel=2)


def _goes_on(link, out, seconds):
    """Writes what waits, and then no more, and reads what comes, which nobody wants; tells whether there may be more."""
    if not out and link.input is not None:
        link.close_input()
    poll = select.poll()
    poll.register(link.output, select.POLLIN)
    if out:
        poll.register(link.input, select.POLLOUT | (select.POLLIN if link.input == link.output else 0))
    for file, events in poll.poll(seconds * 1000):
        if out and file == link.input and (events & select.POLLOUT or file != link.output):
            del out[: os.write(file, out)]
        if file == link.output and events & ~select.POLLOUT and not os.read(file, 1 << 16):
            return False
    return True
