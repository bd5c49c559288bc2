"""A copy of an index without its holes, while nothing else uses it, or between two lines of its server."""

# A copy is a new file, and none is ever put in the place of the old one: who waits for the lock of the old file would get
# that of a file without a name. Its other root slot and the other half of the journal are zeros, and so is its own half behind the
# last record, where older lines may stand.

import contextlib
import fcntl
import os
import re
import shutil
import socket
import stat
import struct
import time
from typing import List, NamedTuple

from .beside import making
from .fileformat import HALF, HEAD, SLOT, Unusable, read_journal, read_root
from .imports.stampfile import JOURNAL, stamps_path
from .imports.stamps import Records
from .errors import InUse
from .holders import in_use, owner_of, work_of
from .links import FIGURES_LINE, SECONDS_TO_CONNECT, asked, connected

CHUNK = 1 << 20
NO_COPY = "! copy "  # how a server begins to say why it makes none
SECONDS_BETWEEN_LOOKS = 5.0  # in a wait for a copy by a server, whether that goes on


@contextlib.contextmanager
def locked(path, patience=10.0):
    """The file of an index, open for reading, with the lock that the program takes: nothing else reads or writes it meanwhile."""
    with open(os.open(path, os.O_RDONLY | os.O_NONBLOCK | os.O_CLOEXEC), "rb") as file:
        if not stat.S_ISREG(os.fstat(file.fileno()).st_mode):
            raise NotHad(f"{path} is no plain file")
        until = time.monotonic() + patience
        while True:
            try:
                fcntl.flock(file, fcntl.LOCK_EX | fcntl.LOCK_NB)
                break
            except BlockingIOError:
                if time.monotonic() >= until:
                    raise NotHad(f"{path} is in use") from None
                time.sleep(0.05)
        yield file


def copy_range(source, begin, length, target):
    """Copies bytes of a file to where another stands."""
    while length:
        data = os.pread(source.fileno(), min(length, CHUNK), begin)
        if not data:
            raise Unusable(f"it ends at {begin}")
        target.write(data)
        begin += len(data)
        length -= len(data)


def packed(slot, root):
    """The bytes of a slot with its root's extents one behind the other."""
    slot = bytearray(slot)
    place = HEAD
    for at, extent in zip(range(24, SLOT, 16), root.extents()):
        if extent.length:
            slot[at : at + 8] = place.to_bytes(8, "big")
            place += extent.length
    return bytes(slot)


def write_packed(source, root, target):
    """Writes the index again: the slot that counts, its records, and what it names, without holes. All else is zeros."""
    target.seek(root.slot * SLOT)
    target.write(packed(os.pread(source.fileno(), SLOT, root.slot * SLOT), root))
    target.seek(2 * SLOT + root.slot * HALF)
    target.write(read_journal(source, root).records)
    target.seek(HEAD)
    for extent in root.extents():
        copy_range(source, extent.place, extent.length, target)
    target.flush()
    # Where nothing stands behind the halves, the file has their length all the same.
    target.truncate(max(target.tell(), HEAD))


class NotHad(Unusable):
    """Why an index could not be had at all: of what it has nothing is said."""


class Copied(NamedTuple):
    """A copy: its bytes, and where the deletion list and the levels of its root stand in the index that it is of."""

    size: int
    places: List[int]


def copy_into(path, target, patience=10.0):
    """Writes the index at a path into an open file, without its holes: by its server, or while nobody has it open.

    Raises `Unusable` where it is damaged, no plain file, or in use for longer than so many seconds. So it does where its server does not
    answer, and where nothing goes on there for so many seconds, as under a program that is stopped.
    """
    try:
        service = connected(path)
        if service is not None:
            return served_copy(path, service, target, patience)
    except InUse as fault:
        raise NotHad(str(fault)) from None
    with locked(path, patience) as file:
        root = read_root(file)
        write_packed(file, root, target)
        return Copied(target.tell(), [extent.place for extent in root.extents()])


def served_copy(path, service, target, patience):
    """Has the server behind a link write its index into an open file; raises `InUse` as `late_line` does."""
    with service.connection as connection:
        try:
            connection.settimeout(SECONDS_BETWEEN_LOOKS)
            socket.send_fds(connection, [b"copy\n"], [target.fileno()])
            reply = late_line(path, connection, target, patience).decode(errors="replace").rstrip("\n")
        except ConnectionError:
            reply = ""
    if reply.startswith(NO_COPY):
        raise Unusable(reply[len(NO_COPY) :])
    told = re.fullmatch("copied ([0-9]+)((?: [0-9]+)*)", reply)
    if told is None:
        raise NotHad("its server is an older one, which makes no copy" if reply == "! unknown command" else "its server has ended")
    target.seek(0, os.SEEK_END)
    return Copied(int(told[1]), list(map(int, told[2].split())))


def late_line(path, connection, target, patience):
    """The line that comes from the server of an index, however long its work takes.

    Raises `InUse` where it does not answer another client, and where for so many seconds nothing shows that anything goes on.
    """
    line = b""
    seen, until = None, 0.0
    while not line.endswith(b"\n"):
        found = signs(path, connection, target)
        if found != seen:
            seen, until = found, time.monotonic() + patience
        elif time.monotonic() >= until:
            raise InUse(f"{in_use(path)}: its server makes no copy, and neither of the two has worked for {patience:g} seconds")
        try:
            piece = connection.recv(CHUNK)
        except socket.timeout:
            asked(path, FIGURES_LINE, SECONDS_TO_CONNECT)
            continue
        if not piece:
            break
        line += piece
    return line


def signs(path, connection, target):
    """What changes while a server makes a copy, or what is before it: the size of the copy, and the work of the program and of the server."""
    server, _, _ = struct.unpack("3i", connection.getsockopt(socket.SOL_SOCKET, socket.SO_PEERCRED, struct.calcsize("3i")))
    return os.fstat(target.fileno()).st_size, work_of(owner_of(path)), work_of(server)


def sync_folder(path):
    handle = os.open(os.path.dirname(os.path.abspath(path)), os.O_RDONLY)
    try:
        os.fsync(handle)
    finally:
        os.close(handle)


def put_copy(source, old, new):
    """Makes a file of an open one, without its holes, with the stamps of the index at `old`: whole, or not at all, and over no file.

    The stamps come first. Beside no index they do no harm, and the next copy of this name puts others in their place.
    """
    root = read_root(source)
    put_written(lambda target: write_packed(source, root, target), old, new, os.fstat(source.fileno()).st_mode)


def put_written(write, old, new, mode):
    """Makes a file by this call, which writes an index into an open one, with these rights: as `put_copy` does."""
    with making(os.path.dirname(os.path.abspath(new))) as fresh:
        with open(fresh, "w+b") as target:
            write(target)
            os.fchmod(target.fileno(), mode & 0o777)
            os.fsync(target.fileno())
        has_stamps = copy_stamps(stamps_path(old), stamps_path(fresh))
        if os.path.lexists(new):
            raise Unusable(f"{new} is there already")
        if has_stamps:
            os.replace(stamps_path(fresh), stamps_path(new))
        put(fresh, new)
    sync_folder(new)


def copy_stamps(old, new):
    """Copies a file of stamps to the disk, with its rights, and tells whether there is one."""
    try:
        with open(old, "rb") as source, open(new, "wb") as target:
            if os.path.exists(old + JOURNAL):
                # An import was stopped while it wrote rows: the file alone is half of what counts.
                Records(old).copy(new)
            else:
                shutil.copyfileobj(source, target, CHUNK)
                target.flush()
            os.fchmod(target.fileno(), os.fstat(source.fileno()).st_mode & 0o777)
            os.fsync(target.fileno())
    except FileNotFoundError:
        return False
    return True


def put(fresh, new):
    """Moves a file to a path where there is none."""
    try:
        os.link(fresh, new)
    except FileExistsError:
        raise Unusable(f"{new} is there already") from None
    except OSError:
        # The file system has no links.
        os.rename(fresh, new)
