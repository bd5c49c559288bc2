"""An index in memory, searched in this process by the proved library, without a program and without a file.

    index = EmbeddedIndex.of_file("notes.alta")
    for number, name in index.search('"red fox"'):
        print(number, name)

Each call opens the index anew, which takes longer than a query of a program that has it open. Calls on several threads go on side
by side.
"""

from __future__ import annotations

import ctypes
import functools
import os
import subprocess
import sys
import sysconfig
from typing import Callable, Dict, Optional, Union

from .copying import locked
from .errors import BadLine, Error, ProtocolFault, end_of
from .queries import Queries
from .replies import Reply

LIBRARY = "libalta_embed.so"
ROOM = 1 << 16  # bytes for replies, where a call is not known to need more
NO_ROOM = -11
# Of the other results below 0 what the program says where it ends with that status; the detail stands for %d.
WORDS = {-5: "out of memory", -6: "damaged at %d", -7: "no index", -8: "full, need %d", -9: "input too long"}


def released(name: str) -> str:
    """The path of a file that the release carries beside the program, as `libalta_embed.so` or `alta_embed.wasm`.

    In a checkout it is unpacked from the release, where that is of these very sources; else it is looked for where the program is
    installed. Raises `FileNotFoundError` where there is none.
    """
    top = os.path.dirname(os.path.dirname(os.path.dirname(os.path.realpath(__file__))))
    script = os.path.join(top, "release", "embedded.py")
    if os.path.isdir(os.path.join(top, "crates")) and os.path.exists(script):
        done = subprocess.run([sys.executable, script, "--path", name], stdout=subprocess.PIPE, stderr=subprocess.PIPE, text=True)
        if done.returncode:
            raise FileNotFoundError(2, done.stderr.strip() or "the release could not be unpacked", name)
        return done.stdout.rstrip("\n")
    site = os.path.dirname(os.path.dirname(os.path.abspath(__file__)))
    prefixes = [site, *(sysconfig.get_paths(scheme)["data"] for scheme in sysconfig.get_scheme_names()), "/usr"]
    for prefix in dict.fromkeys(prefixes):
        path = os.path.join(prefix, "libexec", "buncocedar", name)
        if os.path.exists(path):
            return path
    raise FileNotFoundError(2, "it is not installed beside the program", name)


def default_library() -> str:
    """The path of the library: what the variable BUNCOCEDAR_LIBRARY says, or the one that the release carries."""
    return os.environ.get("BUNCOCEDAR_LIBRARY") or released(LIBRARY)


@functools.lru_cache(maxsize=None)
def _answer_of(library: str) -> Callable[..., int]:
    """The function of the library at this path."""
    function = ctypes.CDLL(library).alta_embed_answer
    size, number = ctypes.c_size_t, ctypes.POINTER(ctypes.c_uint64)
    function.argtypes = [ctypes.c_char_p, size, ctypes.c_char_p, size, ctypes.c_char_p, size, number]
    function.restype = ctypes.c_int64
    return function


class EmbeddedIndex(Queries):
    """The bytes of an index, the content of its file, and what it answers.

    Raises `NoIndex`, `Damaged` or `OutOfMemory` where the bytes do not open, as each call does; a query raises what it raises of an
    `Index`. `library` is the path of the proved library, by default what `default_library` finds.
    """

    def __init__(self, content: bytes, library: Optional[str] = None) -> None:
        self.content = bytes(content)
        self._answer = _answer_of(library or default_library())
        self._exchange = _Calls(self.answer)  # type: ignore[assignment]
        self.stats()

    @classmethod
    def of_file(cls, path: Union[str, bytes, os.PathLike], library: Optional[str] = None) -> EmbeddedIndex:
        """The index in a file, which is read while no program has it open. Raises `InUse` or `OSError` where it can't be read."""
        with locked(path) as file:
            content = file.read()
        return cls(content, library)

    def answer(self, lines: bytes) -> bytes:
        """The replies to command lines, each with a newline behind it, on a copy of the index: what lines change is gone with the call.

        Raises the `Ended` with which the program would end.
        """
        size, detail = ROOM, ctypes.c_uint64()
        while True:
            room = ctypes.create_string_buffer(size)
            result = self._answer(self.content, len(self.content), lines, len(lines), room, size, ctypes.byref(detail))
            if result >= 0:
                return ctypes.string_at(room, result)
            if result != NO_ROOM:
                raise _end(result, detail.value)
            size = detail.value

    def send_open(self, query: str) -> Reply:
        """Raises `TypeError`: a cursor would be gone with the call that opens it. `search` gives all answers."""
        raise TypeError("an embedded index has no cursors: search gives all answers")


def _end(result: int, detail: int) -> Error:
    """What a result below 0 says."""
    words = WORDS.get(result)
    if words is None:
        return ProtocolFault("the call of the library", str(result))
    return end_of(-result, words.replace("%d", str(detail)), opened=False)


class _Calls:
    """Takes the place of an exchange with a program: a line that is sent is answered at once, by one call."""

    def __init__(self, answer):
        self.answer = answer
        self.untaken: Dict[Reply, None] = {}
        self.told = True

    def send(self, line, command, last, made, lines=None, query=None, behind=b"", after_refusal=False):
        if b"\n" in line:
            raise BadLine("! bad line", f"a newline in the line of {ascii(command[:80])}")
        reply = Reply(self, b"", command, last, made, lines, query, after_refusal)
        for text in self.answer(line + b"\n" + behind).split(b"\n")[:-1]:
            reply.take(text.decode(errors="replace"))
        reply.settle()
        return reply

    def turn_until(self, is_done, seconds=None):
        return is_done()

    def turn(self, seconds=None, reply=None):
        """There is nothing to wait for."""

    def keep_refusal(self, reply):
        """A refusal is raised where the reply is taken, and else by nobody."""
