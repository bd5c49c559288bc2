"""Where the WebAssembly module is that searches an index in a page."""

from __future__ import annotations

import gzip
import os
import zlib

from ..embedded import released

NAME = "alta_embed32.wasm"
VARIABLE = "BUNCOCEDAR_MODULE"
MAGIC = b"\0asm"


class NoModule(Exception):
    """Why there is no module."""


def module_path() -> str:
    """The path of the module: what the variable BUNCOCEDAR_MODULE says, or that of the release. Raises `NoModule`."""
    try:
        return os.environ.get(VARIABLE) or released(NAME)
    except FileNotFoundError as fault:
        raise NoModule(f"the module {NAME} is missing, which searches in the page: {fault.strerror}; {VARIABLE} may say its path") from None


def module() -> bytes:
    """The module, unpacked. Raises `NoModule`."""
    path = module_path()
    try:
        with open(path, "rb") as file:
            data = file.read()
        code = gzip.decompress(data) if data[:2] == b"\x1f\x8b" else data
    except (OSError, EOFError, zlib.error) as error:
        raise NoModule(f"the module {path} can't be read: {getattr(error, 'strerror', None) or error}") from None
    if code[: len(MAGIC)] != MAGIC:
        raise NoModule(f"{path} is no WebAssembly module")
    return code
