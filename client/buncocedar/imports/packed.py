"""Files that may be packed, opened by the end of their name: what is read is what was packed."""

import bz2
import gzip
import lzma
import zlib

OPENERS = {".gz": gzip.open, ".xz": lzma.open, ".bz2": bz2.open}
# What reading a file raises that is torn, or not packed at all; bz2 and gzip have an OSError without a number for it.
FAULTS = (EOFError, zlib.error, lzma.LZMAError, gzip.BadGzipFile)


def is_packed(path):
    return path.endswith(tuple(OPENERS))


def opened(path):
    """The file, to be read as bytes."""
    for end, opener in OPENERS.items():
        if path.endswith(end):
            return opener(path, "rb")
    return open(path, "rb")
