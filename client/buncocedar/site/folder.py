"""The folder of a site: files whose names have a digest of their content, so that whoever keeps one never keeps an old one.

Its page and its mark alone have names that stay. Beside the mark, each file of the folder `files` with a digest in its name is a site's.
"""

from __future__ import annotations

import base64
import gzip
import hashlib
import json
import os
import re
from typing import Set, Tuple

MARK = "bunco-site.json"
PAGE = "index.html"
FILES = "files"
DIGITS = 16  # of a digest in a name
OWN = re.compile(rf"[a-z]+\.[0-9a-f]{{{DIGITS}}}\.[a-z]+(\.js)?(\.new)?")
MADE = {"made by": "bunco site"}


class Taken(Exception):
    """Why nothing is written into a folder."""


class Folder:
    """A folder to write a site into: a new one, an empty one, or that of an earlier site.

    The earlier site is there until the new page takes the place of its page. Raises `Taken` and `OSError`.
    """

    def __init__(self, path: str) -> None:
        self.path = path
        self.new: Set[str] = set()
        if not is_free(path):
            raise Taken(f"{path} holds something else: give a new folder, an empty one, or one that bunco site has made")

    def begin(self) -> None:
        """Makes the folder, with its mark before all else, so that a run that was stopped leaves a site's folder."""
        os.makedirs(os.path.join(self.path, FILES), exist_ok=True)
        replace(os.path.join(self.path, MARK), (json.dumps(MADE) + "\n").encode())

    def put(self, stem: str, ending: str, data: bytes) -> str:
        """Writes a file, and answers its name below the folder of files."""
        name = f"{stem}.{hashlib.sha256(data).hexdigest()[:DIGITS]}.{ending}"
        self._write(name, data)
        return name

    def put_packed(self, stem: str, data: bytes) -> Tuple[str, int]:
        """Writes data, packed, and once more as a script for a page that may fetch nothing; answers its name and its packed size."""
        packed = gzip.compress(data, 9, mtime=0)
        name = self.put(stem, "bin", packed)
        script = f'(globalThis.buncoFiles ??= {{}})["{name}"] = "{base64.b64encode(packed).decode()}";\n'
        self._write(f"{name}.js", script.encode())
        return name, len(packed)

    def finish(self, page: bytes) -> None:
        """Writes the page, from where on the new site is there, and takes away what only an earlier one had."""
        replace(os.path.join(self.path, PAGE), page)
        for name in os.listdir(os.path.join(self.path, FILES)):
            if OWN.fullmatch(name) and name not in self.new:
                os.remove(os.path.join(self.path, FILES, name))

    def _write(self, name: str, data: bytes) -> None:
        self.new.add(name)
        replace(os.path.join(self.path, FILES, name), data)


def is_free(path: str) -> bool:
    """Whether a site may be written here: nothing is there, or an empty folder, or one with the mark of a site."""
    if not os.path.lexists(path):
        return True
    if not os.path.isdir(path):
        return False
    try:
        with open(os.path.join(path, MARK), encoding="utf-8") as file:
            return json.load(file) == MADE
    except FileNotFoundError:
        return not os.listdir(path)
    except (ValueError, IsADirectoryError):
        return False


def replace(path: str, data: bytes) -> None:
    """Puts a file with this content at a path, whole or not at all."""
    fresh = f"{path}.new"
    with open(fresh, "wb") as file:
        file.write(data)
    os.replace(fresh, path)
