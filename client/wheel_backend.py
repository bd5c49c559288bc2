"""Makes the wheel of this client, as PEP 517 and the wheel format 1.0 say, with the standard library alone.

The package is the folder `buncocedar`; its commands are those of the table [project.scripts]. In a checkout where a program of these
very sources serves, the wheel carries it behind its guard, for Linux on x86-64 with glibc 2.34 (PEP 600), and beside it the released
library for callers in memory; elsewhere it is one of Python alone, for any machine. Of the same files it is the same bytes.
"""

# It stands here since setuptools asks for the package `wheel`, which is not everywhere, and pip fetches both from the
# network. It goes when pip makes wheels of plain Python by itself.

import base64
import hashlib
import os
import re
import subprocess
import sys
import tempfile
import zipfile
from typing import NamedTuple

HERE = os.path.dirname(os.path.abspath(__file__))
TOP = os.path.dirname(HERE)
PACKAGE = "buncocedar"
PURE = "py3-none-any"
WITH_PROGRAM = "py3-none-manylinux_2_34_x86_64"
EMBEDDED = ("libalta_embed.so", "alta_embed32.wasm")
CLASSIFIERS = (
    "Environment :: Console",
    "Operating System :: POSIX :: Linux",
    "Programming Language :: Python :: 3",
    "Topic :: Text Processing :: Indexing",
)


class UnsupportedOperation(Exception):
    """What this backend does not make."""


class Entry(NamedTuple):
    """A file of the wheel."""

    data: bytes
    mode: int = 0o644


def table(name, value='"(.*)"'):
    """The values of a table of pyproject.toml: its texts, or what a pattern for them takes."""
    with open(os.path.join(HERE, "pyproject.toml"), encoding="utf-8") as file:
        lines = file.read().partition(f"\n[{name}]\n")[2].partition("\n[")[0]
    return dict(re.findall(f"^([a-z-]+) = {value}$", lines, re.MULTILINE))


def extras():
    """The lines of the metadata that say what else the package can use, each extra with one requirement."""
    for name, needed in table("project.optional-dependencies", r'\["(.*)"\]').items():
        yield f"Provides-Extra: {name}"
        yield f'Requires-Dist: {needed} ; extra == "{name}"'


def entry(path):
    with open(path, "rb") as file:
        return Entry(file.read(), os.stat(path).st_mode & 0o755)


def below(folder, top):
    """The files below a folder, by their paths from the top, in order."""
    for at, folders, names in os.walk(folder):
        folders.sort()
        for name in sorted(names):
            path = os.path.join(at, name)
            yield os.path.relpath(path, top).replace(os.sep, "/"), path


def sources():
    """The files of the package, by name."""
    return {name: Entry(entry(path).data) for name, path in below(os.path.join(HERE, PACKAGE), HERE) if "__pycache__" not in name}


def program():
    """What `./alta --install` puts below a folder, by name; nothing where no program of these very sources serves without a proof."""
    alta = os.path.join(TOP, "alta")
    if not os.path.exists(alta):
        return {}
    state = subprocess.run([alta, "--state"], stdout=subprocess.PIPE, stderr=subprocess.DEVNULL, text=True).stdout
    if not re.match("serves: (proved here|released)\n", state):
        return {}
    with tempfile.TemporaryDirectory() as folder:
        subprocess.run([alta, "--no-build", "--install", folder], stderr=subprocess.DEVNULL, check=True)
        return {name: entry(path) for name, path in below(folder, folder)}


def library():
    """The library for callers in memory, and its module for pages, by name; nothing where the release has none of these very sources."""
    script, found = os.path.join(TOP, "release", "embedded.py"), {}
    for name in EMBEDDED if os.path.exists(script) else ():
        done = subprocess.run([sys.executable, script, "--path", name], stdout=subprocess.PIPE, stderr=subprocess.DEVNULL, text=True)
        if done.returncode == 0:
            found[f"libexec/{PACKAGE}/{name}"] = entry(done.stdout.rstrip("\n"))
    return found


def metadata(project, tag):
    """The files that say what the wheel is."""
    head = [
        "Metadata-Version: 2.1",
        f"Name: {project['name']}",
        f"Version: {project['version']}",
        f"Summary: {project['description']}",
        f"Requires-Python: {project['requires-python']}",
        *(f"Classifier: {it}" for it in CLASSIFIERS),
        *extras(),
    ]
    commands = "".join(f"{name} = {call}\n" for name, call in table("project.scripts").items())
    files = {
        "METADATA": "".join(f"{line}\n" for line in head),
        "WHEEL": f"Wheel-Version: 1.0\nGenerator: wheel_backend\nRoot-Is-Purelib: {str(tag == PURE).lower()}\nTag: {tag}\n",
        "entry_points.txt": f"[console_scripts]\n{commands}",
    }
    return {name: Entry(text.encode()) for name, text in files.items()}


def record(files, about):
    """The list of the files with their digests."""
    lines = []
    for name, (data, _) in files.items():
        digest = base64.urlsafe_b64encode(hashlib.sha256(data).digest()).rstrip(b"=").decode()
        lines.append(f"{name},sha256={digest},{len(data)}\n")
    return Entry(("".join(lines) + f"{about}/RECORD,,\n").encode())


def contents():
    """The files of the wheel, by name, and the wheel's own name."""
    project, installed = table("project"), program()
    stem = f"{project['name']}-{project['version']}"
    tag = WITH_PROGRAM if installed else PURE
    files = sources()
    for name, it in {**installed, **(library() if installed else {})}.items():
        # `bin` is a scheme of its own; all else stands below the prefix as it is.
        folder, _, rest = name.partition("/")
        files[f"{stem}.data/scripts/{rest}" if folder == "bin" else f"{stem}.data/data/{name}"] = it
    files.update((f"{stem}.dist-info/{name}", it) for name, it in metadata(project, tag).items())
    notices = os.path.join(TOP, "release", "NOTICES")
    if installed and os.path.exists(notices):
        files[f"{stem}.dist-info/licenses/NOTICES"] = Entry(entry(notices).data)
    files[f"{stem}.dist-info/RECORD"] = record(files, f"{stem}.dist-info")
    return files, f"{stem}-{tag}.whl"


def build_wheel(wheel_directory, config_settings=None, metadata_directory=None):
    """Writes the wheel into the folder, and answers its name."""
    files, name = contents()
    with zipfile.ZipFile(os.path.join(wheel_directory, name), "w") as wheel:
        for path, (data, mode) in files.items():
            # The first time that a ZIP file can tell: that of the day says nothing.
            info = zipfile.ZipInfo(path, (1980, 1, 1, 0, 0, 0))
            info.compress_type = zipfile.ZIP_DEFLATED
            info.external_attr = (0o100000 | mode) << 16
            wheel.writestr(info, data)
    return name


def build_sdist(sdist_directory, config_settings=None):
    raise UnsupportedOperation("no archive of sources is made: install from a checkout")
