#!/usr/bin/env python3
"""Makes the library for callers in memory: the proved crate `alta_embed`, for C and Python, and for pages as WebAssembly.

usage: release/embedded.py                makes the files of the proof of these sources, and writes them, packed, and their digests
       release/embedded.py --check        ends with 0 where what release/MANIFEST says of them is so, and they are of these sources
       release/embedded.py --compare      makes them anew, and ends with 0 where they are the released ones, byte for byte
       release/embedded.py --into FOLDER  makes them anew, and writes them into a folder, as they are
       release/embedded.py --path NAME    unpacks one of them where the release is of these sources, and prints its path

One proved build makes the static library, and hands its module to a clang that also keeps it. The shared library is the static one
linked with the kit's own heap, which calls that of the C library; `web/wasm.py` makes the others of the module. Of the same sources,
under the same kit and the same `wasm-opt`, each is the same bytes. `release/make.py` makes the release of the program first: these files
join it.
"""

import argparse
import contextlib
import gzip
import hashlib
import os
import re
import shutil
import subprocess
import sys
import tempfile

HERE = os.path.dirname(os.path.realpath(__file__))
TOP = os.path.dirname(HERE)
sys.path[1:1] = [HERE, os.path.join(TOP, "web")]

import wasm  # noqa: E402
from compiling import Fault, call, loaded, put_toolchain, read  # noqa: E402

NAME = "alta_embed"
GIVEN = "alta_embed_answer"
MANIFEST = os.path.join(HERE, "MANIFEST")
# The files by their words in MANIFEST, and by their names, packed and not.
FILES = {
    "library": ("libalta_embed-x86_64.so.gz", "libalta_embed.so"),
    "module": ("alta_embed.wasm.gz", "alta_embed.wasm"),
    "module32": ("alta_embed32.wasm.gz", "alta_embed32.wasm"),
}
LOWERED = "lowered"  # the word in MANIFEST for what has lowered the module to a 32-bit memory
STEPS = "steps"  # and for the digest of what has made the modules of that of the proof
CLANG = """
if "-c" in words and "-o" in words:
    shutil.copyfile(words[words.index("ir") + 1], {module!r})
"""


def digest_of(data):
    return hashlib.sha256(data).hexdigest()


def sources():
    return call("release/digest", os.path.join(HERE, "digest"), cwd=TOP).rstrip("\n")


def steps():
    """The digest of the files that make the modules for pages: they are no sources of a proof."""
    return digest_of(b"".join(read(os.path.join(TOP, "web", name)) for name in ("heap.c", "wasm.py")))


def manifest():
    """The values of release/MANIFEST by their words."""
    if not os.path.exists(MANIFEST):
        raise Fault("there is no release/MANIFEST: release/make.py makes a release")
    lines = (line.partition(" ") for line in read(MANIFEST).decode().splitlines() if not line.startswith("#"))
    return {word: value for word, _, value in lines}


def kit():
    """The folder of the kit."""
    command = shutil.which("rt")
    if command is None:
        raise Fault("the command rt is missing")
    return os.path.dirname(os.path.dirname(os.path.realpath(command)))


def build(folder, room):
    """Proves the library by the kit in this folder, and makes `libalta_embed.a` and `module.bc` of it in the folder `room`."""
    rtlib = loaded(f"{folder}/bin/rtlib.py")
    crate = next(it for it in rtlib.crates_below(TOP) if it.name == NAME)
    missing = [it.name for it in crate.below() if not it.is_built()]
    if missing:
        raise Fault(f"{', '.join(missing)} are not proved here as they are: ./alta --prove proves them")
    put_toolchain(f"{room}/toolchain", folder, CLANG.format(module=f"{room}/module.bc"))
    with contextlib.redirect_stdout(sys.stderr):
        words = crate.words(["--jobs", "2"])
    words += ["--toolchain", f"{room}/toolchain", "--backend", "llvm", *rtlib.KEPT, "-o", f"{room}/lib{NAME}.a"]
    said = call("rattle build", rtlib.RATTLE, "build", *words, cwd=crate.folder)
    if not re.search("^logic=proved ", said, re.MULTILINE):
        raise Fault(f"the kit did not say that the library is proved: {said[-2000:]}")


def shared(folder, room):
    """The shared library of the static one in the folder `room`. It gives one function, and needs the C library alone."""
    clang = f"{folder}/toolchain/bin/clang"
    with open(f"{room}/names", "w", encoding="ascii") as file:
        file.write(f"{{ global: {GIVEN}; local: *; }};\n")
    words = ["ld.lld", "-shared", "-s", "--hash-style=gnu", "--gc-sections", "--build-id=none", "--threads=1", "--no-undefined"]
    words += ["-z", "relro", "-z", "now", "-z", "noexecstack", "-soname", f"lib{NAME}.so", "--version-script", f"{room}/names"]
    parts = ["--whole-archive", f"{room}/lib{NAME}.a", "--no-whole-archive", f"{folder}/c/liblibc_c.a", f"{folder}/toolchain/lib/libc.so.6"]
    call("ld.lld", *words, *parts, "-o", f"{room}/lib{NAME}.so", executable=clang)
    given = call("llvm-nm", "llvm-nm", "-D", "--defined-only", "-j", f"{room}/lib{NAME}.so", executable=clang).split()
    if given != [GIVEN]:
        raise Fault(f"the shared library gives {', '.join(given)}, and not {GIVEN}")
    return read(f"{room}/lib{NAME}.so")


def made():
    """The files by their words, of the proof of the sources as they are."""
    folder = kit()
    with tempfile.TemporaryDirectory() as room:
        build(folder, room)
        wide = wasm.wide(f"{room}/module.bc", folder, room)
        return {"library": shared(folder, room), "module": wide, "module32": wasm.narrow(wide, room)}


def lowered():
    """What lowers the module to a 32-bit memory, by its own words."""
    return call("wasm-opt", "wasm-opt", "--version").rstrip("\n")


def released(word, found):
    """One of the released files, which has to have the digest that MANIFEST says."""
    packed, name = FILES[word]
    if word not in found:
        raise Fault(f"release/MANIFEST has no {word}: release/embedded.py makes {name}")
    try:
        data = gzip.decompress(read(os.path.join(HERE, packed)))
    except (OSError, EOFError) as error:
        raise Fault(f"release/{packed} can't be unpacked: {error}") from None
    if digest_of(data) != found[word]:
        raise Fault(f"release/{packed} is not the {name} that release/MANIFEST names")
    return data


def check():
    """Holds what is there to what MANIFEST says."""
    found = manifest()
    files = {word: released(word, found) for word in FILES}
    wasm.checked(files["module"], True)
    wasm.checked(files["module32"], False)
    if found["sources"] != sources():
        raise Fault("the released library is of other sources than these: release/make.py and then release/embedded.py make one of these")
    if found.get(STEPS) != steps():
        raise Fault("web/heap.c or web/wasm.py has changed since the modules were released: release/embedded.py makes them anew")
    return "the released library and its modules are those that release/MANIFEST names, and of these sources"


def write():
    found = manifest()
    if found["sources"] != sources():
        raise Fault("the released program is of other sources than these: release/make.py makes one of these first")
    files = made()
    for word, data in files.items():
        with open(os.path.join(HERE, FILES[word][0]), "wb") as file:
            file.write(gzip.compress(data, 9, mtime=0))
    lines = [line for line in read(MANIFEST).decode().splitlines() if line.partition(" ")[0] not in (*FILES, LOWERED, STEPS)]
    lines += [f"{word} {digest_of(data)}" for word, data in files.items()]
    with open(MANIFEST, "w", encoding="ascii") as file:
        file.write("\n".join([*lines, f"{LOWERED} {lowered()}", f"{STEPS} {steps()}", ""]))
    return "released " + ", ".join(f"{FILES[word][1]} ({len(data)} bytes)" for word, data in files.items())


def compare():
    found, files = manifest(), made()
    other = [FILES[word][1] for word, data in files.items() if released(word, found) != data]
    if other:
        raise Fault(f"the proof of these sources makes another {' and another '.join(other)} here than the released one")
    return "the released library and its modules are what the proof of these sources makes here, byte for byte"


def write_into(folder):
    os.makedirs(folder, exist_ok=True)
    files = made()
    for word, data in files.items():
        with open(os.path.join(folder, FILES[word][1]), "wb") as file:
            file.write(data)
    return f"wrote {', '.join(FILES[word][1] for word in files)} into {folder}"


def path_of(name):
    """Where a released file stands, unpacked into a folder of its digest, with nothing else there than what MANIFEST names."""
    word = next((word for word, names in FILES.items() if names[1] == name), None)
    if word is None:
        raise Fault(f"no {name} is released")
    found = manifest()
    if found["sources"] != sources():
        raise Fault(f"the released {name} is of other sources than these")
    folder = os.path.join(HERE, "out", found.get(word, ""))
    path = os.path.join(folder, name)
    if not os.path.exists(path):
        data = released(word, found)
        os.makedirs(folder, exist_ok=True)
        with tempfile.NamedTemporaryFile(dir=folder, delete=False) as file:
            file.write(data)
        os.chmod(file.name, 0o755 if name.endswith(".so") else 0o644)
        os.replace(file.name, path)
    return path


def main():
    parser = argparse.ArgumentParser(description=__doc__, formatter_class=argparse.RawDescriptionHelpFormatter)
    ways = parser.add_mutually_exclusive_group()
    ways.add_argument("--check", action="store_true")
    ways.add_argument("--compare", action="store_true")
    ways.add_argument("--into", metavar="FOLDER")
    ways.add_argument("--path", metavar="NAME")
    options = parser.parse_args()
    try:
        if options.path:
            print(path_of(options.path))
            return 0
        if options.into:
            said = write_into(options.into)
        else:
            said = check() if options.check else compare() if options.compare else write()
    except (Fault, subprocess.CalledProcessError) as fault:
        print(f"embedded: {fault}", file=sys.stderr)
        return 1
    print(f"embedded: {said}")
    return 0


if __name__ == "__main__":
    sys.exit(main())
