"""The assembly of the program, for who wants to read what runs, or to build it by other tools.

The kit compiles a proved program as one module, by the clang in its folder `toolchain`. Here it gets a toolchain of which clang
also writes the assembly of what it is given. What the kit's clang makes of that text has to be the object that it made of the
module, and linked it has to be the program, byte for byte.
"""

import contextlib
import sys
import tempfile

from compiling import TARGET, Fault, call, loaded, put_toolchain, read

CLANG = """
if "-c" in words and "-o" in words:
    other = ["-S" if it == "-c" else it for it in words]
    other[other.index("-o") + 1] = {assembly!r}
    subprocess.run([clang, *other], check=True)
"""


def of_program(top, name, kit, program):
    """The assembly of a program of the checkout `top`, which was proved here. Raises `Fault` where it is not that of these bytes."""
    rtlib = loaded(f"{kit}/bin/rtlib.py")
    crate = next(it for it in rtlib.crates_below(top) if it.name == name)
    with tempfile.TemporaryDirectory() as room:
        put_toolchain(f"{room}/toolchain", kit, CLANG.format(assembly=f"{room}/made.s"))
        with contextlib.redirect_stdout(sys.stderr):
            words = crate.words(["--jobs", "2"])
        words += ["--toolchain", f"{room}/toolchain", "--backend", "llvm", *rtlib.KEPT, "-o", f"{room}/made.o"]
        call("rattle build", rtlib.RATTLE, "build", *words, cwd=crate.folder)
        clang = f"{kit}/toolchain/bin/clang"
        call("clang", clang, f"--target={TARGET}", "-march=x86-64-v2", "--no-default-config", "-c", f"{room}/made.s", "-o", f"{room}/again.o")
        if read(f"{room}/made.o") != read(f"{room}/again.o"):
            raise Fault("the kit's clang makes another object of the assembly than of the program")
        archives = [f"{kit}/c/{it}" for it in ("libos_c.a", "liblibc_c.a")]
        call("rattle-link", f"{kit}/bin/rattle-link", "--target", TARGET, "--toolchain", f"{kit}/toolchain", "-o", f"{room}/again", f"{room}/again.o", *archives)
        if read(f"{room}/again") != program:
            raise Fault("another program comes of the assembly than was proved here")
        return read(f"{room}/made.s")
