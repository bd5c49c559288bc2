"""WebAssembly of the module that a proved build of `alta_embed` has handed to its compiler.

The module is made for x86-64. Here it gets the layout and the target of a 64-bit WebAssembly; the one instruction of x86-64 that it
names is spelled out byte by byte. The kit's own clang compiles it and the heap beside this file, and the kit's own linker makes one
module of both. For hosts without a 64-bit memory Binaryen's `wasm-opt` lowers that to a 32-bit one. Each step is checked, and raises
`Fault` where it finds something else than it expects.
"""

import os
import re
import shutil

from compiling import Fault, call, read

HERE = os.path.dirname(os.path.realpath(__file__))
TARGET = "wasm64-unknown-unknown"
LAYOUT = "e-m:e-p:64:64-p10:8:8-p20:8:8-i64:64-i128:128-n32:64-S128-ni:1:10:20"
NATIVE_TARGET = "x86_64-unknown-linux-gnu"
NATIVE_LAYOUT = "e-m:e-p270:32:32-p271:32:32-p272:64:64-i64:64-i128:128-f80:128-n8:16:32:64-S128"
# The features that all browsers have had for years, by the name that LLVM gives them.
PROCESSOR = "lime1"
FEATURES = ("memory64", "bulk-memory", "mutable-globals", "sign-ext", "nontrapping-float-to-int", "multivalue")
NATIVE = r'"probe-stack"="inline-asm" "stack-probe-size"="[0-9]+" "target-cpu"="x86-64[a-z0-9-]*"'
ENTRY = "alta_embed_answer"
HEAP = ("rattle_alloc", "rattle_dealloc", "rattle_realloc")
SHUFFLE = "llvm.x86.ssse3.pshuf.b.128"
FUNCTION, MEMORY = 0, 2
EXPORTS = {"memory": MEMORY, ENTRY: FUNCTION, "malloc": FUNCTION, "free": FUNCTION}
STACK = 8 << 20


def replaced(text, pattern, other, many, what):
    """The text with each match replaced; there have to be so many, or at least one where `many` is None."""
    text, found = re.subn(pattern, lambda _: other, text, flags=re.MULTILINE)
    if found != many and (many is not None or not found):
        raise Fault(f"the module has {what} {found} times")
    return text


def spelled_shuffle():
    """A shuffle by bytes: where the highest bit of an index is set 0, else that byte of the table which its lowest four bits name."""
    lines = ["define internal <16 x i8> @shuffled(<16 x i8> %table, <16 x i8> %indexes) alwaysinline {"]
    lines += ["  %bytes = alloca <16 x i8>, align 16", "  store <16 x i8> %table, ptr %bytes, align 16"]
    made = "zeroinitializer"
    for k in range(16):
        lines += [
            f"  %index{k} = extractelement <16 x i8> %indexes, i32 {k}",
            f"  %none{k} = icmp slt i8 %index{k}, 0",
            f"  %low{k} = and i8 %index{k}, 15",
            f"  %wide{k} = zext i8 %low{k} to i64",
            f"  %place{k} = getelementptr i8, ptr %bytes, i64 %wide{k}",
            f"  %there{k} = load i8, ptr %place{k}, align 1",
            f"  %byte{k} = select i1 %none{k}, i8 0, i8 %there{k}",
            f"  %made{k} = insertelement <16 x i8> {made}, i8 %byte{k}, i32 {k}",
        ]
        made = f"%made{k}"
    return "\n".join([*lines, f"  ret <16 x i8> {made}", "}"])


def retargeted(text):
    """The text of the module for WebAssembly."""
    text = replaced(text, f'^target datalayout = "{re.escape(NATIVE_LAYOUT)}"$', f'target datalayout = "{LAYOUT}"', 1, "its layout")
    text = replaced(text, f'^target triple = "{NATIVE_TARGET}"$', f'target triple = "{TARGET}"', 1, "its target")
    text = replaced(text, NATIVE, f'"target-cpu"="{PROCESSOR}"', None, "its processor")
    if SHUFFLE in text:
        text = replaced(text, rf"^declare <16 x i8> @{re.escape(SHUFFLE)}\(.*$", spelled_shuffle(), 1, "the shuffle declared")
        text = text.replace(f"@{SHUFFLE}", "@shuffled")
    if "x86" in text:
        raise Fault("the module names something else of x86-64: " + text[text.index("x86") - 80 :][:160])
    needs(text)
    return text


def needs(text):
    """The module calls the heap, and nothing else that is not its own; it gives one function."""
    called = {it for it in re.findall(r'^declare [^@]*@"?([\w.:]+)"?\(', text, re.MULTILINE) if not it.startswith("llvm.")}
    given = set(re.findall(r'^define (?!internal|private)[^@]*@"?([\w.:]+)"?\(', text, re.MULTILINE))
    if called != set(HEAP):
        raise Fault(f"the module calls {', '.join(sorted(called))}, and not {', '.join(HEAP)}")
    if given != {ENTRY}:
        raise Fault(f"the module gives {', '.join(sorted(given))}, and not {ENTRY}")


def number(data, at):
    """The number that stands in the bytes at a place, seven bits a byte, and the place behind it."""
    value = shift = 0
    while True:
        byte = data[at]
        value |= (byte & 127) << shift
        at, shift = at + 1, shift + 7
        if byte < 128:
            return value, at


def sections(wasm):
    """The parts of a WebAssembly module, by their numbers."""
    if wasm[:8] != b"\0asm\1\0\0\0":
        raise Fault("what was linked is no WebAssembly module")
    found, at = {}, 8
    while at < len(wasm):
        kind = wasm[at]
        size, at = number(wasm, at + 1)
        found[kind] = wasm[at : at + size]
        at += size
    return found


def exports(wasm):
    """What a WebAssembly module gives to its host: the kind of each thing, by name."""
    data = sections(wasm).get(7, b"\0")
    many, at = number(data, 0)
    found = {}
    for _ in range(many):
        size, at = number(data, at)
        name, at = data[at : at + size].decode(), at + size
        found[name] = data[at]
        _, at = number(data, at + 1)
    return found


def checked(wasm, is_wide):
    """The module; it has no import, exactly the exports of above, and a memory of this kind."""
    parts = sections(wasm)
    if 2 in parts and number(parts[2], 0)[0]:
        raise Fault("the WebAssembly module has an import")
    if exports(wasm) != EXPORTS:
        raise Fault(f"the WebAssembly module exports {', '.join(exports(wasm))}, and not {', '.join(EXPORTS)}")
    many, at = number(parts[5], 0)
    flags, _ = number(parts[5], at)
    if many != 1 or bool(flags & 4) != is_wide:
        raise Fault(f"the memory of the WebAssembly module has the flags {flags}")
    return wasm


def wide(module, kit, room):
    """The WebAssembly module with a 64-bit memory; `room` is an empty folder for what stands in between."""
    clang = f"{kit}/toolchain/bin/clang"
    common = ["-mcpu=" + PROCESSOR, f"--target={TARGET}", "--no-default-config", "-Werror", "-c"]
    call("clang", clang, "-x", "ir", "-S", "-emit-llvm", "-Xclang", "-disable-llvm-passes", "--no-default-config", module, "-o", f"{room}/native.ll")
    text = retargeted(read(f"{room}/native.ll").decode("utf-8", "surrogateescape"))
    with open(f"{room}/wide.ll", "wb") as file:
        file.write(text.encode("utf-8", "surrogateescape"))
    call("clang", clang, *common, "-O3", "-Xclang", "-fmerge-functions", "-mllvm", "-mergefunc-use-aliases", "-x", "ir", f"{room}/wide.ll", "-o", f"{room}/wide.o")
    call("clang", clang, *common, "-O2", "-Wall", "-Wextra", "-ffreestanding", "-fno-builtin", "-nostdlibinc", f"{HERE}/heap.c", "-o", f"{room}/heap.o")
    given = [f"--export={name}" for name, kind in EXPORTS.items() if kind == FUNCTION]
    stack = ["-z", f"stack-size={STACK}", "--stack-first"]
    # The kit's clang is its linker too, by the name that it is called by.
    words = ["wasm-ld", "-mwasm64", "--no-entry", *given, *stack, "--gc-sections", "--strip-all", "--fatal-warnings", "--threads=1"]
    call("wasm-ld", *words, f"{room}/wide.o", f"{room}/heap.o", "-o", f"{room}/wide.wasm", executable=clang)
    return checked(read(f"{room}/wide.wasm"), True)


def narrow(wasm, room):
    """The same module with a 32-bit memory."""
    if shutil.which("wasm-opt") is None:
        raise Fault("the command wasm-opt is missing (Debian: apt-get install binaryen)")
    with open(f"{room}/from.wasm", "wb") as file:
        file.write(wasm)
    features = [f"--enable-{it}" for it in FEATURES]
    call("wasm-opt", "wasm-opt", *features, "--memory64-lowering", "-O1", f"{room}/from.wasm", "-o", f"{room}/narrow.wasm")
    return checked(read(f"{room}/narrow.wasm"), False)
