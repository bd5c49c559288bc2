#!/usr/bin/env python3
"""Refuses an abstract machine that rests on more than it may: tests/texts/machine.py

What must be believed stands in one folder, crates/alta_machine/specs. Its files cite the kit's libraries, alta_codec and alta_text alone,
so that whoever reads the folder, and of these two what it cites, has read all that the machine's step comes to. `specs/Lib.antt` has
the files in the order of reading: each cites those before it alone.
"""

import os
import re
import sys

MACHINE = "alta_machine"
BELOW = ("alta_codec", "alta_text")
USE = re.compile(r"^(?:pub |unfoldable pub )?use Rattle\.(\w+)\.(\w+)\.(\w+)", re.MULTILINE)


def faults(folder):
    """What is wrong in the folder of the machine's definitions."""
    with open(f"{folder}/Lib.antt", encoding="utf-8") as file:
        order = re.findall(r"^pub mod (\w+)$", file.read(), re.MULTILINE)
    there = {name[:-5] for name in os.listdir(folder) if name.endswith(".antt")} - {"Lib"}
    found = [f"Lib: names {len(order)} files, and the folder has {len(there)}"] if not order or set(order) != there else []
    for place, name in enumerate(order):
        with open(f"{folder}/{name}.antt", encoding="utf-8") as file:
            text = file.read()
        for crate, kind, module in USE.findall(text):
            if crate.startswith(("alta_", "check_", "bench_")) and crate not in BELOW + (MACHINE,):
                found.append(f"{name}: cites {crate}")
            if crate == MACHINE and kind == "specs" and module != "declared" and module not in order[:place]:
                found.append(f"{name}: cites {module}, which does not stand before it")
    return found


def main():
    top = os.path.dirname(os.path.dirname(os.path.dirname(os.path.abspath(__file__))))
    found = faults(f"{top}/crates/{MACHINE}/specs")
    for fault in found:
        print(f"machine: {fault}")
    return 1 if found else 0


if __name__ == "__main__":
    sys.exit(main())
