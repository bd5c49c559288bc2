#!/usr/bin/env python3
"""Refuses a test that the gate does not run, and one that it names and that is not there: tests/texts/gate.py

Each script of tests/ and tests/texts/ that can be run by itself is named in .ci/run, in a line that is no comment. The stand-in for the
program is run by other tests.
"""

import glob
import os
import re

TOP = os.path.dirname(os.path.dirname(os.path.dirname(os.path.abspath(__file__))))
SCRIPT = re.compile(r"\b(?:tests|bench)/(?:\w+/)*\w+\.py\b")
STAND_IN = "tests/fake.py"
STARTS = '__name__ == "__main__"'


def content(path):
    with open(os.path.join(TOP, path), encoding="utf-8") as file:
        return file.read()


def scripts():
    """The scripts that can be run by themselves."""
    found = [os.path.relpath(path, TOP) for folder in ("tests", "tests/texts") for path in glob.glob(os.path.join(TOP, folder, "*.py"))]
    return {path for path in found if path != STAND_IN and STARTS in content(path)}


def main():
    lines = [line for line in content(".ci/run").splitlines() if not line.lstrip().startswith("#")]
    named = set(SCRIPT.findall("\n".join(lines)))
    faults = [f"gate: .ci/run does not run {path}" for path in sorted(scripts() - named)]
    faults += [f"gate: .ci/run names {path}, which is not there" for path in sorted(named) if not os.path.exists(os.path.join(TOP, path))]
    print("\n".join([*faults, f"gate: {len(named)} scripts, {len(faults)} faults"]))
    raise SystemExit(bool(faults) or not named)


if __name__ == "__main__":
    main()
