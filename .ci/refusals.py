#!/usr/bin/env python3
"""Refuses a wrong body whose refusal shows nothing: .ci/refusals.py [LOG]

LOG is what `rt ci` or `rt must-fail` has printed; without it, this runs `rt must-fail` for all crates. Both print the line of an edit
also where they keep what an earlier run came to, so each edit has to have one. The last line says how many were tried in that run, and
how many were kept.

Each wrong body is a file crates/NAME/must-fail/EDIT.edit. Its line `clause: WORD` names what it breaks: a clause of a contract
(`lazy`), `returns` where the function's one clause has no name, or the label of the loop whose invariant it breaks. The prover's
first line on an edit has to be about a goal of that clause, in one of two ways: the search does not prove the goal, or the
arithmetic of its proof fails at values that the line gives. A refusal counts for nothing where a proof file names what the edit
took away, where a proof file does not fit the new text, or where a goal of another clause fails first: a right body might be
refused in the same way.
"""

import glob
import os
import re
import subprocess
import sys

MOST = 29

TRIED = re.compile(r"(?:rt: )?must-fail (\w+)/([\w.-]+)\.edit: (.*)")
KEPT = re.compile(r"(?:rt: )?\w+: (\d+) of its \d+ must-fail edits were tried by an earlier run on this machine")
REFUSED = "refused, as it must be"
NAMES = "only because a proof file names what the edit took away"
CLAUSE = re.compile(r"^clause: (\S+)$", re.MULTILINE)
OPEN = re.compile(r"it is not proved that .*?\(`([\w-]+)")
FALSE = re.compile(r"error: `([\w-]+)`: `omega`: the goal ")


def edits_in(top):
    """The clause that each edit names, None where it names none, by (crate, edit)."""
    found = {}
    for path in glob.glob(os.path.join(top, "crates", "*", "must-fail", "*.edit")):
        with open(path, encoding="utf-8") as file:
            clauses = CLAUSE.findall(file.read())
        crate = os.path.basename(os.path.dirname(os.path.dirname(path)))
        found[crate, os.path.splitext(os.path.basename(path))[0]] = clauses[0] if len(clauses) == 1 else None
    return found


def is_of(goal, clause):
    """Whether a goal is one of a clause, of a function's only clause (`returns`), or of the invariant of a loop."""
    if clause == "returns":
        return "returns" in goal.split("-") and "-clause-" not in goal
    return f"-clause-{clause}-" in f"{goal}-" or any(f"-{clause}-{when}-" in f"-{goal}-" for when in ("init", "preserved"))


def fault_of(said, clause):
    """Why what the prover said of an edit does not show that the clause refuses it; None where it does."""
    if clause is None:
        return "it has not one line `clause: WORD`"
    if not said.startswith(REFUSED):
        return said[:120]
    if NAMES in said:
        return "refused by a name alone, which a proof file misses"
    goal = OPEN.search(said) or FALSE.search(said)
    if not goal:
        return f"refused by the text of a proof, and no goal fails: {said[:200]}"
    if not is_of(goal[1], clause):
        return f"refused by `{goal[1]}`, and not by the clause {clause}"
    return None


def faults_in(lines, edits):
    """What is wrong with the edits, of which each has to be in these lines."""
    said = {(match[1], match[2]): match[3] for match in map(TRIED.match, lines) if match}
    faults = [] if edits else ["there is no wrong body"]
    faults += [f"{crate}/{edit}: not tried" for crate, edit in sorted(edits.keys() - said.keys())]
    for crate, edit in sorted(edits.keys() & said.keys()):
        why = fault_of(said[crate, edit], edits[crate, edit])
        faults += [f"{crate}/{edit}: {why}"] if why else []
    return faults + ([f"{len(edits)} wrong bodies, where {MOST} are the most"] if len(edits) > MOST else [])


def counts_in(lines):
    """How many edits were tried in the run of these lines, and of how many it kept what an earlier run came to."""
    kept = sum(int(match[1]) for match in map(KEPT.match, lines) if match)
    return sum(bool(TRIED.match(line)) for line in lines) - kept, kept


def test_itself():
    """A line for each way to be refused, with the clause that the edit names and whether that shows something."""
    note = "refused, as it must be: note: src/a.rt:5:1: it is not proved that what the function ensures holds when it returns "
    rows = [
        (note + "(`returns-in-Some-clause-lazy`)", "lazy", True),
        (note + "(`returns-clause-lazy-2`); `search` gave up", "lazy", True),
        (note + "(`returns-clause-lazy`)", "more", False),
        (note + "(`returns-then-n-lt256`)", "returns", True),
        (note + "(`returns-clause-lazy`)", "returns", False),
        ("refused, as it must be: note: src/a.rt:5:1: it is not proved that the invariant of the loop holds (`halve-preserved-then-to`)", "halve", True),
        ("refused, as it must be: ./proofs/a/Answers.antt:8:3: error: `seek-requires-clause-near`: `omega`: the goal does not follow", "near", True),
        ("refused, as it must be: ./proofs/a/Answers.antt:8:3: error: `returns-clause-near`: as printed, the two types differ", "near", False),
        (f"refused, as it must be ({NAMES}, so this says little): proofs/a/Answers.antt:1:1: error: `returns-clause-near`: no name", "near", False),
        ("NOT REFUSED: the crate is still proved with this edit", "near", False),
        (note + "(`returns`)", None, False),
    ]
    for said, clause, shows in rows:
        if (fault_of(said, clause) is None) != shows:
            raise SystemExit(f"refusals: the check itself fails: {said} {clause}")
    edits = {("a", "one"): "lazy", ("a", "two"): "lazy"}
    lines = ["rt: must-fail a/one.edit: " + rows[0][0], "rt: a proved"]
    if faults_in(lines, edits) != ["a/two: not tried"] or not faults_in(lines, {}):
        raise SystemExit("refusals: the check itself fails: not tried")
    earlier = "rt: a: 1 of its 2 must-fail edits were tried by an earlier run on this machine, and nothing that they stand on has changed"
    if counts_in([earlier, *lines, "rt: must-fail a/two.edit: " + rows[0][0]]) != (1, 1):
        raise SystemExit("refusals: the check itself fails: kept")


def main():
    test_itself()
    top = os.path.dirname(os.path.dirname(os.path.abspath(__file__)))
    if len(sys.argv) > 1:
        with open(sys.argv[1], encoding="utf-8", errors="replace") as file:
            lines = file.read().splitlines()
    else:
        lines = subprocess.run(["rt", "must-fail"], cwd=top, stdout=subprocess.PIPE, text=True, errors="replace").stdout.splitlines()
    edits = edits_in(top)
    faults = faults_in(lines, edits)
    for fault in faults:
        print(f"refusals: {fault}")
    tried, kept = counts_in(lines)
    print(f"refusals: {len(edits)} wrong bodies, {tried} tried now and {kept} kept from earlier runs, {len(faults)} faults")
    return 1 if faults else 0


if __name__ == "__main__":
    sys.exit(main())
