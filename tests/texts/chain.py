#!/usr/bin/env python3
"""Refuses a chain of crates that is too long: tests/texts/chain.py

A crate's chain is the crate, one that it stands on, one that this stands on, and so on. The longest may have LONGEST crates, so
that a reader comes from the program to the bottom in so many steps and a change is proved again through no more of them.
The session's is the dearest check: its answers to queries stand in a crate of their own, alta_replies, so that its halves are proved side by
side, and the tenth crate is for them. Crates that hold only tests or measurements (check_, bench_) and those of the kit are left out.
"""

import os
import sys

LONGEST = 10


def crates_of(text):
    """Each crate of crates.txt with those of the repository that it stands on."""
    lines = [line.split("#")[0].strip() for line in text.splitlines()]
    named = [line.split(":") for line in lines if line]
    needs = {name.split()[0]: rest.split() for name, rest in named}
    product = [name for name in needs if not name.startswith(("check_", "bench_"))]
    return {name: [need for need in needs[name] if need in product] for name in product}


def longest_chain(needs):
    """The longest list of crates of which each stands on the next."""
    chains = {}

    def chain_of(name):
        if name not in chains:
            chains[name] = [name] + max((chain_of(need) for need in needs[name]), key=len, default=[])
        return chains[name]

    return max((chain_of(name) for name in sorted(needs)), key=len, default=[])


def main():
    top = os.path.dirname(os.path.dirname(os.path.dirname(os.path.abspath(__file__))))
    with open(os.path.join(top, "crates.txt"), encoding="utf-8") as file:
        chain = longest_chain(crates_of(file.read()))
    print("chain: %d crates, at most %d: %s" % (len(chain), LONGEST, " ".join(chain)))
    return 0 if len(chain) <= LONGEST else 1


if __name__ == "__main__":
    sys.exit(main())
