"""Speaks the lines of the program itself, as a client in any other language would: it writes and reads at the same time.

usage: examples/lines.py INDEX, with the program in BUNCOCEDAR_PROGRAM
"""

import os
import subprocess
import sys
import threading

PROGRAM, INDEX = os.environ["BUNCOCEDAR_PROGRAM"], sys.argv[1]
LINES = [b"add n%d\tNote %d\tthe quick red fox\n" % (number, number) for number in range(200)] + [b"count fox\n", b"search title:199\n"]


def write(pipe):
    for line in LINES:
        pipe.write(line)
    pipe.close()


subprocess.run([PROGRAM, INDEX, "init"], check=True)
with subprocess.Popen([PROGRAM, INDEX, "run"], stdin=subprocess.PIPE, stdout=subprocess.PIPE) as program:
    # Who writes all lines first is stuck where neither side reads: pipes take some ten thousand bytes.
    threading.Thread(target=write, args=[program.stdin]).start()
    replies = [line.decode() for line in program.stdout]
# The last line of a reply says that it is the last: `added N`, `found K`, or `! ` and why it was refused.
print(replies[0], *replies[-3:], sep="", end="")
print(f"the program ended with {program.returncode}")
