"""How fast a command does its work, by the processor time of some rounds more than one. The benches use it."""

import resource
import subprocess
import sys


def spent(command, data=None, **options):
    """The processor seconds of a command with this input, and what it printed; it has to end with status 0, save where told else."""
    before = resource.getrusage(resource.RUSAGE_CHILDREN)
    printed = subprocess.run(command, input=data, stdout=subprocess.PIPE, **{"check": True, **options}).stdout
    after = resource.getrusage(resource.RUSAGE_CHILDREN)
    return after.ru_utime + after.ru_stime - before.ru_utime - before.ru_stime, printed


def seconds(command):
    """The processor time of a command, and the numbers that it prints."""
    time, printed = spent(command)
    return time, [int(word) for word in printed.split()]


def speed(command, count, rounds, turns, want):
    """Millions a second, of `count` a round, over so many rounds more than one: the least time of some turns of one round is taken off
    that of all. `command` gives the words for a number of rounds; for one round it has to print the numbers that are wanted."""
    ones, alls = [], []
    for _ in range(turns):
        one, answer = seconds(command("1"))
        if answer != want:
            sys.exit(f"{command('1')} prints {answer} in place of {want}")
        ones.append(one)
        alls.append(seconds(command(str(1 + rounds)))[0])
    return count * rounds / max(min(alls) - min(ones), 1e-9) / 1e6
