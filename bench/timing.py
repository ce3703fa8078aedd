"""User time of programs that read a file and print, in rounds, and a table of ratios: for bench/run and bench/grids."""

import os
import subprocess
import sys
import tempfile

ROUNDS = 10


# User time of a program that reads a file, in seconds, and what it prints
def user_time(command, stream):
    with tempfile.TemporaryFile() as out, open(stream, "rb") as given:
        program = subprocess.Popen(command, stdin=given, stdout=out)
        _, status, usage = os.wait4(program.pid, 0)
        if status != 0:
            sys.exit(f"{command[0]} failed")
        out.seek(0)
        return usage.ru_utime, out.read()


# User time of each way on a stream, the mean of all rounds, and what each printed. The system counts user time in
# ticks, so that a short run alone says little. The rounds go through all in turn, so that what else the machine does
# falls on all alike
def timed(ways, stream):
    total = dict.fromkeys(ways, 0.0)
    printed = {}
    for _ in range(ROUNDS):
        for way, command in ways.items():
            seconds, printed[way] = user_time(command, stream)
            total[way] += seconds
    return {way: seconds / ROUNDS for way, seconds in total.items()}, printed


def heading(ways):
    print(f"{'ns a byte':10}" + "".join(f"{w:>15}" for w in ways) + "".join(f"{'/ ' + w:>13}" for w in list(ways)[1:]))


def line(name, mean, size):
    if 0 in mean.values():
        sys.exit(f"{name}: too short to be timed")
    times = [t / size * 1e9 for t in mean.values()]
    print(f"{name:10}" + "".join(f"{t:15.2f}" for t in times) + "".join(f"{times[0] / t:13.2f}" for t in times[1:]))


# Builds a C file at -O2
def build(source, target, *words):
    subprocess.run([os.environ.get("CC", "cc"), "-O2", *words, source, "-o", target], check=True)
