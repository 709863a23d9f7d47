#!/usr/bin/env python3
"""Times the reading of request heads and paths, and of a byte of a head that comes byte by byte, from outside.

Runs the built program with two counts and takes the difference, so that starting it costs nothing: nanoseconds of
processor time, the least of some runs, instructions by callgrind, and allocations by memcheck. Each word of the command
line is the top of another checkout whose program is built, as of an older state: the programs are run in turn, so that
what else the machine does falls on each alike.

Build first: cd crates/bench_heads && rt run -- 3 2 1
"""
import sys

from measuring import ROOT, Program

RUNS = 9
# A head of 8,192 bytes isn't whole before its last byte.
SLOW_BYTES = 8_191
# What is called, how often for a count, and the counts: for instructions and allocations two, for the time one.
ROWS = [
    ("read_head, a browser's head", 0, 1, 100, 1_100, 200_000),
    ("normal, a path of 1,000 bytes", 1, 1, 100, 1_100, 200_000),
    ("a byte of a head of 8,192", 2, SLOW_BYTES, 1, 5, 200),
]


def counts(row, n):
    """The words of a call that does this row's work n times."""
    return [n if row == other else 0 for other in range(len(ROWS))]


def main():
    programs = [Program("bench_heads", top) for top in [ROOT, *sys.argv[1:]]]
    print("call                                     ns  instructions  allocations")
    for name, row, parts, few, many, calls in ROWS:
        starts, wholes = [[] for _ in programs], [[] for _ in programs]
        for _ in range(RUNS):
            for program, start, whole in zip(programs, starts, wholes):
                start.append(program.seconds(1, *counts(row, 0)))
                whole.append(program.seconds(1, *counts(row, calls)))
        for program, start, whole in zip(programs, starts, wholes):
            seconds = (min(whole) - min(start)) / (calls * parts)
            done = [program.instructions(*counts(row, n)) for n in (few, many)]
            taken = [program.allocations(*counts(row, n)) for n in (few, many)]
            each = (many - few) * parts
            print(
                f"{name:34} {seconds * 1e9:8.1f} {(done[1] - done[0]) / each:13.1f} {(taken[1] - taken[0]) / each:12.3f}  {program.top}"
            )


main()
