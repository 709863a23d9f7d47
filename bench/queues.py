#!/usr/bin/env python3
"""Times pushes and takes on both chunk queues, from outside.

Runs the built program with two counts and takes the difference, so that starting it costs nothing: nanoseconds of
processor time for a push and a take, the least of some runs, and instructions by callgrind. It fails where a pooled push
of 4,096 bytes with its take costs more than twice the instructions of copying them.

Build first: cd crates/bench_queues && rt run -- 3 2 1 100
"""
import sys

from measuring import Program

FEW, MANY = 100, 10_100
CALLS = 1_000_000
RUNS = 5


def words(kind, times, size):
    """The words of one run: only one of the three is done."""
    counts = [0, 0, 0]
    counts[kind] = times
    return [*counts, size]


def main():
    program = Program("bench_queues")
    print("push and take                ns   MB/s  instructions  a byte")
    cost = {}
    for size in (64, 4096):
        for kind, name in enumerate(["plain queue", "pooled queue", "copy alone"]):
            start = program.seconds(RUNS, *words(kind, 0, size))
            whole = program.seconds(RUNS, *words(kind, CALLS, size))
            few = program.instructions(*words(kind, FEW, size))
            many = program.instructions(*words(kind, MANY, size))
            each = (whole - start) / CALLS
            cost[kind, size] = (many - few) / (MANY - FEW)
            print(f"{name:13} {size:5} bytes {each * 1e9:8.0f} {size / each / 1e6:6.0f} {cost[kind, size]:13.0f} {cost[kind, size] / size:7.2f}")
    if cost[1, 4096] > 2 * cost[2, 4096]:
        sys.exit("a pooled push costs more than twice a copy")


main()
