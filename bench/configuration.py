#!/usr/bin/env python3
"""Times the reading and printing of configuration texts, from outside.

For texts of 1 KiB, 32 KiB and 1 MiB: runs the built program with two counts and takes the difference, so that starting
it and making the text cost nothing. Nanoseconds of processor time a byte, the least of some runs, and the ratio of the
dearest byte to the cheapest, which is below 1.5 where the work grows linearly.

Build first: cd crates/bench_conf && rt run -- 600 2
"""
import sys

from measuring import Program

WORK = 8 << 20
RUNS = 5
MOST_RATIO = 1.5


def main():
    program = Program("bench_conf")
    print("bytes       ns a byte")
    costs = []
    for size in (1 << 10, 32 << 10, 1 << 20):
        times = WORK // size
        start = program.seconds(RUNS, size, 0)
        whole = program.seconds(RUNS, size, times)
        costs.append((whole - start) / (size * times) * 1e9)
        print(f"{size:9} {costs[-1]:11.1f}")
    ratio = max(costs) / min(costs)
    print(f"ratio {ratio:.2f}")
    if ratio >= MOST_RATIO:
        sys.exit("a byte of one size takes half as long again as one of another")


main()
