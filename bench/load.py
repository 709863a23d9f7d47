#!/usr/bin/env python3
"""Times the loading of configurations with media types, from outside.

For 100 and 1,000 media types in one array: runs the built program with two counts and takes the difference, so that
starting it and making the text cost nothing. Nanoseconds of processor time an entry, the least of some runs, and the
ratio of the two, which is below 1.5 where the work grows linearly.

Build first: cd crates/bench_load && rt run -- 100 2
"""
import sys

from measuring import Program

WORK = 400_000
RUNS = 7
MOST_RATIO = 1.5


def main():
    program = Program("bench_load")
    print("types    ns an entry")
    costs = []
    for types in (100, 1_000):
        times = WORK // types
        start = program.seconds(RUNS, types, 0)
        whole = program.seconds(RUNS, types, times)
        costs.append((whole - start) / (types * times) * 1e9)
        print(f"{types:5} {costs[-1]:13.1f}")
    ratio = max(costs) / min(costs)
    print(f"ratio {ratio:.2f}")
    if ratio >= MOST_RATIO:
        sys.exit("an entry of one number of media types takes half as long again as one of the other")


main()
