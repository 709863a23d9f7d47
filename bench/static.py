#!/usr/bin/env python3
"""Measures what the media type of a path costs, from outside.

Runs the built program with two counts and takes the difference, so that making the table and its index costs nothing:
instructions by callgrind and allocations by memcheck for each call, the mean of four paths, by a look at all types and by the
index. It fails where a call by the index allocates, or where one in 1,000 types costs more than 1.5 times one in ten.

Build first: cd crates/bench_static && rt run -- 10 2 1
"""
import sys

from measuring import Program

TIMES = 1_000
PATHS = 4
TYPES = (10, 100, 1_000)
MOST = 1.5


def main():
    program = Program("bench_static")
    print("types   instructions a call: all types   by the index   allocations a call")
    allocated = 0
    costs = []
    for types in TYPES:
        none = program.instructions(types, 0, 0)
        scan = (program.instructions(types, TIMES, 0) - none) / (TIMES * PATHS)
        find = (program.instructions(types, 0, TIMES) - none) / (TIMES * PATHS)
        some = program.allocations(types, TIMES, TIMES) - program.allocations(types, 0, 0)
        allocated += some
        costs.append(find)
        print(f"{types:5} {scan:32.0f} {find:14.0f} {some / (2 * TIMES * PATHS):20.3f}")
    ratio = costs[-1] / costs[0]
    print(f"by the index a call in {TYPES[-1]} types costs {ratio:.2f} times one in {TYPES[0]}")
    if allocated:
        sys.exit("media types are found with allocations")
    if ratio > MOST:
        sys.exit("media types cost more in a long table")


main()
