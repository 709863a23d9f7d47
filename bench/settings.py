#!/usr/bin/env python3
"""Measures how the settings of a request are taken from a configuration, from outside.

Runs the built program with two counts and takes the difference, so that making the configuration costs nothing: instructions
by callgrind and allocations by memcheck for each call, of the global block alone and of all blocks by the index, for
configurations of some blocks and media types. It fails where a call allocates.

Build first: cd crates/bench_settings && rt run -- 10 100 2 1
"""
import sys

from measuring import Program

TIMES = 1_000
SIZES = ((1, 100), (10, 100), (10, 1_000), (100, 100))


def main():
    program = Program("bench_settings")
    print("blocks  types   instructions a call: global block   by the index   allocations a call")
    allocated = 0
    for blocks, types in SIZES:
        none = program.instructions(blocks, types, 0, 0)
        scan = (program.instructions(blocks, types, TIMES, 0) - none) / TIMES
        find = (program.instructions(blocks, types, 0, TIMES) - none) / TIMES
        some = program.allocations(blocks, types, TIMES, TIMES) - program.allocations(blocks, types, 0, 0)
        allocated += some
        print(f"{blocks:6} {types:6} {scan:35.0f} {find:14.0f} {some / (2 * TIMES):20.3f}")
    if allocated:
        sys.exit("settings are taken with allocations")


main()
