#!/usr/bin/env python3
"""Measures the reader of an application's records, from outside.

Runs the built program with two counts and takes the difference, so that starting it costs nothing. For 1 MiB of STDOUT in
records of some sizes: instructions by callgrind for each byte of content, of reading the stream and of holding it as it
comes, and how many bytes are copied into buffers for each byte of the stream. It fails where a byte is copied more than
twice: once as it comes, and once as it moves.

Build first: cd crates/bench_records && rt run -- 3 2 100
"""
import subprocess
import sys

from measuring import Program

CONTENT = 1_048_576
READ = 4_096
HEADER = 8
SIZES = (1, 100, 32_768)


def reads_of(size):
    """How many reads have the content."""
    stream = CONTENT // size * (size + HEADER)
    return -(-stream // READ)


def main():
    program = Program("bench_records")
    print("records of   a byte of content: reading  holding   copies a byte of the stream")
    worst = 0
    for size in SIZES:
        reads = reads_of(size)
        none = program.instructions(0, 0, size)
        reading = (program.instructions(reads, 0, size) - none) / CONTENT
        holding = (program.instructions(0, reads, size) - none) / CONTENT
        told = subprocess.run([program.path, str(reads), "0", str(size)], capture_output=True, text=True, check=True)
        copies = int(told.stdout.split()[2]) / (reads * READ)
        worst = max(worst, copies)
        print(f"{size:10} {reading:28.1f} {holding:8.1f} {copies:12.3f}")
    if worst > 2:
        sys.exit("a byte is copied more than twice")


main()
