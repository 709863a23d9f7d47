#!/usr/bin/env python3
"""Measures the reader of an HTTP gateway's answers, from outside.

Runs the built program with two counts and takes the difference, so that starting it costs nothing. For answers of 1 MiB in
chunks of some sizes: instructions by callgrind for each byte of content, and how many bytes are copied into buffers for each
byte of the stream. It fails where a byte is copied more than twice: once as it comes, and once as it moves.

Build first: cd crates/bench_answers && rt run -- 1 100
"""
import subprocess
import sys

from measuring import Program

STREAM = 1_048_576
SIZES = (1, 100, 4_096, 32_768)


def told(program, times, size):
    """The content that came, and the bytes that were copied."""
    ran = subprocess.run([program.path, str(times), str(size)], capture_output=True, text=True, check=True)
    return map(int, ran.stdout.split())


def main():
    program = Program("bench_answers")
    print("chunks of   instructions a byte of content   copies a byte of the stream")
    worst = 0
    for size in SIZES:
        content, copied = told(program, 1, size)
        instructions = program.instructions(2, size) - program.instructions(1, size)
        worst = max(worst, copied / STREAM)
        print(f"{size:9} {instructions / content:32.1f} {copied / STREAM:29.3f}")
    if worst > 2.01:
        sys.exit("a byte is copied more than twice")


main()
