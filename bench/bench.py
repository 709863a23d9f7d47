#!/usr/bin/env python3
"""Times the benchmark run of the built program, `bench NUMBER`, from outside.

`bench 1000` and `bench 10000` are run in turn: each gives the same three lines again, ten times the clients are served
clean, and neither the time nor the memory of a client grows by more than 1.3. The time and the memory of `bench 1` are
taken off. Each word of the command line is the top of another checkout whose program is measured too.

Build first: make build
"""
import subprocess
import sys

from measuring import ROOT, Program

FEW, MANY = 1_000, 10_000
RUNS = 3
GROWTH = 1.3


def summary(program, clients):
    """The three numbers of a run: the connections, those that ended clean, and the bytes that they took."""
    said = subprocess.run([program.path, "bench", str(clients)], capture_output=True, text=True, check=True).stdout
    names, counts = zip(*(line.split(" ") for line in said.splitlines()))
    if names != ("connections", "clean", "bytes"):
        sys.exit(f"bench {clients} says {said!r}")
    return tuple(map(int, counts))


def measure(top):
    """How the time and the memory of a client grow from few clients to many."""
    program = Program("lighttpd", top)
    seconds, memory = {}, {}
    base = program.seconds(RUNS, "bench", 1), program.memory("bench", 1)
    for clients in (FEW, MANY):
        said = summary(program, clients)
        if said != summary(program, clients):
            sys.exit(f"bench {clients} says other numbers the second time")
        if said[:2] != (clients, clients):
            sys.exit(f"bench {clients}: {said[0]} connections, {said[1]} clean")
        seconds[clients] = (program.seconds(RUNS, "bench", clients) - base[0]) / clients
        memory[clients] = (program.memory("bench", clients) - base[1]) / clients
        print(
            f"bench {clients}: {said[2]} bytes, {seconds[clients] * clients * 1000:.0f} ms, {seconds[clients] * 1e6:.1f} us a client, "
            f"{int(memory[clients] * clients) >> 20} MiB, {memory[clients] / 1024:.1f} KiB a client"
        )
    growth = seconds[MANY] / seconds[FEW], memory[MANY] / memory[FEW]
    print(f"a client of {MANY} against one of {FEW}: {growth[0]:.2f} times the time, {growth[1]:.2f} times the memory")
    return growth


def main():
    for top in sys.argv[1:]:
        print(top, flush=True)
        measure(top)
    if sys.argv[1:]:
        print(ROOT)
    if max(measure(ROOT)) > GROWTH:
        sys.exit(f"a client of {MANY} takes more than {GROWTH} times what one of {FEW} takes")


if __name__ == "__main__":
    main()
