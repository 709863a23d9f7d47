#!/usr/bin/env python3
"""Processor minutes of the gate, a crate each.

    python3 bench/minutes.py record   runs .ci/run, and keeps what each crate's checks cost in out/minutes.json
    python3 bench/minutes.py          prints a table of the last whole run that passed

The prover's processes name their crate. Every half second each one's processor time is read, so the last half second
of a process may be missing.
"""
import json
import os
import subprocess
import sys
import time

TOP = os.path.dirname(os.path.dirname(os.path.abspath(__file__)))
KEPT = os.path.join(TOP, "out", "minutes.json")
TICKS = os.sysconf("SC_CLK_TCK")


def crates():
    """The crates of this repository, in the order of crates.txt."""
    with open(os.path.join(TOP, "crates.txt")) as lines:
        return [line.split(":")[0] for line in lines if ":" in line and not line.startswith("#")]


def crate_of(words):
    """The crate that a process of the prover works on."""
    return next((name for word, name in zip(words, words[1:]) if word == "--crate-name"), None)


def processes():
    """Each process by its number, with the fields of proc(5)'s stat from the third on."""
    found = {}
    for pid in filter(str.isdigit, os.listdir("/proc")):
        try:
            with open(f"/proc/{pid}/stat") as file:
                found[pid] = file.read().rpartition(")")[2].split()
        except OSError:
            pass
    return found


def is_below(pid, above, found):
    """Whether a process was started by another, or by one that it started."""
    while pid in found and pid != above:
        pid = found[pid][1]
    return pid == above


def look(gate, seen):
    """Adds to `seen`, by process, the crate and the processor seconds that it has taken so far for this gate."""
    found = processes()
    for pid, fields in found.items():
        try:
            with open(f"/proc/{pid}/cmdline", "rb") as file:
                words = file.read().decode(errors="replace").split("\0")
        except OSError:
            continue
        crate = crate_of(words)
        if words[0].endswith("/rattle") and crate and is_below(pid, gate, found):
            # fields 14 and 15: its time in user and system mode; its start tells it from an older process
            seen[pid, fields[19]] = crate, sum(map(int, fields[11:13])) / TICKS


def record():
    seen = {}
    began = time.time()
    gate = subprocess.Popen(["bash", os.path.join(TOP, ".ci", "run")])
    while gate.poll() is None:
        look(str(gate.pid), seen)
        time.sleep(0.5)
    minutes = {}
    for crate, seconds in seen.values():
        minutes[crate] = minutes.get(crate, 0) + seconds / 60
    if gate.returncode == 0:
        os.makedirs(os.path.dirname(KEPT), exist_ok=True)
        with open(KEPT, "w") as file:
            json.dump({"clock": (time.time() - began) / 60, "minutes": minutes}, file)
    return gate.returncode


def show():
    if not os.path.exists(KEPT):
        sys.exit("no whole run was recorded here: make prove")
    with open(KEPT) as file:
        kept = json.load(file)
    print("| Crate | Minutes |\n|---|---|")
    for crate in crates():
        print(f"| `{crate}` | {kept['minutes'].get(crate, 0):.1f} |")
    print(f"| all | {sum(kept['minutes'].values()):.0f}, {kept['clock']:.0f} of the clock |")
    return 0


if __name__ == "__main__":
    sys.exit(record() if sys.argv[1:] == ["record"] else show())
