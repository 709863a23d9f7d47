#!/usr/bin/env python3
"""Runs one script again and again, each time with another request for memory refused: nothing is lost.

The script has pipelined requests, a body in chunks and a write that fails (crates/counted_run/data). The program counts the
server's buffers after each turn, and holds what each client got against what it is to get. Its Nth request for memory is
refused by a malloc of this script's own, for N from 1 on until a run asks for fewer. Each run must end with status 0 and
the line of a run with ample memory, or with status 1 and no line: then the run ended for want of memory, or each client
took a front of what it was to get and was closed for want of memory, or took it whole. Not a part of the gate: it wants a
C compiler.

Build first: cd crates/counted_run && rt run
"""
import os
import subprocess
import sys
import tempfile

from measuring import ROOT, Program

SHIM = r"""
#define _GNU_SOURCE
#include <dlfcn.h>
#include <errno.h>
#include <stdlib.h>

static void *(*made)(size_t), *(*zeroed)(size_t, size_t), *(*grown)(void *, size_t);
static long refused = -2, asked;

/* whether this request is the one that is refused; the first asks for the real functions */
static int is_refused(void) {
    if (refused == -2) {
        refused = -1;
        made = dlsym(RTLD_NEXT, "malloc");
        grown = dlsym(RTLD_NEXT, "realloc");
        char *nth = getenv("REFUSED");
        refused = nth ? atol(nth) : -1;
    }
    return ++asked == refused;
}

void *malloc(size_t size) {
    if (is_refused()) { errno = ENOMEM; return 0; }
    return made(size);
}

void *realloc(void *old, size_t size) {
    if (is_refused()) { errno = ENOMEM; return 0; }
    return grown(old, size);
}
"""
FOLDER = os.path.join(ROOT, "crates", "counted_run", "data")
LINE = "each buffer was counted after each turn, and 0 are left in queues\n"
# So many whole runs one after another ask for memory fewer times than the number that is refused.
ENOUGH = 16


def main():
    program = Program("counted_run")
    with tempfile.TemporaryDirectory() as folder:
        shim = os.path.join(folder, "refused.so")
        with open(os.path.join(folder, "refused.c"), "w", encoding="utf-8") as file:
            file.write(SHIM)
        subprocess.run(["cc", "-shared", "-fPIC", "-O1", "-o", shim, file.name, "-ldl"], check=True)
        short, whole, refused = 0, 0, 0
        while whole < ENOUGH:
            refused += 1
            setting = {**os.environ, "LD_PRELOAD": shim, "REFUSED": str(refused)}
            done = subprocess.run([program.path], cwd=FOLDER, env=setting, capture_output=True, text=True)
            if (done.returncode, done.stdout) == (0, LINE):
                whole += 1
            elif (done.returncode, done.stdout) == (1, ""):
                short, whole = short + 1, 0
            else:
                sys.exit(f"request {refused} refused: status {done.returncode}: {done.stdout}{done.stderr}")
    if not short:
        sys.exit("no request was refused: the program doesn't ask malloc")
    print(f"{refused - ENOUGH} requests refused in turn: {short} runs ended for want of memory, or closed a client so; nothing was lost")


main()
