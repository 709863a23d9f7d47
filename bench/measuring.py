"""Runs a program that was built before, and measures it from outside."""
import os
import re
import subprocess
import sys
import tempfile

ROOT = os.path.dirname(os.path.dirname(os.path.abspath(__file__)))

# Starts a program and prints its greatest memory in KiB. That of a child is never below that of the process that starts
# it, and Python's is greater than the server's at its start.
STARTER = """
#include <fcntl.h>
#include <stdio.h>
#include <sys/resource.h>
#include <sys/wait.h>
#include <unistd.h>

int main(int count, char **words) {
    struct rusage usage;
    int status;
    pid_t child = fork();
    if (!child) {
        dup2(open("/dev/null", O_WRONLY), 1);
        execv(words[1], words + 1);
        _exit(127);
    }
    wait4(child, &status, 0, &usage);
    printf("%ld", usage.ru_maxrss);
    return status != 0;
}
"""


class Program:
    """A program of this repository, or of another checkout of it, by the name of its crate."""

    def __init__(self, name, top=ROOT):
        self.top = top
        self.path = os.path.join(top, "crates", name, "out", name)
        if not os.path.exists(self.path):
            sys.exit("build the program first: see the head of this script")

    def memory(self, *words):
        """The greatest memory of one run in bytes."""
        with tempfile.TemporaryDirectory() as folder:
            source, starter = os.path.join(folder, "starter.c"), os.path.join(folder, "starter")
            with open(source, "w", encoding="utf-8") as file:
                file.write(STARTER)
            subprocess.run(["cc", "-o", starter, source], check=True)
            command = [starter, self.path, *map(str, words)]
            return int(subprocess.run(command, capture_output=True, text=True, check=True).stdout) * 1024

    def run(self, *words):
        """Seconds of processor time of one run."""
        command = [self.path, *map(str, words)]
        with open(os.devnull, "wb") as sink:
            child = os.posix_spawn(self.path, command, os.environ, file_actions=[(os.POSIX_SPAWN_DUP2, sink.fileno(), 1)])
            _, status, usage = os.wait4(child, 0)
        if status != 0:
            sys.exit(f"{' '.join(command)} ended with {os.waitstatus_to_exitcode(status)}")
        return usage.ru_utime + usage.ru_stime

    def seconds(self, runs, *words):
        """Seconds of processor time: the least of some runs."""
        return min(self.run(*words) for _ in range(runs))

    def told(self, tool, words):
        """What a tool of valgrind says of one run."""
        command = ["valgrind", *tool, self.path, *map(str, words)]
        return subprocess.run(command, capture_output=True, text=True, check=True).stderr

    def instructions(self, *words):
        """Instructions of one run, by callgrind."""
        with tempfile.TemporaryDirectory() as folder:
            told = self.told(["--tool=callgrind", f"--callgrind-out-file={folder}/out"], words)
        return int(re.search(r"Collected : (\d+)", told).group(1))

    def allocations(self, *words):
        """Allocations of one run, by memcheck."""
        told = self.told(["--tool=memcheck", "--leak-check=no"], words)
        return int(re.search(r"total heap usage: ([\d,]+) allocs", told).group(1).replace(",", ""))
