#!/usr/bin/env python3
"""Measures the echo over the sockets of the system, from outside.

Requests of 32 bytes a second, and the server's microseconds of processor time a request, with 1, 64 and 250 connections;
the same for one busy connection alone and beside 250 idle ones; and, where strace is there, the system calls a request.
It fails where the idle ones make a request dearer than 1.2 times.

Build first: cd crates/bench_echo && rt run -- 0
"""
import os
import re
import shutil
import socket
import subprocess
import sys
import tempfile
import time

from measuring import Program

SIZE = 32
REQUESTS = 120_000
RUNS = 3
MOST = 1.2


class Server:
    """A running echo, which ends after so many answers."""

    def __init__(self, answers, *before):
        path = Program("bench_echo").path
        self.process = subprocess.Popen([*before, path, str(answers)], stdout=subprocess.PIPE, text=True)
        self.port = int(self.process.stdout.readline())

    def connect(self, count):
        return [socket.create_connection(("127.0.0.1", self.port)) for _ in range(count)]

    def seconds(self):
        """Seconds of processor time so far."""
        with open(f"/proc/{self.process.pid}/stat") as told:
            fields = told.read().rsplit(")", 1)[1].split()
        return (int(fields[11]) + int(fields[12])) / os.sysconf("SC_CLK_TCK")

    def end(self):
        self.process.stdout.close()
        self.process.terminate()
        self.process.wait()


def ask(clients, rounds):
    """Each client sends a request of its own, and then each takes its answer, so many times."""
    requests = [b"%*d" % (SIZE, n) for n in range(len(clients))]
    for client in clients:
        client.setsockopt(socket.IPPROTO_TCP, socket.TCP_NODELAY, 1)
    for _ in range(rounds):
        for client, request in zip(clients, requests):
            client.send(request)
        for client, request in zip(clients, requests):
            answer = client.recv(SIZE)
            while 0 < len(answer) < SIZE:
                piece = client.recv(SIZE - len(answer))
                if not piece:
                    break
                answer += piece
            if answer != request:
                sys.exit("a client did not get its own bytes")


def measure(busy, idle):
    """Requests a second, and microseconds of the server's processor time a request."""
    server = Server(1 << 40)
    waiting = server.connect(idle)
    clients = server.connect(busy)
    rounds = REQUESTS // busy
    ask(clients, 1)
    start, before = time.monotonic(), server.seconds()
    ask(clients, rounds)
    spent, after = time.monotonic() - start, server.seconds()
    for client in clients + waiting:
        client.close()
    server.end()
    return rounds * busy / spent, (after - before) / (rounds * busy) * 1e6


def least(busy, idle):
    """The run that cost the server least."""
    return min((measure(busy, idle) for _ in range(RUNS)), key=lambda run: run[1])


def calls(busy, rounds):
    """How often each system call was made in one run."""
    with tempfile.NamedTemporaryFile("r") as table:
        server = Server(busy * (rounds + 1), "strace", "-c", "-o", table.name)
        clients = server.connect(busy)
        ask(clients, rounds + 1)
        server.process.wait()
        lines = table.read().splitlines()
    counts = {}
    for line in lines:
        row = re.match(r"\s*[\d.]+\s+[\d.]+\s+\d+\s+(\d+)\s+(?:\d+\s+)?(\w+)$", line)
        if row and row[2] != "total":
            counts[row[2]] = int(row[1])
    return counts


def main():
    print("connections  requests a second  microseconds a request")
    for busy in (1, 64, 250):
        rate, cost = least(busy, 0)
        print(f"{busy:11} {rate:18,.0f} {cost:23.2f}")
    alone = least(1, 0)[1]
    beside = least(1, 250)[1]
    print(f"one alone {alone:.2f}, beside 250 idle ones {beside:.2f}: {beside / alone:.2f} times")
    if shutil.which("strace"):
        print("system calls a request")
        for busy in (1, 64):
            few, many = calls(busy, 10), calls(busy, 110)
            each = {name: (count - few.get(name, 0)) / (100 * busy) for name, count in many.items()}
            told = ", ".join(f"{name} {count:.2f}" for name, count in sorted(each.items()) if count >= 0.005)
            print(f"{busy:11} connections: {told}")
    if beside > MOST * alone:
        sys.exit("idle connections make a request dearer")


main()
