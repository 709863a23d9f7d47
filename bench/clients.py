#!/usr/bin/env python3
"""Clients of a server on 127.0.0.1, and what they see.

    python3 bench/clients.py PORT keep-alive     1,000 requests, one after another
    python3 bench/clients.py PORT idle           the same with one connection, alone and beside 250 idle ones
    python3 bench/clients.py PORT slow           a head of one byte a second, and others that are served meanwhile
    python3 bench/clients.py PORT full           256 connections, one more, and one in the place of one that left

Each prints what was seen, and fails where that is not right. The server has a file /index.html. bench/tried.sh runs them,
and bench/sockets.py takes its connections from here.
"""
import socket
import sys
import threading
import time

PAGE = "/index.html"
REQUESTS = 1000
RUNS = 3
IDLE = 250
MOST = 256
# How much dearer the idle ones may make a request, on a machine that does other work.
DEARER = 2.0
# A request that takes longer was kept waiting by the slow client.
WAITED = 0.5


class Connection:
    """A connection that asks, reads the whole answer, and comes again where the answer says that it was the last."""

    def __init__(self, port):
        self.port = port
        self.opened = 0
        self.socket = None

    def open(self):
        self.socket = socket.create_connection(("127.0.0.1", self.port), timeout=30)
        self.socket.setsockopt(socket.IPPROTO_TCP, socket.TCP_NODELAY, 1)
        self.opened += 1

    def close(self):
        if self.socket:
            self.socket.close()
        self.socket = None

    def send(self, path, *fields):
        if not self.socket:
            self.open()
        lines = [f"GET {path} HTTP/1.1", "Host: h", *fields, "", ""]
        self.socket.sendall("\r\n".join(lines).encode())

    def answer(self):
        """The status and the body of the next answer."""
        head = self.read_head()
        lines = head.decode("latin-1").lower().split("\r\n")
        fields = dict(line.split(": ", 1) for line in lines[1:] if ": " in line)
        body = self.read(int(fields["content-length"]))
        if fields.get("connection") == "close":
            self.close()
        return int(lines[0].split()[1]), body

    def read_head(self):
        seen = self.socket.recv(8192, socket.MSG_PEEK)
        while b"\r\n\r\n" not in seen:
            before = len(seen)
            seen = self.socket.recv(8192, socket.MSG_PEEK)
            if len(seen) == before:
                raise EOFError("the server closed before its answer was whole")
        return self.read(seen.index(b"\r\n\r\n") + 4)

    def read(self, size):
        pieces = []
        while size:
            piece = self.socket.recv(min(size, 1 << 18))
            if not piece:
                raise EOFError("the server closed before its answer was whole")
            pieces.append(piece)
            size -= len(piece)
        return b"".join(pieces)

    def fetch(self, path=PAGE, *fields):
        self.send(path, *fields)
        return self.answer()


def expect(right, text):
    if not right:
        sys.exit(f"not so: {text}")


def fetch_all(connection, count):
    """Microseconds a request, of so many on one connection after another."""
    before = time.monotonic()
    for _ in range(count):
        expect(connection.fetch()[0] == 200, "each request gets 200")
    return (time.monotonic() - before) / count * 1e6


def keep_alive(port):
    connection = Connection(port)
    spent = fetch_all(connection, REQUESTS)
    print(f"{REQUESTS} requests, one after another: each got 200, over {connection.opened} connections; {spent:.0f} microseconds a request")
    expect(connection.opened < REQUESTS, "connections are kept")


def idle(port):
    busy = Connection(port)
    fetch_all(busy, REQUESTS)
    alone = min(fetch_all(busy, REQUESTS) for _ in range(RUNS))
    waiting = [Connection(port) for _ in range(IDLE)]
    for connection in waiting:
        connection.fetch()
    beside = min(fetch_all(busy, REQUESTS) for _ in range(RUNS))
    for connection in waiting:
        expect(connection.fetch()[0] == 200 and connection.opened == 1, "an idle connection is served when it asks again")
    print(f"a request takes {alone:.0f} microseconds alone, {beside:.0f} beside {IDLE} idle connections; each of those was served again")
    expect(beside < DEARER * alone, "idle connections don't make a request dearer")


def slow(port):
    """One byte a second; meanwhile a request each tenth of a second, on a connection of its own."""
    head = f"GET {PAGE} HTTP/1.0\r\n\r\n".encode()
    answered = []

    def trickle():
        client = Connection(port)
        client.open()
        for byte in head:
            client.socket.sendall(bytes([byte]))
            time.sleep(1)
        answered.append(client.answer()[0])

    thread = threading.Thread(target=trickle)
    thread.start()
    times = []
    while thread.is_alive():
        other = Connection(port)
        before = time.monotonic()
        expect(other.fetch()[0] == 200, "others are served meanwhile")
        times.append(time.monotonic() - before)
        other.close()
        time.sleep(0.1)
    thread.join()
    print(f"a head of {len(head)} bytes in {len(head)} seconds got {answered}; {len(times)} others meanwhile, the slowest in {max(times) * 1e3:.1f} ms")
    expect(answered == [200], "the slow client is served")
    expect(max(times) < WAITED, "nobody waits for the slow client")


def full(port):
    clients = [Connection(port) for _ in range(MOST)]
    for client in clients:
        expect(client.fetch()[0] == 200, "each is served")
    more = Connection(port)
    more.open()
    expect(more.socket.recv(1) == b"", "one too many is closed at once")
    clients.pop().close()
    time.sleep(0.1)
    expect(Connection(port).fetch()[0] == 200, "one is served in the place of one that left")
    print(f"{MOST} connections were served, one more was closed at once, and one more was served when one had left")


if __name__ == "__main__":
    KINDS = {"keep-alive": keep_alive, "idle": idle, "slow": slow, "full": full}
    if len(sys.argv) != 3 or sys.argv[2] not in KINDS:
        sys.exit(__doc__)
    KINDS[sys.argv[2]](int(sys.argv[1]))
