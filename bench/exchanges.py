#!/usr/bin/env python3
"""Shows that the sockets do what a server needs of them, where a proof says nothing: what the system does.

Against the echo: bytes that are sent one by one, and taken one by one; bytes and the end in one segment; clients that
are reset in mid-reply, beside one that is answered all the time; 200 clients at once, each with bytes of its own.

Build first: cd crates/bench_echo && rt run -- 0
"""
import socket
import struct
import subprocess
import sys

from measuring import Program

SECONDS = 5


def connected(port):
    client = socket.create_connection(("127.0.0.1", port))
    client.settimeout(SECONDS)
    return client


def must(what, got, wanted):
    if got != wanted:
        sys.exit(f"{what}: {got!r} came, and not {wanted!r}")


def taken(client, size, piece):
    """So many bytes, read in pieces."""
    came = b""
    while len(came) < size:
        more = client.recv(min(piece, size - len(came)))
        if not more:
            break
        came += more
    return came


def one_by_one(port):
    text = bytes(range(256))
    with connected(port) as client:
        for byte in text:
            client.send(bytes([byte]))
        must("one by one", taken(client, len(text), 1), text)


def end_in_one_segment(port):
    with connected(port) as client:
        client.setsockopt(socket.IPPROTO_TCP, socket.TCP_CORK, 1)
        client.send(b"bye")
        client.shutdown(socket.SHUT_WR)
        must("an end in one segment", taken(client, 3, 3), b"bye")
        must("behind the end", client.recv(1), b"")


def resets(port):
    with connected(port) as other:
        for n in range(50):
            client = connected(port)
            client.send(b"x" * 100_000)
            client.setsockopt(socket.SOL_SOCKET, socket.SO_LINGER, struct.pack("ii", 1, 0))
            client.close()
            other.send(b"%03d" % n)
            must("beside a reset", taken(other, 3, 3), b"%03d" % n)


def two_hundred(port):
    clients = [connected(port) for _ in range(200)]
    for n, client in enumerate(clients):
        client.send(b"%08d" % n)
    for n, client in enumerate(clients):
        must("200 at once", taken(client, 8, 8), b"%08d" % n)
        client.close()


def main():
    process = subprocess.Popen([Program("bench_echo").path, str(1 << 40)], stdout=subprocess.PIPE, text=True)
    port = int(process.stdout.readline())
    try:
        for exchange in (one_by_one, end_in_one_segment, resets, two_hundred, one_by_one):
            exchange(port)
            print(f"{exchange.__name__}: as it must be")
    finally:
        process.terminate()
        process.wait()


main()
