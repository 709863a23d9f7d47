#!/usr/bin/env python3
"""Shows that no client stays stuck when descriptors were short.

The echo runs with room for few descriptors, and 20 clients connect at once and ask. Some are accepted and answered; as
these leave, the others must be answered in their turn, each with its own bytes. It fails where one is not.

Build first: cd crates/bench_echo && rt run -- 0
"""
import resource
import socket
import subprocess
import sys

from measuring import Program

DESCRIPTORS = 12
CLIENTS = 20
SECONDS = 5


def few():
    resource.setrlimit(resource.RLIMIT_NOFILE, (DESCRIPTORS, DESCRIPTORS))


def answered(client, request):
    """Whether the request comes back while nothing else happens."""
    got = b""
    try:
        while len(got) < len(request):
            piece = client.recv(len(request) - len(got))
            if not piece:
                sys.exit("the server closed a connection")
            got += piece
    except TimeoutError:
        return False
    if got != request:
        sys.exit("a client got the bytes of another")
    return True


def main():
    process = subprocess.Popen([Program("bench_echo").path, str(1 << 40)], stdout=subprocess.PIPE, text=True, preexec_fn=few)
    port = int(process.stdout.readline())
    clients = []
    for n in range(CLIENTS):
        client = socket.create_connection(("127.0.0.1", port))
        request = b"client %02d" % n
        client.sendall(request)
        client.settimeout(0.2)
        clients.append((client, request))
    first = []
    for client, request in clients:
        if not answered(client, request):
            break
        first.append(client)
    if not 0 < len(first) < CLIENTS:
        sys.exit("descriptors were not short")
    waiting = clients[len(first) :]
    for client, request in waiting:
        first.pop(0).close()
        client.settimeout(SECONDS)
        if not answered(client, request):
            process.terminate()
            sys.exit("a client is stuck")
        first.append(client)
    process.terminate()
    process.wait()
    print(f"{CLIENTS} clients, {CLIENTS - len(waiting)} at once: none is stuck")


main()
