#!/usr/bin/env python3
"""Writes data/clients.script and data/clients.report: 256 clients with four pipelined requests each, and their replies.

Clients that a recurrence draws, one by one, send some bytes or take some, so that all requests come in pieces and mixed
up; at the end each client sends what is left, takes what is left, and ends. The report is made from the requests alone.
"""
import os

CLIENTS, REQUESTS, ROUNDS = 256, 4, 6_000
DATA = os.path.join(os.path.dirname(os.path.abspath(__file__)), "data")


def draws():
    """A function that answers a number below a bound, drawn by a linear congruence."""
    state = CLIENTS

    def draw(bound):
        nonlocal state
        state = (state * 6_364_136_223_846_793_005 + 1_442_695_040_888_963_407) % 2**64
        return (state >> 33) % bound

    return draw


def quoted(text):
    return '"' + text.replace("\r", "\\r").replace("\n", "\\n") + '"'


def content(client, request):
    return f"{client}.{request}"


def reply(client, request):
    body = content(client, request)
    fields = "Content-Type: application/octet-stream\r\nAccept-Ranges: bytes\r\nLast-Modified: Thu, 01 Jan 1970 00:00:00 GMT"
    head = f"HTTP/1.1 200 OK\r\n{fields}\r\nContent-Length: {len(body)}\r\nServer: lighttpd"
    return f"{head}\r\n\r\n{body}"


def main():
    every = [(client, request) for client in range(CLIENTS) for request in range(REQUESTS)]
    lines = [f'file "/srv/v/{client}/{request}" 0 {quoted(content(client, request))}' for client, request in every]
    # the script that goes on with these lines has the first client
    lines += ["accept 10.0.0.6:40001 127.0.0.1:80"] * (CLIENTS - 1)
    left = [
        "".join(f"GET /v/{client}/{request} HTTP/1.1\r\nHost: h\r\n\r\n" for request in range(REQUESTS))
        for client in range(CLIENTS)
    ]

    def send(client, most):
        piece, left[client] = left[client][:most], left[client][most:]
        if piece:
            lines.append(f"data c{client} {quoted(piece)}")

    draw = draws()
    for _ in range(ROUNDS):
        client = draw(CLIENTS)
        send(client, draw(64))
        client = draw(CLIENTS)
        lines.append(f"take c{client} {draw(300)} 1")
    for client in range(CLIENTS):
        send(client, 4096)
        lines += [f"take c{client} 4096 16", f"end c{client}"]
    report = []
    for client in range(CLIENTS):
        taken = "".join(reply(client, request) for request in range(REQUESTS))
        report.append(f"c{client} clean {len(taken)} {quoted(taken)}")
    for name, text in ("clients.script", lines), ("clients.report", report):
        with open(os.path.join(DATA, name), "w") as file:
            file.writelines(line + "\n" for line in text)


if __name__ == "__main__":
    main()
