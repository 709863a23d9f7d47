#!/usr/bin/env python3
"""What a request costs the built server on the sockets of 127.0.0.1, beside Debian's lighttpd and nginx in the same run.

Processor seconds (user and system) of the server's process for 10,000 requests: 300 bytes over 64 connections that are
kept, 300 bytes with a new connection each, 70,000 bytes over 64 connections, 10 MiB over 8; and its resident memory at the
start and beside 250 idle connections that were served once. The servers take turns, and the least of some runs counts.
Each is one process, and closes a connection after 100 requests, as the built one does by default. It fails where the built
server takes more than WANTED times what lighttpd takes.

`wrk` sends the requests where it is there, else this program does; `ab` would ask by HTTP/1.0. Nothing is installed; a
server that isn't there is skipped.

    make build && python3 bench/sockets.py          the program of this checkout
    python3 bench/sockets.py PROGRAM                another one that takes `-D -f CONF`
"""
import os
import re
import shutil
import socket
import subprocess
import sys
import tempfile
import time

from clients import Connection
from measuring import ROOT

# Name, bytes, connections, whether they are kept, requests of this program in a run, and how often lighttpd's cost is wanted at most.
CASES = [
    ("300 bytes, kept", 300, 64, True, 20_000, 2.0),
    ("300 bytes, new", 300, 64, False, 5_000, 1.3),
    ("70,000 bytes, kept", 70_000, 64, True, 5_000, 4.0),
    ("10 MiB, kept", 10 << 20, 8, True, 100, 9.0),
]
WANTED_MEMORY = 2.0
RUNS = 3
SECONDS = 2
IDLE = 250
PER = 10_000
BUILT, LIGHTTPD, NGINX = "built", "lighttpd", "nginx"

OURS = """server.document-root = "{root}"
server.bind = "127.0.0.1"
server.port = {port}
server.max-keep-alive-requests = 100
"""
OF_LIGHTTPD = OURS + """server.max-connections = 256
server.max-keep-alive-idle = 60
"""
OF_NGINX = """daemon off;
master_process off;
pid {folder}/nginx.pid;
error_log {folder}/nginx.log;
events {{ worker_connections 600; }}
http {{
    access_log off;
    sendfile on;
    keepalive_requests 100;
    keepalive_timeout 60;
    client_body_temp_path {folder}/body;
    proxy_temp_path {folder}/proxy;
    fastcgi_temp_path {folder}/fastcgi;
    uwsgi_temp_path {folder}/uwsgi;
    scgi_temp_path {folder}/scgi;
    server {{ listen 127.0.0.1:{port} backlog=1024; root {root}; }}
}}
"""


def free_port():
    with socket.socket() as one:
        one.bind(("127.0.0.1", 0))
        return one.getsockname()[1]


class Server:
    """A server that runs."""

    def __init__(self, name, words, text, folder):
        self.name = name
        self.port = free_port()
        conf = os.path.join(folder, f"{name}.conf")
        with open(conf, "w") as file:
            file.write(text.format(root=os.path.join(folder, "www"), port=self.port, folder=folder))
        self.process = subprocess.Popen([*words, conf], stdout=subprocess.DEVNULL)
        self.wait()
        self.at_start = self.memory()

    def wait(self):
        """Until it takes connections, for 10 seconds at most."""
        for _ in range(100):
            try:
                return socket.create_connection(("127.0.0.1", self.port)).close()
            except ConnectionRefusedError:
                time.sleep(0.1)
        sys.exit(f"{self.name} takes no connections")

    def seconds(self):
        """Processor seconds so far."""
        with open(f"/proc/{self.process.pid}/stat") as file:
            fields = file.read().rpartition(")")[2].split()
        return (int(fields[11]) + int(fields[12])) / os.sysconf("SC_CLK_TCK")

    def memory(self):
        """Resident KiB."""
        with open(f"/proc/{self.process.pid}/status") as file:
            return int(re.search(r"VmRSS:\s+(\d+) kB", file.read())[1])

    def end(self):
        self.process.terminate()
        self.process.wait()


def servers(folder):
    """Those that are there."""
    built = sys.argv[1] if len(sys.argv) > 1 else os.path.join(ROOT, "crates", "lighttpd", "out", "lighttpd")
    if not os.path.exists(built):
        sys.exit("build the program first: make build")
    found = [Server(BUILT, [built, "-D", "-f"], OURS, folder)]
    lighttpd = shutil.which("lighttpd", path="/usr/sbin:/usr/bin")
    if lighttpd:
        found.append(Server(LIGHTTPD, [lighttpd, "-D", "-f"], OF_LIGHTTPD, folder))
    nginx = shutil.which("nginx", path="/usr/sbin:/usr/bin")
    if nginx:
        found.append(Server(NGINX, [nginx, "-e", f"{folder}/nginx.log", "-c"], OF_NGINX, folder))
    return found


def load_by_wrk(port, path, connections, kept):
    """How many requests were answered by 200."""
    fields = [] if kept else ["-H", "Connection: close"]
    command = ["wrk", "-t1", f"-c{connections}", f"-d{SECONDS}s", *fields, f"http://127.0.0.1:{port}{path}"]
    told = subprocess.run(command, capture_output=True, text=True, check=True).stdout
    if "Non-2xx" in told or "Socket errors" in told:
        sys.exit(f"{path}, {connections} connections:\n{told}")
    return int(re.search(r"(\d+) requests in", told)[1])


def load_by_clients(port, path, connections, kept, count):
    """The same by this program: each connection asks, and then each takes its answer."""
    clients = [Connection(port) for _ in range(connections)]
    fields = [] if kept else ["Connection: close"]
    rounds = max(1, count // connections)
    for _ in range(rounds):
        for client in clients:
            client.send(path, *fields)
        for client in clients:
            if client.answer()[0] != 200:
                sys.exit(f"{path}: a request did not get 200")
    for client in clients:
        client.close()
    return rounds * connections


def cost(server, case):
    """Processor seconds of the server for so many requests."""
    _, size, connections, kept, count, _ = case
    path = f"/{size}"
    before = server.seconds()
    if shutil.which("wrk"):
        answered = load_by_wrk(server.port, path, connections, kept)
    else:
        answered = load_by_clients(server.port, path, connections, kept, count)
    return (server.seconds() - before) / answered * PER


def memory_beside_idle(server):
    waiting = [Connection(server.port) for _ in range(IDLE)]
    for connection in waiting:
        connection.fetch("/300")
    kept = server.memory()
    for connection in waiting:
        connection.close()
    return kept


def ratio(row):
    """What the built server takes, by what lighttpd takes, where that is there."""
    return row[BUILT] / row[LIGHTTPD] if row.get(LIGHTTPD) else None


def print_row(name, row, form, wanted):
    told = "".join(f"{form.format(row[server]) if server in row else '-':>12}" for server in (BUILT, LIGHTTPD, NGINX))
    by = ratio(row)
    print(f"{name:28}{told}{f'{by:.2f}' if by else '-':>8}{wanted:>8}", flush=True)
    return by is None or by <= wanted


def main():
    right = []
    with tempfile.TemporaryDirectory() as folder:
        os.chmod(folder, 0o755)
        os.mkdir(os.path.join(folder, "www"))
        for size in {case[1] for case in CASES}:
            with open(os.path.join(folder, "www", str(size)), "wb") as file:
                file.write(bytes(97 + n % 26 for n in range(26)) * (size // 26) + b"a" * (size % 26))
        found = servers(folder)
        try:
            heads = "".join(f"{name:>12}" for name in (BUILT, LIGHTTPD, NGINX))
            print(f"{'requests by ' + ('wrk' if shutil.which('wrk') else 'this program'):28}{heads}{'ratio':>8}{'wanted':>8}")
            start = {server.name: server.at_start for server in found}
            right.append(print_row("KiB at the start", start, "{:,}", WANTED_MEMORY))
            idle = {server.name: memory_beside_idle(server) for server in found}
            right.append(print_row(f"KiB, {IDLE} idle", idle, "{:,}", WANTED_MEMORY))
            for case in CASES:
                runs = [{server.name: cost(server, case) for server in found} for _ in range(RUNS)]
                least = {server.name: min(run[server.name] for run in runs) for server in found}
                right.append(print_row(f"s for {PER:,}: {case[0]}", least, "{:.3f}", case[5]))
        finally:
            for server in found:
                server.end()
    if not all(right):
        sys.exit("the built server takes more than is wanted")


main()
