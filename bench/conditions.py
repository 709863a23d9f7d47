#!/usr/bin/env python3
"""What conditions cost a request, in the built program.

Replays: 20,000 pipelined requests for one small file, with 0, 10 and 100 blocks (10 and 48 where each has a pattern, of which
a configuration may have 48), each of which sets a key that every reply has and none of which holds. Each condition is
compared once while the path of the file isn't known, and once when it is: two comparisons a block and request. The figure is
processor time of the least of some runs, without that of the same script over no blocks. It fails where a comparison among
many blocks takes more than GROWTH times one among ten.

Sockets: the same configurations in the built server and in Debian's lighttpd, where that and `wrk` are there, in one run:
processor seconds for 10,000 requests over 64 connections that are kept, by blocks.

    make build && python3 bench/conditions.py
"""
import os
import re
import shutil
import socket
import subprocess
import sys
import tempfile
import time

from measuring import Program

REQUESTS, EACH = 20_000, 100
RUNS = 7
GROWTH = 1.3
SECONDS = 2
PER = 10_000
# A name, the condition of block k, and how many blocks there may be.
KINDS = [
    ("host, ==", '$HTTP["host"] == "h{k}.example.org"', 100),
    ("url, =^", '$HTTP["url"] =^ "/k{k}/"', 100),
    ("url, =$", '$HTTP["url"] =$ ".k{k}"', 100),
    ("url, =~", '$HTTP["url"] =~ "^/k{k}/"', 48),
    ("remote-ip, network", '$HTTP["remote-ip"] == "11.{k}.0.0/16"', 100),
    ("a field, ==", '$REQUEST_HEADER["X-Key"] == "{k}"', 100),
]
OURS = """server.document-root = "{root}"
server.bind = "127.0.0.1"
server.port = {port}
server.max-keep-alive-requests = 100
"""
OF_LIGHTTPD = OURS + """server.max-connections = 256
server.max-keep-alive-idle = 60
"""


def blocks(condition, count):
    return "".join(condition.format(k=k) + f' {{ server.tag = "tag{k}" }}\n' for k in range(count))


def script():
    lines = ["lighttpd-script 1", 'file "/srv/a" 0 "hello"']
    request = r"GET /a HTTP/1.1\r\nHost: h\r\n\r\n"
    for k in range(REQUESTS // EACH):
        lines += ["accept 10.0.0.5:40000 127.0.0.1:80"] + [f'data c{k} "{request}"'] * EACH
        lines += [f"take c{k} 4096 {2 * EACH}", f"end c{k}"]
    return "\n".join(lines) + "\n"


def replayed(program, folder):
    """The rows of replays: nanoseconds of a request and of a comparison. Whether none grows too fast."""

    def nanoseconds(condition, count):
        conf = os.path.join(folder, "conf")
        with open(conf, "w") as file:
            file.write('server.document-root = "/srv"\n' + blocks(condition, count))
        return program.seconds(RUNS, "replay", "-f", conf, os.path.join(folder, "script")) / REQUESTS * 1e9

    with open(os.path.join(folder, "script"), "w") as file:
        file.write(script())
    none = nanoseconds("", 0)
    print(f"replay, no blocks: {none:,.0f} ns a request")
    print(f"{'condition':22}{'blocks':>8}{'ns a request':>14}{'ns a comparison':>17}{'growth':>8}")
    right = True
    for name, condition, most in KINDS:
        few = None
        for count in (10, most):
            each = nanoseconds(condition, count)
            compared = (each - none) / (2 * count)
            few = few or compared
            right = right and compared <= GROWTH * few
            print(f"{name:22}{count:>8}{each:>14,.0f}{compared:>17.1f}{compared / few:>8.2f}", flush=True)
    return right


def free_port():
    with socket.socket() as one:
        one.bind(("127.0.0.1", 0))
        return one.getsockname()[1]


def served(words, text, folder):
    """Processor seconds of a server for so many requests."""
    port = free_port()
    conf = os.path.join(folder, "server.conf")
    with open(conf, "w") as file:
        file.write(text.format(root=os.path.join(folder, "www"), port=port))
    process = subprocess.Popen([*words, conf], stdout=subprocess.DEVNULL, stderr=subprocess.DEVNULL)
    try:
        for _ in range(100):
            try:
                socket.create_connection(("127.0.0.1", port)).close()
                break
            except ConnectionRefusedError:
                time.sleep(0.1)
        costs = []
        for _ in range(3):
            before = used(process)
            command = ["wrk", "-t1", "-c64", f"-d{SECONDS}s", f"http://127.0.0.1:{port}/a"]
            told = subprocess.run(command, capture_output=True, text=True, check=True).stdout
            if "Non-2xx" in told or "Socket errors" in told:
                sys.exit(told)
            costs.append((used(process) - before) / int(re.search(r"(\d+) requests in", told)[1]) * PER)
        return min(costs)
    finally:
        process.terminate()
        process.wait()


def used(process):
    with open(f"/proc/{process.pid}/stat") as file:
        fields = file.read().rpartition(")")[2].split()
    return (int(fields[11]) + int(fields[12])) / os.sysconf("SC_CLK_TCK")


def beside(program, folder):
    """The rows of sockets: seconds for so many requests, ours and lighttpd's."""
    lighttpd = shutil.which("lighttpd", path="/usr/sbin:/usr/bin")
    if not (lighttpd and shutil.which("wrk")):
        print("sockets: lighttpd or wrk isn't there")
        return
    os.mkdir(os.path.join(folder, "www"))
    with open(os.path.join(folder, "www", "a"), "w") as file:
        file.write("hello")
    os.chmod(folder, 0o755)
    print(f"sockets, s for {PER:,} requests")
    print(f"{'condition':22}{'blocks':>8}{'built':>10}{'lighttpd':>10}{'ratio':>8}")
    for name, condition, most in [("none", "", 0)] + KINDS:
        for count in (10, most) if most else (0,):
            # What stands in braces is a block here, and not a name.
            text = blocks(condition, count).replace("{", "{{").replace("}", "}}")
            ours = served([program.path, "-D", "-f"], OURS + text, folder)
            theirs = served([lighttpd, "-D", "-f"], OF_LIGHTTPD + text, folder)
            print(f"{name:22}{count:>8}{ours:>10.3f}{theirs:>10.3f}{ours / theirs:>8.2f}", flush=True)


def main():
    program = Program("lighttpd")
    with tempfile.TemporaryDirectory() as folder:
        right = replayed(program, folder)
        beside(program, folder)
    if not right:
        sys.exit("a comparison costs more where there are more blocks")


main()
