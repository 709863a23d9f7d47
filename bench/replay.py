#!/usr/bin/env python3
"""Times the built server on recorded runs, from outside.

One shared file of 1 MiB is taken by 1, 16, 64 and 250 clients, interleaved write by write: the time of a write, the
memory of a taken byte, and how they grow with the clients. Then 10,000 small pipelined requests are answered, as 100
connections one after another with 100 each, and as 250 connections that are open at once with 40 each, interleaved: the
time of a request. Then 256 connections that are open at once end, the oldest first or the newest first: the time of a
connection. The time of a script with no clients is taken off. Then bodies of 1 MiB are read, of a stated length and
in chunks of 100 and of 4,096 bytes, and some of 64 KiB in chunks of 1: the time and the instructions of a byte of content.
The time of the same script is taken off in which the client never arrives. Then a browser's request, and a byte of a head
of 8,192 bytes that comes byte by byte: the instructions without those of the script. Each word of the command line is the
top of another checkout whose program is measured too, as of an older state.

Build first: cd crates/lighttpd && rt run -- replay -f ../../examples/hello.conf ../../examples/hello.script
"""
import os
import subprocess
import sys
import tempfile

from measuring import ROOT, Program

HERE = os.path.dirname(os.path.abspath(__file__))
SIZE = 1 << 20
PIECE = 4096
# The head is a write of its own.
WRITES = SIZE // PIECE + 1
CLIENTS = [1, 16, 64, 250]
REPLAYS_OF_ONE = 16
REQUESTS = 10_000
# Connections, and how many of them are open at once.
SHAPES = [(100, 1), (250, 250)]
ENDINGS = 100
OPEN = 256
# The bytes of a chunk, and those of the body's content.
BODIES = [(None, SIZE), (1, SIZE >> 4), (100, SIZE), (PIECE, SIZE)]
POSTS = 8
# What a browser sends, twelve fields and 350 bytes.
BROWSER = (
    "GET /index.html HTTP/1.1\\r\\nHost: www.example.org\\r\\nUser-Agent: Mozilla/5.0 (X11; Linux x86_64)\\r\\n"
    "Accept: text/html,*/*;q=0.8\\r\\nAccept-Language: en\\r\\nAccept-Encoding: gzip, deflate\\r\\nConnection: keep-alive\\r\\n"
    "Upgrade-Insecure-Requests: 1\\r\\nSec-Fetch-Dest: document\\r\\nSec-Fetch-Mode: navigate\\r\\nSec-Fetch-Site: none\\r\\n"
    "Cache-Control: max-age=0\\r\\nCookie: a=1; b=2\\r\\n\\r\\n"
)
# A head of the greatest length isn't whole before its last byte.
SLOW_BYTES = 8_191
# A body is read much faster than its script, so its time takes many runs to find.
REPLAYS_OF_BODIES = 16


def script(clients):
    lines = ["lighttpd-script 1", f'fill "/srv/big" 0 {SIZE}']
    lines += ["accept 10.0.0.5:40000 127.0.0.1:80"] * clients
    request = r"GET /big HTTP/1.1\r\nHost: h\r\n\r\n"
    lines += [f'data c{k} "{request}"' for k in range(clients)]
    turn = [f"take c{k} {PIECE} 1" for k in range(clients)]
    return "\n".join(lines + turn * WRITES) + "\n"


def pipelined(connections, at_once):
    """Small requests, as many on each connection; each reply is two writes, its head and its file."""
    each = REQUESTS // connections
    lines = ["lighttpd-script 1", 'file "/srv/a" 0 "hello"']
    request = r"GET /a HTTP/1.1\r\nHost: h\r\n\r\n"
    for first in range(0, connections, at_once):
        group = range(first, first + at_once)
        lines += ["accept 10.0.0.5:40000 127.0.0.1:80"] * at_once
        lines += [f'data c{k} "{request}"' for k in group] * each
        lines += [f"take c{k} {PIECE} 1" for k in group] * (2 * each)
        lines += [f"end c{k}" for k in group]
    return "\n".join(lines) + "\n"


def ended(newest_first):
    """Connections that are open at once, and end one after another, again and again."""
    lines = ["lighttpd-script 1"]
    for first in range(0, ENDINGS * OPEN, OPEN):
        group = range(first, first + OPEN)
        lines += ["accept 10.0.0.5:40000 127.0.0.1:80"] * OPEN
        lines += [f"end c{k}" for k in (reversed(group) if newest_first else group)]
    return "\n".join(lines) + "\n"


def posted(chunk, size, arrives, posts=POSTS):
    """Requests with a body each, one connection after another, which come in pieces. Lines of a client that isn't open are skipped."""
    if chunk is None:
        sent = f"Content-Length: {size}\r\n\r\n" + "a" * size
    else:
        sizes = [min(chunk, size - at) for at in range(0, size, chunk)] + [0]
        sent = "Transfer-Encoding: chunked\r\n\r\n" + "".join(f"{n:x}\r\n{'a' * n}\r\n" for n in sizes)
    sent = "POST /a HTTP/1.1\r\nHost: h\r\n" + sent
    pieces = [sent[at : at + PIECE].replace("\r", "\\r").replace("\n", "\\n") for at in range(0, len(sent), PIECE)]
    lines = ["lighttpd-script 1", 'file "/srv/a" 0 "hello"']
    for k in range(posts):
        lines += ["accept 10.0.0.5:40000 127.0.0.1:80"] * arrives
        lines += [f'data c{k} "{piece}"' for piece in pieces]
        lines += [f"take c{k} {PIECE} 1", f"end c{k}"]
    return "\n".join(lines) + "\n"


def browsed(requests, arrives):
    """A browser's requests on one connection, one behind the other, each answered by a head and a file of five bytes."""
    lines = ["lighttpd-script 1", 'file "/srv/index.html" 0 "hello"'] + ["accept 10.0.0.5:40000 127.0.0.1:80"] * arrives
    lines += [f'data c0 "{BROWSER}"', f"take c0 {PIECE} 1", f"take c0 {PIECE} 1"] * requests
    return "\n".join(lines) + "\n"


def slow(size, arrives):
    """A head of one line that comes byte by byte, and isn't whole."""
    lines = ["lighttpd-script 1"] + ["accept 10.0.0.5:40000 127.0.0.1:80"] * arrives + ['data c0 "a"'] * size
    return "\n".join(lines) + "\n"


class Replays:
    """The built server, with a configuration and a script in a folder."""

    def __init__(self, folder, top):
        self.server = Program("lighttpd", top)
        self.conf = os.path.join(folder, "conf")
        self.script = os.path.join(folder, "script")
        with open(self.conf, "w") as f:
            f.write('server.document-root = "/srv"\n')

    def words(self, text):
        """The words of a call that replays this script."""
        with open(self.script, "w") as f:
            f.write(text)
        return "replay", "-f", self.conf, self.script

    def runs(self, text, times):
        """The times of some runs."""
        words = self.words(text)
        return [self.server.run(*words) for _ in range(times)]

    def best(self, text, times):
        """The least time of some runs."""
        return min(self.runs(text, times))

    def memory(self, text):
        return self.server.memory(*self.words(text))

    def instructions(self, text):
        return self.server.instructions(*self.words(text))


def time_writes(replays, empty, base):
    """How the time of a write grows with the clients."""
    rows = []
    for clients in CLIENTS:
        if clients == 1:
            seconds = sum(replays.runs(script(1), REPLAYS_OF_ONE)) / REPLAYS_OF_ONE
        else:
            seconds = replays.best(script(clients), 3)
        memory = replays.memory(script(clients))
        rows.append(((seconds - empty) / (clients * WRITES), (memory - base) / (clients * SIZE)))
        print(
            f"{clients:4} clients: {seconds * 1000:8.1f} ms, {rows[-1][0] * 1e6:6.2f} us a write, "
            f"{memory >> 20:5} MiB, {rows[-1][1]:5.2f} bytes a taken byte"
        )
    growth = rows[-1][0] / rows[0][0]
    print(f"time of a write, 250 clients against 1: {growth:.2f}")
    print(f"memory of a taken byte, 250 clients against 16: {rows[-1][1] / rows[1][1]:.2f}")
    return growth


def time_requests(replays, empty):
    """The time of a pipelined request, the dearer way against the cheaper."""
    times = []
    for connections, at_once in SHAPES:
        seconds = replays.best(pipelined(connections, at_once), 5)
        times.append((seconds - empty) / REQUESTS)
        print(f"{connections} connections, {at_once} at once: {times[-1] * 1e6:6.2f} us a request")
    ratio = max(times) / min(times)
    print(f"time of a request, the dearer way against the cheaper: {ratio:.2f}")
    return ratio


def time_endings(replays, empty):
    """The time of a connection among many, where the oldest end first against the newest."""
    times = []
    for newest_first in (False, True):
        seconds = replays.best(ended(newest_first), 10)
        times.append((seconds - empty) / (ENDINGS * OPEN))
        print(f"{OPEN} connections, the {'newest' if newest_first else 'oldest'} ends first: {times[-1] * 1e6:6.2f} us a connection")
    ratio = times[0] / times[1]
    print(f"time of a connection, the oldest ends first against the newest: {ratio:.2f}")
    return ratio


def time_bodies(replays):
    """The time of a byte of a body in large chunks, against one of a stated length."""
    times = []
    for chunk, size in BODIES:
        texts = [posted(chunk, size, arrives) for arrives in (True, False)]
        pairs = [[replays.best(text, 1) for text in texts] for _ in range(REPLAYS_OF_BODIES)]
        read, unread = (min(seconds) for seconds in zip(*pairs))
        times.append((read - unread) / (POSTS * size))
        counts = [replays.instructions(posted(chunk, size, arrives, 1)) for arrives in (True, False)]
        how = "of a stated length" if chunk is None else f"in chunks of {chunk}"
        print(f"a body {how}: {times[-1] * 1e9:6.2f} ns and {(counts[0] - counts[1]) / size:6.2f} instructions a byte")
    chunked = times[-1] / times[0]
    print(f"a byte of a body in large chunks against one of a stated length: {chunked:.2f}")
    return chunked


def count_requests(replays):
    """The instructions of a browser's request, and of a byte of a slow head: events, turns and report, without the script."""
    for name, text, few, many in [("a browser's request", browsed, 10, 90), ("a byte of a slow head", slow, 1, SLOW_BYTES)]:
        served, skipped = ([replays.instructions(text(n, arrives)) for n in (few, many)] for arrives in (True, False))
        done = (served[1] - served[0]) - (skipped[1] - skipped[0])
        print(f"{name}: {done / (many - few):.0f} instructions")


def measure(top):
    """Measures the program of a checkout, and answers how its times grow."""
    with tempfile.TemporaryDirectory() as folder:
        replays = Replays(folder, top)
        empty, base = replays.best(script(0), 10), replays.memory(script(0))
        print(f"no client: {empty * 1000:.1f} ms, {base >> 20} MiB")
        growth = time_writes(replays, empty, base)
        ratio = time_requests(replays, empty)
        endings = time_endings(replays, empty)
        chunked = time_bodies(replays)
        count_requests(replays)
    return growth, ratio, endings, chunked


def main():
    for top in sys.argv[1:]:
        print(top, flush=True)
        # In a process of its own: the greatest memory of a child is never below that of the process that starts it.
        subprocess.run([sys.executable, "-c", f"import sys; sys.path[0] = {HERE!r}; import replay; replay.measure({top!r})"], check=True)
    if sys.argv[1:]:
        print(ROOT)
    growth, ratio, endings, chunked = measure(ROOT)
    if growth >= 1.5:
        sys.exit("a write takes half as long again with many clients")
    if ratio >= 1.5:
        sys.exit("a request takes half as long again one way than the other")
    if endings >= 1.5:
        sys.exit("a connection takes half as long again where the oldest ends first")
    if chunked > 2:
        sys.exit("a byte of a body in large chunks takes more than twice as long as one of a stated length")


if __name__ == "__main__":
    main()
