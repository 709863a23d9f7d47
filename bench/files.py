#!/usr/bin/env python3
"""What a request for a file costs in the built program, by what is asked and by how many media types are known.

Replays of 20,000 pipelined requests each: a file of five bytes with no media types, with ten and with 1,000; a range of it;
the same file that isn't newer than the client's; a directory with an index file; a directory without its slash. Processor
time of the least of some runs; each request is two writes, or one where no bytes of a file are sent. It fails where 1,000
media types cost more than 1.5 times ten.

    make build && python3 bench/files.py
"""
import os
import sys
import tempfile

from measuring import Program

REQUESTS, EACH = 20_000, 100
RUNS = 7
WANTED = 1.5
# A name, the target, the fields of the request, and how many media types there are.
CASES = [
    ("a file, no media types", "/a.txt", "", 0),
    ("a file, 10 media types", "/a.txt", "", 10),
    ("a file, 1,000 media types", "/a.txt", "", 1_000),
    ("a range of it", "/a.txt", r"Range: bytes=1-2\r\n", 10),
    ("not newer", "/a.txt", r"If-Modified-Since: Thu, 01 Jan 1970 00:00:00 GMT\r\n", 10),
    ("an index file", "/d/", "", 10),
    ("a directory, moved", "/d", "", 10),
    ("nothing there", "/no", "", 10),
]


def conf(types):
    pairs = ", ".join(f'".k{k}" => "text/k{k}"' for k in range(max(0, types - 1)))
    table = f'mimetype.assign = ( {pairs}, ".txt" => "text/plain" )\n' if types else ""
    return 'server.document-root = "/srv"\nindex-file.names = ( "index.html", "a.txt" )\n' + table


def script(target, fields):
    lines = ["lighttpd-script 1", 'file "/srv/a.txt" 0 "hello"', 'file "/srv/d/a.txt" 0 "hello"']
    request = rf"GET {target} HTTP/1.1\r\nHost: h\r\n{fields}\r\n"
    for k in range(REQUESTS // EACH):
        lines += ["accept 10.0.0.5:40000 127.0.0.1:80"] + [f'data c{k} "{request}"'] * EACH
        lines += [f"take c{k} 4096 {2 * EACH}", f"end c{k}"]
    return "\n".join(lines) + "\n"


def main():
    program = Program("lighttpd")
    found = {}
    with tempfile.TemporaryDirectory() as folder:
        paths = [os.path.join(folder, name) for name in ("conf", "script")]
        for name, target, fields, types in CASES:
            for path, text in zip(paths, (conf(types), script(target, fields))):
                with open(path, "w") as file:
                    file.write(text)
            found[name] = program.seconds(RUNS, "replay", "-f", *paths) / REQUESTS * 1e9
            print(f"{name:28}{found[name]:>10,.0f} ns a request", flush=True)
    ratio = found[CASES[2][0]] / found[CASES[1][0]]
    print(f"1,000 media types by 10: {ratio:.2f}")
    if ratio > WANTED:
        sys.exit("media types cost too much")


main()
