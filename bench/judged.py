#!/usr/bin/env python3
"""Keeps the lists of the files that a judge reads.

    python3 bench/judged.py          says which lines and sums of the lists are wrong, and ends with status 1 where one is
    python3 bench/judged.py write    writes the right ones into them

A list is a table '| File | Lines | What it says |' under the heading 'What a judge reads' of a crate's README.md, with
the line 'Together N lines of definitions.' behind it: those of specs/, since of the sources the clauses alone are read.
The README.md of the repository has the sum of all: 'N lines of definitions'.
"""
import re
import sys
from pathlib import Path

TOP = Path(__file__).resolve().parent.parent
HEADING = re.compile(r"^## What a judge reads", re.M)
ROW = re.compile(r"^\| `([^`]+)` \| (\d+) \|", re.M)
SUM = re.compile(r"^Together ([\d,]+) lines of definitions\.", re.M)
WHOLE = re.compile(r"\b([\d,]+) lines of definitions\b")


def lines_of(path: Path) -> int:
    """How many lines a file has."""
    return len(path.read_text().splitlines())


def listed(readme: Path) -> tuple[str, int, list[str]]:
    """A crate's README with its list put right, the list's sum, and what lacks in it."""
    text = readme.read_text()
    found = HEADING.search(text)
    if not found:
        return text, 0, [f"{readme.relative_to(TOP)}: no list"]
    end = text.find("\n## ", found.end())
    end = len(text) if end < 0 else end
    part, faults, counts = text[found.start() : end], [], []

    def row(match: re.Match) -> str:
        path = readme.parent / match[1]
        if not path.is_file():
            faults.append(f"{readme.relative_to(TOP)}: {match[1]} is not there")
            return match[0]
        count = lines_of(path)
        counts.append(count if match[1].startswith("specs/") else 0)
        return f"| `{match[1]}` | {count} |"

    part = ROW.sub(row, part)
    part, sums = SUM.subn(f"Together {sum(counts):,} lines of definitions.", part)
    if not counts or not sums:
        faults.append(f"{readme.relative_to(TOP)}: a list without {'its sum' if counts else 'lines'}")
    return text[: found.start()] + part + text[end:], sum(counts), faults


def main() -> int:
    writes, faults, whole = sys.argv[1:] == ["write"], [], 0
    for crate in sorted((TOP / "crates").iterdir()):
        readme = crate / "README.md"
        # A program that measures or a crate of tests alone says nothing that is to be judged.
        if not list((crate / "specs").glob("*.antt")) and not (readme.is_file() and HEADING.search(readme.read_text())):
            continue
        text, count, lacks = listed(readme)
        whole += count
        faults += lacks
        if text != readme.read_text():
            if writes:
                readme.write_text(text)
            else:
                faults.append(f"{readme.relative_to(TOP)}: lines or their sum are wrong")
    readme = TOP / "README.md"
    text, said = WHOLE.subn(f"{whole:,} lines of definitions", readme.read_text())
    if not said:
        faults.append("README.md: no sum")
    elif text != readme.read_text():
        if writes:
            readme.write_text(text)
        else:
            faults.append("README.md: the sum is wrong")
    print(*faults, f"{whole:,} lines of definitions", sep="\n")
    return 1 if faults else 0


sys.exit(main())
