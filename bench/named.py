#!/usr/bin/env python3
"""Looks for laws, clauses and functions that the documents name and that the sources have not.

Run at the top of the repository; prints a line for each name that is not there, and ends with status 1 where one is.

What counts as a name:
- in a crate's README.md, each row of a table '| function | clause | meaning |': the words in back quotes of the first
  column are functions (or types) of the crate, those of the second column clauses of the crate;
- in docs/PROMISES.md, in each crate's section: `laws::name`, a function of the crate; `Type::name`, functions and types;
  any other word, a clause of the crate, a function, a definition, or a library.
"""
import re
import sys
from pathlib import Path

QUOTED = re.compile(r"`([^`]+)`")
WORD = re.compile(r"[A-Za-z_][A-Za-z_0-9]*")


def words_of(crate: Path) -> tuple[set[str], set[str]]:
    """The names of functions and types, and those of clauses, in a crate's sources."""
    functions: set[str] = set()
    clauses: set[str] = set()
    for path in sorted((crate / "src").glob("**/*.rt")):
        text = path.read_text()
        functions.update(re.findall(r"\b(?:fn|struct|enum|trait|impl|const|type|mod)\s+([A-Za-z_0-9]+)", text))
        functions.update(re.findall(r"\bfor\s+([A-Z][A-Za-z_0-9]*)", text))
        functions.update(re.findall(r"^\s+([A-Z][A-Za-z0-9]*)\s*[,({]", text, re.M))
        functions.update(re.findall(r"\bpub use [^;]*;", text) and WORD.findall(" ".join(re.findall(r"\bpub use [^;]*;", text))))
        clauses.update(re.findall(r"\b(?:requires|ensures\*?|ghost)\s+([A-Za-z_0-9]+)", text))
    # A definition may be named beside the clause that cites it, and a lemma or a word of a format.
    for path in sorted([*(crate / "specs").glob("**/*.antt"), *(crate / "proofs").glob("*.antt")]):
        text = path.read_text()
        functions.update(re.findall(r"\bpub (?:record |data )?([A-Za-z_0-9]+)", text))
        functions.update(re.findall(r'codes "([a-z]+)', text))
    return functions, clauses


def main() -> int:
    top = Path(__file__).resolve().parent.parent
    crates = {path.name: path for path in sorted((top / "crates").iterdir()) if (path / "src").is_dir()}
    known = {name: words_of(path) for name, path in crates.items()}
    everywhere = set(WORD.findall((top / "crates.txt").read_text())).union(*(functions for functions, _ in known.values()))
    missing: list[str] = []

    def function_is_known(name: str, crate: str) -> bool:
        parts = WORD.findall(name)
        return not parts or all(part in known[crate][0] or part in everywhere or part in known for part in parts)

    for name, path in crates.items():
        readme = path / "README.md"
        if not readme.is_file():
            continue
        rows = False
        for number, line in enumerate(readme.read_text().splitlines(), 1):
            if not line.startswith("|"):
                rows = False
                continue
            cells = [cell.strip() for cell in re.split(r"(?<!\\)\|", line)[1:-1]]
            if len(cells) > 1 and cells[1].lower().startswith("clause"):
                rows = True
                continue
            if not rows or set("".join(cells)) <= set("-: "):
                continue
            for said in QUOTED.findall(cells[0]):
                if not function_is_known(said, name):
                    missing.append(f"{readme.relative_to(top)}:{number}: no function `{said}`")
            for said in QUOTED.findall(cells[1]):
                if re.fullmatch(r"[a-z_0-9]+", said) and said not in known[name][1]:
                    missing.append(f"{readme.relative_to(top)}:{number}: no clause `{said}`")
    promises = top / "docs" / "PROMISES.md"
    crate = ""
    for number, line in enumerate(promises.read_text().splitlines(), 1):
        if line.startswith("## "):
            crate = line[3:].split(",")[0].split(" ")[0].strip("`")
        if crate not in known:
            continue
        for said in QUOTED.findall(line):
            found = re.fullmatch(r"(?:([a-z_0-9]+)::)?laws::([a-z_0-9]+)", said)
            if found:
                of = found.group(1) or crate
                if of not in known or found.group(2) not in known[of][0]:
                    missing.append(f"docs/PROMISES.md:{number}: no law `{said}` of {of}")
            elif re.fullmatch(r"[A-Z][A-Za-z]*::[a-z_0-9]+", said) and not function_is_known(said, crate):
                missing.append(f"docs/PROMISES.md:{number}: no function `{said}`")
            elif re.fullmatch(r"[a-z_0-9]+", said) and said not in known[crate][1] and not function_is_known(said, crate):
                missing.append(f"docs/PROMISES.md:{number}: no clause or function `{said}` of {crate}")
    print("\n".join(missing))
    print(f"{len(missing)} names are not there")
    return 1 if missing else 0


if __name__ == "__main__":
    sys.exit(main())
