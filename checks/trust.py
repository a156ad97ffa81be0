#!/usr/bin/env python3
"""Holds docs/trust.md to the repository: that its tables name each file of the crates with unsafe code, with how often
it stands there, and each file in C or LLVM's words, and no others; and that what tests a thing is there. With a log of
the gate, as checks/trust.py LOG, also to the C functions whose contracts the prover reached, which the log lists."""
import glob
import os
import re
import sys
from typing import Dict, Iterator, List, Set

PAGE = "docs/trust.md"
UNSAFE = re.compile(r"\bunsafe\b(?!\(no_mangle\))")
COMMENT = re.compile(r"(?m)//.*$")
# What is written by hand below the proved code, beside C and LLVM's words.
SCRIPTS = ["tools/systems/retarget.py", "tools/systems/narrow.py", "tools/dist/library.py"]
REACHED = re.compile(r"(?m)^[ \d.|]* (\w+(?:::\w+)+) +reached$")
# A name of a C function, as the prover has it, and a file of the repository.
FUNCTION = re.compile(r"`((?:libc|os|std)(?:::\w+)+)`")
FILE = re.compile(r"`((?:crates|tools|checks|recipes|include|bench)/[\w./-]+)`")


def text_of(file: str) -> str:
    with open(file, encoding="utf-8", errors="replace") as it:
        return it.read()


def unsafe() -> Dict[str, int]:
    """Returns the files of the crates with unsafe code, each with how often it stands there."""
    files = sorted(glob.glob("crates/*/*/src/**/*.rt", recursive=True))
    counts = {file: len(UNSAFE.findall(COMMENT.sub("", text_of(file)))) for file in files}
    return {file: count for file, count in counts.items() if count}


def by_hand() -> Set[str]:
    """Returns the files below the proved code that are written by hand."""
    patterns = [f"{part}/**/*.{end}" for part in ("tools", "crates") for end in ("c", "h", "ll", "s", "S")]
    return {*SCRIPTS, *(file for pattern in patterns for file in glob.glob(pattern, recursive=True))}


def rows(text: str) -> List[List[str]]:
    """Returns the cells of the tables' rows."""
    lines = [line for line in text.split("\n") if line.startswith("| ") and not line.startswith("| Taken on trust")]
    return [[*map(str.strip, line.strip("|").split("|"))] for line in lines]


def faults(text: str) -> Iterator[str]:
    """Yields what the page lacks of the sources, or has beside them."""
    told = {file: cells[1] for cells in rows(text) for file in FILE.findall(cells[0])}
    wanted = {**{it: "" for it in by_hand()}, **{file: str(count) for file, count in unsafe().items()}}
    yield from (f"no row on {file}" for file in sorted(wanted) if file not in told)
    yield from (f"a row on {file}, which isn't taken on trust" for file in sorted(told) if file not in wanted)
    for file, count in wanted.items():
        if count and not told.get(file, f"{count}:").startswith(f"{count}:"):
            yield f"{file} has {count} places of unsafe code, and the page tells {told[file]}"
    for cells in rows(text):
        if not cells[2]:
            yield f"nothing tests {cells[0]}"
    yield from (f"there is no {file}" for file in FILE.findall(text) if not os.path.exists(file))


def reached(log: str, text: str) -> Iterator[str]:
    """Yields which C functions a log tells as reached that the page doesn't name; says which it names beside them."""
    told, found = {*FUNCTION.findall(text)}, {*REACHED.findall(text_of(log))}
    yield from (f"the prover reached {name}, which the page doesn't name" for name in sorted(found - told))
    if not found:
        yield f"{log} has no list of C functions"
    elif told - found:
        print(f"checks/trust: (told) the prover didn't reach {', '.join(sorted(told - found))}")


def main() -> int:
    os.chdir(os.path.dirname(os.path.dirname(os.path.abspath(__file__))))
    text = text_of(PAGE)
    found = [*faults(text), *(reached(sys.argv[1], text) if sys.argv[1:] else ())]
    for fault in found:
        print(f"checks/trust: {PAGE}: {fault}", file=sys.stderr)
    if not found:
        counts = f"{len(rows(text))} rows, {len(FUNCTION.findall(text))} C functions"
        print(f"{PAGE} names what the proofs stand on: {counts}: ok")
    return int(bool(found))


if __name__ == "__main__":
    sys.exit(main())
