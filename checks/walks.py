#!/usr/bin/env python3
"""Holds the counts of `vp_count` to its calls. A proof that walks through a body by hand (`Proof.antt`) could give a
count any number. So in the crates that stand on `vp_count` there are no such proofs but those that are named here, with
why they don't; and no other crate makes or opens a `Count`, or rests on the proofs of `vp_count`."""
import glob
import os
import re
import sys
from typing import Dict, Iterator, Set

COUNT = "vp_count"
# The walks in crates above, and why none of them sets a count.
WALKS = {
    "crates/program/vp_c/proofs/handle/Handle/holding/Proof.antt": "it hands on a pointer to a printer and opens none",
    "crates/program/vp_c/proofs/handle/Handle/into_pointed/Proof.antt": "it takes a handle apart, into its pointer",
    "crates/program/vp_c/proofs/handle/Handle/none/Proof.antt": "it makes a handle of no printer",
}
COMMENT = re.compile(r"(?m)(?://|--).*$")
# A count that is made or taken apart, and what a walk or a lemma would need of its crate.
OPENED = re.compile(r"\bCount\s*\{")
BELOW = re.compile(rf"\b{COUNT}\.(?:proofs|specs\.contracts|specs\.declared)\b")


def text_of(file: str) -> str:
    with open(file, encoding="utf-8") as it:
        return COMMENT.sub("", it.read())


def crates() -> Dict[str, Set[str]]:
    """Returns the crates by their folders, each with the names of those that it stands on."""
    with open("crates.txt", encoding="utf-8") as it:
        lines = [line.split("#")[0] for line in it]
    heads = [line.split(":", 1) for line in lines if ":" in line]
    return {head.split()[0]: {os.path.basename(name) for name in tail.split()} for head, tail in heads}


def above() -> Set[str]:
    """Returns the folders of the crates that stand on the counts, at whatever height."""
    found: Set[str] = set()
    names, known = {COUNT}, crates()
    while True:
        more = {folder for folder, below in known.items() if below & names} - found
        if not more:
            return found
        found |= more
        names |= {os.path.basename(folder) for folder in more}


def faults() -> Iterator[str]:
    """Yields where a count could be set."""
    walks = {file for folder in above() for file in glob.glob(f"crates/{folder}/proofs/**/Proof.antt", recursive=True)}
    yield from (f"{file} is a walk above {COUNT} that isn't named here" for file in sorted(walks - {*WALKS}))
    yield from (f"{file} is named here, and there is none" for file in sorted({*WALKS} - walks))
    for file in sorted(it for end in ("rt", "antt") for it in glob.glob(f"crates/*/*/**/*.{end}", recursive=True)):
        crate = file.split("/")[2]
        if crate == COUNT or "/out/" in file:
            continue
        text = text_of(file)
        if f"use {COUNT}::" in text and OPENED.search(text):
            yield f"{file} makes a count, or takes one apart"
        if BELOW.search(text):
            yield f"{file} rests on the proofs of {COUNT}"


def main() -> int:
    os.chdir(os.path.dirname(os.path.dirname(os.path.abspath(__file__))))
    found = [*faults()]
    for fault in found:
        print(f"checks/walks: {fault}", file=sys.stderr)
    if not found:
        print(f"nothing sets a count: {len(above())} crates above {COUNT}, {len(WALKS)} walks: ok")
    return int(bool(found))


if __name__ == "__main__":
    sys.exit(main())
