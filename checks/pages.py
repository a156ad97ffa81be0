#!/usr/bin/env python3
"""Checks the pages: that what they link to is there, that the table of docs/architecture.md has each crate once, in
its folder's part, that docs/proved.md has a section on each crate with clauses, that docs/architecture.svg is drawn
from crates.txt as it stands, and that no paragraph of two long pages, nor docs/DECISIONS.md, grows past a bound."""
import glob
import os
import re
import subprocess
import sys
import tempfile
from typing import Iterator, List, Set, Tuple

LINK = re.compile(r"!?\[[^\]]*\]\(([^)\s]+)\)|<img src=\"([^\"]+)\"")
# What a reader is asked to read at once, in words.
MOST_IN_A_PARAGRAPH, MOST_DECIDED = 120, 5000
FENCE = re.compile(r"(?ms)^```.*?^```|`[^`\n]*`")


def text_of(file: str) -> str:
    with open(file, encoding="utf-8") as it:
        return it.read()


def anchors(text: str) -> Set[str]:
    """Returns what a page's headings are called in links."""
    heads = re.findall(r"(?m)^#+ (.*)$", text)
    return {re.sub(r"[^\w\- ]", "", it.lower()).replace(" ", "-") for it in heads}


def broken(page: str) -> Iterator[str]:
    """Returns the links of a page that lead nowhere."""
    for link in (one or other for one, other in LINK.findall(FENCE.sub("", text_of(page)))):
        file, _, part = link.partition("#")
        if re.match(r"[a-z]+:", link):
            continue
        target = os.path.normpath(os.path.join(os.path.dirname(page), file)) if file else page
        if not os.path.exists(target):
            yield f"{page}: there is no {link}"
        elif part and target.endswith(".md") and part not in anchors(text_of(target)):
            yield f"{page}: {target} has no part {part}"


def listed() -> List[Tuple[str, str]]:
    """Returns the folder and the name of each crate of crates.txt."""
    lines = (line.partition("#")[0].partition(":") for line in text_of("crates.txt").split("\n"))
    places = (place.split()[0].partition("/") for place, colon, _ in lines if colon)
    return [(folder, name) for folder, _, name in places]


def missing(crates: List[Tuple[str, str]]) -> Iterator[str]:
    """Returns what the table of crates lacks, or has in another folder's part or twice."""
    parts = re.split(r"(?m)^\*\*(\w+)\*\*$", text_of("docs/architecture.md"))
    table = {folder: re.findall(r"(?m)^\| `(vp_\w+)` \|", part) for folder, part in zip(parts[1::2], parts[2::2])}
    for folder, name in crates:
        if table.get(folder, []).count(name) != 1:
            yield f"docs/architecture.md: {name} isn't once in the table of {folder}"
    known = {name for _, name in crates}
    for name in sum(table.values(), []):
        if name not in known:
            yield f"docs/architecture.md: there is no crate {name}"
    sections = re.findall(r"(?m)^### (\w+)$", text_of("docs/proved.md"))
    for folder, name in crates:
        has_clauses = folder not in ("tests", "examples") and glob.glob(f"crates/{folder}/{name}/specs/*")
        if has_clauses and name not in sections:
            yield f"docs/proved.md: no section on {name}"
    for name in sections:
        if name not in known:
            yield f"docs/proved.md: there is no crate {name}"


def too_long() -> Iterator[str]:
    """Returns where a page that is read from its top is longer than one reads."""
    for page in ("docs/architecture.md", "docs/CHANGING.md"):
        for number, line in enumerate(text_of(page).split("\n"), 1):
            words = 0 if line.startswith("|") else len(line.split())
            if words > MOST_IN_A_PARAGRAPH:
                yield f"{page}:{number}: a paragraph of {words} words: at most {MOST_IN_A_PARAGRAPH}"
    words = len(text_of("docs/DECISIONS.md").split())
    if words > MOST_DECIDED:
        many = f"{words} words, and at most {MOST_DECIDED}"
        yield f"docs/DECISIONS.md has {many}: the choices that a reader could contest"


def main() -> int:
    os.chdir(os.path.dirname(os.path.dirname(os.path.abspath(__file__))))
    pages = sorted(it for kind in ("*.md", "*/*.md", "*/*/*.md") for it in glob.glob(kind) if not it.startswith("out/"))
    faults = [*(fault for page in pages for fault in broken(page)), *missing(listed()), *too_long()]
    with tempfile.TemporaryDirectory() as room:
        subprocess.run(["tools/docs/architecture.py", f"{room}/picture"], check=True)
        if text_of(f"{room}/picture") != text_of("docs/architecture.svg"):
            faults.append("docs/architecture.svg isn't drawn from these crates: tools/docs/architecture.py")
    for fault in faults:
        print(f"checks/pages: {fault}", file=sys.stderr)
    if faults:
        return 1
    print(f"the links of {len(pages)} pages, and the tables and the picture of {len(listed())} crates: ok")
    return 0


if __name__ == "__main__":
    sys.exit(main())
