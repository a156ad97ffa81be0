"""What of the must-fail edits was refused in an earlier run, by content, as tools/gate/refused.tsv keeps it.

An edit that stands as it was, of a crate that stands byte for byte as it was with all below it and the toolchain, was
refused, and need not be tried again. Each run tries a tenth of these all the same, drawn by a seed. So a record that
was changed by hand lets no wrong edit pass for ever."""
import functools
import hashlib
import os
import random
import threading
from typing import Any, Dict, List, Set, Tuple

FILE = "tools/gate/refused.tsv"
HEAD = "# Written by ./test.sh --renew: of a crate the sum of what it was refused on, of an edit its sum, and why.\n"
PARTS = "src", "specs", "proofs", "c"
# Of the edits that need not be tried, how many are.
DRAWN = 0.1


def sum_of(file: str) -> str:
    """Returns the sum of a file's bytes."""
    with open(file, "rb") as it:
        return hashlib.sha256(it.read()).hexdigest()


@functools.lru_cache(maxsize=None)
def sums_of(folder: str) -> List[Tuple[str, str]]:
    """Returns the files of a crate's folder on which a verdict stands, each with its sum."""
    walked = [os.walk(f"{folder}/{part}") for part in PARTS]
    files = sorted(f"{at}/{name}" for part in walked for at, _, names in part for name in names)
    return [(os.path.relpath(it, folder), sum_of(it)) for it in files]


def content(crate: Any, kit: str) -> str:
    """Returns a sum of all that a verdict on a crate (of rt's) stands on: the toolchain's identity, and of the crate
    and of each below it the name, the libraries and all files."""
    with open(f"{kit}/KIT-ID", "rb") as it:
        made = hashlib.sha256(it.read())
    for each in [*crate.below(), crate]:
        libraries = [*(it.name for it in each.deps), *each.of_kit]
        made.update(repr((each.name, libraries, sums_of(each.folder))).encode())
    return made.hexdigest()


class Record:
    """What is kept, which of it this run takes, and what this run adds."""

    def __init__(self, kit: str, seed: int, tries_all: bool = False) -> None:
        self.kit, self.seed, self.tries_all = kit, seed, tries_all
        self.lock = threading.Lock()
        # where it is written
        self.files: List[str] = []
        # crates' sums, and each edit's sum with the prover's word, by name: as they were kept, and as they are now
        self.sums: Dict[str, str] = {}
        self.words: Dict[str, Tuple[str, str]] = {}
        self.new_sums: Dict[str, str] = {}
        self.new_words: Dict[str, Tuple[str, str]] = {}
        # the names of those that need not be tried, and of those that there was no time for
        self.same: Set[str] = set()
        self.late: List[str] = []

    def read(self, file: str) -> None:
        """Takes what a file keeps, where there is one."""
        if os.path.exists(file):
            with open(file, encoding="utf-8") as it:
                rows = [line.rstrip("\n").split("\t") for line in it if not line.startswith("#")]
            self.sums = {row[0]: row[1] for row in rows if len(row) == 2}
            self.words = {row[0]: (row[1], row[2]) for row in rows if len(row) == 3}

    def write(self, file: str) -> None:
        """Keeps what this run took and what it added, and what was kept of crates that it hasn't come to."""
        with self.lock:
            sums = {**self.sums, **self.new_sums}
            others = {it: row for it, row in self.words.items() if it.split("/")[0] not in self.new_sums}
            lines = [f"{name}\t{found}\n" for name, found in sums.items()]
            lines += [f"{name}\t{found}\t{word}\n" for name, (found, word) in {**others, **self.new_words}.items()]
            os.makedirs(os.path.dirname(file), exist_ok=True)
            with open(f"{file}.new", "w", encoding="utf-8") as it:
                it.writelines([HEAD, *sorted(lines)])
            os.replace(f"{file}.new", file)

    def forget(self, crates: List[str]) -> None:
        """Forgets what was kept of all but these crates."""
        self.sums = {it: found for it, found in self.sums.items() if it in crates}
        self.words = {it: row for it, row in self.words.items() if it.split("/")[0] in crates}

    def is_drawn(self, name: str) -> bool:
        """Returns whether this run's seed draws an edit."""
        return random.Random(f"{self.seed} {name}").random() < DRAWN

    def taken(self, crate: Any, files: List[str]) -> Dict[str, str]:
        """Returns which of a crate's edits need not be tried in this run, each with the prover's word against it."""
        found: Dict[str, str] = {}
        self.new_sums[crate.name] = content(crate, self.kit)
        if self.sums.get(crate.name) != self.new_sums[crate.name]:
            return found
        for file in files:
            name = name_of(crate, file)
            kept, word = self.words.get(name, ("", ""))
            if kept != sum_of(file):
                continue
            self.same.add(name)
            if not self.tries_all and not self.is_drawn(name):
                found[file] = word
                self.new_words[name] = kept, word
        return found

    def add(self, crate: Any, file: str, word: str) -> None:
        """Keeps that an edit was refused, with this word."""
        self.new_words[name_of(crate, file)] = sum_of(file), word.replace("\t", " ").replace("\n", " ")

    def told(self) -> str:
        """Returns a line on what this run took."""
        if self.tries_all:
            return f"all edits are tried; {len(self.same)} of them stand in {FILE} as they are now"
        drawn = sum(map(self.is_drawn, self.same))
        others = f"{len(self.same) - drawn} edits aren't tried, which {FILE} tells refused on the same bytes"
        again = f"./test.sh --seed {self.seed} draws them again, --all tries all"
        return f"{others}; {drawn} of the same are, drawn by the seed {self.seed}: {again}"


def name_of(crate: Any, file: str) -> str:
    """Returns an edit's name, behind its crate's."""
    return f"{crate.name}/{os.path.splitext(os.path.basename(file))[0]}"
