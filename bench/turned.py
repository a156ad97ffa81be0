#!/usr/bin/env python3
"""Turns constants of the program one at a time, on a copy, and says which test tells: bench/turned.py [NUMBER [SEED
[LANES]]]. Nothing is proved, so the tests alone can tell. The constants are drawn from the bodies of all crates but the
program's own; each becomes one more. One that doesn't compile so is left out, and another is drawn."""
import concurrent.futures
import functools
import os
import random
import re
import shutil
import subprocess
import sys
import tempfile

ROOT = os.path.dirname(os.path.dirname(os.path.realpath(__file__)))
ROOMS = "drawing", "receipts", "labels", "printing"
TESTS = "vp_painting_tests", "vp_receipt_tests", "vp_label_tests", "vp_printing_tests"
NUMBER = re.compile(r"(?<![\w.'\"\\])(0x[0-9A-Fa-f]+|\d[\d_]*)(?=(?:[ui]\d+|usize)?\b)(?![.]\d)")
# What isn't a body: imports, attributes and clauses, which go on until their braces are closed.
APART = re.compile(r"\s*(ghost |use |pub use |#|ensures |requires )")


def listed():
    """Returns what each crate stands on, by its name, and where it is."""
    stands, places = {}, {}
    with open(f"{ROOT}/crates.txt", encoding="utf-8") as it:
        for line in it:
            place, colon, below = line.partition("#")[0].partition(":")
            if colon:
                # (behind its place a crate may have a word of how it is built)
                place = place.split()[0]
                name = os.path.basename(place)
                places[name] = place
                stands[name] = [os.path.basename(dep) for dep in below.split()]
    return stands, places


def stands_on(stands, name, below):
    """Returns whether a crate stands on another, or is it."""
    return name == below or any(stands_on(stands, it, below) for it in stands.get(name, []))


def constants(file):
    """Returns the numbers of each line of a source's bodies that has some: where each stands."""
    found, depth = [], 0
    with open(file, encoding="utf-8") as it:
        for number, line in enumerate(it):
            code = re.sub(r'"(\\.|[^"\\])*"', lambda it: " " * len(it[0]), line.partition("//")[0])
            if depth or APART.match(code):
                depth += code.count("{") - code.count("}")
                continue
            found.append([(file, number, it.start(1), it.end(1)) for it in NUMBER.finditer(code)])
    return list(filter(None, found))


def drawn(places, seed):
    """Returns a constant of each line of the program that has one, in an order that hangs on the seed alone."""
    every, chosen = [], random.Random(seed)
    for name, place in sorted(places.items()):
        if place.split("/")[0] in ROOMS:
            for at, folders, files in os.walk(f"{ROOT}/crates/{place}/src"):
                folders.sort()
                for file in sorted(files):
                    every += [(name, *chosen.choice(it)) for it in constants(f"{at}/{file}")]
    chosen.shuffle(every)
    return every


def turned(line, start, end):
    """Returns a line with one more in the place of its number."""
    old = line[start:end]
    new = hex(int(old, 16) + 1) if old.startswith("0x") else str(int(old.replace("_", "")) + 1)
    return line[:start] + new + line[end:]


def room(places):
    """Returns a copy of the sources."""
    made = tempfile.mkdtemp(prefix="vp-turned-")
    for file in "HANDLES", "crates.txt":
        shutil.copy(f"{ROOT}/{file}", made)
    for place in places.values():
        shutil.copytree(f"{ROOT}/crates/{place}/src", f"{made}/crates/{place}/src")
    return made


def failed(made, tests):
    """Returns the tests of a crate that failed, or nothing where they don't compile."""
    words = [f"{ROOT}/tools/gate/rt_try.py", "--test", "--seconds", "150"]
    ran = subprocess.run(words, cwd=f"{made}/crates/tests/{tests}", capture_output=True, text=True)
    if "test result:" not in ran.stdout + ran.stderr:
        return None
    return set(re.findall(r"(?m)^test (\S+) \.\.\. FAILED", ran.stdout + ran.stderr))


@functools.lru_cache(None)
def calm(tests):
    """Returns the tests of a crate that fail as they are."""
    made = room(listed()[1])
    try:
        return failed(made, tests) or set()
    finally:
        shutil.rmtree(made)


def try_one(stands, places, constant):
    """Turns a constant, and returns what to say: which tests tell, none, or nothing where it doesn't compile."""
    name, file, number, start, end = constant
    made = room(places)
    try:
        path = f"{made}{file.removeprefix(ROOT)}"
        with open(path, encoding="utf-8") as it:
            lines = it.readlines()
        old, lines[number] = lines[number].strip(), turned(lines[number], start, end)
        with open(path, "w", encoding="utf-8") as it:
            it.writelines(lines)
        said = f"{name} {file.rpartition('/src/')[2]}:{number + 1}: {old} -> {lines[number].strip()}"
        for tests in (it for it in TESTS if stands_on(stands, it, name)):
            told = failed(made, tests)
            if told is None:
                return None
            if told and told - calm(tests):
                return True, f"{said}: told by {tests}: {', '.join(sorted(told - calm(tests))[:3])}"
        return False, f"{said}: TOLD BY NONE"
    finally:
        shutil.rmtree(made)


def main():
    given = [int(it) for it in sys.argv[1:]]
    number, seed, lanes = given + [20, 1, 2][len(given) :]
    stands, places = listed()
    told = tried = 0
    left = iter(drawn(places, seed))
    with concurrent.futures.ThreadPoolExecutor(lanes) as pool:
        under_way = set()
        while tried < number:
            while len(under_way) < min(lanes, number - tried):
                under_way.add(pool.submit(try_one, stands, places, next(left)))
            done, under_way = concurrent.futures.wait(under_way, return_when=concurrent.futures.FIRST_COMPLETED)
            for result in filter(None, (it.result() for it in done)):
                tried, told = tried + 1, told + result[0]
                print(result[1], flush=True)
    print(f"{told} of {tried} turned constants were told by the tests alone")


if __name__ == "__main__":
    main()
