#!/usr/bin/env python3
"""The gate: rt ci, which tries the must-fail edits of a crate several at a time.

rt tries each edit in a check of its own, and most of that is the loading of what the crate stands on. A function is
proved from its own body and from the contracts of what it calls. So edits in the bodies of different functions are
tried in one check, and each is refused there where the prover finds fault with its own function. What isn't refused
so, and an edit that changes more than bodies, is tried alone by rt itself, as rt must-fail does it. Before a crate's
edits its right bodies in another form are tried, which must be taken (passing.py): what their check keeps the others
begin with. Edits that stand with all that they change as they were refused on are taken from record.py's file, but
for a tenth.

gate.py [--all] [--seed N] [--renew] [--make] [CRATE..]: --all tries all edits; --seed draws the tenth as an earlier
run did, that said it; --renew writes the file of what was refused, crate by crate. (Each run leaves it in out/.) With
names of crates it proves these and those below them, tries their edits, and makes nothing: that is not the gate. Nor
is it with --make, which makes all that the gate makes, and has only that proved which it is made of: no edit is tried,
no test is run.

rt ci wants all crates side by side. So it runs on a copy of the repository in which each crate of crates/FOLDER/NAME
stands in crates/NAME, and what it made of the program is brought back, with the module that LLVM made it of. Where
all went well and no source changed meanwhile, made-from beside the program tells what it was made from, and the
library for C is made too, of its crate's archive, and its module is brought back as well."""
import argparse
import glob
import importlib.machinery
import importlib.util
import os
import random
import re
import shutil
import subprocess
import sys
import tempfile
import time
from typing import Any, Callable, Dict, List, Tuple

PROGRAM, LIBRARY = "crates/program/vp_cli/out/vp_cli", "crates/program/vp_c"
TOOLS = os.path.dirname(os.path.dirname(os.path.realpath(__file__)))
# What a check with one job takes of memory at most, in bytes, with room.
MEMORY = 4_500_000_000
sys.dont_write_bytecode = True
sys.path.insert(0, f"{TOOLS}/dist")
import library  # noqa: E402
import record  # noqa: E402
from edits import Edit, one_for_each_function, with_all  # noqa: E402
from keeping import keeping  # noqa: E402
from passing import Tried, all_taken, tried  # noqa: E402
from refused import NOT_TRIED, told  # noqa: E402

# How long edits are begun, by the clock, in minutes of the environment's VP_EDIT_MINUTES; without it there is no end.
MINUTES = float(os.environ.get("VP_EDIT_MINUTES") or "inf")
BEGAN = time.monotonic()
# What of rt the rounds stand on: of every rt, and of one that adds an edit's task itself or else tries a crate's
# edits in one.
NEEDED = "must_fail", "checked", "read_edit", "unread", "rtlib"
WITH_TASKS, WITH_ALL = ("add_edits", "need", "REFUSED", "SETTLED"), ("must_fail_all",)
# What is said of the right bodies of the crates whose edits were tried, by the crate's name.
OF_RIGHT_BODIES: Dict[str, Tried] = {}
# What an edit came to, in rt's word, and what to say of it; and of one that there was no time for.
Result = Tuple[Any, str]
LATE: Result = (None, "")


def is_late() -> bool:
    """Returns whether no edit is begun any more."""
    return time.monotonic() - BEGAN > 60 * MINUTES


def kit() -> Any:
    """Returns the command rt as a module."""
    loader = importlib.machinery.SourceFileLoader("rt", os.path.realpath(shutil.which("rt") or "rt"))
    spec = importlib.util.spec_from_loader("rt", loader)
    assert spec
    made = importlib.util.module_from_spec(spec)
    loader.exec_module(made)
    return made


def tried_together(rt: Any, crate: Any, edits: List[Edit], flags: List[str], kept: str) -> Dict[str, str]:
    """Tries edits of different functions in one check of these and of what they call, and returns those that are
    refused, each with the prover's word."""
    texts = with_all(crate, edits)
    only = [word for edit in edits for it in edit.functions for word in ("--only", it.path)]
    ran = rt.checked(crate, texts, flags + only, kept)
    lines = ran.stdout.rstrip("\n").split("\n")
    is_refused = ran.returncode == 1 and lines[-1].startswith("only=")
    if not is_refused or rt.rtlib.STALE.search(ran.stdout) or any(rt.unread(it, texts) for it in lines):
        return {}
    found = {it.file: it.faults(lines, len(edits) == 1) for it in edits}
    return {file: told(faults) for file, faults in found.items() if faults}


def tried_by_rounds(rt: Any, crate: Any, edits: List[Edit], flags: List[str], kept: str) -> Dict[str, str]:
    """Tries edits of bodies, a round of them in each check, over what those before them kept. One whose function
    calls what is refused in its round may have to wait for the next one. What no round refuses any more, as an edit
    of a constant of which a lemma speaks, is tried with no other beside it. Returns those that are refused, each with
    the prover's word."""
    found: Dict[str, str] = {}
    while edits and not is_late():
        new = tried_together(rt, crate, one_for_each_function(edits), flags, kept)
        found.update(new)
        edits = [it for it in edits if it.file not in found]
        if not new:
            break
    for it in edits:
        if not is_late():
            found.update(tried_together(rt, crate, [it], flags, kept))
    return found


# What is said of a refused edit: behind the name, and where it is taken from the record.
REFUSED, KEPT = "must-fail %s: refused, as it must be", " (kept)"


class Untried(int):
    """What an rt that adds up what edits come to is told of one that there was no time for: it adds nothing, and is no
    failure."""

    def __bool__(self) -> bool:
        return True


def must_fail_all(rt: Any, crate: Any, files: List[str], flags: List[str]) -> List[Result]:
    """Tries edits of a crate that is proved, behind its right bodies: by rounds, and by rt itself what no round
    refused. What isn't refused so either is tried once more from nothing, and so is what rt tried where the crate
    itself isn't proved over what was kept. Returns what each comes to, in rt's words (or, of an rt that has none,
    whether it is refused), and what to say of it; LATE for those that there was no time for."""
    refused, settled = getattr(rt, "REFUSED", True), getattr(rt, "SETTLED", (True,))
    readable = [it for it in files if not rt.read_edit(it, crate.folder)[1]]
    together = [it for it in (Edit(crate, file) for file in readable) if it.is_of_bodies]
    with tempfile.TemporaryDirectory(prefix="rt-edits-") as kept:
        OF_RIGHT_BODIES[crate.name] = tried(rt, crate, flags, kept)
        found = tried_by_rounds(rt, crate, together, flags, kept)
        done = {it: (refused, f"{label_of(crate, it)}: {said}") for it, said in found.items()}
        if is_late():
            return [done.get(it, LATE) for it in files]
        alone = {it: rt.must_fail(crate, it, flags, kept) for it in files if it not in done}
        if alone and not rt.checked(crate, {}, flags, kept).returncode:
            done |= {it: said for it, said in alone.items() if said[0] in settled}
    return [done[it] if it in done else rt.must_fail(crate, it, flags) for it in files]


def label_of(crate: Any, file: str) -> str:
    return REFUSED % f"{crate.name}/{os.path.basename(file)}"


def tried_anew(rt: Any, kept: record.Record, crate: Any, files: List[str], flags: List[str]) -> List[Result]:
    """Tries edits of a crate, and returns what each comes to. Those that are refused are added to the record."""
    done = must_fail_all(rt, crate, files, flags)
    for file, (kind, said) in zip(files, done):
        word = said.removeprefix(label_of(crate, file))
        # (what is refused only for a name or by a limit is tried each time)
        if kind == getattr(rt, "REFUSED", True) and word != said and not word.startswith(" ("):
            kept.add(crate, file, word.removeprefix(": "))
    return done


def kept_or_tried(
    rt: Any, kept: record.Record, crate: Any, edits: List[str], try_new: Callable[[List[str]], List[Result]]
) -> Tuple[Dict[str, Result], Dict[str, Result]]:
    """Returns what is taken from the record of a crate's edits, and what the others come to."""
    known = kept.taken(crate, edits)
    refused = getattr(rt, "REFUSED", True)
    taken = {it: (refused, f"{label_of(crate, it)}{KEPT}: {word}") for it, word in known.items()}
    new = [it for it in edits if it not in known]
    done = dict.fromkeys(new, LATE)
    if is_late():
        OF_RIGHT_BODIES[crate.name] = []
    else:
        done.update(zip(new, try_new(new)))
    kept.late += [record.name_of(crate, it) for it in new if done[it] is LATE]
    for file in kept.files:
        kept.write(file)
    return taken, done


def all_edits(rt: Any, kept: record.Record, crate: Any, files: List[str], flags: List[str]) -> List[Result]:
    """Tries a crate's edits, but for those that are taken from the record, for an rt that takes no tasks."""
    taken, done = kept_or_tried(rt, kept, crate, files, lambda new: tried_anew(rt, kept, crate, new, flags))
    said = {it: (Untried(), f"not tried: {record.name_of(crate, it)}") for it in done if done[it] is LATE}
    return [{**taken, **done, **said}[it] for it in files]


def add_edits(
    rt: Any, kept: record.Record, tasks: Any, crate: Any, edits: List[str], first: Any, waits: Any, is_well: Any,
    *_: Any, **__: Any
) -> Tuple[Any, Any]:
    """Adds the task that tries a crate's edits once the crate and its tests are proved, but for those that are taken
    from the record. Returns what gives the results of all, in the edits' order, and what gives those that were
    taken. Those that there was no time for are taken out of the edits."""
    # (what rt calls a seed gets more than one processor where others are idle)
    key = crate.name, "seed"
    taken: Dict[str, Result] = {}

    def call(given: Any, jobs: int) -> Any:
        if not is_well(given):
            return False

        def try_new(new: List[str]) -> List[Result]:
            is_well(given, len(new))
            return tried_anew(rt, kept, crate, new, ["--jobs", str(jobs)])

        known, done = kept_or_tried(rt, kept, crate, edits, try_new)
        taken.update(known)
        edits[:] = [it for it in edits if done.get(it) is not LATE]
        return [taken.get(it) or done[it] for it in edits]

    if edits:
        tasks[key] = ([*first, *waits], crate.count(rb"\n"), rt.need(crate), call)
    return lambda given: given[key] if key in tasks else [], lambda: taken


def side_by_side(root: str, room: str) -> Dict[str, str]:
    """Copies the repository with its crates side by side, and returns where each program that was copied stands in
    it."""
    shutil.copytree(root, room, ignore=shutil.ignore_patterns(".git", "out"), symlinks=True)
    with open(f"{room}/crates.txt", encoding="utf-8") as it:
        listed = it.read()
    programs = {}
    for place in re.findall(r"(?m)^([\w-]+(?:/[\w-]+)+)\b", listed):
        name = os.path.basename(place)
        if os.path.isdir(f"{room}/crates/{place}"):
            os.rename(f"{room}/crates/{place}", f"{room}/crates/{name}")
        if os.path.isfile(f"{room}/crates/{name}/src/main.rt"):
            programs[f"{room}/crates/{name}/out/{name}"] = f"{root}/crates/{place}/out/{name}"
    with open(f"{room}/crates.txt", "w", encoding="utf-8") as it:
        it.write(re.sub(r"(?m)(^| )(?:[\w-]+/)+([\w-]+)", r"\1\2", re.sub(r"#.*", "", listed)))
    return programs


def leave_what_is_made(room: str, listed: str) -> None:
    """Takes out of a copy what nothing is made of: edits, and the crates of tests and of examples."""
    for folder in glob.glob(f"{room}/crates/*/must-*"):
        shutil.rmtree(folder)
    names = [os.path.basename(it) for it in re.findall(r"(?m)^(?:tests|examples)/[\w-]+", listed)]
    for name in names:
        shutil.rmtree(f"{room}/crates/{name}")
    with open(f"{room}/crates.txt", encoding="utf-8") as it:
        lines = [line for line in it if not re.match(rf"(?:{'|'.join(names)})\b", line)] if names else list(it)
    with open(f"{room}/crates.txt", "w", encoding="utf-8") as it:
        it.writelines(lines)


def leave_others(room: str, names: List[str]) -> None:
    """Takes out of a copy all crates but these and those below them, for an rt that takes no names."""
    with open(f"{room}/crates.txt", encoding="utf-8") as it:
        lines = {line.split(":")[0].split()[0]: line for line in it if ":" in line}
    wanted: Dict[str, str] = {}
    left = list(names)
    while left:
        name = left.pop()
        if name in lines and name not in wanted:
            wanted[name] = lines[name]
            left += lines[name].split(":")[1].split()
    for folder in glob.glob(f"{room}/crates/*"):
        if os.path.basename(folder) not in wanted:
            shutil.rmtree(folder)
    with open(f"{room}/crates.txt", "w", encoding="utf-8") as it:
        it.writelines(wanted.values())


def sources(root: str) -> bytes:
    """Returns the sum of what the program is made from, as the repository stands."""
    told = ["sh", "-c", 'root=$1 && . "$2/dist/dist.sh" && sources', "sh", root, TOOLS]
    return subprocess.run(told, capture_output=True, check=True).stdout


def bring_back(made: str, to: str) -> None:
    os.makedirs(os.path.dirname(to), exist_ok=True)
    shutil.copy2(made, f"{to}.new")
    os.replace(f"{to}.new", to)


def tell_made_from(program: str) -> None:
    """Writes beside the program what it was made from."""
    with open(f"{os.path.dirname(program)}/made-from", "wb") as it:
        subprocess.run([f"{TOOLS}/dist/tell-made-from", program], stdout=it, check=True)


def one_job_each(rt: Any) -> None:
    """Has each check have one job, where the environment's RT_JOBS asks for no other number of checks at a time.
    There is work for all processors, and a check with several jobs takes a quarter more of them in all."""
    if "RT_JOBS" not in os.environ and hasattr(rt, "processors") and hasattr(rt, "free"):
        os.environ["RT_JOBS"] = str(max(1, min(rt.processors(), rt.free() // MEMORY)))


def by_rounds(rt: Any, kept: record.Record) -> None:
    """Has rt try edits by rounds, and by the record, or says what it lacks for that."""
    lacking = {way: [it for it in (*NEEDED, *way) if not hasattr(rt, it)] for way in (WITH_TASKS, WITH_ALL)}
    if not lacking[WITH_TASKS]:
        rt.add_edits, say = lambda *of, **named: add_edits(rt, kept, *of, **named), rt.say
        # (what the record tells may be of another machine)
        rt.say = lambda text, *to: say(text.replace(" on this machine", "") if "must-fail edits" in text else text, *to)
    elif not lacking[WITH_ALL]:
        rt.must_fail_all = lambda *of: all_edits(rt, kept, *of)
    else:
        names = " or ".join(", ".join(it) for it in lacking.values())
        print(f"gate: this rt has no {names}: it tries each edit in a check of its own, which takes longer")


def built(rt: Any, room: str, crate: str, to: str) -> bool:
    """Compiles a crate, and what it stands on, which were proved in the room, and leaves there the module that LLVM
    made it of. Returns whether that went well."""
    name = os.path.basename(crate)
    folder = f"{room}/crates/{name}"
    words = rt.Crate(folder, room, {}).words(["--jobs", "2"])
    kept = keeping(f"{rt.KIT}/toolchain", f"{folder}/out/toolchain", f"{folder}/out/{name}.bc")
    words = [rt.rtlib.RATTLE, "build", *words, "--backend", "llvm", "--toolchain", kept, "--list-axioms", "-o", to]
    ran = subprocess.run(words, cwd=folder, stdout=subprocess.PIPE, stderr=subprocess.STDOUT, check=False)
    # (C functions whose contracts weren't reached aren't told of)
    lines = ran.stdout.decode(errors="replace").splitlines(True)
    told = [it for it in lines if not re.fullmatch(r"  \w+(::\w+)+\n", it)]
    print("".join(told), end="", flush=True)
    return not ran.returncode


def make_module(rt: Any, room: str, root: str) -> bool:
    """Leaves beside the program the module that LLVM makes it of, for tools/systems, and returns whether that went
    well. (rt may have taken the program from an earlier run, so that nothing was compiled.)"""
    if not hasattr(rt, "Crate"):
        print("gate: this rt has no Crate: it leaves no module for other systems")
        return True
    name = os.path.basename(PROGRAM)
    print(f"gate: the module for other systems is made of {name}", flush=True)
    with tempfile.TemporaryDirectory() as to:
        if not built(rt, room, name, f"{to}/{name}.o"):
            return False
    bring_back(f"{room}/crates/{name}/out/{name}.bc", f"{root}/{PROGRAM}.bc")
    return True


def make_library(rt: Any, room: str, root: str) -> bool:
    """Makes the library for C, of the crates that were proved in the room, and leaves its module beside it for
    tools/systems. Returns whether that went well."""
    name, to = os.path.basename(LIBRARY), f"{root}/{LIBRARY}/out"
    folder = f"{room}/crates/{name}"
    if not os.path.isdir(folder):
        return True
    print(f"gate: the library for C is made of {name}", flush=True)
    if not built(rt, room, name, f"out/lib{name}.a"):
        return False
    for made in (f"lib{name}.a", f"{name}.bc"):
        bring_back(f"{folder}/out/{made}", f"{to}/{made}")
    library.make(f"{to}/lib{name}.a", to)
    return True


def read_words() -> argparse.Namespace:
    """Returns what the words of the command line ask for."""
    words = argparse.ArgumentParser(description="The gate, at the top of the repository.")
    words.add_argument("--all", action="store_true", help="try all must-fail edits")
    words.add_argument("--seed", type=int, help="draw the same of those that need not be tried as the run that said so")
    words.add_argument("--renew", action="store_true", help=f"write {record.FILE}")
    words.add_argument("--make", action="store_true", help="make all of what is proved, without edits and tests")
    words.add_argument("crates", nargs="*", metavar="CRATE", help="only these, and those below them")
    given = words.parse_args()
    if given.make and (given.crates or given.renew):
        words.error("--make tries no edits, and makes all")
    return given


def keep_record(kept: record.Record, is_renewed: bool) -> None:
    """Says what was taken from the record, and leaves what this run made of it in out/ and, where that is asked for,
    in its place."""
    print(f"gate: {kept.told()}", flush=True)
    for name in kept.late:
        print(f"gate: {NOT_TRIED} {name}")
    if kept.late:
        late = f"{len(kept.late)} edits were not tried, nor the right bodies of crates that were left out whole"
        print(f"gate: {late}: they are begun in the first {MINUTES:g} minutes", flush=True)
    for file in kept.files:
        kept.write(file)
    if is_renewed:
        print(f"gate: {record.FILE} is renewed, and is to be committed", flush=True)


def main() -> int:
    words, rt = read_words(), kit()
    one_job_each(rt)
    seed = random.SystemRandom().randrange(1_000_000) if words.seed is None else words.seed
    kept, root = record.Record(getattr(rt, "KIT", ""), seed, words.all), os.getcwd()
    kept.read(f"{root}/{record.FILE}")
    kept.files = [f"{root}/out/{os.path.basename(record.FILE)}", *[f"{root}/{record.FILE}"] * words.renew]
    by_rounds(rt, kept)
    with tempfile.TemporaryDirectory(prefix="vp-gate-") as room:
        before = sources(root)
        programs = side_by_side(root, f"{room}/all")
        os.chdir(f"{room}/all")
        if words.make:
            with open(f"{root}/crates.txt", encoding="utf-8") as it:
                leave_what_is_made(f"{room}/all", it.read())
        else:
            kept.forget([os.path.basename(it) for it in glob.glob("crates/*")])
        takes_names = hasattr(rt, "add_edits")
        if words.crates and not takes_names:
            leave_others(f"{room}/all", words.crates)
            print("This is not the gate: only named crates are proved, with those below them", flush=True)
        status = int(rt.main(["ci", *words.crates * takes_names]))
        if words.make:
            print("gate: no edit was tried, and no test run: this is not the gate", flush=True)
        else:
            keep_record(kept, words.renew)
        status = status or int(not all_taken(rt, f"{room}/all", OF_RIGHT_BODIES, words.crates))
        if words.crates:
            return int(status)
        for made, to in programs.items():
            if os.path.isfile(made):
                bring_back(made, to)
        program = f"{root}/{PROGRAM}"
        if not status and program in programs.values() and sources(root) == before:
            tell_made_from(program)
            status = int(not all(make(rt, f"{room}/all", root) for make in (make_module, make_library)))
        return status


if __name__ == "__main__":
    sys.exit(main())
