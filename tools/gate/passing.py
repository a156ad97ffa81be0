"""Right bodies in another form (must-pass/*.edit), each named by its function and by what is other: the prover must
take them, with what they change of the answers. So what it says against a wrong body of the function isn't said
against every other."""
import glob
import os
import re
from typing import Any, Dict, Iterator, List, Optional, Tuple

from edits import Edit, one_for_each_function, with_all

# Right bodies, each with what the prover says against it.
Tried = List[Tuple[Edit, str]]


def rounds(edits: List[Edit]) -> Iterator[List[Edit]]:
    """Parts edits so that no two of a round change the same function."""
    while edits:
        them = one_for_each_function(edits)
        yield them
        edits = [it for it in edits if it not in them]


def refusal(rt: Any, crate: Any, edits: List[Edit], flags: List[str], kept: Optional[str]) -> str:
    """Returns what the prover says against right bodies of different functions, or nothing where it takes them all."""
    only = [word for edit in edits for it in edit.functions for word in ("--only", it.path)]
    ran = rt.checked(crate, with_all(crate, edits), [*flags, *only], kept)
    lines = ran.stdout.rstrip("\n").split("\n")
    proved = re.fullmatch(r"only=(\d+) proved=(\d+)", lines[-1])
    if ran.returncode == 0 and only and proved and proved[1] == proved[2]:
        return ""
    return str(next((it for it in lines if re.search(r": error|^error|not proved", it)), lines[-1]))[:200]


def tried(rt: Any, crate: Any, flags: List[str], kept: Optional[str]) -> Tried:
    """Tries the right bodies of a crate, over what is kept, and returns each with what the prover says against it."""
    found = []
    for them in rounds([Edit(crate, file) for file in sorted(glob.glob(f"{crate.folder}/must-pass/*.edit"))]):
        why = refusal(rt, crate, them, flags, kept)
        # of several each is tried alone, to tell which it is
        found += [(it, why and (refusal(rt, crate, [it], flags, kept) if len(them) > 1 else why)) for it in them]
    return found


def all_taken(rt: Any, room: str, found: Dict[str, Tried], names: List[str]) -> bool:
    """Says of each right body of the room's crates, which are proved (or of those named), what it came to, by what was
    found of a crate's or else by a try, and returns whether all are taken."""
    folders = sorted(os.path.dirname(it) for it in glob.glob(f"{room}/crates/*/must-pass"))
    folders = [it for it in folders if not names or os.path.basename(it) in names]
    if folders and not hasattr(rt, "checked"):
        print("gate: this rt has no checked: it doesn't try right bodies in another form")
        return True
    is_well = True
    for crate in [rt.Crate(it, room, {}) for it in folders]:
        if crate.name not in found:
            found[crate.name] = tried(rt, crate, ["--jobs", "1"], None)
        for edit, why in found[crate.name]:
            what = f"NOT TAKEN: {why}" if why else "taken, as it must be"
            print(f"must-pass {crate.name}/{os.path.basename(edit.file)}: {what}", flush=True)
            is_well = is_well and not why
    return is_well
