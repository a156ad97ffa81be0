"""An edit of a crate (must-fail/*.edit, must-pass/*.edit), and the functions whose bodies it changes."""
import glob
import re
from typing import Any, Dict, List, Optional, Set, Tuple

FUNCTION = re.compile(r'( *)(?:pub(?:\([^)]*\))? )?(?:const )?(?:extern "C" )?fn (\w+)')
# A constant of one file.
CONSTANT = re.compile(r"(?m)^(?:const|static) (\w+): ")
# What has methods: a trait, or a type, maybe with the trait that it is given there.
OWNER = re.compile(r"(?:pub )?trait (?P<of>\w+)|impl(?:<.*?>)? (?:(?P<trait>\w+)(?:<.*?>)? for &?)?(?P<type>\w+)")
# Faults that the prover finds: by a place of the source, or in a file that answers a function's goals.
IN_SOURCE = re.compile(r"note: (?:\./)?src/(\S+)\.rt:(\d+):\d+: it is not proved ")
IN_PROOF = re.compile(r"(?:\./)?proofs/(\S+)/\w+\.antt:\d+:\d+: error: ")
# Any fault of a proof.
FAULT = re.compile(rf"{IN_SOURCE.pattern}|(?:\./)?proofs/\S+\.antt:\d+:\d+: error: ")
# What says only that a proof names what the edit took away, or cites what was refused.
OF_ANOTHER = re.compile(r"has no field|is not in scope|has no `|was not admitted|depends on ")


class Function:
    """A function of a file of src, by its lines there, of which the first is 1, by where its proof stands, and by its
    name for rattle, or as much of its end as says which it is."""

    def __init__(self, path: str, first: int, last: int, owner: str, name: str) -> None:
        self.module, self.first, self.last = path.removeprefix("src/").removesuffix(".rt"), first, last
        under = "" if self.module == "lib" else f"{self.module}/"
        self.proof = rf"([a-z]\w*/)*{owner}/{name}" if owner else f"{under}{name}"
        self.path = f"{owner}::{name}" if owner else f"{under}{name}".replace("/", "::")

    def is_at_fault(self, line: str) -> bool:
        """Returns whether a line of the prover's tells a fault of this function."""
        at = IN_SOURCE.match(line)
        if at:
            return at[1] == self.module and self.first <= int(at[2]) <= self.last
        at = IN_PROOF.match(line)
        return bool(at and re.fullmatch(self.proof, at[1]) and not OF_ANOTHER.search(line))


def function_around(path: str, text: str, place: int) -> Optional[Function]:
    """Returns the function whose body a place of a file is in, if it is in one, of a text as rt fmt lays it out."""
    lines, at = text.split("\n"), text.count("\n", 0, place)
    for named in range(at, -1, -1):
        found = FUNCTION.match(lines[named])
        if not found:
            continue
        last = next((it for it in range(named, len(lines)) if lines[it] == f"{found[1]}}}"), 0)
        if at < last:
            opens = re.compile(rf"{found[1]}(\{{|(pub|const|fn|\)).* \{{)")
            body = next((it for it in range(named, last) if opens.fullmatch(lines[it])), last)
            # its attributes are lines of it
            ends = [it for it in range(named) if not lines[it] or lines[it].endswith(("{", "}", ";"))]
            first = ends[-1] + 1
            owners = filter(None, map(OWNER.match, reversed(lines[:first]))) if found[1] else ()
            owner = next(("".join(filter(None, it.group("of", "type", "trait"))) for it in owners), "")
            return Function(path, first + 1, last + 1, owner, found[2]) if body < at else None
    return None


def constant_around(text: str, place: int) -> Optional[Tuple[str, int, int]]:
    """Returns a private constant that a place of a file is in, if it is in one: its name, and where it begins and
    ends."""
    items = [it for it in CONSTANT.finditer(text) if it.start() <= place]
    ends = text.find(";\n", items[-1].start()) if items else -1
    return (items[-1][1], items[-1].start(), ends) if place <= ends else None


def is_cited(folder: str, path: str, name: str) -> bool:
    """Returns whether a definition or a clause of the crate cites a constant of this file of src."""
    module = path.removeprefix("src/").removesuffix(".rt").replace("/", ".")
    cites = re.compile(rf"declared\.{'' if module == 'lib' else f'{module}.'}TheConstants\.\{{[^}}]*\b{name}\b")
    parts = "specs/**/*.antt", "src/**/*.rt"
    for file in (it for part in parts for it in glob.glob(f"{glob.escape(folder)}/{part}", recursive=True)):
        with open(file, encoding="utf-8", errors="replace") as it:
            if cites.search(it.read()):
                return True
    return False


def changed_at(folder: str, path: str, text: str, place: int) -> Optional[List[Function]]:
    """Returns the functions whose bodies change with what stands at a place of a file: the one that it is in, or of a
    private constant that no definition or clause cites all that name it; None where it changes more than bodies."""
    if around := function_around(path, text, place):
        return [around]
    if constant := constant_around(text, place):
        name, begins, ends = constant
        if is_cited(folder, path, name):
            return None
        uses = [it.start() for it in re.finditer(rf"\b{name}\b", text) if not begins <= it.start() <= ends]
        users = [changed_at(folder, path, text, it) for it in uses]
        return None if None in users else [function for user in users for function in user or ()]
    return None


class Edit:
    """An edit: its texts, each in place of another, and the functions whose bodies it changes; also whether it
    changes no more than bodies, but that it may add a function of its own."""

    def __init__(self, crate: Any, file: str) -> None:
        self.file, self.is_of_bodies = file, True
        # of each text its file, its place there, itself and what stands in its place
        self.cuts: List[Tuple[str, int, str, str]] = []
        self.functions: List[Function] = []
        with open(file, encoding="utf-8", errors="replace") as it:
            lines = it.read().split("\n")
        path = old = ""
        for line in lines:
            word, _, text = line.partition(":")
            text = text.removeprefix(" ")
            if word == "file":
                path = text.strip()
            elif word == "old":
                old = text
            elif word == "new":
                self.cut(crate, path, old, text)

    def cut(self, crate: Any, path: str, old: str, new: str) -> None:
        with open(f"{crate.folder}/{path}", encoding="utf-8") as it:
            text = it.read()
        place = text.find(old)
        self.cuts.append((path, place, old, new))
        changed = changed_at(crate.folder, path, text, place) if place >= 0 else None
        self.functions += changed or []
        is_own_function = bool(FUNCTION.match(new)) and new.endswith(old.strip())
        self.is_of_bodies = self.is_of_bodies and (bool(changed) or is_own_function)

    def keys(self) -> Set[str]:
        return {it.proof for it in self.functions}

    def faults(self, lines: List[str], is_alone: bool) -> List[str]:
        """Returns the lines that tell a fault of a function that the edit changes or, where no other edit was tried
        beside it and none is told, of what that function's proof cites."""
        own = [line for line in lines if any(it.is_at_fault(line) for it in self.functions)]
        return own or [line for line in lines if is_alone and FAULT.match(line) and not OF_ANOTHER.search(line)]


def one_for_each_function(edits: List[Edit]) -> List[Edit]:
    """Returns the first edits of which none changes a function that another changes."""
    taken: List[Edit] = []
    keys: Set[str] = set()
    for edit in edits:
        if not keys & edit.keys():
            taken.append(edit)
            keys |= edit.keys()
    return taken


def with_all(crate: Any, edits: List[Edit]) -> Dict[str, str]:
    """Returns the texts of the files that the edits change."""
    texts = {}
    for path in {path for edit in edits for path, *_ in edit.cuts}:
        with open(f"{crate.folder}/{path}", encoding="utf-8") as it:
            text = it.read()
        for at, old, new in sorted((it[1:] for edit in edits for it in edit.cuts if it[0] == path), reverse=True):
            text = text[:at] + new + text[at + len(old):]
        texts[path] = text
    return texts
