#!/usr/bin/env python3
"""At which clause the prover refused each must-fail edit, as a log of the gate has it: tools/gate/refused.py LOG, at
the top of the repository.

A refusal names its goal. What a function promises is a goal for each clause; the condition of a call (IT-requires),
what a loop keeps (IT-preserved) and the like are goals too. Where a goal has an answer that was written by hand, it
is that answer which no longer fits, and (answer) says so: a right body of another form may need another answer
too."""
import glob
import re
import sys
from typing import Dict, List

from edits import FUNCTION

REFUSED = re.compile(r"must-fail (\w+)/(\w+)\.edit: refused, as it must be(?: \(kept\)| \(only .*?\))?(?:: (.*))?")
IN_SOURCE = re.compile(r"note: (?:\./)?(src/\S+\.rt):(\d+):\d+: it is not proved .*?\(`([\w-]+)`")
IN_PROOF = re.compile(r"(?:note: )?(?:\./)?proofs/(\S+)/\w+\.antt:\d+:\d+: error: (?:`([\w-]+)`)?")
OWNER = re.compile(r"(?:pub )?trait (\w+)|impl(?:<.*?>)? (?:\S+(?:<.*?>)? for &?)?(\w+)")
ALSO, ANSWER = "; also ", " (answer)"
# What the gate says before the name of an edit that there was no time for.
NOT_TRIED = "not tried:"


def goal_of(fault: str) -> str:
    """Returns the goal at which a fault was found, with (answer) where that is written by hand, or nothing."""
    if found := IN_SOURCE.match(fault):
        return found[3]
    found = IN_PROOF.match(fault)
    return found[2] + ANSWER if found and found[2] else ""


def told(faults: List[str]) -> str:
    """Returns the first of an edit's faults, and the goals of the others, as the gate's log has them."""
    goals = [it for it in dict.fromkeys(map(goal_of, faults)) if it and it != goal_of(faults[0])]
    return faults[0][:200] + (ALSO + ", ".join(goals) if goals else "")


def function_at(file: str, line: int) -> str:
    """Returns the name of the function that a line of a source is in, behind its type's, if it has one."""
    with open(file, encoding="utf-8") as it:
        lines = it.read().split("\n")
    while lines[line - 1].lstrip().startswith("#["):
        line += 1
    lines = lines[:line]
    found = next(filter(None, map(FUNCTION.match, reversed(lines))), None)
    if not found:
        return file
    owner = next(filter(None, map(OWNER.match, reversed(lines))), None) if found[1] else None
    return f"{owner[1] or owner[2]}::{found[2]}" if owner else str(found[2])


def function_of(crate: str, fault: str) -> str:
    """Returns the name of the function in which a fault was found."""
    if found := IN_SOURCE.match(fault):
        return function_at(glob.glob(f"crates/**/{crate}/{found[1]}", recursive=True)[0], int(found[2]))
    found = IN_PROOF.match(fault)
    *_, owner, name = ("", *found[1].split("/")) if found else ("", fault.split(":")[0])
    return f"{owner}::{name}" if owner[:1].isupper() else str(name)


def clause(function: str, goal: str) -> str:
    """Returns how a goal of a function is written: by the clause that it is of, if it is of one."""
    name, _, answer = goal.partition(" ")
    if name.startswith("returns"):
        # behind the way through the body
        name = name.partition("-clause-")[2]
    return f"`{function}{': ' if name else ''}{name}`{' ' if answer else ''}{answer}"


def refusals(log: str) -> Dict[str, List[str]]:
    """Returns the clauses at which each edit was refused, the one that was told first before the others."""
    with open(log, encoding="utf-8", errors="replace") as it:
        found = REFUSED.findall(it.read())
    clauses = {}
    for crate, edit, said in found:
        fault, _, others = said.partition(ALSO)
        goals = [goal_of(fault), *filter(None, others.split(", "))]
        clauses[f"{crate}/{edit}"] = [clause(function_of(crate, fault), it) for it in goals]
    return clauses


def not_tried(log: str) -> List[str]:
    """Returns the names of the edits that there was no time for."""
    with open(log, encoding="utf-8", errors="replace") as it:
        return re.findall(rf"gate: {NOT_TRIED} (\w+/\w+)", it.read())


def main() -> None:
    if len(sys.argv) != 2:
        sys.exit(__doc__)
    for edit, clauses in refusals(sys.argv[1]).items():
        print(f"{edit}: {', '.join(clauses)}")


if __name__ == "__main__":
    main()
