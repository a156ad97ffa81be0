#!/usr/bin/env python3
"""Checks that the must-fail and must-pass edits can be applied, and that those which docs/evidence.md names are
there, each with the clause at which it is refused; where that is an answer by hand, that a must-pass edit gives the
same function a right body in another form: checks/evidence.py [[--write] LOG]. With a log of the gate it compares
these clauses with those of the log, and with --write it writes them into the page.

The gate tries edits of several functions in one check. Where a function is refused, goals of those that call it can
be left untried: so which clause an edit breaks first, or whether the page's is among them, can hang on what was tried
beside it. So an edit of the page that the log doesn't tell as refused is a fault, and another clause than the page's
is only told."""
import glob
import os
import re
import sys
import types

ROOT = os.path.dirname(os.path.dirname(os.path.abspath(__file__)))
sys.dont_write_bytecode = True
sys.path.insert(0, f"{ROOT}/tools/gate")
from edits import Edit  # noqa: E402
from refused import ANSWER, not_tried, refusals  # noqa: E402

PAGE = "docs/evidence.md"
NAME = re.compile(r"`(vp_\w+/\w+)`")
CLAUSE = re.compile(r"`[^`]+`(?: \(answer\))?")


def fault_of(file):
    """Returns why an edit can't be applied to its crate, or nothing."""
    crate = os.path.dirname(os.path.dirname(file))
    texts, path, old, pairs = {}, "", "", 0
    with open(file, encoding="utf-8") as it:
        lines = it.read().split("\n")
    for line in lines:
        word, _, rest = line.partition(":")
        rest = rest.removeprefix(" ")
        if word == "file":
            path = rest.strip()
        elif word == "old":
            old = rest
        elif word == "new":
            if path not in texts:
                if not os.path.isfile(f"{crate}/{path}"):
                    return f"there is no file {path}"
                with open(f"{crate}/{path}", encoding="utf-8") as it:
                    texts[path] = it.read()
            count = texts[path].count(old) if old else 0
            if count != 1:
                return f"an old: text stands in {path} {count} times, and not once"
            if old == rest:
                return f"a new: text is as the old: one in {path}"
            texts[path], old, pairs = texts[path].replace(old, rest), "", pairs + 1
    return "" if pairs else "it has no old: and new:"


class Row:
    """A row of the page: the edits that it names, and the clause at which each is refused."""

    def __init__(self, line):
        *self.cells, where = [*map(str.strip, line.strip().strip("|").split("|")), ""][:4]
        self.edits, self.clauses = NAME.findall(self.cells[2]), CLAUSE.findall(where)

    def line(self):
        return f"| {' | '.join([*self.cells, ', '.join(self.clauses)])} |\n"

    def faults(self, there):
        """Returns what the row lacks, of the edits that are there."""
        if not self.edits:
            return [f"no edit is named: {self.cells[0]}"]
        if self.clauses and len(self.edits) != len(self.clauses):
            return [f"not each edit has its clause: {self.cells[0]}"]
        return [f"there is no edit {it}" for it in self.edits if it not in there]

    def others(self, found):
        """Returns which edits weren't refused at the row's clauses, each with those that were told."""
        pairs = zip(self.edits, self.clauses or [""] * len(self.edits))
        return [(edit, found.get(edit, [])) for edit, clause in pairs if clause not in found.get(edit, [])]

    def renew(self, found):
        """Puts the clause that was told first in the place of one that wasn't told."""
        olds = [*self.clauses, *[""] * len(self.edits)]
        news = [found.get(edit, [old]) for edit, old in zip(self.edits, olds)]
        told = [old if old in new else new[0] for old, new in zip(olds, news)]
        self.clauses = told if all(told) else self.clauses


def functions_of(file):
    """Returns the functions whose bodies an edit changes, each by where its proof stands."""
    return Edit(types.SimpleNamespace(folder=os.path.dirname(os.path.dirname(file))), file).keys()


def without_right_body(rows, there):
    """Returns the edits that an answer by hand refuses and that change no function, or one of which no must-pass edit
    is."""
    pairs = [(edit, clause) for row in rows for edit, clause in zip(row.edits, row.clauses)]
    by_answer = [edit for edit, clause in pairs if clause.endswith(ANSWER) and edit in there]
    right = {file: functions_of(file) for file in glob.glob("crates/*/*/must-pass/*.edit")}

    def is_shown(edit):
        functions, crate = functions_of(there[edit]), edit.split("/")[0]
        beside = set().union(*(it for file, it in right.items() if file.split("/")[2] == crate))
        return functions and functions <= beside

    return [edit for edit in by_answer if not is_shown(edit)]


def rows_of(lines):
    """Returns the rows of the page that are on wrong bodies, by their places in it."""
    heads = re.compile(r"\|(---|\s*\*\*|\s*Wrong body)")
    return {n: Row(line) for n, line in enumerate(lines) if line.startswith("|") and not heads.match(line)}


def main():
    os.chdir(ROOT)
    log = sys.argv[-1] if len(sys.argv) > 1 else None
    files = sorted(glob.glob("crates/*/*/must-*/*.edit"))
    faults = [f"{file}: {fault}" for file, fault in ((file, fault_of(file)) for file in files) if fault]
    wrong = [it for it in files if "/must-fail/" in it]
    there = {f"{it.split('/')[2]}/{os.path.basename(it)[: -len('.edit')]}": it for it in wrong}
    with open(PAGE, encoding="utf-8") as it:
        lines = it.readlines()
    rows = rows_of(lines)
    found = refusals(log) if log else {}
    if "--write" in sys.argv:
        for n, row in rows.items():
            row.renew(found)
            lines[n] = row.line()
        with open(PAGE, "w", encoding="utf-8") as it:
            it.writelines(lines)
    faults += [f"{PAGE}: {it}" for row in rows.values() for it in row.faults(there)]
    faults += [f"no must-pass edit is of the function of {it}" for it in without_right_body(rows.values(), there)]
    others = [it for row in rows.values() if log for it in row.others(found)]
    late = not_tried(log) if log else []
    for edit, told in others:
        if edit in late:
            print(f"checks/evidence: (told) {edit} was not tried this time")
        elif told:
            print(f"checks/evidence: (told) {edit} is refused at {', '.join(told)}")
        else:
            faults.append(f"{PAGE}: the log doesn't tell that {edit} is refused")
    named = sum(len(row.edits) for row in rows.values())
    if not files or not named:
        faults.append("no edits were found")
    for fault in faults:
        print(f"checks/evidence: {fault}", file=sys.stderr)
    if faults:
        return 1
    where = f", each refused, by {log}" if log else ""
    print(f"{len(files)} edits can be applied, and the {named} that {PAGE} names are there{where}: ok")
    return 0


if __name__ == "__main__":
    sys.exit(main())
