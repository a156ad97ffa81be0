"""The module that the toolchain made for x86-64, in another system's terms: it names bytes by their places, and of that
machine no more than what is taken out here."""
import os
import re

from narrow import narrowed

OF_SYSTEM = re.compile(r"(?m)^target (?:datalayout|triple) = .*\n")
OF_MACHINE = re.compile(r' "target-cpu"="[^"]*"| "target-features"="[^"]*"')
# What asks for the pages of a stack one by one.
PROBES = re.compile(r' "probe-stack"="[^"]*"| "stack-probe-size"="[^"]*"')
# A call of the heap that answers with two numbers, or the declaration of it.
HEAP = re.compile(r"\b((?:call|declare) )([^@\n]*@rattle_(?:re)?alloc\()")
# The instructions of x86-64 that are written out for other machines, by what pairs.ll has for each.
PAIRS = {"llvm.x86.ssse3.pmadd.ub.sw.128": "pairs_of_bytes", "llvm.x86.sse2.pmadd.wd": "pairs_of_words"}
PAIRS_FILE = f"{os.path.dirname(os.path.realpath(__file__))}/pairs.ll"


def written_out(text):
    """Returns a module's text with those instructions written out that are known."""
    if not any(f"@{it}(" in text for it in PAIRS):
        return text
    for name, ours in PAIRS.items():
        text = re.sub(rf"(?m)^declare .*@{re.escape(name)}\(.*\n", "", text).replace(f"@{name}(", f"@{ours}(")
    with open(PAIRS_FILE, encoding="utf-8") as it:
        return text + it.read()


def without_machine(text):
    """Returns a module's text without x86-64 in it."""
    text = written_out(text)
    if "llvm.x86" in text or re.search(r"\basm (?:sideeffect )?\"", text):
        raise ValueError("the module has instructions of x86-64")
    return OF_MACHINE.sub("", text)


def of_target(text, target):
    """Returns a module's text in a target's terms. For WebAssembly it is narrow, with addresses of 32 bits, on a stack that the
    host guards; for Windows, which has its own way to ask for a stack's pages, the heap is called as elsewhere (heap.h)."""
    text = OF_SYSTEM.sub("", text)
    if not target.startswith("x86_64"):
        text = without_machine(text)
    if "windows" in target:
        return HEAP.sub(r"\1x86_64_sysvcc \2", PROBES.sub("", text))
    return narrowed(PROBES.sub("", text)) if target.startswith("wasm") else text
