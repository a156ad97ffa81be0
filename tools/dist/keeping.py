"""A folder in place of the toolchain's own, whose clang leaves the module that it compiles: what the toolchain made
of the proved functions, in LLVM's words, before any machine's code. All else of it is the toolchain itself."""
import os
import shlex

SCRIPT = """#!/bin/sh
for word; do
    case $word in *.bc) cp "$word" {to}.new && chmod 644 {to}.new && mv -f {to}.new {to} || exit ;; esac
done
exec {clang} "$@"
"""


def keeping(toolchain: str, folder: str, to: str) -> str:
    """Makes the folder, and returns it. What its clang compiles last is left at `to`."""
    os.makedirs(f"{folder}/bin", exist_ok=True)
    for part in ("lib", *(f"bin/{it}" for it in os.listdir(f"{toolchain}/bin"))):
        link = f"{folder}/{part}"
        if os.path.lexists(link):
            os.remove(link)
        if part != "bin/clang":
            os.symlink(f"{toolchain}/{part}", link)
    with open(f"{folder}/bin/clang", "w", encoding="utf-8") as it:
        it.write(SCRIPT.format(to=shlex.quote(to), clang=shlex.quote(f"{toolchain}/bin/clang")))
    os.chmod(f"{folder}/bin/clang", 0o755)
    return folder
