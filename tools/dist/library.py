#!/usr/bin/env python3
"""library.py ARCHIVE FOLDER: makes the library for C of the archive that rattle made of vp_c: FOLDER/libvp.so and
FOLDER/libvp.a, which show the names that include/vp.h declares and no others, with FOLDER/made-from. The toolchain
links them, and the same archive gives the same bytes.

Status 0; 1 where the toolchain links nothing, 2 for wrong words, 3 where a file can't be read or written, or the
archive lacks what the header declares."""
import os
import re
import shutil
import struct
import subprocess
import sys
import tempfile

ROOT = os.path.dirname(os.path.dirname(os.path.dirname(os.path.realpath(__file__))))
# The number of the library's interface: raised where a program that was linked with an earlier one can't use it.
SONAME = "libvp.so.1"
# What the names that it shows belong to: names that come later get a version of their own.
VERSION = "VP_1"
# What tells a loader which processors the library is for (the note of a GNU property: x86-64-v2 is needed). It has a
# section of its own, since a linker leaves out those of the name that compilers give such notes.
PROCESSOR = """.section .note.processor, "a", @note
.p2align 3
.long 4, 16, 5
.asciz "GNU"
.long 0xc0008002, 4, 2, 0
"""
HEADER, SECTION, SYMBOL = "<16sHHIQQQIHHHHHH", "<IIQQQQIIQQ", "<IBBHQQ"
SYMTAB, RELA, GROUP = 2, 4, 17
GLOBAL, UNDEFINED = 1, 0


def names():
    """Returns the functions that the header declares."""
    with open(f"{ROOT}/include/vp.h", encoding="utf-8") as it:
        declared = re.sub(r"(?s)/\*.*?\*/", "", it.read())
    return sorted(re.findall(r"(?m)^\w+ (vp_\w+)\(", declared))


def kit():
    return os.path.dirname(os.path.dirname(os.path.realpath(shutil.which("rt") or "rt")))


def link(words):
    subprocess.run([f"{kit()}/toolchain/bin/ld.lld", "--threads=1", *words], check=True)


def versioned(shown, room):
    """Returns the words of a link that shows these names and no others, in the version of the interface."""
    with open(f"{room}/names", "w", encoding="utf-8") as it:
        it.write(f"{VERSION} {{ global: {' '.join(f'{name};' for name in shown)} local: *; }};\n")
    return ["--version-script", f"{room}/names"]


def note(room):
    """Returns the file with the note for loaders."""
    words = ["--target=x86_64-unknown-linux-gnu", "-c", "-xassembler", "-", "-o", f"{room}/note.o"]
    subprocess.run([f"{kit()}/toolchain/bin/clang", *words], input=PROCESSOR.encode(), check=True)
    return f"{room}/note.o"


def name_in(data, start, at):
    return data[start + at:data.index(b"\0", start + at)].decode()


def localized(data, shown):
    """Returns a relocatable file with each name that it defines made local, but for those that are shown."""
    head = struct.unpack_from(HEADER, data)
    places = [head[6] + head[11] * nth for nth in range(head[12])]
    sections = [struct.unpack_from(SECTION, data, place) for place in places]
    table = next(nth for nth, it in enumerate(sections) if it[1] == SYMTAB)
    _, _, _, _, start, size, strings, _, _, step = sections[table]
    symbols = [struct.unpack_from(SYMBOL, data, start + at) for at in range(0, size, step)]
    made = []
    for name, info, other, section, value, length in symbols:
        is_shown = name_in(data, sections[strings][4], name) in shown
        if info >> 4 == GLOBAL and section != UNDEFINED and not is_shown:
            info, other = info & 15, 0
        made.append((name, info, other, section, value, length))
    # local names stand first
    order = sorted(range(len(made)), key=lambda nth: made[nth][1] >> 4 != 0)
    moved = {old: new for new, old in enumerate(order)}
    out = bytearray(data)
    for new, old in enumerate(order):
        struct.pack_into(SYMBOL, out, start + new * step, *made[old])
    for nth, (it, place) in enumerate(zip(sections, places)):
        if nth == table:
            struct.pack_into("<I", out, place + 44, sum(symbol[1] >> 4 == 0 for symbol in made))
        elif it[1] == GROUP and it[6] == table:
            struct.pack_into("<I", out, place + 44, moved[it[7]])
        elif it[1] == RELA and it[6] == table:
            for at in range(it[4] + 8, it[4] + it[5], it[9]):
                kind, symbol = struct.unpack_from("<II", data, at)
                struct.pack_into("<II", out, at, kind, moved[symbol])
    return bytes(out)


def make_shared(archive, shown, room, to):
    """Links the shared library."""
    libraries, c = f"{kit()}/toolchain/lib", f"{kit()}/c"
    words = ["-shared", "-soname", SONAME, *versioned(shown, room), note(room)]
    words += ["--gc-sections", "--hash-style=gnu", "-s", "--build-id=sha1"]
    words += ["-z", "relro", "-z", "now", "-z", "noexecstack", "--no-undefined", "-o", to]
    words += [f"{libraries}/crti.o", f"{libraries}/crtbeginS.o", "--whole-archive", archive, "--no-whole-archive"]
    words += [f"{c}/liblibc_c.a", f"{c}/libos_c.a", f"{libraries}/libgcc.a"]
    link([*words, *[f"{libraries}/{it}" for it in ("libc.so.6", "libc_nonshared.a", "crtendS.o", "crtn.o")]])


def make_static(archive, shown, room, to):
    """Makes the archive for static linking: one file, with what it calls of the toolchain's C code."""
    c = f"{kit()}/c"
    whole = ["-r", "-S", "--build-id=none", "-o", f"{room}/whole.o", "--whole-archive", archive, "--no-whole-archive"]
    link([*whole, f"{c}/liblibc_c.a", f"{c}/libos_c.a"])
    with open(f"{room}/whole.o", "rb") as it:
        data = localized(it.read(), shown)
    with open(f"{room}/vp.o", "wb") as it:
        it.write(data)
    if os.path.exists(to):
        os.remove(to)
    subprocess.run([f"{kit()}/toolchain/bin/llvm-ar", "rcsD", to, f"{room}/vp.o"], check=True)


def make(archive, folder):
    """Makes both libraries in a folder, and tells there what they were made from."""
    shown = names()
    with tempfile.TemporaryDirectory() as room:
        make_shared(archive, shown, room, f"{folder}/libvp.so")
        make_static(archive, shown, room, f"{folder}/libvp.a")
    told = subprocess.run([f"{ROOT}/tools/dist/tell-made-from", "library", folder], stdout=subprocess.PIPE, check=True)
    with open(f"{folder}/made-from", "wb") as it:
        it.write(told.stdout)


def main():
    if len(sys.argv) != 3:
        print("usage: library.py ARCHIVE FOLDER", file=sys.stderr)
        return 2
    try:
        make(*sys.argv[1:])
    except (OSError, ValueError, struct.error) as fault:
        print(f"library.py: {fault}", file=sys.stderr)
        return 3
    except subprocess.CalledProcessError as fault:
        print(f"library.py: {os.path.basename(fault.cmd[0])} ended with {fault.returncode}", file=sys.stderr)
        return 1
    return 0


if __name__ == "__main__":
    sys.exit(main())
