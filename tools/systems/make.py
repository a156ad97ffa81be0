#!/usr/bin/env python3
"""make.py FOLDER: makes into FOLDER what prints on other systems than dist/vp does, of the modules that the gate or a build
left where it compiled the proved crates: the program for any Linux (vp-static, vp-aarch64), Windows (vp.exe) and macOS; the
library for Linux on ARM (libvp-aarch64.so), Windows (vp.dll, vp.lib) and WebAssembly (vp.wasm); and the viewer as one page
around that. Of the same modules the same toolchain makes the same bytes.

make.py --renew: renews all of dist/: the program (./build --renew), and these, of which dist/systems tells what they were
made from."""
import concurrent.futures
import glob
import hashlib
import os
import shutil
import subprocess
import sys
import tempfile

HERE = os.path.dirname(os.path.realpath(__file__))
ROOT = os.path.dirname(os.path.dirname(HERE))
sys.dont_write_bytecode = True
sys.path.insert(0, f"{ROOT}/tools/dist")
import library  # noqa: E402
from build import crates_below, listed, text_of  # noqa: E402
from retarget import of_target  # noqa: E402

DIST, TOLD = f"{ROOT}/dist", f"{ROOT}/dist/systems"
# The crates whose modules are used.
PROGRAM, LIBRARY = "program/vp_cli", "program/vp_c"
# How the toolchain compiles a module, what it adds for x86-64, and how our C is compiled.
EVERYWHERE = "--no-default-config -no-canonical-prefixes -fintegrated-cc1 -fno-crash-diagnostics -ffunction-sections"
EVERYWHERE += " -fdata-sections"
PROVED = f"{EVERYWHERE} -O3 -mllvm -trap-unreachable -mllvm -disable-machine-licm -mllvm -disable-postra-machine-licm"
PROVED += " -mllvm -sink-common-insts=false"
X86_64 = "-march=x86-64 -mllvm -no-x86-call-frame-opt -mllvm -no-trap-after-noreturn"
IN_C = f"{EVERYWHERE} -O2 -ffreestanding -nostdinc -fno-builtin -fno-stack-protector -fwrapv -Wall -Wextra -Werror"
# Elsewhere the division of 128-bit numbers is written out, so that none is called for.
WRITTEN_OUT = "-mllvm -expand-div-rem-bits=64"
# WebAssembly with 128-bit vectors; what the host calls of it beside the library.
VECTORS = "-mcpu=lime1 -msimd128"
MEMORY = "malloc", "free", "vp_taken"
# How each kind of file is linked.
LINUX = "-flavor gnu -static --gc-sections --build-id=none -znoexecstack --strip-all"
SHARED = f"-flavor gnu -shared -soname {library.SONAME} --gc-sections --hash-style=gnu --strip-all --build-id=sha1 -zrelro"
SHARED += " -znow -znoexecstack -zmax-page-size=65536 --no-undefined"
MODULE = "-flavor wasm --no-entry --stack-first -zstack-size=1048576 --gc-sections --strip-all --fatal-warnings"
WINDOWS = "-flavor link /nologo /brepro /opt:ref /nodefaultlib /wx /debug:none"
EXE, DLL = f"{WINDOWS} /entry:begin /subsystem:console /stack:8388608", f"{WINDOWS} /dll /noentry"
MACOS = "-flavor darwin -platform_version macos 11.0 11.0 -adhoc_codesign -dead_strip -x"


class System:
    """What is made for one system: of the module of a crate, with flags for it, by a link with files in C, with flags for
    these, and maybe with a library: of the toolchain's, or of what Windows or macOS has."""

    def __init__(self, crate, target, flags, link, files, in_c="", libraries=()):
        self.crate, self.target, self.flags, self.link, self.files = crate, target, flags, link.split(), files
        self.in_c, self.libraries = in_c, libraries
        self.is_module, self.is_windows = target.startswith("wasm"), "windows" in target


def macos(arch, flags):
    return System(PROGRAM, f"{arch}-apple-macosx11.0.0", flags, f"{MACOS} -arch {arch}", ("macos",), "", ("libSystem.tbd",))


WIN64 = "x86_64-w64-windows-gnu"
SYSTEMS = {
    "vp-static": System(
        PROGRAM, "x86_64-unknown-linux-gnu", f"{X86_64} -fPIC", LINUX, ("linux", "bytes"), "", ("libgcc.a",)
    ),
    "vp-aarch64": System(PROGRAM, "aarch64-unknown-linux-gnu", WRITTEN_OUT, LINUX, ("linux", "bytes")),
    "libvp-aarch64.so": System(
        LIBRARY, "aarch64-unknown-linux-gnu", f"{WRITTEN_OUT} -fPIC", SHARED, ("library",), "-fPIC", ("libc.so.6",)
    ),
    "vp.exe": System(
        PROGRAM, WIN64, f"{X86_64} {WRITTEN_OUT}", EXE, ("windows", "windows-heap", "bytes"), "", ("kernel32", "shell32")
    ),
    "vp.dll": System(LIBRARY, WIN64, f"{X86_64} {WRITTEN_OUT}", DLL, ("windows-heap", "bytes"), "", ("kernel32",)),
    "vp-macos-arm64": macos("arm64", WRITTEN_OUT),
    "vp-macos-x86_64": macos("x86_64", f"{X86_64} {WRITTEN_OUT}"),
    "vp.wasm": System(
        LIBRARY, "wasm32-unknown-unknown", f"{VECTORS} {WRITTEN_OUT}", MODULE, ("blocks", "bytes", "wide"), VECTORS
    ),
}
# All files that are made, and what is made around the library for WebAssembly.
FILES = [*SYSTEMS, "vp.lib"]
PAGE = "viewer.html"


def module_of(crate):
    return f"{ROOT}/crates/{crate}/out/{os.path.basename(crate)}.bc"


class Maker:
    def __init__(self, kit, room):
        self.tools, self.room = f"{kit}/toolchain", room

    def run(self, *words):
        ran = subprocess.run(words, stdout=subprocess.PIPE, stderr=subprocess.STDOUT, text=True, errors="replace")
        if ran.returncode:
            raise RuntimeError(f"{' '.join(words[:3])} ..: {ran.stdout.strip()[:2000]}")

    def clang(self, system, flags, *words):
        self.run(f"{self.tools}/bin/clang", f"--target={system.target}", *flags.split(), *words)

    def head(self, system):
        """Returns the lines that say a target's layout and triple."""
        empty, text = f"{self.room}/empty.c", f"{self.room}/empty.ll"
        with open(empty, "w", encoding="utf-8"):
            self.clang(system, "-S -emit-llvm -xc", empty, "-o", text)
        with open(text, encoding="utf-8") as it:
            return "".join(line for line in it if line.startswith("target "))

    def retargeted(self, system, module):
        """Returns the file of a module in the system's terms."""
        text, made = f"{self.room}/module.ll", f"{self.room}/{system.target}.ll"
        self.run(f"{self.tools}/bin/clang", *"-S -emit-llvm -Xclang -disable-llvm-passes -xir".split(), module, "-o", text)
        with open(text, encoding="utf-8") as it, open(made, "w", encoding="utf-8") as to:
            to.write(self.head(system) + of_target(it.read(), system.target))
        return made

    def library(self, system, name):
        """Returns the file of a library: the toolchain's, or one that only has the names of a system's."""
        made = f"{self.room}/{name}"
        if name == "libc.so.6":
            self.clang(system, f"{IN_C} -c", f"{HERE}/libc.c", "-o", f"{made}.o")
            self.run(f"{self.tools}/bin/ld.lld", *f"-shared -soname {name}".split(), "-o", made, f"{made}.o")
            return made
        if system.is_windows:
            made, tool = f"{made}.lib", f"{self.room}/llvm-dlltool"
            if not os.path.exists(tool):
                os.symlink(f"{self.tools}/bin/llvm-ar", tool)
            self.run(tool, "-m", "i386:x86-64", "-d", f"{HERE}/{name}.def", "-l", made)
            return made
        return f"{HERE}/{name}" if name.endswith(".tbd") else f"{self.tools}/lib/{name}"

    def output(self, system, to):
        """Returns the words of a link that say which file it makes, and which names that shows."""
        names = library.names() if system.crate == LIBRARY else ()
        if system.is_module:
            return [*(f"--export={it}" for it in (*names, *MEMORY)), "-o", to]
        if system.is_windows:
            beside = [f"/implib:{to.removesuffix('.dll')}.lib"] if names else []
            return [*(f"/export:{it}" for it in names), *beside, f"/out:{to}"]
        return [*(library.versioned(names, self.room) if names else ()), "-o", to]

    def make(self, system, to):
        module = module_of(system.crate)
        if system.target != "x86_64-unknown-linux-gnu":
            module = self.retargeted(system, module)
        objects = [f"{self.room}/{it}.o" for it in ("proved", *system.files)]
        self.clang(system, f"{PROVED} {system.flags} -Werror -c -xir", module, "-o", objects[0])
        for name, made in zip(system.files, objects[1:]):
            self.clang(system, f"{IN_C} {system.in_c} -c", f"{HERE}/{name}.c", "-o", made)
        objects += [self.library(system, it) for it in system.libraries]
        threads = "/threads:1" if system.is_windows else "--threads=1"
        self.run(f"{self.tools}/bin/ld.lld", *system.link, threads, *self.output(system, to), *objects)
        os.chmod(to, 0o755 if system.crate == PROGRAM else 0o644)


def make_page(folder):
    """Makes the page of the library in the folder."""
    with open(f"{folder}/{PAGE}", "wb") as it:
        subprocess.run([f"{ROOT}/recipes/web/page.py", f"{folder}/vp.wasm"], stdout=it, check=True)


def make(kit, folder):
    """Makes all into a folder."""
    with tempfile.TemporaryDirectory(prefix="vp-systems-") as room, concurrent.futures.ThreadPoolExecutor() as pool:
        one = lambda name: Maker(kit, tempfile.mkdtemp(dir=room)).make(SYSTEMS[name], f"{folder}/{name}")
        for _ in pool.map(one, SYSTEMS):
            pass
    make_page(folder)


def kit_here():
    """Returns the folder of the toolchain whose command rt is on the path, or None."""
    rt = shutil.which("rt")
    return rt and os.path.dirname(os.path.dirname(os.path.realpath(rt)))


def toolchain(kit):
    return (text_of(f"{kit}/KIT-ID") or "").strip() if kit else ""


def sum_of(file):
    """Returns the sum of a file, or None where there is none."""
    try:
        with open(file, "rb") as it:
            return hashlib.sha256(it.read()).hexdigest()
    except FileNotFoundError:
        return None


def sources():
    """Returns the sum of what all is made from: the crates, and the files beside this one."""
    made = hashlib.sha256()
    for crate in sorted({it.crate for it in SYSTEMS.values()}):
        made.update(crates_below(crate, listed(), "")[-1].content().encode())
    beside = [it for end in ("py", "c", "h", "ll", "def", "tbd") for it in glob.glob(f"{HERE}/*.{end}")]
    for file in sorted([*beside, f"{ROOT}/include/vp.h", f"{ROOT}/tools/dist/library.py"]):
        made.update(repr((os.path.relpath(file, ROOT), sum_of(file))).encode())
    return made.hexdigest()


def told():
    """Returns what dist/systems tells: the toolchain, the sum of the sources, each file's."""
    lines = (text_of(TOLD) or "").split("\n")
    heads = dict(it[2:].split(": ", 1) for it in lines if it.startswith("# "))
    return heads | {name: found for found, _, name in (it.partition("  ") for it in lines) if name}


def lacking():
    """Returns the module that is missing, if one is."""
    return next((it for it in (module_of(system.crate) for system in SYSTEMS.values()) if not os.path.exists(it)), None)


def is_missing():
    """Returns whether a module is missing, and says so."""
    if lacking():
        print(f"make.py: there is no {os.path.relpath(lacking(), ROOT)}, as a build leaves it", file=sys.stderr)
    return bool(lacking())


def tell(kit):
    """Writes what the files of dist/ were made from."""
    with open(TOLD, "w", encoding="utf-8") as it:
        it.write(f"# toolchain: {toolchain(kit)}\n# sources: {sources()}\n")
        it.writelines(f"{sum_of(f'{DIST}/{name}')}  {name}\n" for name in FILES)


def is_current():
    """Returns whether what dist/ has is made of the sources as they stand, but for the page."""
    known = told()
    return known.get("sources") == sources() and all(sum_of(f"{DIST}/{it}") == known.get(it) for it in FILES)


def build_anew():
    """Builds what was built without leaving its module."""
    for crate, stamp, words in ((PROGRAM, "printer", []), (LIBRARY, "vp_c", ["--library"])):
        if not os.path.exists(module_of(crate)):
            if os.path.exists(f"{ROOT}/out/{stamp}"):
                os.remove(f"{ROOT}/out/{stamp}")
            subprocess.run([sys.executable, f"{ROOT}/tools/dist/build.py", *words], check=False)


def renew(kit):
    """Renews dist/, and returns the exit status."""
    if is_current():
        make_page(DIST)
        print(f"build: dist/{PAGE} is renewed; all else is of these sources", file=sys.stderr)
        return 0
    build_anew()
    status = subprocess.run([f"{ROOT}/build", "--renew"], check=False).returncode
    if status or is_missing():
        return status or 125
    with tempfile.TemporaryDirectory(prefix="systems-", dir=f"{ROOT}/out") as room:
        make(kit, room)
        for name in (*FILES, PAGE):
            os.replace(f"{room}/{name}", f"{DIST}/{name}")
    tell(kit)
    print(f"build: dist/ is renewed for other systems too: {', '.join(FILES)}, {PAGE}", file=sys.stderr)
    return 0


def main():
    if len(sys.argv) != 2 or sys.argv[1].startswith("-") and sys.argv[1] != "--renew":
        print("usage: make.py FOLDER | --renew", file=sys.stderr)
        return 2
    kit = kit_here()
    if not kit:
        print("make.py: the Rattle toolchain's command rt is not on the path", file=sys.stderr)
        return 125
    if sys.argv[1] == "--renew":
        return renew(kit)
    if is_missing():
        return 125
    make(kit, sys.argv[1])
    return 0


if __name__ == "__main__":
    sys.exit(main())
