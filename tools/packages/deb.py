#!/usr/bin/env python3
"""deb.py [FOLDER]: makes the Debian packages vp, libvp1 and libvp-dev (NAME_VERSION_amd64.deb) in a folder, else in
out/, of dist/vp, the library for C and what ./install puts beside them. The same sources give the same bytes, packed
by the same zlib. It needs no tool of Debian's.

Status 0; 2 for wrong words, 3 where a file can't be read or written, 125 where the program couldn't be built."""
import calendar
import gzip
import hashlib
import io
import os
import re
import subprocess
import sys
import tarfile
import tempfile
import time

sys.dont_write_bytecode = True
sys.path.insert(0, os.path.join(os.path.dirname(os.path.realpath(__file__)), "..", "dist"))
import glibc_needed  # noqa: E402

ROOT = os.path.dirname(os.path.dirname(os.path.dirname(os.path.realpath(__file__))))
MAINTAINER = "Vuzaremo maintainers <maintainers@users.noreply.vuzaremo.example>"
# Where Debian has a place of its own.
PLACES = {
    f"usr/share/zsh/site-functions/{name}": f"usr/share/zsh/vendor-completions/{name}" for name in ("_vp", "_vp-tools")
}
# What stands in the package's copyright, or only serves ./install.
LEFT_OUT = ("usr/lib/vp/installed", "usr/share/doc/vp/LICENSE-MIT", "usr/share/doc/vp/LICENSE-APACHE")
# The recipes' modules are compiled where they are unpacked, by the Python that is there.
COMPILES = b"""#!/bin/sh
set -e
if [ "$1" = configure ]; then
    python3 -m compileall -q -s "${DPKG_ROOT:-}" "${DPKG_ROOT:-}/usr/lib/vp" || true
fi
"""
FORGETS = b"""#!/bin/sh
set -e
find "${DPKG_ROOT:-}/usr/lib/vp" -name __pycache__ -prune -exec rm -rf {} +
"""
# What the library's packages have; all else is vp's.
LIBRARY = ("usr/lib/libvp.so.1",)
FOR_C = ("usr/include/vp.h", "usr/lib/libvp.so", "usr/lib/libvp.a", "usr/lib/pkgconfig/vp.pc",
         "usr/lib/pkgconfig/vp-static.pc", "usr/lib/cmake/vp/vp-config.cmake",
         "usr/lib/cmake/vp/vp-config-version.cmake")


class Package:
    """A package: its name, its section, what it is in a line and in some, and what of the files is its own."""

    def __init__(self, name, section, summary, text, has):
        self.name, self.section, self.has = name, section, has
        self.description = "\n ".join([summary, *text.split("\n")])


PACKAGES = (
    Package(
        "vp",
        "utils",
        "virtual receipt and label printer",
        """vp reads what software sends to a printer, receipts in ESC/POS or labels in
ZPL II, and prints it as PBM images, the exact dots on the paper, or names the
fault where the stream is wrong. Its functions are proved to meet their
contracts. Scripts for tests, print queues and a network port are in
/usr/lib/vp.""",
        lambda path: path not in (*LIBRARY, *FOR_C),
    ),
    Package(
        "libvp1",
        "libs",
        "virtual receipt and label printers, as a library",
        """The printers of vp for programs in C, and in any language that calls C: bytes
go in and PBM images come out, both cut at any place. Its functions are proved
to meet their contracts.""",
        LIBRARY.__contains__,
    ),
    Package(
        "libvp-dev",
        "libdevel",
        "virtual receipt and label printers, for programs in C",
        """The header, the archive and what pkg-config needs to build programs with
libvp1.""",
        FOR_C.__contains__,
    ),
)


def read(path):
    with open(path, "rb") as it:
        return it.read()


def packed(data):
    """Returns the data as gzip -9n packs them."""
    room = io.BytesIO()
    with gzip.GzipFile(fileobj=room, mode="wb", compresslevel=9, mtime=0, filename="") as it:
        it.write(data)
    return room.getvalue()


def installed(program):
    """Returns what ./install puts below /usr: each file's path, with its mode and bytes; a link's without a mode, and
    with what it leads to."""
    with tempfile.TemporaryDirectory() as room:
        env = {**os.environ, "DESTDIR": room, **({"VP_PROGRAM": program} if program else {})}
        ran = subprocess.run([f"{ROOT}/install", "/usr"], env=env, stdout=subprocess.DEVNULL, check=False)
        if ran.returncode:
            sys.exit(ran.returncode)
        found = {}
        for at, folders, files in os.walk(room):
            # (which Python will run them is known where they are unpacked)
            folders[:] = [it for it in folders if it != "__pycache__"]
            for file in files:
                path = os.path.relpath(f"{at}/{file}", room)
                if os.path.islink(f"{at}/{file}"):
                    found[path] = (None, os.readlink(f"{at}/{file}").encode())
                    continue
                found[path] = (0o755 if os.access(f"{at}/{file}", os.X_OK) else 0o644, read(f"{at}/{file}"))
        return found


def copyright_file():
    parts = [read(f"{ROOT}/{name}").decode() for name in ("NOTICE", "LICENSE-MIT")]
    apache = "On Debian systems the Apache License, Version 2.0, is in\n/usr/share/common-licenses/Apache-2.0.\n"
    return "\n".join([*parts, apache]).encode()


def changelog(name, version, when):
    day = subprocess.run(
        ["date", "-u", "-R", "-d", f"@{when}"], env={**os.environ, "LC_ALL": "C"}, capture_output=True, check=True
    ).stdout.decode()
    text = "See /usr/share/doc/vp/CHANGELOG.md.gz of vp."
    return f"{name} ({version}) unstable; urgency=medium\n\n  * {text}\n\n -- {MAINTAINER}  {day}".encode()


def documented(name, version, when, files):
    """Returns a package's files with those that each package has."""
    own = {
        "copyright": copyright_file(),
        "changelog.gz": packed(changelog(name, version, when)),
    }
    return {**files, **{f"usr/share/doc/{name}/{file}": (0o644, data) for file, data in own.items()}}


def files_of(program):
    """Returns all files of the packages, by their paths."""
    files = {PLACES.get(path, path): it for path, it in installed(program).items() if path not in LEFT_OUT}
    for path in [it for it in files if it.startswith("usr/share/man/") or it.endswith("/CHANGELOG.md")]:
        mode, data = files.pop(path)
        files[f"{path}.gz"] = (mode, data + b".gz" if mode is None else packed(data))
    # dist/vp is taken byte for byte, as it was proved and compared
    override = b"# the bytes are those that were built and compared\nvp: unstripped-binary-or-object\n"
    files["usr/share/lintian/overrides/vp"] = (0o644, override)
    return files


def needed(package, version, files):
    """Returns what a package asks for, by the control file's words."""
    if package.name == "libvp-dev":
        return {"Depends": f"libvp1 (= {version})"}
    binary = files["usr/bin/vp" if package.name == "vp" else LIBRARY[0]][1]
    libc = f"libc6 (>= {glibc_needed.glibc(binary)})"
    if package.name != "vp":
        return {"Depends": libc}
    uses_python = any(data.startswith(b"#!/usr/bin/env python3") for _, data in files.values())
    return {
        "Depends": ", ".join([libc, *(["python3 (>= 3.9)"] if uses_python else [])]),
        # (zint encodes symbols that vp doesn't draw)
        "Recommends": f"libvp1 (= {version}), zint",
    }


def control(package, version, files):
    size = sum((len(data) + 1023) // 1024 for _, data in files.values())
    fields = {
        "Package": package.name,
        "Version": version,
        "Architecture": "amd64",
        "Maintainer": MAINTAINER,
        "Installed-Size": str(size),
        **needed(package, version, files),
        "Section": package.section,
        "Priority": "optional",
        "Description": package.description,
    }
    return "".join(f"{name}: {value}\n" for name, value in fields.items()).encode()


def tar(files, when):
    """Returns an archive of files, each after its folders, all of root's and of one time."""
    room = io.BytesIO()
    with tarfile.open(fileobj=room, mode="w", format=tarfile.GNU_FORMAT) as it:

        def add(name, kind, mode, data=b"", to=""):
            one = tarfile.TarInfo(name)
            one.type, one.mode, one.size, one.mtime, one.linkname = kind, mode, len(data), when, to
            one.uname = one.gname = "root"
            it.addfile(one, io.BytesIO(data))

        folders = {"."}
        for path in files:
            parts = path.split("/")[:-1]
            folders |= {"/".join([".", *parts[: nth + 1]]) for nth in range(len(parts))}
        for name in sorted([*folders, *(f"./{path}" for path in files)]):
            if name in folders:
                add(f"{name}/", tarfile.DIRTYPE, 0o755)
            else:
                mode, data = files[name[2:]]
                if mode is None:
                    add(name, tarfile.SYMTYPE, 0o777, to=data.decode())
                else:
                    add(name, tarfile.REGTYPE, mode, data)
    return room.getvalue()


def ar(members, when):
    """Returns an archive, as ar makes it, of names and bytes."""
    made = b"!<arch>\n"
    for name, data in members:
        head = f"{name:<16}{when:<12}{0:<6}{0:<6}{'100644':<8}{len(data):<10}`\n"
        made += head.encode() + data + b"\n" * (len(data) % 2)
    return made


def made(package, version, when, all_files):
    """Returns the bytes of a package."""
    own = {path: it for path, it in all_files.items() if package.has(path)}
    files = documented(package.name, version, when, own)
    kept = [path for path in sorted(files) if files[path][0] is not None]
    sums = "".join(f"{hashlib.md5(files[path][1]).hexdigest()}  {path}\n" for path in kept)
    head = {"control": (0o644, control(package, version, files)), "md5sums": (0o644, sums.encode())}
    if package.name == "vp":
        head |= {"postinst": (0o755, COMPILES), "prerm": (0o755, FORGETS)}
    if package.name == "libvp1":
        head["triggers"] = (0o644, b"activate-noawait ldconfig\n")
        head["shlibs"] = (0o644, f"libvp 1 libvp1 (>= {version})\n".encode())
    members = [("debian-binary", b"2.0\n"), ("control.tar.gz", packed(tar(head, when)))]
    return ar([*members, ("data.tar.gz", packed(tar(files, when)))], when)


def version_and_time():
    """Returns the version, by the sources, and the time that all is given: SOURCE_DATE_EPOCH, else that of the
    version's day in CHANGELOG.md, else none."""
    grammar = read(f"{ROOT}/crates/program/vp_command_line/src/grammar.rt").decode()
    version = re.search(r'const VERSION: &str = "([0-9.]+)"', grammar)[1]
    day = re.search(rf"(?m)^## {re.escape(version)}, (\d{{4}}-\d\d-\d\d)$", read(f"{ROOT}/CHANGELOG.md").decode())
    if "SOURCE_DATE_EPOCH" in os.environ:
        return version, int(os.environ["SOURCE_DATE_EPOCH"])
    return version, calendar.timegm(time.strptime(day[1], "%Y-%m-%d")) if day else 0


def write(name, data):
    """Writes a file whole or not at all."""
    with tempfile.NamedTemporaryFile(dir=os.path.dirname(name), prefix=".vp-", delete=False) as it:
        try:
            it.write(data)
            it.flush()
            os.chmod(it.name, 0o644)
            os.replace(it.name, name)
        except OSError:
            os.unlink(it.name)
            raise


def main():
    if len(sys.argv) > 2 or (sys.argv[1:] and sys.argv[1].startswith("-")):
        print("usage: deb.py [FOLDER]", file=sys.stderr)
        return 2
    folder = sys.argv[1] if sys.argv[1:] else f"{ROOT}/out"
    try:
        version, when = version_and_time()
        files = files_of(os.environ.get("VP_PROGRAM"))
        os.makedirs(folder, exist_ok=True)
        for package in PACKAGES:
            name = f"{folder}/{package.name}_{version}_amd64.deb"
            write(name, made(package, version, when, files))
            print(name)
    except (OSError, ValueError) as fault:
        print(f"deb.py: {fault}", file=sys.stderr)
        return 3
    return 0


if __name__ == "__main__":
    sys.exit(main())
