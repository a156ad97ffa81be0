#!/usr/bin/env python3
"""build.py [WHY]: builds the printer, which proves it, and says on standard error why, and how far it is. Where the
built program stands for the sources as they are, by their content, nothing is built. Beside the program made-from
tells what it was made from, as dist/made-from does; NAME.bc is the module that LLVM made it of. build.py --library
builds the library for C in the same way.

Crates that don't stand on one another are proved side by side, each from nothing, by the toolchain's rattle itself: its
command rt would lock all that a crate stands on. A crate's library, with statements and not their proofs, stands in
crates/FOLDER/NAME/out/rlib/proved beside the sum of what it was made from."""
import fcntl
import hashlib
import os
import shutil
import signal
import subprocess
import sys
import tempfile
import time

sys.dont_write_bytecode = True
import library  # noqa: E402
from keeping import keeping  # noqa: E402

ROOT = os.path.dirname(os.path.dirname(os.path.dirname(os.path.realpath(__file__))))
PROGRAM, LIBRARY = "program/vp_cli", "program/vp_c"
# What is built, by the word for it.
WHAT = {PROGRAM: "printer", LIBRARY: "library for C"}
OUT = f"{ROOT}/out"
PARTS = ("src", "specs", "proofs")
# What a check is likely to take, in bytes, with one job and for each further one.
MEMORY, A_JOB = 1_600_000_000, 300_000_000
# A guess at the seconds of a processor that a crate takes: to load the library, for each crate below and for each line;
# and to compile the program.
TO_LOAD, A_CRATE, A_LINE, TO_COMPILE = 15, 5, 0.023, 60
# How much of the processors is used, how many of them a crate uses that is proved alone, and for how many of the
# guess's seconds that is believed rather than what was measured.
USED, ALONE, BELIEVED = 0.85, 2, 100

# How many jobs a crate has at most.
JOBS = 4


def text_of(file):
    try:
        with open(file, encoding="utf-8") as it:
            return it.read()
    except OSError:
        return None


def listed():
    """Returns what each crate of crates.txt stands on, by its place below crates/."""
    lines = [line.partition("#")[0].partition(":") for line in (text_of(f"{ROOT}/crates.txt") or "").split("\n")]
    # (behind a name may stand what is made of the crate)
    return {name.split()[0]: deps.split() for name, _, deps in lines if name.strip()}


def free():
    for line in (text_of("/proc/meminfo") or "").split("\n"):
        if line.startswith("MemAvailable:"):
            return 1024 * int(line.split()[1])
    return 2 * MEMORY


class Crate:
    """A crate, with those of the repository below it, each after those that it stands on itself."""

    def __init__(self, place, stands_on, kit):
        self.name, self.kit, self.folder = os.path.basename(place), kit, f"{ROOT}/crates/{place}"
        self.uses = [it for it in stands_on if isinstance(it, Crate)]
        self.libraries = ["std", *[it for it in stands_on if not isinstance(it, Crate)]]
        self.below = [*dict.fromkeys(it for dep in self.uses for it in [*dep.below, dep])]
        self.lines = sum((text_of(it) or "").count("\n") for it in self.files())

    def files(self):
        parts = [os.walk(f"{self.folder}/{part}") for part in PARTS]
        return sorted(f"{at}/{file}" for part in parts for at, _, files in part for file in files)

    def content(self):
        """Returns a sum of all that is made into the crate: its sources and those below it, the libraries, the
        toolchain."""
        made = hashlib.sha256((text_of(f"{self.kit}/KIT-ID") or "").encode())
        for crate in [*self.below, self]:
            made.update(repr([crate.name, [it.name for it in crate.uses], crate.libraries]).encode())
            for file in crate.files():
                with open(file, "rb") as it:
                    made.update(repr((os.path.relpath(file, ROOT), hashlib.sha256(it.read()).digest())).encode())
        return made.hexdigest()

    def built(self):
        """Returns what is built and the file with the sum of what it was made from."""
        to = f"{self.folder}/out/rlib/proved"
        return f"{to}/{self.name}.rlib", f"{to}/made-from"

    def is_built(self):
        built, made_from = self.built()
        return os.path.exists(built) and text_of(made_from) == self.content()

    def command(self, root, to):
        """Returns the words that prove the crate and write what is made of it."""
        words = [f"{self.kit}/bin/rattle", "build", "--crate-name", self.name, root]
        for it in self.libraries:
            words += ["--extern", f"{it}={self.kit}/rlibs/{it}.rlib"]
        for it in self.uses:
            words += ["--extern", f"{it.name}={it.built()[0]}"]
        for it in [f"{self.kit}/rlibs", *[os.path.dirname(it.built()[0]) for it in self.below]]:
            words += ["-L", f"dependency={it}"]
        words += ["--antt-project", f"{self.kit}/rattle/logic/antt-project.json"]
        return [*words, "--logic-built", f"{self.kit}/logic_built", "-o", to]

    def commands(self, jobs):
        return [[*self.command("src/lib.rt", self.built()[0]), "--statements", "--jobs", str(jobs)]]


class Program(Crate):
    def built(self):
        return f"{self.folder}/out/{self.name}", f"{OUT}/printer"

    def commands(self, jobs):
        program, made = self.built()[0], f"{OUT}/{self.name}.o"
        kept = keeping(f"{self.kit}/toolchain", f"{OUT}/toolchain/{self.name}", f"{program}.bc")
        tools = ["--toolchain", kept]
        link = [f"{self.kit}/bin/rattle-link", "--target", "x86_64-unknown-linux-gnu", *tools, "-o", program, made]
        link += [f"{self.kit}/c/libos_c.a", f"{self.kit}/c/liblibc_c.a"]
        return [[*self.command("src/main.rt", made), *tools, "--jobs", str(jobs)], link]

    def finish(self):
        """Tells beside the program what it was made from."""
        program = self.built()[0]
        told = subprocess.run([f"{ROOT}/tools/dist/tell-made-from", program], capture_output=True, check=True).stdout
        with open(f"{os.path.dirname(program)}/made-from", "wb") as it:
            it.write(told)


class Archive(Crate):
    """A crate whose exports a program in C calls."""

    def built(self):
        return f"{self.folder}/out/lib{self.name}.a", f"{OUT}/{self.name}"

    def commands(self, jobs):
        archive = self.built()[0]
        kept = keeping(f"{self.kit}/toolchain", f"{OUT}/toolchain/{self.name}", f"{self.folder}/out/{self.name}.bc")
        words = [*self.command("src/lib.rt", archive), "--crate-type", "staticlib"]
        return [[*words, "--toolchain", kept, "--jobs", str(jobs)]]

    def finish(self):
        """Links the library for C."""
        archive = self.built()[0]
        library.make(archive, os.path.dirname(archive))


def crates_below(name, stands_on, kit):
    """Returns the crates of the program or the library, each after those that it stands on."""
    made, tops = {}, {PROGRAM: Program, LIBRARY: Archive}

    def make(it):
        if it in stands_on and it not in made:
            made[it] = tops.get(it, Crate)(it, [*map(make, stands_on[it])], kit)
        return made.get(it, it)

    make(name)
    return [*made.values()]


class Run:
    """A crate that is being built."""

    def __init__(self, crate, jobs, lock):
        self.crate, self.jobs, self.started, self.content = crate, jobs, time.time(), crate.content()
        self.left = crate.commands(jobs)
        self.log, self.lock = f"{OUT}/{crate.name}.log", lock
        built, made_from = crate.built()
        os.makedirs(os.path.dirname(built), exist_ok=True)
        if os.path.exists(made_from):
            os.remove(made_from)
        self.is_well, self.ran = True, None
        with open(self.log, "wb"):
            self.go_on()

    def go_on(self):
        """Starts the next command. It holds the lock too, so that however this process ends the next one waits for
        it."""
        with open(self.log, "ab") as log:
            how = {"cwd": self.crate.folder, "stdin": subprocess.DEVNULL, "stdout": log, "stderr": log}
            # (a group of its own, to be ended by)
            how |= {"preexec_fn": os.setpgrp, "pass_fds": [self.lock.fileno()]}
            self.ran = subprocess.Popen(self.left.pop(0), **how)

    def has_ended(self):
        if self.ran.poll() is None:
            return False
        self.is_well = self.ran.returncode == 0
        if self.is_well and self.left:
            self.go_on()
            return False
        return True

    def is_built(self):
        """Returns whether the crate is built as its sources are, and then says so beside it."""
        if self.is_well and self.content == self.crate.content():
            with open(self.crate.built()[1], "w", encoding="utf-8") as it:
                it.write(self.content)
        return self.is_well

    def gone(self):
        return time.time() - self.started

    def close(self):
        """Ends the build where it still goes on."""
        if self.ran.poll() is None:
            os.killpg(self.ran.pid, signal.SIGKILL)
            self.ran.wait()
        os.remove(self.log)


class Progress:
    """What is said on standard error: a line for each crate and, on a terminal, one that moves."""

    def __init__(self):
        self.moves, self.shown = sys.stderr.isatty(), ""

    def line(self, text):
        self.wipe()
        print(f"vp: {text}", file=sys.stderr, flush=True)

    def moving(self, text):
        if self.moves and text != self.shown:
            self.wipe()
            print(text, end="", file=sys.stderr, flush=True)
            self.shown = text

    def wipe(self):
        if self.shown:
            print(f"\r{' ' * len(self.shown)}\r", end="", file=sys.stderr, flush=True)
            self.shown = ""


def need(jobs):
    """Returns the memory that a crate's proof is likely to take."""
    return MEMORY + A_JOB * (jobs - 1)


def minutes(seconds):
    return f"{round(seconds)} s" if seconds < 90 else f"{round(seconds / 60)} minutes"


class Build:
    """The crates, each with the guess for the longest chain that begins with it."""

    def __init__(self, crates, lock):
        self.crates, self.lock = crates, lock
        self.memory, self.lanes = 0.85 * free(), len(os.sched_getaffinity(0))
        self.said, self.started, self.ends = Progress(), time.time(), time.time()
        self.running, self.took, self.behind = {}, {}, {}
        for crate in reversed(crates):
            above = [it for it in crates if crate in it.uses]
            self.behind[crate] = self.guess(crate) + max((self.behind[it] for it in above), default=0)

    def guess(self, crate):
        return TO_LOAD + A_CRATE * len(crate.below) + A_LINE * crate.lines + TO_COMPILE * isinstance(crate, Program)

    def reckon(self):
        """Reckons when all is built: by what was done up to now, for all that is left or the longest chain."""
        done = sum(self.guess(it) for it, seconds in self.took.items() if seconds)
        todo = [it for it in self.crates if it not in self.took]
        pace = (done + BELIEVED) / (time.time() - self.started + BELIEVED / (USED * self.lanes))
        chain = max((self.behind[it] for it in todo), default=0) * USED * self.lanes / min(ALONE, self.lanes)
        gone = sum(self.guess(it) / 2 for it in self.running)
        self.ends = time.time() + max(sum(map(self.guess, todo)) - gone, chain) / pace

    def left(self):
        return minutes(max(self.ends - time.time(), 1))

    def tell(self, crate):
        self.reckon()
        left = f", about {self.left()} left" if len(self.took) < len(self.crates) else ""
        how = f"proved in {minutes(self.took[crate])}" if self.took[crate] else "was proved before"
        self.said.line(f"{crate.name} {how} ({len(self.took)} of {len(self.crates)} crates{left})")

    def begin(self):
        """Starts what can be started and finds memory, what the longest chain waits for first. A proof with several
        jobs takes a quarter more of the processors than with one: so only the first of the longest chain gets half of
        them, and each other crate one."""
        new = [it for it in self.crates if it not in self.took and it not in self.running]
        ready = sorted((it for it in new if all(dep in self.took for dep in it.uses)), key=lambda it: -self.behind[it])
        longest = max((self.behind[it] for it in [*ready, *self.running]), default=0)
        for it in ready:
            idle = self.lanes - sum(run.jobs for run in self.running.values())
            jobs = min(idle, max(1, min(self.lanes // 2, JOBS)) if self.behind[it] == longest else 1)
            memory = self.memory - sum(need(run.jobs) for run in self.running.values())
            while jobs > 1 and need(jobs) > memory:
                jobs -= 1
            if not self.running or (jobs > 0 and need(jobs) <= memory):
                self.running[it] = Run(it, jobs, self.lock)

    def end(self):
        """Puts away what has ended, and returns the first that did not go well, if any did."""
        for it, run in [*self.running.items()]:
            if run.has_ended():
                if not run.is_built():
                    return run
                self.took[it] = run.gone()
                self.running.pop(it).close()
                self.tell(it)
        return None

    def run(self):
        """Builds all, and returns whether that went well."""
        for it in [it for it in self.crates if it.is_built()]:
            self.took[it] = 0
            self.tell(it)
        self.reckon()
        try:
            while len(self.took) < len(self.crates):
                self.begin()
                time.sleep(0.2)
                names = " ".join(it.name for it in self.running)
                far = f"{len(self.took)} of {len(self.crates)} crates, about {self.left()} left"
                self.said.moving(f"vp: proving {names} ({far})")
                lost = self.end()
                if lost:
                    self.said.line(f"{lost.crate.name} was not built. What rattle said:")
                    print(text_of(lost.log), file=sys.stderr)
                    return False
            return True
        finally:
            self.said.wipe()
            for run in self.running.values():
                run.close()


def stop(signum, frame):
    raise KeyboardInterrupt


def no_help():
    """Returns why no program that is built here could be run, if there is a reason."""
    try:
        os.fsencode(ROOT).decode()
        os.makedirs(OUT, exist_ok=True)
        with tempfile.NamedTemporaryFile(dir=OUT) as it:
            it.write(b"#!/bin/sh\n")
            it.flush()
            os.chmod(it.name, 0o755)
            if not os.access(it.name, os.X_OK):
                return f"no program may be run in {ROOT}"
        for at, folders, files in os.walk(f"{ROOT}/crates"):
            for name in [*folders, *files]:
                if not os.access(f"{at}/{name}", os.R_OK):
                    return f"{at}/{name} can't be read"
        return None
    except UnicodeDecodeError:
        return "the name of this folder isn't UTF-8, and the program takes no other"
    except OSError as fault:
        return f"{OUT} can't be written: {fault.strerror}"


def main():
    rt = shutil.which("rt")
    words = sys.argv[1:]
    top = LIBRARY if words[:1] == ["--library"] else PROGRAM
    what = WHAT[top]
    if top == PROGRAM and words and words[0]:
        print(f"vp: {words[0]}", file=sys.stderr, flush=True)
    why = no_help()
    if why:
        print(f"vp: no build would help: {why}", file=sys.stderr, flush=True)
        return 1
    if not rt:
        print("vp: the Rattle toolchain's command rt is not on the path", file=sys.stderr)
        return 1
    crates = crates_below(top, listed(), os.path.dirname(os.path.dirname(os.path.realpath(rt))))
    last = crates[-1]
    if last.is_built():
        last.finish()
        return 0
    signal.signal(signal.SIGTERM, stop)
    os.makedirs(OUT, exist_ok=True)
    with open(f"{OUT}/lock", "w", encoding="utf-8") as lock:
        try:
            fcntl.flock(lock, fcntl.LOCK_EX | fcntl.LOCK_NB)
        except BlockingIOError:
            print("vp: another vp is building the printer: waiting for it", file=sys.stderr, flush=True)
            fcntl.flock(lock, fcntl.LOCK_EX)
        if last.is_built():
            last.finish()
            return 0
        proves = f"proves its {len(crates)} crates: some minutes"
        print(f"vp: building the {what}, which {proves}", file=sys.stderr, flush=True)
        started = time.time()
        if not Build(crates, lock).run():
            return 1
        print(f"vp: built in {minutes(time.time() - started)}", file=sys.stderr, flush=True)
        last.finish()
        return 0


if __name__ == "__main__":
    try:
        sys.exit(main())
    except KeyboardInterrupt:
        print("vp: the build was broken off; the next one goes on from there", file=sys.stderr)
        sys.exit(1)
    except subprocess.CalledProcessError as fault:
        print(f"vp: {fault.cmd[0]} ended with {fault.returncode}", file=sys.stderr)
        sys.exit(1)
    except OSError as fault:
        print(f"vp: {fault.filename or fault}: {fault.strerror}", file=sys.stderr)
        sys.exit(1)
