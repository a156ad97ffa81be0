#!/usr/bin/env python3
"""How long each crate's proof, tests and must-fail edits take.

  tools/gate/minutes.py LOG COMMAND..   runs a command of rt (as: rt must-fail vp_page), or the gate
                                        (tools/gate/gate.py), and keeps what it says in LOG; then the table
  tools/gate/minutes.py LOG             the table of a log that was kept

rt says no times. So the run is watched: each line is stamped with the seconds since the start, and each check that
ends is noted with its crate, its kind, and its seconds by the clock and of the processors. Linux only (/proc).
"""
import os
import re
import subprocess
import sys
import threading
import time
from typing import Callable, Dict, List, Optional, Tuple

KINDS = ('proof', 'tests', 'edits')
NOTE = re.compile(r' *[\d.]+ = (\w+) (proof|tests|edits) ([\d.]+) ([\d.]+)$')
TICKS = os.sysconf('SC_CLK_TCK')


def processes() -> Dict[int, Tuple[int, float]]:
    """Each process that runs: its parent, and its own seconds and those of its children that ended."""
    found = {}
    for name in filter(str.isdigit, os.listdir('/proc')):
        try:
            with open(f'/proc/{name}/stat') as file:
                words = file.read().rpartition(')')[2].split()
        except OSError:
            continue
        found[int(name)] = int(words[1]), sum(map(int, words[11:15])) / TICKS
    return found


def check_of(process: int) -> Optional[Tuple[str, str]]:
    """The crate and the kind of what a process checks, if it is the prover."""
    try:
        with open(f'/proc/{process}/cmdline') as file:
            words = file.read().split('\0')
        room = os.path.basename(os.readlink(f'/proc/{process}/cwd'))
    except OSError:
        return None
    if os.path.basename(words[0]) != 'rattle' or '--crate-name' not in words:
        return None
    kind = 'edits' if room.startswith('rt-edit-') else 'tests' if '--test' in words else 'proof'
    return words[words.index('--crate-name') + 1], kind


def watch(run: 'subprocess.Popen[str]', start: float, note: Callable[[str], None]) -> None:
    """Notes each check below the run, when it ends. The prover's own helpers count for the check that began them."""
    known: Dict[int, Optional[Tuple[str, str]]] = {}
    live: Dict[int, Tuple[float, float]] = {}
    while run.poll() is None or live:
        found = processes()
        spent: Dict[int, float] = {}
        for process in found:
            chain = [process]
            while chain[-1] != run.pid and chain[-1] in found:
                chain.append(found[chain[-1]][0])
            if chain[-1] != run.pid:
                continue
            # the uppermost process of the chain that is a check
            for it in reversed(chain[:-1]):
                if not known.get(it):
                    known[it] = check_of(it)
                if known[it]:
                    spent[it] = spent.get(it, 0) + found[process][1]
                    break
        now = time.monotonic() - start
        for it, seconds in spent.items():
            began, most = live.get(it, (now, 0))
            live[it] = began, max(most, seconds)
        for it in [it for it in live if it not in spent]:
            began, seconds = live.pop(it)
            note(f'{now:8.1f} = {" ".join(known.pop(it) or ())} {now - began:.1f} {seconds:.1f}')
        time.sleep(.5)


def record(name: str, command: List[str]) -> int:
    start, writing = time.monotonic(), threading.Lock()
    with open(name, 'w') as log:
        def note(line: str) -> None:
            with writing:
                print(line, file=log, flush=True)

        run = subprocess.Popen(command, stdout=subprocess.PIPE, stderr=subprocess.STDOUT, text=True, errors='replace')
        watcher = threading.Thread(target=watch, args=(run, start, note))
        watcher.start()
        for line in run.stdout or ():
            print(line, end='', flush=True)
            note(f'{time.monotonic() - start:8.1f} | {line.rstrip()}')
        watcher.join()
    return run.wait()


def table(name: str) -> None:
    spent: Dict[str, Dict[str, float]] = {}
    edits: Dict[str, int] = {}
    last = 0.0
    with open(name) as log:
        for line in log:
            last = float(line.split(None, 1)[0])
            noted, refused = NOTE.match(line), re.search(r'\| rt: must-fail (\w+)/(?!.* \(kept\))', line)
            if noted:
                crate, kind, clock, busy = noted.groups()
                row = spent.setdefault(crate, dict.fromkeys((*KINDS, 'busy'), 0.0))
                row[kind] += float(clock)
                row['busy'] += float(busy)
            elif refused:
                edits[refused[1]] = edits.get(refused[1], 0) + 1
    print('| Crate | Proof | Tests | Edits | of them | Processors |\n|---|---:|---:|---:|---:|---:|')
    for crate, row in spent.items():
        minutes = [f'{row[it] / 60:.1f}' for it in KINDS]
        print(f'| `{crate}` | {" | ".join(minutes)} | {edits.get(crate, 0)} | {row["busy"] / 60:.1f} |')
    busy = sum(it['busy'] for it in spent.values())
    print(f'\nMinutes; the run took {last / 60:.1f} by the clock and {busy / 60:.1f} of the processors.')


def main() -> int:
    if len(sys.argv) < 2:
        sys.exit(__doc__)
    status = record(sys.argv[1], sys.argv[2:]) if sys.argv[2:] else 0
    table(sys.argv[1])
    return status


if __name__ == '__main__':
    sys.exit(main())
