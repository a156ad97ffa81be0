"""Symbols' modules by the command zint, each asked for once; without it there are none."""
import functools
import os
import re
import shutil
import subprocess
import tempfile
from typing import Optional, Tuple

SECONDS = 20
# What a symbol's data may be at most.
MOST = 8000


class Refused(Exception):
    """Why there is no symbol of the data."""


@functools.lru_cache(maxsize=1)
def program() -> Optional[str]:
    """The command, where there is one: VP_ZINT of the environment, or that of the path."""
    return shutil.which(os.environ.get('VP_ZINT') or 'zint')


@functools.lru_cache(maxsize=4096)
def modules(kind: int, data: bytes, words: Tuple[str, ...] = ()) -> Tuple[str, ...]:
    """The rows of a symbol's modules, as texts of 0 and 1 of one length. Of stacked symbols each row stands once."""
    zint = program()
    if not zint:
        raise FileNotFoundError
    if len(data) > MOST:
        raise Refused(f'more than {MOST:,} bytes')
    handle, name = tempfile.mkstemp(prefix='vp-symbol-')
    try:
        with os.fdopen(handle, 'wb') as file:
            file.write(data)
        command = [zint, '-b', str(kind), '--dump', '--binary', '-i', name, *words]
        ran = subprocess.run(command, stdin=subprocess.DEVNULL, stdout=subprocess.PIPE, stderr=subprocess.PIPE,
                             timeout=SECONDS)
    except subprocess.TimeoutExpired:
        raise Refused('zint took too long') from None
    except OSError as error:
        raise Refused(f'zint cannot be run: {error.strerror}') from None
    finally:
        os.unlink(name)
    said = ran.stderr.decode(errors='replace').strip().splitlines()
    rows = [''.join(f'{int(it, 16):04b}' for it in line.replace(b' ', b'').decode())
            for line in ran.stdout.splitlines() if re.fullmatch(rb'[0-9A-F ]+', line)]
    if ran.returncode or not rows:
        why = re.sub(r'^Error \d+: |\s*\(.*\)$', '', said[-1]) if said else ''
        raise Refused(f'zint makes none of its data: {why[:1].lower()}{why[1:]}' if why
                      else 'zint makes none of its data')
    width = max(len(it.rstrip('0')) for it in rows)
    return tuple(it[:width].ljust(width, '0') for it in rows)
