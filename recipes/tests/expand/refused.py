#!/usr/bin/env python3
"""Whether no symbol's data end a stream that is written anew, and those stay that vp takes: refused.py VP"""
import os
import pathlib
import random
import subprocess
import sys
from typing import Tuple
sys.path.insert(0, str(pathlib.Path(__file__).resolve().parent.parent.parent))
sys.dont_write_bytecode = True
from vp_recipes.expand import Options, expanded  # noqa: E402

COUNT = 600
SIGNS = b'0123456789', b'0123456789ABC', b'ABC*abc-. $/+%', b'>0123456789:;<=AB\x7f', b'{ABCS1234{ab0199\x05'
FRONTS = {'BQ': [b'QA,', b'', b'MM,N', b'HM,A', b'LM,B0004', b'QM,K', b'XA,', b'LM,B00'],
          'BC': [b'', b'>:', b'>;', b'>9'], 'I': [b'{A', b'{B', b'{C', b'']}
LABELS = ('B1N,N,20', 'B2N,20', 'B3N,N,20,N', 'B7N,2,0,3', 'B7N,2', 'B8N,20', 'B9N,20', 'BAN,20', 'BCN,20,N',
          'BCN,20,N,N,N,A', 'BEN,20,N', 'BKN,N,20', 'BMN,B,20', 'BON,2', 'BQN,2,2', 'BSN,20', 'BUN,20', 'BXN,2,200',
          'BXN,2,200,10,10', 'BXN,2,140')
BARS = 'ABCDEFGHI'


def stream(n: int) -> Tuple[str, bytes, bytes]:
    """A language, what prints a symbol of random data, and what prints behind it."""
    signs = random.choice(SIGNS)
    data = bytes(random.choice(signs) for _ in range(random.choice([random.randint(0, 14), 12, 60])))
    if n % 3 == 0:
        kind = random.choice(BARS)
        data = random.choice(FRONTS.get(kind, [b''])) + data
        return 'receipt', b'\x1dw\2\x1dk' + kind.encode() + bytes([len(data)]) + data, b'behind\n'
    command = random.choice(LABELS)
    data = random.choice(FRONTS.get(command[:2], [b''])) + data
    digits = b''.join(b'_%02X' % it for it in data)
    return 'label', b'^XA^BY1^FO0,0^' + command.encode() + b'^FH_^FD' + digits + b'^FS', b'^FO0,0^GB9,9,9^FS^XZ'


def printed(vp: str, language: str, data: bytes) -> Tuple[int, bytes, str]:
    """How vp ends, what it prints, and what it says."""
    ran = subprocess.run([vp, language, '--whole'], input=data, stdout=subprocess.PIPE, stderr=subprocess.PIPE)
    return ran.returncode, ran.stdout, ran.stderr.decode()


def main() -> None:
    vp = os.environ['VP'] = sys.argv[1]
    random.seed(76)
    kept = 0
    for n in range(COUNT):
        language, symbol, behind = stream(n)
        found = expanded(symbol + behind, language, Options())
        told = '; '.join(it.text for it in found.remarks)
        as_it_came, anew = printed(vp, language, symbol + behind), printed(vp, language, found.data)
        assert anew[0] == 0, f'{symbol!r}: {anew[2]}'
        if as_it_came[0] == 0:
            assert found.data == symbol + behind and not told, f'{symbol!r}: {told}'
            kept += 1
        else:
            assert told and found.data.endswith(behind), f'{symbol!r}: {as_it_came[2]} {told}'
    assert COUNT // 4 < kept < COUNT, kept
    print(f'{kept} of {COUNT} symbols stay as vp draws them, and the others end no stream')


if __name__ == '__main__':
    main()
