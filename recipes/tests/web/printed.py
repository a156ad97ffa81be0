#!/usr/bin/env python3
"""What vp prints and lists of the examples, of long streams of some, and of random streams: printed.py VP COUNT SEED.

It writes, as JSON, a seed, the sheets, and a list of {name, language, width, stream, paper, listing}: bytes in base64,
and of what vp did its length, sum, status and line.
"""
import base64
import concurrent.futures
import hashlib
import json
import pathlib
import subprocess
import sys
import tempfile

ROOT = pathlib.Path(__file__).resolve().parents[3]
SHEETS = {letter: ROOT / f'examples/font-{letter}.pbm' for letter in 'ab'}
# More bytes than go in at once.
LONG = 200_000


def told(words, stream):
    ran = subprocess.run(words, input=stream, stdout=subprocess.PIPE, stderr=subprocess.PIPE)
    sum_of = hashlib.sha256(ran.stdout).hexdigest()
    return f'{len(ran.stdout)} {sum_of} {ran.returncode} {ran.stderr.decode().strip()}'


def printed(vp, name, stream, width):
    language = 'label' if name.endswith('.zpl') else 'receipt'
    words = [vp, language, '--font-a', SHEETS['a']]
    words += ['--font-b', SHEETS['b'], '--width', str(width)] if language == 'receipt' else []
    return {'name': name, 'language': language, 'width': width, 'stream': base64.b64encode(stream).decode(),
            'paper': told(words, stream), 'listing': told([vp, 'list', '--lang', language], stream)}


def main():
    vp, count, seed = sys.argv[1:]
    with tempfile.TemporaryDirectory() as room, concurrent.futures.ThreadPoolExecutor() as pool:
        subprocess.run([ROOT / 'checks/streams.py', room, count, seed], check=True)
        folders = ROOT / 'examples', pathlib.Path(room)
        files = sorted(it for folder in folders for end in ('zpl', 'bin') for it in folder.glob(f'*.{end}'))
        streams = [(it.name, it.read_bytes()) for it in files]
        streams += [(f'long-{name}', data * (LONG // len(data) + 1)) for name, data in streams
                    if name in ('receipt.bin', 'shipping.zpl')]
        made = [*pool.map(lambda it: printed(vp, *it[1], (576, 384)[it[0] % 2]), enumerate(streams))]
    sheets = {it: base64.b64encode(file.read_bytes()).decode() for it, file in SHEETS.items()}
    json.dump({'seed': int(seed), 'sheets': sheets, 'streams': made}, sys.stdout)


if __name__ == '__main__':
    main()
