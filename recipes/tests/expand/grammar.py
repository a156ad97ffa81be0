#!/usr/bin/env python3
"""Whether expand's parsers divide random streams as vp does: grammar.py VP. Seeded, so that each run is the same."""
import pathlib
import random
import re
import subprocess
import sys
sys.path.insert(0, str(pathlib.Path(__file__).resolve().parent.parent.parent))
sys.dont_write_bytecode = True
from vp_recipes.expand import labels, receipts  # noqa: E402

COUNT = 250
READ = ('XA XZ FS FD FX FH FO FT FR FB A B3 BE BC BQ GB GF PW LL LH LR PO PM PQ CF FW BY '
        'B0 B1 B2 B7 B8 B9 BA BK BM BO BS BU BX GC GD GE').split()
CONTROLS = {'0a': 'LF', '09': 'HT', '0d': 'CR', '0c': 'FF', '18': 'CAN'}
WHOLE = [
    b'\n', b'\t', b'\x0c', b'\x18', b'\x1b@', b'\x1bE\x01', b'\x1ba\x01', b'\x1d!\x11', b'\x1bd\x02', b'\x1dV\0',
    b'\x1dVA\x05', b'\x1bp\0\x01\x02', b'\x10\x04\x01', b'\x10\x04\x07\x01', b'\x10\x05\x01', b'\x1c.', b'\x1cC\x01',
    b'\x1cp\x01\0', b'\x1dk\x04ABC\0', b'\x1dkE\x03ABC', b'\x1d(k\x03\x001Q0', b'\x1d(A\x02\0\0\0',
    b'\x1d8L\x02\0\0\0ab', b'\x1bD\x01\x05\0', b'\x1bD\x05\x05', b'\x1b*\0\x02\0ab', b'\x1b*!\x01\0abc',
    b'\x1dv0\0\x01\0\x02\0ab', b'\x1bW12345678', b'\x1b \x01', b'\x1d(k\x01\0a', b'\x1bc3\x01', b'\x1bL', b'\x1bS',
    b'\x1b\x0c', b'\x1d$\x01\0', b'\x1dP\x01\x02',
]
WRONG = [b'\x1b\x7f', b'\x1dv1', b'\x1b*\x05ab', b'\x1dV\x05', b'\x1bc9', b'\x1d8K\2\0\0\0ab', b'\x10\x7f', b'\x1ca9', b'\x1dk\x20']


def listed(vp, data, language):
    """The items of vp's listing with their places, without those of data."""
    ran = subprocess.run([vp, 'list', '--lang', language, '--whole', '--offsets'], input=data, stdout=subprocess.PIPE,
                         stderr=subprocess.PIPE)
    items = [it.split(' ', 1) for it in ran.stdout.decode('latin-1').splitlines()]
    kinds = 'byte', 'char', 'column'
    return [(int(place), text) for place, text in items if text.split(' ')[0] not in kinds], ran.stderr.decode()


def shown(text):
    return ''.join(it if '!' <= it <= '~' else '.' for it in text)


def label(any_bytes):
    data = b''
    for _ in range(random.randint(1, 25)):
        kind = random.random()
        if kind < .1:
            data += any_bytes(8)
        elif kind < .2:
            count = random.randint(0, 12)
            data += b'^GFB,%d,%d,%d,' % (count, count, random.randint(0, 4)) + random.randbytes(count)
        elif kind < .4:
            data += random.choice([b'^XA', b'^XZ'])
        else:
            name = random.choice([*READ, 'CI', 'ZZ', 'MM', 'XG', 'LS'])
            data += random.choice([b'^', b'^', b'~']) + name.encode() + any_bytes(10)
    return data


def of_label(command, last):
    """The item that vp gives for a command, or None where the stream ends before it is given."""
    if command.sign == '~' or command.name not in READ:
        return f'{command.sign}{shown(command.name)} skipped'
    if command.name in ('XA', 'XZ', 'FS', 'FR', 'FD'):
        return '^' + command.name
    rest, commas = command.rest, [n for n, it in enumerate(command.rest) if it == 0x2C]
    if command.name == 'GF' and len(commas) >= 4:
        rest = rest[:commas[3]]
    elif last:
        return None
    kept = [it[:16] for it in rest.translate(None, b'\r\n ').decode('latin-1').split(',')[:8]]
    return f'^{command.name}{shown(command.font)}{shown(",".join(kept))}'


def labels_agree(vp):
    def any_bytes(count):
        return bytes(random.choice(b'^~,,, 0123456789ABNYRabn_:;\r\n\\&-.\xc3\xe9\t') for _ in range(random.randint(0, count)))

    for _ in range(COUNT):
        data = label(any_bytes)
        if re.search(rb'(?i)[\^~][\r\n]*[dc][\r\n]*[yctd]|gf[\r\n ]*c', data):
            continue
        found = list(labels.commands(data))
        items = [of_label(it, it.end == len(data)) for it in found]
        wanted, _ = listed(vp, data, 'label')
        assert [it for it in items if it] == [text for _, text in wanted], f'{data}: {items} {wanted}'
        # what is given at its name stands behind its first byte, and before the command's end
        for (place, _), it in zip(wanted, [it for it, item in zip(found, items) if item]):
            assert it.start < place <= it.end + 1 or it.name == 'GF', f'{data}: {it.title()} at {place}'


def receipts_agree(vp):
    for _ in range(COUNT):
        data = b''.join(random.choice(WHOLE) if random.random() < .6 else
                        bytes(random.choice(b'AB\xc3 z\x07\0') for _ in range(3)) for _ in range(random.randint(1, 20)))
        data += random.choice(WRONG) + b'xyz' + random.choice(WHOLE) if random.random() < .3 else b''
        items = [(it.end, CONTROLS.get(it.name, f'ctl {it.name}') if it.kind == 'control' else it.name)
                 for it in receipts.units(data) if it.kind in ('control', 'command', 'unknown')]
        wanted, line = listed(vp, data, 'receipt')
        wanted = [(place, text if text.split(' ')[0] not in ('esc', 'gs', 'fs', 'dle') else
                   ' '.join(text.split(' ')[:3 if text[:5] in ('gs 28', 'gs 38') else 2])) for place, text in wanted]
        assert [it for _, it in items] == [it for _, it in wanted], f'{data}: {items} {wanted} {line}'
        for (end, name), (place, _) in zip(items, wanted):
            assert place <= end, f'{data}: {name} ends at {end}, its item is given at {place}'


if __name__ == '__main__':
    random.seed(54)
    labels_agree(sys.argv[1])
    receipts_agree(sys.argv[1])
    print(f'the parsers agree with vp on {2 * COUNT} streams')
