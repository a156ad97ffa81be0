#!/usr/bin/env python3
"""Random streams, seeded: mutated.py VP FOLDER [COUNT]

Those of the profile alone stay as they are, byte for byte. Streams of tills and shops, of FOLDER, that are changed at
random end in a stream whose pieces are whole, and in no traceback.
"""
import os
import pathlib
import random
import sys
import time
HERE = pathlib.Path(__file__).resolve().parent
sys.path[:0] = [str(HERE.parent.parent), str(HERE)]
sys.dont_write_bytecode = True
import grammar  # noqa: E402
import streams  # noqa: E402
from vp_recipes.expand import Options, expanded  # noqa: E402
from vp_recipes.expand.places import as_file, of_file, old_place  # noqa: E402

SIGNS = [b'^', b'~', b',', b'0', b'9999', b'-', b'^XA', b'^XZ', b'^FS', b'^FO', b':Z64:', b'^XFR:BADGE.ZPL^FS', b'^GFA,9,9,1,',
         b'\x1b', b'\x1d', b'\x1d(k', b'\x1d(L', b'\x1b@', b'\x1b{\1', b'\xc3', b'\x1bt\x10', b'^CI28', b'^MUM', b'^SN1^FS', b'^PQ9']
# How long one short stream may take, on a machine that does much else.
SECONDS = 20


def number(most):
    return b'%d' % random.randint(0, most)


# The bytes that are the same letter in the table that receipts begin with and in the sheet's.
ALIKE = [it for it in range(0x80, 0x100) if bytes([it]).decode('cp437') == bytes([it]).decode('cp858')]


def plain_letters(count):
    return bytes(random.choice([*range(0x20, 0x80), *ALIKE]) for _ in range(random.randint(0, count)))


def letters(count):
    return bytes(random.choice([*range(0x20, 0x5E), *range(0x5F, 0x7E), *range(0x7F, 0x100)]) for _ in range(random.randint(0, count)))


def field():
    pick, out = random.random(), random.choice([b'^FO', b'^FT']) + number(800) + b',' + number(1200)
    out += random.choice([b'', b'', b'^FR', b'\r\n'])
    if pick < .4:
        out += b'^A' + random.choice([b'Z', b' ', b'9']) + random.choice(b'NRIB').to_bytes(1, 'big') + b',' + number(90) + b',' + number(60)
        out += random.choice([b'', b'^FB' + number(600) + b',' + number(5) + b',-' + number(9) + b',' + random.choice([b'L', b'C', b'R', b''])])
        out += random.choice([b'^FD', b'^FH^FD', b'^FH#^FD']) + letters(30)
    elif pick < .6:
        # (at ^FT bars with text are moved)
        out = out.replace(b'^FT', b'^FO')
        out += random.choice([b'^B3N,N,40,Y,N^FDCODE', b'^BEN,40^FD400638133393', b'^BCN,40,Y,N,N,A^FDabc123', b'^BQN,2,3^FDMA,https',
                              b'^BY3^BCR^FD>:A>5123456', b'^BQ^FDHM,N0123'])
    elif pick < .8:
        out += b'^GB' + number(300) + b',' + number(300) + b',' + number(9) + random.choice([b'', b',B', b',W'])
    elif pick < .9:
        out += b'^GFA,%d,8,2,' % random.randint(0, 9) + random.choice([b'80C0E0F0', b'H0!,:', b':,!F0F0', b'zF'])
    else:
        count = random.randint(0, 20)
        out += b'^GFB,%d,%d,2,' % (count, count) + random.randbytes(count)
    return out + b'^FS' + random.choice([b'', b'\n', b' between '])


def label():
    settings = [b'^PW' + number(832), b'^LL' + number(900), b'^LH' + number(40) + b',' + number(40), b'^LRY', b'^PON', b'^PMN', b'^FWR',
                b'^BY2,3,40', b'^CFZ,30,15', b'^PQ2', b'^FXa note, with words', b'^MMT', b'^PR4,4', b'^ZZ']
    out = b''
    for _ in range(random.randint(1, 3)):
        out += b'^XA' + b''.join(random.choice([field(), random.choice(settings)]) for _ in range(random.randint(0, 9))) + b'^XZ'
    return out if random.random() < .8 else out[:random.randint(0, len(out))]


def receipt():
    return b''.join(random.choice(grammar.WHOLE) if random.random() < .5 else plain_letters(9) for _ in range(random.randint(1, 30)))


def profile_stays(count):
    others = b'\x1d(k\x03\x001Q0', b'\x1cp\x01\0', b'\x1d8L\x02\0\0\0ab', b'\x1dP\x01\x02', b'\x1d(A\x02\0\0\0'
    grammar.WHOLE[:] = [it for it in grammar.WHOLE if it not in others]
    for n in range(count):
        data = label() if n % 2 else receipt()
        for keeps in (False, True):
            found = expanded(data, 'label' if n % 2 else 'receipt', Options(keeps_sizes=keeps))
            assert found.data == data and all(it.same for it in found.pieces), f'{data}: {found}'


def mutated(data):
    data = bytearray(data)
    for _ in range(random.randint(1, 12)):
        pick, at = random.random(), random.randrange(len(data) + 1)
        if pick < .3 and at < len(data):
            data[at] = random.randrange(256)
        elif pick < .55:
            data[at:at] = random.choice(SIGNS)
        elif pick < .7:
            del data[at:at + random.randint(1, 10)]
        elif pick < .85:
            start = random.randrange(len(data) + 1)
            data[at:at] = data[start:start + random.randint(1, 40)]
        elif pick < .9:
            del data[random.randint(0, len(data)):]
    return bytes(data)


def mutated_end(folder, count):
    found = [(it.read_bytes(), 'receipt' if it.suffix == '.bin' else 'label') for it in sorted(folder.glob('*.[bz][ip][nl]'))]
    for n in range(count):
        base, language = found[n % len(found)]
        data = mutated(base)
        encoding = random.choice([None, 'utf-8'])
        begun = time.monotonic()
        made = expanded(data, language, Options(encoding=encoding))
        assert time.monotonic() - begun < SECONDS, f'{data[:2000]} takes {time.monotonic() - begun:.0f} s'
        at = 0
        for it in made.pieces:
            assert it.start == at < it.end and 0 <= it.old_start <= it.old_end <= len(data), f'{data}: {it}'
            assert not it.same or made.data[it.start:it.end] == data[it.old_start:it.old_end], f'{data}: {it}'
            at = it.end
        assert at == len(made.data) and of_file(as_file(made.pieces), '') == made.pieces
        assert all(0 <= old_place(made.pieces, random.randint(0, at)) <= len(data) for _ in range(5))


def main():
    os.environ['VP'], folder = sys.argv[1], pathlib.Path(sys.argv[2])
    count = int(sys.argv[3]) if sys.argv[3:] else 400
    # symbols as frames: no command for each of them
    os.environ['VP_ZINT'] = '/nonexistent'
    random.seed(54)
    sys.argv[1:] = [str(folder)]
    streams.main()
    profile_stays(count)
    mutated_end(folder, count)
    print(f'{count} streams of the profile stay, and {count} that were changed at random end')


if __name__ == '__main__':
    main()
