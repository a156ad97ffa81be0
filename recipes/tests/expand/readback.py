#!/usr/bin/env python3
"""Reads back each symbol that expand keeps or writes, as vp prints it, in all turns: readback.py VP FOLDER [WORD]

With ZXingReader, zbarimg and dmtxread, whichever of them there are and read such a symbol.
"""
import concurrent.futures
import os
import pathlib
import re
import shutil
import subprocess
import sys
sys.path.insert(0, str(pathlib.Path(__file__).resolve().parent.parent.parent))
sys.dont_write_bytecode = True
from vp_recipes.expand import Options, expanded  # noqa: E402
from vp_recipes.images import Png, images  # noqa: E402
from vp_recipes.sheets import shipped  # noqa: E402

GS = b'\x1d'
LOW = bytes(range(256))
# Of each label symbol: its command with T for the turn, its data, what is read, and who reads it.
LABELS = [
    ('^BY2^B2T,60,Y,N,N', b'1234567890', '1234567890', 'xz'),
    ('^BY3,2.5^B2T,60,Y,N,Y', b'123456789', '1234567895', 'xz'),
    ('^BY2^BUT,60', b'01234567890', '012345678905', 'xz'),
    ('^BY3^BUT,60,N', b'72527273070', '725272730706', 'xz'),
    ('^BY3^B9T,60', b'1230000045', '01234531', 'x'),
    ('^BY2^B8T,60', b'9031101', '90311017', 'xz'),
    ('^BY2^BKT,N,60,Y,N,A,B', b'40156', 'A40156B', 'xz'),
    ('^BY2,2.0^BKT,N,60', b'C31117013206375D', 'C31117013206375D', 'xz'),
    ('^BY2^BAT,60', b'CODE 93-TEST', 'CODE 93-TEST', 'xz'),
    ('^BY2^BLT,60', b'LOG MARS', 'LOG MARSE', 'xz'),
    ('^BY2^BCT,80,Y,N,N,U', b'0037612345678901234', '00376123456789012349', 'xz'),
    ('^BY2^BCT,80,Y,N,N,D', b'(01)09521234543213(10)AB-123', '0109521234543213' '10AB-123', 'xz'),
    ('^BY2^BCT,80,Y,N,N,D', b'(00)395212345678901230', '00395212345678901230', 'xz'),
    ('^BRT,1,3', b'0950110153000', '01' '09501101530003', 'xz'),
    ('^BRT,6,2', b'(01)90012345678908(3103)001750', '0190012345678908' '3103001750', 'xz'),
    ('^BRT,4,3', b'0950110153000', '09501101530003', 'x'),
    ('^BRT,3,3', b'0950110153000', '09501101530003', 'x'),
    ('^BXT,4,200', b'Data Matrix of 40 letters and digits 123', 'Data Matrix of 40 letters and digits 123', 'xd'),
    ('^BXT,6,200,16,16', b'0123456789', '0123456789', 'xd'),
    ('^BXT,5,200,,,,_,2', b'wide one', 'wide one', 'xd'),
    ('^BXT,4,200,,,,_', b'_10109521234543213' b'17261126', '0109521234543213' '17261126', 'xd'),
    ('^BXT,4,200,,,,_', b'tab_d009__end', 'tab\t_end', 'xd'),
    ('^BXT,3,200', bytes(range(0x20, 0x7E)).replace(b'^', b'').replace(b'_', b''), None, 'xd'),
    ('^BY2^B7T,6,3,4', b'PDF417, lines of data 0123456789', 'PDF417, lines of data 0123456789', 'x'),
    ('^BY3^B7T,9,2', b'a default number of columns', 'a default number of columns', 'x'),
    ('^BY2^B7T,6,2,6,8,Y', b'truncated on its right side', 'truncated on its right side', 'x'),
    ('^BOT,4', b'Aztec reads it', 'Aztec reads it', 'x'),
    ('^B0T,5,N,204', b'full range of four layers', 'full range of four layers', 'x'),
    ('^BOT,4,N,102', b'compact', 'compact', 'x'),
    ('^BY3^BET,80', b'400638133393', '4006381333931', 'xz'),
    ('^BD4', b'MaxiCode as it is sent', 'MaxiCode as it is sent', 'm'),
    ('^BD2', b'001840152382802[)>\x1e01\x1d961Z00004951\x1dUPSN\x1e\x04', '152382802', 'm'),
    ('^BQN,2,3', b'MA,' + b'https://shop.example/' + b'a-long-way-to-it/' * 14, 'https://shop.example/' + 'a-long-way-to-it/' * 14,
     'xz'),
    ('^BQN,2,3', b'LA,' + b'0123456789' * 70, '0123456789' * 70, 'xz'),
]


def till(data, cn, *functions):
    """A symbol by GS ( k: what is set, what is stored, and that it is printed."""
    out = b''
    for fn, *arguments in functions:
        body = bytes([cn, fn, *arguments])
        out += GS + b'(k' + len(body).to_bytes(2, 'little') + body
    body = bytes([cn, 80, 48]) + data
    return out + GS + b'(k' + len(body).to_bytes(2, 'little') + body + GS + b'(k\x03\0' + bytes([cn, 81, 48])


def bars(kind, data):
    return GS + b'k' + bytes([kind]) + (data + b'\0' if kind < 7 else bytes([len(data)]) + data)


SIZES = GS + b'h\x50' + GS + b'w\x02' + GS + b'H\x02'
RECEIPTS = [
    (SIZES + bars(0, b'01234567890'), '012345678905', 'xz'), (SIZES + bars(65, b'725272730706'), '725272730706', 'xz'),
    (GS + b'w\x03' + GS + b'h\x50' + bars(66, b'01234500006'), '01234565', 'x'), (SIZES + bars(3, b'9031101'), '90311017', 'xz'),
    (SIZES + bars(68, b'90311017'), '90311017', 'xz'), (SIZES + bars(5, b'1234567890'), '1234567890', 'xz'),
    (SIZES + bars(70, b'00112233'), '00112233', 'xz'), (SIZES + bars(6, b'A40156B'), 'A40156B', 'xz'),
    (SIZES + bars(71, b'C311170D'), 'C311170D', 'xz'), (SIZES + bars(72, b'CODE 93'), 'CODE 93', 'xz'),
    (SIZES + bars(74, b'(01)09521234543213'), '0109521234543213', 'xz'),
    (GS + b'w\x03' + bars(75, b'0950110153000'), '0109501101530003', 'xz'),
    (SIZES + bars(78, b'(01)90012345678908'), '0190012345678908', 'xz'),
    (till(b'PDF417 of a till', 48, (67, 3), (68, 3), (69, 48, 50)), 'PDF417 of a till', 'x'),
    (till(b'more columns', 48, (65, 4), (67, 2), (68, 4)), 'more columns', 'x'),
    (till(b'Aztec of a till', 53, (67, 4)), 'Aztec of a till', 'x'),
    (till(b'Data Matrix of a till', 54, (67, 5)), 'Data Matrix of a till', 'xd'),
    (till(b'MaxiCode of a till', 50, (65, 52)), 'MaxiCode of a till', 'm'),
    (till(b'H0950110153000', 51, (67, 3)), '09501101530003', 'x'),
    (till(b'L(01)90012345678908(3103)001750', 51, (67, 3)), '0190012345678908' '3103001750', 'x'),
    (till(b'x' * 400, 49, (67, 3), (69, 48)), 'x' * 400, 'xz'),
    (SIZES + bars(73, b'{B' + b'own bars'), 'own bars', 'xz'),
]


def printed(vp, data, language):
    """What vp prints of the stream anew: one image's rows, and what was told."""
    found = expanded(data, language, Options(sheet=tuple(shipped(language))))
    ran = subprocess.run([vp, language, '--whole', *shipped(language)], input=found.data, stdout=subprocess.PIPE, stderr=subprocess.PIPE)
    assert ran.returncode == 0, f'{data[:80]}: {ran.stderr}'
    rows, width = [], 0
    import io
    for width, _, each in images(io.BytesIO(ran.stdout)):
        rows += list(each)
    return width, rows, found.remarks


def write(name, width, rows):
    """A PNG with a white edge, so that readers find the symbol."""
    stride = (width + 7) // 8
    png = Png(open(name, 'wb'), 8 * (stride + 8))
    blank = bytes(stride + 8)
    for row in [blank] * 32 + [bytes(4) + it + bytes(4) for it in rows] + [blank] * 32:
        png.row(row)
    png.close()


def read(tool, name):
    commands = {'x': ['ZXingReader', name], 'z': ['zbarimg', '-q', '--nodbus', name], 'd': ['dmtxread', '-n', '-m', '8000', name],
                'm': ['ZXingReader', '-ispure', name]}
    ran = subprocess.run(commands[tool], stdout=subprocess.PIPE, stderr=subprocess.PIPE)
    if ran.returncode < 0 and tool == 'x':
        # one of its versions ends itself over symbols of several rows
        ran = subprocess.run(commands['m'], stdout=subprocess.PIPE, stderr=subprocess.PIPE)
    return ran.stdout.decode('latin-1')


TOOLS = {'x': 'ZXingReader', 'z': 'zbarimg', 'd': 'dmtxread', 'm': 'ZXingReader'}


def plain(text):
    """What is read, without the signs that readers put in: brackets of identifiers, FNC1, names of control bytes."""
    text = re.sub(r'<U\+001D>|<GS>|\x1d|[()\[\]]', '', text)
    return text.replace('<U+0009>', '\t').replace('<HT>', '\t')


def alone(rows):
    """The rows and whole bytes of them that have ink: some readers look at the middle alone."""
    black = [y for y, row in enumerate(rows) if any(row)]
    rows = rows[black[0]:black[-1] + 1]
    left = min(len(it) - len(it.lstrip(b'\0')) for it in rows)
    right = max(len(it.rstrip(b'\0')) for it in rows)
    return [it[left:right] for it in rows], 8 * (right - left)


def checked(vp, folder, n, data, language, wanted, tools, title):
    width, rows, remarks = printed(vp, data, language)
    assert all(it.is_done for it in remarks), f'{title}: {remarks}'
    name = os.path.join(folder, f'{n}.png')
    rows, width = alone(rows)
    write(name, width, rows)
    seen = {}
    for tool in tools:
        if shutil.which(TOOLS[tool]):
            seen[tool] = read(tool, name)
    if not seen:
        return None
    said = plain(wanted) in ''.join(map(plain, seen.values()))
    return None if said else f'{title}: {wanted!r} is not read: {seen}'


def main():
    vp, folder, word = sys.argv[1], sys.argv[2], (sys.argv[3:] or [''])[0]
    os.environ['VP'] = vp
    if not shutil.which('zint') or not any(map(shutil.which, TOOLS.values())):
        print('no zint or no reader')
        return 3
    jobs = []
    for command, data, wanted, tools in LABELS:
        turns = 'NRIB' if 'T' in command.replace('^BT', '') else 'N'
        for turn in turns if 'm' not in tools else 'N':
            text = ''.join(f'_{it:02X}' if it < 0x20 or it in b'^~_\\' else chr(it) for it in data)
            field = f'^FO90,90{command.replace("T", turn)}^FH^FD{text}^FS'
            stream = f'^XA^PW1000^LL1000{field}^XZ'.encode('latin-1')
            jobs.append((stream, 'label', wanted or data.decode('latin-1'), tools, f'{command} {turn}'))
    for data, wanted, tools in RECEIPTS:
        jobs.append((b'\x1b@' + data + b'\x1bd\x03', 'receipt', wanted, tools, repr(data[:24])))
    jobs = [it for it in jobs if word in it[-1]]
    with concurrent.futures.ThreadPoolExecutor(os.cpu_count()) as pool:
        found = list(pool.map(lambda it: checked(vp, folder, it[0], *it[1]), enumerate(jobs)))
    wrong = [it for it in found if it]
    print(*wrong, sep='\n') if wrong else None
    print(f'{len(jobs) - len(wrong)} of {len(jobs)} symbols are read back')
    return 1 if wrong else 0


if __name__ == '__main__':
    sys.exit(main())
