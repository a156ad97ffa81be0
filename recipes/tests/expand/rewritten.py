#!/usr/bin/env python3
"""Small streams as drivers and tills send them, and what stands in the new ones: rewritten.py VP

Each prints to its end by the whole language. What is written anew is in its words, and written anew again it stays.
"""
import os
import pathlib
import subprocess
import sys
from typing import List, NamedTuple
sys.path.insert(0, str(pathlib.Path(__file__).resolve().parent.parent.parent))
sys.dont_write_bytecode = True
from vp_recipes.expand import Options, expanded  # noqa: E402
from vp_recipes.sheets import shipped  # noqa: E402

FAMILIES = [
    b'\x1c(A\2\0000\0', b'\x1c(E\6\0\x3c\2\x30\0\0\0', b'\x1c(L\2\0\x43\x30', b'\x1c(e\2\0\x33\1', b'\x1c(f\2\0ab',
    b'\x1c(g\2\0ab', b'\x1c(z\1\0a', b'\x1b(A\4\0000\1\2\3', b'\x1b(Y\2\0\0\0', b'\x1dC;1;9;1;1;5;',
    b'\x1c2\xb0\xa1' + b'x' * 72, b'\x1cg1\0\0\0\0\0\3\0abc', b'\x1cg2\0\0\0\0\0\3\0',
    b'\x1dD0C0AB01BM\x1e\0\0\0' + b'z' * 24, b'\x1d|\4', b'\x1di', b'\x1b7\7\x50\2', b'\x1b9\0', b'\x1bA\x20',
    b'\x1bC\1\2\3', b'\x1d\x0c', b'\x1dA\0\0', b'\x1d<', b'\x1bf\1\2', b'\x1bF\0', b'\x1bq', b'\x1bz\0', b'\x1ca0\1',
    b'\x1ca1', b'\x1cb\0', b'\x1cc', b'\x1d\3\1', b'\x1d\4\1', b'\x1b8\1']
STORED = b'^XA^DFE:X.ZPL^FS^PW300^LL99^FO9,9^A0N,30,30^FN1^FS^FO9,50^A0N,30,30^FDfixed^FS^XZ'


class Case(NamedTuple):
    """A stream, what stands in the new one, what doesn't, what is told."""
    what: str
    stream: bytes
    has: List[bytes] = []
    lacks: List[bytes] = []
    told: List[str] = []


def labels() -> List[Case]:
    return [
        Case('a recall as drivers send it', STORED + b'^XA^XFE:X.ZPL^FN1^FDJane Roe^FS^XZ',
             [b'^FO9,9^A.N,30,15^FDJane Roe^FS'],
             [b'^FO0,0', b'^FDJane Roe^FS^FDJane'], ['the format E:X.ZPL is recalled']),
        Case('a recall that is closed', STORED + b'^XA^XFE:X.ZPL^FS^FN1^FDJane Roe^FS^XZ',
             [b'^FO9,9^A.N,30,15^FDJane Roe^FS']),
        Case('a stored format whose last field is open', b'^XA^DFE:X^FS^FO9,9^A0N,30^FN1^XZ^XA^XFE:X^FN1^FDJane^FS^XZ',
             [b'^XA^FO9,9^A0N,30^FDJane^FS^XZ']),
        Case('a data field before its recall', STORED + b'^XA^FN1^FDJane Roe^FS^XFE:X.ZPL^FS^XZ',
             [b'^FO9,9^A.N,30,15^FDJane Roe^FS']),
        Case('data that no field asks for',
             STORED + b'^XA^XFE:X.ZPL^FN9^FDunused^FS^FN1^FDJane^FN2^FDRoe^FS^FN1^FDJane Roe^FS^XZ',
             [b'^FO9,9^A.N,30,15^FDJane Roe^FS'], [b'unused', b'Jane^']),
        Case('fonts P to V without a size', b''.join(b'^XA^FO9,9^A%sN^FDHg^FS^XZ' % it.encode() for it in 'PQRSTUV'),
             [b'^A.N,%d,' % it for it in (20, 28, 35, 40, 48, 59, 80)]),
        Case('one of them by ^CF, and twice as high', b'^XA^CFS^FO9,9^FDHg^FS^FO9,99^ASN,80,70^FDHg^FS^XZ',
             [b'^A.N,40,', b'^A.N,80,']),
        Case('font 0 where no size was given', b'^XA^FO9,9^A0N^FDHg^FS^XZ', [b'^A.N,15,']),
        Case('an oblong Data Matrix', b'^XA^FO9,9^BXN,4,200,,,,_,2^FDHello 12^FS^XZ',
             [b'^XA^FO9,9^BXN,4,200,,,,_,2^FDHello 12^FS^XZ'], [b'^GFA']),
        Case('Data Matrix of an older quality', b'^XA^FO9,9^BXN,4,140^FDHello^FS^FO0,0^GB9,9,1^FS^XZ',
             [b'^FO9,9^GFA', b'^GB9,9,1'], [b'^BX'], ['^BX: a kind of it that is not drawn']),
        Case('PDF417 of any size', b'^XA^FO9,9^B7N,6,2^FDHello^FS^XZ', [b'^GFA'], [b'^B7'],
             ['^B7: PDF417 is written as a picture']),
        Case("Aztec's rune", b'^XA^FO9,9^BON,4,N,300^FD25^FS^XZ', [b'^GFA'], [b'^BO'],
             ['^BO: Aztec is written as a picture']),
        Case('Codabar that ends at the right', b'^XA^FO400,9,1^BY2^BKN,N,40,N^FD123^FS^XZ',
             [b'^FO274,9^BKN,N,40,N^FD123']),
        Case('shapes', b'^XA^FO9,9^GC40,3,W^FS^FO90,9,1^GD30,40,3^FS^XZ',
             [b'^FO9,9^GC40,3,W^FS^FO60,9^GD30,40,3^FS'], [b'^GF']),
        Case('Intelligent Mail of 31 digits', b'^XA^FO9,9^BY3^BZN,40,N,N,3^FD0123456709498765432101234567891^FS^XZ',
             [b'^GFA'], [],
             ['^BZ: USPS is written as a picture']),
        Case('Intelligent Mail of 30 digits', b'^XA^FO9,9^BZN,40,N,N,3^FD' + b'1' * 30 + b'^FS^FO0,0^GB9,9,1^FS^XZ',
             [b'^GFA', b'^GB9,9,1'], [],
             ['^BZ: it takes 20, 25, 29 or 31 digits']),
        Case('QR without its front', b'^XA^FO9,9^BQN,2,4^FDhttps://shop.example^FS^FO0,0^GB9,9,1^FS^XZ',
             [b'^FO9,9^GFA', b'^GB9,9,1'], [],
             ['^BQ: its data begin without a level and a comma, as QA,']),
        Case('QR of model 1', b'^XA^FO9,9^BQN,1,4^FDMA,https://shop.example^FS^XZ', [b'^BQN,2,4^FDMA,'], [],
             ['^BQ: model 1 of QR is written as model 2']),
        Case('letters in EAN-13', b'^XA^FO9,9^BEN,40^FD40063813A^FS^FO0,0^GB9,9,1^FS^XZ', [b'^FO9,9^GFA', b'^GB9,9,1'],
             [],
             ['^BE: its data have a sign that it has not']),
        Case('a sign that Code 39 has not', b'^XA^FO9,9^B3N,N,40^FDabc^FS^XZ', [b'^FO9,9^GFA'], [],
             ['^B3: its data have a sign']),
        Case('a set that Code 128 has not', b'^XA^FO9,9^BCN,40^FDA>4B^FS^XZ', [b'^FO9,9^GFA'], [],
             ['^BC: its data have a set that is none']),
        Case('Code 128 that ends at the right', b'^XA^FO400,9,1^BY2^BCN,40,N^FD>:ABC^FS^XZ',
             [b'^FO264,9^BCN,40,N^FD>:ABC']),
        Case('data that embed others',
             b'^XA^DFE:Y.ZPL^FS^FO9,9^A0N,9,9^FE^FN1^FD' + b'#1#' * 2000 + b'^FS^XZ^XA^XFE:Y.ZPL^FN1^FD' + b'x' * 3000
             + b'^FS^FO0,0^A0N,9,9^FE^FD[#1,0,2#]^FS^XZ', [b'^FD[xx]^FS']),
        Case('a serial number of 14 digits', b'^XA^FO9,9^A0N,30^SN12345678901234,1,Y^FS^PQ2^XZ',
             [b'^FD12345678901234^FS', b'^FD12345678901235^FS']),
    ]


def receipts() -> List[Case]:
    return [
        Case('the table that printers begin with', b'50\x9b\n', [b'50\x1bt\x13\xbd\n']),
        Case('what is the same in both', b'50 \x84\x94\x81\n', [b'50 \x84\x94\x81\n'], [b'\x1bt']),
        Case('a table that is not known leaves the one before', b'\x1bt\x10\xe9\x1bt\x63\xe9\n', [b'\x82\x82\n'], [],
             ['ESC t 63: a code table that is not known']),
        Case('Arabic digits', b'\x1bt\x2550%\n', [b'50%\n']),
        Case("text for the customer's display", b'paper\n\x1b=\2\x1b@TOTAL\x1b\x7f 5.00\x1b=\1more\n',
             [b'paper\n\x1b=\2\x1b=\1more\n'], [b'TOTAL'],
             ["ESC =: text for the customer's display is left out"]),
        Case('text for display and printer', b'\x1b=\3both\n', [b'\x1b=\3both\n']),
        Case('UTF-8 by FS ( C', b'\x1c(C\2\00002caf\xc3\xa9\n\x1c(C\2\00001\x82\n', [b'caf\x1bt\x13\x82\n\x82\n'],
             [b'\x1c(']),
        Case('UTF-8 by ESC 9', b'\x1b9\1caf\xc3\xa9\n', [b'caf\x1bt\x13\x82\n']),
        Case('families and others by their length', b''.join(b'[' + it + b']\n' for it in FAMILIES),
             [b'[]\n' * len(FAMILIES)], [b'\x1c', b'\x1d']),
        Case('a command that was broken off', b'a\x1b\x1b@b\n', [b'a\x1b@b\n'], [],
             ['ESC before another command is left out']),
        Case('a second colour', b'\x1d(L\x0b\x000p0\1\0012\10\0\1\0\xff\x1d(L\2\x0002', [b'\x1dv0\0\1\0\1\0\xff'], [],
             ['GS ( L: a second colour is written in black']),
        Case('two colours of a stored picture', b'\x1d(L\x0e\x000C0AB\2\10\0\1\0001\xf02\x0f\x1d(L\6\x000EAB\1\1',
             [b'\x1dv0\0\1\0\1\0\xff'], [],
             ['GS ( L: a second colour is written in black']),
        Case('a refused symbol', b'a\n\x1dk\2abc\0b\n', [b'a\nb\n'], [], ['GS k 2: EAN-13: its data have a sign that it has not']),
        Case('bars wider than the line', b'\x1dw\6\x1dkI\x20{B' + b'x' * 30 + b'after\n', [b'after\n'], [b'\x1dk'],
             ['GS k 73: Code 128: it is wider than the line']),
        Case('bars that vp draws', b'\x1dk\x00012345678905\0\x1dkF\x04' + b'1234\x1dkH\2AB',
             [b'\x1dk\x00012345678905\0\x1dkF\x04' + b'1234\x1dkH\2AB']),
        Case('a command that is none', b'a\x1b\x7f\x9bb\n', [b'a\x1b\x7f\x1bt\x13\xbdb\n'], [],
             ['ESC 7f is no command that is known: it is read past']),
        Case('QR of model 1', b'\x1d(k\4\0001A1\0\x1d(k\5\0001P0hi\x1d(k\3\0001Q0', [b'\x1d(k\4\0001A2\0'], [],
             ['model 1 of QR is written as model 2']),
        Case('QR without data', b'\x1d(k\5\0001P0hi\x1b@\x1d(k\3\0001Q0after\n', [b'after\n'], [],
             ['GS ( k 49: QR: there are no data']),
        Case('a module out of range', b'\x1d(k\3\x006C\5\x1d(k\3\x006C\0\x1d(k\5\x006P0hi\x1d(k\3\x006Q0',
             [b'\x1dv0\0\7\0\x32\0']),
        Case('letters that are turned stand in one command', b'\x1bV\1' + b'A' * 20 + b'\n',
             [b'\x1b*\x21' + (480).to_bytes(2, 'little')]),
        Case('upside down', b'\x1b{\1one\n\x1b{\0two\n', [b'\x1dv0\0', b'two\n'], [b'one']),
    ]


def check(vp: str, language: str, case: Case, options: Options) -> None:
    found = expanded(case.stream, language, options)
    told = '; '.join(it.text for it in found.remarks)
    for part in case.has:
        assert part in found.data, f'{case.what}: no {part!r} in {found.data!r}: {told}'
    for part in case.lacks:
        assert part not in found.data, f'{case.what}: {part!r} in {found.data!r}'
    for text in case.told:
        assert text in told, f'{case.what}: it tells {told!r}'
    ran = subprocess.run([vp, language, '--whole'], input=found.data, stdout=subprocess.PIPE, stderr=subprocess.PIPE)
    assert ran.returncode == 0, f'{case.what}: {ran.stderr!r} of {found.data!r}'
    again = expanded(found.data, language, options)
    assert again.data == found.data, f'{case.what}: written anew twice: {again.data!r}'


def main() -> None:
    vp = os.environ['VP'] = sys.argv[1]
    for language, cases in ('label', labels()), ('receipt', receipts()):
        options = Options(sheet=tuple(shipped(language)))
        for case in cases:
            check(vp, language, case, options)
    print(f'{len(labels()) + len(receipts())} small streams are written anew as they are meant')


if __name__ == '__main__':
    main()
