"""What a stream asks, at any cut, by hand-written answers; random streams cut anywhere."""
from __future__ import annotations

import random
import unittest
from typing import List, Tuple

import common  # noqa: F401
from vp.requests import Request, Requests, requests

RASTER = b'\x1dv0\0\x02\0\x03\0' + b'\x10\x04\x01\x10\x05\x02'
RECEIPTS: List[Tuple[bytes, List[Tuple[int, str, bytes]]]] = [
    (b'a\x10\x04\x01b\x1dr\x01c\x1dI\x43\x1da\x0f', [
        (4, 'DLE EOT', b'\x01'), (8, 'GS r', b'\x01'), (12, 'GS I', b'C'), (15, 'GS a', b'\x0f')]),
    # within a raster's data, and a command behind them
    (RASTER + b'\x1bu\0\x1bvx', [
        (11, 'DLE EOT', b'\x01'), (14, 'DLE ENQ', b'\x02'), (17, 'ESC u', b'\0'), (19, 'ESC v', b'')]),
    # data that look like requests, and are none
    (b'\x1dv0\0\x01\0\x03\0\x1dr\x01\x1dr\x02', [(14, 'GS r', b'\x02')]),
    (b'\x1d(H\x06\x000012\x1dr', [(11, 'GS ( H', b'0012\x1dr')]),
    (b'\x1d(E\x03\0\x01IN\x1dg2\0\x14\0.', [(8, 'GS ( E', b'\x01IN'), (14, 'GS g', b'2\0\x14\0')]),
    (b'\x1d(L\x06\x000EAB\1\1\x1d(L\x04\x000@KC.', [(20, 'GS ( L', b'0@KC')]),
    # the size of a QR symbol is asked for, and is nothing else's
    (b'\x1d(k\x05\x001P0HE\x1d(k\x03\x001R0.\x1d(k\x03\x000R0\x1d(k\x03\x001R1', [
        (18, 'GS ( k', b'1R0'), (35, 'GS ( k', b'1R1')]),
    # out of range, so they aren't acted upon
    (b'\x10\x04\x05\x10\x04\x09\x10\x05\x03\x10\x14\x01\x02\x01', []),
    (b'\x10\x14\x01\0\x01\x1dr\x31\x10\x14\x08\x01\x03\x14\x01\x06\x02\x08\x10\x14\x02\x01\x08\x10\x14\x07\x01', [
        (5, 'DLE DC4', b'\x01\0\x01'), (8, 'GS r', b'1'), (18, 'DLE DC4', b'\x08\x01\x03\x14\x01\x06\x02\x08'),
        (23, 'DLE DC4', b'\x02\x01\x08'), (27, 'DLE DC4', b'\x07\x01')]),
    (b'\x10\x10\x04\x07\x01\x10\x04\x12\x02', [(5, 'DLE EOT', b'\x07\x01'), (9, 'DLE EOT', b'\x12\x02')]),
    # no command of the manual, so that its two bytes are passed over
    (b'\x1bB\x1dr\x1dr\x02', [(5, 'GS r', b'\x1d')]),
]
LABELS = [
    (b'^XA^FO1,1^FDab~HScd^FS~HI^HH^HV1,9,a,b^XZ~hs', [
        (17, '~HS', b''), (25, '~HI', b''), (28, '^HH', b''), (38, '^HV', b'1,9,a,b'), (44, '~HS', b'')]),
    (b'~HQES~HQMA\r\n~HQ^XA^XZ~SD15~HD~HM', [
        (5, '~HQ', b'ES'), (10, '~HQ', b'MA'), (15, '~HQ', b''), (26, '~SD', b'15'), (29, '~HD', b''),
        (32, '~HM', b'')]),
    (b'^XA^HWR:*.*', [(11, '^HW', b'R:*.*')]),
    (b'^XA^FX ~ HS ^FS^XZ', []),
]


def short(found: List[Tuple[int, Request]]) -> List[Tuple[int, str, bytes]]:
    return [(place, it.name, it.arguments) for place, it in found]


class Asked(unittest.TestCase):
    def each(self, lang: str, data: bytes) -> List[Tuple[int, Request]]:
        whole = list(requests(data, lang))
        self.assertEqual(whole, list(requests([data[n:n + 1] for n in range(len(data))], lang)))
        for at in range(len(data)):
            self.assertEqual(whole, list(requests([data[:at], data[at:]], lang)), f'cut at {at} of {data!r}')
        for place, it in whole:
            self.assertEqual(place, it.end)
            self.assertTrue(data[it.start:it.end].endswith(it.arguments))
        return whole

    def test_receipts(self) -> None:
        for data, want in RECEIPTS:
            self.assertEqual(short(self.each('receipt', data)), want, data)

    def test_labels(self) -> None:
        for data, want in LABELS:
            self.assertEqual(short(self.each('label', data)), want, data)

    def test_symbol(self) -> None:
        """With the size of a symbol come the commands that it is drawn by, those before ESC @ no more."""
        ask, module, level = b'\x1d(k\x03\x001R0', b'\x1d(k\x03\x001C\5', b'\x1d(k\x03\x001E1'
        first, second = b'\x1d(k\x06\x001P0one', b'\x1d(k\x06\x001P0two'
        stream = first + module + ask + RASTER + second + level + ask + b'\x1b@' + ask
        # (a picture's data, whose head may come in two pieces, are none of the symbol's)
        self.assertEqual([it.symbol for _, it in self.each('receipt', stream) if it.name == 'GS ( k'],
                         [module + first, module + level + second, b''])
        picture = self.each('receipt', first + RASTER + ask)[-1][1]
        self.assertEqual(picture.symbol, first)

    def test_as_they_come(self) -> None:
        """A request is given with its last byte, and nothing waits behind it."""
        reader = Requests('receipt')
        self.assertEqual(reader.feed(b'\x10\x04'), [])
        self.assertEqual([it.name for it in reader.feed(b'\x04')], ['DLE EOT'])
        self.assertEqual([it.name for it in reader.feed(b'\x1br\x01\x1dr\x01')], ['GS r'])
        self.assertEqual([it.name for it in Requests('label').feed(b'~HS')], ['~HS'])

    def test_random(self) -> None:
        any_of = random.Random(84)
        parts = [b'\x10', b'\x04', b'\x01', b'\x05', b'\x14', b'\x07', b'\x08', b'\x1dr', b'\x1da', b'\x1bu', b'\x1bv',
                 b'a', b'\x1dv0', b'\0', b'\x1d(H', b'\x1dg', b'\x03', b'\x02', b'\x1d(E\x03\0', b'\x1bB', b'\n',
                 b'\x1b']
        signs = [b'^XA', b'^XZ', b'~HS', b'~HQES', b'~H', b'^HV', b'1,2', b'^FD', b'~', b'^', b'S', b'\n',
                 b'^HH', b'~SD15']
        for lang, of in [('receipt', parts), ('label', signs)] * 150:
            data = b''.join(any_of.choice(of) for _ in range(any_of.randrange(40)))
            whole = list(requests(data, lang))
            cuts = sorted(any_of.randrange(len(data) + 1) for _ in range(any_of.randrange(6)))
            pieces = [data[one:two] for one, two in zip([0, *cuts], [*cuts, len(data)])]
            self.assertEqual(whole, list(requests(pieces, lang)), (data, cuts))
            self.assertEqual([place for place, _ in whole], sorted(place for place, _ in whole))

    def test_long_rasters_take_no_listing(self) -> None:
        data = b'\x1dv0\0\x48\0\xe8\x03' + bytes(72000)
        self.assertEqual([place for place, _ in requests(data * 20 + b'\x1dr\x01', 'receipt')], [72008 * 20 + 3])


if __name__ == '__main__':
    unittest.main()
