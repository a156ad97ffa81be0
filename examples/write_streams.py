#!/usr/bin/env python3
"""Writes the streams of the examples beside this file: receipts as a till sends them, labels as a shop's software
does."""
import itertools
import math
import os

ESC, GS = b'\x1b', b'\x1d'
HERE = os.path.dirname(os.path.abspath(__file__))


def word(n):
    return bytes([n % 256, n // 256])


def qr(data, module):
    def function(fn, *arguments):
        rest = b'1' + fn + bytes(arguments)
        return GS + b'(k' + word(len(rest)) + rest
    store = b'1P0' + data
    return (function(b'C', module) + function(b'E', 49) + GS + b'(k' + word(len(store)) + store
            + function(b'Q', 48))


def item(name, price, width=48):
    return name + b' ' * (width - len(name) - len(price)) + price + b'\n'


def receipt():
    yield ESC + b'@' + ESC + b'a\x01'
    yield GS + b'!\x11' + b'CORNER SHOP\n' + GS + b'!\x00'
    yield b'12 Harbour Street\n'
    yield ESC + b'M\x01' + b'open every day from 7 to 22\n' + ESC + b'M\x00' + b'\n'
    yield ESC + b'a\x00'
    yield item(b'2 x Milk 1 l', b'2.58')
    yield item(b'Rye bread', b'3.40')
    yield item(b'Apples 0.842 kg', b'2.10')
    yield ESC + b'-\x01' + b' ' * 48 + b'\n' + ESC + b'-\x00'
    yield ESC + b'E\x01' + GS + b'!\x01' + item(b'TOTAL EUR', b'8.08') + GS + b'!\x00' + ESC + b'E\x00'
    yield item(b'Card', b'8.08') + b'\n'
    yield GS + b'B\x01' + b' THANK YOU ' + GS + b'B\x00' + b'\n\n'
    yield ESC + b'a\x01'
    yield GS + b'h\x50' + GS + b'w\x02' + GS + b'H\x02' + GS + b'k\x43\x0c' + b'400638133393'
    yield ESC + b'J\x18'
    yield qr(b'https://shop.example/r/20261122-0042', 5)
    yield ESC + b'J\x20' + GS + b'V\x41\x18'


def area(x, y, width, height):
    return ESC + b'W' + word(x) + word(y) + word(width) + word(height)


def ticket():
    yield ESC + b'@' + ESC + b'L'
    yield area(0, 0, 480, 200) + ESC + b'T\x00'
    yield GS + b'!\x11' + b'NIGHT FERRY\n' + GS + b'!\x00'
    yield b'North Quay to Old Harbour\n' + b'Deck 4, berth 27\n'
    yield GS + b'$' + word(150) + b'22 Nov 21:40'
    yield area(352, 72, 128, 128) + qr(b'NF-0042', 6)
    yield area(496, 0, 80, 200) + ESC + b'T\x01'
    yield ESC + b'E\x01' + b'ADMIT ONE\n' + ESC + b'E\x00' + b'No. 0042\n'
    yield b'\x0c' + GS + b'V\x42\x18'


def first():
    yield GS + b'v0\x00' + word(1) + word(2) + b'\x80\x01'


LETTERS = 'GHIJKLMNOPQRSTUVWXY', 'ghijklmnopqrstuvwxyz'


def counted(digit, times):
    """A digit that stands so often in a row: the letters of ones and of twenties before it add up to the count."""
    if times == 1:
        return digit
    ones, twenties = times % 20, times // 20
    return (LETTERS[1][twenties - 1] if twenties else '') + (LETTERS[0][ones - 1] if ones else '') + digit


def run_length(rows):
    """The codes of a picture: `,` and `!` for the rest of a row that is white or black, `:` for the row before
    again."""
    before = None
    for row in rows:
        digits, rest = row.hex().upper(), ''
        for digit, sign in ('0', ','), ('F', '!'):
            if digits.endswith(digit):
                digits, rest = digits.rstrip(digit), sign
                break
        runs = (counted(digit, len(list(run))) for digit, run in itertools.groupby(digits))
        yield ':' if row == before else ''.join(runs) + rest
        before = row


def logo(size=144):
    """A ship on its waves, white in a black disc."""
    def is_black(x, y):
        if math.hypot(x, y) > 1:
            return False
        sails = -.48 < y < .2 and (0.04 < x < .5 - .7 * (.2 - y) or -.42 + .5 * (.2 - y) < x < -.04)
        mast = abs(x) < .03 and -.78 < y < .3
        hull = .27 < y < .47 and abs(x) < .62 - .8 * (y - .27)
        waves = any(abs(y - at - .04 * math.sin(14 * x)) < .03 for at in (.58, .72)) and abs(x) < .55
        return not (sails or mast or hull or waves)

    places = [(2 * n + 1) / size - 1 for n in range(size)]
    for y in places:
        dots = ''.join('1' if is_black(x, y) else '0' for x in places)
        yield int(dots, 2).to_bytes(size // 8, 'big')


def zpl(text):
    return text.replace('\n', '\r\n').encode('ascii')


def shipping():
    rows = list(logo())
    codes, size = ''.join(run_length(rows)), sum(map(len, rows))
    yield zpl(f'''\
^XA
^FX 4 by 6 inches, 8 dots a millimetre
^MMT^PW812^LL1218^LH0,0
^FX The carrier
^FO32,28^GFA,{len(codes)},{size},{len(rows[0])},{codes}^FS
^FO208,36^A0N,72,36^FDHARBOUR PARCEL^FS
^FO210,124^A0N,36,18^FDFrom quay to door, every night^FS
^FX The service: white on black
^FO24,192^GB764,92,92^FS
^FO48,204^A0N,72,36^FR^FDNEXT DAY 12:00^FS
^FO620,214^A0N,48,24^FR^FD1 OF 2^FS
^FX Who sends, and who gets it
^CF0,24,12
^FO32,308^FDFROM^FS
^FO32,340^FDCorner Shop, 12 Harbour Street^FS
^FO32,370^FD20457 Oldport^FS
^FO24,412^GB688,3,3^FS
^FO32,430^FDSHIP TO^FS
^CF0,48,24
^FO32,468^FDMarta Lindqvist^FS
^FO32,524^FDNorth Quay 4, door 27^FS
^FO32,580^FD48143 Millbridge^FS
^FX Who pays, turned along the right edge
^FO712,284^GB3,356,3^FS
^CF0,24,12
^FWR
^FO756,300^FDAccount 4711-0042^FS
^FO723,300^FDBill to sender^FS
^FWN
^FX The sorting
^FO24,640^GB764,3,3^FS
^FO274,643^GB3,222,3^FS
^FO544,643^GB3,222,3^FS
^FO32,656^A0N,24,12^FDSORT^FS
^FO41,696^A0N,144,72^FD7-K^FS
^BY2
^FO320,672^BCN,120,N,N^FD>;>842048143^FS
^FO311,808^A0N,36,18^FD(420) 48143^FS
^FO580,667^BQN,2,6^FDMA,https://harbour.example/t/HP2011220042^FS
^FX The parcel's number
^FO24,865^GB764,3,3^FS
^BY4,3,190
^FO72,892^BCN,,N,N^FD>:HP>5004711004220112201^FS
^CF0,48,24
^FO106,1096^FDHP 0047 1100 4220 1122 01^FS
^FX The handling, below
^FO24,1156^GB764,3,3^FS
^FO32,1174^A0N,24,12^FDWeight 4.20 kg^FS
^FO300,1174^A0N,24,12^FDShipped 2026-11-22^FS
^FO648,1174^A0N,24,12^FDRef. 0042^FS
^PQ1
^XZ
''')


def shelf():
    yield zpl('''\
^XA
^PW480^LL272
^FO16,16^A0N,48,24^FB448,2,0,L^FDMountain cheese, ripened 12 months^FS
^FO16,120^GB448,2,2^FS
^BY2,3,96
^FO16,136^BEN,,Y,N^FD400638133393^FS
^FO232,134^A0N,96,48^FB232,1,0,R^FD4.79^FS
^FO232,232^A0N,24,12^FB232,1,0,R^FDEUR, 19.16 a kg^FS
^XZ
''')


STREAMS = {
    'first.bin': first, 'receipt.bin': receipt, 'ticket.bin': ticket, 'shipping.zpl': shipping, 'shelf.zpl': shelf,
}
for name, stream in STREAMS.items():
    with open(os.path.join(HERE, name), 'wb') as out:
        out.write(b''.join(stream()))
