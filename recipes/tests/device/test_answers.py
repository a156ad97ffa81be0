"""What a printer answers, in each state: the bytes stand here as the manuals have them."""
from __future__ import annotations

import pathlib
import socket
import tempfile
import time
import unittest
from typing import Dict, List, Tuple

import tills
from tills import DEVICE, RECEIPT

REAL_TIME = [b'\x10\x04\x01', b'\x10\x04\x02', b'\x10\x04\x03', b'\x10\x04\x04']
# Of each state: DLE EOT 1 to 4, then the four bytes of GS a (the last is 0F), then GS r 1 and GS r 2.
RECEIPTS: Dict[str, Tuple[str, str, str]] = {
    'ready': ('16 12 12 12', '14 00 00 0f', '00 01'),
    'paper near end': ('16 12 12 1e', '14 00 03 0f', '03 01'),
    'paper out': ('1e 32 12 7e', '1c 00 0f 0f', ''),
    'cover open': ('1e 16 12 12', '3c 00 00 0f', ''),
    'offline': ('1e 12 12 12', '1c 00 00 0f', ''),
    'cutter error': ('1e 52 1a 12', '1c 08 00 0f', ''),
    'error': ('1e 52 32 12', '1c 20 00 0f', ''),
    'head hot': ('1e 52 52 12', '1c 40 00 0f', ''),
    'button pressed': ('56 1a 12 12', '54 02 00 0f', '00 01'),
    'drawer pin low': ('12 12 12 12', '10 00 00 0f', '00 00'),
    'paper out, cover open': ('1e 36 12 7e', '3c 00 0f 0f', ''),
}
# Of each state: the fields of ~HS that aren't as at a printer that is ready, as (string, field): value; errors and
# warnings of ~HQES.
READY = ['030,0,0,1218,000,0,0,0,000,0,0,0', '000,0,0,0,0,2,6,0,00000000,1,000', '0000,0']
NONE = '0 00000000 00000000'
LABELS: Dict[str, Tuple[Dict[Tuple[int, int], str], str, str]] = {
    'ready': ({}, NONE, NONE),
    'paper out': ({(0, 1): '1'}, '1 00000000 00000001', NONE),
    'paper near end': ({}, NONE, '1 00000000 00000008'),
    'paused': ({(0, 2): '1'}, '1 00000000 00010000', NONE),
    'buffer full': ({(0, 5): '1'}, NONE, NONE),
    'head cold': ({(0, 10): '1'}, NONE, NONE),
    'head hot': ({(0, 11): '1'}, '1 00000000 00000010', NONE),
    'cover open': ({(1, 2): '1'}, '1 00000000 00000004', NONE),
    'ribbon out': ({(1, 3): '1'}, '1 00000000 00000002', NONE),
    'cutter error': ({}, '1 00000000 00000008', NONE),
    'cover open, ribbon out': ({(1, 2): '1', (1, 3): '1'}, '1 00000000 00000006', NONE),
}
# What is asked once, of a printer with names.
NAMES = 'model = TM-X, maker = ACME, firmware = 1.23 ESC/POS, serial = J4711'
ONCE: List[Tuple[bytes, bytes]] = [
    (b'\x1dI\x01', b'\x20'), (b'\x1dI\x31', b'\x20'), (b'\x1dI\x02', b'\x02'),
    (b'\x1dIA', b'\x5f1.23 ESC/POS\0'), (b'\x1dIB', b'\x5fACME\0'), (b'\x1dIC', b'\x5fTM-X\0'),
    (b'\x1dID', b'\x5fJ4711\0'), (b'\x1dIE', b'\x5f\0'),
    (b'\x1dr1', b'\0'), (b'\x1dr2', b'\x01'), (b'\x1dr4', b'\0'), (b'\x1bv', b'\0'), (b'\x1bu0', b'\x01'),
    (b'\x1bu\0', b'\x01'), (b'\x1dg2\0\x14\0', b'\x5f0\0'), (b'\x1d(H\x06\x0000ab12', b'\x37\x22ab12\0'),
    (b'\x1d(L\x02\x0000', b'\x370393216\0'), (b'\x1d(L\x02\x000\3', b'\x371393216\0'),
    (b'\x1d(L\x02\x0004', b'\x372393216\0'), (b'\x1d(L\x04\x000@KC', b'\x37\x72\x40\0'),
    (b'\x1d(L\x04\x000PKC', b'\x37\x72\x40\0'),
    # of a symbol's size, in dots: nothing is stored; 21 modules of 3 dots, and of 5; ESC @ forgets it
    (b'\x1d(k\x03\x001R0', b'\x3760\x1f0\x1f1\x1f1\0'),
    (b'\x1d(k\x05\x001P0HE\x1d(k\x03\x001R0', b'\x37663\x1f63\x1f1\x1f0\0'),
    (b'\x1d(k\x03\x001C\5\x1d(k\x03\x001R0', b'\x376105\x1f105\x1f1\x1f0\0'),
    (b'\x1b@\x1d(k\x03\x001R0', b'\x3760\x1f0\x1f1\x1f1\0'),
    (b'\x1d(E\x03\0\x01IN', b'\x37\x20\0'), (b'\x10\x04\x07\x01', b'\x12'), (b'\x10\x04\x08\x03', b'\x12'),
    (b'\x10\x04\x12\x01', b'\x12'), (b'\x10\x14\x07\x01', b'\x14\0\0\x0f'),
    (b'\x10\x14\x08\x01\x03\x14\x01\x06\x02\x08', b'\x37\x25\0'),
]
ONCE_LABEL: List[Tuple[bytes, bytes]] = [
    (b'~HI', b'\x02TM-X,1.23 ESC/POS,8,8192KB\x03\r\n'), (b'~HM', b'\x028192,8192,8192\x03\r\n'),
    (b'~HQSN', b'\x02\r\n  SERIAL NUMBER\r\n   J4711\r\n\x03\r\n'), (b'~HU', b'\x02\x03'),
    (b'^XA^FN3^FDab 12^FS^HV3,8,<,>^FS^XZ', b'<ab 12>'), (b'^XA^FN1^FDdata^FS^HV2,8,(,)^XZ', b'()'),
]
BEGUN_LABEL = b'^XA^XZ'


def hexes(text: str) -> bytes:
    return bytes.fromhex(text)


def host_status(changes: Dict[Tuple[int, int], str]) -> bytes:
    strings = [it.split(',') for it in READY]
    for (string, field), value in changes.items():
        strings[string][field] = value
    return b''.join(b'\x02' + ','.join(it).encode() + b'\x03\r\n' for it in strings)


class Answers(tills.WithPrinter):
    def test_receipts(self) -> None:
        printer = self.device()
        for words, (at_once, by_itself, commands) in RECEIPTS.items():
            with self.subTest(words):
                printer.sets(f'ready, {words}')
                with printer.till() as till:
                    found = b''.join(till.asks(it, 1) for it in REAL_TIME)
                    self.assertEqual(found.hex(' '), at_once)
                    self.assertEqual(till.asks(b'\x10\x14\x07\x01', 4).hex(' '), by_itself)
                    if commands:
                        self.assertEqual(till.asks(b'\x1dr\x01\x1dr\x02', 2).hex(' '), commands)
                        self.assertEqual(till.asks(b'\x1da\xff', 4).hex(' '), by_itself)
                    else:
                        till.send(b'\x1dr\x01')
                        self.assertEqual(till.silence(.1), b'', 'a command is answered while nothing is printed')
                        printer.sets('ready')

    def test_labels(self) -> None:
        printer = self.device('--busy', 'xoff')
        for words, (changes, errors, warnings) in LABELS.items():
            with self.subTest(words):
                printer.sets(f'ready, {words}')
                with printer.till() as till:
                    if words == 'buffer full':
                        self.assertEqual(till.answer(1), b'\x13')
                    want = host_status(changes)
                    self.assertEqual(till.asks(b'~HS', len(want)), want)
                    want = ('\x02\r\n  PRINTER STATUS\r\n'
                            f'   ERRORS:         {errors}\r\n   WARNINGS:       {warnings}\r\n\x03\r\n').encode()
                    self.assertEqual(till.asks(b'~HQES', len(want)), want)

    def test_each_request(self) -> None:
        printer = self.device('--state', NAMES)
        for begun, asked in (b'\x1b@', ONCE), (BEGUN_LABEL, ONCE_LABEL):
            with printer.till() as till:
                till.send(begun)
                for data, want in asked:
                    self.assertEqual(till.asks(data, len(want)), want, data)
                self.assertEqual(till.silence(.1), b'')
                if begun == BEGUN_LABEL:
                    till.send(b'^HH')
                    self.assertIn(b'\r\n  TM-X                 MODEL\r\n', till.until(b'\x03'))
                self.assertEqual(till.ends(), b'')

    def test_what_isn_t_asked(self) -> None:
        printer = self.device()
        with printer.till() as till:
            till.send(RECEIPT.read_bytes() + b'\x10\x04\x05\x10\x05\x01\x1dr\x09\x1dI\x63\x1da\0')
            self.assertEqual(till.ends(), b'')

    def test_within_a_raster(self) -> None:
        """A request is answered from within a picture's data, before these are whole."""
        printer = self.device()
        with printer.till() as till:
            till.send(b'\x1dv0\0\x02\0\x08\0')
            self.assertEqual(till.asks(b'\xff\x10\x04\x04', 1), b'\x12')
            self.assertEqual(till.asks(b'\x10\x04\x01\x10\x14\x01\0\x01\xff\xff\xff\xff\x1dr\x01', 2), b'\x16\0')
            till.ends()
        self.assertEqual(printer.lines(1), ['000001 printed'])
        # as without a printer that answers
        self.assertEqual((printer.folder / '000001.bin').stat().st_size, 27)

    def test_commands_come_behind_the_paper(self) -> None:
        printer = self.device('--script', 'after 40 rows: paper out; after .4 s: loaded')
        with printer.till() as till:
            begun = time.monotonic()
            self.assertEqual(till.asks(b'one\ntwo\nthree\n\x1dr\x01', 1), b'\0')
            self.assertGreater(time.monotonic() - begun, .35)

    def device(self, *words: str) -> tills.Printer:
        return self.printer('--http', '0', *words, program=DEVICE)


class Changes(tills.WithPrinter):
    def device(self, *words: str) -> tills.Printer:
        return self.printer('--http', '0', *words, program=DEVICE)

    def test_by_itself(self) -> None:
        """Each change of what was chosen is told, and no other; also while a job prints."""
        printer = self.device('--script', 'after 30 rows: paper near end;'
                              'after 30 rows: button pressed, drawer pin low; after 30 rows: cover open;'
                              'after .2 s: cover closed, button released')
        with printer.till() as till:
            self.assertEqual(till.asks(b'\x1da\x0e', 4), hexes('14 00 00 0f'))
            till.send(b'line\n' * 9 + b'\x1dr\x01')
            self.assertEqual(till.answer(4), hexes('14 00 03 0f'))
            # the button and the drawer weren't chosen
            self.assertEqual(till.answer(4), hexes('78 02 03 0f'))
            self.assertEqual(till.answer(4), hexes('10 00 03 0f'))
            self.assertEqual(till.answer(1), b'\x03')
            self.assertEqual(till.asks(b'\x1da\0\x1dr\x02', 1), b'\0')

    def test_a_till_goes_on_behind_paper_out(self) -> None:
        """It prints, sees that paper is out, waits, goes on, and has its whole paper."""
        stream = RECEIPT.read_bytes()
        plain = self.device()
        plain.sent(stream)
        printer = self.device('--script', 'after 200 rows: paper out; after .5 s: loaded')
        with printer.till() as till:
            till.send(stream)
            tills.wait_for(lambda: till.asks(b'\x10\x04\x04', 1) == b'\x7e', 'paper is never out')
            self.assertEqual(till.asks(b'\x10\x04\x01', 1), b'\x1e')
            self.assertEqual(printer.log(), [])
            tills.wait_for(lambda: till.asks(b'\x10\x04\x04', 1) == b'\x12', 'paper is never loaded')
            self.assertEqual(till.asks(b'\x1dr\x01', 1), b'\0')
            till.ends()
        self.assertEqual(printer.lines(1), ['000001 printed'])
        self.assertEqual((printer.folder / '000001.png').read_bytes(), (plain.folder / '000001.png').read_bytes())

    def test_who_waits_for_paper_is_not_silent(self) -> None:
        printer = self.device('--idle', '.4', '--state', 'paper out')
        with printer.till() as till:
            till.send(b'a\n')
            time.sleep(1)
            self.assertEqual(till.asks(b'\x10\x04\x04', 1), b'\x7e')
            printer.sets('loaded')
            till.ends()
        self.assertEqual(printer.lines(1), ['000001 printed'])

    def test_a_roll_of_so_many_rows(self) -> None:
        printer = self.device('--state', 'paper for 450 rows')
        with printer.till() as till:
            self.assertEqual(till.asks(b'\x1da\x08', 4), hexes('14 00 00 0f'))
            till.send(b'line\n' * 30)
            self.assertEqual(till.answer(4), hexes('14 00 03 0f'))
            self.assertEqual(till.answer(4), hexes('1c 00 0f 0f'))

    def test_an_error_is_recovered(self) -> None:
        """DLE ENQ 1 prints the rest, DLE ENQ 2 throws it away."""
        for number, rows in (1, 3), (2, 1):
            with self.subTest(number):
                printer = self.device('--script', 'after 30 rows: cutter error')
                with printer.till() as till:
                    till.send(b'one\n\ntwo\nthree\n')
                    tills.wait_for(lambda: till.asks(b'\x10\x04\x03', 1) == b'\x1a')
                    till.send(b'\x10\x05' + bytes([number]))
                    tills.wait_for(lambda: till.asks(b'\x10\x04\x03', 1) == b'\x12')
                    till.ends()
                self.assertEqual(printer.lines(1), ['000001 printed'])
                plain = self.device()
                plain.sent(b'one\n\ntwo\nthree\n' if number == 1 else b'one\n')
                papers = [(it.folder / '000001.png').read_bytes() for it in (printer, plain)]
                self.assertEqual(papers[0], papers[1])

    def test_all_is_thrown_away(self) -> None:
        printer = self.device('--state', 'cover open')
        with printer.till() as till:
            till.send(b'never\nseen\n')
            self.assertEqual(till.asks(b'\x10\x14\x08\x01\x03\x14\x01\x06\x02\x08', 3), b'\x37\x25\0')
            self.assertEqual(till.asks(b'\x10\x04\x02', 1), b'\x16')
        self.assertEqual(printer.lines(1)[0][:7], '000001 ')
        self.assertEqual(list(printer.folder.glob('*.png')), [])

    def test_a_file_of_the_state(self) -> None:
        with tempfile.TemporaryDirectory() as room:
            file = pathlib.Path(room, 'state')
            printer = self.device('--state-file', str(file))
            with printer.till() as till:
                self.assertEqual(till.asks(b'\x10\x04\x02', 1), b'\x12')
                file.write_text('cover open\nserial = 12\n')
                tills.wait_for(lambda: till.asks(b'\x10\x04\x02', 1) == b'\x16')
                file.write_text('no such state\n')
                tills.wait_for(lambda: "no state is called 'no such state'" in printer.said())
                file.write_text('')
                tills.wait_for(lambda: till.asks(b'\x10\x04\x02', 1) == b'\x12')

    def test_labels_pause(self) -> None:
        printer = self.device()
        with printer.till() as till:
            till.send(b'~PP^XA^PW100^LL50^FO9,9^GB20,20,3^FS^XZ')
            length = len(host_status({}))
            self.assertIn(b',0,1,0050,001,', till.asks(b'~HS', length))
            self.assertEqual(printer.log(), [])
            till.send(b'~PS')
            till.ends()
        self.assertEqual(printer.lines(1), ['000001 printed'])

    def test_busy_closes_the_window(self) -> None:
        printer = self.device('--script', 'after 24 rows: busy; after 1 s: idle')
        with printer.till() as till:
            till.send(b'a\n')
            till.socket.setsockopt(socket.SOL_SOCKET, socket.SO_SNDBUF, 4096)
            till.socket.settimeout(.5)
            sent = 0
            with self.assertRaises(socket.timeout):
                while sent < 1 << 26:
                    sent += till.socket.send(b'b\n' * 8192)
            till.socket.settimeout(tills.PATIENCE)
            till.send(b'c\n')

    def test_xoff(self) -> None:
        printer = self.device('--busy', 'xoff', '--script', 'after 24 rows: busy; after .3 s: idle')
        with printer.till() as till:
            till.send(b'a\nb\n')
            self.assertEqual(till.answer(1), b'\x13')
            self.assertEqual(till.answer(1), b'\x11')
            self.assertEqual(till.ends(), b'')

    def test_a_full_buffer(self) -> None:
        printer = self.device('--busy', 'xoff', '--buffer', '1000', '--state', 'paper out')
        with printer.till() as till:
            till.send(b'a\n' * 600)
            self.assertEqual(till.answer(1), b'\x13')
            # and it still answers
            self.assertEqual(till.asks(b'\x10\x04\x04', 1), b'\x7e')

    def test_words_that_are_none(self) -> None:
        for words in (['--state', 'on fire'], ['--script', 'after 3 x: paper out'], ['--script', 'after 3 s: on fire'],
                      ['--script', 'after 0 s: busy; again'], ['--listen', '0.0.0.0'], ['--buffer', '0'],
                      ['--state', 'model = ' + 'x' * 65]):
            with self.subTest(words):
                with self.assertRaises(AssertionError) as caught:
                    self.device(*words)
                self.assertRegex(str(caught.exception), r'^device: \S')
                self.assertNotIn('Traceback', str(caught.exception))


if __name__ == '__main__':
    unittest.main()
