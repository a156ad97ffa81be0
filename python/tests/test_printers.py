"""Printers: faults, bad input, bounds, what is held, and threads."""
import copy
import gc
import pathlib
import pickle
import signal
import subprocess
import sys
import tempfile
import threading
import time
import unittest

import common
from common import EXAMPLES, FONT_A, program

import vp

RECEIPT = (EXAMPLES / 'receipt.bin').read_bytes()
# A raster of 8 by 2 dots of which one row comes; a line of white dots as often as asked.
HALF_A_RASTER = b'\x1dv0\0\x01\0\x02\0\x80'


def feeds(count):
    return b'\x1bJ\x01' * count


class Anew(unittest.TestCase):
    def test_a_print_takes_nothing_from_the_one_before(self):
        kept = vp.Receipt()
        streams = [RECEIPT, b'\x1bL page', b'\x1b\x7f', HALF_A_RASTER, b'\x1dL\x40\0open', b'A\n']
        for before in streams:
            for stream in streams:
                kept.print(before)
                again, new = kept.print(stream), vp.Receipt().print(stream)
                self.assertEqual((again.pbm(), again.fault), (new.pbm(), new.fault))

    def test_of_a_label_no_copies_are_left(self):
        kept = vp.Label(most_images=3)
        with self.assertRaises(vp.TooMuchPaper):
            kept.print(b'^XA^PW8^LL8^CF0,60^PQ99999999^FO0,0^GB8,8^FS^XZ')
        self.assertEqual(kept.print(b'^XA^FO0,0^GB8,8^FS^XZ').pbm(), vp.Label().print(b'^XA^FO0,0^GB8,8^FS^XZ').pbm())

    def test_behind_a_bound_and_in_each_thread(self):
        kept, heights = vp.Receipt(most_rows=40), []
        with self.assertRaises(vp.TooMuchPaper):
            kept.print(feeds(100))
        threads = [threading.Thread(target=lambda: heights.append([it.height for it in kept.print(feeds(2))]))
                   for _ in range(8)]
        for it in threads:
            it.start()
        for it in threads:
            it.join()
        self.assertEqual(heights, [[1, 1]] * 8)

    def test_it_is_copied_without_its_printer(self):
        kept = vp.Receipt()
        kept.print(b'A\x1b\x7f')
        for copied in copy.deepcopy(kept), pickle.loads(pickle.dumps(kept)):
            self.assertEqual(copied.print(b'A\n').pbm(), kept.print(b'A\n').pbm())


class Faults(unittest.TestCase):
    def test_a_fault_has_its_number_text_and_byte(self):
        paper = vp.Receipt().print(b'\x1bJ\x02\x1b\x7fA\n')
        self.assertEqual(paper.fault, (1, 'unknown command 1B 7F', 5))
        self.assertEqual(str(paper.fault), 'vp: F1 after 5 bytes: unknown command 1B 7F')
        self.assertEqual([(it.width, it.height) for it in paper], [(576, 2)])
        self.assertEqual(str(vp.Label().print(b'^XA^BQN,2,2^FDXA,1^FS').fault), 'vp: F2 after 21 bytes: symbol: set')
        self.assertEqual(str(vp.Label().print(b'^XA').fault), 'vp: F9 after 3 bytes: input ends before printing')

    def test_the_whole_language_has_no_unknown_command(self):
        paper = vp.Receipt(whole=True).print(b'\x1bJ\x02\x1b\x7f\x1bJ\x03')
        self.assertEqual(([it.height for it in paper], paper.fault), ([2, 3], None))
        self.assertEqual([it.width for it in vp.Receipt(width=384, whole=True).print(b'\x1b\x7f\x1bJ\x03')], [384])
        listing = vp.list(b'\x1b\x7fA', 'receipt', whole=True)
        self.assertEqual(([it.text for it in listing], listing.fault), (['esc 7f', 'char 41'], None))

    def test_the_whole_language_of_labels_has_more_symbols(self):
        label = b'^XA^PW24^LL1^BY1,2^B2N,1,N^FD12^FS^XZ'
        self.assertEqual([it.rows for it in vp.Label(whole=True).print(label)], [[b'\xad\x2b\x34']])
        self.assertEqual([it.rows for it in vp.Label(None).print(label)], [[bytes(3)]])
        told = [vp.list(b'^B2N,1,N^ZZ1^', 'label', whole=whole).text() for whole in (True, False)]
        self.assertEqual(told, ['^B2N,1,N\n^ZZ skipped\n', '^B2 skipped\n^ZZ skipped\n'])

    def test_behind_a_fault_nothing_is_printed(self):
        with vp.Receipt().start() as printer:
            self.assertEqual(printer.feed(b'\x1b\x7fA\n'), [])
            self.assertEqual(str(printer.fault), 'vp: F1 after 2 bytes: unknown command 1B 7F')
            self.assertEqual(printer.feed(b'A\n'), [])
            self.assertEqual(str(printer.finish()), 'vp: F1 after 2 bytes: unknown command 1B 7F')

    def test_an_image_that_is_cut_is_unfinished(self):
        paper = vp.Receipt().print(HALF_A_RASTER)
        self.assertEqual((len(paper), paper.unfinished), (0, b'P4\n576 2\n\x80' + bytes(71)))
        self.assertEqual(paper.pbm(), paper.unfinished)
        with vp.Receipt().start() as printer:
            self.assertEqual((printer.feed(HALF_A_RASTER), printer.unfinished), ([], paper.unfinished))
            self.assertEqual([(it.width, it.height) for it in printer.feed(b'\x01')], [(576, 2)])
            self.assertEqual(printer.unfinished, b'')

    def test_what_is_held(self):
        with vp.Receipt().start() as printer:
            self.assertEqual(printer.held, (0, 0, 0, 0, 0))
            printer.feed(b'A')
            self.assertEqual(printer.held.line_rows, 24)
            printer.feed(b'\n\x1bL')
            self.assertEqual((printer.held.line_rows, printer.held.page_rows), (0, 1664))
        with vp.Label().start() as printer:
            printer.feed(b'^XA^FO1,1^A0N,24^FDabc^FS^FD')
            self.assertEqual((printer.held.fields, printer.held.stored), (1, 3))

    def test_memory_stays(self):
        for setup, without_sheets in (vp.Receipt(), 279552), (vp.Label(), 1254176):
            with setup.start() as printer:
                memory = printer.memory
                self.assertGreater(memory, without_sheets)
                printer.feed(b'A\n^XA^FO1,1^A0N,24^FDabc^FS^XZ')
                self.assertEqual(printer.memory, memory)


class BadInput(unittest.TestCase):
    def test_sheets_as_the_program_says_it(self):
        with tempfile.TemporaryDirectory() as folder:
            hurts = pathlib.Path(folder, "a 'b' \"c\" %s -é")
            hurts.mkdir()
            whole = FONT_A.read_bytes()
            wrong = {'empty': b'', 'none': b'P5', '-head': b'P4\n1', 'size': b'P4\n8 8\n' + bytes(8), 'cut': whole[:-1]}
            for name, data in wrong.items():
                file = hurts / name
                file.write_bytes(data)
                with self.assertRaises(vp.BadSheet) as raised:
                    vp.Receipt(font_a=file)
                self.assertEqual(str(raised.exception), program(b'', 'receipt', '--font-a', str(file))[1])
                with self.assertRaises(vp.BadSheet) as raised:
                    vp.Receipt(font_b=data)
                said = program(b'', 'receipt', '--font-b', str(file))[1].rpartition(': ')[2]
                self.assertEqual(str(raised.exception), f'vp: font_b: {said}')
            for file in hurts / 'missing', hurts, hurts / 'miss\ning':
                with self.assertRaises(vp.BadSheet) as raised:
                    vp.Label(file)
                self.assertEqual(str(raised.exception), program(b'', 'label', '--font-a', str(file))[1])
            (hurts / 'good').write_bytes(whole)
            self.assertEqual(vp.Receipt(hurts / 'good').print(RECEIPT), vp.Receipt(whole).print(RECEIPT))
        with self.assertRaises(vp.BadSheet):
            vp.Receipt(font_a='a\0b')

    def test_arguments(self):
        for call in (lambda: vp.Receipt(width=80), lambda: vp.Receipt(most_rows=-1), lambda: vp.Label(most_bytes=-1),
                     lambda: vp.list(b'', 'epl')):
            with self.assertRaises(vp.BadArgument) as raised:
                call()
            self.assertRegex(str(raised.exception), '^vp: ')
            self.assertIsInstance(raised.exception, (vp.VpError, ValueError))
        for call in (lambda: vp.Receipt().print('text'), lambda: vp.Receipt().print(None), lambda: vp.list(7, 'label')):
            with self.assertRaises(TypeError):
                call()

    def test_a_printer_that_is_closed(self):
        printer = vp.Receipt().start()
        printer.close()
        printer.close()
        finished = vp.Receipt().start()
        self.assertIsNone(finished.finish())
        for it in printer, finished:
            for call in (lambda it=it: it.feed(b'A'), it.finish, lambda it=it: it.held, lambda it=it: it.memory):
                with self.assertRaises(vp.Closed) as raised:
                    call()
                self.assertEqual(str(raised.exception), 'vp: the printer is closed')

    def test_no_library(self):
        script = 'import vp\ntry: vp.Receipt()\nexcept vp.NoLibrary as error: print(error)'
        for library, said in ('/missing/libvp.so', 'vp: no library /missing/libvp.so: '), ('libc.so.6', 'vp_new'):
            ran = subprocess.run([sys.executable, '-c', script], stdout=subprocess.PIPE, text=True, check=True,
                                 env={**common.ENVIRONMENT, 'LIBVP': library})
            self.assertIn(said, ran.stdout)


class Bounds(unittest.TestCase):
    def test_rows_and_bytes(self):
        self.assertEqual(len(vp.Receipt(most_rows=5).print(feeds(5))), 5)
        with self.assertRaises(vp.TooMuchPaper) as raised:
            vp.Receipt(most_rows=5).print(feeds(6))
        self.assertEqual(str(raised.exception), 'vp: cut off after 18 bytes: it prints more than 5 rows')
        self.assertEqual(raised.exception.paper, vp.Receipt().print(feeds(5)))
        size = len(vp.Receipt().print(feeds(5)).pbm())
        self.assertEqual(len(vp.Receipt(most_bytes=size).print(feeds(5))), 5)
        with self.assertRaises(vp.TooMuchPaper) as raised:
            vp.Receipt(most_bytes=size - 1).print(feeds(5))
        self.assertEqual(str(raised.exception), f'vp: cut off after 15 bytes: it prints more than {size - 1} bytes')
        with self.assertRaises(vp.TooMuchPaper) as raised:
            vp.Receipt(most_images=4).print(feeds(5))
        self.assertEqual(len(raised.exception.paper), 4)
        self.assertEqual(len(vp.Receipt(most_rows=None, most_bytes=None).print(feeds(6))), 6)
        with self.assertRaises(vp.TooMuchPaper):
            vp.list(RECEIPT, 'receipt', most_bytes=10)

    def test_copies_without_end(self):
        for stream in b'^XA^PW1248^LL8000^GB8,8^FS^PQ99999999^XZ', b'^XA^PW8^LL1^GB8,8^FS^PQ99999999^XZ':
            with self.assertRaises(vp.TooMuchPaper):
                vp.Label().print(stream)

    def test_time(self):
        # copies of two bands, of which each takes a hundredth of a second, and prints some forty bytes
        slow = b'^XA^PW1^LL33^PQ99999999^POI^FT0,1^GFA,,99999999,1,F0' + 262000 * b':' + b'^FS^XZ'
        start = time.monotonic()
        with self.assertRaises(vp.TooMuchPaper) as raised:
            vp.Label(most_seconds=.3).print(slow)
        self.assertLess(time.monotonic() - start, 5)
        self.assertRegex(str(raised.exception), r'^vp: cut off after 262,\d+ bytes: it takes more than 0.3 s$')
        self.assertGreater(len(raised.exception.paper), 0)
        script = 'import signal, sys, vp\nsignal.signal(signal.SIGINT, signal.default_int_handler)\nprint(flush=True)\nvp.Label().print(sys.stdin.buffer.read())'
        with subprocess.Popen([sys.executable, '-c', script], stdin=subprocess.PIPE, stdout=subprocess.PIPE,
                              stderr=subprocess.DEVNULL, env=common.ENVIRONMENT) as ran:
            ran.stdout.readline()
            ran.stdin.write(slow)
            ran.stdin.close()
            time.sleep(.3)
            start = time.monotonic()
            ran.send_signal(signal.SIGINT)
            ran.wait()
            self.assertLess(time.monotonic() - start, 5)

    def test_what_is_fed_at_once(self):
        with vp.Receipt(most_rows=5).start() as printer:
            for _ in range(3):
                self.assertEqual(len(printer.feed(feeds(5))), 5)
            with self.assertRaises(vp.TooMuchPaper):
                printer.feed(feeds(6))
            with self.assertRaises(vp.Closed):
                printer.feed(b'A')


class Threads(unittest.TestCase):
    def setUp(self):
        self.addCleanup(sys.setswitchinterval, sys.getswitchinterval())
        sys.setswitchinterval(1e-6)

    def run_all(self, calls):
        threads = [threading.Thread(target=it) for it in calls]
        for it in threads:
            it.start()
        for it in threads:
            it.join()

    def test_each_its_own(self):
        printers, found = vp.Receipt(), []
        whole = printers.print(RECEIPT)
        self.run_all([lambda: found.extend(printers.print(RECEIPT) == whole for _ in range(20))] * 8)
        self.assertEqual(found, [True] * 160)

    def test_one_for_all(self):
        with vp.Receipt().start() as printer:
            found = []

            def feed():
                for _ in range(50):
                    found.extend(printer.feed(b'A\n' * 8))

            self.run_all([feed] * 8)
            self.assertIsNone(printer.finish())
        self.assertEqual(len(found), 3200)
        self.assertEqual(set(found), set(vp.Receipt().print(b'A\n')))

    def test_one_is_closed_while_others_feed(self):
        printer, odd = vp.Receipt().start(), []

        def feed():
            try:
                while True:
                    printer.feed(RECEIPT)
            except vp.Closed:
                odd.append('closed')

        self.run_all([feed, feed, feed, printer.close])
        self.assertEqual(odd, ['closed'] * 3)

    def test_what_nobody_holds_is_freed(self):
        printer = vp.Receipt().start()
        free = printer._handle._free
        del printer
        gc.collect()
        self.assertFalse(free.alive)


if __name__ == '__main__':
    unittest.main()
