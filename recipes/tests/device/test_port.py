"""A printer on port 9100 under load, and how jobs end that aren't whole."""
from __future__ import annotations

import os
import pathlib
import resource
import signal
import socket
import tempfile
import time
import unittest

import tills
from tills import DEVICE, LABEL, RECEIPT

# Labels without end.
ENDLESS = b'^XA^PW100^LL100^PQ99999999^FO0,0^GB10,10^FS^XZ'
# A label that takes long.
SLOW = b'^XA^PW832^LL8000' + b'^FO0,0^GB832,8000,4000^FS' * 200 + b'^PQ9999^XZ'
ROWS = '--most-rows=2000'


class Storing(tills.WithPrinter):
    def test_each_file_is_stored(self) -> None:
        with tempfile.TemporaryDirectory() as to:
            printer = self.printer('--http', '0', '--store', f'cp -- "$@" {to}', program=DEVICE)
            for stream in RECEIPT.read_bytes(), LABEL.read_bytes(), 3 * LABEL.read_bytes(), b'\x1b\x7f', b'':
                printer.sent(stream)
            wanted = {it.name: it.read_bytes() for it in printer.folder.iterdir() if it.name[0] != '.'}
            del wanted['log']
            self.assertEqual(len(wanted), 5 + 1 + 1 + 3)
            tills.wait_for(lambda: len(os.listdir(to)) == len(wanted))
            printer.end()
            self.assertEqual({it.name: it.read_bytes() for it in pathlib.Path(to).iterdir()}, wanted)
            self.assertEqual([it for it in printer.log() if 'stored' in it], [])

    def test_a_store_that_is_away_and_comes_back(self) -> None:
        with tempfile.TemporaryDirectory() as to:
            said = f'cp -- "$@" {to} && test -e {to}/back || {{ touch {to}/back; echo away >&2; exit 7; }}'
            printer = self.printer('--http', '0', '--store', said, program=DEVICE)
            printer.sent(b'TOTAL 8.08\n')
            tills.wait_for(lambda: len(os.listdir(to)) == 3)
            self.assertEqual(printer.log(), ['000001 printed'])

    def test_a_store_that_fails(self) -> None:
        printer = self.printer('--http', '0', '--store', 'echo no room >&2; exit 7', program=DEVICE)
        printer.sent(b'TOTAL 8.08\n')
        self.assertEqual(printer.lines(2), ['000001 printed', '000001 not stored: status 7: no room'])

    def test_ended_while_it_stores(self) -> None:
        with tempfile.TemporaryDirectory() as to:
            printer = self.printer('--http', '0', '--store', f'touch {to}/begun; sleep 100', program=DEVICE)
            printer.sent(b'TOTAL 8.08\n')
            tills.wait_for(lambda: os.listdir(to))
            self.assertLess(printer.end(signal.SIGTERM), 3)
        self.assertEqual(printer.log(), ['000001 printed', '000001 not stored: ended by SIGTERM before'])
        self.whole(printer)


class Ends(tills.WithPrinter):
    def test_reset_at_a_line_end(self) -> None:
        printer = self.printer()
        till = printer.till()
        till.send(b'TOTAL 8.08\n')
        self.assertEqual(till.asks(b'\x1dr\x01', 1), b'\0')
        till.reset()
        self.assertEqual(printer.lines(1), ['000001 cut off: the connection was reset; what came is printed'])
        self.assertTrue((printer.folder / '000001.png').exists())

    def test_reset_where_nothing_came(self) -> None:
        printer = self.printer()
        printer.till().reset()
        self.assertEqual(printer.lines(1), ['000001 cut off: the connection was reset; nothing came'])

    def test_what_shows_no_language(self) -> None:
        printer = self.printer()
        for stream in b'x', b'^', b' ', b'':
            printer.sent(stream)
        lines = [it[7:] for it in printer.lines(4)]
        self.assertEqual(lines, ['vp: F9 after 1 bytes: input ends before printing'] * 3 + ['nothing came'])

    def test_silent_in_mid_command(self) -> None:
        printer = self.printer('--idle', '.3')
        with printer.till() as till:
            till.send(b'a\n\x1b')
            self.assertEqual(till.answer(1), b'')
        self.assertRegex(printer.lines(1)[0], '^000001 cut off: nothing came for 0.3 s; vp: F8 after 3 bytes: ')

    def test_signals(self) -> None:
        for number in signal.SIGTERM, signal.SIGHUP, signal.SIGINT:
            with self.subTest(number):
                printer = self.printer('--at-once', '1')
                printer.sent(b'printed\n')
                waiting = [printer.till() for _ in range(4)]
                for till in waiting:
                    self.addCleanup(till.socket.close)
                for till in waiting[1:]:
                    till.send(b'one line\nand a half')
                # one that prints for long
                waiting[3].send(b'\x1dv0\0\x48\0\xe8\x03' + bytes(50000))
                hostile = printer.till()
                self.addCleanup(hostile.socket.close)
                hostile.send(ENDLESS)
                tills.wait_for(lambda: len(list(printer.folder.glob('*.bin'))) == 6)
                self.assertLess(printer.end(number), 1)
                lines = printer.log()
                self.assertEqual(lines[0], '000001 printed')
                cut = f'cut off: ended by {signal.Signals(number).name} before it was printed'
                self.assertEqual(sorted(lines[1:]), [f'{n:06} {cut}' for n in range(2, 7)])
                self.whole(printer)
                self.assertEqual((printer.folder / '000003.bin').read_bytes(), b'one line\nand a half')
                self.assertEqual(sorted(it.name for it in printer.folder.glob('*.png')), ['000001.png'])

    def test_killed_by_force_leaves_no_process(self) -> None:
        printer = self.printer()
        printer.sent(b'a\n')
        children = tills.processes(printer.process.pid)
        self.assertTrue(children)
        printer.end(signal.SIGKILL)
        tills.wait_for(lambda: not any(os.path.exists(f'/proc/{it}') for it in children))


def little_room() -> None:
    """As on a full disk: no file may have more than 100,000 bytes."""
    resource.setrlimit(resource.RLIMIT_FSIZE, (100_000, 100_000))


class Kept(tills.WithPrinter):
    def test_a_full_disk(self) -> None:
        """What can't be kept is told, and the next job is printed."""
        printer = self.printer('--at-once', '1', before=little_room)
        with printer.till() as till:
            try:
                till.send(b'a\n' + bytes(300_000))
                till.ends()
            except OSError:
                pass
        # its paper is larger than there is room for
        printer.sent(b'^XA^PW800^LL2000^FO0,0^GB800,2000,9^FS^XZ')
        printer.sent(b'a\n')
        lines = printer.lines(3)
        self.assertRegex(lines[0], r'^000001 cut off: it cannot be kept: File too large; what came is printed$')
        self.assertRegex(lines[1], r'^000002 cannot be kept: File too large$')
        self.assertEqual(lines[2], '000003 printed')
        self.assertFalse((printer.folder / '000002.png').exists())
        printer.end()
        self.whole(printer)

    def test_another_user(self) -> None:
        if os.getuid():
            self.skipTest('who is no other user')

        def nobody() -> None:
            os.setgroups([])
            os.setgid(65534)
            os.setuid(65534)

        with tempfile.TemporaryDirectory() as room:
            os.chmod(room, 0o755)
            with self.assertRaises(AssertionError) as caught:
                self.printer(folder=f'{room}/jobs', before=nobody)
            self.assertIn('Permission denied', str(caught.exception))
            os.chown(room, 65534, 65534)
            printer = self.printer(folder=f'{room}/-odd\n\udcff jobs', before=nobody)
            printer.sent(b'a\n')
            self.assertEqual(printer.lines(1), ['000001 printed'])
            self.assertEqual((printer.folder / '000001.png').stat().st_uid, 65534)
            printer.end()
            self.whole(printer)

    def test_a_command_of_the_user_s(self) -> None:
        prints = 'cat >/dev/null; printf "P4\\n8 1\\n\\377"; echo oops >&2; exit 1'
        for words, line in (['sh', '-c', prints], 'oops'), (['sh', '-c', 'kill -9 $$'], 'sh was ended by SIGKILL'), \
                (['sh', '-c', 'cat'], 'sh printed no images as vp does: it is not what vp prints'):
            with self.subTest(line):
                printer = self.printer(command=words)
                printer.sent(b'a\n')
                self.assertEqual(printer.lines(1), [f'000001 {line}'])
                self.assertEqual((printer.folder / '000001.bin').read_bytes(), b'a\n')
                self.assertEqual((printer.folder / '000001.png').exists(), line == 'oops')
                printer.end()
                self.whole(printer)

    def test_a_command_is_ended(self) -> None:
        printer = self.printer(command=['sh', '-c', 'sleep 60 & wait'])
        with printer.till() as till:
            till.send(b'a\n')
            till.socket.shutdown(socket.SHUT_WR)
            tills.wait_for(lambda: tills.processes(printer.process.pid))
            self.assertLess(printer.end(), 1)
        self.assertEqual(printer.log(), ['000001 cut off: ended by SIGTERM before it was printed'])
        self.whole(printer)

    def test_written_anew(self) -> None:
        printer = self.printer('--expand')
        printer.sent(b'^XA^FO10,10^GB50,50,5,B,8^FS^XZ')
        printer.sent(b'a\n\x1b\x7f\x1bE')
        self.assertEqual(printer.lines(2), ['000001 printed', '000002 vp: F8 after 6 bytes: input ends inside a command'])

    def test_as_it_came(self) -> None:
        told = {(): 'vp: F8 after 6 bytes: input ends inside a command',
                ('--as-it-came',): 'vp: F1 after 4 bytes: unknown command 1B 7F'}
        for words, line in told.items():
            with self.subTest(words):
                printer = self.printer(*words)
                printer.sent(b'^XA^FO10,10^GC50,5,B^FS^XZ')
                printer.sent(b'a\n\x1b\x7f\x1bE')
                self.assertEqual(printer.lines(2), ['000001 printed' if not words else '000001 nothing was printed',
                                                    f'000002 {line}'])
                printer.end()

    def test_files_of_others_stay(self) -> None:
        with tempfile.TemporaryDirectory() as room:
            mine = pathlib.Path(room, '000002.png')
            mine.write_bytes(b'mine')
            pathlib.Path(room, '000001.bin').write_bytes(b'')
            printer = self.printer(folder=room)
            printer.sent(b'a\n')
            printer.end()
            self.assertEqual(mine.read_bytes(), b'mine')
            self.assertRegex(printer.log()[0], '^000002 ')


class Bounds(tills.WithPrinter):
    def test_labels_without_end(self) -> None:
        printer = self.printer(ROWS, '--at-once', '2')
        hostile = [printer.till() for _ in range(12)]
        for till in hostile:
            till.send(ENDLESS)
        begun = time.monotonic()
        for _ in range(5):
            printer.sent(RECEIPT.read_bytes())
        self.assertLess(time.monotonic() - begun, tills.PATIENCE)
        for till in hostile:
            till.ends()
            till.socket.close()
        lines = sorted(printer.lines(17))
        for line in lines[:12]:
            self.assertRegex(line, r'cut off after 46 bytes: it prints more than 2,000 rows; --most-rows raises this$')
        self.assertEqual({it[7:] for it in lines[12:]}, {'printed'})
        self.assertEqual(len(list(printer.folder.glob('000001-*.png'))), 20)
        for process in [printer.process.pid, *tills.processes(printer.process.pid)]:
            self.assertLess(tills.memory(process), 100e6)

    def test_a_process_that_takes_too_long_is_ended(self) -> None:
        """Others go on, whose paper is whole."""
        printer = self.printer('--most-seconds', '4', '--at-once', '2')
        slow = [printer.till() for _ in range(4)]
        stream = RECEIPT.read_bytes()
        for till in slow:
            till.send(stream[:300])
        tills.wait_for(lambda: len(list(printer.folder.glob('*.bin'))) == 4)
        with printer.till() as hostile:
            hostile.send(SLOW)
            hostile.ends()
        for till in slow:
            till.send(stream[300:])
            till.ends()
            till.socket.close()
        lines = sorted(printer.lines(5))
        cut = r'^000005 cut off after 5,026 bytes: it takes more than 4 s; --most-seconds raises this$'
        self.assertRegex(lines[4], cut)
        self.assertEqual([it[7:] for it in lines[:4]], ['printed'] * 4)
        papers = {(printer.folder / f'{n:06}.png').read_bytes() for n in range(1, 5)}
        printer.sent(stream)
        self.assertEqual(papers, {(printer.folder / '000006.png').read_bytes()})

    def test_bytes(self) -> None:
        printer = self.printer('--most-bytes', '100000')
        with printer.till() as till:
            try:
                till.send(b'a\n' * 100000)
                till.ends()
            except OSError:
                pass
        self.assertRegex(printer.lines(1)[0], 'cut off: it sends more than 100,000 bytes; --most-bytes raises this; ')

    def test_many_at_once(self) -> None:
        printer = self.printer()
        stream = LABEL.read_bytes()
        open_tills = [printer.till() for _ in range(200)]
        for till in open_tills:
            till.send(stream[:len(stream) // 2])
        for till in open_tills:
            till.send(stream[len(stream) // 2:])
            till.socket.shutdown(socket.SHUT_WR)
        for till in open_tills:
            self.assertEqual(till.answer(1), b'')
            till.socket.close()
        self.assertEqual({it[7:] for it in printer.lines(200)}, {'printed'})
        self.assertEqual(len({it.read_bytes() for it in printer.folder.glob('*.png')}), 1)
        self.assertEqual(len(list(printer.folder.glob('*.png'))), 200)
        own = [printer.process.pid, *tills.processes(printer.process.pid)]
        self.assertLess(sum(map(tills.memory, own)), 200e6)

    def test_a_small_job_takes_little(self) -> None:
        printer = self.printer('--at-once', '1')
        stream = RECEIPT.read_bytes()
        printer.sent(stream)
        own = [printer.process.pid, *tills.processes(printer.process.pid)]
        before = sum(map(tills.processor, own))
        for _ in range(40):
            printer.sent(stream)
        self.assertLess((sum(map(tills.processor, own)) - before) / 40, .05)


if __name__ == '__main__':
    unittest.main()
