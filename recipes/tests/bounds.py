#!/usr/bin/env python3
"""Bounds of a print: what is cut where, what is said of it, how the words are read, and that no child is left."""
import argparse
import os
import pathlib
import resource
import signal
import subprocess
import sys
import tempfile
import time
import unittest
from typing import Any, List, Tuple

sys.dont_write_bytecode = True
ROOT = pathlib.Path(__file__).resolve().parent.parent.parent
sys.path.insert(0, str(ROOT / 'recipes'))
from vp_recipes import bounds  # noqa: E402
from vp_recipes.program import Fault, find_vp  # noqa: E402

IMAGE = b'P4\n9 2\n\1\2\3\4'
COPIES = b'^XA^PW100^LL100^PQ99999999^FO0,0^GB10,10^FS^XZ'
# A script that says the pid of what it runs, which doesn't end.
SCRIPT = [sys.executable, '-c', 'import os, sys\nsys.path.insert(0, sys.argv[1])\n'
          'from vp_recipes import bounds, program\nprogram.begins()\n'
          'with bounds.Run(["sh", "-c", "echo $$ >&3; exec 3>&-; sleep 99", "3>&2"], 0) as run:\n'
          '    print(run.process.pid, flush=True)\n    list(run)', str(ROOT / 'recipes')]


def run(command: List[str], data: bytes = b'', is_paper: bool = True, **own: Any) -> Tuple[bytes, bounds.Run]:
    """What a command prints of a stream within bounds."""
    with tempfile.TemporaryFile() as stream:
        stream.write(data)
        stream.seek(0)
        with bounds.Run(command, stream, bounds.DEFAULT._replace(**own), is_paper) as ran:
            return b''.join(ran), ran


def has_word(word: str) -> bool:
    """Whether a process has this last word."""
    for it in pathlib.Path('/proc').glob('[0-9]*/cmdline'):
        try:
            if it.read_bytes().endswith(f'\0{word}\0'.encode()):
                return True
        except OSError:
            pass
    return False


class TestCutter(unittest.TestCase):
    def test_whole_images_whatever_the_parts(self) -> None:
        for size in range(1, 30):
            cutter, data = bounds.Cutter(), 5 * IMAGE
            parts = [cutter.add(data[at:at + size]) for at in range(0, len(data), size)]
            self.assertEqual((b''.join(parts), cutter.rows, cutter.images), (data, 10, 5))
            self.assertTrue(all(len(it) % len(IMAGE) == 0 for it in parts))

    def test_bounds_are_reached_behind_whole_images(self) -> None:
        for bound, most, count in ('rows', 5, 2), ('rows', 6, 3), ('images', 4, 4), ('bytes', 40, 3):
            cutter = bounds.Cutter(bounds.DEFAULT._replace(**{bound: most}))
            self.assertEqual(cutter.add(9 * IMAGE), count * IMAGE)
            self.assertEqual((cutter.reached, cutter.add(IMAGE), cutter.end()), (bound, b'', b''))

    def test_what_is_cut_short_or_no_image_is_given_on(self) -> None:
        cutter = bounds.Cutter()
        self.assertEqual((cutter.add(IMAGE + IMAGE[:-1]), cutter.end()), (IMAGE, IMAGE[:-1]))
        cutter = bounds.Cutter(bounds.DEFAULT._replace(bytes=100))
        self.assertEqual(b''.join([cutter.add(b'these are lines and no image\n'), cutter.end()])[:5], b'these')

    def test_lines(self) -> None:
        cutter = bounds.Cutter(bounds.DEFAULT._replace(bytes=10), is_paper=False)
        found = cutter.add(b'one\ntw'), cutter.add(b'o\nthree'), cutter.reached
        self.assertEqual(found, (b'one\n', b'two\n', 'bytes'))


class TestRun(unittest.TestCase):
    def test_copies_without_end(self) -> None:
        out, ran = run([*find_vp(), 'label'], COPIES, rows=1000)
        self.assertEqual(out.count(b'P4\n100 100\n'), 10)
        self.assertEqual(str(ran.reached), f'cut off after {len(COPIES)} bytes: it prints more than 1,000 rows; '
                                           '--most-rows raises this')

    def test_a_day_of_a_till_is_whole(self) -> None:
        out, ran = run([sys.executable, '-c', 'import sys\nfor _ in range(30000): sys.stdout.buffer.write('
                        'b"P4\\n576 34\\n" + bytes(72 * 34))'])
        self.assertEqual((ran.reached, ran.status, len(out)), (None, 0, 30000 * (72 * 34 + 10)))

    def test_status_and_what_is_said(self) -> None:
        out, ran = run(['sh', '-c', 'cat; echo no >&2; exit 3'], IMAGE)
        self.assertEqual((out, ran.status, ran.said, ran.reached), (IMAGE, 3, b'no\n', None))

    def test_time_ends_a_command_and_its_children(self) -> None:
        long = f'{100 + os.getpid()}.7'
        for words in 'printf "P4\\n8 1\\nx"; sleep $1 & wait', 'exec >&-; sleep $1', 'yes; sleep $1':
            start = time.monotonic()
            out, ran = run(['sh', '-c', words, 'sh', long], seconds=.3, bytes=None)
            self.assertLess(time.monotonic() - start, 5)
            self.assertEqual(ran.reached and ran.reached.bound, 'seconds')
            while has_word(long) and time.monotonic() < start + 9:
                time.sleep(.05)
            self.assertFalse(has_word(long))

    def test_memory(self) -> None:
        start = resource.getrusage(resource.RUSAGE_SELF).ru_maxrss
        with bounds.Run([*find_vp(), 'label'], os.open(os.devnull, os.O_RDONLY)) as ran:
            self.assertEqual(list(ran), [])
        with tempfile.TemporaryFile() as stream:
            stream.write(COPIES)
            stream.seek(0)
            with bounds.Run([*find_vp(), 'label'], stream) as ran:
                self.assertEqual(sum(map(len, ran)), 25000 * (13 * 100 + 11))
        self.assertLess(resource.getrusage(resource.RUSAGE_SELF).ru_maxrss - start, 50000)

    def test_a_program_that_is_none(self) -> None:
        with self.assertRaises(Fault):
            run(['/none'])

    def test_a_script_within_a_script_leaves_no_child(self) -> None:
        start = time.monotonic()
        out, ran = run(SCRIPT, is_paper=False, seconds=2)
        self.assertEqual(ran.reached and ran.reached.bound, 'seconds')
        self.assertLess(time.monotonic() - start, 5)
        self.assertFalse(os.path.exists(f'/proc/{int(out)}'))

    def test_a_script_that_is_ended_leaves_no_child(self) -> None:
        for number in signal.SIGTERM, signal.SIGHUP, signal.SIGINT:
            with subprocess.Popen(SCRIPT, stdin=subprocess.DEVNULL, stdout=subprocess.PIPE,
                                  stderr=subprocess.DEVNULL) as it:
                assert it.stdout
                child, start = int(it.stdout.readline()), time.monotonic()
                it.send_signal(number)
                it.wait()
                self.assertLess(time.monotonic() - start, 2)
                self.assertFalse(os.path.exists(f'/proc/{child}'))


class TestWords(unittest.TestCase):
    def test_a_parser_takes_them(self) -> None:
        parser = argparse.ArgumentParser()
        bounds.add_words(parser)
        given = parser.parse_args(['--most-rows', '7', '--most-seconds', '.5', '--most-bytes=none'])
        self.assertEqual(bounds.of(given), bounds.DEFAULT._replace(rows=7, seconds=.5, bytes=None))

    def test_words_by_hand_and_back(self) -> None:
        own, rest = bounds.taken(['--most-images=9', '--most-bytes', 'none', '--lang', 'x', '--most-rows', '1'])
        self.assertEqual(own, bounds.DEFAULT._replace(images=9, bytes=None))
        self.assertEqual(rest, ['--lang', 'x', '--most-rows', '1'])
        self.assertEqual(bounds.taken(bounds.words(own))[0], own)
        self.assertEqual(bounds.words(bounds.DEFAULT), [])

    def test_wrong_words(self) -> None:
        for words in ['--most-x', '1'], ['--most-rows'], ['--most-rows', '0'], ['--most-rows', '1.5'], \
                ['--most-seconds', '-1'], ['--most-seconds', 'nan'], ['--most-bytes', '²']:
            with self.assertRaises(Fault) as raised:
                bounds.taken(words)
            self.assertEqual(raised.exception.status, 2)


if __name__ == '__main__':
    unittest.main()
