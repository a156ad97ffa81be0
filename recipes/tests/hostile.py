#!/usr/bin/env python3
"""Streams that go on and on, through every script: each ends in its bounds, within 300 MB, keeps what was printed,
leaves no child and nothing half done; on a full disk, as another user, 24 at once, and where a signal ends it.

SECONDS is how long one may take, on a machine that has other work (180)."""
import os
import pathlib
import resource
import shutil
import signal
import subprocess
import sys
import tempfile
import time
import unittest
from typing import Any, Dict, List, NamedTuple, Optional, Sequence

sys.dont_write_bytecode = True
ROOT = pathlib.Path(__file__).resolve().parent.parent.parent
RECIPES = ROOT / 'recipes'
VP = os.environ.get('VP') or subprocess.run([str(ROOT / 'tools/dist/program')], stdout=subprocess.PIPE, check=True,
                                            text=True).stdout.rstrip('\n')
SECONDS = float(os.environ.get('SECONDS') or 180)
MOST_MEMORY = 300 << 20
COPIES = b'^XA^PW100^LL100^PQ99999999^FO0,0^GB10,10^FS^XZ'
# a copy that takes a tenth of a second, and is twelve bytes of paper
SLOW = b'^XA^PW1^LL1^PQ99999^POI^FT0,1^GFA,,99999999,1,F0' + 262000 * b':' + b'^FS^XZ'
RECALLS = (b'^XA^DFR:A^FS' + 300 * b'^FO1,1^A0N,30,30^FN1^FS' + b'^XZ'
           + 100 * b'^XA^XFR:A^FN1^FDmany^FS^PQ99999^XZ')
STREAMS = {'copies.zpl': COPIES, 'slow.zpl': SLOW, 'recalls.zpl': RECALLS, 'feeds.bin': b'\x1bd\xff' * 100_000,
           'line.bin': b'A' * 1_000_000, 'endings.bin': b'\x1b\x7f' * 500}
TIGHT = ['--most-rows=20000', '--most-seconds=2']
ENVIRONMENT = {**{name: value for name, value in os.environ.items() if name != 'CI'}, 'VP': VP,
               'PYTHONDONTWRITEBYTECODE': '1', 'JOBS': '2'}


class Ended(NamedTuple):
    """What a script ended with: its status, what it said, its memory in bytes, its seconds, its words."""

    status: int
    said: str
    memory: int
    seconds: float
    words: Sequence[str]


class Script:
    """A script that runs."""

    def __init__(self, words: Sequence[str], stream: Optional[pathlib.Path] = None, **options: Any) -> None:
        self.words, self.start = words, time.monotonic()
        self.said = tempfile.TemporaryFile()
        with open(stream or os.devnull, 'rb') as file:
            self.process = subprocess.Popen([str(RECIPES / words[0]), *words[1:]], stdin=file,
                                            stdout=subprocess.DEVNULL, stderr=self.said, env=ENVIRONMENT, **options)

    def end(self) -> Ended:
        """Waits for its end."""
        while True:
            pid, status, used = os.wait4(self.process.pid, os.WNOHANG)
            took = time.monotonic() - self.start
            if pid:
                break
            if took > SECONDS:
                self.process.kill()
            time.sleep(.02)
        self.process.returncode = os.waitstatus_to_exitcode(status)
        with self.said:
            self.said.seek(0)
            return Ended(self.process.returncode, self.said.read().decode(), used.ru_maxrss << 10, took, self.words)


def run(*words: str, stream: Optional[pathlib.Path] = None, **options: Any) -> Ended:
    return Script(words, stream, **options).end()


class Hostile(unittest.TestCase):
    room: pathlib.Path
    streams: Dict[str, pathlib.Path]

    @classmethod
    def setUpClass(cls) -> None:
        folder = tempfile.TemporaryDirectory()
        cls.addClassCleanup(folder.cleanup)
        cls.room = pathlib.Path(folder.name)
        cls.room.chmod(0o755)
        (cls.room / 'streams').mkdir()
        cls.streams = {name: cls.room / 'streams' / name for name in STREAMS}
        for name, data in STREAMS.items():
            cls.streams[name].write_bytes(data)

    def tearDown(self) -> None:
        left = [str(it) for it in self.room.rglob('.vp-*') if it.name not in ('.vp-made', '.vp-many', '.vp-bad')]
        self.assertEqual(left, [], 'something half done stays')

    def is_fine(self, it: Ended, *statuses: int) -> None:
        self.assertIn(it.status, statuses, it)
        self.assertLess(it.memory, MOST_MEMORY, it)
        self.assertLess(it.seconds, SECONDS, it)
        self.assertNotIn('Traceback', it.said)

    def test_print_and_text_and_past(self) -> None:
        for name, file in self.streams.items():
            for words in ['print', *TIGHT], ['print', '--expand', *TIGHT]:
                it = run(*words, stream=file)
                self.is_fine(it, 0, 1)
                if name in ('copies.zpl', 'slow.zpl', 'feeds.bin'):
                    self.assertRegex(it.said, r'(?m)^cut off after [\d,]+ bytes: it (prints|takes) more than ')
            self.is_fine(run('text', str(file)), 0, 1)
            if name.endswith('.bin'):
                self.is_fine(run('past', *TIGHT, stream=file), 0, 1)

    def test_default_bounds(self) -> None:
        it = run('print', stream=self.streams['copies.zpl'])
        self.is_fine(it, 1)
        self.assertEqual(it.said, f'cut off after {len(COPIES)} bytes: it prints more than 2,500,000 rows; '
                                  '--most-rows raises this\n')
        self.is_fine(run('golden', 'accept', str(self.room / 'streams'), str(self.room / 'own'), 'copies.zpl'), 0)
        self.assertEqual((self.room / 'own/copies.zpl.anew').read_text(),
                         'byte 15: of 99,999,999 copies 100 are kept\n')

    def test_golden(self) -> None:
        folders = [str(self.room / it) for it in ('streams', 'golds')]
        for what in ['accept', '--incomplete'], ['check', '--report', f'{self.room}/report']:
            self.is_fine(run('golden', what[0], *folders, *what[1:], *TIGHT), 0, 1)
        own = 'line.bin', '--as-it-came', '--report', f'{self.room}/report'
        self.is_fine(run('golden', 'check', *folders, *own, *TIGHT), 0)
        self.assertIn('rows', (self.room / 'golds/feeds.bin.fault').read_text())

    def test_many_and_paper(self) -> None:
        for words in [], ['--sums', '--expand']:
            it = run('many', *TIGHT, *words, str(self.room / 'streams'), str(self.room / 'out'))
            self.is_fine(it, 1)
            self.assertIn('copies.zpl: cut off after', (self.room / 'out/faults.txt').read_text())
        for end in 'png', 'pdf':
            with subprocess.Popen([VP, 'label', str(self.streams['copies.zpl'])], stdout=subprocess.PIPE,
                                  stderr=subprocess.DEVNULL) as vp:
                assert vp.stdout
                paper = pathlib.Path(f'/dev/fd/{vp.stdout.fileno()}')
                it = run('paper', *TIGHT[:1], f'{self.room}/copies.{end}', stream=paper)
                vp.kill()
            self.is_fine(it, 1)
            self.assertTrue((self.room / f'copies.{end}').exists())

    def test_jobs_24_at_once(self) -> None:
        jobs = [Script(['job', *TIGHT, *words, str(self.room / 'jobs')], file)
                for words in ([], ['--expand']) for _ in range(2) for file in self.streams.values()]
        for it in jobs:
            self.is_fine(it.end(), 0, 1)
        log = (self.room / 'jobs/log').read_text().splitlines()
        self.assertEqual(len(log), len(jobs))
        self.assertGreaterEqual(sum('cut off after' in it for it in log), 8, log)

    def test_a_stream_without_end(self) -> None:
        with open(self.room / 'zeros', 'wb') as file:
            file.truncate(3 << 30)
        for words in ['print', '--most-seconds=5'], ['job', '--most-bytes=1000000', f'{self.room}/zeros-jobs'], \
                ['text', '--most-seconds=2'], ['past'], ['print', '--expand']:
            self.is_fine(run(*words, stream=self.room / 'zeros'), 0, 1, 3)
        self.assertEqual((self.room / 'zeros-jobs/000001.bin').stat().st_size, 1000000)
        self.assertIn('cut off: the stream has more than 1,000,000 bytes', (self.room / 'zeros-jobs/log').read_text())

    def test_signals(self) -> None:
        one = self.room / 'one'
        one.mkdir()
        (one / 'a.bin').write_bytes(b'A\n')
        hang = ['sh', '-c', f'[ -s /dev/stdin ] && exec sleep {300 + os.getpid()}']
        ways = [['golden', 'accept', str(one), f'{self.room}/signals', '--', *hang],
                ['many', str(one), f'{self.room}/signals-out', *hang], ['job', f'{self.room}/signals-jobs', *hang],
                ['past', *hang], ['print', '--expand', *hang], ['golden', 'check', str(one), str(one), '--', *hang]]
        for number in signal.SIGTERM, signal.SIGHUP, signal.SIGINT:
            scripts = [Script(words, one / 'a.bin') for words in ways]
            self.wait(lambda: len(sleeping()) >= len(ways), 'not all print')
            for it in scripts:
                it.process.send_signal(number)
            start = time.monotonic()
            for it in scripts:
                self.assertNotIn(it.end().status, (0, 1), it.words)
            self.assertLess(time.monotonic() - start, 5)
            self.wait(lambda: not sleeping(), 'a child stays')
        self.assertEqual((self.room / 'signals-jobs/log').read_text().splitlines(),
                         [f'00000{n} ended by {name} before it was printed'
                          for n, name in enumerate(('SIGTERM', 'SIGHUP', 'SIGINT'), 1)])

    def wait(self, is_so: Any, what: str) -> None:
        for _ in range(400):
            if is_so():
                return
            time.sleep(.05)
        self.fail(what)

    def test_another_user(self) -> None:
        if os.getuid() or not shutil.which('setpriv'):
            self.skipTest('another user takes root and setpriv')
        own = self.room / 'theirs'
        own.mkdir()
        os.chown(own, 65534, 65534)
        become = ['setpriv', '--reuid', '65534', '--regid', '65534', '--clear-groups']
        if subprocess.run([*become, 'test', '-x', str(RECIPES / 'job')], check=False).returncode:
            self.skipTest('this clone is closed to others')
        for words in ['job', *TIGHT, 'jobs'], ['golden', 'accept', str(self.room / 'streams'), 'golds', 'copies.zpl']:
            with open(self.streams['copies.zpl'], 'rb') as file:
                ran = subprocess.run([*become, str(RECIPES / words[0]), *words[1:]], cwd=own, stdin=file, check=False,
                                     stdout=subprocess.DEVNULL, stderr=subprocess.PIPE, env=ENVIRONMENT)
            self.assertIn(ran.returncode, (0, 1), ran.stderr)

    def test_a_full_disk(self) -> None:
        disk = self.room / 'disk'
        disk.mkdir()
        apart = next((it for it in (['unshare', '-m'], ['unshare', '-rm']) if not subprocess.run(
            [*it, 'mount', '-t', 'tmpfs', 'none', str(disk)], stderr=subprocess.DEVNULL, check=False).returncode), None)
        if not apart:
            self.skipTest('nothing may be mounted here')
        words = f'''mount -t tmpfs -o size=256k none {disk} && cd {disk} || exit 9
            {RECIPES}/job {' '.join(TIGHT)} jobs <{self.streams['line.bin']}; one=$?
            {RECIPES}/golden accept --incomplete {self.room}/streams golds line.bin {' '.join(TIGHT)}; two=$?
            {RECIPES}/many {' '.join(TIGHT)} {self.room}/streams out; three=$?
            {VP} receipt {self.streams['line.bin']} | {RECIPES}/paper --most-rows 90000 line.pdf; four=$?
            find . -name '.vp-*' ! -name .vp-many ! -name .vp-made; echo $one $two $three $four'''
        ran = subprocess.run([*apart, 'sh', '-c', words], env={**ENVIRONMENT, 'TMPDIR': str(disk)}, check=False,
                             stdout=subprocess.PIPE, stderr=subprocess.PIPE, text=True)
        self.assertNotIn('Traceback', ran.stderr)
        self.assertRegex(ran.stdout.splitlines()[-1], '^[23] [23] [123] [0123]$', ran.stderr)
        self.assertEqual([it for it in ran.stdout.splitlines() if it.startswith('./.vp')], [])


def sleeping() -> List[str]:
    """The processes that the commands of this test's sleep in."""
    word, found = f'sleep\0{300 + os.getpid()}\0'.encode(), []
    for it in pathlib.Path('/proc').glob('[0-9]*/cmdline'):
        try:
            if it.read_bytes() == word:
                found.append(str(it))
        except OSError:
            pass
    return found


if __name__ == '__main__':
    resource.setrlimit(resource.RLIMIT_CORE, (0, 0))
    unittest.main()
