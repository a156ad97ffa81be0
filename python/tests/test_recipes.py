"""What recipes do in process is what the program does: output, line and status."""
import os
import shutil
import subprocess
import sys
import tempfile
import unittest

from common import EXAMPLES, FONT_A, FONT_B, ROOT, text_of

sys.path.insert(0, str(ROOT / 'recipes'))
from vp_recipes import in_process  # noqa: E402

PROGRAM = str(ROOT / 'dist/vp')
A, B = str(FONT_A), str(FONT_B)
DONE = [
    ['receipt'], ['receipt', '--font-a', A, '--font-b', B], ['receipt', '--width', '384', f'--font-a={A}'],
    ['label'], ['label', '--font-a', A], ['list', '--lang', 'receipt'], ['list', '--lang=receipt', '--offsets'],
    ['list', '--offsets', '--lang', 'label'], ['receipt', '--font-a', A, '--font-b', __file__],
    ['receipt', '--whole', '--width', '384'], ['list', '--whole', '--lang', 'receipt'], ['list', '--lang=label', '--whole'],
    ['label', '--whole', '--font-a', A],
]
NOT_DONE = [
    [], ['join'], ['--version'], ['list'], ['list', '--lang', 'epl'], ['receipt', '--width', '80'], ['receipt', A],
    ['label', '--font-a', '/missing'], ['receipt', '--font-a', '/'], ['receipt', '--font-b', '/dev/stdin'],
    ['receipt', '--font-a'], ['receipt', '--font-a', A, '--font-a', A], ['label', '--font-b', B],
    ['label', '--offsets'],
]


@unittest.skipUnless(in_process.package([PROGRAM, 'label']), 'no library beside the program')
class InProcess(unittest.TestCase):
    def test_what_is_done(self):
        streams = [(EXAMPLES / name).read_bytes() for name in ('receipt.bin', 'ticket.bin', 'shelf.zpl')]
        for stream in [*streams, b'', b'\x1b\x7f', b'^XA^FDx', b'A\n\x1b']:
            for words in DONE:
                ran = subprocess.run([PROGRAM, *words], input=stream, stdout=subprocess.PIPE, stderr=subprocess.PIPE)
                found = in_process.done([PROGRAM, *words], stream)
                self.assertEqual(found and found[:3], (ran.stdout, text_of(ran.stderr), ran.returncode), words)

    def test_what_a_process_has_to_tell(self):
        for words in NOT_DONE:
            self.assertIsNone(in_process.done([PROGRAM, *words], b''), words)
        self.assertIsNone(in_process.done([str(ROOT / 'vp'), 'label'], b''), 'another program')
        copies, bounds = b'^XA^GB8,8^FS^PQ99999999^XZ', in_process.Bounds()
        self.assertIsNone(in_process.done([PROGRAM, 'label'], copies, bounds), 'more than is held')
        made = in_process.done([PROGRAM, 'label'], copies, bounds._replace(images=3))
        self.assertEqual((made.reached.bound, made.out.count(b'P4\n'), made.status), ('images', 3, 1))

    def test_a_sheet_that_changes(self):
        with tempfile.TemporaryDirectory() as folder:
            sheet, words = f'{folder}/sheet', [PROGRAM, 'receipt', '--font-a', f'{folder}/sheet']
            shutil.copy(A, sheet)
            text = in_process.done(words, b'A\n')
            with open(sheet, 'r+b') as file:
                file.write(b'P4\n192 384\n' + bytes(9216))
            white = in_process.done(words, b'A\n')
            self.assertEqual((white[0].count(0xff), text[0] != white[0]), (0, True))

    def test_the_environment_says_no(self):
        os.environ['VP_IN_PROCESS'] = 'no'
        try:
            self.assertIsNone(in_process.done([PROGRAM, 'label'], b''))
        finally:
            del os.environ['VP_IN_PROCESS']


if __name__ == '__main__':
    unittest.main()
