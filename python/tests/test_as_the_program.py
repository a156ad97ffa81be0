"""What is printed and listed is what the program prints and lists, byte for byte, however the stream is cut."""
import os
import random
import sys
import unittest

from common import EXAMPLES, ROOT, SHEETS, line, program

import vp

sys.path.append(str(ROOT / 'checks'))
import streams  # noqa: E402

COUNT = int(os.environ.get('COUNT', '300'))
LANGUAGES = {'receipt': vp.Receipt(), 'label': vp.Label()}
# What is no command of the profile: a family that is read by its count, and what no printer has.
UNKNOWN = b'A\x1c(A\x02\0\n\n\n\x1b\x7fB\n'
# Symbols that the whole language of labels adds.
ADDED = b'^XA^PW400^LL99^FO9,9^B2N,20^FD1234^FS^FO9,60^BUN,9,N^FD01234567890^FS^XZ'


def random_streams(draw, language):
    """COUNT streams of a language, half of them changed somewhere."""
    for maker in streams.receipts, streams.labels:
        maker.CHOICE.seed(2)
    for _ in range(COUNT):
        data = getattr(streams, language)(draw)
        yield data if draw.random() < 0.5 else streams.changed(draw, data)


def cut(draw, data):
    """The data in pieces of random lengths, some of them empty."""
    at = 0
    while at < len(data):
        count = draw.choice((0, 1, 2, draw.randrange(1, 200), len(data)))
        yield data[at:at + count]
        at += count


class AsTheProgram(unittest.TestCase):
    def same(self, stream, language, draw):
        """Whole and in pieces a stream prints as by the program."""
        paper, said = program(stream, language, *SHEETS[language])
        printers = LANGUAGES[language]
        whole = printers.print(stream)
        self.assertEqual((whole.pbm(), line(whole.fault)), (paper, said), stream)
        with printers.start() as printer:
            images = [image for part in cut(draw, stream) for image in printer.feed(part)]
            rest = printer.unfinished
            self.assertEqual(line(printer.finish()), said, stream)
        self.assertEqual(images, list(whole), stream)
        self.assertEqual(rest, whole.unfinished, stream)
        self.assertEqual(b''.join(it.pbm() for it in images) + rest, paper, stream)

    def same_listing(self, stream, language, offsets):
        text, said = program(stream, 'list', '--lang', language, *(['--offsets'] if offsets else []))
        found = vp.list(stream, language, offsets=offsets)
        self.assertEqual((found.text().encode('latin-1'), line(found.fault)), (text, said), stream)
        self.assertEqual(''.join(f'{it}\n' for it in found), found.text())

    def test_examples(self):
        draw = random.Random(1)
        for file in sorted(EXAMPLES.iterdir()):
            if file.suffix in ('.bin', '.zpl'):
                language = 'label' if file.suffix == '.zpl' else 'receipt'
                self.same(file.read_bytes(), language, draw)
                for offsets in False, True:
                    self.same_listing(file.read_bytes(), language, offsets)

    def test_random_streams(self):
        faults = set()
        for language, printers in LANGUAGES.items():
            draw = random.Random(2)
            for nth, stream in enumerate(random_streams(draw, language)):
                self.same(stream, language, draw)
                self.same_listing(stream, language, nth % 2 == 0)
                faults.add((language, printers.print(stream).fault is None))
        self.assertTrue(COUNT < 20 or len(faults) == 4, 'streams with and without a fault are tried in each language')

    def test_papers_and_sheets(self):
        receipt, label = (EXAMPLES / 'receipt.bin').read_bytes(), (EXAMPLES / 'shelf.zpl').read_bytes()
        font_a, font_b = SHEETS['receipt'][1], SHEETS['receipt'][3]
        with open(font_a, 'rb') as file:
            data = file.read()
        tried = [
            (vp.Receipt(width=384), receipt, ['receipt', '--width', '384', *SHEETS['receipt']]),
            (vp.Receipt(None, None), receipt, ['receipt']),
            (vp.Receipt(whole=True), receipt, ['receipt', '--whole', *SHEETS['receipt']]),
            (vp.Receipt(whole=True), UNKNOWN, ['receipt', '--whole', *SHEETS['receipt']]),
            (vp.Receipt(width=384, whole=True), UNKNOWN, ['receipt', '--whole', '--width', '384', *SHEETS['receipt']]),
            (vp.Label(whole=True), ADDED, ['label', '--whole', *SHEETS['label']]),
            (vp.Label(), ADDED, ['label', *SHEETS['label']]),
            (vp.Receipt(font_a=data), receipt, ['receipt', '--font-a', font_a]),
            (vp.Receipt(font_b=font_b), receipt, ['receipt', '--font-b', font_b]),
            (vp.Receipt(font_a, font_b), receipt, ['receipt', *SHEETS['receipt']]),
            (vp.Label(None), label, ['label']),
            (vp.Label(data), label, ['label', *SHEETS['label']]),
        ]
        for printers, stream, words in tried:
            self.assertEqual(printers.print(stream).pbm(), program(stream, *words)[0], words)

    def test_any_bytes(self):
        stream = (EXAMPLES / 'receipt.bin').read_bytes()
        whole = LANGUAGES['receipt'].print(stream)
        for other in bytearray(stream), memoryview(stream), memoryview(bytes(2 * len(stream)))[::2]:
            self.assertEqual(LANGUAGES['receipt'].print(other) == whole, bytes(other) == stream)


if __name__ == '__main__':
    unittest.main()
