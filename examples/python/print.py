#!/usr/bin/env python3
"""print.py receipt|label NAME < STREAM: prints a stream as it comes, each strip or label as NAME-1.png, NAME-2.png
and so on. The package vp has to be installed, or be on the path: PYTHONPATH=python examples/python/print.py .."""
import sys

import vp

PRINTERS = {'receipt': vp.Receipt, 'label': vp.Label}


def main():
    if len(sys.argv) != 3 or sys.argv[1] not in PRINTERS:
        print('usage: print.py receipt|label NAME < STREAM', file=sys.stderr)
        return 2
    count = 0
    with PRINTERS[sys.argv[1]]().start() as printer:
        for part in iter(lambda: sys.stdin.buffer.read1(4096), b''):
            for image in printer.feed(part):
                count += 1
                with open(f'{sys.argv[2]}-{count}.png', 'wb') as file:
                    file.write(image.png(dpmm=8))
        fault = printer.finish()
    if fault:
        print(fault, file=sys.stderr)
    return 1 if fault else 0


if __name__ == '__main__':
    sys.exit(main())
