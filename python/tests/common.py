"""What the tests stand on: the package, the program beside it, sheets and examples."""
import os
import pathlib
import subprocess
import sys

ROOT = pathlib.Path(__file__).resolve().parents[2]
if not os.environ.get('VP_INSTALLED'):
    sys.path.insert(0, str(ROOT / 'python'))
EXAMPLES = ROOT / 'examples'
FONT_A, FONT_B = EXAMPLES / 'font-a.pbm', EXAMPLES / 'font-b.pbm'
# The program, by VP or a clone's.
PROGRAM = os.environ.get('VP') or subprocess.run([str(ROOT / 'tools/dist/program')], stdout=subprocess.PIPE, check=True,
                                                 text=True).stdout.rstrip('\n')
# What a process of the package's is run with.
ENVIRONMENT = {**os.environ, 'PYTHONPATH': os.pathsep.join(filter(None, [*sys.path[:1], os.environ.get('PYTHONPATH')]))}
SHEETS = {'receipt': ['--font-a', str(FONT_A), '--font-b', str(FONT_B)], 'label': ['--font-a', str(FONT_A)]}


def program(stream, *words):
    """What the program prints of a stream, and its line, '' where there is none."""
    ran = subprocess.run([PROGRAM, *words], input=stream, stdout=subprocess.PIPE, stderr=subprocess.PIPE)
    return ran.stdout, text_of(ran.stderr)


def text_of(said):
    return said.decode('utf-8', 'surrogateescape').rstrip('\n')


def line(fault):
    return str(fault) if fault else ''
