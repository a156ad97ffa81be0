#!/usr/bin/env python3
"""Whether streams of tills and shops print, written anew, as they were looked at: printed.py VP FOLDER [accept]

The sums of their images stand in sums.txt beside this, with the zint that made their symbols; with another one only
those without its symbols are compared. Their symbols are read back where there are readers. `accept` writes the sums
anew: look at the pictures, which are in FOLDER.
"""
import concurrent.futures
import hashlib
import io
import os
import pathlib
import shlex
import shutil
import subprocess
import sys
HERE = pathlib.Path(__file__).resolve().parent
sys.path[:0] = [str(HERE.parent.parent), str(HERE)]
sys.dont_write_bytecode = True
import readback  # noqa: E402
import streams  # noqa: E402
from vp_recipes.expand import Options, command, expanded, zint  # noqa: E402
from vp_recipes.drawing import sheet  # noqa: E402
from vp_recipes.images import images  # noqa: E402
from vp_recipes.sheets import CELLS, shipped  # noqa: E402

SUMS = HERE / 'sums.txt'
# What couldn't be written of these is told.
TOLD = {'words-by-table.bin'}


def options(words, folder, language):
    found = dict(zip(words[::2], words[1::2])) if '--nearest' not in words else {}
    sheets = shipped(language)
    if '--font-a' in found:
        sheets = ['--font-a', str(folder / found['--font-a'])]
    return Options(found.get('--table', 'cp858'), found.get('--from'), None,
                   command.moment(found['--now']) if '--now' in found else None, '--nearest' in words, False, tuple(sheets))


def printed(vp, name):
    """The sum of what is printed of a stream, and whether a symbol of zint's is in it."""
    language = 'receipt' if name.suffix == '.bin' else 'label'
    chosen = options(shlex.split(name.with_suffix('.words').read_text()), name.parent, language)
    data = name.read_bytes()
    found = expanded(data, language, chosen)
    done = all(it.is_done for it in found.remarks)
    assert done != (name.name in TOLD), f'{name.name}: {found.remarks}'
    ran = subprocess.run([vp, language, '--whole', *chosen.sheet], input=found.data, stdout=subprocess.PIPE, stderr=subprocess.PIPE)
    assert ran.returncode == 0, f'{name.name}: {ran.stderr}'
    if chosen == Options(sheet=chosen.sheet):
        again = expanded(found.data, language, chosen)
        assert again.data == found.data and not again.remarks, f'{name.name} is written anew twice: {again.remarks}'
    rows, width = [], 0
    for width, _, each in images(io.BytesIO(ran.stdout)):
        rows += list(each)
    picture = str(name.with_suffix('.png'))
    readback.write(picture, width, rows)
    wanted = name.with_suffix('.read').read_text().splitlines()
    tools = [it for it in 'xzd' if shutil.which(readback.TOOLS[it])]
    if wanted and len(tools) == 3 and zint.program():
        said = ''.join(readback.plain(readback.read(it, picture)) for it in tools)
        missing = [it for it in wanted if it not in said]
        # a reader may look at the middle of a picture alone
        for it in missing:
            part = picture.replace('.png', '-part.png')
            found_rows, found_width = readback.alone(rows)
            middle = [n for n, row in enumerate(found_rows) if any(row)]
            readback.write(part, found_width, [found_rows[n] for n in middle])
            assert it in readback.plain(readback.read('x', part)), f'{name.name}: {it!r} is not read: {said}'
    return hashlib.sha256(ran.stdout).hexdigest(), any('written as a picture' in it.text and ': ' in it.text for it in found.remarks)


def version():
    ran = subprocess.run([zint.program(), '--version'], stdout=subprocess.PIPE) if zint.program() else None
    return ran.stdout.decode().strip() if ran else 'none'


def main():
    vp, folder = sys.argv[1], pathlib.Path(sys.argv[2])
    os.environ['VP'] = vp
    sys.argv[1:] = [str(folder)]
    streams.main()
    for table in 'cp866', 'cp852':
        (folder / f'{table}.pbm').write_bytes(sheet(table, CELLS['a']))
    names = sorted([*folder.glob('*.bin'), *folder.glob('*.zpl')])
    if not zint.program():
        print('no zint')
        return 3
    with concurrent.futures.ThreadPoolExecutor(os.cpu_count()) as pool:
        found = dict(zip((it.name for it in names), pool.map(lambda it: printed(vp, it), names)))
    lines = [f'{total}  {name}{" *" if is_zint else ""}\n' for name, (total, is_zint) in found.items()]
    if ACCEPTS:
        SUMS.write_text(f'# {version()}, whose symbols are in the images with a star\n' + ''.join(lines))
    head, *kept = SUMS.read_text().splitlines(keepends=True)
    is_same = head.startswith(f'# {version()},')
    wrong = [it for it in set(lines).symmetric_difference(kept) if is_same or not it.endswith('*\n')]
    print('other images than were looked at:', *wrong, sep='\n') if wrong else None
    print(f'{len(names)} streams of tills and shops print as they were looked at' if not wrong else f'{len(wrong)} differ')
    return 1 if wrong else 0


if __name__ == '__main__':
    ACCEPTS = sys.argv[3:] == ['accept']
    sys.exit(main())
