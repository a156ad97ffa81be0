#!/usr/bin/env python3
"""Whether files are taken for what they are by their first bytes, alike in Python and in JavaScript (where node is)."""
import base64
import json
import pathlib
import shutil
import subprocess
import sys
import time
from typing import List, Optional, Tuple
sys.path.insert(0, str(pathlib.Path(__file__).resolve().parent.parent))
sys.dont_write_bytecode = True
from vp_recipes import kinds  # noqa: E402

ZPL, ESCPOS = b'^XA^FO10,10^FDx^FS^XZ', b'\x1b@Hello there, till\n\x1dV\0'
FILES: List[Tuple[bytes, Optional[str], str]] = [
    (b'', 'receipt', 'a receipt'), (ESCPOS, 'receipt', 'a receipt'),
    (b'text first\n\x1bE\1bold', 'receipt', 'a receipt'), (b'\x10\x04\1', 'receipt', 'a receipt'),
    (b'\x1b@\x1bt\x10' + ZPL, 'receipt', 'a receipt'), (b'\x1dv0\0\1\0\1\0P', 'receipt', 'a receipt'),
    (ZPL, 'label', 'labels'), (b'\r\n ^xa^xz', 'label', 'labels'), (b'^X\r\nA^FS', 'label', 'labels'),
    (b'CT~~CD,~CC^~CT~\n' + ZPL, 'label', 'labels'),
    (b'~HS', 'label', 'labels'), (b'~DGR:A.GRF,1,1,80' + ZPL, 'label', 'labels'),
    (b'${' + ZPL + b'}$', 'label', 'labels'), (ZPL + ESCPOS, 'label', 'labels'),
    (b'\xef\xbb\xbf' + ZPL, 'label', 'labels'),
    (b'\x1b%-12345X@PJL JOB\r\n@PJL ENTER LANGUAGE=ZPL\r\n' + ZPL, 'label', "labels behind a job's head (PJL)"),
    (b'\x1b%-12345X@PJL ENTER LANGUAGE=PCL\r\n\x1bE\x1b&l0O', None, 'a printer job (PJL) of another language'),
    (b'\nN\nq812\nQ1218,24\nA50,50,0,4,1,1,N,"Hi"\nP1\n', None, 'EPL2'),
    (b'N\r\nB20,20,0,1,2,2,60,B,"123"\r\nP1\r\n', None, 'EPL2'),
    (b'! 0 200 200 210 1\r\nTEXT 4 0 30 40 Hello\r\nFORM\r\nPRINT\r\n', None, 'CPCL'),
    (b'! U1 SETVAR "x" "y"\r\n', None, 'CPCL'),
    (b'SIZE 60 mm,40 mm\r\nGAP 3 mm\r\nCLS\r\nTEXT 10,10,"3",0,1,1,"x"\r\nPRINT 1\r\n', None, 'TSPL'),
    (b'\x02L\r\nD11\r\n', None, 'DPL'), (b'\x1bA\x1bH0100\x1bV0100', None, 'SBPL'),
    (b'\x1bE\x1b&l0O\x1b(s3T', None, 'PCL'),
    (b'\x1b@\x1bx\1Hello\x1bk\0\r\n', None, 'ESC/P'), (b'\x1b@\x1b(R\x08\0\0REMOTE1', None, 'ESC/P'),
    (b'%PDF-1.4\n', None, 'a PDF'), (b'%!PS-Adobe-3.0\n', None, 'PostScript'),
    (b'\x89PNG\r\n\x1a\n\0\0', None, 'a picture'),
    (b'\xff\xd8\xff\xe0', None, 'a picture'), (b'GIF89a', None, 'a picture'), (b'\x7fELF\2', None, 'a program'),
    (b'\x1f\x8b\x08\0', None, 'a packed file'),
    (b'#!/usr/bin/env python3\nprint("^XA^FO1,1^FDx^FS^XZ")\n', None, 'a source file'),
    (b'import sys\nsys.stdout.write("^XA^XZ")\n', None, 'a source file'),
    (b'{"zpl": "^XA^XZ"}', None, 'a source file'), (b'<?php echo "^XA^XZ";', None, 'a source file'),
    (b'// a label\nconst it = `^XA`;\n', None, 'a source file'),
    ('^XA^FDä^FS^XZ'.encode('utf-16'), None, 'text in UTF-16'),
    ('^XA^FDhello^FS^XZ'.encode('utf-16-be'), None, 'text in UTF-16'),
    (ESCPOS.hex(' ').encode(), None, 'bytes in hex digits'),
    (ZPL.hex().upper().encode() + b'\n', None, 'bytes in hex digits'),
    (b'\\x1b\\x40\\x48\\x65\\x6c\\x6c\\x6f\\x0a', None, 'bytes in hex digits'),
    (b'0x1b, 0x40, 0x48, 0x65, 0x6c, 0x6c, 0x6f, 0x0a', None, 'bytes in hex digits'),
    (b'00000000: 1b40 4865 6c6c 6f0a                      .@Hello.\n', None, 'a listing of bytes'),
    (base64.b64encode(ESCPOS), None, 'bytes in base64'), (base64.encodebytes(ZPL), None, 'bytes in base64'),
    (base64.b64encode(b'\x1dv0' + bytes(20)), None, 'bytes in base64'),
    (b'Dear all,\nthis is text.\n', None, 'plain text'), (' Käse 5 €\n'.encode(), None, 'plain text'),
    (b'General', None, 'plain text'), (b'deadbeef', None, 'plain text'),
]
# A million bytes that patterns might walk again and again.
HOSTILE = (b'N\n', b'\nSIZE 1', b'^\r\n', b' ', b'\n', b'1b', b'^', b'G0', b'\x1bx', b'0000', b'1b 0x', b'^X', b'{',
           b'a^X\n', b'\x10', b'A1,')


def in_javascript(files: List[bytes]) -> List[str]:
    """What each is by the same table in node."""
    table = str(pathlib.Path(kinds.__file__).with_name('kinds.tsv'))
    code = '''
      const fs = require('fs');
      const lines = fs.readFileSync(process.argv[1], 'utf8').split('\\n').filter(it => it && !it.startsWith('# '));
      const rows = lines.map(it => it.split('\\t'));
      const said = text => rows.find(it => new RegExp(it[1]).test(text))[2];
      const files = JSON.parse(fs.readFileSync(0, 'utf8')).map(it => Buffer.from(it, 'base64').toString('latin1'));
      console.log(JSON.stringify(files.map(said)));'''
    ran = subprocess.run(['node', '-e', code, table],
                         input=json.dumps([base64.b64encode(it).decode() for it in files]).encode(),
                         stdout=subprocess.PIPE, check=True)
    found: List[str] = json.loads(ran.stdout)
    return found


def main() -> None:
    for data, language, what in FILES:
        found = kinds.kind(data)
        assert (found.language, found.what) == (language, what), f'{data[:40]!r} is {found.what}, not {what}'
        assert found.language or found.advice or what == 'plain text'
    if shutil.which('node'):
        said = in_javascript([data for data, _, _ in FILES])
        assert said == [what for _, _, what in FILES], [it for it in zip(said, FILES) if it[0] != it[1][2]]
    for part in HOSTILE:
        begun = time.process_time()
        kinds.kind(part * (kinds.MOST // len(part)))
        assert time.process_time() - begun < 5, f'{part!r} again and again takes {time.process_time() - begun:.0f} s'
    print(f'{len(FILES)} files are taken for what they are')


if __name__ == '__main__':
    main()
