#!/usr/bin/env python3
"""Draws the glyph sheets font-a.pbm and font-b.pbm: draw_sheets.py [FOLDER], or beside this file.

The bytes from 21 to FE have the characters of code page 858, and 20 and FF are spaces. Every other byte shows its two
hex digits in a frame.
"""
import os
import sys

HERE = os.path.dirname(os.path.abspath(__file__))
sys.path.insert(0, os.path.join(HERE, '../recipes'))
sys.dont_write_bytecode = True
from vp_recipes.drawing import sheet  # noqa: E402
from vp_recipes.sheets import CELLS  # noqa: E402

for letter, size in CELLS.items():
    with open(os.path.join(sys.argv[1] if sys.argv[1:] else HERE, f'font-{letter}.pbm'), 'wb') as out:
        out.write(sheet('cp858', size))
