"""The cells of a sheet, as pictures of lines of them."""
import re
from typing import Dict, List, Optional, Sequence

from .pictures import Picture
from ..faults import Fault
from ..program import read
from ..sheets import CELLS, sheet_words


class Cells:
    """Those of the sheet of a font's letter among the words that name sheets; white where there is none. `size` is a
    cell's width and height, `cells` the rows of each."""

    def __init__(self, words: Sequence[str], letter: str = 'a') -> None:
        self.size = CELLS[letter]
        self.cells: Optional[List[List[int]]] = None
        name = sheet_words(list(words)).get(letter)
        if name:
            self.cells = self.of_sheet(read(name), name)

    def of_sheet(self, data: bytes, name: str) -> List[List[int]]:
        width, height = self.size
        head = re.match(rb'P4\s+(\d+)\s+(\d+)\s', data)
        if not head or (int(head[1]), int(head[2])) != (16 * width, 16 * height):
            raise Fault(f'{name}: not a glyph sheet of cells of {width} by {height}')
        rows = [int.from_bytes(data[head.end() + 2 * width * y:][:2 * width], 'big') for y in range(16 * height)]
        return [[row >> width * (15 - byte % 16) & (1 << width) - 1 for row in rows[byte // 16 * height:][:height]]
                for byte in range(256)]

    def line(self, data: bytes) -> Picture:
        """Cells side by side."""
        width, height = self.size
        rows = [0] * height
        for byte in data:
            cell = self.cells[byte] if self.cells else [0] * height
            rows = [row << width | it for row, it in zip(rows, cell)]
        return Picture(width * len(data), rows)

    def scaled(self, data: bytes, width: int, height: int) -> Picture:
        """Cells side by side, each so wide and high, as a label draws them."""
        texts = self.line(data).texts() if data else []
        own, tall = self.size
        columns = [own * n + x * own // width for n in range(len(data)) for x in range(width)]
        rows: Dict[int, str] = {}
        for y in range(height):
            source = y * tall // height
            if source not in rows:
                rows[source] = ''.join(texts[source][n] for n in columns) if texts else ''
        return Picture.of_texts([rows[y * tall // height] for y in range(height)])
