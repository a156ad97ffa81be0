"""Images as vp writes them, raw PBM, and pictures of them."""
import contextlib
import io
import os
from typing import IO, Callable, Iterable, Iterator, List, Optional, Sequence, Tuple

from .bounds import Bounds, Cutter, Reached
from .faults import Fault, shown
from .files import Made, created, is_other, path_beside
from .vp.bounds import HEAD
from .vp.png import Png

__all__ = ['Cut', 'Files', 'Pieces', 'Png', 'Taken', 'images', 'within', 'write']
# A line of an image's head, which is short; the widest image that is taken.
LINE, MOST_WIDE = 64, 1 << 16


class Pieces(io.RawIOBase):
    """A file to be read, of the pieces that something gives."""

    def __init__(self, pieces: Iterable[bytes]) -> None:
        self.pieces, self.left = iter(pieces), b''

    def readable(self) -> bool:
        return True

    def readinto(self, room: 'bytearray | memoryview') -> int:  # type: ignore[override]
        self.left = self.left or next(self.pieces, b'')
        part, self.left = self.left[:len(room)], self.left[len(room):]
        room[:len(part)] = part
        return len(part)


def images(file: IO[bytes]) -> Iterator[Tuple[int, int, Iterator[bytes]]]:
    """Gives each image of raw PBM as vp writes it: its width, its height, and its rows of bytes in turn."""
    while True:
        magic = file.readline(LINE)
        if not magic:
            return
        head = HEAD.fullmatch(magic + file.readline(LINE))
        if not head or int(head[1]) > MOST_WIDE:
            raise ValueError('it is not what vp prints')
        width, height = map(int, head.groups())
        rows = rows_of(file, (width + 7) // 8, height)
        yield width, height, rows
        for _ in rows:
            pass


class Cut(ValueError):
    """An image that ends before its last row."""


def rows_of(file: IO[bytes], size: int, count: int) -> Iterator[bytes]:
    for _ in range(count):
        row = file.read(size)
        if len(row) < size:
            raise Cut('its last image is cut short')
        yield row


class Taken(Fault):
    """A name that a picture would have is another file's."""

    def __init__(self, name: object) -> None:
        super().__init__(f'{shown(name)} is there already, and was made of something else')


class Files:
    """Pictures that are written beside their names, and take them once all are whole: NAME.png where there is one, else
    NAME.png, NAME-2.png and so on, or with `each` NAME-1.png, NAME-2.png. What an earlier run made of the same and this
    one doesn't is taken away; a file that was made of something else, or that nobody here made, stays, and is a Fault.
    Without `of`, what the pictures are made of, the user named NAME.png, and it may be written over. Where `is_new`
    none can be of an earlier run, and no list is kept."""

    def __init__(self, name: str, each: bool = False, of: Optional[str] = None, is_new: bool = False) -> None:
        self.name, self.each, self.of, self.is_new = name, each, of, is_new
        self.is_file = name != '-' and not is_other(name)
        self.parts: List[Tuple[IO[bytes], str]] = []

    def __enter__(self) -> 'Files':
        return self

    def __exit__(self, kind: object, error: object, trace: object) -> None:
        if isinstance(error, OSError) and not error.filename:
            error.filename = self.name
        for file, path in self.parts:
            with contextlib.suppress(OSError):
                file.close()
            with contextlib.suppress(OSError):
                os.unlink(path)

    def next(self) -> IO[bytes]:
        """The file of the next picture."""
        if self.is_file:
            # (its name is known before it is there, so that a signal leaves none)
            path = path_beside(self.name)
            self.parts.append((io.BytesIO(), path))
            self.parts[-1] = created(path, self.name), path
            return self.parts[-1][0]
        if self.parts:
            raise ValueError('several images to be one PNG, and no file to number')
        self.parts.append((os.fdopen(os.dup(1), 'wb') if self.name == '-' else open(self.name, 'wb'), ''))
        return self.parts[0][0]

    def drop(self) -> None:
        """Lets go of the last picture, of which there is nothing."""
        file, path = self.parts.pop()
        file.close()
        with contextlib.suppress(OSError):
            os.unlink(path)

    def names(self, name: str) -> List[str]:
        """The names of the pictures, by that of one."""
        stem, end = os.path.splitext(name)
        count = len(self.parts)
        first = [] if self.each and count > 1 or not count else [name]
        return first + [f'{stem}-{n}{end}' for n in range(1 if self.each else 2, count + 1) if count > 1]

    def settle(self, name: Optional[str] = None) -> List[str]:
        """Gives the pictures their names, by this one, and says them."""
        if not self.is_file:
            return [self.name]
        name = self.name if name is None else name
        folder, base = os.path.split(name)
        names = self.names(base)
        if self.is_new:
            self.take(folder, names, lambda it: False)
        else:
            with Made(folder) as made:
                own, named = self.of or base, [base] if self.of is None else []
                self.take(folder, names, lambda it: it in named or made.is_ours(it, own))
                made.take_away(own, names)
                for it in names if self.each or not named else names[1:]:
                    made.add(it, own)
                for it in named if not names and not self.each else []:
                    with contextlib.suppress(FileNotFoundError):
                        os.unlink(name)
        return [os.path.join(folder, it) for it in names]

    def take(self, folder: str, names: Sequence[str], is_free: Callable[[str], bool]) -> None:
        """Has the pictures take these names, where each is free or may be written over."""
        paths = [os.path.join(folder, it) for it in names]
        for it, path in zip(names, paths):
            if os.path.lexists(path) and not is_free(it):
                raise Taken(path)
        for path in paths:
            os.replace(self.parts[0][1], os.path.realpath(path))
            del self.parts[0]


def write(file: IO[bytes], files: Files, dpmm: Optional[float] = None, most: Optional[int] = None) -> bool:
    """Writes PNGs of the images that a file has, at most so many images. Says whether that was all."""
    png, count, is_all = None, 0, True
    for width, _, rows in images(file):
        if count == most:
            is_all = False
            break
        count += 1
        if not png or files.each or png.width != width:
            if png:
                png.close()
            png = Png(files.next(), width, dpmm=dpmm)
        for row in rows:
            png.row(row)
    if png:
        png.close()
    return is_all


def within(file: IO[bytes], own: Bounds, cut: List[Reached]) -> IO[bytes]:
    """A file's paper within bounds of rows, bytes and images; where one is reached it ends, and stands in the list."""
    def pieces() -> Iterator[bytes]:
        cutter = Cutter(own)
        for part in iter(lambda: file.read(1 << 16), b''):
            yield cutter.add(part)
            if cutter.reached:
                cut.append(Reached(cutter.reached, getattr(own, cutter.reached)))
                return
        yield cutter.end()
    return io.BufferedReader(Pieces(it for it in pieces() if it))
