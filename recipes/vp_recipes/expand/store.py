"""What a printer keeps: formats and pictures by their names, in the stream alone or in a folder from one to the
next."""
import os
import re
from typing import Dict, Optional, Union

from .pictures import MOST, Picture
from ..faults import Fault, shown

# How many things are kept.
COUNT = 10_000

# The bytes of a format, or a picture.
Thing = Union[bytes, Picture]


def named(text: str, kind: str) -> Optional[str]:
    """The whole name of a stored thing, as R:LABEL.ZPL; None for what is none."""
    found = re.fullmatch(r'(?:([A-Za-z]):)?([^.:,/\\]{1,16})(?:\.([A-Za-z0-9*?]{1,3}))?', text)
    if not found:
        return None
    return f'{(found[1] or "R").upper()}:{found[2].upper()}.{(found[3] or kind).upper()}'


class Store:
    """Things by their names, and the names of each without its device; `folder` where they stay."""

    def __init__(self, folder: Optional[str] = None) -> None:
        self.folder = folder
        self.things: Dict[str, Thing] = {}
        self.devices: Dict[str, Dict[str, None]] = {}
        if folder:
            try:
                os.makedirs(folder, exist_ok=True)
            except OSError as error:
                raise Fault(f'cannot use {shown(folder)}: {error.strerror}') from None

    def path(self, name: str) -> Optional[str]:
        """The file of a name in the folder, None where there is none."""
        if not self.folder or not re.fullmatch(r'[A-Z]:[A-Z0-9_-]{1,16}\.[A-Z0-9]{1,3}', name):
            return None
        return os.path.join(self.folder, name.replace(':', '-'))

    def keep(self, name: str, thing: Thing) -> bool:
        """Whether a thing could be kept: a picture, or the bytes of a format."""
        if len(self.things) >= COUNT and name not in self.things:
            return False
        self.things[name] = thing
        self.devices.setdefault(name[1:], {})[name[0]] = None
        path = self.path(name)
        if not path:
            return not self.folder
        data = thing if isinstance(thing, bytes) else b'P4\n%d %d\n' % (thing.width, thing.height) + thing.data()
        try:
            with open(f'{path}.part', 'wb') as file:
                file.write(data)
            os.replace(f'{path}.part', path)
        except OSError as error:
            raise Fault(f'cannot write {shown(path)}: {error.strerror}') from None
        return True

    def find(self, name: str) -> Optional[Thing]:
        """The thing of a name; where no device has it that was asked for, that of another."""
        if name in self.things:
            return self.things[name]
        rest = name[1:]
        other = next(iter(self.devices.get(rest, ())), None)
        if other:
            return self.things[other + rest]
        for device in dict.fromkeys([name[0], *'REBA']) if self.folder else ():
            path = self.path(device + rest)
            if path and os.path.isfile(path):
                return self.of_file(path)
        return None

    def of_file(self, path: str) -> Thing:
        try:
            with open(path, 'rb') as file:
                data = file.read(2 * MOST)
        except OSError as error:
            raise Fault(f'cannot read {shown(path)}: {error.strerror}') from None
        head = re.match(rb'P4\n(\d{1,5}) (\d{1,5})\n', data)
        if not head:
            return data
        width, height = int(head[1]), int(head[2])
        return Picture.of_bytes(data[head.end():], (width + 7) // 8, height).cropped(width)

    def drop(self, name: str) -> None:
        """Forgets a thing; in a name * stands for any letters and ? for one."""
        if '*' not in name and '?' not in name:
            found = [name] if name in self.things else []
        else:
            words = re.compile(re.sub(r'(\\\*)+', '.*', re.escape(name)).replace(r'\?', '.'))
            found = [it for it in self.things if words.fullmatch(it)]
        for it in found:
            del self.things[it]
            self.devices[it[1:]].pop(it[0], None)
            path = self.path(it)
            if path and os.path.isfile(path):
                os.unlink(path)
