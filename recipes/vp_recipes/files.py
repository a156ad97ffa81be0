"""Files that stand under their names once they are whole, and which files of a folder an earlier run made."""
import contextlib
import fcntl
import hashlib
import json
import os
import secrets
from typing import IO, Dict, Iterator, Sequence, Tuple, Union

Name = Union[str, 'os.PathLike[str]']

# The list that a folder has of what was made there.
MADE = '.vp-made'


def path_beside(name: Name) -> str:
    """The name of a new file in the folder of another, to take its name once it is whole."""
    return os.path.join(os.path.dirname(os.path.realpath(name)), f'.vp-{secrets.token_hex(6)}')


def created(path: str, name: Name) -> IO[bytes]:
    """A new file, for another name."""
    try:
        return open(path, 'xb')
    except OSError as error:
        error.filename = name
        raise


def beside(name: Name) -> Tuple[IO[bytes], str]:
    """A new file in the folder of another, to take its name once it is whole: the file and its own name."""
    path = path_beside(name)
    return created(path, name), path


def is_other(name: Name) -> bool:
    """Whether a name is that of something else than a file, as a device's, which is written as it is."""
    return os.path.exists(name) and not os.path.isfile(name)


@contextlib.contextmanager
def whole(name: Name) -> Iterator[IO[bytes]]:
    """A file to be written, which takes the name once all of it is."""
    if is_other(name):
        with open(name, 'wb') as other:
            yield other
        return
    file, path = beside(name)
    try:
        with file:
            yield file
        os.replace(path, os.path.realpath(name))
    except BaseException as error:
        if isinstance(error, OSError) and error.filename in (None, path):
            error.filename = name
        for put_away in file.close, lambda: os.unlink(path):
            with contextlib.suppress(OSError):
                put_away()
        raise


def keep(name: Name, data: Union[str, bytes]) -> None:
    """Writes a file's bytes, or its text."""
    with whole(name) as file:
        file.write(data.encode('utf-8', 'surrogateescape') if isinstance(data, str) else data)


def sum_of(path: Name) -> str:
    with open(path, 'rb') as file:
        made = hashlib.sha256()
        for part in iter(lambda: file.read(1 << 16), b''):
            made.update(part)
        return made.hexdigest()


class Made:
    """What was made in a folder, by the list that stands there: of each name what it was made of, and its sum. While it
    is open nobody else changes the list. A file whose sum is another one now is somebody else's."""

    def __init__(self, folder: str) -> None:
        self.folder, self.path = folder, os.path.join(folder, MADE)

    def __enter__(self) -> 'Made':
        self.lock = os.open(self.folder or '.', os.O_RDONLY | os.O_DIRECTORY)
        try:
            # (not every file system has locks)
            with contextlib.suppress(OSError):
                fcntl.flock(self.lock, fcntl.LOCK_EX)
            self.was = self.read()
            self.files = dict(self.was)
            return self
        except BaseException:
            os.close(self.lock)
            raise

    def read(self) -> Dict[str, Tuple[str, str]]:
        try:
            with open(self.path, encoding='utf-8') as file:
                found = {name: (of, made) for name, of, made in map(json.loads, file)}
            # (a list that came from elsewhere can't lead out of its folder)
            return {it: found[it] for it in found if not os.path.isabs(it) and '..' not in it.split(os.sep)}
        except (FileNotFoundError, ValueError, TypeError, AttributeError):
            return {}

    def __exit__(self, *error: object) -> None:
        try:
            if self.files and self.files != self.was:
                keep(self.path, ''.join(json.dumps([name, *it]) + '\n' for name, it in sorted(self.files.items())))
            elif self.was and not self.files:
                os.unlink(self.path)
        finally:
            os.close(self.lock)

    def is_ours(self, name: str, of: str) -> bool:
        """Whether a file of this name is there that was made of this, as it was made."""
        path = os.path.join(self.folder, name)
        return self.files.get(name, ('', ''))[0] == of and os.path.isfile(path) and sum_of(path) == self.files[name][1]

    def add(self, name: str, of: str) -> None:
        self.files[name] = of, sum_of(os.path.join(self.folder, name))

    def take_away(self, of: str, but: Sequence[str] = ()) -> None:
        """Takes away all that was made of this, but for these names."""
        for name in [name for name, (whose, _) in self.files.items() if whose == of and name not in but]:
            self.take_one(name)

    def take_one(self, name: str) -> bool:
        """Takes a file of the list away, and says whether it was as it was made."""
        is_ours = self.is_ours(name, self.files[name][0])
        if is_ours:
            with contextlib.suppress(FileNotFoundError):
                os.unlink(os.path.join(self.folder, name))
        del self.files[name]
        return is_ours
