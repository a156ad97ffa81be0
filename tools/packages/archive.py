"""Packages that are zip archives: the same files give the same bytes, packed by the same zlib, and stand in a folder
whole or not at all."""
import io
import os
import secrets
import time
import zipfile


def packed(files, when, is_program=lambda name: False):
    """Returns an archive of files, by their names their bytes, all of one time; of those that a function tells programs
    each may run."""
    day = max(time.gmtime(when)[:6], (1980, 1, 1, 0, 0, 0))
    room = io.BytesIO()
    with zipfile.ZipFile(room, "w") as archive:
        for name, data in files.items():
            one = zipfile.ZipInfo(name, day)
            one.compress_type, one.create_system = zipfile.ZIP_DEFLATED, 3
            one.external_attr = (0o100755 if is_program(name) else 0o100644) << 16
            archive.writestr(one, data, compresslevel=9)
    return room.getvalue()


def keep(folder, name, made):
    """Puts a file into a folder."""
    os.makedirs(folder, exist_ok=True)
    part = os.path.join(folder, f".package-{secrets.token_hex(6)}")
    try:
        with open(part, "xb") as file:
            file.write(made)
        os.replace(part, os.path.join(folder, name))
    except OSError:
        if os.path.exists(part):
            os.unlink(part)
        raise
