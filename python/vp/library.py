"""The library, libvp.so or vp.dll: where it is, and its calls, as include/vp.h has them."""
from __future__ import annotations

import ctypes
import functools
import os
import pathlib
from typing import Callable, NamedTuple, Optional, Tuple

from .faults import BadSheet, Fault, NoLibrary, NoMemory

# Languages, as the library numbers them.
RECEIPT, RECEIPT_58, LABEL, WHOLE_RECEIPT, WHOLE_RECEIPT_58, WHOLE_LABEL = 0, 1, 2, 3, 4, 5
# Answers of calls, and what a step has come to.
OK, NO_MEMORY = 0, 1
MORE, ROOM, STOPPED = 0, 1, 2
# The answers that tell of a sheet: ten times which sheet, and which offence.
SHEETS = {1: 0, 2: 1}
# How long a line of the library is at most.
LINE = 96
HERE = pathlib.Path(__file__).resolve().parent
# The library's file in the package, and its file of dist/ in a clone.
FILE = 'vp.dll' if os.name == 'nt' else 'libvp.so'
OF_CLONE = FILE if os.name == 'nt' or os.uname().machine != 'aarch64' else 'libvp-aarch64.so'


class CPrinter(ctypes.Structure):
    _fields_ = [('printer', ctypes.c_void_p)]


class CFault(ctypes.Structure):
    _fields_ = [(name, ctypes.c_uint8) for name in ('number', 'why', 'lead', 'byte')]


class CProgress(ctypes.Structure):
    _fields_ = [('taken', ctypes.c_size_t), ('put', ctypes.c_size_t), ('state', ctypes.c_uint32), ('fault', CFault)]


class CHeld(ctypes.Structure):
    _fields_ = [('stored', ctypes.c_uint32), *((name, ctypes.c_uint16) for name in
                                               ('fields', 'line_rows', 'page_rows', 'band_rows'))]


class CRequests(ctypes.Structure):
    _fields_ = [('requests', ctypes.c_void_p)]


class CRequest(ctypes.Structure):
    _fields_ = [('name', ctypes.c_char * 8), ('start', ctypes.c_uint64), ('end', ctypes.c_uint64),
                ('count', ctypes.c_uint32), ('arguments', ctypes.c_ubyte * 1024)]


class Held(NamedTuple):
    """What a printer holds of what isn't printed yet."""

    line_rows: int
    page_rows: int
    band_rows: int
    stored: int
    fields: int


def place() -> str:
    """Where the library is: in this package, in a clone, below a prefix, on the system."""
    given = os.environ.get('LIBVP')
    if given:
        return given
    top = HERE.parent.parent
    of_clone = [top / 'dist' / OF_CLONE] if (top / 'crates.txt').is_file() else []
    files = [HERE / FILE, *of_clone, top.parent / 'libvp.so.1']
    return next((str(it) for it in files if it.is_file()), FILE if os.name == 'nt' else 'libvp.so.1')


@functools.lru_cache(None)
def library() -> ctypes.CDLL:
    pointer, size, u32 = ctypes.c_void_p, ctypes.c_size_t, ctypes.c_uint32
    printer = ctypes.POINTER(CPrinter)
    requests, request = ctypes.POINTER(CRequests), ctypes.POINTER(CRequest)
    calls = {
        'vp_new': (u32, [u32, ctypes.c_char_p, size, ctypes.c_char_p, size, printer]),
        'vp_new_listing': (u32, [u32, u32, printer]),
        'vp_step': (u32, [printer, pointer, size, pointer, size, ctypes.POINTER(CProgress)]),
        'vp_finish': (u32, [printer, ctypes.POINTER(CFault)]),
        'vp_held': (u32, [printer, ctypes.POINTER(CHeld)]),
        'vp_memory': (u32, [printer, ctypes.POINTER(size)]),
        'vp_reset': (u32, [printer]),
        'vp_free': (None, [printer]),
        'vp_new_requests': (u32, [u32, requests]),
        'vp_next_request': (u32, [requests, pointer, size, ctypes.POINTER(size), request]),
        'vp_last_request': (u32, [requests, request]),
        'vp_free_requests': (None, [requests]),
        'vp_fault_line': (size, [ctypes.POINTER(CFault), ctypes.c_uint64, ctypes.c_char_p, size]),
        'vp_answer_text': (size, [u32, ctypes.c_char_p, size]),
        'vp_version': (size, [ctypes.c_char_p, size]),
    }
    try:
        found = ctypes.CDLL(place())
        for name, (answer, arguments) in calls.items():
            call = getattr(found, name)
            call.restype, call.argtypes = answer, arguments
    except (OSError, AttributeError) as error:
        raise NoLibrary(f'vp: no library {place()}: {error}; LIBVP names one') from None
    return found


def line(call: Callable[[ctypes.Array[ctypes.c_char], int], int]) -> str:
    """What a call of the library writes."""
    room = ctypes.create_string_buffer(LINE)
    call(room, LINE)
    return room.value.decode()


def version() -> str:
    """The library's version."""
    return line(library().vp_version)


def told(fault: CFault, after: int) -> Optional[Fault]:
    """A fault as the library tells it, after so many bytes."""
    if not fault.number:
        return None
    said = line(lambda room, size: int(library().vp_fault_line(ctypes.byref(fault), after, room, size)))
    return Fault(fault.number, said.split(': ', 2)[2], after)


def check(answer: int, names: Tuple[str, str]) -> None:
    """Raises what an answer of vp_new tells, of sheets that have these names."""
    if answer == OK:
        return
    said = line(lambda room, size: int(library().vp_answer_text(answer, room, size)))
    if answer // 10 in SHEETS:
        raise BadSheet(f'vp: {names[SHEETS[answer // 10]]}: {said}')
    if answer == NO_MEMORY:
        raise NoMemory(f'vp: {said}')
    raise AssertionError(said)
