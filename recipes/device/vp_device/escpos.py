"""What a receipt printer answers: the status bytes of ESC/POS, by its state."""
from __future__ import annotations

from .state import State

# The bits of GS a: which changes are told.
DRAWER, ONLINE, ERROR, PAPER, BUTTON = 1, 2, 4, 8, 64
MODEL_ID, TYPE_ID, VERSION_ID = 0x20, 0x02, 0x01
# What a printer says that it has for graphics, in bytes.
GRAPHICS = b'393216'
# What follows ready-made requests that begin something, or end it.
CLEARED, POWERED_OFF, SETTINGS = b'\x37\x25\0', b'\x3b\x30\0', b'\x37\x20\0'


def bits(**given: bool) -> int:
    """A byte of the bits that are set, as b3=True."""
    return sum(1 << int(name[1:]) for name, value in given.items() if value)


def is_low(state: State) -> bool:
    return state.paper != 'loaded'


def is_out(state: State) -> bool:
    return state.paper == 'out'


def is_error(state: State) -> bool:
    return state.cutter_error or state.error or state.head_hot


def at_once(which: int, state: State) -> bytes:
    """DLE EOT 1 to 4, 7, 8 and 18: one byte, whose bits 1 and 4 are set."""
    low, out = is_low(state), is_out(state)
    byte = {
        1: bits(b2=not state.pin_low, b3=state.is_offline, b6=state.button),
        2: bits(b2=state.cover_open, b3=state.button, b5=out, b6=is_error(state)),
        3: bits(b3=state.cutter_error, b5=state.error, b6=state.head_hot),
        4: bits(b2=low, b3=low, b5=out, b6=out),
    }.get(which, 0)
    return bytes([byte | 0x12])


def by_itself(state: State) -> bytes:
    """The four bytes of automatic status back."""
    low, out = is_low(state), is_out(state)
    return bytes([
        bits(b2=not state.pin_low, b3=state.is_offline, b4=True, b5=state.cover_open, b6=state.button),
        bits(b1=state.button, b3=state.cutter_error, b5=state.error, b6=state.head_hot),
        bits(b0=low, b1=low, b2=out, b3=out),
        0x0F,
    ])


def told(state: State, chosen: int) -> bytes:
    """Of the four bytes those bits whose changes were asked for by GS a."""
    first, second, third, _ = by_itself(state)
    mask = bits(b2=bool(chosen & DRAWER), b3=bool(chosen & ONLINE), b5=bool(chosen & ONLINE), b6=bool(chosen & BUTTON))
    return bytes([first & mask, second & ~2 if chosen & ERROR else 0, third if chosen & PAPER else 0])


def transmitted(which: int, state: State) -> bytes:
    """GS r."""
    if which in (1, 49):
        low, out = is_low(state), is_out(state)
        return bytes([bits(b0=low, b1=low, b2=out, b3=out)])
    if which in (2, 50):
        return bytes([bits(b0=not state.pin_low)])
    return b'\0' if which in (4, 52) else b''


def identity(which: int, state: State) -> bytes:
    """GS I: a byte, or a text with 5F before and 00 behind it."""
    number = {1: MODEL_ID, 49: MODEL_ID, 2: TYPE_ID, 50: TYPE_ID, 3: VERSION_ID, 51: VERSION_ID}.get(which)
    if number is not None:
        return bytes([number])
    text = {65: state.firmware, 66: state.maker, 67: state.model, 68: state.serial, 69: ''}.get(which)
    return b'' if text is None else b'\x5f' + text.encode('ascii', 'replace') + b'\0'


def graphics(function: int, data: bytes) -> bytes:
    """GS ( L: how many bytes of graphics can be kept, how many still can (nothing is kept here), and no key."""
    if function in (64, 80):
        return b'\x37\x72\x40\0' if data == b'KC' else b''
    kind = {0: b'0', 48: b'0', 3: b'1', 51: b'1', 4: b'2', 52: b'2'}.get(function)
    return b'\x37' + kind + GRAPHICS + b'\0' if kind and not data else b''


def counted(name: str, data: bytes) -> bytes:
    """GS ( H, GS ( E and GS ( L, by their data."""
    if name == 'GS ( L' and len(data) > 1:
        return graphics(data[1], data[2:])
    if name == 'GS ( H' and len(data) == 6 and data[:2] == b'00' and all(0x20 <= it <= 0x7E for it in data[2:]):
        return b'\x37\x22' + data[2:] + b'\0'
    return SETTINGS if name == 'GS ( E' and data == b'\x01IN' else b''


def symbol_size(side: int) -> bytes:
    """GS ( k 82: how many dots a QR symbol is wide and high, of the size that is stored, and whether it can be printed;
    none is where nothing is stored, or where there is no room for it."""
    return b'\x37\x36%d\x1f%d\x1f1\x1f%d\0' % (side, side, not side)


def answer(name: str, data: bytes, state: State, side: int = 0) -> bytes:
    """The bytes that answer a request; none where it has no answer. GS a answers with its four bytes where it asks for
    anything. `side` is that of the symbol which GS ( k asks about, in dots."""
    first = data[0] if data else 0
    if name == 'DLE EOT':
        return at_once(first, state)
    if name == 'DLE DC4':
        return {b'\x02\x01\x08': POWERED_OFF, b'\x07\x01': by_itself(state)}.get(data, CLEARED if first == 8 else b'')
    if name == 'GS a':
        return by_itself(state) if first else b''
    if name == 'GS r':
        return transmitted(first, state)
    if name in ('ESC v', 'ESC u'):
        return transmitted(1 if name == 'ESC v' else 2, state) if first in (0, 48) else b''
    if name == 'GS I':
        return identity(first, state)
    if name == 'GS ( k':
        return symbol_size(side) if data == b'1R0' else b''
    if name == 'GS g':
        return b'\x5f0\0' if data[:2] == b'2\0' else b''
    return counted(name, data)
