"""Commands of labels in dots, from where fields are counted: what ^MU, ^LS and ^LT change is written into them."""
from typing import Iterable, Iterator, List, Optional

from .labels import Command
from .remarks import Remarks

# Which parameters of each command are lengths.
LENGTHS = {'FO': (0, 1), 'FT': (0, 1), 'LH': (0, 1), 'PW': (0,), 'LL': (0,), 'A': (1, 2), 'CF': (1, 2), 'BY': (0, 2),
           'GB': (0, 1, 2), 'GC': (0, 1), 'GD': (0, 1, 2), 'GE': (0, 1, 2), 'GS': (1, 2), 'FB': (0, 2, 4), 'TB': (1, 2),
           'B1': (2,), 'B2': (1,), 'B3': (2,), 'B7': (1,), 'B8': (1,), 'B9': (1,), 'BA': (1,), 'BC': (1,), 'BE': (1,),
           'BF': (1,), 'BI': (1,), 'BJ': (1,), 'BK': (2,), 'BL': (1,), 'BM': (2,), 'BP': (2,), 'BS': (1,), 'BU': (1,),
           'BX': (1,), 'BZ': (1,), 'LS': (0,), 'LT': (0,), 'FP': (1,)}
DOTS_A_MILLIMETRE = 8
SCALES = {'D': None, 'I': 25.4 * DOTS_A_MILLIMETRE, 'M': float(DOTS_A_MILLIMETRE)}


def again(command: Command, parameters: List[str]) -> Command:
    """The command with other parameters."""
    return Command(command.sign, command.name, ','.join(parameters).encode('latin-1'), command.start, command.end,
                   font=command.font)


def shift_of(command: Command, least: int, most: int) -> int:
    text = command.parameter(0)
    sign, digits = (-1, text[1:]) if text[:1] == '-' else (1, text)
    return max(least, min(most, sign * int(digits))) if digits.isascii() and digits.isdigit() else 0


def scale_of(command: Command) -> Optional[float]:
    """By how much ^MU multiplies lengths; None where it leaves them."""
    parts = [it for it in command.parameters()[1:3] if it.isascii() and it.isdigit()]
    ratio = int(parts[1]) / int(parts[0]) if len(parts) == 2 and int(parts[0]) else None
    return SCALES[command.letter(0, 'DIM', 'D')] or (ratio if ratio and ratio != 1 else None)


def in_dots(commands: Iterable[Command], remarks: Remarks) -> Iterator[Command]:
    """Commands with the lengths and places that they have in dots."""
    scale: Optional[float] = None
    left, down = 0, 0
    for command in commands:
        name = command.name
        if command.sign == '^':
            if scale and name in LENGTHS:
                parts = command.parameters()
                command = again(command,
                                [scaled(it, scale) if n in LENGTHS[name] else it for n, it in enumerate(parts)])
            if (left or down) and name in ('FO', 'FT'):
                command = moved(command, left, down, remarks)
            if name == 'MU':
                scale = scale_of(command)
                if scale:
                    remarks.anew(command.start, '^MU: lengths are written in dots')
            elif name == 'LS':
                left = shift_of(command, -9999, 9999)
            elif name == 'LT':
                down = shift_of(command, -120, 120)
        yield command


def moved(command: Command, left: int, down: int, remarks: Remarks) -> Command:
    """^FO or ^FT so many dots to the left and down."""
    parts = (command.parameters() + ['', ''])[:max(2, len(command.parameters()))]
    x, y = command.number(0, 0, 0, 32000) - left, command.number(1, 0, 0, 32000) + down
    if x < 0 or y < 0:
        remarks.not_written(command.start,
                            f'^{command.name} lies off the label by ^LS or ^LT: it is moved onto its edge')
    return again(command, [str(max(0, x)), str(max(0, y)), *parts[2:]])


def scaled(text: str, scale: float) -> str:
    try:
        return str(round(float(text) * scale)) if len(text) <= 16 and text else text
    except (ValueError, OverflowError):
        return text
