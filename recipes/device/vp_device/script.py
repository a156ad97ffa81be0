"""A script of what becomes of a printer: `after 1200 rows: paper out; after 3 s: loaded`."""
from __future__ import annotations

import re
from typing import List, NamedTuple, Optional

from .state import State, changed_by

STEP = re.compile(r'after (\d{1,9}|\d{0,9}\.\d{1,3}) (rows|row|s|ms|jobs|job|bytes|byte) ?: ?(.+)', re.IGNORECASE)
AGAIN = 'again'


class Step(NamedTuple):
    """What is waited for (rows, seconds, jobs, bytes) since the step before, how many, and the words of the state."""

    of: str
    amount: float
    words: str


class Script(NamedTuple):
    """Steps in turn. `again` at the end begins with the first one anew."""

    steps: List[Step]
    is_endless: bool = False

    def step(self, number: int) -> Optional[Step]:
        if self.is_endless and self.steps:
            return self.steps[number % len(self.steps)]
        return self.steps[number] if number < len(self.steps) else None


def read(text: str) -> Script:
    """The script of a text, whose steps stand behind each other with `;`, or one a line. What is none raises
    ValueError."""
    parts = [' '.join(it.split()) for it in re.split(r'[;\n]', text)]
    parts = [it for it in parts if it and not it.startswith('#')]
    is_endless = bool(parts) and parts[-1].lower() == AGAIN
    steps = []
    for part in parts[:-1] if is_endless else parts:
        found = STEP.fullmatch(part)
        if not found:
            raise ValueError(f'no step is {part[:60]!r}: it is as `after 1200 rows: paper out`')
        of, amount = found[2].lower().rstrip('s') or 's', float(found[1])
        of, amount = ('s', amount / 1000) if of == 'm' else (of, amount)
        changed_by(State(), found[3])
        steps.append(Step(of, amount, found[3]))
    if is_endless and not any(it.amount for it in steps):
        raise ValueError('a script that begins again waits for something')
    return Script(steps, is_endless)
