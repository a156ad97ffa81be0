"""How a printer is: paper, cover, errors, its name. A state is changed by words, as `paper out` or `serial=4711`."""
from __future__ import annotations

import re
from typing import Any, Dict, List, NamedTuple, Optional


class State(NamedTuple):
    """How a printer is. `paper` is loaded, near end or out; `rows` are those that are left of it, None without end."""

    paper: str = 'loaded'
    rows: Optional[int] = None
    cover_open: bool = False
    offline: bool = False
    busy: bool = False
    paused: bool = False
    cutter_error: bool = False
    error: bool = False
    head_hot: bool = False
    head_cold: bool = False
    ribbon_out: bool = False
    buffer_full: bool = False
    button: bool = False
    pin_low: bool = False
    model: str = 'VP'
    maker: str = 'VUZAREMO'
    firmware: str = 'V1.0.0'
    serial: str = '00000000'

    @property
    def stops(self) -> bool:
        """Whether nothing is printed as long as it is so."""
        return self.is_offline or self.busy or self.paused

    @property
    def is_offline(self) -> bool:
        return (self.paper == 'out' or self.cover_open or self.offline or self.cutter_error or self.error
                or self.head_hot or self.ribbon_out)

    def words(self) -> List[str]:
        """The words that make this state of one that is ready."""
        said = [f'paper {self.paper}'] if self.paper != 'loaded' else []
        said += [word for word, (name, value) in FLAGS.items() if value and getattr(self, name)]
        return said or ['ready']

    def json(self) -> Dict[str, Any]:
        return {'words': self.words(), 'stops': self.stops, 'rows_left': self.rows,
                **{it: getattr(self, it) for it in NAMES}}


NAMES = 'model', 'maker', 'firmware', 'serial'
# Each word, which member of the state it sets, and to what.
FLAGS = {
    'cover open': ('cover_open', True), 'cover closed': ('cover_open', False),
    'offline': ('offline', True), 'online': ('offline', False),
    'busy': ('busy', True), 'idle': ('busy', False),
    'paused': ('paused', True), 'going on': ('paused', False),
    'cutter error': ('cutter_error', True), 'cutter free': ('cutter_error', False),
    'error': ('error', True), 'no error': ('error', False),
    'head hot': ('head_hot', True), 'head cool': ('head_hot', False),
    'head cold': ('head_cold', True), 'head warm': ('head_cold', False),
    'ribbon out': ('ribbon_out', True), 'ribbon loaded': ('ribbon_out', False),
    'buffer full': ('buffer_full', True), 'buffer empty': ('buffer_full', False),
    'button pressed': ('button', True), 'button released': ('button', False),
    'drawer pin low': ('pin_low', True), 'drawer pin high': ('pin_low', False),
}
PAPER = {'paper out': 'out', 'paper near end': 'near end', 'paper loaded': 'loaded', 'loaded': 'loaded'}
ROWS = re.compile(r'paper for (\d{1,9}) rows')
# A name of the printer is printable ASCII, as its answers are.
NAMED = re.compile(r'(%s) ?= ?([ -~]{1,64})' % '|'.join(NAMES))


def changed(state: State, word: str) -> State:
    """The state behind a word. One that is none raises ValueError."""
    text = ' '.join(word.split())
    plain = text.lower()
    if plain == 'ready':
        return State(model=state.model, maker=state.maker, firmware=state.firmware, serial=state.serial)
    if plain in PAPER:
        return state._replace(paper=PAPER[plain], rows=0 if plain == 'paper out' else None)
    if plain in FLAGS:
        name, value = FLAGS[plain]
        flagged: Dict[str, Any] = {**state._asdict(), name: value}
        return State(**flagged)
    rows, named = ROWS.fullmatch(plain), NAMED.fullmatch(text)
    if rows:
        return state._replace(rows=int(rows[1]), paper='loaded' if int(rows[1]) else 'out')
    if named:
        members: Dict[str, Any] = {**state._asdict(), named[1]: named[2].strip()}
        return State(**members)
    raise ValueError(f'no state is called {text[:60]!r}')


def changed_by(state: State, words: str) -> State:
    """The state behind several words, with commas between."""
    for word in filter(str.strip, words.split(',')):
        state = changed(state, word)
    return state
