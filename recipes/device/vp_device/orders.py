"""What a request asks to be printed, by its address, its query and what it accepts."""
from __future__ import annotations

import re
from typing import Dict, Match, NamedTuple, Optional, Tuple

FORMS = {'png': 'image/png', 'pdf': 'application/pdf', 'svg': 'image/svg+xml', 'pbm': 'image/x-portable-bitmap',
         'json': 'application/json'}
KINDS = {**{kind: form for form, kind in FORMS.items()}, 'image/*': 'png', '*/*': 'png', 'application/*': 'pdf'}
PATH = re.compile(r'/v1/(?:labels/(6|8|12|24)dpmm/(\d{1,2}(?:\.\d{1,3})?)x(\d{1,3}(?:\.\d{1,3})?)|receipts/(58|80)mm)'
                  r'(?:/(\d{1,4}))?/?')
WIDTHS = {'58': 384, '80': 576}
INCH = 25.4
# How long and wide a label may be, in inches, and in dots.
MOST_WIDE, MOST_LONG, MOST_DOTS = 15, 150, 1 << 27


class Order(NamedTuple):
    """What is asked for: the language, the form, dots a millimetre, a label's size in dots or None, the width of a
    receipt's paper in dots, how far it is turned, which image, whether it is written anew first, and whether it is
    printed as it came, by the profile alone."""

    language: str
    form: str
    dpmm: float = 8
    size: Optional[Tuple[int, int]] = None
    width: int = 576
    rotation: int = 0
    nth: Optional[int] = None
    expands: bool = False
    as_it_came: bool = False


class Made(NamedTuple):
    """The body, how many images there are, the fault or '', and the bound that was reached or ''."""

    body: bytes
    images: int
    fault: str
    reached: str


def accepted(text: str) -> str:
    """The form that is wanted most among those that there are. None raises ValueError."""
    wanted = []
    for nth, part in enumerate((text or '*/*').split(',')):
        kind, *parameters = (it.strip().lower() for it in part.split(';'))
        weights = [it[2:] for it in parameters if it.startswith('q=')]
        weight = float(weights[0]) if weights and re.fullmatch(r'[01](\.\d{0,3})?', weights[0]) else 1.0
        if kind in KINDS and weight > 0:
            wanted.append((-weight, nth, KINDS[kind]))
    if not wanted:
        raise ValueError(f'it is given as {", ".join(FORMS.values())}')
    return min(wanted)[2]


def read(path: Match[str], query: Dict[str, str], accept: str) -> Order:
    """The order. What is none raises ValueError."""
    dpmm, wide, high, receipt, index = path.groups()
    rotation, form = query.get('rotation', '0'), query.get('form', '')
    if rotation not in ('0', '90', '180', '270'):
        raise ValueError('rotation is 0, 90, 180 or 270')
    if form and form not in FORMS:
        raise ValueError(f'form is one of {", ".join(FORMS)}')
    index = query.get('index', index)
    if index is not None and not re.fullmatch(r'\d{1,4}', index):
        raise ValueError('index is a number from 0 to 9999')
    wrong = [it for it in ('expand', 'as-it-came') if query.get(it, 'no') not in ('yes', 'no')]
    if wrong:
        raise ValueError(f'{wrong[0]} is yes or no')
    expands, as_it_came = (query.get(it) == 'yes' for it in ('expand', 'as-it-came'))
    if expands and as_it_came:
        raise ValueError('expand writes a stream anew, and as-it-came does not')
    made = Order('label', form or accepted(accept), rotation=int(rotation),
                 nth=int(index) if index is not None else None, expands=expands, as_it_came=as_it_came)
    if receipt:
        return made._replace(language='receipt', width=WIDTHS[receipt])
    size = tuple(int(float(it) * INCH * int(dpmm) + 1e-6) for it in (wide, high))
    if float(wide) > MOST_WIDE or float(high) > MOST_LONG or not min(size) or size[0] * size[1] > MOST_DOTS:
        raise ValueError(f'a label is at most {MOST_WIDE} by {MOST_LONG} inches, and not {wide} by {high}')
    return made._replace(dpmm=int(dpmm), size=(size[0], size[1]))
