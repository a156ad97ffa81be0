"""A stream that is printed whole, as the service gives it: a picture, a document, or all that is known of it."""
from __future__ import annotations

import base64
import contextlib
import importlib
import json
from typing import Any, Dict, List

from . import bitmap, escpos, tools, zpl
from .orders import Made, Order
from .state import State

# How much of a listing, of remarks and of answers is given.
MOST_LINES = 10_000


class Reached(Exception):
    """A bound is reached."""


def printed(order: Order, data: bytes, state: State, bounds: Any) -> Made:
    """What a stream prints, in the form that is asked for. An index that there is none of gives no body."""
    words = tools.words_of(order.language, order.as_it_came, order.width)
    package = tools.package_of(words)
    stream = anew(order, words, data) if order.expands else data
    handle, cutter, out = tools.handle_of(words), tools.bounds.Cutter(bounds), bytearray()

    def put(part: memoryview) -> None:
        out.extend(cutter.add(part))
        if cutter.reached:
            raise Reached

    try:
        with contextlib.suppress(Reached):
            handle.feed(start_of(order) + stream, put)
        if cutter.reached:
            return Made(b'', 0, '', str(tools.bounds.Reached(cutter.reached, getattr(bounds, cutter.reached))))
        fault = handle.fault or handle.finish()
    finally:
        handle.close()
    if fault:
        fault = fault._replace(byte=max(0, fault.byte - len(start_of(order))))
    pages = pages_of(order, package.Paper.read(bytes(out)))
    if order.form == 'json':
        return Made(told(order, package, data, state, pages, fault), len(pages), str(fault or ''), '')
    count = len(pages)
    if order.nth is not None or order.form != 'pdf':
        pages = pages[order.nth or 0:][:1]
    if not pages:
        return Made(b'', count, str(fault or ''), '')
    if order.form == 'pdf':
        return Made(bitmap.pdf(pages, order.dpmm), count, str(fault or ''), '')
    page = pages[0]
    body = page.pbm() if order.form == 'pbm' else page.svg(order.dpmm) if order.form == 'svg' else page.png(order.dpmm)
    return Made(body, count, str(fault or ''), '')


def start_of(order: Order) -> bytes:
    """What stands before a label's stream: the size of the label that it is for, which its own commands may change."""
    return b'^XA^PW%d^LL%d^XZ' % order.size if order.size else b''


def anew(order: Order, words: List[str], data: bytes) -> bytes:
    """The stream as recipes/expand writes it anew."""
    expand = importlib.import_module('vp_recipes.expand')
    named = [it for letter, name in tools.sheets.sheet_words(words).items() for it in (f'--font-{letter}', name)]
    made: bytes = expand.expanded(data, order.language, expand.Options('cp858', None, sheet=tuple(named))).data
    return made


def pages_of(order: Order, paper: Any) -> List[bitmap.Page]:
    """The images as pages: each label, or all of a receipt under each other."""
    images = list(paper)
    if order.language == 'receipt':
        rows = [row for it in images for row in it.rows]
        pages = [bitmap.Page(order.width, len(rows), rows)] if rows else []
    else:
        pages = [bitmap.Page(it.width, it.height, it.rows) for it in images]
        pages = [it.fitted(*order.size) for it in pages] if order.size else pages
    return [it.turned(order.rotation) for it in pages]


def told(order: Order, package: Any, data: bytes, state: State, pages: List[bitmap.Page], fault: Any) -> bytes:
    """All that is known of a stream, as JSON."""
    chosen = pages if order.nth is None else pages[order.nth:][:1]
    listing = package.list(data, order.language, True, None, not order.as_it_came)
    found: Any = importlib.import_module('vp_recipes.remarks')
    remarks = found.remarks(data, order.language, tools.sheets.shipped(order.language), whole=not order.as_it_came)
    of: Dict[str, Any] = {
        'language': order.language, 'dots_a_millimetre': order.dpmm, 'count': len(pages),
        'images': [{'width': it.width, 'height': it.height,
                    'png': base64.b64encode(it.png(order.dpmm)).decode()} for it in chosen],
        'fault': {'number': f'F{fault.number}', 'byte': fault.byte, 'text': fault.text} if fault else None,
        'remarks': [{'byte': place, 'text': text} for place, text in remarks[:MOST_LINES]],
        'answers': answers(order, package, data, state),
        'listing': [{'byte': it.place, 'text': it.text} for it in listing[:MOST_LINES]],
    }
    return json.dumps(of).encode()


def answers(order: Order, package: Any, data: bytes, state: State) -> List[Dict[str, Any]]:
    """What is asked, and what a printer of this state answers."""
    found = []
    words = tools.words_of(order.language, order.as_it_came, order.width)
    for place, it in tools.part(package, 'requests').requests(data, order.language):
        if order.language == 'receipt':
            said = escpos.answer(it.name, it.arguments, state, tools.side_of(it, words))
        elif it.name == '^HV':
            said = zpl.field(data[:place], it.arguments)
        else:
            said = zpl.answer(it.name, it.arguments, state, zpl.work(data[:place], 0, 0, zpl.Work().darkness))
        found.append({'byte': place, 'asked': it.name, 'arguments': it.arguments.hex(' '), 'answer': said.hex(' ')})
        if len(found) >= MOST_LINES:
            break
    return found
