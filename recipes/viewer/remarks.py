#!/usr/bin/env python3
"""remarks.py ASKED < STREAM: what lint says of a stream, as JSON: how many bytes come before it, and its words.

ASKED is JSON: the language, the words that name the sheets, the words that run vp, whether by the whole language.
"""
import json
import os
import resource
import sys

sys.path.insert(0, os.path.dirname(os.path.dirname(os.path.realpath(__file__))))
from vp_recipes.remarks import remarks  # noqa: E402

# So many remarks are told, and so much memory is taken at most.
MOST, MOST_MEMORY = 2000, 1 << 29

resource.setrlimit(resource.RLIMIT_AS, (MOST_MEMORY, resource.getrlimit(resource.RLIMIT_AS)[1]))
language, sheets, vp, whole = json.loads(sys.argv[1])
found = [list(it) for it in remarks(sys.stdin.buffer.read(), language, sheets, vp, whole=whole)]
if len(found) > MOST:
    found[MOST:] = [[None, f'{len(found) - MOST:,} remarks more']]
json.dump(found, sys.stdout)
