#!/usr/bin/env python3
"""found.py PACKAGE PYTHON: that each entry's types and code are found by the conditions of TypeScript's ways and of
bundlers, and are those of the form that is asked for; and that bounds are those of the package in the folder PYTHON."""
import json
import pathlib
import re
import sys


def found(entry, conditions):
    """What exports give for some conditions: the first that is among them, as its order says."""
    if isinstance(entry, str):
        return entry
    for condition, value in entry.items():
        if condition == 'default' or condition in conditions:
            it = found(value, conditions)
            if it:
                return it
    return None


WAYS = {'types by a bundler': ({'types', 'import'}, '.d.mts'),
        'types by node16': ({'types', 'node', 'import'}, '.d.mts'),
        'types by require': ({'types', 'node', 'require'}, '.d.ts'), 'node': ({'node', 'import'}, '.mjs'),
        'require': ({'node', 'require'}, '.js'), 'a bundler': ({'browser', 'module', 'import'}, '.mjs'),
        "a bundler's require": ({'browser', 'module', 'require'}, '.mjs'),
        'jest in a page': ({'browser', 'require'}, '.js')}


def bounded(folder):
    """That a print may come to as much as in Python, and that it is said in the same words."""
    sys.path.insert(0, folder)
    from vp.bounds import HELD, WHAT
    text = (pathlib.Path(__file__).parents[1] / 'src/bounds.js').read_text()
    own = dict(re.findall(r'most(\w+): ([\d_]+(?: << \d+)?)', re.search(r'DEFAULTS = \{(.*)\}', text)[1]))
    assert {name.lower(): eval(it) for name, it in own.items()} == HELD._asdict(), own
    words = dict(re.findall(r'(\w+): most => `(.*?)`', text))
    plain = {name: re.sub(r'\$?\{.*?\}', '..', it) for name, it in words.items()}
    assert plain == {name: re.sub(r'\{.*?\}', '..', it) for name, it in WHAT.items()}, plain


def main():
    package = pathlib.Path(sys.argv[1])
    bounded(sys.argv[2])
    exports = json.loads((package / 'package.json').read_text())['exports']
    for name, entry in exports.items():
        if isinstance(entry, str):
            assert (package / entry).is_file(), entry
            continue
        for way, (conditions, end) in WAYS.items():
            it = found(entry, conditions)
            if it is None:
                assert 'require' in conditions and 'require' not in entry, f'{name} by {way}'
                continue
            is_module = name != '.' and way == "a bundler's require"
            assert it.endswith('.js' if is_module else end) and (package / it).is_file(), f'{name} by {way}: {it}'
    of_browser = {way: found(exports['.'], it) for way, (it, _) in WAYS.items() if 'browser' in it}
    assert of_browser == {'a bundler': './browser.mjs', "a bundler's require": './browser.mjs',
                          'jest in a page': './index.js'}, of_browser


if __name__ == '__main__':
    main()
