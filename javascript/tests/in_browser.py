#!/usr/bin/env python3
"""in_browser.py BROWSER PRINTED DIFFERS BUNDLE..: in chromium, firefox or webkit the bundles of page.mjs, each on the
streams that printed.py wrote, and the page of a difference, whose link opens both streams compared."""
import json
import pathlib
import sys
import tempfile

HERE = pathlib.Path(__file__).resolve().parent
sys.path[:0] = [str(HERE.parents[1] / f'recipes/tests/{it}') for it in ('viewer', 'web')]
from chromium import Chromium  # noqa: E402
from firefox import Firefox  # noqa: E402
from webkit import WebKit  # noqa: E402

BROWSERS = {'chromium': Chromium, 'firefox': Firefox, 'webkit': WebKit}


def bundled(browser, room, printed, bundle):
    page = pathlib.Path(room, 'page.html')
    page.write_text(f'<!DOCTYPE html><meta charset="utf-8"><script src="{bundle.as_uri()}"></script>')
    browser.open(page.as_uri())
    browser.wait('window.same', 'the bundle')
    assert browser.value('tried()') == 'ok'
    count = 0
    for at in range(0, len(printed['streams']), 100):
        part = {**printed, 'seed': printed['seed'] + at, 'streams': printed['streams'][at:at + 100]}
        count += browser.value(f'same({json.dumps(part)})')
    assert not browser.errors, browser.errors
    print(f'{browser.name} {browser.version}, {bundle.name}: {count} streams are printed as by vp')


def linked(browser, differs):
    browser.open(differs.as_uri())
    browser.wait("document.querySelector('img')?.naturalWidth > 0", 'the picture')
    browser.click("document.querySelector('a')")
    # (the text changes until both are printed)
    said = "document.getElementById('differs')?.textContent"
    browser.wait(f"/^expected: [\\d,]+ dots? differs?$/.test({said})", 'both papers')
    names = browser.value("[...document.querySelectorAll('#tabs [role=tab]')].map(it => it.textContent)")
    assert all(any(it in name for name in names) for it in ('printed', 'expected')), names
    print(f"{browser.name}: the link of a difference opens both papers: {browser.value(said)}")


def main():
    name, printed, differs, *bundles = sys.argv[1:]
    with tempfile.TemporaryDirectory(ignore_cleanup_errors=True) as room:
        browser = BROWSERS[name](room)
        try:
            for it in bundles:
                bundled(browser, room, json.loads(pathlib.Path(printed).read_text()), pathlib.Path(it).resolve())
            linked(browser, pathlib.Path(differs).resolve())
        finally:
            browser.close()


if __name__ == '__main__':
    main()
