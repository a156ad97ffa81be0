#!/usr/bin/env python3
"""The viewer as one page: in_page.py BROWSER PAGE PRINTED tests it in chromium, firefox or webkit, and with "streams"
behind that only prints the streams; in_page.py picture PAGE FILE [dark] draws it."""
import base64
import json
import pathlib
import signal
import sys
import tempfile
import time

HERE = pathlib.Path(__file__).resolve().parent
sys.path.insert(0, str(HERE.parent / 'viewer'))
from chromium import Chromium  # noqa: E402
from firefox import Firefox  # noqa: E402
from in_browser import ON_BOTH, READY, bytes_now, drawn, new_stream, printed, shown, type_at  # noqa: E402
from keeping import KEPT  # noqa: E402
from offline import test_offline  # noqa: E402
from saying import SAID, test_as_lint  # noqa: E402
from seeing import SEEN, test_files  # noqa: E402
from serving import RECEIPT, SHIPPING, same  # noqa: E402
from webkit import WebKit  # noqa: E402
from writing import WRITTEN  # noqa: E402

# A page that has the module, what prints by it, and what compares: it may run what it is told.
SAME = """<!DOCTYPE html><meta charset="utf-8"><script type="module">
import * as printer from '{vp}';
import {{ same }} from '{same}';
await printer.load(Uint8Array.from(atob('{module}'), it => it.charCodeAt(0)));
Object.assign(window, {{ printer, same }});
</script>"""


def script(file):
    return f'data:text/javascript;base64,{base64.b64encode(file.read_bytes()).decode()}'


def test_same(browser, room, streams):
    """What the module prints in a browser is what vp prints."""
    module = base64.b64encode((HERE.parents[2] / 'dist/vp.wasm').read_bytes()).decode()
    page = pathlib.Path(room, 'same.html')
    vp, compare = script(HERE.parents[1] / 'web/vp.js'), script(HERE / 'same.mjs')
    page.write_text(SAME.format(vp=vp, same=compare, module=module))
    # (a page with something that isn't saved would ask)
    browser.value('viewer.desk.tabs.forEach(it => { it.saved = it.bytes; })')
    browser.open(page.as_uri())
    browser.wait('window.same', 'the module')
    asked = json.loads(streams.read_text())
    count = 0
    for at in range(0, len(asked['streams']), 100):
        part = {**asked, 'seed': asked['seed'] + at, 'streams': asked['streams'][at:at + 100]}
        count += browser.value(f'same(printer, {json.dumps(part)})')
    print(f'{browser.name} {browser.version}: {count} streams are printed and listed as by vp')


def test_limits(browser):
    """A print that doesn't end is ended by the page, which goes on."""
    new_stream(browser, 'label')
    browser.value("document.getElementById('text').select()")
    text = '^XA^PW1248^LL8000' + '^BY10^BCR,1248^FDaaaaaaaaaaaaaaaaaaaaaaaa^FS' * 40 + '^PQ99999999^XZ'
    browser.insert(text)
    browser.wait(f"viewer.tab().said?.ended && {READY}", 'its end', 40)
    new_stream(browser, 'label')
    assert b'P4' in bytes(browser.value('[...viewer.tab().paper.subarray(0, 2)]'))


def test_whole(browser):
    """The page prints and lists by the whole language; without `all of it`, as the tests behind this do, by the profile."""
    new_stream(browser, 'label')
    browser.value("document.getElementById('text').select()")
    browser.insert('^XA^PW80^LL40^FO8,8^GC20,3^FS^XZ')
    has_ink = 'viewer.tab().paper.subarray(9).some(it => it)'
    listed = "viewer.tab().rows.some(it => it.kind === 'skip')"
    browser.wait(f'{READY} && {has_ink} && !{listed}', 'a circle')
    browser.click("document.getElementById('anew')")
    browser.wait(f'{READY} && !{has_ink} && {listed}', 'a circle that is skipped')


def test_alone(browser):
    """Nothing is asked of any other place, and what the page lacks isn't offered."""
    asked = "performance.getEntriesByType('resource').map(it => it.name)"
    same([it for it in browser.value(asked) if not it.startswith(('data:', 'blob:'))], [])


def test_followed(browser):
    """A file that the browser lets the page read again is followed."""
    first, second, third = (b'^XA^PW80^LL40^FO8,8^GB%d,8,8^FS^XZ\n' % n for n in (8, 16, 24))

    def put(data):
        browser.value(f'window.disk = {{ time: Date.now() + {len(data)}, data: Uint8Array.from({list(data)}) }}')
        browser.wait(f'String(viewer.tab().onDisk ?? viewer.tab().bytes) === String({list(data)})', "the file's bytes")

    browser.value("""(() => { window.disk = null; const handle = { name: 'disk.zpl',
      getFile: async () => new File([window.disk.data], 'disk.zpl', { lastModified: window.disk.time }) };
      window.showOpenFilePicker = async () => [handle];
      viewer.desk.printer.pick ??= () => viewer.desk.printer.picked(); })()""")
    browser.value(f'window.disk = {{ time: 1, data: Uint8Array.from({list(first)}) }}')
    browser.click("document.getElementById('open-file')")
    browser.wait("viewer.tab().name === 'disk.zpl'", 'the file')
    same(bytes_now(browser), first)
    put(second)
    same(drawn(browser), printed('label', second))
    type_at(browser, '^FS')
    browser.insert('^FR')
    put(third)
    browser.wait("!document.getElementById('changed').hidden", 'the question')
    same(bytes_now(browser), second.replace(b'^FS', b'^FR^FS'))
    browser.click("document.getElementById('take')")
    same(bytes_now(browser), third)


def opened(browser, page):
    start = time.monotonic()
    browser.open(page.as_uri())
    browser.wait(READY, 'the paper')
    return time.monotonic() - start


def test_first(browser):
    """The paper that the page shows first, and another example's."""
    same(browser.value('viewer.tab().name'), 'shipping.zpl')
    same(drawn(browser), printed('label', SHIPPING.read_bytes()))
    browser.value("(() => { const box = document.getElementById('examples'); box.value = [...box.options]"
                  ".find(it => it.text === 'receipt.bin').value; box.dispatchEvent(new Event('change')); })()")
    browser.wait("viewer.tab().name === 'receipt.bin'", 'the example')
    same(drawn(browser), printed('receipt', RECEIPT.read_bytes()))
    shown(browser, 'shipping.zpl')


def test_page(browser, room, page, streams, only_streams):
    opened(browser, page)
    if not only_streams:
        took = opened(browser, page)
        print(f'{browser.name}: the page is loaded, and has printed, in {1000 * took:.0f} ms')
        browser.size(2200, 1700)
        for test in (test_first, test_as_lint, test_whole, *SAID, *SEEN, *WRITTEN, *ON_BOTH, test_files, test_alone, test_followed,
                     *KEPT, test_limits):
            test(browser)
        same(browser.errors, [])
    test_same(browser, room, streams)
    same(browser.errors, [])
    if not only_streams:
        test_offline(browser, room, page)


def picture(room, page, name, dark):
    browser = Chromium(room, dark, 1440, 880)
    try:
        opened(browser, page)
        browser.wait("document.querySelectorAll('#listing .row').length > 10", 'the listing')
        time.sleep(0.5)
        browser.picture(name)
    finally:
        browser.close()


BROWSERS = {'chromium': Chromium, 'firefox': Firefox, 'webkit': WebKit}


def main():
    what, page, file, *more = sys.argv[1:]
    # (the browser is closed then)
    signal.signal(signal.SIGTERM, signal.default_int_handler)
    page = pathlib.Path(page).resolve()
    with tempfile.TemporaryDirectory() as room:
        if what == 'picture':
            picture(room, page, file, more == ['dark'])
            return
        browser = BROWSERS[what](room)
        try:
            test_page(browser, room, page, pathlib.Path(file), more == ['streams'])
        finally:
            browser.close()


if __name__ == '__main__':
    main()
