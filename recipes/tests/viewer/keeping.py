"""Tests that what is written stays over a reload, and that a link has the stream; and that neither runs anything."""
import base64
import json
import zlib
from in_browser import READY, bytes_now, choose, drop, new_stream
from serving import same

EVIL = '<img src=x onerror="window.hit=1"><script>window.hit=1</script>"\'><svg onload=window.hit=1>'


def label(browser, text):
    new_stream(browser, 'label')
    browser.value("document.getElementById('text').select()")
    browser.insert(text)
    browser.wait(READY, 'the paper')


def again(browser, address=None):
    """Loads the page anew, as a user does."""
    browser.value('window.isOld = true')
    browser.open(address or browser.value('location.href'))
    browser.wait(f'{"true" if address else "!window.isOld"} && {READY}', 'the page')


def test_kept_over_reload(browser):
    """Tabs, which one is seen, its bytes and choices stay; nothing asks, since nothing is lost."""
    text = '^XA^PW80^LL40^FO8,8^GB8,8,8^FS^FXkept^XZ'
    label(browser, text)
    # (of many tabs what is very long isn't kept)
    browser.value('viewer.desk.tabs.splice(0, viewer.desk.tabs.length - 1), 0')
    label(browser, text)
    choose(browser, 'unit', 'in')
    names = browser.value('viewer.desk.tabs.map(it => it.name)')
    again(browser)
    same(bytes_now(browser), text.encode())
    same(browser.value('[viewer.desk.tabs.map(it => it.name), viewer.paper.unit, viewer.tab().isUnsaved]'),
         [names, 'in', True])
    choose(browser, 'unit', 'mm')


def test_link(browser):
    """A link has the stream and opens it; with two it opens both compared; a broken one says so."""
    base = browser.value("location.href.replace(/#.*/, '')")
    text = '^XA^PW80^LL40^FO8,8^GB%d,8,8^FS^XZ'
    label(browser, text % 8)
    label(browser, text % 16)
    choose(browser, 'compare', browser.value("[...document.getElementById('compare').options].at(-2).value"))
    browser.wait("!document.getElementById('legend').hidden", 'the difference')
    # where nothing may be copied the link is shown
    clipboard = "Object.defineProperty(navigator, 'clipboard', { value: %s, configurable: true }), 0"
    browser.value(clipboard % 'undefined')
    browser.click("document.getElementById('share')")
    browser.wait("document.getElementById('link-dialog').open", 'the link')
    shown_link = browser.value("document.getElementById('link').value")
    browser.value("document.getElementById('link-dialog').close()")
    browser.value(clipboard % '{ writeText: async it => { window.copied = it; } }')
    browser.click("document.getElementById('share')")
    browser.wait('window.copied', 'the link')
    link = browser.value('window.copied')
    same(shown_link, link)
    packed = link.partition('#vp1.')[2]
    head, _, data = zlib.decompress(base64.urlsafe_b64decode(packed + '=' * (-len(packed) % 4)), -15).partition(b'\n')
    same([it['bytes'] for it in json.loads(head)], [len(text % 16), len(text % 8)])
    same(data.decode(), text % 16 + text % 8)
    again(browser, f'{base}#vp1.{packed}')
    browser.wait("document.getElementById('differs').textContent.includes('64 dots differ')", 'both compared')
    same([bytes_now(browser).decode(), browser.value('location.hash')], [text % 16, ''])
    # the same address with another fragment, as one that is put into it
    bomb = base64.urlsafe_b64encode(zlib.compress(b'[{"bytes":4}]\n' + bytes(20 << 20), 9)[2:-4]).decode()
    for fragment in '#vp1.AAAA', '#vp1.', '#vp1.!!!!', f'#vp1.{bomb}':
        browser.value("viewer.tab().error = ''")
        browser.value(f'location.hash = {json.dumps(fragment)}')
        browser.wait("viewer.tab().error.includes('cut or broken')", f'a broken link, {fragment[:20]}')
    same(bytes_now(browser).decode(), text % 16)
    browser.value(f'location.hash = {json.dumps("#" + EVIL)}')


def test_safe(browser):
    """Markup in names, streams, links and pasted texts is text; a script that gets in isn't run."""
    stem = EVIL.replace('/', '')
    drop(browser, stem.replace("'", "\\'"), json.dumps(f'^XA^FO9,9^B3N^FD{EVIL}^FS^F0{EVIL}^XZ{EVIL}'))
    browser.wait(f'viewer.tab().name.includes("onerror") && {READY}', 'the dropped stream')
    browser.wait('viewer.tab().told === viewer.tab().edits', 'remarks')
    browser.value("document.querySelectorAll('#remarks').forEach(it => { it.open = true; })")
    browser.value('''(text => { const clipboardData = new DataTransfer(); clipboardData.setData('text', text);
      document.body.dispatchEvent(new ClipboardEvent('paste',
        { clipboardData, data: text, dataType: 'text/plain', bubbles: true })); })(%s)''' % json.dumps(EVIL))
    head = json.dumps([{'name': EVIL, 'language': EVIL, 'bytes': len(EVIL), 'width': EVIL, 'wide': EVIL}]).encode()
    data = zlib.compress(head + b'\n' + EVIL.encode(), 9)[2:-4]
    browser.value(f'location.hash = {json.dumps("#vp1." + base64.urlsafe_b64encode(data).decode())}')
    browser.wait(f'viewer.tab().bytes.length === {len(EVIL)} && {READY}', 'the linked stream')
    browser.value("dispatchEvent(new Event('beforeprint'))")
    # what would run, were it put into the page: by name, by address, as text
    browser.value("""(() => { for (const it of ['data:text/javascript,window.hit=1',
        URL.createObjectURL(new Blob(['window.hit = 1'], { type: 'text/javascript' })), '']) {
      const script = document.createElement('script');
      if (it) script.src = it; else script.textContent = 'window.hit = 1';
      document.head.append(script); }
      const box = document.createElement('div'); box.innerHTML = '<img src=x onerror="window.hit=1">';
      document.body.append(box); })()""")
    browser.value('new Promise(done => setTimeout(done, 400))')
    same(browser.value('[window.hit ?? 0, document.querySelectorAll("main img, main svg, header img").length]'), [0, 0])


# What holds of the page by itself alone, whose bytes stay in the browser.
KEPT = test_kept_over_reload, test_link, test_safe
