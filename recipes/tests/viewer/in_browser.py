"""Tests the viewer's page in a browser."""
import concurrent.futures
import json
import pathlib
import random
import re
import struct
import subprocess
import zlib
from serving import RECEIPT, VP, Viewer, same, vp, wait

READY = 'window.viewer && viewer.fits() && viewer.tab().listed === viewer.tab().edits'
# The dots that the canvas shows of its first image at zoom 1, as vp writes them.
DOTS = '''(() => {
  const { paper } = viewer, { x, y, wide, high } = paper.placed[0];
  const seen = paper.canvas.getContext('2d').getImageData(x, y, wide, high).data;
  let rows = '';
  for (let row = 0; row < high; row++) {
    for (let from = 0; from < wide; from += 8) {
      let byte = 0;
      for (let n = 0; n < 8; n++) {
        const at = 4 * (row * wide + from + n);
        if (from + n >= wide) { byte <<= 1; continue; }
        if (seen[at] !== seen[at + 1] || seen[at] % 255) return `another colour at ${from + n}, ${row}`;
        byte = byte << 1 | (seen[at] === 0);
      }
      rows += byte.toString(16).padStart(2, '0');
    }
  }
  return rows;
})()'''

FRAME = 'new Promise(done => requestAnimationFrame(() => requestAnimationFrame(done)))'
TEXTS = "[...document.querySelectorAll('%s')].map(it => it.textContent).join('')"


def drawn(browser):
    """The dots of the canvas, once what was typed last is drawn."""
    browser.wait(READY, 'the paper')
    # (the pointer, which may stand over the paper, would show a box)
    browser.value("delete viewer.paper.setHover, viewer.paper.setHover(null), viewer.paper.setHover = () => {}, 0")
    browser.value("document.activeElement.blur(), document.querySelector('[data-zoom=\"1\"]').click()")
    browser.value(FRAME)
    browser.value('viewer.paper.setMark(null)')
    browser.value(FRAME)
    return browser.value(DOTS)


def printed(language, data):
    """The rows of all images of one width, in hex."""
    rest, rows = vp(language, data), b''
    while rest:
        head = re.match(rb'P4\n(\d+) (\d+)\n', rest)
        size = (int(head[1]) + 7) // 8 * int(head[2])
        rows, rest = rows + rest[head.end():head.end() + size], rest[head.end() + size:]
    return rows.hex()


def new_stream(browser, kind):
    browser.click(f"document.getElementById('new-{kind}')")
    browser.wait(f"viewer.tab().name.startsWith('new') && viewer.tab().language === '{kind}'", 'a new stream')
    browser.wait(READY, 'its paper')


def bytes_now(browser):
    return bytes(browser.value('[...viewer.tab().bytes]'))


def test_typing(browser):
    """A label that is typed key by key: the canvas's dots are those of vp."""
    new_stream(browser, 'label')
    browser.value("document.getElementById('text').select()")
    label = '^XA^PW400^LL120\n^FO8,8^A0N,48,24^FDTyped here^FS\n^FO8,64^GB300,40,3^FS^XZ'
    for char in label:
        browser.key('\r' if char == '\n' else char)
    same(bytes_now(browser), label.encode())
    same(drawn(browser), printed('label', label.encode()))


def test_speed(browser):
    """From each key in the shipping label to its dots: 100 ms are aimed at, on a machine that does nothing else."""
    browser.value("document.querySelector('#tabs [role=tab]').click()")
    browser.wait(READY, 'the paper')
    browser.value('''(() => { const area = document.getElementById('text');
      const at = area.value.indexOf('Marta'); area.focus();
      area.setSelectionRange(at, at); viewer.took.length = 0; })()''')
    for char in 'Captain Nemo, ':
        count = browser.value('viewer.took.length')
        browser.key(char)
        browser.wait(f'viewer.took.length > {count}', 'dots of a key')
    took = sorted(browser.value('viewer.took'))
    print(f'viewer: from key to dots {took[len(took) // 2]:.0f} ms, at most {took[-1]:.0f} ms')
    assert b'Captain Nemo, Marta' in bytes_now(browser)
    same(drawn(browser), printed('label', bytes_now(browser)))


def test_mark(browser):
    """A line of the listing marks its bytes; the cursor marks the line."""
    browser.value("document.querySelectorAll('#tabs [role=tab]')[0].click()")
    browser.wait(READY, 'the paper')
    row = "[...document.querySelectorAll('#listing .row')].find(it => it.textContent.includes('^LL1218'))"
    browser.wait(row, 'its line in the listing')
    browser.click(row)
    browser.wait("document.querySelector('.layer .chosen')", 'the mark')
    same(browser.value(TEXTS % '.layer .chosen'), '^LL1218')
    browser.value('''(() => { const area = document.getElementById('text'); area.focus();
      const at = area.value.indexOf('HARBOUR') + 3; area.setSelectionRange(at, at); })()''')
    browser.wait("document.querySelector('#listing [aria-selected=true]')?.textContent.includes('HARBOUR PARCEL')",
                 "the cursor's line")
    # by keys alone
    browser.value("document.getElementById('listing').focus()")
    browser.press('ArrowDown', 40)
    browser.wait("document.querySelector('#listing [aria-selected=true]')?.textContent.includes('^FS')",
                 'the next line')


def test_fault(browser):
    """A command that is broken is marked at its byte, in words."""
    new_stream(browser, 'receipt')
    browser.value('''(() => { const area = document.getElementById('text'); area.focus();
      const at = area.value.indexOf('from'); area.setSelectionRange(at, at); })()''')
    for char in '\\x1b\\x7f':
        browser.key(char)
    browser.wait(f"{READY} && document.querySelector('.note.fault')?.textContent.endsWith('7F')", 'the fault')
    data = bytes_now(browser)
    at = data.index(b'\x1b\x7f') + 2
    same(browser.value("document.querySelector('.note.fault').textContent"), 'F1 unknown command 1B 7F')
    same(browser.value("document.querySelector('.message.fault span').textContent"),
         f'F1 after {at} bytes: unknown command 1B 7F')
    same(browser.value(TEXTS % '.layer span.fault:not(.note)'), '\\x1b\\x7f')
    # another language: it is said, and one button reads it so
    new_stream(browser, 'label')
    browser.value('''(() => { const box = document.getElementById('language');
      box.value = 'receipt'; box.dispatchEvent(new Event('change')); })()''')
    browser.wait("[...document.querySelectorAll('.message')].some(it => it.textContent.includes('looks like a label'))",
                 'the other language')


def drop(browser, name, stream):
    """Drops a file of what a script gives."""
    browser.value("""(() => { const files = new DataTransfer(); files.items.add(new File([%s], '%s'));
      dispatchEvent(new DragEvent('drop', { dataTransfer: files, cancelable: true })); })()""" % (stream, name))


def test_drop(browser):
    """A receipt that is dropped: every byte is kept, and its dots are those of vp."""
    data = RECEIPT.read_bytes()
    drop(browser, 'till.bin', f'Uint8Array.from({list(data)})')
    browser.wait("viewer.tab().name === 'till.bin'", 'the dropped stream')
    same(browser.value('viewer.tab().language'), 'receipt')
    same(bytes_now(browser), data)
    same(drawn(browser), printed('receipt', data))
    browser.value('''(() => { const area = document.getElementById('text'); area.focus();
      const at = area.value.indexOf('Milk'); area.setSelectionRange(at, at + 4); })()''')
    browser.insert('Beer')
    same(bytes_now(browser), data.replace(b'Milk', b'Beer'))
    same(drawn(browser), printed('receipt', data.replace(b'Milk', b'Beer')))
    # (Firefox makes such an event of its data's text)
    browser.value('''(text => { const clipboardData = new DataTransfer(); clipboardData.setData('text', text);
      document.body.dispatchEvent(new ClipboardEvent('paste',
        { clipboardData, data: text, dataType: 'text/plain', bubbles: true })); })(%s)'''
                  % json.dumps('\\x1b@pasted\\n\n'))
    browser.wait("viewer.tab().name === 'pasted'", 'the pasted stream')
    same(bytes_now(browser), b'\x1b@pasted\n')


def test_compare(browser):
    """Two labels that differ in a box: red and blue dots, and how many."""
    new_stream(browser, 'label')
    base = '^XA^PW80^LL40^FO8,8^GB8,8,8^FS%s^XZ'
    for box in '^FO32,8^GB8,8,8^FS', '^FO48,8^GB8,4,4^FS':
        new_stream(browser, 'label')
        browser.value("document.getElementById('text').select()")
        browser.insert(base % box)
        browser.wait(READY, 'the paper')
    browser.value('''(() => { const box = document.getElementById('compare');
      box.value = [...box.options].filter(it => it.text.startsWith('new')).at(-1).value;
      box.dispatchEvent(new Event('change')); })()''')
    browser.wait("document.getElementById('differs').textContent.includes('96 dots differ')", 'the difference')
    browser.value("document.querySelector('[data-zoom=\"1\"]').click()")
    browser.value(FRAME)
    colours = browser.value('''[[10, 10], [34, 10], [50, 10], [50, 14], [70, 35]].map(([x, y]) => {
      const { x: left, y: top } = viewer.paper.placed[0];
      const seen = viewer.paper.canvas.getContext('2d').getImageData(left + x, top + y, 1, 1).data;
      return [...seen].slice(0, 3).join(); })''')
    same(colours, ['150,150,150', '214,30,50', '0,90,220', '255,240,170', '255,255,255'])


def type_at(browser, text, typed='', more=0):
    """Puts the cursor before a text of the editor, or so many characters behind it, and types there."""
    browser.value("""((text, more) => { const area = document.getElementById('text'); area.focus();
      const at = area.value.indexOf(text) + more;
      area.setSelectionRange(at, at); })(%s, %d)""" % (json.dumps(text), more))
    for char in typed:
        browser.key(char)


def shown(browser, name):
    browser.value("[...document.querySelectorAll('#tabs [role=tab]')].find(it => it.textContent === %s).click()"
                  % json.dumps(name))
    browser.wait(READY, 'the paper')


def control(browser, key, code, shift=False):
    browser.press(key, code, 2 + 8 * shift)


def test_changed(browser, file):
    """A followed file that changes: without edits it is taken, under edits it is asked; all of it can be taken back."""
    first, second, third = (b'^XA^PW80^LL40^FO8,8^GB%d,8,8^FS^XZ\n' % n for n in (8, 16, 24))
    shown(browser, 'followed.zpl')
    file.write_bytes(second)
    browser.wait(f"viewer.tab().bytes.length === {len(second)} && {READY}", "the file's bytes")
    same(bytes_now(browser), second)
    type_at(browser, '^FS')
    browser.insert('^FR')
    mine = second.replace(b'^FS', b'^FR^FS')
    file.write_bytes(third)
    browser.wait("!document.getElementById('changed').hidden", 'the question')
    same(bytes_now(browser), mine)
    browser.click("document.getElementById('compare-file')")
    browser.wait("document.getElementById('differs').textContent.includes('64 dots differ')", 'the difference')
    browser.click("document.getElementById('take')")
    browser.wait(f"viewer.tab().bytes.length === {len(third)}", "the file's bytes")
    same([bytes_now(browser), browser.value("document.getElementById('changed').hidden")], [third, True])
    for expected in mine, second, first:
        control(browser, 'z', 90)
        browser.wait(f'viewer.tab().bytes.length === {len(expected)}', 'what was taken back')
        same(bytes_now(browser), expected)
    for expected in second, mine, third:
        control(browser, 'z', 90, shift=True)
        browser.wait(f'viewer.tab().bytes.length === {len(expected)}', 'what was done again')
        same(bytes_now(browser), expected)
    control(browser, 'z', 90)
    same(bytes_now(browser), mine)


def test_kept(browser, file):
    """What was written stays where it is kept in place of the file's; undo goes on; leaving asks."""
    first, second = (b'^XA^PW80^LL40^FO8,8^GB%d,8,8^FS^XZ\n' % n for n in (8, 16))
    mine = bytes_now(browser)
    file.write_bytes(first)
    browser.wait("!document.getElementById('changed').hidden", 'the question')
    shown(browser, 'shipping.zpl')
    assert browser.value("document.getElementById('changed').hidden")
    shown(browser, 'followed.zpl')
    browser.click("document.getElementById('keep')")
    browser.wait("document.getElementById('changed').hidden", 'no question')
    same(bytes_now(browser), mine)
    # leaving asks, as long as it isn't saved
    browser.ask('Page.reload')
    wait(lambda: browser.value('1') and browser.dialogs == ['beforeunload'])
    same(bytes_now(browser), mine)
    same(saved(browser, 'save-stream'), mine)
    same(browser.value('viewer.tab().isUnsaved'), False)
    control(browser, 'z', 90)
    same(bytes_now(browser), second)
    # a tab that isn't seen takes the file's bytes, too
    file.write_bytes(second)
    browser.wait('viewer.tab().kept.length === viewer.tab().bytes.length', "the file's bytes")
    shown(browser, 'shipping.zpl')
    file.write_bytes(first)
    browser.wait(f"viewer.desk.tabs.find(it => it.name === 'followed.zpl').bytes.length === {len(first)}", 'the change')
    shown(browser, 'followed.zpl')
    same([bytes_now(browser), browser.value("document.getElementById('changed').hidden")], [first, True])
    browser.value("document.getElementById('text').focus()")
    control(browser, 'z', 90)
    same(bytes_now(browser), second)


def test_parts(browser):
    """Of a long stream one part is in the editor: what is written in it, and taken back, leaves all other bytes."""
    for name, text in ('letters.zpl', 'é' * 50000), ('lines.zpl', 'abcdefgh\r\n' * 10000):
        stream = '^FX' + text
        data = stream.encode()
        drop(browser, name, json.dumps(stream))
        browser.wait(f"viewer.tab().name === '{name}' && {READY}", name)
        same(browser.value("document.getElementById('view').value"), 'text')
        browser.value("document.getElementById('part-after').click()")
        at, end = browser.value('[viewer.tab().from, viewer.tab().to]')
        assert 0 < at < end < len(data) or end == len(data), (at, end)
        browser.value("""(() => { const area = document.getElementById('text'); area.focus();
          area.setSelectionRange(1, 2); })()""")
        browser.insert('ü')
        one = len(stream.encode()[at:].decode()[0].encode())
        cut = len('\r\n') if data[at:at + 2] == b'\r\n' else one
        lost = len('\r\n') if data[at + cut:at + cut + 2] == b'\r\n' else one
        changed = data[:at + cut] + 'ü'.encode() + data[at + cut + lost:]
        same(bytes_now(browser) == changed, True)
        browser.value("document.getElementById('part-before').click(), document.getElementById('text').focus()")
        control(browser, 'z', 90)
        same([bytes_now(browser) == data, browser.value('viewer.tab().isUnsaved')], [True, False])


def test_closing(browser):
    new_stream(browser, 'label')
    type_at(browser, 'Hello', 'x')
    close = "document.querySelector('.tab[data-on] .close')"
    count = browser.value('viewer.desk.tabs.length')
    browser.click(close)
    browser.wait("document.getElementById('close-dialog').open", 'the question')
    browser.press('Escape', 27)
    browser.wait("!document.getElementById('close-dialog').open", 'the page')
    same([browser.value('viewer.desk.tabs.length'), b'xHello' in bytes_now(browser)], [count, True])
    browser.click(close)
    browser.wait("document.getElementById('close-dialog').open", 'the question')
    browser.click("document.querySelector('#close-dialog [value=close]')")
    browser.wait(f'viewer.desk.tabs.length === {count - 1}', 'one tab less')


def test_remarks_line(browser):
    """Remarks are one line that opens, and stand over no text."""
    new_stream(browser, 'receipt')
    browser.value("document.getElementById('text').select()")
    browser.insert('\\x81\\x01\\x1b{\\x01\\x7f\\x7f\\x1dI\\x01Price\\n\n')
    browser.wait('viewer.tab().told === viewer.tab().edits && viewer.tab().remarks.length', 'remarks')
    same(browser.value("document.querySelector('#remarks summary').textContent"),
         '1 byte without a character, 1 command read past')
    same(browser.value("document.getElementById('remarks').open"), False)
    same(browser.value("document.querySelectorAll('.note').length"), 0)
    browser.click("document.querySelector('#remarks summary')")
    browser.wait("document.getElementById('remarks').open", 'all remarks')
    browser.click("[...document.querySelectorAll('#remarks button')].find(it => it.textContent.includes('ESC {'))")
    same(browser.value("document.getElementById('text').selectionStart"), 8)


def test_dimmed(browser):
    """While a command is being typed the paper that was printed before stays, dimmed."""
    new_stream(browser, 'label')
    browser.value("document.getElementById('text').select()")
    browser.insert('^XA^PW80^LL40^FO8,8^GB8,8,8^FS^XZ')
    browser.wait(READY, 'the paper')
    browser.value("document.querySelector('[data-zoom=\"1\"]').click()")
    type_at(browser, '^XZ', '^GFA,1,2')
    browser.wait(f'viewer.tab().fault && {READY}', 'the fault')
    same(browser.value(FRAME + ".then(() => 0)"), 0)
    at = """((x, y) => { const { paper } = viewer, { x: left, y: top } = paper.placed[0];
      return [...paper.canvas.getContext('2d').getImageData(left + x, top + y, 1, 1).data].slice(0, 3).join(); })"""
    same([browser.value(f'{at}(12, 12)'), browser.value(f'{at}(40, 30)')], ['150,154,160', '226,229,233'])
    same(browser.value("document.getElementById('dot').textContent"), 'dimmed: what was printed before')
    for _ in '^GFA,1,2':
        browser.press('Backspace', 8)
    browser.wait(f'!viewer.tab().fault && {READY}', 'no fault')
    browser.value("document.activeElement.blur()")
    browser.value(FRAME)
    same([browser.value(f'{at}(12, 12)'), browser.value(f'{at}(40, 30)')], ['0,0,0', '255,255,255'])


def click_dot(browser, x, y, sheet=0):
    """Clicks a dot of the paper, at zoom 1."""
    browser.value("document.querySelector('[data-zoom=\"1\"]').click()")
    browser.value(f'viewer.paper.bring({sheet}, {x}, {y})')
    browser.value(FRAME)
    place = browser.value("""((x, y) => { const { paper } = viewer, box = paper.scroll.getBoundingClientRect();
      const { x: left, y: top } = paper.placed[%d];
      return [box.x + (left + x + .5) / paper.ratio - paper.scroll.scrollLeft,
              box.y + (top + y + .5) / paper.ratio - paper.scroll.scrollTop]; })(%d, %d)""" % (sheet, x, y))
    browser.value('viewer.tab().chosen = null')
    browser.click_at(*place)
    browser.wait('viewer.tab().chosen', f'what drew {x}, {y}')
    start, end = browser.value('[viewer.tab().chosen.from, viewer.tab().chosen.to]')
    browser.wait("document.activeElement.id === 'text'", 'the editor')
    return bytes_now(browser)[start:end]


def marked(browser, text, more=0):
    """Where the dots are that the cursor at a text shows: left, top, width and height."""
    browser.value("document.getElementById('text').blur()")
    browser.wait('!viewer.paper.mark', 'no mark')
    type_at(browser, text, more=more)
    browser.wait('viewer.paper.mark', f'the dots of {text}')
    return browser.value('(({ sheet, x, y, width, height }) => [sheet, x, y, width, height])(viewer.paper.mark)')


def test_origins(browser):
    """A click on the paper goes to the bytes that drew it, and the cursor shows its dots."""
    boxes = [b'^FO8,8^GB20,12,2^FS', b'^FO40,8^FR^GB16,16,16^FS', b'^FO44,12^GB4,4,4,W^FS']
    label = b'^XA^PW80^LL40^LH2,1' + b''.join(boxes) + b'^PQ2^XZ^XA' + b'^FO8,8^GB9,9,9^FS^XZ'
    new_stream(browser, 'label')
    browser.value("document.getElementById('text').select()")
    browser.insert(label.decode())
    browser.wait(READY, 'the paper')
    same(browser.value('viewer.tab().sheets.length'), 3)
    for x, y, found in (10, 9, 0), (15, 13, 0), (43, 10, 1), (47, 15, 2), (80 - 1, 40 - 1, None):
        if found is not None:
            same(click_dot(browser, x, y, 1), boxes[found])
    same(click_dot(browser, 14, 12, 2), b'^FO8,8^GB9,9,9^FS')
    same(marked(browser, 'GB20'), [0, 10, 9, 20, 12])
    same(marked(browser, 'W^FS'), [0, 46, 13, 4, 4])
    same(marked(browser, 'GB9'), [2, 10, 9, 9, 9])
    # a receipt: its lines, a raster, and what is laid on a page
    lines = [b'One\n', b'\x1ba\x01Two\n', b'\x1dv0\0\x01\0\x03\0\xff\x81\xff',
             b'\x1bL\x1bW\x08\0\x08\0\x40\0\x40\0', b'AB\n', b'C', b'\x0c', b'Last\n']
    drop(browser, 'origins.bin', 'Uint8Array.from(%s)' % list(b''.join(lines)))
    browser.wait(f"viewer.tab().name === 'origins.bin' && {READY}", 'the paper')
    same([it['height'] for it in browser.value('viewer.tab().sheets[0].strips')], [34, 34, 3, 72, 34])
    same(click_dot(browser, 100, 5), lines[0])
    same(click_dot(browser, 280, 40), lines[1])
    same(click_dot(browser, 284, 69), lines[2])
    # rows 71 to 142 are the page: A from 8, B from 20, C a line below
    for x, y, found in (14, 71 + 20, b'A'), (26, 71 + 20, b'B'), (14, 71 + 34 + 20, b'C'):
        same(click_dot(browser, x, y), found)
    same(marked(browser, 'Two'), [0, 0, 34, 576, 34])
    same(marked(browser, 'Last'), [0, 0, 143, 576, 34])
    _, x, y, width, height = marked(browser, 'C\\x0cLast')
    assert 8 <= x < 20 and 71 + 8 + 34 <= y and x + width <= 20 and y + height <= 143, (x, y, width, height)


def test_names(browser):
    """A receipt's commands by their names beside their bytes; of all that vp reads none is without one."""
    shown(browser, 'receipt.bin')
    browser.value(FRAME)
    rows = browser.value("""[...document.querySelectorAll('#listing .row')].map(it =>
        [...it.children].map(one => one.textContent))""")
    for named in ['ESC @', 'begin anew'], ['GS ! 11', 'size 2 × 2'], ['LF', 'print line']:
        assert any(it[1:3] == named for it in rows), (named, rows)
    read = commands()
    assert len(read) > 300, read
    missing = browser.value(f"{json.dumps(read)}.filter(text => !viewer.named({{ text, count: 0 }}, 'receipt').words)")
    same(missing, [])


def commands():
    """The items of all commands that vp reads: each byte behind each lead, as far as it is no unknown command."""
    def first(start):
        ran = subprocess.run([VP, 'list', '--lang', 'receipt'], input=bytes.fromhex(start) + bytes(64),
                             stdout=subprocess.PIPE, stderr=subprocess.PIPE)
        return '' if b' F1 ' in ran.stderr else ran.stdout.decode().split('\n')[0]

    starts = [f'{lead}{byte:02x}' for lead in ('1b', '1d', '1c', '10', '1d28', '1d38', '1b63') for byte in range(256)]
    starts += ['1d763000080001', *(f'1d286b0400' f'31{it:02x}' for it in range(0x41, 0x52))]
    with concurrent.futures.ThreadPoolExecutor(4) as at_once:
        return sorted({it for it in at_once.map(first, starts) if it})


def saved(browser, button):
    """The bytes that a button saves."""
    browser.value("""(() => { if (window.saved) return; window.saved = []; const old = URL.createObjectURL;
      URL.createObjectURL = blob => { saved.push(blob); return old.call(URL, blob); }; })()""")
    count = browser.value('saved.length')
    browser.click(f"document.getElementById('{button}')")
    browser.wait(f'saved.length > {count}', 'a file')
    return bytes(browser.value('saved[saved.length - 1].arrayBuffer().then(it => [...new Uint8Array(it)])'))


def choose(browser, box, value):
    browser.value("""((box, value) => { box.value = value; box.dispatchEvent(new Event('change')); })
      (document.getElementById(%s), %s)""" % (json.dumps(box), json.dumps(value)))


def test_sizes(browser):
    """Dots a millimetre, a size from outside, and the paper as PNG and PDF in its true size."""
    new_stream(browser, 'label')
    browser.value("document.getElementById('text').select()")
    browser.insert('^XA^FO8,8^GB8,8,8^FS^XZ')
    browser.wait(READY, 'the paper')
    size = '(({ width, height }) => [width, height])(viewer.tab().sheets[0])'
    same(browser.value(size), [832, 1218])
    choose(browser, 'wide', '40')
    choose(browser, 'high', '20')
    browser.wait(f'viewer.tab().sheets[0]?.width === 320 && {READY}', 'its size')
    same(browser.value(size), [320, 160])
    same(browser.value('viewer.tab().rows.map(it => it.place)'), [3, 10, 18, 20, 23])
    type_at(browser, '^FS', '^GFA,1,2')
    browser.wait(f'viewer.tab().fault && {READY}', 'the fault')
    same(browser.value('viewer.tab().fault.place'), len('^XA^FO8,8^GB8,8,8^GFA,1,2^'))
    control(browser, 'z', 90)
    choose(browser, 'dpmm', '12')
    browser.wait(f'viewer.tab().sheets[0]?.width === 480 && {READY}', 'its size')
    same(marked(browser, 'GB8'), [0, 8, 8, 8, 8])
    data, picture = saved(browser, 'save-pdf'), saved(browser, 'save-png')
    dots = vp('label', b'^XA^PW480^LL240^FO8,8^GB8,8,8^FS^XZ')[len(b'P4\n480 240\n'):]
    box = [float(it) for it in re.search(rb'/MediaBox \[0 0 ([\d.]+) ([\d.]+)\]', data).groups()]
    assert all(abs(it - mm * 72 / 25.4) < .01 for it, mm in zip(box, (40, 20))), box
    image = re.search(rb'/Width (\d+) /Height (\d+) /Length (\d+) >>\nstream\n', data)
    same(image.groups()[:2], (b'480', b'240'))
    same(zlib.decompress(data[image.end():image.end() + int(image[3])]), dots)
    table = int(re.search(rb'startxref\n(\d+)', data)[1])
    assert data[table:].startswith(b'xref\n0 6\n'), data[table:]
    for n, place in enumerate(re.findall(rb'(\d{10}) 00000 n \n', data[table:])):
        assert data[int(place):].startswith(b'%d 0 obj\n' % (n + 1)), n
    assert b'pHYs' + struct.pack('>IIB', 12000, 12000, 1) in picture
    choose(browser, 'dpmm', '8')


def test_tabs(browser):
    """Many tabs: none is cut, and no two have one name."""
    browser.size(1280, 800)
    for _ in range(10):
        new_stream(browser, 'label')
    names, cut = browser.value("""(() => { const tabs = [...document.querySelectorAll('#tabs .tab')];
      const box = document.getElementById('tabs').getBoundingClientRect();
      const isCut = it => {
        const { left, right } = it.getBoundingClientRect(), name = it.querySelector('.name');
        return left < box.left || right > box.right || name.scrollWidth > name.clientWidth; };
      return [tabs.map(it => it.querySelector('.name').textContent), tabs.filter(isCut).map(it => it.textContent)];
      })()""")
    assert len(names) > 12 and len(set(names)) == len(names), names
    same(cut, [])
    same(browser.value("""(() => { const tab = document.querySelector('#tabs .tab[data-on]').getBoundingClientRect();
      const box = document.getElementById('tabs').getBoundingClientRect();
      return tab.top >= box.top && tab.bottom <= box.bottom + 1; })()"""), True)
    browser.size(2200, 1700)


def test_count(browser):
    """Of many images the first are shown, and all are counted."""
    new_stream(browser, 'label')
    browser.value("document.getElementById('text').select()")
    browser.insert('^XA^PW80^LL8^FO0,0^GB8,8,8^FS^PQ70^XZ')
    browser.wait(READY, 'the paper')
    said = "[viewer.tab().sheets.length, viewer.paper.total, document.querySelector('.message').textContent]"
    same(browser.value(said), [64, '70', 'the first 64 of 70 images are shown'])
    type_at(browser, '0^XZ', '9999999')
    browser.wait(f"viewer.paper.total.startsWith('more than') && {READY}", 'endless images', 60)
    same(browser.value(said)[0], 64)


def test_large(browser):
    """Four megabytes of one letter, and two million lines: printed and listed in parts, within bounds."""
    for name, stream in ('letters.bin', "'a'.repeat(4 << 20)"), ('lines.bin', "'a\\n'.repeat(2 << 20)"):
        drop(browser, name, stream)
        browser.wait(f"viewer.tab().name === '{name}' && {READY}", name, 120)
        count, cut = browser.value('[viewer.tab().rows.length, viewer.tab().cut]')
        heap = browser.value('performance.memory.usedJSHeapSize')
        assert (count, cut) == ((1, '') if name == 'letters.bin' else
                                (200000, 'the listing goes on: its first 200,000 lines are shown')), (count, cut)
        if name == 'letters.bin':
            same(browser.value('[viewer.tab().rows[0].count, viewer.tab().rows[0].to]'), [4 << 20, 4 << 20])
        assert heap < 400 << 20, heap
        new_stream(browser, 'label')


def test_escapes(browser):
    """Any bytes are kept by their escapes, and those that are a text by the text."""
    random.seed(1)
    for size in 1, 7, 300, 5000:
        data = random.randbytes(size)
        same(browser.value('[...viewer.toBytes(viewer.toEscapes(Uint8Array.from(%s)), null).bytes]' % list(data)),
             list(data))
    for text in 'a\\\\\n', '^XA\r\nü\r\n', 'x\n\ny', '':
        data = list(text.encode())
        same(browser.value('''(bytes => { const end = viewer.endsOf(bytes);
            return [...viewer.toBytes(viewer.toText(bytes, end), end).bytes]; })(Uint8Array.from(%s))''' % data), data)
    for data in b'a\rb\n', b'a\r\nb\n', b'\xff', b'\x1b@':
        same(browser.value('viewer.endsOf(Uint8Array.from(%s))' % list(data)), None)


def test_long(browser):
    """A paper of 5 MB is drawn by parts: how long each step of its scrolling takes."""
    rows = 69000
    browser.value('''(rows => {
      const head = Uint8Array.of(0x1d, 0x76, 0x30, 0, 72, 0, rows & 255, rows >> 8);
      const bytes = new Uint8Array(8 + 72 * rows);
      bytes.set(head);
      for (let at = 8; at < bytes.length; at++) bytes[at] = at * 2654435761 >>> 24;
      const files = new DataTransfer();
      files.items.add(new File([bytes], 'long.bin'));
      dispatchEvent(new DragEvent('drop', { dataTransfer: files, cancelable: true }));
    })(%d)''' % (rows - 12000))
    browser.wait("viewer.tab().name === 'long.bin' && viewer.fits()", 'the long paper', 60)
    took = browser.value('''(async () => {
      const took = [];
      const { paper } = viewer;
      for (let n = 0; n < 40; n++) {
        paper.scroll.scrollTop = paper.scroll.scrollHeight * ((n * 13) % 40) / 40;
        const start = performance.now();
        paper.paint();
        took.push(performance.now() - start);
        await new Promise(done => requestAnimationFrame(done));
      }
      return took.sort((a, b) => a - b);
    })()''')
    print(f'viewer: a part of a long paper is drawn in {took[20]:.0f} ms, at most {took[-1]:.0f} ms')


def test_opened(browser, room):
    """The file that --open hands to a browser leads it to the page, once."""
    shown = room / 'shown'
    opener = room / 'opener'
    opener.write_text(f'#!/bin/sh\necho "$1" >{shown}.new && mv {shown}.new {shown}\n')
    opener.chmod(0o755)
    with Viewer('--open', BROWSER=str(opener)) as page:
        wait(shown.is_file)
        file = shown.read_text().strip()
        browser.stays = False
        browser.open(file)
        browser.wait(f'location.href === {json.dumps(page.address)} && {READY}', 'the page')
        assert not pathlib.Path(file[len('file://'):]).exists()


# What holds of the page whether a server prints or the page itself.
ON_BOTH = (test_mark, test_typing, test_speed, test_fault, test_drop, test_compare, test_escapes, test_parts,
           test_closing, test_dimmed, test_origins, test_names, test_sizes, test_count, test_long, test_tabs)
