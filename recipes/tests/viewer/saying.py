"""Tests that the page is never silent: what isn't drawn is said at its byte, and faults say what would be right."""
import base64
import gzip
import json
import pathlib
import re
import sys
from in_browser import READY, bytes_now, drop, new_stream
from serving import FONT_A, FONT_B, ROOT, VP, same

sys.path[:0] = [str(ROOT / 'recipes'), str(pathlib.Path(__file__).resolve().parent.parent / 'expand')]
import streams  # noqa: E402
from vp_recipes.remarks import remarks  # noqa: E402

SHEETS = {'label': ['--font-a', str(FONT_A)], 'receipt': ['--font-a', str(FONT_A), '--font-b', str(FONT_B)]}
LABELS = (
    b'^XA^PW400^LL200^MMT^CI28\r\n^FO10,20^A0N,40^FDCa\x7f\xc3\xa9^FS^FO300,20^BY3^BKN,N,100^FD123^FS'
    b'^FO9,9^BXN,4^FD1^FS'
    b'^FO350,100^GC50^FS^GD9,9^FS^SN1,1,Y^FS^XFR:A^FS^F0^FN1\r\n^FO10,150^A0,40,40^FDtoo long for it^FS'
    b'^FT10,10^A0,40^FDtop^FS^FO390,0^GB11,9,2^FS^FO390,0^GB10,9,2^FS^LH20,0^FT380,90^BY1^B3R^FD1^FS^LH0,0'
    b'^FO380,180^BQN,2,2^FDQA,1^FS^XZ',
    b'CT~~CD,~CC^~CT~\r\n^XA~TA000~JSN^LT0^MNW^MTT^PON^PMN^LH0,0^JMA^PR4,4~SD15^JUS^LRN^CI0^XZ\r\n'
    b'^XA\r\n^PW812^LL1218^LS0^FO10,20^A0N,28^FDCaf\xc3\xa9^FS^MUD^FPH^MCY^CVN^PA0,0,0,0^PQ1,0,1,Y^XZ',
    b'^XA^LT5^JMB^LS-3^CI28^MUM^FPV,2^MCN^CVY~CD;^FO9,9^A0N,28^FDCaf\xc3\xa9^FS^XZ~CC+',
    b'^XA^PW400^LL400^FO380,20,1^A0N,30^FDat its end^FS^FO9,9^GB90,90,2,B,3^FS^FO9,99^FB300,2,0,J,20^A0N,20^FDblock^FS'
    b'^FO9,200^BY1^BCN,40,N,N,Y^FD12345678^FS^FO9,300^A@N,20,,E:A.TTF^FDa^FS^FO10,150^A0,40,40^FDtoo long for it^FS'
    b'^FO10,150^A0,40,40^FDmuch much too long for it^FS^XZ',
    b'^XA^FO9,9^A0N,24^FH^FDCaf_7F_A9^FS^XZ', b'^XA^FO9,9^GFA,8,8,1,:Z64:eJxj:1234^FS^XZ',
)
RECEIPTS = (
    b'\x1b@\x1bt\x10Ca\xe9\x7f\n\x1bM\x01\x7f\n\x1cp\x01\0\x1d(L\x06\0\0\x30\x45\x20\x20\x01\x01'
    b'\x1d8L\x01\0\0\0x\x1b{\x01Hi\n\x1d(k\x03\0\x30A\x02\x1d(k\x03\0\x31C\x04\x1b\x7frest',
    b'a\x1dP\0\0\x1d(K\x02\0001\0\x1d(N\x02\0\x30\x31\x1bt\0\x1b{\0\x1c!\0\x1cS\0\0b\x81\n',
    b'a\x1dP\xcb\xcb\x1d(K\x02\x001\x03\x1d(N\x02\x0002b\n', b'\x1bR\x01plain\n', b'\x1bR\x01# plain\n')


def dropped(browser, name, data):
    drop(browser, name, f'Uint8Array.from({list(data)})')
    stem = name.partition('.')[0]
    is_it = f"viewer.tab().name.startsWith('{stem}') && String(viewer.tab().bytes) === String({list(data)})"
    browser.wait(f'{is_it} && {READY}', name)


def told(browser, data, language):
    """What the page says of a stream: places and words."""
    dropped(browser, 'said.bin', data)
    if browser.value('viewer.tab().language') != language:
        browser.value(f"(box => {{ box.value = '{language}'; box.dispatchEvent(new Event('change')); }})"
                      "(document.getElementById('language'))")
    browser.wait(f'{READY} && viewer.tab().told === viewer.tab().edits', 'remarks')
    found = browser.value('viewer.tab().remarks.map(it => [it.place, it.text])')
    browser.value("document.querySelector('.tab[data-on] .close').click()")
    return found


def short(found):
    """Remarks by their places; of commands that are read past all words, of others what they begin with."""
    return sorted([place, text if 'read past' in text else text[:10]] for place, text in found
                  if not re.match(r'F\d ', text) and 'outside' not in text)


def test_as_lint(browser):
    """What the page says by itself is what lint says, byte for byte. (It is the same in each browser.)"""
    if browser.name != 'Chromium':
        return
    real = [('receipt', it[3]) for it in streams.receipts()] + [('label', it[3]) for it in streams.labels()]
    given = [('label', it) for it in LABELS] + [('receipt', it) for it in RECEIPTS] + real
    count = 0
    for language, data in given:
        data = data if isinstance(data, bytes) else data.encode('latin-1' if '^CI27' in data else 'utf-8')
        want = short(remarks(data, language, SHEETS[language], [VP]))
        count += len(want)
        got = short(told(browser, data, language))
        assert got == want, (data[:60], [it for it in got if it not in want], [it for it in want if it not in got])
    assert count > 40, count
    print(f'viewer: {count} remarks on {len(given)} streams are those of lint')


def said(browser, text, language='label'):
    """The lines below the editor for what is typed."""
    new_stream(browser, language)
    browser.value("document.getElementById('text').select()")
    browser.insert(text)
    browser.wait(READY, 'the paper')
    return browser.value("[...document.querySelectorAll('.message')].map(it => it.textContent)")


# A stream with a fault, a part of what is said of it, the button that mends it, and the stream then.
MENDED = (
    ('label', '^XA^FO9,9^BQN,2,4^FDhello^FS^XZ', '“QA,”', 'Put QA, before it', '^XA^FO9,9^BQN,2,4^FDQA,hello^FS^XZ'),
    ('label', '^XA^FO9,9^BQN,1,4^FDQA,x^FS^XZ', 'model 2 is', 'Take model 2', '^XA^FO9,9^BQN,2,4^FDQA,x^FS^XZ'),
    ('label', '^XA^FO9,9^B3N^FDAbc^FS^XZ', 'not “b”, character 2 of its data, at byte 17', 'Write it in capitals',
     '^XA^FO9,9^B3N^FDABC^FS^XZ'),
    ('label', '^XA^FO9,9^BEN^FD123-456^FS^XZ', 'not “-”, character 4', 'Keep the digits',
     '^XA^FO9,9^BEN^FD123456^FS^XZ'),
    ('label', '^XA^FO9,9^BCN^FDA>B^FS^XZ', '“>B” is none (byte 17)', 'Write it as >0',
     '^XA^FO9,9^BCN^FDA>0B^FS^XZ'),
    ('label', '^XA^FO9,9^FDx', '^XZ prints it', 'Put ^FS^XZ behind it', '^XA^FO9,9^FDx^FS^XZ'),
    ('label', '^XA^FO9,9^GFA,2,2,1,0%^FS^XZ', '“%” at byte 21', None, None),
    ('label', '^XA^FO9,9^GFA,8,8,1,:Z64:abc:00^FS^XZ', 'recipes/show draws', None, None),
    ('receipt', 'open', 'LF prints it', 'Put LF behind it', 'open\\n\n'),
    ('receipt', '\\x1b4x', 'slants letters', None, None),
    ('receipt', '\\x1dkI\\x03abc', '{A, {B or {C', 'Put {B before it', '\\x1dkI\\x05{Babc'),
    ('receipt', '\\x1dk\\x041234567890123456789\\x00', 'wider than the line', 'Take modules of 2 dots', None),
)


def test_mending(browser):
    """A fault says what would be right, and a click mends it."""
    for language, text, why, name, want in MENDED:
        found = said(browser, text, language)
        assert any(why in it for it in found), (text, found)
        if not name:
            continue
        button = f'it => it.textContent === {json.dumps(name)}'
        browser.click(f"[...document.querySelectorAll('.message button')].find({button})")
        browser.wait(READY, 'the paper')
        if want:
            same(browser.value("[document.getElementById('text').value, viewer.tab().fault]"), [want, None])
        browser.press('z', 90, 2)
        browser.wait(f"document.getElementById('text').value === {json.dumps(text)}", 'what was taken back')


def test_otherwise(browser):
    """What is no printer's language is named; what only has to be read otherwise is, by a click."""
    label = b'^XA^PW80^LL40^FO8,8^GB8,8,8^FS^XZ'
    dump = f'00000000: {label[:16].hex(" ")}  ^XA\n00000010: {label[16:].hex(" ")}'.encode()
    for data, words in ((label.decode().encode('utf-16'), 'UTF-16'), (label.decode().encode('utf-16-le'), 'UTF-16'),
                        (label.hex().encode(), 'hex'), (label.hex(' ').encode(), 'hex'),
                        (dump, 'hex'), (base64.b64encode(label), 'base64'), (gzip.compress(label), 'gzip'),
                        (b'\x1b%-12345X@PJL\r\n' + label, 'PJL')):
        dropped(browser, 'odd.bin', data)
        lines = browser.value("[...document.querySelectorAll('.message')].map(it => it.textContent)")
        assert any(words in it for it in lines), (words, lines)
        browser.click("document.querySelector('.message button')")
        browser.wait(f"viewer.tab().name.startsWith('read-') && {READY}", 'what is read')
        same([bytes_now(browser), browser.value('viewer.tab().language')], [label, 'label'])
        browser.value("viewer.tab().kept = viewer.tab().bytes, document.querySelector('.tab[data-on] .close').click()")
    for data, words in ((b'%PDF-1.4\n', 'PDF'), (b'\x89PNG\r\n\x1a\n', 'PNG'), (b'%!PS\n', 'PostScript'),
                        (b'SIZE 40 mm,30 mm\nCLS\nTEXT 1,1,"1",0,1,1,"x"\nPRINT 1\n', 'TSPL')):
        dropped(browser, 'odd.bin', data)
        same(words in browser.value("document.querySelector('.message').textContent"), True)
    # what is no evidence of a language is none
    for text in ' ', '^', '\n':
        same([it for it in said(browser, text) if 'looks like' in it], [])
    same('outside ^XA' in ''.join(told_lines(browser, '^FO9,9^FDx^FS')), True)


def told_lines(browser, text):
    said(browser, text)
    browser.wait('viewer.tab().told === viewer.tab().edits', 'remarks')
    return browser.value("[...document.querySelectorAll('#remarks li')].map(it => it.textContent)")


# What holds of the page whether a server prints or the page itself.
SAID = test_mending, test_otherwise
