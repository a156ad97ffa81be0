"""Tests the editor: completion, help, find, comments, undo by words, names in the listing."""
import pathlib
import re
from in_browser import FRAME, READY, control, new_stream, shown, type_at
from serving import ROOT, same

TEXT = "document.getElementById('text').value"
HELP = "document.getElementById('help').textContent"
CHOICES = "[...document.querySelectorAll('#choices [role=option]')].map(it => it.firstChild.textContent)"
CLOSED = "document.getElementById('choices').hidden"
TABLE = pathlib.Path(ROOT / 'recipes/viewer/help.tsv')


def label(browser, text):
    new_stream(browser, 'label')
    browser.value("document.getElementById('text').select()")
    browser.insert(text)
    browser.wait(READY, 'the paper')


def test_completion(browser):
    """What begins a command offers those that begin so, with values for their parameters; Escape and others end it."""
    label(browser, '^XA^XZ')
    type_at(browser, '^XZ', '^')
    found = browser.value(CHOICES)
    same(found[:3], ['^XA', '^XZ', '^FS'])
    assert {'^BX', '^GC', '^CI'} <= set(found)
    browser.key('g')
    same(browser.value(CHOICES)[:2], ['^GB', '^GF'])
    browser.press('ArrowDown', 40)
    browser.press('ArrowUp', 38)
    browser.press('Enter', 13)
    same([browser.value(TEXT), browser.value(CLOSED)], ['^XA^GB200,100,3^XZ', True])
    type_at(browser, '^XZ', '^')
    browser.press('Escape', 27)
    same([browser.value(TEXT), browser.value(CLOSED)], ['^XA^GB200,100,3^^XZ', True])
    # a command that is written out stands as it is
    type_at(browser, '^XZ', 'fs')
    same([browser.value(TEXT), browser.value(CLOSED)], ['^XA^GB200,100,3^fs^XZ', True])
    new_stream(browser, 'receipt')
    type_at(browser, 'from', '\\x1b')
    assert 'ESC a' in browser.value(CHOICES)
    browser.press('Escape', 27)


def test_help(browser):
    """The command at the cursor: its name, the parameter there with range and default, what vp does of it."""
    label(browser, '^XA^PW400^LL200^FO20,30^BXN,4,200^FD1^FS^FO9,9^GB90,80,3^FS^XZ')
    type_at(browser, '^BX', more=-1)
    browser.wait(f"{HELP}.includes('Field Origin') && {HELP}.includes('from the top; 0 to 32,000; else 0')", 'help')
    type_at(browser, 'BXN', more=2)
    browser.wait(f"{HELP}.includes('Data Matrix Bar Code') && {HELP}.includes('read past by the profile')", 'another')
    type_at(browser, '90,80', more=1)
    browser.wait(f"{HELP}.includes('Graphic Box') && {HELP}.includes('width in dots; 1 to 32,000; else t')", 'a width')
    shown(browser, 'shipping.zpl')
    browser.value(FRAME)
    rows = browser.value("[...document.querySelectorAll('#listing .row')].map(it => it.textContent)")
    assert any('^PW812Print Width' in it for it in rows), rows
    assert any('^FX4 by 6 inches, 8 dots a millimetre' in it for it in rows), rows


def test_find(browser):
    """Find goes round, in either case, through the whole stream."""
    label(browser, '^XA^FO9,9^FDTee, tea^FS^FO9,99^FDcoffee^FS^XZ')
    type_at(browser, '^FO')
    control(browser, 'f', 70)
    for char in 'TE':
        browser.key(char)
    counts = []
    for _ in range(3):
        browser.value("document.getElementById('find-text').focus()")
        browser.press('Enter', 13)
        counts.append(browser.value("document.getElementById('find-count').textContent"))
    same(counts, ['1 of 2', '2 of 2', '1 of 2'])
    chosen = '(it => it.value.slice(it.selectionStart, it.selectionEnd))'
    same(browser.value(f"{chosen}(document.getElementById('text'))"), 'Te')
    browser.value("document.getElementById('find-close').click()")


def test_comment(browser):
    """Lines become comments and commands again."""
    text = '^XA\n^FO9,9^GB8,8,8^FS\n^FO20,9^GB8,8,8^FS\n^XZ'
    label(browser, text)
    type_at(browser, '^FO9', more=2)
    control(browser, '/', 191)
    browser.wait(READY, 'the paper')
    same([browser.value(TEXT).split('\n')[1][:5], browser.value('viewer.tab().fault')], ['^FX ‸', None])
    same(browser.value("viewer.tab().rows.filter(it => it.text.startsWith('^GB')).length"), 1)
    control(browser, '/', 191)
    same(browser.value(TEXT), text)


def test_words(browser):
    """What was typed is taken back a word at a time."""
    label(browser, '^XA^FO9,9^FD^FS^XZ')
    type_at(browser, '^FS', 'Captain Nemo, and')
    for want in 'Captain Nemo, ', 'Captain ', '':
        control(browser, 'z', 90)
        same(browser.value(TEXT), f'^XA^FO9,9^FD{want}^FS^XZ')


def test_docs(_):
    """The ranges that help says are those of the documents."""
    rows, page = {}, (ROOT / 'docs/zpl.md').read_text(encoding='utf-8')
    assert 'd is 1 to 1,024' in page
    for line in page.splitlines():
        found = [it.strip() for it in line.split('|')]
        for command in re.findall(r'\^\w.?', found[1]) if line.startswith('| ^') else ():
            rows[command.strip()] = found
    told = [line.split('\t') for line in TABLE.read_text(encoding='utf-8').splitlines() if line.startswith('label')]
    same(sorted({it[1] for it in told}), sorted(rows))
    for _, command, _, name, _, parameters in told:
        row = rows[command]
        assert name in row[2], (command, name, row[2])
        for number in re.findall(r'\d[\d,.]*\d|\d', ' '.join(it.partition('; ')[2] for it in parameters.split(' | '))):
            # (some are said as those of another command, those of pictures below the table)
            near = (' '.join(row[3:]) + rows['^B3'][3] * command.startswith('^B') + 'd is 1 to 1,024' * (command == '^GF')
                    + rows['^GC'][3] * (command == '^GE'))
            assert number in near, (command, number, near)


WRITTEN = test_completion, test_help, test_find, test_comment, test_words, test_docs
