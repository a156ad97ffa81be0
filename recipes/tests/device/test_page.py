"""The page in Chromium: jobs as they come, their paper, what was asked, the state by its buttons, a stream in the
viewer."""
from __future__ import annotations

import importlib
import shutil
import sys
import tempfile
import time
from typing import Any

import tills
from test_fixtures import left_out
from tills import DEVICE, LABEL, RECEIPT, ROOT

sys.path.append(str(ROOT / 'recipes/tests/viewer'))
chromium: Any = importlib.import_module('chromium')


class Page(tills.WithPrinter):
    def setUp(self) -> None:
        if not chromium.installed():
            left_out(self, 'chromium')
        room = tempfile.mkdtemp()
        # (a browser that ends may still write there)
        self.addCleanup(shutil.rmtree, room, ignore_errors=True)
        self.printer_ = self.printer('--http', '0', program=DEVICE)
        self.browser = chromium.Chromium(room)
        self.addCleanup(self.browser.close)
        self.browser.open(f'http://127.0.0.1:{self.printer_.web}/')
        self.browser.wait("document.getElementById('line').textContent === ''", 'the page follows the printer')

    def has(self, script: str) -> None:
        self.browser.wait(script, script, 15)

    def test_jobs_come(self) -> None:
        printer = self.printer_
        printer.sent(RECEIPT.read_bytes() + b'\x1dIC')
        self.has("document.querySelector('#jobs button').textContent.includes('printed')")
        self.has("document.querySelector('article img').naturalWidth === 576")
        self.has("document.getElementById('asked').textContent.includes('5f 56 50 00')")
        printer.sent(b'\x1dk\x04a\0')
        self.has("document.querySelector('#jobs .fault').textContent.includes('F2')")
        self.has("document.querySelector('article .fault').textContent.includes('symbol: character')")
        self.browser.value("document.getElementById('search').value = 'GS I';"
                           "document.getElementById('search').dispatchEvent(new Event('input'))")
        self.has("document.querySelectorAll('#jobs li').length === 1")
        self.assertEqual(self.browser.errors, [])

    def test_the_state(self) -> None:
        find = "[...document.querySelectorAll('#panel button')].find(it => it.textContent === 'cover open')"
        self.browser.value(f'{find}.click()')
        self.has(f"{find}.getAttribute('aria-pressed') === 'true'")
        self.has("document.getElementById('state').className === 'stops'")
        with self.printer_.till() as till:
            self.assertEqual(till.asks(b'\x10\x04\x02', 1), b'\x16')
            # a job that waits is seen before it is printed, and what it asks
            till.send(b'a\n')
            self.has("document.querySelector('#jobs button').textContent.includes('it comes')")
            self.has("document.getElementById('asked').textContent.includes('DLE EOT 02')")
            self.browser.value(f'{find}.click()')
            till.ends()
        self.has("document.querySelector('#jobs button').textContent.includes('printed')")
        self.printer_.sets('paper out')
        self.has("document.getElementById('state').textContent === 'paper out'")

    def test_names_are_no_markup(self) -> None:
        self.printer_.sent(b'~HQ<img src=x onerror=alert(1)>^HV<b>')
        self.has("document.getElementById('asked').textContent.includes('~HQ<i')")
        self.assertEqual(self.browser.value("document.querySelectorAll('#asked img, #asked b').length"), 0)

    def test_a_stream_in_the_viewer(self) -> None:
        self.printer_.sent(LABEL.read_bytes())
        self.browser.open(f'http://127.0.0.1:{self.printer_.web}/v1/jobs/000001/viewer')
        self.has("document.querySelector('.tab[data-on]')?.textContent.includes('000001.bin')")
        self.has("document.body.textContent.includes('HARBOUR PARCEL')")
        time.sleep(.1)
        self.assertEqual(self.browser.errors, [])
