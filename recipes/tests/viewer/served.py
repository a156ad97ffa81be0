"""Tests the page as the viewer serves it, in Chromium, and draws the README's picture of it."""
import time
from chromium import Chromium
from in_browser import (ON_BOTH, READY, drawn, printed, test_changed, test_kept, test_large, test_opened,
                        test_remarks_line)
from saying import SAID
from seeing import SEEN, test_files
from serving import RECEIPT, SHIPPING, Viewer, same
from writing import WRITTEN


def in_browser(room):
    followed = room / 'followed.zpl'
    followed.write_bytes(b'^XA^PW80^LL40^FO8,8^GB8,8,8^FS^XZ\n')
    with Viewer('--as-it-came', str(SHIPPING), str(followed), str(RECEIPT)) as page:
        browser = Chromium(str(room))
        try:
            browser.open(page.address)
            browser.size(2200, 1700)
            same(drawn(browser), printed('label', SHIPPING.read_bytes()))
            test_changed(browser, followed)
            test_kept(browser, followed)
            for test in (test_remarks_line, *SAID, *SEEN, *WRITTEN, *ON_BOTH, test_files, test_large):
                test(browser)
            same(browser.errors, [])
            test_opened(browser, room)
        finally:
            browser.close()


def picture(room, name):
    with Viewer(str(SHIPPING), str(RECEIPT)) as page:
        browser = Chromium(str(room), width=1440, height=880)
        try:
            browser.open(page.address)
            browser.wait(READY, 'the paper')
            browser.wait("document.querySelectorAll('#listing .row').length > 10", 'the listing')
            # (the first print is slower than those that follow)
            for _ in range(2):
                browser.value("document.getElementById('anew').click()")
                browser.wait(READY, 'the paper')
            browser.click("[...document.querySelectorAll('#listing .row')].find(it => it.textContent.includes('NEXT'))")
            time.sleep(0.5)
            browser.picture(name)
        finally:
            browser.close()
