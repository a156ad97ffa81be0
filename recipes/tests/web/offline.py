"""The page once more, when the server that it was opened from is gone."""
import contextlib
import functools
import http.server
import pathlib
import shutil
import threading

from in_browser import READY

WEB = pathlib.Path(__file__).resolve().parents[2] / 'web'
KEEPS = "navigator.serviceWorker && navigator.serviceWorker.controller && navigator.serviceWorker.controller.state"


class Quiet(http.server.SimpleHTTPRequestHandler):
    def log_message(self, *_):
        pass


@contextlib.contextmanager
def served(folder, port=0):
    """A server of files, and its port."""
    server = http.server.ThreadingHTTPServer(('127.0.0.1', port), functools.partial(Quiet, directory=str(folder)))
    thread = threading.Thread(target=server.serve_forever, daemon=True)
    thread.start()
    try:
        yield server.server_address[1]
    finally:
        server.shutdown()
        server.server_close()
        thread.join()


def test_offline(browser, room, page):
    """The page from a server, which then is gone, and then has another page; beside it what keeps it."""
    folder = pathlib.Path(room, 'served')
    folder.mkdir()
    shutil.copy(page, folder / 'viewer.html')
    shutil.copy(WEB / 'viewer-offline.js', folder)
    with served(folder) as port:
        address = f'http://127.0.0.1:{port}/viewer.html'
        browser.open(address)
        browser.wait(READY, 'the paper, of a server')
        browser.wait(f"({KEEPS}) === 'activated'", 'what keeps the page')
    browser.open(address)
    browser.wait(READY, 'the paper, without a server')
    (folder / 'viewer.html').write_text('<!DOCTYPE html><title>newer</title>')
    with served(folder, port):
        browser.open(address)
        browser.wait("document.title === 'newer'", 'the newest page where the server is there')
    print(f'{browser.name}: the page is there without its server')
