"""WebKit, the engine of Safari, in the small browser that it has for tests: driven as WebDriver says, on a screen that
is none."""
import contextlib
import http.client
import json
import os
import socket
import subprocess
import time
from chromium import at_home
from driven import Driven

NAME = 'WebKitWebDriver'
# Where an X server has its sockets.
SOCKETS = '/tmp/.X11-unix'


class WebKit(Driven):
    """What is asked and isn't answered in time is an error."""

    name = 'WebKit'

    def __init__(self, folder):
        with socket.socket() as it:
            it.bind(('127.0.0.1', 0))
            self.port = it.getsockname()[1]
        self.made_sockets = not os.path.exists(SOCKETS)
        with open(os.path.join(folder, 'webkit.log'), 'ab') as log:
            self.screen, number = screen(folder, log)
            own = at_home(folder, XDG_RUNTIME_DIR=str(folder), DISPLAY=f':{number}', GDK_BACKEND='x11')
            self.ran = subprocess.Popen([NAME, f'--port={self.port}'], stdin=subprocess.DEVNULL, stdout=log, stderr=log,
                                        start_new_session=True, env=own)
        self.session = ''
        try:
            made = self.begun()
        except BaseException:
            self.close()
            raise
        self.session, self.version = f"/session/{made['sessionId']}", made['capabilities']['browserVersion']

    def begun(self, seconds=60):
        until = time.monotonic() + seconds
        while True:
            try:
                return self.ask('/session', capabilities={'alwaysMatch': {'timeouts': {'script': 60000}}})
            except ConnectionError:
                if time.monotonic() > until or self.ran.poll() is not None:
                    raise
                time.sleep(0.05)

    def ask(self, command, method='POST', **words):
        line = http.client.HTTPConnection('127.0.0.1', self.port, timeout=90)
        try:
            line.request(method, self.session + command, json.dumps(words))
            answer = line.getresponse()
            value = json.loads(answer.read())['value']
        finally:
            line.close()
        if answer.status != 200:
            raise RuntimeError(f"{command}: {value['error']}: {value['message']}")
        return value

    def go(self, address):
        self.ask('/url', url=address)

    def place(self, rectangle):
        self.ask('/window/rect', **rectangle)

    def run(self, script):
        return self.ask('/execute/async', script=script, args=[])

    def act(self, source):
        self.ask('/actions', actions=[source])

    def close(self):
        try:
            if self.session:
                self.ask('', method='DELETE')
        finally:
            for it in self.ran, self.screen:
                it.terminate()
                it.wait()
            if self.made_sockets:
                with contextlib.suppress(OSError):
                    os.rmdir(SOCKETS)


def screen(folder, log):
    """An X server without a screen, and its number, which it chooses."""
    back, there = os.pipe()
    words = ['Xvfb', '-displayfd', str(there), '-screen', '0', '2400x2000x24', '-nolisten', 'tcp']
    ran = subprocess.Popen(words, pass_fds=[there], stdin=subprocess.DEVNULL, stdout=log, stderr=log,
                           start_new_session=True, env=at_home(folder))
    os.close(there)
    with os.fdopen(back) as it:
        number = it.readline().strip()
    if not number:
        raise OSError(f'Xvfb ended with status {ran.wait()}')
    return ran, number
