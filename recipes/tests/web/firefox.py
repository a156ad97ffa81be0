"""A headless Firefox, driven by the protocol that it has for tests (Marionette)."""
import json
import os
import pathlib
import socket
import subprocess
import time
from chromium import at_home
from driven import Driven

NAME = 'firefox-esr'


class Firefox(Driven):
    """What is asked and isn't answered in time is an error."""

    name = 'Firefox'

    def __init__(self, folder):
        with socket.socket() as it:
            it.bind(('127.0.0.1', 0))
            port = it.getsockname()[1]
        profile = pathlib.Path(folder, 'profile')
        profile.mkdir()
        # (a PDF that the page saves isn't shown before it)
        profile.joinpath('user.js').write_text(f'user_pref("marionette.port", {port});\n'
                                               'user_pref("pdfjs.disabled", true);\n', encoding='utf-8')
        with open(os.path.join(folder, 'firefox.log'), 'ab') as log:
            words = [NAME, '--headless', '--no-remote', '--marionette', '--profile', str(profile)]
            self.ran = subprocess.Popen(words, stdin=subprocess.DEVNULL, stdout=log, stderr=log,
                                        env=at_home(folder), start_new_session=True)
        self.count, self.held = 0, b''
        self.line = self.connected(port)
        # (Firefox greets)
        self.read()
        made = self.ask('WebDriver:NewSession', timeouts={'script': 60000})
        self.version = made['capabilities']['browserVersion']

    def connected(self, port, seconds=60):
        until = time.monotonic() + seconds
        while True:
            try:
                return socket.create_connection(('127.0.0.1', port), timeout=60)
            except OSError:
                if time.monotonic() > until or self.ran.poll() is not None:
                    raise
                time.sleep(0.05)

    def more(self):
        some = self.line.recv(1 << 20)
        if not some:
            raise EOFError('Firefox ended')
        self.held += some

    def read(self):
        """A message: its length, a colon, and that many bytes."""
        while b':' not in self.held:
            self.more()
        length, _, self.held = self.held.partition(b':')
        while len(self.held) < int(length):
            self.more()
        text, self.held = self.held[:int(length)], self.held[int(length):]
        return json.loads(text)

    def ask(self, command, **words):
        self.count += 1
        data = json.dumps([0, self.count, command, words]).encode()
        self.line.sendall(b'%d:%s' % (len(data), data))
        _, _, fault, found = self.read()
        if fault:
            raise RuntimeError(f"{command}: {fault['message']}")
        return found

    def go(self, address):
        self.ask('WebDriver:Navigate', url=address)

    def place(self, rectangle):
        self.ask('WebDriver:SetWindowRect', **rectangle)

    def run(self, script):
        return self.ask('WebDriver:ExecuteAsyncScript', script=script, args=[], sandbox=None)['value']

    def act(self, source):
        self.ask('WebDriver:PerformActions', actions=[source])

    def close(self):
        self.line.close()
        self.ran.terminate()
        try:
            self.ran.wait(10)
        except subprocess.TimeoutExpired:
            self.ran.kill()
            self.ran.wait()
