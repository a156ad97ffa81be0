"""A viewer that runs, what is asked of it, and what vp prints."""
import http.client
import json
import os
import pathlib
import signal
import socket
import struct
import subprocess
import time
import urllib.parse

ROOT = pathlib.Path(__file__).resolve().parents[3]
VIEWER = ROOT / 'recipes' / 'viewer' / 'viewer'
VP = os.environ['VP']
FONT_A, FONT_B = ROOT / 'examples/font-a.pbm', ROOT / 'examples/font-b.pbm'
SHIPPING, SHELF, RECEIPT = (ROOT / 'examples' / it for it in ('shipping.zpl', 'shelf.zpl', 'receipt.bin'))


def vp(language, data):
    words = [VP, language, '--font-a', FONT_A, *(('--font-b', FONT_B) if language == 'receipt' else ())]
    return subprocess.run(words, input=data, stdout=subprocess.PIPE, stderr=subprocess.DEVNULL).stdout


class Viewer:
    def __init__(self, *words, program=VIEWER, cwd=None, **environment):
        # (a shell starts what runs behind it with SIGINT ignored)
        self.ran = subprocess.Popen([program, *words], stdout=subprocess.PIPE, stderr=subprocess.PIPE, text=True,
                                    cwd=cwd, env={**os.environ, **environment},
                                    preexec_fn=lambda: signal.signal(signal.SIGINT, signal.SIG_DFL))
        self.address = self.ran.stdout.readline().strip()
        assert self.address, self.ran.stderr.read()
        at = urllib.parse.urlsplit(self.address)
        self.host, self.path = at.netloc, at.path

    def __enter__(self):
        return self

    def __exit__(self, *_):
        self.ran.send_signal(signal.SIGINT)
        self.ran.wait(60)

    def ask(self, name='', body=None, path=None, **headers):
        line = http.client.HTTPConnection(self.host, timeout=40)
        kept = {'Host': self.host, **{key.replace('_', '-'): value for key, value in headers.items()}}
        line.request('POST' if body is not None else 'GET', (path or self.path) + name, body, kept)
        answer = line.getresponse()
        data = answer.read()
        line.close()
        return answer.status, data, answer.headers

    def good(self, name, body=None):
        status, data, _ = self.ask(name, body)
        assert status == 200, (name, status, data)
        return data

    def begin(self, name, body):
        """A connection that has asked, and of whose answer nothing was read."""
        line = socket.create_connection(tuple(self.host.split(':')))
        line.sendall(f'POST {self.path}{name} HTTP/1.1\r\nHost: {self.host}\r\nContent-Length: {len(body)}\r\n\r\n'
                     .encode() + body)
        return line

    def passed(self, name, body):
        """What the server passes on of a program: its output, and how it ended."""
        data, out, at = self.good(name, body), b'', 0
        while True:
            size, = struct.unpack_from('<I', data, at)
            at += 4
            if size == 0:
                return out, json.loads(data[at:])
            out, at = out + data[at:at + size], at + size

    def print(self, body, language='label', more=''):
        return self.passed(f'print?lang={language}{more}', body)

    def list(self, body, language='label', more=''):
        return self.passed(f'list?lang={language}{more}', body)


def same(said, expected):
    assert said == expected, f'{said!r:.300} in place of {expected!r:.300}'


def alive(process):
    try:
        return pathlib.Path(f'/proc/{process}/stat').read_text().rpartition(')')[2].split()[0] != 'Z'
    except OSError:
        return False


def wait(ready, seconds=60):
    until = time.monotonic() + seconds
    while not ready():
        assert time.monotonic() < until, 'it took too long'
        time.sleep(0.02)
