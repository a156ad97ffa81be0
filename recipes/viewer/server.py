"""The page over HTTP on 127.0.0.1. Only who knows the secret of its address is answered, and no other page can ask."""
import contextlib
import glob
import hmac
import http.server
import io
import json
import os
import secrets
import struct
import sys
import threading
import time
import urllib.parse

sys.path.insert(0, os.path.dirname(os.path.dirname(os.path.realpath(__file__))))
from vp_recipes import bounds  # noqa: E402
from vp_recipes.expand.places import told  # noqa: E402
from vp_recipes.program import shown  # noqa: E402
from vp_recipes.streams import guess  # noqa: E402
from gate import Gate  # noqa: E402
from known import known  # noqa: E402
from printing import MOST_FRONTS, MOST_STREAM, SECONDS, Gone, fronts_of  # noqa: E402

HERE = os.path.dirname(os.path.realpath(__file__))
KINDS = {'html': 'text/html', 'css': 'text/css', 'js': 'text/javascript'}
PARTS = {name: KINDS[name.rpartition('.')[2]] for name in os.listdir(HERE) if name.rpartition('.')[2] in KINDS}
HEADERS = {
    'Content-Security-Policy': "default-src 'none'; script-src 'self'; style-src 'self'; img-src blob: data:; "
                               "connect-src 'self'; base-uri 'none'; form-action 'none'; frame-ancestors 'none'",
    'X-Content-Type-Options': 'nosniff', 'Referrer-Policy': 'no-referrer', 'Cache-Control': 'no-store',
    'Cross-Origin-Resource-Policy': 'same-origin', 'Cross-Origin-Opener-Policy': 'same-origin',
}
# How long a question for changes waits, how often the files are looked at, how long a quiet connection stays, and how
# many that have shown the secret may at once.
WAIT, LOOK, QUIET, MOST_INSIDE = 20, 0.1, 120, 64
# How much one answer may come to.
BOUNDS = bounds.DEFAULT._replace(seconds=SECONDS)


class Followed:
    """A file of the command line. Its version changes with it."""

    def __init__(self, path):
        self.file = os.path.abspath(path)
        self.path = shown(os.fsencode(self.file).decode('utf-8', 'replace'))
        self.name = os.path.basename(self.path)

    def version(self):
        try:
            it = os.stat(self.file)
        except OSError:
            return ''
        return f'{it.st_mtime_ns}-{it.st_size}-{it.st_ino}'

    def read(self):
        with open(self.file, 'rb') as file:
            return file.read(MOST_STREAM + 1)


class Page:
    def __init__(self, port, program, fonts, files, language, width, anew=False):
        self.anew = anew
        self.program, self.fonts, self.language, self.width = program, fonts, language, width
        self.files = [Followed(name) for name in files]
        self.examples = examples(fonts)
        self.secret, self.lock, self.once = secrets.token_urlsafe(24), threading.Lock(), None
        self.inside = threading.Semaphore(MOST_INSIDE)
        self.gate = Gate(port, self.knows, self.enter)
        self.hosts = [f'{name}:{self.gate.port}' for name in ('127.0.0.1', 'localhost')]
        self.address = f'http://{self.hosts[0]}/{self.secret}/'

    def lead(self, folder):
        """A file of the user's own that leads a browser to the page, once: what stands in a browser's words is seen by
        every user of the machine."""
        once, path = secrets.token_urlsafe(24), os.path.join(folder, 'vp.html')
        address = f'http://{self.hosts[0]}/{once}'
        with os.fdopen(os.open(path, os.O_WRONLY | os.O_CREAT | os.O_EXCL, 0o600), 'wb') as file:
            file.write(leading(address))
        self.once = once, path
        return path

    def used(self, part):
        """Whether this is the secret that serves once; it is none any more, and its file goes."""
        with self.lock:
            if not self.once or not same(part, self.once[0]):
                return False
            (_, path), self.once = self.once, None
        with contextlib.suppress(OSError):
            os.unlink(path)
        return True

    def knows(self, part):
        once = self.once
        return same(part, self.secret) or once is not None and same(part, once[0])

    def enter(self, connection, first):
        threading.Thread(target=self.answer, args=(connection, first), daemon=True).start()

    def answer(self, connection, first):
        # a browser that hangs up is no fault
        with contextlib.suppress(OSError), connection, self.inside:
            Answer(connection, first, self)


def examples(fonts):
    """The streams beside the shipped sheets."""
    places = {os.path.dirname(name) for it in fonts.values() for name in it.values()}
    places.add(os.path.join(HERE, '..', '..', 'examples'))
    found = {}
    for place in places:
        for end in 'zpl', 'bin':
            for path in glob.glob(os.path.join(glob.escape(place), f'*.{end}')):
                found.setdefault(os.path.basename(path), path)
    return [Followed(path) for _, path in sorted(found.items(), key=lambda it: (it[0][-3:] != 'zpl', it[0]))]


class Refused(Exception):
    pass


class Began(io.RawIOBase):
    """What was read of a connection already, and what comes behind it."""

    def __init__(self, first, rest):
        self.first, self.rest = first, rest

    def readable(self):
        return True

    def readinto(self, room):
        if not self.first:
            return self.rest.readinto(room)
        count = min(len(room), len(self.first))
        room[:count], self.first = self.first[:count], self.first[count:]
        return count


class Answer(http.server.BaseHTTPRequestHandler):
    protocol_version = 'HTTP/1.1'
    server_version, sys_version = 'vp-viewer', ''
    disable_nagle_algorithm, timeout, rbufsize = True, QUIET, 0

    def __init__(self, connection, first, page):
        self.first = first
        super().__init__(connection, connection.getpeername(), page)

    def setup(self):
        super().setup()
        self.rfile = io.BufferedReader(Began(self.first, self.rfile))

    def log_message(self, *_):
        pass

    def do_GET(self):
        self.answer({'state': self.state, 'changes': self.changes, 'file': self.file, 'example': self.example})

    def do_POST(self):
        self.answer({'print': self.print, 'list': self.list, 'rows': self.rows, 'remarks': self.remarks,
                     'sheet': self.sheet, 'guess': self.guess})

    def answer(self, ways):
        try:
            path, _, query = self.path.partition('?')
            secret, _, name = path[1:].partition('/')
            self.guard_host()
            if self.command == 'GET' and not name and self.server.used(secret):
                # the page that leads on is our own: where the browser came from is forgotten
                return self.give(leading(f'/{self.server.secret}/'), 'text/html; charset=utf-8')
            self.guard_page()
            if not same(secret, self.server.secret):
                raise Refused(403, 'the address has no right secret')
            self.asked = dict(urllib.parse.parse_qsl(query))
            part = name or 'page.html'
            if self.command == 'GET' and part in PARTS:
                with open(os.path.join(HERE, part), 'rb') as file:
                    return self.give(file.read(), f'{PARTS[part]}; charset=utf-8')
            if name not in ways:
                raise Refused(404, 'there is no such part')
            self.body = self.read_body() if self.command == 'POST' else b''
            given = ways[name]()
            if isinstance(given, bytes):
                self.give(given, 'application/octet-stream')
            elif given is not None:
                self.give(json.dumps(given, separators=(',', ':')).encode(), 'application/json')
        except Refused as refused:
            self.close_connection = True
            self.give(refused.args[1].encode() + b'\n', 'text/plain; charset=utf-8', refused.args[0])
        except Gone:
            self.close_connection = True

    def guard_host(self):
        """A name that leads here, as another page may have made one, is refused."""
        if self.headers.get_all('Host', []) not in ([it] for it in self.server.hosts):
            raise Refused(403, 'the host is another one')

    def guard_page(self):
        """Only our own page asks."""
        origins = [f'http://{it}' for it in self.server.hosts]
        if any(it not in origins for it in self.headers.get_all('Origin', [])):
            raise Refused(403, 'the origin is another one')
        if self.headers.get('Sec-Fetch-Site', 'none') not in ('none', 'same-origin'):
            raise Refused(403, 'another page asks')

    def read_body(self):
        length = self.headers.get('Content-Length', '')
        if 'Transfer-Encoding' in self.headers or not (length.isascii() and length.isdigit()):
            raise Refused(411, 'the length is missing')
        if len(length) > 9 or int(length) > MOST_STREAM:
            # what is a little too long is read past, so that the answer is heard
            left = min(int(length[:9]), 4 * MOST_STREAM)
            while left > 0 and (some := self.rfile.read(min(left, 1 << 16))):
                left -= len(some)
            raise Refused(413, f'a stream has at most {MOST_STREAM >> 20} MB')
        body = self.rfile.read(int(length))
        if len(body) < int(length):
            raise Gone
        return body

    def head(self, status, kind, more):
        self.send_response(status)
        for name, value in {**HEADERS, 'Content-Type': kind, **more}.items():
            self.send_header(name, value)
        if self.close_connection:
            self.send_header('Connection', 'close')
        self.end_headers()

    def give(self, data, kind, status=200):
        self.head(status, kind, {'Content-Length': str(len(data))})
        self.wfile.write(data)

    def pass_on(self, words, more, anew=None, is_paper=True):
        """Runs words on the stream and gives what they put out, as it comes: pieces with their lengths before them,
        behind an empty one how it ended, in JSON. A stream that is written anew has places told in its own bytes."""
        self.connection.settimeout(SECONDS)
        stream = self.stream() if anew is None else anew.data
        with contextlib.closing(self.server.program.run(words, stream, self.connection)) as pieces:
            for n, piece in enumerate(cut(pieces, is_paper)):
                if n == 0:
                    self.head(200, 'application/octet-stream', {'Transfer-Encoding': 'chunked'})
                if isinstance(piece, dict) and anew is not None:
                    piece = {**piece, 'line': told(piece['line'], anew.pieces)}
                if isinstance(piece, dict):
                    piece = bytes(4) + json.dumps({**piece, **more}, separators=(',', ':')).encode()
                else:
                    piece = struct.pack('<I', len(piece)) + piece
                self.wfile.write(b'%x\r\n' % len(piece) + piece + b'\r\n')
        self.wfile.write(b'0\r\n\r\n')
        self.connection.settimeout(QUIET)

    # what is asked for

    def choose(self, name, of):
        value = self.asked.get(name, of[0])
        if value not in of:
            raise Refused(400, f'{name}: no such choice')
        return value

    def number(self, of):
        n = self.asked.get('n', '')
        if not (n.isascii() and n.isdigit() and len(n) < 6 and int(n) < len(of)):
            raise Refused(404, 'there is no such file')
        return of[int(n)]

    def fonts(self, language):
        """The sheets that the page asks for: those of the command line, none, or one that it gave."""
        fonts = dict(self.server.fonts[language])
        for letter in ('a', 'b') if language == 'receipt' else ('a',):
            name = self.asked.get(letter, '')
            if name == 'none':
                fonts.pop(letter, None)
            elif name in self.server.program.sheets:
                fonts[letter] = self.server.program.sheets[name]
            elif name:
                raise Refused(409, 'there is no such sheet')
        return fonts

    def state(self):
        page = self.server
        return {
            'files': [{'name': it.name, 'path': it.path, 'version': it.version()} for it in page.files],
            'examples': [it.name for it in page.examples], 'width': page.width, 'language': page.language,
            'most': MOST_STREAM, 'anew': page.anew, 'served': True, 'known': known(),
            'fonts': {letter: os.path.basename(name) for letter, name in page.fonts['receipt'].items()},
        }

    def changes(self):
        """Waits until a file is another one than the page has; gives all their versions."""
        known = self.asked.get('known', '').split(',')
        until = time.monotonic() + WAIT
        while True:
            now = [it.version() for it in self.server.files]
            if now != known or time.monotonic() > until:
                return now
            time.sleep(LOOK)

    def read(self, followed):
        try:
            data = followed.read()
        except OSError as error:
            raise Refused(404, f'{followed.name}: {error.strerror}')
        if len(data) > MOST_STREAM:
            raise Refused(413, f'{followed.name}: a stream has at most {MOST_STREAM >> 20} MB')
        return data

    def file(self):
        return self.read(self.number(self.server.files))

    def example(self):
        return self.read(self.number(self.server.examples))

    def guess(self):
        return guess(self.body)

    def sheet(self):
        try:
            return self.server.program.keep_sheet(self.body)
        except (OSError, ValueError) as error:
            raise Refused(413, str(error))

    def stream(self):
        """What is printed, listed and remarked upon of what the page sent: every stream passes here."""
        return self.body

    def is_whole(self):
        """Whether all of it is asked for: the whole language, written anew first. Else it is the profile alone."""
        return self.choose('anew', ('0', '1')) == '1'

    def print(self):
        language = self.choose('lang', ('label', 'receipt'))
        fonts = self.fonts(language)
        words = self.server.program.print_words(language, self.choose('width', ('576', '384')), fonts, self.is_whole())
        anew = None
        if self.is_whole():
            anew = self.server.program.anew(language, fonts, self.stream(), self.connection)
        self.pass_on(words, {'guess': guess(self.body)}, anew)

    def list(self):
        words = self.server.program.list_words(self.choose('lang', ('label', 'receipt')), self.is_whole())
        self.pass_on(words, {}, is_paper=False)

    def rows(self):
        """How many rows of paper each front of a receipt prints, of the lengths that are asked for."""
        ends = self.asked.get('ends', '').split(',')
        if len(ends) > MOST_FRONTS or not all(it.isascii() and it.isdigit() and len(it) < 8 for it in ends):
            raise Refused(400, 'ends: no such lengths')
        fonts, stream = self.fonts('receipt'), self.stream()
        words = self.server.program.print_words('receipt', self.choose('width', ('576', '384')), fonts, self.is_whole())
        found = None
        if self.is_whole():
            found = self.server.program.anew('receipt', fonts, stream, self.connection)
        fronts = fronts_of(found, stream, [int(it) for it in ends])
        return self.server.program.rows(words, fronts, self.connection)

    def remarks(self):
        language = self.choose('lang', ('label', 'receipt'))
        fonts, stream = self.fonts(language), self.stream()
        found = self.server.program.remarks(language, fonts, stream, self.connection, self.is_whole())
        if self.is_whole():
            anew = self.server.program.anew(language, fonts, stream, self.connection)
            found += [[it.place, it.text] for it in (anew.remarks if anew else ())]
        return found


def cut(pieces, is_paper):
    """What is put out, within the bounds of all recipes, and at last how it ended, or which bound was reached."""
    cutter = bounds.Cutter(BOUNDS, is_paper)
    for piece in pieces:
        some = cutter.end() if isinstance(piece, dict) else cutter.add(piece)
        if some:
            yield some
        if cutter.reached:
            what = bounds.Reached(cutter.reached, getattr(BOUNDS, cutter.reached)).what()
            yield {'line': '', 'status': 0, 'late': False, 'reached': what}
            return
        if isinstance(piece, dict):
            yield piece


def leading(address):
    """A page that leads a browser on."""
    return ('<!DOCTYPE html>\n<meta charset="utf-8">\n<meta name="referrer" content="no-referrer">\n'
            f'<meta http-equiv="refresh" content="0; url={address}">\n<title>vp viewer</title>\n'
            f'<a href="{address}">The viewer</a>\n').encode()


def same(one, other):
    return hmac.compare_digest(*(it if isinstance(it, bytes) else it.encode() for it in (one, other)))
