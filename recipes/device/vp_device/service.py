"""The service and the page over HTTP: streams are printed, jobs looked at, the state set, changes followed."""
from __future__ import annotations

import contextlib
import hmac
import http.server
import ipaddress
import json
import pathlib
import re
import socket
import socketserver
import threading
import urllib.parse
from typing import Any, Dict, List, NamedTuple, Optional

from . import orders, script, tools, viewing
from .job import Job
from .pool import Cut, Failed
from .server import Server
from .ways import Ways

FILES = pathlib.Path(__file__).resolve().parent.parent / 'page'
KINDS = {'html': 'text/html; charset=utf-8', 'css': 'text/css; charset=utf-8', 'js': 'text/javascript; charset=utf-8',
         'json': 'application/json', 'png': 'image/png', 'bin': 'application/octet-stream', 'svg': 'image/svg+xml'}
OWN = {'/': 'page.html', '/page.css': 'page.css', '/page.js': 'page.js', '/v1/openapi.json': 'openapi.json'}
# How large a stream is that is posted, and words of the state or a script; how many connections there are at a time,
# how many of them follow what happens, and how many prints wait; how long a silent one stays, in seconds.
MOST_STREAM, MOST_WORDS = 1 << 24, 1 << 16
MOST_INSIDE, MOST_FOLLOW, MOST_PRINTS = 200, 32, 64
QUIET, BEAT = 30, 10
MOST_JOBS = 200
COOKIE = 'vp_token'
HEADERS = {
    'Content-Security-Policy': "default-src 'none'; script-src 'self'; style-src 'self'; img-src 'self' data: blob:; "
                               "connect-src 'self'; base-uri 'none'; form-action 'none'; frame-ancestors 'none'",
    'X-Content-Type-Options': 'nosniff', 'Referrer-Policy': 'no-referrer', 'Cache-Control': 'no-store',
    'Cross-Origin-Resource-Policy': 'same-origin', 'Cross-Origin-Opener-Policy': 'same-origin',
}
PART = re.compile(r'/v1/jobs/(\d{6,12})(?:(-\d{1,6})?\.(png|bin)|/viewer)?')


class Said(Exception):
    """What is answered where something is wrong: a status and a line."""

    def __init__(self, status: int, line: str, **headers: str) -> None:
        super().__init__(line)
        self.status, self.line, self.headers = status, line, headers


class Shared(NamedTuple):
    """What all connections share."""

    ways: Ways
    server: Server
    token: str
    hosts: List[str]
    prints: threading.BoundedSemaphore
    follows: threading.BoundedSemaphore


def is_own(address: str) -> bool:
    """Whether only this machine comes to an address."""
    with contextlib.suppress(ValueError):
        return ipaddress.ip_address(address).is_loopback
    return address == 'localhost'


def address(web: socket.socket) -> str:
    host, port = web.getsockname()[:2]
    return f'http://{f"[{host}]" if ":" in host else host}:{port}/'


class Web(socketserver.ThreadingMixIn, http.server.HTTPServer):
    """Connections, each with a thread, as many as are let in."""

    daemon_threads = True
    shared: Shared

    def __init__(self, web: socket.socket) -> None:
        socketserver.BaseServer.__init__(self, web.getsockname()[:2], Handler)
        self.socket = web
        self.inside = threading.BoundedSemaphore(MOST_INSIDE)

    def process_request(self, request: Any, client_address: Any) -> None:
        if self.inside.acquire(blocking=False):
            super().process_request(request, client_address)
            return
        line = b'too many connections: try again\n'
        with contextlib.suppress(OSError):
            request.send(b'HTTP/1.1 429 Too Many Requests\r\nRetry-After: 1\r\nConnection: close\r\n'
                         b'Content-Length: %d\r\n\r\n' % len(line) + line, socket.MSG_DONTWAIT)
        self.shutdown_request(request)

    def process_request_thread(self, request: Any, client_address: Any) -> None:
        try:
            super().process_request_thread(request, client_address)
        finally:
            self.inside.release()

    def handle_error(self, request: Any, client_address: Any) -> None:
        """(who goes away in the middle is no news)"""


class Handler(http.server.BaseHTTPRequestHandler):
    protocol_version = 'HTTP/1.1'
    timeout = QUIET
    # (a head and its body are one answer: nothing waits for the other side to say that it has the head)
    disable_nagle_algorithm = True
    server: Web
    server_version, sys_version = 'vp', ''

    def log_message(self, *_: Any) -> None:
        pass

    def do(self, method: str) -> None:
        """Answers, or says what is wrong in a line."""
        self.sets_cookie = ''
        self.has_read = 'Content-Length' not in self.headers and 'Transfer-Encoding' not in self.headers
        try:
            where = urllib.parse.urlsplit(self.path)
            query = dict(urllib.parse.parse_qsl(where.query, max_num_fields=20))
            self.let_in(query)
            self.route(method, where.path, query)
        except Said as said:
            self.give(said.status, 'text/plain; charset=utf-8', (said.line + '\n').encode(), said.headers)
        except ValueError as error:
            self.give(400, 'text/plain; charset=utf-8', f'{error}\n'.encode('utf-8', 'replace'))

    def do_GET(self) -> None:
        self.do('GET')

    def do_HEAD(self) -> None:
        self.do('GET')

    def do_POST(self) -> None:
        self.do('POST')

    def do_PUT(self) -> None:
        self.do('PUT')

    def let_in(self, query: Dict[str, str]) -> None:
        """Whether who asks may: by the token, and from no other site's page."""
        shared, heads = self.server.shared, self.headers
        host, origin = heads.get('Host', ''), heads.get('Origin')
        if shared.hosts and host.lower() not in shared.hosts:
            raise Said(403, 'the host of the address is another one')
        if origin is not None and origin.lower() not in (f'http://{host.lower()}', f'https://{host.lower()}'):
            raise Said(403, 'the page of another site may not ask')
        if not shared.token:
            return
        given = heads.get('Authorization', '')
        words = [given[7:] if given[:7].lower() == 'bearer ' else '', query.get('token', '')]
        words += re.findall(rf'(?:^|;\s*){COOKIE}=([^;]*)', heads.get('Cookie', ''))
        if not any(hmac.compare_digest(it.encode(), shared.token.encode()) for it in words):
            raise Said(401, 'it needs the token', **{'WWW-Authenticate': 'Bearer'})
        if 'token' in query:
            self.sets_cookie = f'{COOKIE}={shared.token}; HttpOnly; SameSite=Strict; Path=/'

    def route(self, method: str, path: str, query: Dict[str, str]) -> None:
        order = orders.PATH.fullmatch(path)
        if method == 'GET' and path in OWN:
            name = OWN[path]
            self.give(200, KINDS[name.rpartition('.')[2]], (FILES / name).read_bytes())
        elif order:
            self.only(method, 'POST')
            self.prints(orders.read(order, query, self.headers.get('Accept', '')))
        elif path == '/v1/state':
            self.state(method)
        elif path == '/v1/script':
            self.only(method, 'PUT')
            self.server.shared.ways.device.follow(script.read(self.words()))
            self.json({'is_followed': True})
        elif path == '/v1/events':
            self.only(method, 'GET')
            self.events()
        elif path == '/v1/jobs':
            self.only(method, 'GET')
            self.json(self.jobs(query))
        elif PART.fullmatch(path):
            self.only(method, 'GET')
            self.job(path)
        else:
            raise Said(404, f'nothing is called {path[:100]}; /v1/openapi.json says what is')

    def only(self, method: str, right: str) -> None:
        if method != right:
            raise Said(405, f'it is asked by {right}', Allow=right)

    # What is asked for.

    def prints(self, order: Any) -> None:
        """Prints the stream that is posted."""
        shared = self.server.shared
        if not shared.ways.package:
            raise Said(501, 'it prints by a command of its own, and only what comes to its port')
        if not shared.prints.acquire(blocking=False):
            raise Said(429, 'too many prints wait: try again', **{'Retry-After': '1'})
        try:
            data = self.body(min(MOST_STREAM, shared.ways.bounds.bytes or MOST_STREAM))
            made = shared.ways.pool.whole(order, data, shared.ways.device.state, shared.ways.bounds)
        except Cut:
            raise Said(413, f'it takes more than {shared.ways.bounds.seconds:g} s') from None
        except Failed as failed:
            raise Said(500, str(failed)) from None
        finally:
            shared.prints.release()
        if made.reached:
            raise Said(413, made.reached)
        told = {'X-Total-Count': str(made.images), **({'X-Fault': made.fault} if made.fault else {})}
        if not made.body:
            why = f'it prints {made.images} images' if made.images else made.fault or 'nothing is printed'
            raise Said(404 if made.images else 422, why, **told)
        self.give(200, orders.FORMS[order.form], made.body, told)

    def state(self, method: str) -> None:
        device = self.server.shared.ways.device
        if method in ('PUT', 'POST'):
            text = self.words()
            if text.lstrip().startswith('{'):
                found = json.loads(text)
                text = found.get('words', '') if isinstance(found, dict) else ''
                text = ','.join(map(str, text)) if isinstance(text, list) else str(text)
            device.set(','.join(text.splitlines()))
        with device.changes:
            self.json({**device.state.json(), 'rows_printed': device.counts['row'], 'jobs': device.counts['job'],
                       'told': device.told})

    def jobs(self, query: Dict[str, str]) -> Dict[str, Any]:
        """The last jobs, the newest first: those in whose number, line, language or questions a text stands."""
        text = query.get('q', '').lower()
        found = [it.json() for it in self.all_jobs()]
        found = [it for it in found if text in json.dumps(it, ensure_ascii=False).lower()]
        return {'jobs': sorted(found, key=lambda it: str(it['number']), reverse=True)[:MOST_JOBS]}

    def all_jobs(self) -> List[Job]:
        server = self.server.shared.server
        with server.lock:
            return [*server.past, *(till.job for till in server.tills)]

    def job(self, path: str) -> None:
        found = PART.fullmatch(path)
        assert found
        number, nth, form = found.groups()
        job = next((it for it in self.all_jobs() if it.number == number), None)
        if not job:
            raise Said(404, f'no job is called {number}')
        is_viewer = path.endswith('/viewer')
        if not form and not is_viewer:
            self.json(job.json())
            return
        name = f'{number}{nth or ""}.{form or "bin"}'
        if form == 'png' and name not in job.names or form != 'png' and nth or not job.is_over:
            raise Said(404, f'there is no {name}')
        try:
            data = (self.server.shared.ways.store.folder / name).read_bytes()
        except OSError:
            raise Said(404, f'{name} is gone') from None
        if is_viewer:
            self.give(200, KINDS['html'], viewing.page(name, data), {'Content-Security-Policy': viewing.POLICY})
        else:
            self.give(200, KINDS[form], data)

    def events(self) -> None:
        """What happens, as it does: Server-Sent Events, from the one behind Last-Event-ID on."""
        shared, device = self.server.shared, self.server.shared.ways.device
        if not shared.follows.acquire(blocking=False):
            raise Said(429, 'too many follow what happens', **{'Retry-After': '10'})
        try:
            self.send_response(200)
            for name, value in {**HEADERS, 'Content-Type': 'text/event-stream', 'Connection': 'close'}.items():
                self.send_header(name, value)
            self.end_headers()
            self.close_connection = True
            given = self.headers.get('Last-Event-ID', '')
            last = int(given) if given.isdigit() and len(given) < 18 else device.told
            self.wfile.write(b'retry: 1000\n\n')
            while not device.is_over:
                with device.changes:
                    if device.told <= last:
                        device.changes.wait(BEAT)
                    events = [it for it in device.events if it[0] > last]
                for number, event in events:
                    self.wfile.write(f'id: {number}\ndata: {json.dumps(event)}\n\n'.encode())
                    last = number
                if not events:
                    self.wfile.write(b': still here\n\n')
        except OSError:
            pass
        finally:
            shared.follows.release()

    # What comes and goes.

    def body(self, most: int) -> bytes:
        given = self.headers.get('Content-Length')
        if given is None or not given.isdigit():
            raise Said(411, 'its length has to be said: Content-Length')
        if len(given) > 12 or int(given) > most:
            raise Said(413, f'a body is at most {most:,} bytes')
        data = self.rfile.read(int(given))
        if len(data) < int(given):
            raise Said(400, 'the body ended before its length')
        self.has_read = True
        return data

    def words(self) -> str:
        return self.body(MOST_WORDS).decode('utf-8')

    def json(self, what: Any) -> None:
        self.give(200, 'application/json', (json.dumps(what) + '\n').encode())

    def give(self, status: int, kind: str, data: bytes, more: Optional[Dict[str, str]] = None) -> None:
        # (what is left of a body that isn't read would be taken for the next request)
        self.close_connection = self.close_connection or not self.has_read
        self.send_response(status)
        heads = {**HEADERS, 'Content-Type': kind, 'Content-Length': str(len(data)), **(more or {})}
        if self.close_connection:
            heads['Connection'] = 'close'
        if self.sets_cookie:
            heads['Set-Cookie'] = self.sets_cookie
        for name, value in heads.items():
            self.send_header(name, tools.program.shown(value))
        self.end_headers()
        if self.command != 'HEAD':
            with contextlib.suppress(OSError):
                self.wfile.write(data)


def hosts_of(web: socket.socket) -> List[str]:
    """The hosts that a browser may name, where only this machine comes in; else any."""
    host, port = web.getsockname()[:2]
    if not is_own(host):
        return []
    ends = [f':{port}', *([''] if port == 80 else [])]
    return [f'{name}{end}' for name in (host, 'localhost', '127.0.0.1', '[::1]') for end in ends]


def start(web: socket.socket, ways: Ways, server: Server, token: str) -> None:
    """Serves in threads of its own."""
    made = Web(web)
    made.shared = Shared(ways, server, token, hosts_of(web), threading.BoundedSemaphore(MOST_PRINTS),
                         threading.BoundedSemaphore(MOST_FOLLOW))
    threading.Thread(target=made.serve_forever, daemon=True).start()
