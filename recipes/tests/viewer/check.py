#!/usr/bin/env python3
"""Tests the viewer: `http` by its own questions, `browser` in Chromium; `picture FILE` draws the README's picture."""
import contextlib
import json
import os
import pathlib
import re
import resource
import shutil
import signal
import socket
import subprocess
import sys
import tempfile
import time
import urllib.parse
from serving import FONT_A, FONT_B, RECEIPT, ROOT, SHELF, SHIPPING, VIEWER, VP, Viewer, alive, same, vp, wait
from served import in_browser, picture


def test_prints(page):
    for language, name in ('label', SHELF), ('label', SHIPPING), ('receipt', RECEIPT):
        data = name.read_bytes()
        images, told = page.print(data, language)
        same(images, vp(language, data))
        same(told, {'line': '', 'status': 0, 'late': False, 'guess': language})
    assert page.print(b'Hi\n', 'receipt', '&width=384')[0].startswith(b'P4\n384 34\n')
    same(page.print(RECEIPT.read_bytes())[1]['guess'], 'receipt')
    # what vp leaves out is written anew where the page asks for it, and a fault's byte is that of the stream that came
    circle = b'^XA^PW80^LL40^FO8,8^GC20,3^FS^XZ'
    assert not any(page.print(circle)[0][9:]) and any(page.print(circle, more='&anew=1')[0][9:])
    assert not json.loads(page.good('remarks?lang=label&anew=1', circle)), 'what the whole language draws is told'
    assert b'^GC20,3\n' in page.list(circle, more='&anew=1')[0] and b'^GC skipped\n' in page.list(circle)[0]
    found = json.loads(page.good('remarks?lang=label&anew=1', b'^XA^PW80^LL40^FO8,8^BFN,4^FDx^FS^XZ'))
    assert any(text.startswith('^BF: MicroPDF417') for _, text in found), found
    same(page.print(b'a\x10\x14\x01\x00\x05\x1bE', 'receipt', '&anew=1')[1]['line'],
         'vp: F8 after 8 bytes: input ends inside a command')


def test_faults(page):
    images, told = page.print(b'Hi\n\x1bJ\x02\x1b\x7f', 'receipt')
    same([told['line'], told['status']], ['vp: F1 after 8 bytes: unknown command 1B 7F', 1])
    same(images.count(b'P4\n'), 2)
    assert page.print(b'^XA^FO0,0^GFA,1,2^XZ')[1]['line'].startswith('vp: F7 ')
    # of a raster that is broken off, the rows that came
    images, told = page.print(b'\x1dv0\0\x01\0\x04\0\xff\xff', 'receipt')
    assert told['line'].startswith('vp: F8 ') and len(images) == len(b'P4\n576 4\n') + 2 * 72, (told, len(images))


def test_listing(page):
    out, told = page.list(b'^XA^FO40,20^FDHi^FS^CI28^XZ')
    same(out, b'3 ^XA\n12 ^FO40,20\n14 ^FD\n15 byte 48\n16 byte 69\n19 ^FS\n22 ^CI skipped\n27 ^XZ\n')
    same(told, {'line': '', 'status': 0, 'late': False})
    data = RECEIPT.read_bytes()
    listed = subprocess.run([VP, 'list', '--lang', 'receipt', '--offsets'], input=data, stdout=subprocess.PIPE).stdout
    same(page.list(data, 'receipt')[0], listed)


def test_remarks(page):
    found = json.loads(page.good('remarks?lang=label', b'^XA^FO0,0^BXN,4,200^FDx^FS^XZ'))
    assert any('^BX' in text for _, text in found), found


def test_sheets(page):
    plain = b'^XA^PW80^LL24^FO0,0^FDX^FS^XZ'
    assert page.print(plain)[0] != page.print(plain, more='&a=none')[0]
    name = json.loads(page.good('sheet', FONT_A.read_bytes()))
    same(page.print(plain, more=f'&a={name}')[0], page.print(plain)[0])
    name = json.loads(page.good('sheet', b'P4\n8 8\n12345678'))
    assert page.print(plain, more=f'&a={name}')[1]['line'].endswith('S3 wrong size')
    same(page.ask('print?lang=label&a=/etc/passwd', plain)[0], 409)


def test_rows(page):
    """How many rows fronts of a receipt print, also of one that is written anew."""
    def height(stream, anew):
        rest, rows = page.print(stream, 'receipt', f'&anew={anew}')[0], 0
        while rest:
            head = re.match(rb'P4\n(\d+) (\d+)\n', rest)
            rows, rest = rows + int(head[2]), rest[head.end() + int(head[1]) // 8 * int(head[2]):]
        return rows

    # letters of another table, and a picture that is kept and then printed
    lines = [b'One\n', b'\x1bt\x10Caf\xe9 \x80\n', b'\x1d(L\x12\0\x30\x70\x30\x01\x01\x31\x08\0\x08\0' + b'\xff' * 8,
             b'\x1d(L\x02\0\x30\x32', b'Last\n']
    stream = b''.join(lines)
    ends = [sum(map(len, lines[:n + 1])) for n in range(len(lines))]
    for anew in '0', '1':
        asked = f'rows?lang=receipt&anew={anew}&ends={",".join(map(str, ends))}'
        same(json.loads(page.good(asked, stream)), [height(stream[:it], anew) for it in ends])
    same(page.ask('rows?ends=1,x', b'')[0], 400)


def test_limits(page):
    """What is large goes through the server piece by piece: its memory stays, and what isn't read any more is ended."""
    same(page.ask('print?lang=label', b'x' * ((4 << 20) + 1))[0], 413)
    same(page.ask('print?lang=other', b'')[0], 400)
    same(page.print(b' ' * (4 << 20))[0], b'')
    for stream in b'a' * (4 << 20), b'a\n' * (2 << 20):
        for name in 'list', 'print':
            with contextlib.closing(page.begin(f'{name}?lang=receipt', stream)) as line:
                assert line.recv(100).startswith(b'HTTP/1.1 200 '), name
                for _ in range(20):
                    assert line.recv(1 << 20), name
        assert json.loads(page.good('remarks?lang=receipt', stream)), 'remarks'
    lines = page.list(b'a' * (1 << 20), 'receipt')[0]
    assert lines.endswith(b'%d char 61\n' % (1 << 20)) and lines.count(b'\n') == 1 << 20
    wait(lambda: not children(page.ran.pid))
    assert peak(page.ran.pid) < 120 << 20, f'the server took {peak(page.ran.pid) >> 20} MB'


def children(process):
    return pathlib.Path(f'/proc/{process}/task/{process}/children').read_text().split() if pathlib.Path(
        f'/proc/{process}').exists() else []


def peak(process):
    try:
        return int(re.search(r'VmHWM:\s+(\d+) kB', pathlib.Path(f'/proc/{process}/status').read_text())[1]) << 10
    except OSError:
        return 0


def test_idle(page):
    """Two thousand connections that say nothing, and some that say it slowly: whoever knows the secret is answered."""
    soft, hard = resource.getrlimit(resource.RLIMIT_NOFILE)
    count = 2000 if hard == resource.RLIM_INFINITY or hard > 2100 else hard - 100
    resource.setrlimit(resource.RLIMIT_NOFILE, (max(soft, count + 100), hard))
    at, slow = tuple(page.host.split(':')), []
    with contextlib.ExitStack() as idle:
        for n in range(count):
            line = idle.enter_context(socket.create_connection(at))
            if n % 10 == 0:
                line.send(b'GET /x')
                slow.append(line)
            if n % 500 == 0:
                same(page.print(SHELF.read_bytes())[0], vp('label', SHELF.read_bytes()))
        for _ in range(20):
            same(page.ask('state')[0], 200)
        same(page.print(SHELF.read_bytes())[0], vp('label', SHELF.read_bytes()))
        # a head without an end is hung up on, however slowly it comes
        last = slow[-1]
        last.settimeout(0.2)
        wait(lambda: hung_up(last), 30)
        same(page.ask('state')[0], 200)


def hung_up(line):
    try:
        line.send(b'x')
        return line.recv(1) == b''
    except socket.timeout:
        return False
    except OSError:
        return True


def test_safe(page):
    port = page.host.partition(':')[2]
    same(page.ask()[0], 200)
    same(page.ask(Host=f'localhost:{port}')[0], 200)
    for host in 'evil.example', f'evil.example:{port}', '127.0.0.1', f'127.0.0.1:{port}.evil.example', '':
        same((host, page.ask(Host=host)[0]), (host, 403))
        same(page.ask('print?lang=label', b'^XA^XZ', Host=host)[0], 403)
    for path in '/', '/x/', page.path[:-2] + '/', f'/{"A" * 32}/', '//', '/state':
        same((path, page.ask(path=path)[0]), (path, 403))
        same(page.ask('print?lang=label', b'', path=path)[0], 403)
    for origin in 'http://evil.example', 'null', f'https://{page.host}', f'http://127.0.0.1:{int(port) ^ 1}':
        same((origin, page.ask('state', Origin=origin)[0]), (origin, 403))
        same(page.ask('print?lang=label', b'^XA^XZ', Origin=origin)[0], 403)
    same(page.ask('state', Origin=f'http://{page.host}')[0], 200)
    same(page.ask('state', Sec_Fetch_Site='cross-site')[0], 403)
    for name in '../viewer', '..%2fviewer', 'server.py', 'gate.py', 'file?n=0', 'example?n=-1', 'example?n=99', 'print':
        same((name, page.ask(name)[0]), (name, 404))
    _, _, headers = page.ask()
    assert "default-src 'none'" in headers['Content-Security-Policy'], headers
    assert headers['Access-Control-Allow-Origin'] is None and headers['X-Content-Type-Options'] == 'nosniff'
    # only the loopback listens
    addresses = {it[4][0] for it in socket.getaddrinfo(socket.gethostname(), None, socket.AF_INET)}
    for address in addresses - {'127.0.0.1'}:
        try:
            socket.create_connection((address, int(port)), 2).close()
            raise AssertionError(f'it listens on {address}')
        except OSError:
            pass


def test_endless(room):
    """A program that never ends is ended, with all that it started, and one that nobody waits for any more too."""
    endless = room / 'endless'
    endless.write_text(f'#!/bin/sh\n[ "$1" = label ] || exit 0\nsleep 1000 & echo $! >>{room}/sleepers\n'
                       "printf 'P4\\n8 1\\nx'\nwait\n")
    endless.chmod(0o755)
    with Viewer(VP=str(endless)) as page:
        line = page.begin('print?lang=label', b'x')
        wait(lambda: (room / 'sleepers').is_file() and (room / 'sleepers').read_text().strip())
        first = int((room / 'sleepers').read_text().split()[0])
        line.close()
        wait(lambda: not alive(first))
        images, told = page.print(b'^XA^XZ')
        same([images, told['late']], [b'P4\n8 1\nx', 10])
        wait(lambda: not any(alive(int(it)) for it in (room / 'sleepers').read_text().split()))


def test_signals(room):
    """SIGTERM, SIGHUP and SIGINT end it at once, with all that it runs, and leave no folder; what one that was
    killed left goes when the next one starts."""
    slow, folder = room / 'slow', room / 'folders'
    slow.write_text(f'#!/bin/sh\n[ "$1" != --version ] || exit 0\nsleep 1000 & echo $! >>{room}/slow-sleepers\nwait\n')
    slow.chmod(0o755)
    folder.mkdir()
    for number in signal.SIGTERM, signal.SIGHUP, signal.SIGINT, signal.SIGKILL:
        page = Viewer(VP=str(slow), TMPDIR=str(folder))
        lines = [page.begin(it, b'x') for it in ('print?lang=receipt', 'rows?lang=receipt&ends=1,1,1,1,1,1,1,1,1,1')]
        wait(lambda: (room / 'slow-sleepers').is_file() and len((room / 'slow-sleepers').read_text().split()) > 3)
        start = time.monotonic()
        page.ran.send_signal(number)
        page.ran.wait(60)
        took = time.monotonic() - start
        for line in lines:
            line.close()
        sleepers = [int(it) for it in (room / 'slow-sleepers').read_text().split()]
        if number == signal.SIGKILL:
            assert len(list(folder.iterdir())) == 1, list(folder.iterdir())
            for it in sleepers:
                with contextlib.suppress(ProcessLookupError):
                    os.kill(it, signal.SIGKILL)
        else:
            # (a print that is waited for would be 10; a second is aimed at, on a machine that does nothing else)
            assert took < 5, f'{number.name}: it ended after {took:.1f} s'
            wait(lambda: not any(map(alive, sleepers)))
            same(list(folder.iterdir()), [])
        (room / 'slow-sleepers').unlink()
    with Viewer(TMPDIR=str(folder)) as page:
        same([page.ask('state')[0], len(list(folder.iterdir()))], [200, 1])
    same(list(folder.iterdir()), [])


def test_follows(room):
    file = room / 'shelf.zpl'
    file.write_bytes(SHELF.read_bytes())
    with Viewer(str(file), str(RECEIPT)) as page:
        known = [it['version'] for it in json.loads(page.good('state'))['files']]
        same(page.good('file?n=0'), SHELF.read_bytes())
        same(page.good('file?n=1'), RECEIPT.read_bytes())
        file.write_bytes(b'^XA^XZ')
        now = json.loads(page.good('changes?known=' + ','.join(known)))
        assert now[0] != known[0] and now[1] == known[1]
        same(page.good('file?n=0'), b'^XA^XZ')
        file.unlink()
        same(json.loads(page.good('changes?known=' + ','.join(now)))[0], '')
        status, said, _ = page.ask('file?n=0')
        same([status, said], [404, b'shelf.zpl: No such file or directory\n'])


def test_odd(room):
    """Files of any name and size, and an end by a signal, which leaves nothing behind."""
    names = [os.fsencode(room) + it for it in (b'/\xff.zpl', b'/two\nlines', b'/$(touch x) "\'.zpl', b'/-o', b'/empty')]
    for name in names:
        with open(name, 'wb') as file:
            file.write(b'' if name.endswith(b'empty') else b'^XA^XZ')
    large = room / 'large.zpl'
    large.write_bytes(b'^' * ((4 << 20) + 1))
    (room / 'temporary').mkdir()
    with Viewer('--', *names, large, cwd=room, TMPDIR=str(room / 'temporary')) as page:
        files = json.loads(page.good('state'))['files']
        same([it['name'] for it in files],
             ['\ufffd.zpl', r'two\x0alines', '$(touch x) "\'.zpl', '-o', 'empty', 'large.zpl'])
        same([page.good(f'file?n={n}') for n in range(5)], [b'^XA^XZ'] * 4 + [b''])
        same(page.ask('file?n=5')[:2], (413, b'large.zpl: a stream has at most 4 MB\n'))
        os.unlink(names[0])
        same(page.ask('file?n=0')[:2], (404, '\ufffd.zpl: No such file or directory\n'.encode()))
        assert os.listdir(room / 'temporary') and not (room / 'x').exists()
        page.ran.send_signal(signal.SIGTERM)
        same(page.ran.wait(60), 0)
        same([os.listdir(room / 'temporary'), page.ran.stderr.read()], [[], ''])


def test_prefix(room):
    """Copied under a prefix it finds vp, the sheets and the examples there."""
    lib, share = room / 'prefix/lib/vp', room / 'prefix/share/vp'
    shutil.copytree(VIEWER.parent, lib / 'viewer', ignore=shutil.ignore_patterns('__pycache__'))
    shutil.copytree(ROOT / 'recipes/vp_recipes', lib / 'vp_recipes', ignore=shutil.ignore_patterns('__pycache__'))
    shutil.copytree(ROOT / 'python/vp', lib / 'python/vp', ignore=shutil.ignore_patterns('__pycache__'))
    share.mkdir(parents=True)
    for name in FONT_A, FONT_B, SHELF:
        shutil.copy(name, share)
    (room / 'prefix/bin').mkdir()
    shutil.copy(VP, room / 'prefix/bin/vp')
    with Viewer(program=lib / 'viewer/viewer', VP='') as page:
        same(page.print(SHELF.read_bytes())[0], vp('label', SHELF.read_bytes()))
        same(page.good('example?n=0'), SHELF.read_bytes())


def test_words(room):
    def says(status, text, *words, **environment):
        ran = subprocess.run([VIEWER, *words], stdout=subprocess.PIPE, stderr=subprocess.PIPE, text=True, timeout=20,
                             env={**os.environ, **environment})
        assert ran.returncode == status and text in ran.stderr and ran.stderr.count('\n') == 1, ran

    says(2, 'viewer: ', '--port', 'x')
    os.mkfifo(room / 'pipe')
    says(3, 'not a file', str(room / 'pipe'))
    says(3, 'not a file', str(room))
    says(3, 'No such file', f'{room}/no\nsuch')
    says(2, 'viewer: ', '--port', '70000')
    says(3, 'No such file', str(room / 'nothing'))
    says(3, 'No such file', '--font-a', str(room / 'nothing'))
    ran = subprocess.run([VIEWER], stdout=subprocess.PIPE, stderr=subprocess.PIPE, text=True,
                         env={**os.environ, 'VP': str(room / 'no-vp')})
    assert ran.returncode in (2, 3) and 'no-vp' in ran.stderr and ran.stderr.count('\n') == 1, ran
    with Viewer() as page:
        says(3, 'in use', '--port', page.host.partition(':')[2])
    # no browser: the viewer says so and goes on
    with Viewer('--open', BROWSER='/nonexistent/browser', PATH='/nonexistent:' + os.path.dirname(sys.executable),
                DISPLAY='', WAYLAND_DISPLAY='') as page:
        same(page.ask()[0], 200)
        assert 'no browser' in page.ran.stderr.readline()


def test_open(room):
    """The browser is given a file of the user's own, which leads to the page once. Other users get nothing."""
    browser = room / 'browser'
    browser.write_text(f'#!/bin/sh\necho $$ >>{room}/browsers\necho "$1" >{room}/shown.new\n'
                       f'mv {room}/shown.new {room}/shown\nexec sleep 1000\n')
    browser.chmod(0o755)
    with Viewer('--open', str(SHELF), BROWSER=f'{browser} %s &') as page:
        wait(lambda: (room / 'shown').is_file())
        shown = (room / 'shown').read_text().strip()
        assert shown.startswith('file:///') and page.path.strip('/') not in shown, shown
        file = pathlib.Path(urllib.parse.unquote(shown[len('file://'):]))
        same([file.stat().st_mode & 0o777, file.parent.stat().st_mode & 0o777], [0o600, 0o700])
        other_user(page, file)
        once = urllib.parse.urlsplit(re.search('url=([^"]+)"', file.read_text())[1]).path
        assert once.strip('/') not in page.path
        same(page.ask(path=once, Host='evil.example')[0], 403)
        status, data, _ = page.ask(path=once, Origin='null', Sec_Fetch_Site='cross-site')
        assert status == 200 and f'url={page.path}"' in data.decode(), (status, data)
        same([page.ask(path=once)[0], file.exists()], [403, False])
    for it in (room / 'browsers').read_text().split():
        os.kill(int(it), signal.SIGKILL)


# What another user of the machine does: reads the words of all programs and the file, and asks with what they say.
OTHER = r"""
import glob, http.client, re, sys
host, file = sys.argv[1:]
words = []
for name in file, *glob.glob('/proc/[0-9]*/cmdline'):
    try:
        words.append(open(name, 'rb').read())
    except OSError:
        continue
    if name == file:
        sys.exit('it read the file')
for path in {'', *(it.decode() for it in re.findall(rb'[A-Za-z0-9_-]{20,}', b' '.join(words)))}:
    for name in '', '/', '/state', '/file?n=0':
        line = http.client.HTTPConnection(host, timeout=40)
        line.request('GET', f'/{path}{name}')
        if line.getresponse().status != 403:
            sys.exit(f'it was answered: {path}{name}')
"""


def other_user(page, file):
    if os.geteuid() != 0 or not shutil.which('setpriv'):
        print('viewer: left out: another user, who takes root and setpriv')
        return
    words = ['setpriv', '--reuid=65534', '--regid=65534', '--clear-groups', sys.executable, '-c', OTHER]
    subprocess.run([*words, page.host, file], cwd='/', check=True)


def over_http(room):
    with Viewer() as page:
        for test in (test_prints, test_faults, test_listing, test_remarks, test_sheets, test_rows, test_limits,
                     test_safe):
            test(page)
        test_idle(page)
    took = resource.getrusage(resource.RUSAGE_CHILDREN).ru_maxrss >> 10
    assert took < 200, f'one of the programs that the viewer ran took {took} MB'
    for test in test_follows, test_odd, test_prefix, test_words, test_open, test_endless, test_signals:
        test(room)


if __name__ == '__main__':
    with tempfile.TemporaryDirectory() as at:
        if sys.argv[1:2] == ['picture']:
            picture(pathlib.Path(at), sys.argv[2])
        else:
            {'http': over_http, 'browser': in_browser}[sys.argv[1]](pathlib.Path(at))
