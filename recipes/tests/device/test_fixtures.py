"""The fixtures of pytest and of node, by tests of tills that use them."""
from __future__ import annotations

import os
import pathlib
import shutil
import signal
import subprocess
import sys
import tempfile
import unittest

import tills
from tills import ROOT

TILL = '''
import socket

import pytest


@pytest.mark.vp_device('--state', 'model = TM-X')
def test_till(vp_device):
    with socket.create_connection((vp_device.host, vp_device.port), 10) as till:
        till.sendall(b'Total 8.08\\n\\x1dIC')
        assert till.recv(100) == b'\\x5fTM-X\\x00'
        vp_device.set('paper out')
        till.sendall(b'\\x10\\x04\\x04')
        assert till.recv(1) == b'\\x7e'
        vp_device.script('after .1 s: loaded')
        till.sendall(b'\\x1dr\\x01')
        assert till.recv(1) == b'\\0'
    job, = vp_device.ended()
    assert job['line'] == 'printed' and job['rows'] > 20
    assert vp_device.stream(job['number']).startswith(b'Total')
    assert (vp_device.folder / job['images'][0]).read_bytes()[:4] == b'\\x89PNG'


def test_wrong(vp_device):
    with pytest.raises(ValueError, match='no state is called'):
        vp_device.set('on fire')


@pytest.mark.vp_device('--state', 'on fire')
def test_words(request):
    with pytest.raises(RuntimeError, match='no state is called'):
        request.getfixturevalue('vp_device')
'''
NODE = '''
import assert from 'node:assert'
import { once } from 'node:events'
import { connect } from 'node:net'
import { test } from 'node:test'
import { start } from '%s'

test('a till', async t => {
  const printer = await start(['--state', 'paper out'])
  t.after(() => printer.end())
  const till = connect(printer.port, printer.host)
  till.write(Buffer.from([0x41, 0x0a, 0x10, 4, 4]))
  assert.deepEqual([...(await once(till, 'data'))[0]], [0x7e])
  await printer.set('loaded')
  till.end()
  const [job] = await printer.ended()
  assert.equal(job.line, 'printed')
  assert.equal((await printer.read('000001.bin')).length, 5)
  assert.equal((await printer.read(job.images[0]))[1], 0x50)
  await assert.rejects(printer.script('after x: y'), /no step is/)
})

test('wrong words', async () => {
  await assert.rejects(start(['--state', 'on fire']), /no state is called/)
})
'''


class Fixtures(unittest.TestCase):
    def room(self) -> pathlib.Path:
        it = tempfile.TemporaryDirectory()
        self.addCleanup(it.cleanup)
        return pathlib.Path(it.name)

    def test_of_pytest(self) -> None:
        python = next((it for it in (sys.executable, '/usr/bin/python3') if os.path.exists(it) and not subprocess.run(
            [it, '-c', 'import pytest'], stderr=subprocess.DEVNULL).returncode), None)
        if not python:
            left_out(self, 'pytest')
        room = self.room()
        (room / 'conftest.py').write_text("pytest_plugins = ['vp_device_fixture']\n")
        (room / 'test_till.py').write_text(TILL)
        ran = subprocess.run([str(python), '-m', 'pytest', '-q', '-p', 'no:cacheprovider', '--strict-markers',
                              '--basetemp', str(room / 'temporary')], cwd=room, stdout=subprocess.PIPE,
                             env={**os.environ, 'PYTHONPATH': str(ROOT / 'recipes/device')})
        self.assertEqual(ran.returncode, 0, ran.stdout.decode())
        self.assertIn(b'3 passed', ran.stdout)

    def test_of_node(self) -> None:
        if not shutil.which('node'):
            left_out(self, 'node')
        room = self.room()
        (room / 'till.test.mjs').write_text(NODE % (ROOT / 'recipes/device/device.mjs').as_uri())
        ran = subprocess.run(['node', '--test', str(room)], stdout=subprocess.PIPE, stderr=subprocess.STDOUT,
                             env={**os.environ, 'TMPDIR': str(room)})
        self.assertEqual(ran.returncode, 0, ran.stdout.decode())
        self.assertEqual([it for it in os.listdir(room) if it.startswith('vp-device-')], [])

    def test_it_goes_with_who_began_it(self) -> None:
        begins = ('import sys, time; sys.path.insert(0, sys.argv[1]); from vp_device.running import Running; '
                  'it = Running(sys.argv[2]); print(it.process.pid, flush=True); time.sleep(60)')
        room = self.room()
        with subprocess.Popen([sys.executable, '-c', begins, str(ROOT / 'recipes/device'), str(room / 'jobs')],
                              stdout=subprocess.PIPE) as ran:
            assert ran.stdout
            printer = int(ran.stdout.readline())
            ran.send_signal(signal.SIGKILL)
        tills.wait_for(lambda: not os.path.exists(f'/proc/{printer}')
                       or ') Z ' in pathlib.Path(f'/proc/{printer}/stat').read_text())


def left_out(test: unittest.TestCase, tool: str) -> None:
    """Says that a check is left out for want of a tool."""
    name = os.environ.get('VP_LEFT_OUT')
    if name:
        with open(name, 'a') as file:
            file.write(f'device {tool}\n')
    test.skipTest(f'no {tool}')


if __name__ == '__main__':
    unittest.main()
