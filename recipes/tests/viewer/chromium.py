"""A headless Chromium, driven over its pipe by the DevTools protocol."""
import base64
import json
import os
import select
import shutil
import subprocess
import time

NAMES = 'chromium', 'chromium-browser', 'google-chrome'


def installed():
    return next((it for it in map(shutil.which, NAMES) if it), None)


def at_home(folder, **more):
    """An environment whose home is a folder, where a browser leaves what it saves and keeps."""
    kept = {name: it for name, it in os.environ.items() if not name.startswith('XDG_')}
    return {**kept, 'HOME': str(folder), 'XDG_CACHE_HOME': f'{folder}/.cache', **more}


def standing(browser, script):
    """The middle of the element that a script gives, once that stands still."""
    last, place = None, []
    while place != last:
        last, place = place, browser.value(f'(() => {{ const box = ({script}).getBoundingClientRect();'
                                           ' return [box.x + box.width / 2, box.y + box.height / 2]; })()')
        time.sleep(0.1)
    return place


class Chromium:
    """One page. What is asked and isn't answered in time is an error."""

    name = 'Chromium'

    def __init__(self, folder, dark=False, width=1440, height=900):
        ours, theirs = os.pipe(), os.pipe()

        def pipes():
            # Chromium reads 3 and writes 4
            kept = os.dup(ours[0]), os.dup(theirs[1])
            os.dup2(kept[0], 3)
            os.dup2(kept[1], 4)
            for it in 3, 4:
                os.set_inheritable(it, True)

        self.log = open(os.path.join(folder, 'chromium.log'), 'ab')
        words = [installed(), '--headless', '--no-sandbox', '--disable-gpu', '--remote-debugging-pipe',
                 '--no-first-run', '--disable-dev-shm-usage', '--hide-scrollbars', f'--user-data-dir={folder}/profile',
                 f'--window-size={width},{height}', 'about:blank']
        self.ran = subprocess.Popen(words, close_fds=False, preexec_fn=pipes, stdin=subprocess.DEVNULL,
                                    stdout=self.log, stderr=self.log, start_new_session=True, env=at_home(folder))
        os.close(ours[0])
        os.close(theirs[1])
        self.to, self.back, self.held, self.count, self.errors, self.dialogs = ours[1], theirs[0], b'', 0, [], []
        # whether a page that asks is stayed on
        self.session, self.stays = None, True
        self.version = self.ask('Browser.getVersion')['product'].partition('/')[2]
        page = next(it for it in self.ask('Target.getTargets')['targetInfos'] if it['type'] == 'page')
        self.session = self.ask('Target.attachToTarget', targetId=page['targetId'], flatten=True)['sessionId']
        self.ask('Page.enable')
        self.ask('Runtime.enable')
        self.ask('Emulation.setEmulatedMedia',
                 features=[{'name': 'prefers-color-scheme', 'value': 'dark' if dark else 'light'}])
        self.size(width, height)

    def size(self, width, height, scale=1):
        self.ask('Emulation.setDeviceMetricsOverride', width=width, height=height, deviceScaleFactor=scale,
                 mobile=False)

    def send(self, method, **words):
        self.count += 1
        message = {'id': self.count, 'method': method, 'params': words}
        if self.session:
            message['sessionId'] = self.session
        os.write(self.to, json.dumps(message).encode() + b'\0')
        return self.count

    def ask(self, method, **words):
        number = self.send(method, **words)
        until = time.monotonic() + 60
        while True:
            while b'\0' not in self.held:
                if not select.select([self.back], [], [], max(0, until - time.monotonic()))[0]:
                    raise TimeoutError(method)
                some = os.read(self.back, 1 << 20)
                if not some:
                    raise EOFError('Chromium ended')
                self.held += some
            line, _, self.held = self.held.partition(b'\0')
            told = json.loads(line)
            if told.get('method') == 'Runtime.exceptionThrown':
                details = told['params']['exceptionDetails']
                self.errors.append(details.get('exception', {}).get('description', details['text']))
            if told.get('method') == 'Page.javascriptDialogOpening':
                self.dialogs.append(told['params']['type'])
                self.send('Page.handleJavaScriptDialog', accept=not self.stays)
            if told.get('id') == number:
                if 'error' in told:
                    raise RuntimeError(f'{method}: {told["error"]["message"]}')
                return told['result']

    def open(self, address):
        self.ask('Page.navigate', url=address)

    def value(self, script):
        """What a script gives, its promises kept."""
        said = self.ask('Runtime.evaluate', expression=script, returnByValue=True, awaitPromise=True)
        if 'exceptionDetails' in said:
            raise RuntimeError(said['exceptionDetails'].get('exception', {}).get('description', script))
        return said['result'].get('value')

    def wait(self, script, what, seconds=60):
        until = time.monotonic() + seconds
        while time.monotonic() < until:
            try:
                found = self.value(f'!!({script})')
            except RuntimeError:
                found = None
            if found:
                return found
            time.sleep(0.02)
        raise AssertionError(f'{what}: not within {seconds} s')

    def key(self, text):
        """Types one character."""
        self.ask('Input.dispatchKeyEvent', type='keyDown', text=text, key=text)
        self.ask('Input.dispatchKeyEvent', type='keyUp', key=text)

    def press(self, key, code, modifiers=0):
        for kind in 'rawKeyDown', 'keyUp':
            self.ask('Input.dispatchKeyEvent', type=kind, key=key, code=key, windowsVirtualKeyCode=code,
                     modifiers=modifiers)

    def insert(self, text):
        """Puts a text at the cursor, at once."""
        self.ask('Input.insertText', text=text)

    def click(self, script):
        """Clicks the middle of the element that a script gives, once that stands still."""
        self.click_at(*standing(self, script))

    def click_at(self, x, y):
        for kind in 'mousePressed', 'mouseReleased':
            self.ask('Input.dispatchMouseEvent', type=kind, x=x, y=y, button='left', clickCount=1)

    def picture(self, name):
        data = self.ask('Page.captureScreenshot', format='png')['data']
        with open(name, 'wb') as file:
            file.write(base64.b64decode(data))

    def close(self):
        try:
            self.session = None
            self.ask('Browser.close')
            self.ran.wait(10)
        except (OSError, EOFError, TimeoutError, RuntimeError, subprocess.TimeoutExpired):
            self.ran.kill()
            self.ran.wait()
        for it in self.to, self.back:
            os.close(it)
        self.log.close()
