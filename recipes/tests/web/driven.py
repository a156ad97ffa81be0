"""What is asked of a browser in WebDriver's terms, whichever way its answers come (firefox.py, webkit.py)."""
import json
import time
from chromium import standing

KEYS = {'ArrowDown': '\ue015', 'ArrowUp': '\ue013', 'Enter': '\ue007', 'Backspace': '\ue003', 'Escape': '\ue00c',
        '\r': '\ue007'}
MODIFIERS = {2: '\ue009', 8: '\ue008'}
ERRORS = """(() => { window.errors = [];
  addEventListener('error', event => errors.push(event.message));
  addEventListener('unhandledrejection', event => errors.push(String(event.reason))); })()"""


class Driven:
    """One page. The browser has `go` for an address, `run` for a script that calls back, `act` for actions, `place` for
    the window."""

    def open(self, address):
        self.go(address)
        self.value(ERRORS)

    @property
    def errors(self):
        return self.value('errors')

    def size(self, width, height):
        self.place({'x': 0, 'y': 0, 'width': width, 'height': height})

    def value(self, script):
        """What a script of the page gives, its promises kept."""
        found = json.loads(self.run(f"""const [done] = arguments;
          const tell = it => done(JSON.stringify(it));
          Promise.resolve().then(() => ({script}))
            .then(value => tell({{ value }}), fault => tell({{ fault: String(fault) }}));"""))
        if 'fault' in found:
            raise RuntimeError(found['fault'])
        return found.get('value')

    def wait(self, script, what, seconds=60):
        until = time.monotonic() + seconds
        while time.monotonic() < until:
            if self.value(f'!!({script})'):
                return
            time.sleep(0.02)
        raise AssertionError(f'{what}: not within {seconds} s')

    def key(self, text):
        """Types one character."""
        self.keys([KEYS.get(text, text)])

    def press(self, key, _, modifiers=0):
        self.keys([*(it for bit, it in MODIFIERS.items() if modifiers & bit), KEYS.get(key, key)])

    def keys(self, keys):
        """Presses some keys together."""
        steps = [*(('keyDown', it) for it in keys), *(('keyUp', it) for it in reversed(keys))]
        self.act({'type': 'key', 'id': 'keys', 'actions': [{'type': kind, 'value': it} for kind, it in steps]})

    def insert(self, text):
        """Puts a text at the cursor, at once."""
        assert self.value(f'document.execCommand("insertText", false, {json.dumps(text)})')

    def click(self, script):
        """Clicks the middle of the element that a script gives, once that stands still."""
        self.click_at(*standing(self, script))

    def click_at(self, x, y):
        steps = [{'type': 'pointerMove', 'x': round(x), 'y': round(y)},
                 {'type': 'pointerDown', 'button': 0}, {'type': 'pointerUp', 'button': 0}]
        self.act({'type': 'pointer', 'id': 'mouse', 'actions': steps})
