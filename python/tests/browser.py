"""Chromium without a screen, driven by its remote protocol over a pipe."""
import base64
import fcntl
import itertools
import json
import os
import shutil
import subprocess
import tempfile
import time
from typing import Any, Dict, Optional

NAMES = ('chromium-headless-shell', 'chromium', 'chromium-browser')


def installed() -> Optional[str]:
    """The program, if it exists."""
    return next(filter(None, map(shutil.which, NAMES)), None)


class Browser:
    """A browser with one page."""

    def __init__(self) -> None:
        self.profile = tempfile.mkdtemp()
        read, told = os.pipe()
        heard, write = os.pipe()

        def ends() -> None:
            # By copies, which are of other numbers than 3 and 4 for sure.
            ours = fcntl.fcntl(read, fcntl.F_DUPFD, 10), fcntl.fcntl(write, fcntl.F_DUPFD, 10)
            for number, end in zip((3, 4), ours):
                os.dup2(end, number)

        self.process = subprocess.Popen(
            [str(installed()), '--headless', '--no-sandbox', '--disable-gpu',
             f'--user-data-dir={self.profile}', '--remote-debugging-pipe'],
            preexec_fn=ends, close_fds=False, stdout=subprocess.DEVNULL, stderr=subprocess.DEVNULL)
        os.close(read)
        os.close(write)
        self.input, self.output = os.fdopen(told, 'wb', 0), os.fdopen(heard, 'rb')
        self.errors: 'list[str]' = []
        self.numbers, self.session = itertools.count(1), ''
        target = self.call('Target.createTarget', url='about:blank')['targetId']
        self.session = self.call('Target.attachToTarget', targetId=target,
                                 flatten=True)['sessionId']
        for domain in ('Page', 'Runtime', 'Log'):
            self.call(f'{domain}.enable')

    def message(self) -> Dict[str, Any]:
        """The next message."""
        text = b''
        while not text.endswith(b'\0'):
            byte = self.output.read(1)
            if not byte:
                raise EOFError
            text += byte
        found: Dict[str, Any] = json.loads(text[:-1])
        return found

    def call(self, method: str, **given: Any) -> Dict[str, Any]:
        """The result of a call. What the page complains of is in `errors`."""
        number = next(self.numbers)
        words: Dict[str, Any] = {'id': number, 'method': method, 'params': given}
        if self.session:
            words['sessionId'] = self.session
        self.input.write(json.dumps(words).encode() + b'\0')
        while True:
            found = self.message()
            if found.get('method') in ('Runtime.exceptionThrown', 'Log.entryAdded'):
                self.errors.append(json.dumps(found['params']))
            if found.get('id') == number:
                if 'error' in found:
                    raise AssertionError(found['error'])
                result: Dict[str, Any] = found['result']
                return result

    def open(self, address: str) -> None:
        """Opens a page, and waits until it exists."""
        self.call('Page.navigate', url=address)
        self.until("document.readyState === 'complete'")

    def value(self, script: str) -> Any:
        """The value of an expression in the page."""
        found = self.call('Runtime.evaluate', expression=script, returnByValue=True,
                          awaitPromise=True)
        if 'exceptionDetails' in found:
            raise AssertionError(found['exceptionDetails'])
        return found['result'].get('value')

    def until(self, script: str, seconds: float = 60) -> None:
        """Waits until an expression holds."""
        end = time.monotonic() + seconds
        while not self.value(script):
            if time.monotonic() > end:
                raise AssertionError(f'it never holds: {script}')
            time.sleep(0.05)

    def key(self, key: str, code: int, modifiers: int = 0, text: str = '') -> None:
        """Presses a key. The modifier 2 is Ctrl, 8 is Shift."""
        for kind in ('keyDown', 'keyUp'):
            self.call('Input.dispatchKeyEvent', type=kind, key=key, windowsVirtualKeyCode=code,
                      modifiers=modifiers, **({'text': text} if text and kind == 'keyDown' else {}))

    def type(self, text: str) -> None:
        """Types a text."""
        self.call('Input.insertText', text=text)

    def click(self, selector: str) -> None:
        """Clicks into the middle of an element."""
        place = self.value(f'(() => {{ const e = document.querySelector({json.dumps(selector)});'
                           ' e.scrollIntoView({block: "center"}); const r ='
                           ' e.getBoundingClientRect();'
                           ' return [r.x + r.width / 2, r.y + r.height / 2]; })()')
        for kind in ('mousePressed', 'mouseReleased'):
            self.call('Input.dispatchMouseEvent', type=kind, x=place[0], y=place[1], button='left',
                      clickCount=1)

    def resize(self, width: int, height: int) -> None:
        """Gives the page a size in pixels."""
        self.call('Emulation.setDeviceMetricsOverride', width=width, height=height,
                  deviceScaleFactor=1, mobile=False)

    def screenshot(self, path: str) -> None:
        """Writes a picture of the whole page."""
        found = self.call('Page.captureScreenshot', captureBeyondViewport=True)
        with open(path, 'wb') as file:
            file.write(base64.b64decode(found['data']))

    def close(self) -> None:
        """Ends the browser."""
        self.input.close()
        self.process.terminate()
        self.process.wait(20)
        self.output.close()
        shutil.rmtree(self.profile, ignore_errors=True)  # helpers may still write there
