"""A headless browser of the Chromium family, which these tests control by its protocol over two pipes."""
import fcntl
import json
import os
import select
import subprocess
import time

KEYS = {' ': ('Space', 32), 'ArrowLeft': ('ArrowLeft', 37), 'ArrowUp': ('ArrowUp', 38), 'ArrowRight': ('ArrowRight', 39),
        'ArrowDown': ('ArrowDown', 40), 'Home': ('Home', 36), 'End': ('End', 35), 'Enter': ('Enter', 13),
        'Tab': ('Tab', 9)}
CTRL = 2


class Failed(Exception):
    """The page does not do what the test expects."""


def pipe():
    """Returns both ends of a pipe, with descriptors above those that the browser uses."""
    return [fcntl.fcntl(end, fcntl.F_DUPFD, 10) for end in os.pipe()]


class Browser:
    def __init__(self, program, profile):
        commands, answers = pipe(), pipe()

        def at_3_and_4():
            os.dup2(commands[0], 3)
            os.dup2(answers[1], 4)

        words = ['--headless=new', '--no-sandbox', '--disable-gpu', '--disable-dev-shm-usage', '--hide-scrollbars', '--remote-debugging-pipe',
                 '--disable-background-networking', '--no-first-run', '--window-size=1280,720', f'--user-data-dir={profile}']
        self.process = subprocess.Popen([program, *words], preexec_fn=at_3_and_4, pass_fds=(3, 4),
                                        stdin=subprocess.DEVNULL, stdout=subprocess.DEVNULL, stderr=subprocess.DEVNULL)
        os.close(commands[0])
        os.close(answers[1])
        self.to, self.answers, self.rest = commands[1], answers[0], b''
        self.asked = 0
        self.errors = []

    def close(self):
        try:
            self.send('Browser.close')
            self.process.wait(10)
        except (Failed, OSError, subprocess.TimeoutExpired):
            self.process.kill()
            self.process.wait()

    def message(self, until):
        while b'\0' not in self.rest:
            if not select.select([self.answers], [], [], max(until - time.monotonic(), 0))[0]:
                raise Failed('the browser does not answer')
            piece = os.read(self.answers, 1 << 20)
            if not piece:
                raise Failed('the browser has exited')
            self.rest += piece
        text, self.rest = self.rest.split(b'\0', 1)
        return json.loads(text)

    def send(self, method, session=None, seconds=60, **of):
        self.asked += 1
        asked = {'id': self.asked, 'method': method, 'params': of}
        if session:
            asked['sessionId'] = session
        data = json.dumps(asked).encode() + b'\0'
        while data:
            data = data[os.write(self.to, data):]
        until = time.monotonic() + seconds
        while True:
            message = self.message(until)
            if message.get('id') == asked['id']:
                if 'error' in message:
                    raise Failed(f"{method}: {message['error']['message']}")
                return message['result']
            self.hear(message)

    def hear(self, message):
        """Keeps the errors on the page's console."""
        method, of = message.get('method'), message.get('params', {})
        if method == 'Runtime.exceptionThrown':
            details = of['exceptionDetails']
            self.errors.append(details.get('exception', {}).get('description', details['text']))
        elif method == 'Log.entryAdded' and of['entry']['level'] == 'error':
            self.errors.append(f"{of['entry']['text']} {of['entry'].get('url', '')}")
        elif method == 'Runtime.consoleAPICalled' and of['type'] == 'error':
            self.errors.append(str([it.get('value', it.get('description')) for it in of['args']]))


class Page:
    """A page in the browser. The script `before` runs before those of the page."""

    def __init__(self, browser, address, width=1280, height=720, scale=1, before=''):
        self.browser = browser
        target = browser.send('Target.createTarget', url='about:blank')['targetId']
        self.session = browser.send('Target.attachToTarget', targetId=target, flatten=True)['sessionId']
        self.target = target
        for domain in ('Page', 'Runtime', 'Log'):
            self.send(f'{domain}.enable')
        self.size(width, height, scale)
        self.send('Page.addScriptToEvaluateOnNewDocument', source=before)
        self.go(address)

    def send(self, method, **of):
        return self.browser.send(method, session=self.session, **of)

    def go(self, address):
        self.send('Page.navigate', url=address)
        self.wait('document.documentElement?.dataset.ready === "true"', 'the page starts')

    def close(self):
        self.browser.send('Target.closeTarget', targetId=self.target)

    def size(self, width, height, scale=1):
        self.send('Emulation.setDeviceMetricsOverride', width=width, height=height, deviceScaleFactor=scale, mobile=False)

    def ask(self, expression, seconds=60):
        """Returns the value of an expression, also if it is a promise."""
        told = self.browser.send('Runtime.evaluate', session=self.session, seconds=seconds, expression=expression,
                                 awaitPromise=True, returnByValue=True, userGesture=True)
        if 'exceptionDetails' in told:
            details = told['exceptionDetails']
            raise Failed(details.get('exception', {}).get('description', details['text']))
        return told['result'].get('value')

    def wait(self, expression, what=None, seconds=40):
        until = time.monotonic() + seconds
        while not self.ask(expression):
            if time.monotonic() > until:
                raise Failed(f'{what or expression}: not within {seconds} s')
            time.sleep(0.01)

    def settle(self):
        """Waits until the page shows all that was asked of it."""
        self.wait('document.getElementById("run").ariaBusy === "false" && document.getElementById("state").ariaBusy === "false"', 'the page settles')

    def click(self, selector):
        at = self.ask(f'''(() => {{
            const it = document.querySelector({json.dumps(selector)});
            it.scrollIntoView({{ block: 'center' }});
            const {{ x, y, width, height }} = it.getBoundingClientRect();
            return [x + width / 2, y + height / 2];
        }})()''')
        for kind, button in (('mouseMoved', 'none'), ('mousePressed', 'left'), ('mouseReleased', 'left')):
            self.send('Input.dispatchMouseEvent', type=kind, x=at[0], y=at[1], button=button, clickCount=1)

    def key(self, key, modifiers=0):
        code, number = KEYS.get(key, (f'Key{key.upper()}', ord(key.upper()) if len(key) == 1 else 0))
        text = {'text': '\r'} if key == 'Enter' else {'text': key} if len(key) == 1 and not modifiers else {}
        for kind in ('keyDown' if text else 'rawKeyDown', 'keyUp'):
            self.send('Input.dispatchKeyEvent', type=kind, key=key, code=code, windowsVirtualKeyCode=number,
                      modifiers=modifiers, **(text if kind == 'keyDown' else {}))

    def type(self, text):
        self.send('Input.insertText', text=text)

    def text(self, selector):
        return self.ask(f'document.querySelector({json.dumps(selector)}).textContent')

    def choose(self, selector, value):
        """Chooses an option of a list, or sets the value of a field."""
        self.ask(f'''(() => {{
            const it = document.querySelector({json.dumps(selector)});
            it.value = {json.dumps(value)};
            it.dispatchEvent(new Event('input', {{ bubbles: true }}));
            it.dispatchEvent(new Event('change', {{ bubbles: true }}));
        }})()''')
