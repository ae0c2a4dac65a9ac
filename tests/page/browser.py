"""A headless browser, driven over the DevTools protocol by a pipe: messages in JSON, each ended by a zero byte."""
import fcntl
import json
import os
import select
import shutil
import signal
import subprocess
import time

NAMES = ('chromium', 'chromium-browser', 'google-chrome', 'google-chrome-stable')
# seconds for one call; the largest page loads in a few
PATIENCE = 60
OPTIONS = ('--headless=new', '--no-sandbox', '--disable-gpu', '--disable-dev-shm-usage', '--no-first-run', '--no-default-browser-check',
           '--disable-extensions', '--disable-background-networking', '--disable-component-update', '--disable-sync',
           '--remote-debugging-pipe', 'about:blank')


class BrowserError(Exception):
    """The browser does not answer, or answers with an error."""


def find():
    """The browser that CHROME names, or one of the usual names on the path; nothing where none is installed."""
    named = os.environ.get('CHROME')
    if named:
        return shutil.which(named) or named
    return next(filter(None, map(shutil.which, NAMES)), None)


def start(command, folder, ends):
    """The browser's process, its files in a folder: it reads from file descriptor 3 and writes to 4."""
    def ends_in_place():
        os.dup2(ends[0], 3)
        os.dup2(ends[1], 4)
    with open(os.path.join(folder, 'log'), 'wb') as log:
        return subprocess.Popen([command, f'--user-data-dir={folder}/profile', *OPTIONS], stdin=subprocess.DEVNULL, stdout=log, stderr=log,
                                env={**os.environ, 'HOME': folder}, start_new_session=True, close_fds=False, preexec_fn=ends_in_place)


class Browser:
    def __init__(self, command, folder):
        near, far = os.pipe(), os.pipe()
        # out of the way of 3 and 4, to be copied there
        ends = [fcntl.fcntl(end, fcntl.F_DUPFD_CLOEXEC, 10) for end in (near[0], far[1])]
        self.input, self.output = near[1], far[0]
        try:
            self.process = start(command, folder, ends)
        except OSError as error:
            raise BrowserError(f'{command} does not start: {error}') from error
        finally:
            for end in (near[0], far[1], *ends):
                os.close(end)
        self.folder, self.bytes, self.number = folder, b'', 0
        self.answers, self.events = {}, []

    def send(self, method, session, parameters):
        self.number += 1
        message = {'id': self.number, 'method': method, 'params': parameters}
        if session:
            message['sessionId'] = session
        rest = json.dumps(message).encode() + b'\0'
        try:
            while rest:
                rest = rest[os.write(self.input, rest):]
        except BrokenPipeError as error:
            raise BrowserError(f'the browser ended: {self.log()}') from error
        return self.number

    def calls(self, calls, session=None):
        """The results of some calls, sent at once, in their order."""
        numbers = [self.send(method, session, parameters) for method, parameters in calls]
        self.until(lambda: all(number in self.answers for number in numbers), calls[0][0])
        answers = [self.answers.pop(number) for number in numbers]
        for answer, (method, _) in zip(answers, calls):
            if 'error' in answer:
                raise BrowserError(f'{method}: {answer["error"]["message"]}')
        return [answer['result'] for answer in answers]

    def until(self, there, what):
        """Reads messages until something is there."""
        end = time.monotonic() + PATIENCE
        while not there():
            if not select.select([self.output], [], [], max(0, end - time.monotonic()))[0]:
                raise BrowserError(f'{what}: no answer in {PATIENCE} s')
            more = os.read(self.output, 1 << 16)
            if not more:
                raise BrowserError(f'{what}: the browser ended: {self.log()}')
            *messages, self.bytes = (self.bytes + more).split(b'\0')
            for message in map(json.loads, messages):
                if 'id' in message:
                    self.answers[message['id']] = message
                else:
                    self.events.append(message)

    def log(self):
        with open(os.path.join(self.folder, 'log'), errors='replace') as log:
            return log.read()[-400:]

    def close(self):
        """Ends the browser and all that it started."""
        try:
            self.send('Browser.close', None, {})
            self.process.wait(5)
        except (BrowserError, subprocess.TimeoutExpired):
            pass
        try:
            os.killpg(self.process.pid, signal.SIGKILL)
        except ProcessLookupError:
            pass
        self.process.wait()
        os.close(self.input)
        os.close(self.output)


KEYS = {'Tab': 9, 'Enter': 13, 'Escape': 27, ' ': 32, 'End': 35, 'Home': 36,
        'ArrowLeft': 37, 'ArrowUp': 38, 'ArrowRight': 39, 'ArrowDown': 40}
TEXTS = {'Enter': '\r', ' ': ' '}
SHIFT = 8


class Tab:
    """A tab with one page, and what it asked for and complained of."""

    def __init__(self, browser):
        self.browser = browser
        target, = browser.calls([('Target.createTarget', {'url': 'about:blank'})])
        self.target = target['targetId']
        attached, = browser.calls([('Target.attachToTarget', {'targetId': self.target, 'flatten': True})])
        self.session = attached['sessionId']
        self.calls(*((f'{part}.enable', {}) for part in ('Page', 'Runtime', 'Network', 'Log')),
                   ('Emulation.setFocusEmulationEnabled', {'enabled': True}))

    def calls(self, *calls):
        return self.browser.calls(calls, self.session)

    def call(self, method, **parameters):
        return self.calls((method, parameters))[0]

    def events(self, *methods):
        """What the browser told of this tab, by methods."""
        return [event['params'] for event in self.browser.events if event.get('sessionId') == self.session and event['method'] in methods]

    def window(self, width, height, phone=False):
        self.call('Emulation.setDeviceMetricsOverride', width=width, height=height, deviceScaleFactor=2 if phone else 1, mobile=phone)
        self.call('Emulation.setTouchEmulationEnabled', enabled=phone)

    def dark(self, dark):
        features = [{'name': 'prefers-color-scheme', 'value': 'dark' if dark else 'light'}]
        self.call('Emulation.setEmulatedMedia', features=features)

    def open(self, url):
        before = len(self.events('Page.loadEventFired'))
        said = self.call('Page.navigate', url=url)
        if 'errorText' in said:
            raise BrowserError(f'{url}: {said["errorText"]}')
        self.browser.until(lambda: len(self.events('Page.loadEventFired')) > before, url)

    def ask(self, script):
        """The value of an expression in the page."""
        said = self.call('Runtime.evaluate', expression=script, returnByValue=True)
        if 'exceptionDetails' in said:
            raise BrowserError(f'{script[:60]}: {said["exceptionDetails"]}')
        return said['result'].get('value')

    def click(self, *places):
        """The left button pressed and released at each place."""
        button = {'button': 'left', 'clickCount': 1}
        self.calls(*(('Input.dispatchMouseEvent', {'type': kind, 'x': x, 'y': y, **button})
                     for x, y in places for kind in ('mousePressed', 'mouseReleased')))

    def touch(self, place):
        """A finger put down and taken off."""
        x, y = place
        self.call('Input.dispatchTouchEvent', type='touchStart', touchPoints=[{'x': x, 'y': y}])
        self.call('Input.dispatchTouchEvent', type='touchEnd', touchPoints=[])

    def key(self, key, shift=False, held=0):
        """A key pressed, perhaps held for some repeats, and released."""
        code = {' ': 'Space'}.get(key, key)
        same = {'key': key, 'code': code, 'windowsVirtualKeyCode': KEYS[key], 'modifiers': SHIFT if shift else 0}
        down = {**same, 'type': 'keyDown', 'text': TEXTS[key]} if key in TEXTS else {**same, 'type': 'rawKeyDown'}
        for repeat in range(held + 1):
            self.call('Input.dispatchKeyEvent', **down, autoRepeat=repeat > 0)
        self.call('Input.dispatchKeyEvent', **same, type='keyUp')

    def close(self):
        self.browser.calls([('Target.closeTarget', {'targetId': self.target})])
