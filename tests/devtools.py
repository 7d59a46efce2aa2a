"""A browser of the chromium family for tests/pictures.py: started once, and asked over a pipe by the DevTools protocol."""
import base64
import json
import os
import select
import shutil
import subprocess
import tempfile
import time

BROWSERS = ('chromium', 'chromium-browser', 'google-chrome', 'google-chrome-stable')
PATIENCE = 60   # seconds for an answer

# a clock that stands
CLOCK = """(() => { const Real = Date; Date = class extends Real { constructor(...given) { super(...(given.length ? given : ['%s'])); } }; })()"""


def installed():
    """The first of these browsers that is installed, if any."""
    return next((name for name in BROWSERS if shutil.which(name)), None)


class Silent(Exception):
    """The browser does not answer, or not what it was asked."""


class Browser:
    """One page, shown in turn."""

    def __init__(self, name):
        self.profile = tempfile.TemporaryDirectory(ignore_cleanup_errors=True)
        theirs, self.ask = os.pipe()
        self.answers, ours = os.pipe()
        words = [name, '--headless', '--no-sandbox', '--disable-gpu', '--disable-dev-shm-usage', '--hide-scrollbars', '--no-first-run',
                 f'--user-data-dir={self.profile.name}', '--remote-debugging-pipe', 'about:blank']
        # the browser reads from file 3 and writes to file 4
        self.process = subprocess.Popen(['sh', '-c', f'exec "$@" 3<&{theirs} 4>&{ours}', 'sh', *words], pass_fds=(theirs, ours),
                                        stdin=subprocess.DEVNULL, stdout=subprocess.DEVNULL, stderr=subprocess.DEVNULL)
        os.close(theirs)
        os.close(ours)
        self.read, self.number, self.session, self.happened, self.clock_script = b'', 0, None, [], None
        try:
            target = self.call('Target.createTarget', url='about:blank')['targetId']
            self.session = self.call('Target.attachToTarget', targetId=target, flatten=True)['sessionId']
            self.call('Page.enable')
        except Silent:
            self.close()
            raise

    def __enter__(self):
        return self

    def __exit__(self, *_):
        self.close()

    def close(self):
        """Ends the browser, which its pipe's end tells it."""
        os.close(self.ask)
        os.close(self.answers)
        try:
            self.process.wait(10)
        except subprocess.TimeoutExpired:
            self.process.kill()
            self.process.wait()
        self.profile.cleanup()

    def message(self):
        """The next message of the browser."""
        until = time.monotonic() + PATIENCE
        while b'\0' not in self.read:
            ready = select.select([self.answers], [], [], max(0, until - time.monotonic()))[0]
            read = os.read(self.answers, 1 << 20) if ready else b''
            if not read:
                raise Silent('no answer of the browser')
            self.read += read
        message, _, self.read = self.read.partition(b'\0')
        return json.loads(message)

    def call(self, method, **parameters):
        """What the browser answers to a call; what happens meanwhile is kept."""
        self.number += 1
        asked = {'id': self.number, 'method': method, 'params': parameters, **({'sessionId': self.session} if self.session else {})}
        try:
            os.write(self.ask, json.dumps(asked).encode() + b'\0')
        except BrokenPipeError:
            raise Silent('the browser has ended') from None
        while (message := self.message()).get('id') != self.number:
            self.happened.append(message.get('method'))
        if 'error' in message:
            raise Silent(f'{method}: {message["error"]["message"]}')
        return message['result']

    def clock(self, when):
        """Sets the clock of the pages that are shown from here on, and stops it."""
        if self.clock_script:
            self.call('Page.removeScriptToEvaluateOnNewDocument', identifier=self.clock_script)
        self.clock_script = self.call('Page.addScriptToEvaluateOnNewDocument', source=CLOCK % when.isoformat())['identifier']

    def show(self, page, wide, high):
        """Shows a page on a screen of this size, in light colours."""
        self.call('Emulation.setDeviceMetricsOverride', width=wide, height=high, deviceScaleFactor=1, mobile=False)
        self.colours('light')
        self.happened = []
        failed = self.call('Page.navigate', url=page.as_uri()).get('errorText')
        if failed:
            raise Silent(f'{page.name}: {failed}')
        while 'Page.loadEventFired' not in self.happened:
            self.happened.append(self.message().get('method'))

    def colours(self, mode):
        """Shows the page as it is where light or dark is preferred."""
        self.call('Emulation.setEmulatedMedia', features=[{'name': 'prefers-color-scheme', 'value': mode}])

    def value(self, script):
        """What a script gives in the page that is shown."""
        answer = self.call('Runtime.evaluate', expression=script, returnByValue=True)
        if 'exceptionDetails' in answer:
            raise Silent(answer['exceptionDetails'].get('exception', {}).get('description', 'a script that fails'))
        return answer['result'].get('value')

    def picture(self, whole=False):
        """What is on the screen, as a PNG; with all that is below it where the whole page is asked for."""
        clip = {}
        if whole:
            size = self.call('Page.getLayoutMetrics')['cssContentSize']
            clip = {'clip': {'x': 0, 'y': 0, 'width': size['width'], 'height': size['height'], 'scale': 1}}
        drawn = self.call('Page.captureScreenshot', format='png', captureBeyondViewport=whole, optimizeForSpeed=True, **clip)
        return base64.b64decode(drawn['data'])

    def paper(self, wide, high):
        """The page that is shown as a PDF, on sheets of this size in inches, turned as its rules say."""
        printed = self.call('Page.printToPDF', paperWidth=wide, paperHeight=high, preferCSSPageSize=True)
        return base64.b64decode(printed['data'])
